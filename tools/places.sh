#!/usr/bin/env bash
# Counts the places of src/ that docs/DESIGN-PASS.md speaks of, point by point; `places.sh -l` lists them.
set -uo pipefail
cd "$(dirname "${BASH_SOURCE[0]}")/.."
list=${1:-}
count() {
    local name=$1 found
    found=$(cat)
    printf '%-62s %d\n' "$name" "$(grep -c . <<<"$found")"
    if [ "$list" = -l ] && [ -n "$found" ]; then sed 's/^/    /' <<<"$found"; fi
}
in_src() { grep -rnE "$1" crates/*/src --include=*.rt; }

in_src '^(pub(\(crate\))? )?enum ' | count '1a enums of our own, by reading those of the shape'
grep -rnA1 -E 'let (Some|Ok|Err)\(?.*= .*else \{$' crates/*/src | grep -E 'return (None|Err|FAULT|false|Ok\(false\)|Heard|Told::No|Reply|refused)' |
    count '1b `let .. else` that hands on None or an error'
in_src '(Err\(_\)|Ok\(\(\)\)) =>|None => (return )?(None|Err)|Ok\([a-z]+\) => Ok\([a-z]+\),' | count '1c arms that hand on a value or an error'
in_src 'Result<[^<>]*, u(8|16|32|64)>|^ +(No|Looks|Refused|Over)\(|^ +(pub )?(reply|end|why|number): u64|end: u64|(kind|why|reply): u64[,)]' |
    count '1d numbers for kinds and refusals'
in_src 'fn [a-z_]+(<[^>]*>)?\(.*&mut .*\) -> (io::Result<|Result<)?bool|^ +(shown|stuck): bool' | count '1e flags: done or not, or beside a value'
tools/twins.sh 6 | grep '^D' | count '2  pairs of places that repeat one another (tools/twins.sh)'
in_src '^ *while |^ *for [_a-z]+ in \(?[0-9a-z_A-Z.]+\.\.' | count '3  `while`, and `for` over a range of numbers'
in_src 'fn (is|flag|words|spelled|number|numbered|number_of|fault_text|ending|op_of|unread|[a-z_]*_(number|numbered|named|name))\(' |
    count '4  equality, conversion and printing by hand'
grep -rhoE '^ *requires.*' crates/*/src | sed -E 's/^ *requires( [a-z_]+)? //' | sort | uniq -c | awk '$1>=3' | count '5a facts that three or more `requires` state'
grep -rhoE '^ *requires.*' crates/*/src | sed -E 's/^ *requires( [a-z_]+)? //' | sort | uniq -c | awk '$1>=3 {for (i = 0; i < $1; i++) print}' |
    count '5b the clauses that state them'
in_src '^ *(pub(\(crate\))? )?(count|put|next): (u8|usize|u64),|\[(Test|Break|Instr|u64); [0-9]+\]' | count '6  arrays and rows with a length beside'
in_src 'match (kind|tag|phase|mnemonic|i|told|order|verb|event|instr|request|number)( |$)' | count '7  switches, by reading those on which step to run'
git ls-files -z 'crates/*/proofs/*.antt' | xargs -0 cat | count '8a lines of proof'
git ls-files -z 'crates/*Answers.antt' | xargs -0 grep -hE '^pub [a-z]' | count '8b answers'
