#!/usr/bin/env bash
# Counts places of src/ that repeat one another: the files are laid out under a name that the tool `duplicates` reads, and it lists the pairs.
set -euo pipefail
cd "$(dirname "${BASH_SOURCE[0]}")/.."
work=$(mktemp -d)
trap 'rm -rf "$work"' EXIT
while read -r file; do
    mkdir -p "$work/$(dirname "$file")"
    cp "$file" "$work/${file%.rt}.rs"
done < <(git ls-files 'crates/*/src/*.rt')
duplicates --repo "$work/crates" --min-lines "${1:-6}" --most 200 --seconds 120
