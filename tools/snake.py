#!/usr/bin/env python3
"""Respells this repository's own definitions and lemmas as today's Rattle spells names: words in snake case, types and facts in upper camel case.

usage: python3 tools/snake.py [--list]    at the top of a checkout, right after the toolchain's own script

A name is the repository's own if a file of specs/ or proofs/ declares it: a signature, a record or data type, a field, a constructor, a module. The names
of goals, which the toolchain makes, stay. In src/ only clauses are read, and no comment or string anywhere. With --list nothing is written, and each
name is printed beside its new one.
"""

import os
import re
import sys

TOP = "crates"
# Where a file would have two things of one name, one of them is imported under another first.
BEFORE = {"driver/proofs/Serving.antt": [("Takes-up}", "Takes-up as Took}"), ("Takes-up k", "Took k")]}
SIGNATURE = re.compile(r"^\s*(?:(?:pub|abbrev|unfoldable)\s+)*([^\s:(){}\[\],;.«»|λ]+(?:\s+[^\s:(){}\[\],;.«»|λ]+)*)\s*:\s(.*)$")
NAMED = re.compile(r"^\s*(?:pub\s+)?(?:data|record|ruleset)\s+([^\s:(){}\[\],;.«»|λ]+)")
MADE = re.compile(r"\b(?:goal|need|given)\.")
# The fields of declared records, filled by fields().
FIELDS = set()
NAME = re.compile(r"[^\s(){}\[\],;.:«»|λ⌜⌝`\"]+")


def texts(ends):
    for folder, dirs, files in os.walk(TOP):
        dirs[:] = sorted(d for d in dirs if d != "out")
        for f in sorted(files):
            if f.endswith(ends):
                yield os.path.join(folder, f)


def read(path):
    with open(path, encoding="utf-8") as f:
        return f.read()


def own():
    """The names with a dash or a prime that the repository declares."""
    found, made = set(), set()
    for path in texts(".antt"):
        for line in read(path).split("\n"):
            bare = line.split("--")[0] if line.lstrip().startswith("--") else line
            if bare.lstrip().startswith(("use ", "unfolding ", "--")):
                continue
            m = NAMED.match(bare)
            if m:
                found.add(m.group(1))
                continue
            m = SIGNATURE.match(bare)
            if m and "=" not in m.group(1):
                for name in m.group(1).split():
                    (made if MADE.search(m.group(2)) else found).add(name)
    return {n for n in found - made if "-" in n.strip("-") or "′" in n}


def new(name):
    name = name.replace("′", "'")
    if name[0].isupper():
        return "".join(part[:1].upper() + part[1:] for part in name.split("-"))
    return name.replace("-", "_")


def respell(text, table):
    """The text with each of the names respelled, but a step or a goal behind a dot after a variable."""

    def one(m):
        name = m.group(0)
        if name not in table:
            return name
        before = text[: m.start()]
        if before.endswith("."):
            path = re.search(r"([^\s(){}\[\],;:«»|λ]+)\.$", before)
            last = path.group(1).split(".")[-1] if path else ""
            if last and not last[0].isupper() and name not in FIELDS:
                return name
        return table[name]

    return NAME.sub(one, text)


def fields():
    """The fields of records that are declared, which stand behind a dot."""
    for path in texts(".antt"):
        inside = False
        for line in read(path).split("\n"):
            if re.match(r"^\s*(?:pub\s+)?record\s", line):
                inside = True
                continue
            if inside and not line.startswith(" "):
                inside = False
            if inside:
                m = SIGNATURE.match(line)
                if m:
                    FIELDS.update(m.group(1).split())


def antt(text, table):
    return "\n".join(l if l.lstrip().startswith("--") else respell(l, table) for l in text.split("\n"))


def clauses(text, table):
    """Code with its clauses respelled: what stands behind `ghost`, `requires`, `ensures` and `invariant`, to the end of its braces."""
    out, at = [], 0
    for m in re.finditer(r"\bghost use [^;]*;|\b(?:ghost|requires|ensures|invariant)\b[^{};\"\n]*\{", text):
        if m.start() < at:
            continue
        end = m.end()
        if text[end - 1] == "{":
            depth = 1
            while depth:
                depth += {"{": 1, "}": -1}.get(text[end], 0)
                end += 1
        out.append(text[at : m.start()] + respell(text[m.start() : end], table))
        at = end
    return "".join(out) + text[at:]


def main():
    names = own()
    fields()
    table = {n: new(n) for n in names}
    if "--list" in sys.argv[1:]:
        for n in sorted(table):
            print(n, table[n])
        return
    for path in texts((".antt", ".rt")):
        before = read(path)
        text = before
        for old, other in BEFORE.get(os.path.relpath(path, TOP), []):
            text = text.replace(old, other)
        turned = (antt if path.endswith(".antt") else clauses)(text, table)
        if turned != before:
            with open(path, "w", encoding="utf-8") as f:
                f.write(turned)


main()
