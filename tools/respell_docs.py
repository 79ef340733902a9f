#!/usr/bin/env python3
"""Respells the names of definitions and lemmas in README.md and docs/, between backquotes, wherever today's spelling of one stands in a crate.

usage: python3 tools/respell_docs.py    at the top of a checkout, after tools/respell.sh
"""

import glob
import os
import re

WORD = re.compile(r"[^\s(){}\[\],;.:«»|λ⌜⌝`\"]+")


def words():
    found = set()
    for folder, dirs, files in os.walk("crates"):
        dirs[:] = [d for d in dirs if d != "out"]
        for f in files:
            if f.endswith((".rt", ".antt")):
                with open(os.path.join(folder, f), encoding="utf-8") as it:
                    found.update(WORD.findall(it.read()))
    return found


def today(name, found):
    if "-" not in name or name in found:
        return name
    snake = name.replace("-", "_")
    camel = "".join(part[:1].upper() + part[1:] for part in name.split("-"))
    new = camel if name[0].isupper() else snake
    return new if new in found else name


def main():
    found = words()
    for path in ["README.md", *sorted(glob.glob("docs/*.md"))]:
        if os.path.basename(path) in ("LANDINGS.md", "PORT.md"):
            continue
        with open(path, encoding="utf-8") as f:
            old = f.read()
        new = re.sub(r"`[^`\n]+`", lambda m: WORD.sub(lambda k: today(k.group(0), found), m.group(0)), old)
        if new != old:
            with open(path, "w", encoding="utf-8") as f:
                f.write(new)


main()
