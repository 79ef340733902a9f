#!/usr/bin/env bash
# Brings a checkout of the older Rattle's spelling to today's: the toolchain's own script, and then tools/snake.py, which respells the names that are
# this repository's own. Run once at the top of a clean checkout, with everything committed.
# The toolchain's script passes over folders named `target`, as build folders; here that is the name of a crate, so the name is taken out of its lists.
set -euo pipefail
kit=$(dirname "$(rt doc)")
here=$(cd "$(dirname "${BASH_SOURCE[0]}")" && pwd)
work=$(mktemp -d)
trap 'rm -rf "$work"' EXIT
cp -r "$kit/port" "$work/port"
chmod -R u+w "$work/port"
grep -rlE '"target"' --include=*.py "$work/port/notes" | xargs sed -i 's/"target"/"target-of-cargo"/g'
sed -i "s|^KIT = .*|KIT = \"$kit\"|" "$work/port/port.py"
python3 "$work/port/port.py"
if [ -f "$here/snake.py" ]; then python3 "$here/snake.py"; fi
