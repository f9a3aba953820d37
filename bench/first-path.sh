#!/usr/bin/env bash
# The time of `marker dump` over one flat list, as a ratio to `xmllint --noout` on the same file, and to a
# file of half the size, to see that it grows with the length.
#   bench/first-path.sh [BYTES]      the length of the list's file, 16 MiB by default
set -eu
here=$(cd "$(dirname "$0")/.." && pwd)
command -v xmllint >/dev/null || { apt-get update -qq && apt-get install -y -qq libxml2-utils; } >/dev/null
"$here/marker" --build
work=$(mktemp -d)
trap 'rm -rf "$work"' EXIT
cd "$work"
PYTHONPATH=$here/bench python3 - "$here/crates/marker/out/marker" "${1:-16777216}" <<'PY'
import sys
from seconds import seconds, ratio

program, length = sys.argv[1], int(sys.argv[2])
open("empty.css", "w").close()
for name, size in ("whole", length), ("half", length // 2):
    with open(f"{name}.xhtml", "w") as file:
        file.write("<ol>" + "<li>a</li>" * ((size - 9) // 10) + "</ol>")
whole = seconds(program, "dump", "whole.xhtml", "empty.css")
half = seconds(program, "dump", "half.xhtml", "empty.css")
other = seconds("xmllint", "--huge", "--noout", "whole.xhtml")
print(f"marker dump: {whole:.3f} s, {whole / other:.2f} times xmllint --noout ({other:.3f} s)")
print(f"twice the length takes {ratio(whole, half):.2f} times as long")
PY
