#!/usr/bin/env bash
# How references grow: to one id, to one id that as many elements have, and each to an id of its own; 50,000 of them and
# half as many. A ratio near 2 is linear growth.
#   bench/references.sh [REFERENCES]
set -eu
here=$(cd "$(dirname "$0")/.." && pwd)
"$here/marker" --build
work=$(mktemp -d)
trap 'rm -rf "$work"' EXIT
cd "$work"
PYTHONPATH=$here/bench python3 - "$here/crates/marker/out/marker" "${1:-50000}" <<'PY'
import sys
from seconds import ratio, seconds

program, references = sys.argv[1], int(sys.argv[2])
with open("sheet.css", "w") as file:
    file.write('i{counter-increment:n}a::after{content:target-counter(attr(href),n)" "target-text(attr(href))}')


def put(name, count, targets, holders=1):
    """A document of references to so many ids, each of which so many elements have."""
    with open(name, "w") as file:
        file.write("<body>")
        for k in range(targets):
            file.write(f'<i id="t{k}">x</i>' * holders)
        file.write("".join(f'<a href="#t{k % targets}"/>' for k in range(count)))
        file.write("</body>")


for what, targets, holders in (
    ("one id", lambda count: 1, lambda count: 1),
    ("one id of as many elements", lambda count: 1, lambda count: count),
    ("an id each", lambda count: count, lambda count: 1),
):
    for name, count in ("whole.xhtml", references), ("half.xhtml", references // 2):
        put(name, count, targets(count), holders(count))
    whole = seconds(program, "dump", "whole.xhtml", "sheet.css")
    half = seconds(program, "dump", "half.xhtml", "sheet.css")
    print(f"{references} references to {what}: {whole:.3f} s, {ratio(whole, half):.2f} times half as many")
PY
