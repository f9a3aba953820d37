#!/usr/bin/env bash
# How reading the tokens of a sheet grows with its length: several kinds of text at two sizes, the second
# twice the first, with the most memory that each took. A ratio near 2 is linear growth.
#   bench/tokens.sh [BYTES]      the larger size, 16 MiB by default
set -eu
here=$(cd "$(dirname "$0")/.." && pwd)
(cd "$here/crates/benchmarks" && rt run -- wide 3 to) >/dev/null
work=$(mktemp -d)
trap 'rm -rf "$work"' EXIT
cd "$work"
PYTHONPATH=$here/bench python3 - "$here/crates/benchmarks/out/benchmarks" "${1:-16777216}" <<'PY'
import sys
from seconds import peak_by_time, ratio, seconds

program, length = sys.argv[1], int(sys.argv[2])
sheet = """/* house style */
@counter-style note { system: cyclic; symbols: "*" "\\2020 " "\\2021 "; suffix: " " }
body { counter-reset: sec fig; margin: 0 auto }
h2::before { content: counter(sec, upper-roman) ". " }
a.ref::after { content: " (Fig. " target-counter(attr(href), fig) ")" }
"""
texts = {
    "brackets": lambda n: "(" * n,
    "one string": lambda n: '"' + "a" * (n - 2) + '"',
    "one comment": lambda n: "/*" + "a" * (n - 4) + "*/",
    "escapes": lambda n: "\\61 " * (n // 4),
    "a real sheet": lambda n: sheet * (n // len(sheet)),
}
for name, make in texts.items():
    taken = []
    for size in length // 2, length:
        with open("sheet.css", "w") as file:
            file.write(make(size))
        taken.append(seconds(program, "tokens", "sheet.css"))
    memory = peak_by_time(program, "tokens", "sheet.css")
    print(f"{name}, {length} bytes: {taken[1]:.3f} s, {memory}; {ratio(taken[1], taken[0]):.2f} times that of half as many")
PY
