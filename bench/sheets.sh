#!/usr/bin/env bash
# How reading a sheet grows with its length: hostile sheets and a real one at two sizes, the second twice
# the first, with the most memory that each took. A ratio near 2 is linear growth.
#   bench/sheets.sh [BYTES]      the larger size, 16 MiB by default
set -eu
here=$(cd "$(dirname "$0")/.." && pwd)
(cd "$here/crates/benchmarks" && rt run -- wide 3 to) >/dev/null
work=$(mktemp -d)
trap 'rm -rf "$work"' EXIT
cd "$work"
PYTHONPATH=$here/bench python3 - "$here/crates/benchmarks/out/benchmarks" "${1:-16777216}" <<'PY'
import subprocess
import sys
from seconds import peak_by_time, ratio, seconds

program, length = sys.argv[1], int(sys.argv[2])
sheet = """/* house style */
@counter-style note { system: cyclic; symbols: "*" "\\2020 " "\\2021 "; suffix: " " }
body { counter-reset: sec fig; margin: 0 auto }
h2::before { content: counter(sec, upper-roman) ". " }
a.ref::after { content: " (Fig. " target-counter(attr(href), fig) ")" }
ul li:not(.x, :first-child)::marker { content: "- " !important }
"""


def repeated(piece):
    return lambda n: piece * (n // len(piece))


texts = {
    "{": repeated("{"),
    "(": repeated("("),
    ":not(": repeated(":not("),
    "a,": repeated("a,"),
    "@x{": repeated("@x{"),
    "}": repeated("}"),
    "a{b:c}": repeated("a{b:c}"),
    "a{b:(;": repeated("a{b:(;"),
    "@x;": repeated("@x;"),
    "declarations in one block": lambda n: "a{" + "content:none;" * (n // 13),
    "!": lambda n: "a{b:" + "!" * n,
    "descriptors in one block": lambda n: "@counter-style x{" + "symbols:a;" * (n // 10),
    "selectors of one rule": lambda n: "a,b " * (n // 4) + "c{}",
    "a real sheet": repeated(sheet),
}
for name, make in texts.items():
    taken = []
    for size in length // 2, length:
        with open("sheet.css", "w") as file:
            file.write(make(size))
        taken.append(seconds(program, "sheet", "sheet.css"))
    memory = peak_by_time(program, "sheet", "sheet.css")
    print(f"{name}, {length} bytes: {taken[1]:.3f} s, {memory}; {ratio(taken[1], taken[0]):.2f} times that of half as many", flush=True)

with open("sheet.css", "w") as file:
    file.write("".join(f".c{i}::before{{content:counter(c{i})}}" for i in range(100000)))
rules = subprocess.run([program, "sheet", "sheet.css"], capture_output=True, text=True).stdout.strip()
print(f"{rules} rules: {seconds(program, 'sheet', 'sheet.css'):.3f} s")
PY
