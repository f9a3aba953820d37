#!/usr/bin/env bash
# How giving styles grows with the elements and with the rules: 10,000 elements by 1,000 rules, of which one
# matches each element at most, and half of either. The time without rules is taken off. A ratio near 2 is
# linear growth.
#   bench/cascade.sh [ELEMENTS] [RULES]
set -eu
here=$(cd "$(dirname "$0")/.." && pwd)
(cd "$here/crates/benchmarks" && rt run -- wide 3 to) >/dev/null
PYTHONPATH=$here/bench python3 - "$here/crates/benchmarks/out/benchmarks" "${1:-10000}" "${2:-1000}" <<'PY'
import sys
from seconds import seconds, ratio

program, elements, rules = sys.argv[1], int(sys.argv[2]), int(sys.argv[3])


def taken(elements, rules):
    return seconds(program, "styles", str(elements), str(rules)) - seconds(program, "styles", str(elements), "0")


whole = taken(elements, rules)
print(f"{elements} elements by {rules} rules: {whole:.3f} s, {whole / elements / rules * 1e9:.0f} ns a rule and element")
print(f"{ratio(whole, taken(elements // 2, rules)):.2f} times that of half the elements")
print(f"{ratio(whole, taken(elements, rules // 2)):.2f} times that of half the rules")
PY
