#!/usr/bin/env bash
# How the arena's calls grow with the document: each over an element with many children and over many
# nested elements, at two sizes, the second twice the first. The time of building the tree (and, from
# `to` on, the arena) alone is taken off. A ratio near 2 is linear growth.
#   bench/arena.sh [NODES]      the smaller size, 500,000 by default
set -eu
here=$(cd "$(dirname "$0")/.." && pwd)
(cd "$here/crates/benchmarks" && rt run -- wide 3 to) >/dev/null
PYTHONPATH=$here/bench python3 - "$here/crates/benchmarks/out/benchmarks" "${1:-500000}" <<'PY'
import sys
from seconds import seconds, ratio

program, size = sys.argv[1], int(sys.argv[2])
for shape in "wide", "deep":
    taken = {}
    for work in "tree", "from", "to", "walk", "precedes":
        for times in 1, 2:
            taken[work, times] = seconds(program, shape, str(size * times), work)
    before = {"from": "tree", "to": "from", "walk": "from", "precedes": "walk"}
    names = {"from": "from_tree", "to": "to_tree", "walk": "a walk over all nodes by links", "precedes": "precedes, 100 times, root and last node"}
    for work, base in before.items():
        half, whole = (taken[work, times] - taken[base, times] for times in (1, 2))
        print(f"{shape}, {size * 2} nodes: {names[work]}: {whole:.3f} s, {ratio(whole, half):.2f} times that of {size} nodes ({half:.3f} s)")
PY
