#!/usr/bin/env bash
# How matching grows with the document and with the selector: selectors of 30 compounds over 1,000 elements and
# over twice as many, and of 15 compounds. None matches, and that shows only once all ancestors, or all earlier
# siblings, have been looked at; a matcher that tried each choice of them would not end. The time of making the
# document is taken off. Descendant and later-sibling combinators look at each element once, however many they
# are, so half the compounds take as long; a row of `>` is tried again at each ancestor. A ratio near 2 is linear.
# Then the same selectors of two and three compounds over all of 20,000 elements and of twice as many, once each, where what
# is asked for is kept.
#   bench/matching.sh [ELEMENTS] [COMPOUNDS]
set -eu
here=$(cd "$(dirname "$0")/.." && pwd)
(cd "$here/crates/benchmarks" && rt run -- wide 3 to) >/dev/null
PYTHONPATH=$here/bench python3 - "$here/crates/benchmarks/out/benchmarks" "${1:-1000}" "${2:-30}" <<'PY'
import sys
from seconds import seconds, ratio

program, elements, compounds = sys.argv[1], int(sys.argv[2]), int(sys.argv[3])
works = {
    "descendant": ("deep", "b * * .. *, nested elements"),
    "child": ("deep", "b > * > .. > * *, nested elements"),
    "later": ("wide", "b ~ * ~ .. ~ *, siblings"),
}


def taken(work, elements, compounds):
    """The time of a thousand matches."""
    walk = seconds(program, works[work][0], str(elements), "walk")
    return seconds(program, "matching", work, str(elements), str(compounds)) - walk


for work, (_, name) in works.items():
    once, twice, half = taken(work, elements, compounds), taken(work, elements * 2, compounds), taken(work, elements, compounds // 2)
    print(f"{name}: {compounds} compounds over {elements} elements: {once:.3f} s for 1,000 matches")
    print(f"  over twice as many elements {ratio(twice, once):.2f} times that, {ratio(once, half):.2f} times that of half the compounds")

ALL = 20_000


def taken_by_all(work, elements, compounds):
    """The time of matching each once."""
    walk = seconds(program, works[work][0], str(elements), "walk")
    return seconds(program, "matching-all", work, str(elements), str(compounds)) - walk


for work, (_, name) in works.items():
    for compounds in 2, 3:
        once, twice = taken_by_all(work, ALL, compounds), taken_by_all(work, ALL * 2, compounds)
        print(f"{name}, each of {ALL} once, {compounds} compounds: {once:.3f} s, over twice as many {ratio(twice, once):.2f} times that")
PY
