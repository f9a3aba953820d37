#!/usr/bin/env bash
# What each crate costs to prove from nothing, and the function of it that costs most: seconds of processor time at one
# job, as a table. A second of a crate's check belongs to the function, or to the definitions or lemmas, of which the
# check next keeps a part. Everything is proved in a copy, in which nothing counts that was proved before; this hides the
# kit's folder of what was kept, and needs root.
#   bench/proofs.sh            every crate; over an hour
#   bench/proofs.sh CRATE..    these alone; those below them are proved, and not timed
#   bench/proofs.sh --tests CRATE..    each function of these and of their tests, in the proof that has the tests
set -eu
here=$(cd "$(dirname "$0")/.." && pwd)
kept=$(dirname "$(dirname "$(rt doc)")")/rattle-kept
work=$(mktemp -d)
trap 'rm -rf "$work"' EXIT
mkdir -p "$kept" "$work/kept"
(cd "$here" && tar --exclude=out -cf - crates crates.txt HANDLES) | tar -xf - -C "$work"
unshare --mount bash -c 'mount --bind "$1/kept" "$2" && exec python3 "$3/bench/proofs.py" "$1" "${@:4}"' bash "$work" "$kept" "$here" "$@"
