#!/usr/bin/env bash
# Tries by force that an edit changes no style outside of its reach: small documents, sheets and edits are made up at
# random, and the styles of all elements before an edit are compared with those after it. It is proved
# (`untouched_elements_keep_their_styles` in style_reach); here the built program says where an edit reaches and which styles
# elements have, the one without the other. The script says how many edits of which kind had which reach; how many elements
# there were in the edited trees, where edits reach beside these, and outside; and how many of each had other styles
# afterwards. It ends with status 1 where a style outside changed, which it shows, or where none changed that edits reach.
#   bench/reach.sh [PROGRAM] [EDITS [SEED]]      the program of the crate benchmarks where none is named; 100,000 edits,
#                                                in whole documents of 13, and seed 1
set -eu
here=$(cd "$(dirname "$0")/.." && pwd)
if [ $# -gt 0 ] && [[ ! $1 =~ ^[0-9]+$ ]]; then
  program=$(realpath "$1")
  shift
else
  (cd "$here/crates/benchmarks" && rt run -- wide 3 to) >/dev/null # builds it, if need be
  program=$here/crates/benchmarks/out/benchmarks
fi
work=$(mktemp -d)
trap 'rm -rf "$work"' EXIT
python3 "$here/bench/reach.py" make "${1:-100000}" "${2:-1}" >"$work/lines.txt"
"$program" show-reaches <"$work/lines.txt" >"$work/answers.txt"
python3 "$here/bench/reach.py" report "$work/lines.txt" "$work/answers.txt"
