#!/usr/bin/env bash
# What the parts of `marker dump` take, over prose and over sections of short elements: of its memory at the peak, in bytes a
# byte of the document, and of its instructions, as a ratio to all those of `xmllint --noout` over the same document. Needs
# valgrind, and xmllint.
#   bench/parts.sh [PROGRAM] [ELEMENTS]      the repository's program, and pages of 10,000 elements, where none is named
set -eu
here=$(cd "$(dirname "$0")/.." && pwd)
for each in valgrind xmllint; do
  command -v "$each" >/dev/null || { echo "bench/parts.sh: no $each here" >&2; exit 1; }
done
if [ $# -gt 0 ] && [[ ! $1 =~ ^[0-9]+$ ]]; then
  program=$(realpath "$1")
  shift
else
  "$here/marker" --build
  program=$here/crates/marker/out/marker
fi
work=$(mktemp -d)
trap 'rm -rf "$work"' EXIT
cd "$work"
PYTHONPATH=$here/bench python3 "$here/bench/parts.py" "$program" "${1:-10000}"
