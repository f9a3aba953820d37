#!/usr/bin/env bash
# Hostile input over the built program: it must end with a status of its table and the line of that status, write what
# it should or a front of it, never die of a signal, and take no more time and memory than docs/limits.md says.
# Every run has a stack of 256 KiB. The last line is 'N runs, M wrong', and the status is 1 where one went wrong.
#   bench/hostile.sh [PROGRAM] [PART[=NUMBER]..]      the repository's program and all parts where none is named
# The parts:
#   fronts     every front of a document, of its sheet and of a script
#   requests   each request for memory of a script's run and of a book's refused, one at a time; NUMBER of those of a long
#              script (100)
#   again      a request for memory refused in a test that does 200 edits of 1,000 elements, NUMBER times (100), each
#              another request: an edit that was refused is done again, and then all is as without the refusal
#   devices    each read and each write of a script's run failed, one at a time; and files and output byte by byte
#   limits     large runs with little memory
#   broken     NUMBER runs (2000) over random bytes, files that are cut and joined, and bytes of good files turned over
#   growth     kinds of large input at a size and at twice that: time, memory, and how both grow
#   largest    those that cost time and memory linear in their length, with a file of half of NUMBER MiB and one of
#              NUMBER (16, the most that a file may have): the same; it takes up to 14 GiB of memory
# again proves and builds the tests of the crate hostile_rows first, where they aren't there. requests, again and
# devices need a C compiler, CC or else cc: calls of the C library are failed by a library put before it.
set -eu
here=$(cd "$(dirname "$0")/.." && pwd)
if [ $# -gt 0 ] && [ -x "$1" ]; then
  program=$(realpath "$1")
  shift
else
  "$here/marker" dump "$here/examples/list.xhtml" "$here/examples/empty.css" >/dev/null # builds it, if need be
  program=$here/crates/marker/out/marker
fi
work=$(mktemp -d)
trap 'rm -rf "$work"' EXIT
cp "$program" "$work/program"
cp "$here"/crates/marker/data/* "$work"
cp "$here/crates/marker/stdout" "$work/whole.txt"
cp "$here"/examples/book/*.* "$work"
cd "$work"
PYTHONPATH=$here/bench python3 "$here/bench/hostile.py" "$@"
