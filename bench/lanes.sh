#!/usr/bin/env bash
# How much faster a class of bytes is searched for by lanes than by a plain loop, in 16 MiB: the ratio of the
# times, for the first place and for the count where there is none (four or more is good), and for runs of 39
# bytes, each passed over by a search of its own, as those of a document are.
#   bench/lanes.sh [TIMES]      how often each search is made, 20 times by default
set -eu
here=$(cd "$(dirname "$0")/.." && pwd)
(cd "$here/crates/benchmarks" && rt run -- lanes first 0) >/dev/null
PYTHONPATH=$here/bench python3 - "$here/crates/benchmarks/out/benchmarks" "${1:-20}" <<'PY'
import sys
from seconds import seconds, ratio

program, times = sys.argv[1:]
for work in "first", "count", "runs":
    start = seconds(program, "lanes", work, "0")
    lanes, plain = (seconds(program, "lanes", word, times) - start for word in (work, work + "-plainly"))
    speed = 16 * int(times) / max(lanes, 0.001) / 1024
    print(f"{work}: {plain:.3f} s plainly, {lanes:.3f} s by lanes ({speed:.1f} GiB a second); ratio {ratio(plain, lanes):.1f}")
PY
