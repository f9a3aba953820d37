#!/usr/bin/env bash
# `marker bake` over documents of sections with a heading, a list and a reference each, of 10,000 and 100,000 elements: its
# time as a ratio to `marker dump` of the same document, and the peak memory of both. Ends with status 1 where a ratio of
# times is past 1.5, or where it takes more memory than the dump, by more than a twentieth.
#   bench/bake.sh [ELEMENTS..]
set -eu
here=$(cd "$(dirname "$0")/.." && pwd)
"$here/marker" --build
work=$(mktemp -d)
trap 'rm -rf "$work"' EXIT
cd "$work"
PYTHONPATH=$here/bench python3 - "$here/crates/marker/out/marker" "${@:-}" <<'PY'
import sys
from seconds import peak_mebibytes, ratio, seconds
from section_pages import write_files

program = sys.argv[1]
sizes = [int(word) for word in sys.argv[2:] if word] or [10_000, 100_000]
is_past = False
for size in sizes:
    write_files(size)
    files = "document.xhtml", "sheet.css"
    dump, bake = (seconds(program, form, *files) for form in ("dump", "bake"))
    of_dump, of_bake = (peak_mebibytes(program, form, *files) for form in ("dump", "bake"))
    times = ratio(bake, dump)
    is_past = is_past or times > 1.5 or of_bake > 1.05 * of_dump
    print(f"{size} elements: {bake:.3f} s, {times:.2f} times the dump; {of_bake:.0f} MiB, the dump {of_dump:.0f} MiB", flush=True)
sys.exit(is_past)
PY
