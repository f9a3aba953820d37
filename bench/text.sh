#!/usr/bin/env bash
# `marker text` over documents of sections with a heading, a list and a reference each, of 10,000 and 100,000 elements: its
# time as a ratio to `marker dump` of the same document, and its peak memory. Ends with status 1 where a ratio is past 1.3.
#   bench/text.sh [ELEMENTS..]
set -eu
here=$(cd "$(dirname "$0")/.." && pwd)
"$here/marker" --build
work=$(mktemp -d)
trap 'rm -rf "$work"' EXIT
cd "$work"
PYTHONPATH=$here/bench python3 - "$here/crates/marker/out/marker" "${@:-}" <<'PY'
import sys
from seconds import peak_mebibytes, ratio, seconds
from section_pages import write_files

program = sys.argv[1]
sizes = [int(word) for word in sys.argv[2:] if word] or [10_000, 100_000]
is_slow = False
for size in sizes:
    write_files(size)
    files = "document.xhtml", "sheet.css"
    dump, text = (seconds(program, form, *files) for form in ("dump", "text"))
    times = ratio(text, dump)
    is_slow = is_slow or times > 1.3
    print(f"{size} elements: {text:.3f} s, {peak_mebibytes(program, 'text', *files):.0f} MiB, {times:.2f} times the dump", flush=True)
sys.exit(is_slow)
PY
