#!/usr/bin/env bash
# `marker dump` over documents of sections with a heading, a list and a reference each, of 1,000, 10,000 and
# 100,000 elements: its time as a ratio to the size before and to `xmllint --noout`, its peak memory, and, where
# WeasyPrint is installed, its time as a ratio to WeasyPrint's building of boxes.
#   bench/dump.sh [ELEMENTS..]
set -eu
here=$(cd "$(dirname "$0")/.." && pwd)
command -v xmllint >/dev/null || { apt-get update -qq && apt-get install -y -qq libxml2-utils; } >/dev/null
"$here/marker" --build
work=$(mktemp -d)
trap 'rm -rf "$work"' EXIT
cd "$work"
PYTHONPATH=$here/bench python3 - "$here/crates/marker/out/marker" "${@:-}" <<'PY'
import sys
import time
from seconds import peak_mebibytes, ratio, seconds
from section_pages import SHEET, write_files

program = sys.argv[1]
sizes = [int(word) for word in sys.argv[2:] if word] or [1_000, 10_000, 100_000]


def weasyprint_seconds(path):
    try:
        from weasyprint import CSS, HTML
    except ImportError:
        return None
    start = time.process_time()
    HTML(filename=path).render(stylesheets=[CSS(string=SHEET)])
    return time.process_time() - start


before = None
for size in sizes:
    write_files(size)
    words = (program, "dump", "document.xhtml", "sheet.css")
    taken = seconds(*words)
    parsing = seconds("xmllint", "--huge", "--noout", "document.xhtml")
    line = f"{size} elements: {taken:.3f} s, {peak_mebibytes(*words):.0f} MiB, {ratio(taken, parsing):.1f} times xmllint --noout"
    if before is not None:
        line += f", {ratio(taken, before[1]):.2f} times that of {before[0]} elements"
    other = weasyprint_seconds("document.xhtml") if size <= 10_000 else None
    if other is not None:
        line += f", {taken / other:.4f} times WeasyPrint's layout ({other:.2f} s)"
    print(line, flush=True)
    before = size, taken
PY
