#!/usr/bin/env bash
# A real book under its own sheet: the chapters of Debian's package debian-handbook as one document, and the sheet that its
# maker, Publican, gives it. It prints how many elements and rules these are, and the time of a dump under the sheet
# beside that under an empty one, so what reading the sheet and giving its styles takes. The package is unpacked in a
# folder of its own and not installed.
#   bench/sheet-of-a-book.sh [PROGRAM]      the repository's program where none is named
set -eu
here=$(cd "$(dirname "$0")/.." && pwd)
if [ $# -gt 0 ]; then
  program=$(realpath "$1")
else
  "$here/marker" --build
  program=$here/crates/marker/out/marker
fi
work=$(mktemp -d)
trap 'rm -rf "$work"' EXIT
cd "$work"
apt-get update -qq || true
apt-get download -qq -o APT::Sandbox::User=root debian-handbook >/dev/null
dpkg -x debian-handbook_*.deb .
PYTHONPATH=$here/bench python3 - "$program" usr/share/doc/debian-handbook/html/en-US <<'PY'
import re
import sys
from pathlib import Path
from seconds import ratio, seconds

program, folder = sys.argv[1], Path(sys.argv[2])
bodies = [re.search(r"<body[^>]*>(.*)</body>", path.read_text(), re.S)[1] for path in sorted(folder.glob("*.html"))]
files = {
    "document.xhtml": "<html><body>" + "".join(f"<div>{body}</div>" for body in bodies) + "</body></html>",
    "nothing.xhtml": "<html/>",
    "sheet.css": (folder / "Common_Content/css/common.css").read_text(),
    "empty.css": "",
}
for name, text in files.items():
    Path(name).write_text(text)

elements, rules = len(re.findall(r"<[a-zA-Z]", files["document.xhtml"])), files["sheet.css"].count("{")
bare = seconds(program, "dump", "document.xhtml", "empty.css")
styled = seconds(program, "dump", "document.xhtml", "sheet.css")
reading = seconds(program, "dump", "nothing.xhtml", "sheet.css")
print(f"{len(bodies)} chapters, {elements} elements, {rules} rules: {styled:.3f} s, {ratio(styled, bare):.2f} times that under an empty sheet")
more = styled - bare - reading
print(f"of that reading the sheet {reading:.3f} s, and its rules {more:.3f} s: {more / elements / rules * 1e9:.1f} ns a rule and element")
PY
