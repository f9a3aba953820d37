#!/usr/bin/env bash
# How reading a document grows with its length: several kinds of document at two sizes, the second twice
# the first, and as a ratio to `xmllint --noout`. A ratio near 2 is linear growth.
#   bench/documents.sh [BYTES]      the larger size, 16 MiB by default
set -eu
here=$(cd "$(dirname "$0")/.." && pwd)
command -v xmllint >/dev/null || { apt-get update -qq && apt-get install -y -qq libxml2-utils; } >/dev/null
"$here/marker" --build
work=$(mktemp -d)
trap 'rm -rf "$work"' EXIT
cd "$work"
PYTHONPATH=$here/bench python3 - "$here/crates/marker/out/marker" "${1:-16777216}" <<'PY'
import sys
from seconds import seconds, ratio

program, length = sys.argv[1], int(sys.argv[2])
open("empty.css", "w").close()
texts = {
    "one text": lambda n: "<p>" + "a" * (n - 7) + "</p>",
    "one attribute's value": lambda n: '<p a="' + "a" * (n - 9) + '"/>',
    "empty elements": lambda n: "<p>" + "<a/>" * ((n - 7) // 4) + "</p>",
    "elements with an attribute": lambda n: "<p>" + '<a b="c"/>' * ((n - 7) // 10) + "</p>",
    "one element's attributes": lambda n: "<p" + "".join(f' a{k}=""' for k in range(n // 12)) + "/>",
    "nested elements": lambda n: "<b>" * (n // 7) + "</b>" * (n // 7),
    "references": lambda n: "<p>" + "&amp;&#65;" * ((n - 7) // 10) + "</p>",
}
for name, make in texts.items():
    taken = []
    for size in length // 2, length:
        with open("document.xhtml", "w") as file:
            file.write(make(size))
        taken.append(seconds(program, "dump", "document.xhtml", "empty.css"))
    # xmllint compares each attribute of an element with all others, so it may not end in time there.
    other = seconds("xmllint", "--huge", "--noout", "document.xhtml", statuses=range(256), most=20)
    beside = "xmllint --noout took over 20 s" if other is None else f"{taken[1] / other:.2f} times xmllint --noout"
    print(f"{name}, {length} bytes: {taken[1]:.3f} s, {ratio(taken[1], taken[0]):.2f} times that of half as many, {beside}")
PY
