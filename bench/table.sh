#!/usr/bin/env bash
# How long a table takes, by the number of its values: 5,000 and 10,000 values in a style of each system,
# beside a table of one value, which tells what the start of the program and the sheet cost.
# A ratio near 2 is linear growth.
#   bench/table.sh
set -eu
here=$(cd "$(dirname "$0")/.." && pwd)
work=$(mktemp -d)
trap 'rm -rf "$work"' EXIT
cd "$work"
cat >styles.css <<'CSS'
@counter-style cyclic { system: cyclic; symbols: a b c }
@counter-style fixed { system: fixed 1; symbols: x y z }
@counter-style symbolic { system: symbolic; symbols: "*" "+" }
@counter-style alphabetic { system: alphabetic; symbols: a b }
@counter-style numeric { system: numeric; symbols: "0" "1" }
@counter-style additive { system: additive; additive-symbols: 50 l, 40 xl, 10 x, 9 ix, 5 v, 4 iv, 1 i }
@counter-style padded { system: extends decimal; pad: 12 "0" }
CSS
"$here/marker" --build
PYTHONPATH=$here/bench python3 - "$here/crates/marker/out/marker" <<'PY'
import sys
from seconds import seconds, ratio

program = sys.argv[1]
start = seconds(program, "table", "styles.css", "decimal", "0", "0")
print(f"one value of decimal: {start:.4f} s")
for style in "cyclic fixed symbolic alphabetic numeric additive padded".split():
    half, whole = (seconds(program, "table", "styles.css", style, "1", str(values)) for values in (5000, 10000))
    print(f"{style}: {whole:.4f} s for 10,000 values; {ratio(whole, half):.2f} times that of 5,000")
PY
