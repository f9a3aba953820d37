#!/usr/bin/env bash
# Compares our tokens, rules and declarations with the public suite of CSS parsing tests, on which tinycss2 and
# Servo's cssparser stand too, as Debian's python-tinycss2-common carries it. The package is unpacked in a
# folder of its own and not installed. It ends with status 1 where a case differs.
#   bench/css-parsing-tests.sh [FOLDER]      with the suite's JSON in this folder, nothing is fetched
set -eu
here=$(cd "$(dirname "$0")/.." && pwd)
(cd "$here/crates/benchmarks" && rt run -- wide 3 to) >/dev/null # builds it, if need be
work=$(mktemp -d)
trap 'rm -rf "$work"' EXIT
folder=${1:-}
if [ -z "$folder" ]; then
  cd "$work"
  apt-get update -qq || true
  apt-get download -qq -o APT::Sandbox::User=root python-tinycss2-common 2>/dev/null
  dpkg -x python-tinycss2-common_*.deb "$work"
  folder=$work/usr/share/python-tinycss2-common/css-parsing-tests
fi
PYTHONPATH=$here/bench python3 "$here/bench/css_parsing_tests.py" "$here/crates/benchmarks/out/benchmarks" "$folder"
