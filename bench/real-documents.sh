#!/usr/bin/env bash
# Reads XHTML files of several makers, and dumps them under an empty sheet: documents in DocBook's, Publican's,
# Sphinx's, Docutils' and AsciiDoc's XHTML, which packages of Debian carry, some of them in an EPUB. It prints how
# many of each package are read, how many of these have style elements and style attributes, and how many texts
# they have in all; and each that is refused, with its place. Each that is read is baked too, under a sheet that numbers
# its headings and items, and Python's XML parser, where it can read the document, must find the same document there but
# for what was put in; it ends with status 1 where it does not. The packages are unpacked in a folder of their own and
# not installed.
#   bench/real-documents.sh [FILES]      at most so many files of each package, 40 by default
set -eu
here=$(cd "$(dirname "$0")/.." && pwd)
most=${1:-40}
"$here/marker" --build
work=$(mktemp -d)
trap 'rm -rf "$work"' EXIT
cd "$work"
: >empty.css
cat >numbers.css <<'CSS'
body { counter-reset: heading } h1, h2, h3 { counter-increment: heading }
h1::before, h2::before, h3::before { content: counter(heading) ". " } a::after { content: " <&>" }
CSS
failed=0
apt-get update -qq || true
for package in debian-reference-en debian-handbook debian-policy developers-reference docutils-doc git-doc; do
  apt-get download -qq -o APT::Sandbox::User=root "$package" >/dev/null
  mkdir "$package"
  dpkg -x "$package"_*.deb "$package"
  find "$package" -name '*.epub' -exec python3 -c '
import sys, zipfile
for name in sys.argv[1:]:
    zipfile.ZipFile(name).extractall(name + ".files")' {} +
  read=0
  refused=0
  elements=0
  attributes=0
  texts=0
  : >read.list
  while IFS= read -r file; do
    # The XHTML of an EPUB, and HTML that says that it is XHTML.
    case $file in *.xhtml) ;; *) head -c 300 "$file" | grep -q 'DTD XHTML' || continue ;; esac
    status=0
    "$here/crates/marker/out/marker" dump "$file" empty.css >lines 2>line || status=$?
    case $status in
      0)
        read=$((read + 1))
        texts=$((texts + $(wc -l <lines)))
        ! grep -q '<style' "$file" || elements=$((elements + 1))
        ! grep -q ' style="' "$file" || attributes=$((attributes + 1))
        printf '%s\0' "$file" >>read.list
        ;;
      *)
        refused=$((refused + 1))
        sed "s#^#$package: #" line
        ;;
    esac
    [ $((read + refused)) -lt "$most" ] || break
  done < <(find "$package" \( -name '*.xhtml' -o -name '*.html' \) -type f | sort)
  echo "$package: $read read, $elements with style elements, $attributes with style attributes; $texts texts; $refused refused"
  xargs -0r python3 "$here/tests/baked.py" "$here/crates/marker/out/marker" numbers.css <read.list || failed=1
done
exit "$failed"
