# For the scripts beside it, which read it: takes the programs off the words, or builds the repository's where none is named, and
# goes into a folder that is there until the script ends. Numbers are no programs.
programs=()
while [ $# -gt 0 ] && [[ ! $1 =~ ^[0-9]+$ ]]; do
  programs+=("$(realpath "$1")")
  shift
done
if [ ${#programs[@]} -eq 0 ]; then
  "$here/marker" --build
  programs=("$here/crates/marker/out/marker")
fi
work=$(mktemp -d)
trap 'rm -rf "$work"' EXIT
cd "$work"
