#!/bin/sh
# Runs the program on the folders of this folder before any proof: a first look in about a minute, at unproved code. With
# --proved it builds the program first, which proves every crate that it stands on (many minutes at first).
# With a folder's name it runs that one alone: examples/run.sh [--proved] off_by_one
cd "$(dirname "$0")/.." || exit 1
PATH="$PATH:/opt/rattle/bin"
[ "$1" = --proved ] && { proved=yes; shift; }
folders=${1:-swapped_sum longer_way off_by_one wrong_register compiled_difference summed_words incremented_words vectorised_words counted_bits}

# the files of a folder, in the order of the arguments
files() {
  case $1 in
    *_words) echo gcc.s admission tests.json ;;
    *_bits) echo gcc.s ;;
    *) echo left.s right.s ;;
  esac
}

# the arguments of a folder, one a line, where each file's name is prefixed
arguments() {
  case $1 in
    *_words) printf '%s\n' run "$2gcc.s" f "$2admission" "$2tests.json" ;;
    *_bits) printf '%s\n' show "$2gcc.s" f ;;
    *) printf '%s\n' decide "$2left.s" f "$2right.s" g ;;
  esac
}

if [ -n "$proved" ]; then
  echo "building and proving ..." >&2
  (cd crates/align && rt run -- decide) >/dev/null 2>&1
  [ -x crates/align/out/align ] || { echo "not built: rt run in crates/align says why" >&2; exit 1; }
  for folder in $folders; do
    # shellcheck disable=SC2046
    set -- $(arguments "$folder" "examples/$folder/")
    echo "align $*"
    crates/align/out/align "$@"
    echo "status $?"
  done
  exit
fi
cases=$(mktemp -d)
trap 'rm -rf "$cases"' EXIT
data=
for folder in $folders; do
  : >"$cases/$folder"
  arguments "$folder" "$folder." >"$cases/$folder.args"
  for file in $(files "$folder"); do
    data="$data --data $folder.$file=../../examples/$folder/$file"
  done
done
# shellcheck disable=SC2086
cd crates/align && rt try --cases "$cases" $data
