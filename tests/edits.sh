#!/bin/sh
# Tries the wrong edits that the gate leaves out, those of tests/edits/CRATE/: the prover has to refuse each. They stand in
# a clone of the last commit, in place of all that its crates keep in must-fail/, so the checkout stays as it is; there
# `rt ci` tries them over what it has proved (what an earlier run on this machine proved or refused is not done again).
# Prints each edit that was not refused, and a count; the status is 1 where an edit was not refused, or could not be tried.
#
# usage: tests/edits.sh [--jobs N] [--keep] [CRATE..]
#   CRATE..   crates that have a folder in tests/edits; all of these without
#   --jobs N  how many checks at a time, with one processor each; 2 without
#   --keep    leave the clone and its log, and say where they are
root=$(cd "$(dirname "$0")/.." && pwd) || exit 2
self=$root/tests/edits.sh
PATH="$PATH:/opt/rattle/bin"

jobs=2 keep=
while [ $# -gt 0 ]; do
  case "$1" in
    --jobs) jobs=$2; shift 2 || exit 2 ;;
    --jobs=*) jobs=${1#--jobs=}; shift ;;
    --keep) keep=1; shift ;;
    -*) sed -n '2,/^root=/s/^# \{0,1\}//p' "$self" | sed '$d' >&2; exit 2 ;;
    *) break ;;
  esac
done
case "$jobs" in ''|0|*[!0-9]*) echo "--jobs takes a number above 0" >&2; exit 2 ;; esac

work=$(mktemp -d) || exit 2
clone=$work/clone log=$work/log
[ -n "$keep" ] || trap 'rm -rf "$work"' EXIT
trap 'exit 2' INT TERM
git clone -q "$root" "$clone" || exit 2
[ -z "$(git -C "$root" status --porcelain)" ] || echo "note: what is not committed is not tried"
# shellcheck disable=SC2046
[ $# -gt 0 ] || set -- $(ls "$clone/tests/edits")
rm -rf "$clone"/crates/*/must-fail
for crate; do
  for folder in "tests/edits/$crate" "crates/$crate"; do
    [ -d "$clone/$folder" ] || { echo "there is no folder $folder in the last commit" >&2; exit 2; }
  done
  cp -r "$clone/tests/edits/$crate" "$clone/crates/$crate/must-fail"
done
wanted=$(find "$clone"/crates/*/must-fail -name '*.edit' | wc -l)
(cd "$clone" && RT_JOBS=$jobs rt ci "$@") >"$log" 2>&1
status=$?
refused=$(grep -c 'must-fail .*: refused, as it must be' "$log")
# an edit that was not refused, that could not be tried, or whose refusal says less of a contract
grep 'must-fail' "$log" | grep -v -e ': refused, as it must be$' -e ': refused, as it must be: ' -e 'trying its must-fail' -e 'were tried by an earlier run' | cut -c 1-300
tail -n 1 "$log"
echo "$refused of $wanted wrong edits of $# crates refused"
[ -z "$keep" ] || echo "the clone and its log: $work"
[ "$status" = 0 ] && [ "$refused" = "$wanted" ] && ! grep -q -e 'NOT REFUSED' -e 'BAD EDIT' -e 'NOT TRIED' "$log"
