#!/bin/sh
# Compiles the ten loops of tests/compiled/loops.c with gcc and clang at -O1 and -O2, and lets the built program read each
# function: by `decide` with itself on both sides, which ends in a verdict or in `not-plain` where the function was read,
# and in the refusal's kind and line where it was not. Outside the gate; skipped where there is no compiler. Build first:
# rt ci. Refusals that are no fault of the reader: instructions outside the table (vectors among them, so far) and pools.
align=$(cd "$(dirname "$0")/.." && pwd)/crates/align/out/align
loops=$(cd "$(dirname "$0")" && pwd)/compiled/loops.c
[ -x "$align" ] || { echo "build the program first: rt ci" >&2; exit 2; }
work=$(mktemp -d)
trap 'rm -rf "$work"' EXIT
cd "$work" || exit 2
failures=0
for compiler in gcc clang; do
  command -v "$compiler" >/dev/null || { echo "skipped: no $compiler"; continue; }
  for level in 1 2; do
    "$compiler" "-O$level" -fcf-protection=none -S "$loops" -o loops.s || exit 2
    for name in sum dot copy_bytes fill find least widen add_arrays count_bits reverse; do
      answer=$("$align" decide loops.s "$name" loops.s "$name" | head -n 1)
      case "$answer" in
        equivalent) what=read ;;
        *not-plain) what=read ;;
        *unknown-instruction|*pool-refused) line=$(echo "$answer" | sed 's/.* line \([0-9]*\) .*/\1/'); what="refused, $(sed -n "${line}p" loops.s | tr '\t' ' ' | sed 's/^ *//')" ;;
        *) what="FAIL $answer"; failures=$((failures + 1)) ;;
      esac
      echo "$compiler -O$level $name: $what"
    done
  done
done
[ "$failures" = 0 ] || { echo "$failures failed"; exit 1; }
