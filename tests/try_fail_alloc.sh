#!/bin/sh
# Refuses an allocation to the program by the toolchain's own means, before any proof: three runs (of decide, run and
# show, over files of examples/), each with its Nth allocation refused. Each has to end with status 7 and to print
# nothing. It builds once for each N, in about a minute.   tests/try_fail_alloc.sh [N..], 3 without
cd "$(dirname "$0")/.." || exit 2
PATH="$PATH:/opt/rattle/bin"
[ $# -gt 0 ] || set -- 3
cases=$(mktemp -d)
trap 'rm -rf "$cases" "$cases.log"' EXIT
data=
for file in swapped_sum/left.s swapped_sum/right.s summed_words/gcc.s summed_words/admission summed_words/tests.json \
  counted_bits/gcc.s; do
  data="$data --data $(echo "$file" | tr / .)=../../examples/$file"
done
: >"$cases/decide"; : >"$cases/run"; : >"$cases/show"
printf '%s\n' decide swapped_sum.left.s f swapped_sum.right.s g >"$cases/decide.args"
printf '%s\n' run summed_words.gcc.s f summed_words.admission summed_words.tests.json >"$cases/run.args"
printf '%s\n' show counted_bits.gcc.s f >"$cases/show.args"
cd crates/align || exit 2
failures=0
for number; do
  # shellcheck disable=SC2086
  nice -n 15 rt try --fail-alloc "$number" --cases "$cases" $data >"$cases.log" 2>&1
  cat "$cases.log"
  # a case's lines are its name, what it printed, how many allocations there were, and how it ended
  ended=$(grep -c '^case=[a-z]* run=ended status=7 ' "$cases.log")
  printed=$(grep -v -c -e '^== [a-z]*$' -e '^allocations: ' -e '^case' "$cases.log")
  if [ "$ended" = 3 ] && [ "$printed" = 0 ]; then echo "ok   allocation $number refused: status 7, nothing printed, 3 runs"
  else echo "FAIL allocation $number: $ended of 3 runs ended with status 7; $printed lines printed"; failures=1; fi
done
exit "$failures"
