#!/bin/sh
# Runs the built program over real files: what it prints and the status that it ends with. Outside the gate, since
# what a folder holds is not proved. Build first: examples/run.sh or rt ci.
align=$(cd "$(dirname "$0")/.." && pwd)/crates/align/out/align
[ -x "$align" ] || { echo "build the program first: examples/run.sh" >&2; exit 2; }
work=$(mktemp -d)
trap 'rm -rf "$work"' EXIT
cd "$work" || exit 2
failures=0

# expect NAME STATUS OUTPUT ARGUMENT..: the program, run on these arguments, ends with the status and prints the output
expect() {
  name=$1; status=$2; output=$3; shift 3
  printed=$("$align" "$@"; echo "status $?")
  if [ "$printed" = "$output${output:+
}status $status" ]; then echo "ok   $name"; else echo "FAIL $name: $printed"; failures=$((failures + 1)); fi
}

usage='usage: align decide LEFT F RIGHT G [ADMIT TESTS]
       align check LEFT F RIGHT G ADMIT CERT
       align run FILE F ADMIT TESTS
       align show FILE F
       align sample N'

printf 'f:\nmovq %%rdi,%%rax\naddq %%rsi,%%rax\nret\n' >sum
printf 'g:\nmovq %%rsi,%%rax\naddq %%rdi,%%rax\nret' >swapped
printf 'g:\nmovq %%rsi,%%rax\nret\n' >second
printf 'f:\nmovq %%rdi,%%rax\nret\n' >first
printf 'f:\nret\nret\n' >twice
: >empty
cp sum ./-a
head -c 16777217 /dev/zero >large
head -c 16777216 /dev/zero | tr '\0' '\n' >line_ends

expect equal_sums 0 'equivalent
nodes 2
edges 1
bound 6
tests none' decide sum f swapped g
expect different_registers 1 'different
source found
left returned 2
right returned 2
differs %rax 0x0 0x1
state
reg rsi 0x1' decide first f second g
expect file_named_with_a_dash 0 'equivalent
nodes 2
edges 1
bound 6
tests none' decide -- -a f swapped g
expect missing_left 5 '' decide missing f swapped g
expect missing_right 5 '' decide sum f missing g
expect folder_as_file 5 '' decide . f swapped g
expect empty_left 3 'refused left line 0 no-function' decide empty f swapped g
expect second_return 3 'refused right line 3 not-plain' decide sum f twice f
expect large_left 3 'refused left large 16777217' decide large f swapped g
expect line_ends_alone 3 'refused left line 0 no-function' decide line_ends f swapped g
expect no_arguments 4 "$usage"
expect three_plain_arguments 4 "$usage" decide sum f swapped
expect option 4 "$usage" decide --steps=5 sum f swapped g
printed=$("$align" decide "$(printf 'a\377')" f swapped g; echo "status $?")
[ "$printed" = "$usage
status 4" ] && echo "ok   argument_that_is_no_text" || { echo "FAIL argument_that_is_no_text: $printed"; failures=$((failures + 1)); }
if [ -w /dev/full ]; then
  "$align" decide sum f swapped g >/dev/full
  [ $? = 6 ] && echo "ok   full_output" || { echo "FAIL full_output"; failures=$((failures + 1)); }
fi
[ "$failures" = 0 ] || { echo "$failures failed"; exit 1; }
