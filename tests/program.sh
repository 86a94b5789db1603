#!/usr/bin/env bash
# Runs the built program as a shell does, and compares its exit status, its output and its line on standard error: with
# standard error open, closed and full, standard input closed and standard output full. Prints nothing and ends with 0
# where all holds; else says what failed and ends with 1.
top=$(cd "$(dirname "${BASH_SOURCE[0]}")/.." && pwd) || exit 1
program=$top/crates/lightrun/out/lightrun
work=$(mktemp -d) || exit 1
trap 'rm -rf "$work"' EXIT
failed=0

# proves and builds the program where it isn't yet; run with no word, it says how it is used
"$top/bin/lightrun" </dev/null >"$work/built" 2>&1
[ $? = 1 ] || { cat "$work/built"; echo "tests/program.sh: the program wasn't built"; exit 1; }

fails() {
    echo "tests/program.sh: $*"
    failed=1
}

# A run: its status, the line on standard error, the file that standard output is to hold, the file that standard input
# reads, and the words.
check() {
    local status=$1 line=$2 output=$3 input=$4 got
    shift 4
    "$program" "$@" <"$input" >"$work/out" 2>"$work/err"
    got=$?
    [ "$got" = "$status" ] || fails "status $got in place of $status of: $*"
    [ "$(cat "$work/err")" = "$line" ] || fails "the line '$(cat "$work/err")' in place of '$line' of: $*"
    cmp -s "$work/out" "$output" || fails "another output of: $*"
    # a line that can't be printed changes no status
    "$program" "$@" <"$input" >"$work/out" 2>&-
    got=$?
    [ "$got" = "$status" ] || fails "status $got in place of $status, with standard error closed, of: $*"
    cmp -s "$work/out" "$output" || fails "another output, with standard error closed, of: $*"
    "$program" "$@" <"$input" >"$work/out" 2>/dev/full
    got=$?
    [ "$got" = "$status" ] || fails "status $got in place of $status, with standard error full, of: $*"
    cmp -s "$work/out" "$output" || fails "another output, with standard error full, of: $*"
}

# A run whose standard output is full, with standard error open, closed and full.
check_full() {
    local input=$1 got
    shift
    "$program" "$@" <"$input" >/dev/full 2>"$work/err"
    got=$?
    [ "$got" = 4 ] || fails "status $got in place of 4, with standard output full, of: $*"
    [ "$(cat "$work/err")" = "write failed" ] || fails "the line '$(cat "$work/err")', with standard output full, of: $*"
    "$program" "$@" <"$input" >/dev/full 2>&-
    got=$?
    [ "$got" = 4 ] || fails "status $got in place of 4, with standard output full and standard error closed, of: $*"
    "$program" "$@" <"$input" >/dev/full 2>/dev/full
    got=$?
    [ "$got" = 4 ] || fails "status $got in place of 4, with standard output and standard error full, of: $*"
}

# A run whose standard input can't be read, with standard error open, closed and full.
check_unread() {
    local got
    "$program" "$@" <"$work" >"$work/out" 2>"$work/err"
    got=$?
    [ "$got" = 3 ] || fails "status $got in place of 3, with a folder for standard input, of: $*"
    [ "$(cat "$work/err")" = "read failed" ] || fails "the line '$(cat "$work/err")', with a folder for standard input, of: $*"
    [ -s "$work/out" ] && fails "an output, with a folder for standard input, of: $*"
    "$program" "$@" <"$work" >"$work/out" 2>&-
    got=$?
    [ "$got" = 3 ] || fails "status $got in place of 3, with standard error closed, of: $*"
    "$program" "$@" <"$work" >"$work/out" 2>/dev/full
    got=$?
    [ "$got" = 3 ] || fails "status $got in place of 3, with standard error full, of: $*"
}

script=$top/crates/lightrun/stdin
report=$top/crates/lightrun/stdout
usage="usage: lightrun run, check, walk or load SEED OPS"
moved=$top/examples/moved.report
printf 'lawful\n' >"$work/lawful"
printf 'world 1 1 0\nsend 0 0\n' >"$work/walk"
printf '1 ok\nthread 0 list 0\npair 0 0 1 0\nreactor 0 awake\n' >"$work/answer"
printf 'world 1 1 0\nsend 0\n' >"$work/no_walk"
printf '{}' >"$work/no_script"
sed 's/^did 2 3 deferred$/did 1 3 deferred/' "$report" >"$work/unlawful"
sed '/^order 1 0$/d' "$moved" >"$work/unordered"
sed 's/^order 1 0$/order 1 1/' "$moved" >"$work/misplaced"
: >"$work/none"

check 0 "" "$report" "$script" run
check 0 "" "$work/lawful" "$report" check
check 0 "" "$work/answer" "$work/walk" walk
check 1 "$usage" "$work/none" "$script"
check 1 "$usage" "$work/none" "$script" walk again
check 1 "$usage" "$work/none" "$script" run --period 0
check 2 "script: not JSON" "$work/none" "$report" run
check 2 "script: shape 1" "$work/none" "$work/no_script" run
check 2 "walk: line 2" "$work/none" "$work/no_walk" walk
check 6 "unlawful: clause 3 line 25" "$work/none" "$work/unlawful" check
check 0 "" "$work/lawful" "$moved" check
check 6 "unlawful: clause 1 line 16" "$work/none" "$work/unordered" check
check 6 "unlawful: clause 1 line 16" "$work/none" "$work/misplaced" check
for words in "run" "check" "walk"; do check_unread "$words"; done
check_full "$script" run
check_full "$report" check
check_full "$work/walk" walk

# with standard input closed a command that reads fails or finds no bytes, and nothing is written; no other words need it
for words in "run" "check" "walk"; do
    "$program" "$words" <&- >"$work/out" 2>"$work/err"
    got=$?
    [ "$got" = 3 ] || fails "status $got in place of 3, with standard input closed, of: $words"
    [ "$(cat "$work/err")" = "read failed" ] || fails "the line '$(cat "$work/err")', with standard input closed, of: $words"
    [ -s "$work/out" ] && fails "an output, with standard input closed, of: $words"
done
"$program" <&- >"$work/out" 2>"$work/err"
got=$?
[ "$got" = 1 ] || fails "status $got in place of 1, with standard input closed, of no word"

# want of memory: the input alone needs more than there is
head -c 200000000 /dev/zero >"$work/zeros"
for to in "$work/err" /dev/full; do
    (ulimit -v 100000 && "$program" check <"$work/zeros" >"$work/out" 2>"$to")
    got=$?
    [ "$got" = 5 ] || fails "status $got in place of 5, with little memory, of: check"
    [ -s "$work/out" ] && fails "an output, with little memory, of: check"
done
(ulimit -v 100000 && "$program" check <"$work/zeros" >"$work/out" 2>&-)
got=$?
[ "$got" = 5 ] || fails "status $got in place of 5, with little memory and standard error closed, of: check"
[ "$(cat "$work/err")" = "out of memory" ] || fails "the line '$(cat "$work/err")', with little memory, of: check"

exit "$failed"
