#!/bin/sh
# shellcheck disable=SC1091,SC2015,SC2086,SC2154
# Tests of the drivers, run by host/test.sh: that they take the library's calls and the records from the headers, that host/drivers/answers.c
# holds what it is asked, or stops with a message and status 2, and that host/drivers/places.c finds every range where it is. Prints what fails, then
# 'N passed, M failed'.
set -eu
root=$(cd "$(dirname "$(readlink -f "$0")")/../.." && pwd)
. "$root/host/build.sh"
need_driver answers
need_driver rows
need_driver places
cd "$root"
work=$(mktemp -d)
trap 'rm -rf "$work"' EXIT
passed=0 failed=0
good() { passed=$((passed + 1)); }
bad() {
    failed=$((failed + 1))
    echo "failed: $1"
}

# nowhere else than in the headers
declared='^[a-z].* chultarvi_[a-z_]+\([^=]*;$'
if grep -nE "$declared" host/drivers/*.c host/tests/*.c host/cli/*.c; then bad 'a call is declared again'; else good; fi
if grep -lE '>> 8 ?\* ?' host/cli/*.c host/drivers/*.c host/tests/*.c; then bad 'a record is written elsewhere than in host/records.h'; else good; fi
if grep -nE '\<(r|record|results)\[[0-9]' host/drivers/*.c examples/*.c; then bad 'a number of a record is not named as the header names it'; else good; fi
if grep -L 'records\.h\|chultarvi\.h' host/drivers/*.c | grep .; then bad 'a driver without the header'; else good; fi

# answers_are WANT: to the questions in the file `asked`
answers_are() {
    ${instead:-$RUN target/answers} <"$work/asked" >"$work/out" 2>"$work/err" && [ "$(cat "$work/out")" = "$1" ] && good || bad "answers are '$(cat "$work/out" "$work/err")', not: $1"
}
# stops MESSAGE: status 2, and the last line of what is said
stops() {
    got=0
    ${instead:-$RUN target/answers} <"$work/asked" >"$work/out" 2>"$work/err" || got=$?
    [ "$got" = 2 ] && good || bad "status $got, not 2: $1"
    [ "$(cat "$work/err")" = "answers: $1" ] && good || bad "said is '$(head -c 300 "$work/err")', not: $1"
}
hex() { od -An -v -tx1 | tr -d ' \n'; }
ask() { printf '%s\n' "$@" >"$work/asked"; }
licence=$(printf 'My First License' | hex)
two=$(printf 'copyright 20xx me irl\n// My First License\nfn hello() {\n ...' | hex)
name() { head -c "$1" /dev/zero | tr '\0' n | hex; }

ask "table $licence" "score 0 4 $two $licence" "countbounds 0 4 $two $licence" "border 0 countbounds 0 4 $two $licence" "add $(name 64) 2 $licence" \
    "counteliminate 3f666666 3f7d70a4 1 10 1000 $two" "border 0 counteliminate 3f666666 3f7d70a4 0 10 1000 $licence" "clear" "add 41 2 $licence" \
    "countdown 3f666666 3f7d70a4 9 1000 $licence" "table -"
answers_are "2 1:6669727374206c6963656e7365 1:6d79206669727374
3f2aaaab
8 1 2 3f800000
8 1 2 3f800000
ok
0 20 3f2aaaab none ; 0 1 2 3f800000
0 1 3f800000 0
ok
ok
0 1 00000000 none
0"

# on equal scores the original is named, though a header stands before it, in the same book or in the first of two
ask "add 41 2 -" "add 41 4 $licence" "add 42 2 $licence" "add 43 2 $licence" "counteliminate 3f000000 3f000000 0 0 9 $licence" \
    "border 1 counteliminate 3f000000 3f000000 0 0 9 $licence" "border 1 countdown 3f666666 3f7d70a4 9 1000 $licence" "countdown 3f666666 3f7d70a4 1 1000 $two"
answers_are "ok
ok
ok
ok
0 4 3f800000 2
0 4 3f800000 2
0 4 00000000 none
0 30 00000000 none ; 2 1 2 3f800000"

# with the bytes of each range, over one book and over two; an empty range at the end
ask "add 41 2 $licence" "placed counteliminate 3f666666 3f7d70a4 1 10 1000 $two" "placed countdown 3f666666 3f7d70a4 1 1000 $two" \
    "border 0 placed countdown 3f666666 3f7d70a4 1 1000 $two" "border 1 placed counteliminate 00000000 3f800000 1 1 1000 $(printf 'x\r\ny' | hex)" \
    "placed counteliminate 3f666666 3f7d70a4 0 10 1000 $licence"
answers_are "ok
0 20 3f2aaaab none ; 0 1 2 3f800000 22 41
0 12 00000000 none ; 0 1 2 3f800000 22 41
0 12 00000000 none ; 0 1 2 3f800000 22 41
0 8 00000000 none ; 0 2 2 00000000 4 4
0 1 3f800000 0"
for wrong in "table $licence" "score 0 4 $two $licence" clear "countdown 3f666666 3f7d70a4 1 $two" "placed countdown 3f666666 3f7d70a4 1 1000 $two"; do
    ask "placed $wrong"
    stops 'no such question with places'
done
ask placed
stops 'no such question'
for wrong in "table $licence" "score 0 4 $two $licence" clear "countdown 3f666666 3f7d70a4 1 $two" "allowed countdown 3f666666 3f7d70a4 1 1000 $two"; do
    ask "allowed $wrong"
    stops 'no such question with an allowance'
    for before in 'allowed placed' 'placed placed'; do
        ask "$before $wrong"
        stops 'no such question with places'
    done
done
ask "placed allowed countdown 3f666666 3f7d70a4 1 1000 $two"
stops 'no such question with places'
for lone in allowed 'allowed placed'; do
    ask $lone
    stops 'no such question'
done

# three scans in turn on one allowance, over one book and over two: each with what the one before has left, which must be the budget that is said
case_ten="counteliminate 3f666666 3f7d70a4 1 10"
ask "add 41 2 $licence" "allowance 50 0" "allowed $case_ten 50 $two" "allowed border 1 placed $case_ten 30 $two" "allowed $case_ten 10 $two" \
    "allowed countdown 3f666666 3f7d70a4 1 0 $two" "allowance 18446744073709551615 18446744073709551603" "allowed countdown 3f666666 3f7d70a4 1 12 $two"
answers_are "ok
ok
0 20 3f2aaaab none ; 0 1 2 3f800000
0 20 3f2aaaab none ; 0 1 2 3f800000 22 41
12 10 3f2aaaab none ; 0 1 2 3f800000
12 0 00000000 none
ok
0 12 00000000 none ; 0 1 2 3f800000"
for left in 49 51; do
    ask "add 41 2 $licence" "allowance 50 0" "allowed $case_ten $left $two"
    stops 'what is left of the allowance is not the budget'
done
ask "add 41 2 $licence" "allowance 5 6" "allowed $case_ten 0 $two"
stops 'what is left of the allowance is not the budget'
for wrong in 'allowance 5' 'allowance 5 6 7' 'border 0 allowed clear'; do
    ask "$wrong"
    stops "$([ "${wrong#border}" = "$wrong" ] && echo 'no such question' || echo 'no such question of two books')"
done

# in edition 3: letters of two bytes, over one book and over two
ask "table $(printf '\303\211T\303\211 \303\240' | hex)" "add 41 2 $(printf '\303\251t\303\251 \303\240 la' | hex)" "add 42 2 $licence" \
    "border 1 counteliminate 3f666666 3f7d70a4 0 10 1000 $(printf '\303\211t\303\251 \303\200 LA' | hex)" \
    "placed countdown 3f666666 3f7d70a4 1 1000 $(printf '\303\251\r\n\303\211t\303\251 \303\200 LA' | hex)"
instead="$RUN target/answers 3" answers_are "1 1:c3a974c3a920c3a0
ok
ok
0 2 3f800000 0
0 14 00000000 none ; 0 1 2 3f800000 4 15"
ask "table c3a9"
stops 'the text is not ASCII, or for edition 3 not UTF-8 up to U+00FF'
ask 'table 41'
instead="$RUN target/answers 4" stops 'a number is none, or too large'

ask "add $(name 65) 2 $licence"
stops 'a name is not of 1 to 64 bytes'
ask "add - 2 $licence"
stops 'a name is not of 1 to 64 bytes'
ask "add 41 3 $licence"
stops 'the book is unsound'
ask "add 41 65536 $licence"
stops 'a number is none, or too large'
for wrong in x -1 1x 18446744073709551616; do
    ask "score $wrong 1 $two $licence"
    stops 'a number is none, or too large'
done
ask "add 41 2 $licence" "counteliminate 3f666666 3f7d70a4 1 65536 1000 $two"
stops 'a number is none, or too large'
ask 'table 414'
stops 'a text has half a byte'
ask 'table 4g'
stops 'a text is not written in the digits 0 to 9 and a to f'
ask 'frob 1'
stops 'no such question'
ask 'border 1 clear'
stops 'no such question of two books'
ask 'table 41 41 41 41 41 41 41 41 41 41 41 41'
stops 'no such question'
{ printf 'table '; head -c 1048577 /dev/zero | hex; echo; } >"$work/asked"
stops 'the text is over 1,048,576 bytes'
{ printf 'table '; head -c 17000000 /dev/zero | tr '\0' 4; echo; } >"$work/asked"
stops 'a question is over 16,777,214 bytes'
# a table of some 3 MB, six times
awk 'BEGIN { for (i = 0; i < 149000; i++) printf "%c%05x ", 103 + i % 20, i }' | hex >"$work/wide"
for i in 1 2 3 4 5 6; do echo "add 4$i 2 $(cat "$work/wide")"; done >"$work/asked"
stops 'a book is over 16,777,216 bytes'
wraps='-Wl,--wrap=read,--wrap=write,--wrap=fsync,--wrap=close,--wrap=rename,--wrap=malloc'
$CC $flags $LINK $wraps -o "$work/faulty" host/drivers/answers.c host/tests/faults.c "$archive"
ask "table $licence"
FAULT=malloc
export FAULT
instead="$RUN $work/faulty" stops 'no memory'
unset FAULT
got=0
printf 'half a call' | $RUN target/rows >"$work/out" 2>"$work/err" || got=$?
[ "$got" = 0 ] && [ ! -s "$work/out" ] && good || bad 'rows: half a call is answered'

# the bytes of as many ranges as a note may have; their time is not looked at
$RUN target/places 1 >"$work/out" 2>"$work/err" && [ "$(grep -o '[0-9]* records' "$work/out" | tr '\n' ' ')" = '16384 records 32768 records 8193 records 16385 records ' ] &&
    good || bad "places: $(cat "$work/out" "$work/err")"
for wrong in 0 -1 1001 x '' 1x '1 2'; do
    got=0
    $RUN target/places "$wrong" >"$work/out" 2>"$work/err" || got=$?
    [ "$got" = 2 ] && [ "$(cat "$work/err")" = 'places: usage: places [TURNS], from 1 to 1000' ] && good || bad "places $wrong: status $got"
done

echo "$passed passed, $failed failed"
[ "$failed" = 0 ]
