# shellcheck shell=sh disable=SC2015,SC2034,SC2154
# Sourced by the tests of the command line, with their words PROGRAM FAULTY BOOK NOTE, where FAULTY is the program with host/tests/faults.c and RUN
# what runs programs of x86-64: a folder of its own to work in, how a command is run and judged, and the files that several tests take.
# Each test is: run STATUS WORDS..., then what must stand in $out and $err. What fails is printed, and by `the_end` 'N passed, M failed'.
root=$(cd "$(dirname "$0")/../.." && pwd)
work=$(mktemp -d)
chmod 755 "$work"
trap 'rm -rf "$work"' EXIT
# copies, so that a path with spaces or one closed to others does no harm
cp "$1" "$work/program" && cp "$2" "$work/faulty" && cp "$3" "$work/default.book" && cp "$4" "$work/example" && cd "$work" || exit 2
program="${RUN-} ./program" faulty="${RUN-} ./faulty"
LC_ALL=C
export LC_ALL
passed=0 failed=0

good() { passed=$((passed + 1)); }
bad() {
    failed=$((failed + 1))
    printf 'failed: %s\n  last command: %s\n  out: %.1500s\n  err: %.1500s\n' "$1" "$ran" "$out" "$err"
}
# judge STATUS: of the command that has just run
judge() { [ "$got" = "$1" ] && good || bad "exit status $got, not $1"; }
run() {
    want=$1
    shift
    ran=$*
    $program "$@" >.out 2>.err </dev/null
    got=$?
    out=$(cat .out) err=$(cat .err)
    judge "$want"
    schema
}
# from FILE STATUS WORDS...: the same with standard input
from() {
    input=$1 want=$2
    shift 2
    ran="$* <$input"
    $program "$@" >.out 2>.err <"$input"
    got=$?
    out=$(cat .out) err=$(cat .err)
    judge "$want"
    schema
}
# so STATUS SHELL-WORDS: a line of the shell, in which $program stands for the program
so() {
    want=$1
    ran=$2
    (eval "$2") >.out 2>.err </dev/null
    got=$?
    out=$(cat .out) err=$(cat .err)
    judge "$want"
}
# broken FAULT STATUS WORDS...: the same with a fault
broken() {
    fault=$1 want=$2
    shift 2
    ran="FAULT=$fault $*"
    FAULT=$fault $faulty "$@" >.out 2>.err </dev/null
    got=$?
    out=$(cat .out) err=$(cat .err)
    judge "$want"
}
# to_full WORDS...: standard output takes nothing, and that is said
to_full() {
    ran="$* >/dev/full"
    $program "$@" >/dev/full 2>.err
    got=$? out='' err=$(cat .err)
    judge 2
    err_is 'chultarvi: standard output: No space left on device'
}
out_is() { [ "$out" = "$1" ] && good || bad "standard output is not: $1"; }
err_is() { [ "$err" = "$1" ] && good || bad "standard error is not: $1"; }
err_has() { case $err in *"$1"*) good ;; *) bad "standard error has no: $1" ;; esac; }
out_has() { case $out in *"$1"*) good ;; *) bad "standard output has no: $1" ;; esac; }
same() { cmp -s "$1" "$2" && good || bad "$1 and $2 differ"; }
holds() { [ "$(cat "$1")" = "$2" ] && good || bad "$1 does not hold: $2"; }
# json EXPRESSION WANT: what a JSON parser makes of the lines of standard output, each an element of `notes`
if command -v python3 >/dev/null; then
    # every line of `scan --json`, `list --json` and `expression --json` is held against its schema
    schema() {
        case " $ran " in " scan "*" --json "*) form=scan ;; " list "*" --json "*) form=list ;; " expression "*" --json "*) form=expression ;; *) return ;; esac
        # a note may be named --json
        case $out in '{'*) ;; *) return ;; esac
        value=$(python3 "$root/host/tests/schema.py" "$root/host/$form.schema.json" <.out 2>&1) && good || bad "schema: $value"
    }
    json() {
        value=$(python3 -c 'import json, os, sys
notes = [json.loads(line) for line in open(".out", "rb")]
print(json.dumps(eval(sys.argv[1])))' "$1" 2>&1)
        [ "$value" = "$2" ] && good || bad "JSON: $1 is $value, not $2"
    }
else
    echo 'not run here: JSON read by a parser (no python3)'
    json() { :; }
    schema() { :; }
fi
no_beside() { [ -z "$(find . -name '.chultarvi.*')" ] && good || { bad 'a file beside is left'; rm -f ./.chultarvi.*; }; }

printf 'My First License' >license
printf 'copyright 20xx me irl\n// My First License\nfn hello() {\n ...' >two
printf '\002\000\000\000\002\000\000\000\001\000\000\000\015\000\000\000first license\001\000\000\000\010\000\000\000my first' >table
{ printf '\001\000\000\000\001\000A\055\000\000\000\002\000'; cat table; } >a.book
: >empty
spaces() { head -c "$1" /dev/zero | tr '\0' ' '; }
spaces 1048576 >most
spaces 1048577 >over
head -c 65535 /dev/zero | tr '\0' '\n' >lines
head -c 65536 /dev/zero | tr '\0' '\n' >lines-over
printf 'one\ntwo \303\244\n' >umlaut
cut_book() { head -c 57 a.book; }
cut_book >cut.book
help='chultarvi --help tells more'
tells() { echo "chultarvi $1 --help tells more"; }
# words WORD COUNT: a text of so many words, each its own, eight on a line
words() { awk -v word="$1" -v count="$2" 'BEGIN { for (i = 1; i <= count; i++) printf "%s%s", word, i % 8 ? i " " : i "\n" }' | tr 0123456789 abcdefghij; }

the_end() {
    echo "$passed passed, $failed failed"
    [ "$failed" = 0 ]
}
