#!/bin/sh
# shellcheck disable=SC1091,SC2086,SC2154
# Passes all tests of the host: builds what is missing, runs host/tests/callers.sh, host/tests/face.c and expressions.c compiled as C and as C++,
# oracle/rows.py --quick, oracle/expressions_rows.py --quick, oracle/unicode.py, and pairs.py, places.py, allowance.py, page.py, expressions.py, line.sh,
# allowance.sh, desk.sh, places.sh, commands.sh, editions.sh, accents.sh, expressions.sh, drivers.sh, measure.sh and install.sh of host/tests. All that it
# makes stands in a folder of its own under target/, so that several runs at once do not meet.
# The last line is 'N passed, M failed', the sum; the exit status is 0 only where M is 0.
set -eu
root=$(cd "$(dirname "$(readlink -f "$0")")/.." && pwd)
. "$root/host/build.sh"
need_program
need "$CXX"
cd "$root"
folder=$(mktemp -d target/test.XXXXXX)
trap 'rm -rf "$folder"' EXIT
trap 'exit 2' HUP INT TERM
warn='-O2 -Wall -Wextra -Wconversion -Wshadow -Werror'
wraps='-Wl,--wrap=read,--wrap=write,--wrap=fsync,--wrap=close,--wrap=rename,--wrap=malloc'
echo 'host: building the tests' >&2
# Linked by the C compiler and without libm: the static one of Debian's cross packages names files that are not there.
for face in face expressions; do
    $CC -std=c11 -D_GNU_SOURCE $warn $LINK -o "$folder/${face}_c" "host/tests/$face.c" "$archive"
    $CXX -x c++ -std=c++17 -fno-exceptions $warn -c -o "$folder/${face}_cxx.o" "host/tests/$face.c"
    $CC $LINK -o "$folder/${face}_cxx" "$folder/${face}_cxx.o" "$archive"
done
$CC -std=c11 -D_GNU_SOURCE -DBARS_MOST=3 $warn $LINK $wraps -o "$folder/faulty" $sources host/tests/faults.c "$archive"

passed=0 failed=0
# part NAME COMMAND...: its last line is 'N passed, M failed'; a part that does not come so far has failed
part() {
    name=$1
    shift
    "$@" >"$folder/out" || true
    sed '$d' "$folder/out"
    last=$(tail -n 1 "$folder/out")
    case $last in
    *' passed, '*' failed')
        echo "$name: $last"
        passed=$((passed + ${last%% *}))
        last=${last#*, }
        failed=$((failed + ${last%% *}))
        ;;
    *)
        echo "$name: broke off: $last"
        failed=$((failed + 1))
        ;;
    esac
}
part 'who scores' sh host/tests/callers.sh
part 'the header from C' $RUN "$folder/face_c"
part 'the header from C++' $RUN "$folder/face_cxx"
part 'expressions from C' $RUN "$folder/expressions_c"
part 'expressions from C++' $RUN "$folder/expressions_cxx"
export RUN CC LINK
if command -v python3 >/dev/null; then
    part 'answers and areas against a second reading' python3 oracle/rows.py --quick
    part 'expressions against a second reading' python3 oracle/expressions_rows.py --quick
    part 'the command line: m and t against a second reading' python3 host/tests/pairs.py $RUN target/chultarvi
    part 'the command line: places and --show against the notes' python3 host/tests/places.py $RUN target/chultarvi
    part 'the command line: an allowance against budgets' python3 host/tests/allowance.py $RUN target/chultarvi
    part 'the command line: expressions against a second reading' python3 host/tests/expressions.py $RUN target/chultarvi
    part 'the classes of characters against Unicode' python3 oracle/unicode.py
else
    echo 'not run here: answers, areas, m and t and expressions against a second reading, the classes of characters against Unicode (no python3)'
    echo 'not run here: places and --show against the notes, an allowance against budgets (no python3)'
fi
if ! command -v chromium >/dev/null; then
    echo 'not run here: the page in a browser (no chromium; apt-get install chromium brings it)'
elif command -v python3 >/dev/null; then
    part 'the page in a browser' python3 host/tests/page.py chromium "$folder/faulty" $RUN target/chultarvi
else
    echo 'not run here: the page in a browser (no python3)'
fi
set -- target/chultarvi "$folder/faulty" books/debian-3.book examples/note.txt
part 'the command line: scan' sh host/tests/line.sh "$@"
part 'the command line: the allowance' sh host/tests/allowance.sh "$@"
part 'the command line: for the desk' sh host/tests/desk.sh "$@"
part 'the command line: places, --show and the page' sh host/tests/places.sh "$@"
part 'the command line: the other commands' sh host/tests/commands.sh "$@"
part 'the command line: editions' sh host/tests/editions.sh "$@"
part 'the command line: accents' sh host/tests/accents.sh "$@"
part 'the command line: expressions' sh host/tests/expressions.sh "$@"
part 'the drivers' sh host/tests/drivers.sh
part 'the measure of a book' sh host/tests/measure.sh target/chultarvi books/debian-3.book examples/note.txt
part 'the installation' sh host/tests/install.sh
echo "$passed passed, $failed failed"
[ "$failed" = 0 ]
