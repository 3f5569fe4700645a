#!/bin/sh
# shellcheck disable=SC1091,SC2015,SC2016,SC2046,SC2086,SC2154
# Tests of host/install.sh, run by host/test.sh: what it puts in place, that the example is built and runs from there by pkg-config and by CMake, and
# what it refuses. Prints what fails, then 'N passed, M failed'.
set -u
root=$(cd "$(dirname "$(readlink -f "$0")")/../.." && pwd)
. "$root/host/build.sh"
cd "$root" || exit 2
work=$(mktemp -d)
trap 'rm -rf "$work"' EXIT
passed=0 failed=0
good() { passed=$((passed + 1)); }
bad() {
    failed=$((failed + 1))
    printf 'failed: %s\n  last command: %s\n  out: %s\n  err: %s\n' "$1" "$ran" "$out" "$err"
}
# run STATUS COMMAND...
run() {
    want=$1
    shift
    ran=$*
    "$@" >"$work/out" 2>"$work/err" </dev/null
    got=$?
    out=$(cat "$work/out") err=$(cat "$work/err")
    [ "$got" = "$want" ] && good || bad "exit status $got, not $want"
}
out_is() { [ "$out" = "$1" ] && good || bad "standard output is not: $1"; }
out_has() { case $out in *"$1"*) good ;; *) bad "standard output has no: $1" ;; esac; }
err_has() { case $err in *"$1"*) good ;; *) bad "standard error has no: $1" ;; esac; }
nothing_beside() { [ -z "$(find "$work" -name '.chultarvi.*')" ] && good || bad 'a file beside is left'; }
# in_place TREE: every file, and its mode
in_place() {
    found=$(cd "$1" && find . -type f -exec stat -c '%a %n' {} + | LC_ALL=C sort -k 2)
    [ "$found" = '755 ./bin/chultarvi
644 ./include/chultarvi.h
644 ./lib/cmake/chultarvi/chultarvi-config-version.cmake
644 ./lib/cmake/chultarvi/chultarvi-config.cmake
644 ./lib/libchultarvi.a
644 ./lib/pkgconfig/chultarvi.pc
644 ./share/chultarvi/debian-2.book
644 ./share/chultarvi/debian-3.book
644 ./share/chultarvi/debian.book
644 ./share/man/man1/chultarvi.1' ] && good || bad "not in place: $found"
}
version=$(sed -n 's/^#define CHULTARVI_VERSION "\(.*\)"$/\1/p' include/chultarvi.h)

# what is refused, before anything is built or written
run 0 sh host/install.sh --help
out_has 'host/install.sh PREFIX'
run 0 sh host/install.sh -h
for wrong in '' relative ./relative --frob; do
    run 2 sh host/install.sh "$wrong"
    err_has 'install.sh: '
    out_is ''
done
run 2 sh host/install.sh
err_has 'no PREFIX; name an absolute path'
run 2 sh host/install.sh relative
err_has "relative: PREFIX is not absolute; did you mean $PWD/relative?"
run 2 sh host/install.sh /one /two
err_has 'one PREFIX, and nothing behind it'
run 2 env DESTDIR=relative sh host/install.sh /usr
err_has 'relative: DESTDIR is not absolute'
[ ! -e relative ] && good || bad 'something was written'

# what stands there, and what is said of it; a second run and one by a symlink change nothing
ln -s "$root/host/install.sh" "$work/link"
run 0 sh -c 'umask 077; exec sh host/install.sh "$1"' sh "$work/first/"
in_place "$work/first"
for file in bin/chultarvi include/chultarvi.h lib/libchultarvi.a lib/pkgconfig/chultarvi.pc lib/cmake/chultarvi/chultarvi-config.cmake \
    share/chultarvi/debian.book share/chultarvi/debian-2.book share/chultarvi/debian-3.book share/man/man1/chultarvi.1; do
    out_has "installed $work/first/$file"
done
out_has "chultarvi scan \"$work/first/share/chultarvi/debian-3.book\" NOTE..."
out_has "PATH=\"$work/first/bin:\$PATH\""
[ -z "$RUN" ] || out_has "run it by $RUN $work/first/bin/chultarvi"
before=$(cd "$work/first" && find . -type f -exec cksum {} + | sort)
run 0 sh "$work/link" "$work/first"
after=$(cd "$work/first" && find . -type f -exec cksum {} + | sort)
[ "$before" = "$after" ] && good || bad 'a second run changes something'
in_place "$work/first"
nothing_beside
run 0 env "PATH=$work/first/bin:$PATH" sh host/install.sh "$work/first"
case $out in *' PATH="'*) bad 'a PATH that is right is said' ;; *) good ;; esac

# for a package: DESTDIR before the prefix, and neither stands in a file
run 0 env "DESTDIR=$work/a package" sh host/install.sh /usr/local
in_place "$work/a package/usr/local"
out_has "installed $work/a package/usr/local/bin/chultarvi"
out_has 'chultarvi scan "/usr/local/share/chultarvi/debian-3.book"'
for file in lib/pkgconfig/chultarvi.pc lib/cmake/chultarvi/chultarvi-config.cmake lib/cmake/chultarvi/chultarvi-config-version.cmake; do
    grep -q "$work\|/usr/local" "$work/a package/usr/local/$file" && bad "$file holds the prefix" || good
done

# the program and the books, from there: the same licences in each edition
cd "$work/first/share/chultarvi" || exit 2
run 0 $RUN "$work/first/bin/chultarvi" check debian.book debian-2.book debian-3.book
counted=$(printf '%s\n' "$out" | sed -n 's/^debian.book: \(sound, .*\), edition 1$/\1/p')
out_is "debian.book: $counted, edition 1
debian-2.book: $counted, edition 2
debian-3.book: $counted, edition 3"
run 1 $RUN "$work/first/bin/chultarvi" scan debian-3.book --beside debian.book "$root/examples/note.txt"
err_has 'refused (15): debian-3.book is of edition 3 and debian.book of edition 1; both are default books, so scan with one of them'
cd "$root" || exit 2
run 0 $RUN "$work/first/bin/chultarvi" --version
out_is "chultarvi $version"

# trouble with a place: it is named, and what stood there stays
printf old >"$work/file"
run 2 sh host/install.sh "$work/file"
err_has "$work/file/bin/chultarvi: its folder cannot be made"
mkdir -p "$work/taken/include/chultarvi.h"
run 2 sh host/install.sh "$work/taken"
err_has "$work/taken/include/chultarvi.h: cannot be put in place; what was there is unchanged"
[ -d "$work/taken/include/chultarvi.h" ] && [ "$(cat "$work/file")" = old ] && good || bad 'what stood there is changed'
nothing_beside

# the man page: no warning of the formatter, the version, and each command and option of the help
page=$work/first/share/man/man1/chultarvi.1
if command -v groff >/dev/null; then
    run 0 groff -man -Tascii -ww "$page"
    [ -z "$err" ] && good || bad 'the man page is not clean'
else
    echo 'not run here: the formatting of the man page (no groff)'
fi
grep -q "Chultarvi $version" "$page" && good || bad 'the man page has another version'
plain=$(sed 's/\\-/-/g' "$page")
for command in scan list check book compile expression; do
    case $plain in *".B chultarvi $command"*) good ;; *) bad "the man page has no $command" ;; esac
    for option in $($RUN "$work/first/bin/chultarvi" help $command | grep -oE '(^| )--?[a-z][a-z-]*' | sort -u); do
        case $plain in *"$option"*) good ;; *) bad "the man page has no $option of $command" ;; esac
    done
done

# the example: small books and notes, and what it must say of them
embed=$work/embed
printf 'My First License' >"$work/license"
printf 'copyright 20xx me irl\n// My First License\nfn hello() {\n ...' >"$work/two"
{ cat "$work/two"; head -c 20000 /dev/zero | tr '\0' ' '; } >"$work/long"
printf 'caf\303\251' >"$work/umlaut"
printf 'caf\351' >"$work/latin"
: >"$work/empty"
head -c 1048577 /dev/zero | tr '\0' ' ' >"$work/over"
printf 'A original %s\n' "$work/license" >"$work/list"
$RUN target/chultarvi book "$work/a.book" "$work/list" >/dev/null
$RUN target/chultarvi book --edition 2 "$work/a-2.book" "$work/list" >/dev/null
$RUN target/chultarvi book --edition 3 "$work/a-3.book" "$work/list" >/dev/null
head -c 57 "$work/a.book" >"$work/cut.book"
try_example() {
    for book in a.book a-2.book a-3.book; do
        run 0 $RUN "$embed" "$work/$book" "$work/two"
        out_is 'no licence as a whole, score 0.6667, 2 word pairs shared, 6 of both together
  lines 2 to 2: A, score 1.0000
    bytes 22 to 41: // My First License
  20 scorings'
    done
    run 0 $RUN "$embed" "$work/a.book" "$work/license" 5
    out_is 'A, score 1.0000, 2 word pairs shared, 4 of both together
  1 scorings'
    run 1 $RUN "$embed" "$work/a.book" "$work/two" 0
    run 1 $RUN "$embed" "$work/a.book" "$work/long" 1
    err_has 'refused (12): stopped by the budget'
    out_is 'no licence as a whole, score 0.6667, 2 word pairs shared, 6 of both together
  1 scorings'
}
refuse_example() {
    run 1 $RUN "$embed" "$work/a.book" "$work/umlaut"
    err_has 'refused (2): the text is not ASCII, or for edition 3 not UTF-8 up to U+00FF'
    run 1 $RUN "$embed" "$work/a-3.book" "$work/latin"
    err_has 'refused (2): the text is not ASCII, or for edition 3 not UTF-8 up to U+00FF'
    run 0 $RUN "$embed" "$work/a-3.book" "$work/umlaut"
    run 1 $RUN "$embed" "$work/a.book" "$work/over"
    err_has 'refused (1): the text is over 1,048,576 bytes'
    run 1 $RUN "$embed" "$work/cut.book" "$work/two"
    err_has 'refused (4): the book is not sound'
    run 1 $RUN "$embed" "$work/empty" "$work/two"
    err_has 'refused (5): the book has no stored text'
    out_is ''
    run 0 $RUN "$embed" "$work/a.book" "$work/empty"
    run 2 $RUN "$embed" "$work/a.book" "$work/nowhere"
    err_has "embed: $work/nowhere: No such file or directory"
    run 2 $RUN "$embed" "$work/a.book" "$work"
    err_has "embed: $work: cannot be read"
    for wrong in soon '' -1 5x 1000001; do
        run 2 $RUN "$embed" "$work/a.book" "$work/two" "$wrong"
        err_has "$wrong: no number of milliseconds"
    done
    run 2 $RUN "$embed"
    err_has 'embed BOOK NOTE [MILLISECONDS]'
}
# each time from a tree that was moved
mv "$work/first" "$work/moved"
warn='-std=c11 -O2 -Wall -Wextra -Wconversion -Wshadow -Werror'
if command -v pkg-config >/dev/null; then
    PKG_CONFIG_LIBDIR=$work/moved/lib/pkgconfig
    export PKG_CONFIG_LIBDIR
    run 0 pkg-config --modversion chultarvi
    out_is "$version"
    run 0 $CC $warn $LINK -o "$embed" examples/embed.c $(pkg-config --cflags --libs chultarvi)
    try_example
    refuse_example
else
    echo 'not run here: the example by pkg-config (no pkg-config)'
fi
if command -v cmake >/dev/null; then
    set -- -S examples -DCMAKE_PREFIX_PATH="$work/moved" -DCMAKE_C_COMPILER="$CC" -DCMAKE_SYSTEM_NAME=Linux -DCMAKE_EXE_LINKER_FLAGS="$LINK"
    run 0 cmake "$@" -B "$work/built" -DCMAKE_SYSTEM_PROCESSOR=x86_64
    run 0 cmake --build "$work/built"
    embed=$work/built/embed
    try_example
    run 1 cmake "$@" -B "$work/arm" -DCMAKE_SYSTEM_PROCESSOR=aarch64
    err_has 'libchultarvi.a is for x86-64, and this build is for aarch64'
    for other in 0.7 0.9 1.0; do
        mkdir "$work/other-$other"
        sed "s/find_package(chultarvi ${version%.*}/find_package(chultarvi $other/" examples/CMakeLists.txt >"$work/other-$other/CMakeLists.txt"
        cp examples/embed.c "$work/other-$other"
        shift 2
        set -- -S "$work/other-$other" "$@"
        run 1 cmake "$@" -B "$work/other-$other/built" -DCMAKE_SYSTEM_PROCESSOR=x86_64
        err_has "version: $version"
    done
else
    echo 'not run here: the example by CMake (no cmake)'
fi
echo "$passed passed, $failed failed"
[ "$failed" = 0 ]
