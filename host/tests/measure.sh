#!/bin/sh
# shellcheck disable=SC2015,SC2086
# Tests of books/measure.py, run by host/test.sh: measure.sh PROGRAM BOOK NOTE, with RUN as common.sh says. A copyright file whose labels are right,
# nearly right, wrong and of no use is counted as it must be, files are by their characters, and what is missing is said. Prints what fails, then
# 'N passed, M failed'.
set -u
root=$(cd "$(dirname "$(readlink -f "$0")")/../.." && pwd)
program=$(readlink -f "$1") book=$(readlink -f "$2") note=$(readlink -f "$3")
work=$(mktemp -d)
trap 'rm -rf "$work"' EXIT
export CHULTARVI="${RUN-} $program"
passed=0 failed=0
# measured STATUS WORD...: what measure.py says, in $said
measured() {
    want=$1
    shift
    said=$(python3 "$root/books/measure.py" --book "$book" --half all "$@" 2>&1)
    got=$?
    [ $got = "$want" ] && passed=$((passed + 1)) || { failed=$((failed + 1)); echo "failed: status $got, not $want: $*"; }
}
has() { case $said in *"$1"*) passed=$((passed + 1)) ;; *) failed=$((failed + 1)); printf 'failed: not said: %s\n  said: %s\n' "$1" "$said" ;; esac; }
# field LABEL, the text on standard input: as DEP-5 has it, with a space before each line and a dot on an empty one
field() {
    printf 'License: %s\n' "$1"
    sed 's/^$/./; s/^/ /'
    echo
}
gpl() {
    echo 'This program is free software; you can redistribute it and/or modify it under the terms of the GNU General Public License as published by'
    echo 'the Free Software Foundation; either version 2 of the License, or (at your option) any later version.'
}
if ! command -v python3 >/dev/null; then
    echo 'not run here: books/measure.py (no python3)'
    echo '0 passed, 0 failed'
    exit 0
fi

mkdir "$work/files"
{
    echo 'Format: https://www.debian.org/doc/packaging-manuals/copyright-format/1.0/'
    echo
    sed -n '5,$p' "$note" | field Expat
    sed -n '5,$p' "$note" | field Expat
    sed -n '5,$p' "$note" | field ISC
    gpl | field GPL-2
    echo 'anyone may take this and do with it what pleases them on every second tuesday' | field Zlib
    echo 'see elsewhere' | field Zlib
    gpl | field 'GPL-2+ or Expat'
} >"$work/files/copyright"
echo 'This file does not follow the form.' >"$work/files/other"
measured 0 "$work/files"
has '1 License fields that stand elsewhere too are left out'
has '1 License fields with labels that name no single SPDX licence are left out'
has '1 License fields without a text of their own are left out'
has 'threshold 0.9: 4 texts'
has '     1  25.0 %  right
     1  25.0 %  right but for only / or-later
     1  25.0 %  wrong
     1  25.0 %  none'
measured 0 --list "$work/files"
has 'ISC: ISC; said MIT'
has 'GPL-2: GPL-2.0-only; said GPL-2.0-or-later'
has 'Zlib: Zlib; said None'
measured 0 --files 5 "$work/files"
has 'only 1 files have two or more licences of the book'
has '1 files, 4 licences labelled, 2 found, 0 files with all found, 0 names not labelled'
measured 2 "$work/files/other"
has 'no labelled text; name copyright files that follow DEP-5'
measured 2 "$work/nowhere"
has 'is not there; name copyright files or folders of them'
# --accents: files that are ASCII, of edition 3, above it, no UTF-8, the same again, and too large
mkdir "$work/accents"
accented() { sed "3s/The Bracket Works/$1/" "$note"; }
accented 'Bracket' >"$work/accents/ascii"
{
    echo 'Format: https://www.debian.org/doc/packaging-manuals/copyright-format/1.0/'
    echo 'Copyright: José Müller'
    sed -n '5,$p' "$note" | field Expat
    { gpl; echo 'and not for the café of the author'; } | field GPL-2+
} >"$work/accents/wide"
accented 'Łódź' >"$work/accents/above"
accented "$(printf 'Jos\351')" >"$work/accents/latin"
cp "$work/accents/latin" "$work/accents/again"
head -c 1048577 /dev/zero | tr '\0' '\251' >"$work/accents/large"
measured 0 --accents "$work/accents"
has '4 files of at most 1,048,576 bytes, each content once
1 ASCII files: 1 are answered alike, 0 otherwise
3 other files: 3 were refused for their characters, 2 are now
1 files are read now; 1 of them have 2 labelled licences of the book: 2 found, 0 names not labelled; before, with --ascii: 2 found, 0 names not labelled
of the 2 refused 1 have characters above U+00FF, 1 are no UTF-8
most often U+0141 in 1, U+017A in 1
1 labelled texts are not ASCII, 1 of them are taken; now, and before with --ascii:
     1      1  right
     0      0  right but for only / or-later'
measured 2 --accents --before "$work/none" "$work/accents"
has 'none is not there; books/make.sh makes the default books'
book=$work/none measured 2 "$work/files"
has 'books/make.sh makes the default books'

echo "$passed passed, $failed failed"
[ $failed = 0 ]
