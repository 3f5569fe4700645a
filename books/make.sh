#!/bin/sh
# Makes the default book in each edition from the texts that books/debian.list names, out of Debian packages that are fetched and unpacked, not
# installed, and from the notices composed below. Writes books/debian.book, books/debian-2.book and books/debian-3.book, of editions 1 to 3, or the three
# files named, once all are made. Characters that an edition does not take are mapped or dropped as `scan --ascii` does, and the texts that have some
# which are not ASCII are said. No root rights are needed. CHULTARVI, where it is set, is the program, by words that hold in any folder.
set -eu
books=$(cd "$(dirname "$0")" && pwd)
list=$books/debian.list
work=$(mktemp -d) beside=
trap 'rm -rf "$work" ${beside:+"$beside"}' EXIT
trap 'exit 129' HUP
trap 'exit 130' INT
trap 'exit 143' TERM

stop() {
    echo "make.sh: $1" >&2
    exit 2
}

# ---- what has to stand before anything is fetched

case $# in
0) set -- "$books/debian.book" "$books/debian-2.book" "$books/debian-3.book" ;;
3) ;;
*) stop 'name three files, for editions 1 to 3, or none' ;;
esac
if [ "$1" = "$2" ] || [ "$2" = "$3" ] || [ "$1" = "$3" ]; then stop 'one file cannot be of two editions; name three'; fi
for out; do
    [ -d "$(dirname "$out")" ] || stop "$out: its folder is not there"
done
# program WORD...: the program, in the work folder
program() { (cd "$work" && ${CHULTARVI:-"$books/../host/run.sh"} "$@"); }
program --version >/dev/null || stop "the program does not run; is CHULTARVI, where it is set, right in any folder?"

# ---- packages

# fetch PACKAGE VERSION: unpacks the package; where the archive has that version no more, the one that it has, and says so
fetch() {
    mkdir "$work/deb"
    (cd "$work/deb" && apt-get download "$1=$2") >"$work/apt" 2>&1 || (cd "$work/deb" && apt-get download "$1") >"$work/apt" 2>&1 || {
        cat "$work/apt" >&2
        stop "$1 cannot be fetched; is this Debian 12, and has 'apt-get update' been run?"
    }
    version=$(dpkg-deb -f "$work/deb/"*.deb Version)
    [ "$version" = "$2" ] || echo "make.sh: warning: $1 is $version here, but books/debian.list was made with $2; the book may differ" >&2
    dpkg-deb -x "$work/deb/"*.deb "$work/root"
    rm -r "$work/deb"
}

# part FILE PART: the text itself. '-' is the whole file, 'body' what follows the second line '---', 'license' what follows the line
# '__LICENSE__', and 'FIRST ... LAST' the lines from the first that holds FIRST to the next that holds LAST, without signs of comments in front.
# Empty lines in front go: a title is known as such only on the first line.
part() {
    case $1 in *.gz) zcat "$1" ;; *) cat "$1" ;; esac | LC_ALL=C awk -v part="$2" -v html="$(case $1 in *.html) echo 1 ;; esac)" '
        BEGIN { at = index(part, " ... "); first = substr(part, 1, at - 1); last = substr(part, at + 5) }
        function put(line) { if (begun || line ~ /[^ \t]/) { begun = 1; print line } }
        part == "-" { put($0); next }
        part == "body" { if (rules >= 2) put($0); if ($0 == "---") rules++; next }
        part == "license" { if (/^__[A-Z_]*__$/) inside = 0; if (inside) put($0); if ($0 == "__LICENSE__") inside = 1; next }
        !inside && !done && index($0, first) { inside = 1 }
        inside { line = $0; if (html) gsub(/<[^<>]*>/, "", line); sub(/^([.]?[\\]"|[#*; \t])+/, "", line); put(line) }
        inside && index($0, last) { inside = 0; done = 1 }
        END { if (at && !done) exit 1 }'
}

# next NAME KIND: one more text, whose place is $text; it has the licence's name, for what `book` says of it
next() {
    number=$((number + 1))
    text=$work/$1.$number
    echo "$1 $2 $1.$number" >>"$work/list"
}

# stored NAME KIND PACKAGE FILE PART
stored() {
    file=$work/root$(awk -v package="$3" '$1 == "package" && $2 == package { print $4 }' "$list")/$4
    [ ! -L "$file" ] || stop "$4 of $3 is a link; name the file itself in books/debian.list"
    [ -f "$file" ] || stop "$3 has no file $4; the line of $1 in books/debian.list needs another"
    next "$1" "$2"
    part "$file" "$5" >"$text" || stop "$4 of $3 has no text '$5'"
    [ -s "$text" ] || stop "$4 of $3 has no text '$5'"
}

# ---- the FSF's notices. A version is one or two word pairs of some hundred, an address a dozen: so every form stands for every licence and version.
# Where a form stands for some only, a notice in that form is named after those, whatever its version.

grant() { # SUBJECT TITLE VERSION FORM
    echo "This $1 is free software; you can redistribute it and/or modify it under the terms of"
    fsf='as published by the Free Software Foundation'
    case $4 in
    later) echo "the GNU $2 Public License $fsf; either version $3 of the License, or (at your option) any later version." ;;
    comma) echo "the GNU $2 Public License $fsf; either version $3, or (at your option) any later version." ;;
    dated-later) echo "the GNU $2 Public License $fsf; version $3 dated $(dated "$2" "$3"), or (at your option) any later version." ;;
    only) echo "the GNU $2 Public License $fsf; version $3 of the License." ;;
    before) echo "the GNU $2 Public License version $3 $fsf." ;;
    front) echo "version $3 of the GNU $2 Public License $fsf." ;;
    v) echo "the GNU $2 Public License v$3 $fsf." ;;
    dated) echo "the GNU $2 Public License $fsf; version $3 dated $(dated "$2" "$3")." ;;
    esac
}
dated() { # TITLE VERSION
    case $2,$1 in
    1,*) echo "February, 1989" ;;
    2,*) echo "June, 1991" ;;
    2.1,*) echo "February, 1999" ;;
    3,Affero*) echo "November, 2007" ;;
    3,*) echo "June, 2007" ;;
    esac
}
warranty() { # SUBJECT TITLE
    echo
    echo "This $1 is distributed in the hope that it will be useful, but WITHOUT ANY WARRANTY; without even the implied warranty of"
    echo "MERCHANTABILITY or FITNESS FOR A PARTICULAR PURPOSE.  See the GNU $2 Public License for more details."
}
copy() { # SUBJECT TITLE END
    [ "$3" != none ] || return 0
    echo
    echo "You should have received a copy of the GNU $2 Public License along with this $1"
    case $3 in
    url) echo ".  If not, see <https://www.gnu.org/licenses/>." ;;
    street) echo "; if not, write to the Free Software Foundation, Inc., 51 Franklin Street, Fifth Floor, Boston, MA 02110-1301 USA." ;;
    esac
}
notice() { # NAME TITLE VERSION FORM SUBJECT END TITLE-BELOW
    next "$1" header
    {
        grant "$5" "$2" "$3" "$4"
        [ "$6" = grant ] || warranty "$5" "$7"
        case $5,$6 in
        *,grant) ;;
        package,*) copy program "$7" "$6" ;; # so Debian's own template ends
        *) copy "$5" "$7" "$6" ;;
        esac
    } >"$text"
}
notices() { # NAME TITLE VERSION
    case $1 in *-or-later) forms='later dated-later comma' ;; *) forms='only before v dated front' ;; esac
    for form in $forms; do
        case $form in
        later | only | before) subjects='program library package' ends='grant none url street' ;;
        v) subjects='program library' ends='grant none url street' ;;
        dated*) subjects=program ends='grant none street' ;;
        comma | front) subjects=program ends='grant none' ;;
        esac
        for subject in $subjects; do
            [ "$subject" != package ] || ends='url street'
            for end in $ends; do notice "$1" "$2" "$3" "$form" "$subject" "$end" "$2"; done
            case $form,$subject,$2 in dated* | comma,* | front,* | *,package,*) ;;
            *' '*) # the licence is named once, and the GPL after that
                for end in url street; do notice "$1" "$2" "$3" "$form" "$subject" "$end" General; done ;;
            esac
        done
    done
    case $3 in *.*) return ;; esac
    for form in $forms; do # the version written 2.0
        case $form in later | only | before) for end in grant none url street; do notice "$1" "$2" "$3.0" "$form" program "$end" "$2"; done ;; esac
    done
}
documents() { # NAME VERSION
    case $1 in *-or-later) later='or any later version ' ;; *) later= ;; esac
    for end in '' 'A copy of the license is included in the section entitled "GNU Free Documentation License".'; do
        next "$1" header
        {
            echo "Permission is granted to copy, distribute and/or modify this document under the terms of the GNU Free Documentation License,"
            echo "Version $2 ${later}published by the Free Software Foundation;"
            case $1 in
            *-no-invariants-*) echo "with no Invariant Sections, no Front-Cover Texts, and no Back-Cover Texts." ;;
            *-invariants-*) echo "with the Invariant Sections being LIST THEIR TITLES, with the Front-Cover Texts being LIST, and with the Back-Cover Texts being LIST." ;;
            esac
            echo "$end"
        } >"$text"
    done
}

mozilla() { # NAME VERSION: the notice of version 2, and that of versions 1 with the place of the licence and without
    next "$1" header
    {
        echo "This Source Code Form is subject to the terms of the Mozilla Public License, v. $2."
        echo "If a copy of the MPL was not distributed with this file, You can obtain one at https://mozilla.org/MPL/$2/."
    } >"$text"
    for place in "You may obtain a copy of the License at http://www.mozilla.org/MPL/" ''; do
        next "$1" header
        {
            echo "The contents of this file are subject to the Mozilla Public License Version $2 (the \"License\"); you may not use this file except in"
            echo "compliance with the License. $place"
            echo
            echo "Software distributed under the License is distributed on an \"AS IS\" basis, WITHOUT WARRANTY OF ANY KIND, either express or implied."
            echo "See the License for the specific language governing rights and limitations under the License."
        } >"$text"
    done
}

# ---- the BSD licences: so many clauses, and who gives the software, each for each

clauses() { # NAME CLAUSES
    for party in holder author foundation regents; do
        case $party,$2 in
        holder,*) whole='THE COPYRIGHT HOLDERS AND CONTRIBUTORS' liable='THE COPYRIGHT HOLDER OR CONTRIBUTORS' by='the organization' ;;
        author,*) whole='THE AUTHOR' liable='THE AUTHOR' by='the author' ;;
        foundation,*) whole='THE FOUNDATION, INC. AND CONTRIBUTORS' liable='THE FOUNDATION OR CONTRIBUTORS' by='The Foundation, Inc. and its contributors' ;;
        regents,4) continue ;; # BSD-4-Clause-UC
        regents,*) whole='THE REGENTS AND CONTRIBUTORS' liable='THE REGENTS OR CONTRIBUTORS' by= ;;
        esac
        next "$1" alternate
        conditions "$2" $party >"$text"
    done
}
conditions() { # CLAUSES PARTY
    echo "Redistribution and use in source and binary forms, with or without modification, are permitted provided that the following conditions are met:"
    echo "1. Redistributions of source code must retain the above copyright notice, this list of conditions and the following disclaimer."
    [ "$1" -lt 2 ] || echo "2. Redistributions in binary form must reproduce the above copyright notice, this list of conditions and the following disclaimer
in the documentation and/or other materials provided with the distribution."
    [ "$1" -lt 4 ] || echo "3. All advertising materials mentioning features or use of this software must display the following acknowledgement:
This product includes software developed by $by."
    [ "$1" -lt 3 ] || case $2 in
    holder) echo "$1. Neither the name of the copyright holder nor the names of its contributors may be used to endorse or promote products" ;;
    author) echo "$1. The name of the author may not be used to endorse or promote products" ;;
    foundation) echo "$1. Neither the name of The Foundation nor the names of its contributors may be used to endorse or promote products" ;;
    regents) echo "$1. Neither the name of the University nor the names of its contributors may be used to endorse or promote products" ;;
    esac
    [ "$1" -lt 3 ] || echo "derived from this software without specific prior written permission."
    echo "
THIS SOFTWARE IS PROVIDED BY $whole \"AS IS\" AND ANY EXPRESS OR IMPLIED WARRANTIES, INCLUDING, BUT NOT LIMITED TO, THE IMPLIED WARRANTIES
OF MERCHANTABILITY AND FITNESS FOR A PARTICULAR PURPOSE ARE DISCLAIMED. IN NO EVENT SHALL $liable BE LIABLE FOR ANY DIRECT, INDIRECT, INCIDENTAL,
SPECIAL, EXEMPLARY, OR CONSEQUENTIAL DAMAGES (INCLUDING, BUT NOT LIMITED TO, PROCUREMENT OF SUBSTITUTE GOODS OR SERVICES; LOSS OF USE, DATA, OR
PROFITS; OR BUSINESS INTERRUPTION) HOWEVER CAUSED AND ON ANY THEORY OF LIABILITY, WHETHER IN CONTRACT, STRICT LIABILITY, OR TORT (INCLUDING
NEGLIGENCE OR OTHERWISE) ARISING IN ANY WAY OUT OF THE USE OF THIS SOFTWARE, EVEN IF ADVISED OF THE POSSIBILITY OF SUCH DAMAGE."
}

# put FILE PLACE WORDS: beside its place first, so that nobody reads half a book; WORDS is what `book` said of it
put() {
    beside=$(mktemp "$2.XXXXXX") || stop "$2: its folder cannot be written"
    if ! { cp "$1" "$beside" && chmod 644 "$beside" && mv -fT "$beside" "$2"; }; then
        stop "$2: cannot be put in place; what was there is unchanged"
    fi
    beside=
    echo "$2: ${3#*: }"
}

# ---- the books

mkdir "$work/root"
while read -r word package version _; do
    [ "$word" != package ] || fetch "$package" "$version"
done <"$list"
number=0
: >"$work/list"
while read -r name kind package file part; do
    case $name in '' | '#'* | package) continue ;; esac
    case $kind in
    alias) echo "$name alias $part" >>"$work/list" ;;
    bare) echo "$name original /dev/null" >>"$work/list" ;;
    notices) notices "$name" "${part% *}" "${part##* }" ;;
    documents) documents "$name" "$part" ;;
    mozilla) mozilla "$name" "$part" ;;
    clauses) clauses "$name" "$part" ;;
    *) stored "$name" "$kind" "$package" "$file" "$part" ;;
    esac
done <"$list"
# All are made before one is put in place. What --ascii changes for edition 1 is said: for 2 that is the same, for 3 a part of it.
for edition in 1 2 3; do
    program book --ascii --edition $edition $edition.book list >"$work/made.$edition" 2>"$work/said.$edition" || {
        cat "$work/said.$edition" >&2
        stop 'no book is made; what stood there is unchanged'
    }
done
cat "$work/said.1" >&2
edition=0
for out; do
    edition=$((edition + 1))
    put "$work/$edition.book" "$out" "$(cat "$work/made.$edition")"
done
