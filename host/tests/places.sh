#!/bin/sh
# shellcheck disable=SC1091,SC2015,SC2016,SC2034,SC2059,SC2086,SC2094,SC2154
# Tests of places, of --show and of the file of --html, run by host/test.sh: places.sh PROGRAM FAULTY BOOK NOTE (common.sh says which they are). Places in
# marked cases, which options go together, what a page may not write over, and a page that cannot be written. places.py and page.py hold more notes.
set -u
. "$(dirname "$0")/common.sh"
# nothing here may wait for ever
soon="timeout 60 $program"

# places: [first, after, start, end] of each range
at='[[r[key] for key in ("first", "after", "start", "end")] for r in notes[0]["ranges"] + notes[0].get("further", [])]'
# placed BYTES PLACES OPTION...: of a note, for printf
placed() {
    printf "$1" >placed
    want_places=$2
    shift 2
    run 0 scan --json "$@" placed
    json "$at" "$want_places"
}
one='--threshold 0.6 --shallow 1 --passes 1 a.book'
placed 'copyright 20xx me irl\n// My First License\nfn hello() {\n ...' '[[1, 2, 22, 41]]' $one
placed 'copyright 20xx me irl\r\n// My First License\r\nfn hello() {\r\n ...' '[[1, 2, 23, 43]]' $one
placed 'My First License' '[[0, 1, 0, 16]]' $one
placed 'My First License\n' '[[0, 2, 0, 17]]' $one
placed '\nMy First License' '[[1, 2, 1, 17]]' $one
placed 'x\nMy First License\ny' '[[1, 2, 2, 18]]' $one
none='--threshold 0 --shallow 1 --passes 1 a.book'
placed '' '[[1, 1, 0, 0]]' $none
placed '' '[[1, 1, 0, 0]]' --threshold 0 --top-down 1 a.book
placed 'x\ny' '[[2, 2, 3, 3]]' $none
placed 'x\ny\n' '[[3, 3, 4, 4]]' $none
placed 'my first\n\n\n\nMy First License\n\nmy first' '[[4, 6, 12, 29], [6, 6, 30, 30]]' --threshold 0 --passes 2 a.book
# top-down, lines that are the licence and another in turn: above 0.0 each is a range and a line stands between; at 0.0 it is not so
down='--top-down 1 --shallow 1 --threshold'
turns='My First License\nx\nMy First License\nx\nMy First License'
for threshold in 0.8 1e-45; do
    placed 'My First License\nx' '[[0, 1, 0, 16]]' $down $threshold a.book
    placed "$turns" '[[0, 1, 0, 16], [2, 3, 19, 35], [4, 5, 38, 54]]' $down $threshold a.book
done
for threshold in 0 -0.0 1e-46; do
    placed 'My First License\nx' '[[2, 2, 18, 18]]' $down $threshold a.book
    placed "$turns" '[[4, 5, 38, 54]]' $down $threshold a.book
done
# --ascii: bytes of the file, where it dropped, shortened and lengthened what stands before, within and around the lines
placed '\342\202\254x\342\200\246\n\357\273\277My \342\200\234First\342\200\235 License\342\202\254\r\ny' '[[1, 2, 8, 37]]' --ascii $one
placed '\351\377\n\255My First License\n\303' '[[1, 2, 3, 20]]' --ascii $one
placed 'x\342\202\254\ny\342\202\254' '[[2, 2, 9, 9]]' --ascii $none
printf 'A original license\n' >list
for edition in 2 3; do
    run 0 book a-$edition.book list --edition $edition
    placed '\303\251\342\202\254\nMy First \342\200\224 License\n\303\251' '[[1, 2, 6, 26]]' --ascii ${one%a.book}a-$edition.book
done
placed '\303\251 \303\240\nMy First License \302\251\n\303\251' '[[1, 2, 6, 25]]' ${one%a.book}a-3.book
# --thorough: counted from the note's start, also an empty range at a part's end, what is the whole of a part, and with --ascii
placed 'my first\nzz\n\nqq first license\nend' '[[0, 1, 0, 8], [2, 2, 12, 12], [3, 4, 13, 29], [5, 5, 33, 33]]' --thorough --threshold 0 --passes 1 a.book
words alpha 40 >alpha
words beta 40 >beta
words long 240 >decoy
sed -n 'p;n' decoy >half
printf 'Alpha original alpha\nBeta original beta\nDecoy original decoy\n' >list
run 0 book desk.book list
{ cat alpha; echo; sed -n 1,5p half; echo; cat beta; echo; sed -n 6,15p half; } >all
sed 's/long/\xe2\x82\xaclong/g' all >all.odd
for way in 'all' '--ascii all.odd' '--top-down 50 all'; do
    run 0 scan --json --thorough desk.book $way
    json '[[r["licence"], r["first"], r["after"], bytes_of(notes[0]["note"])[r["start"] : r["end"]] == bytes_of(r["licence"].lower())[:-1]]
        for r in notes[0]["further"] for bytes_of in [lambda name: open(name, "rb").read()]]' '[["Alpha", 0, 5, true], ["Beta", 12, 17, true]]'
done

# --show: under what is said of each range; without it nothing changes
run 0 scan --show a.book two
out_is 'two: no licence as a whole (best score 0.6667, 2m/t = 2*2/6)
  line 2: A, original, score 1.0000, 2m/t = 2*2/4
    | // My First License
  2 lines with words are in no range; --thorough looks there
  20 scorings, 1 more behind the scan'
loose='--threshold 0.5 --shallow 1 --passes 1'
printf 'x\n\t\033[31m My First \\ License \001\177\r\nx' >odd
run 0 scan --show $loose a-3.book odd
out_has "
    | $(printf '\t')\\x1b[31m My First \\\\ License \\x01\\x7f\\x0d
"
printf 'x\n\302\251 My First License \342\200\256\342\202\254\351 \303\251\nx' >odd
run 0 scan --show --ascii $loose a-3.book odd
out_has '
    | © My First License \xe2\x80\xae€\xe9 é
'
run 0 scan --show --threshold 0 --passes 1 --shallow 1 a.book empty
out_is 'empty: no licence as a whole (best score 0.0000, 2m/t = 2*0/2)
  no line, after line 1: A, original, score 0.0000, 2m/t = 2*0/2
  6 scorings, 1 more behind the scan'
run 0 scan --show --thorough desk.book all
out_has "  further, lines 1 to 5: Alpha, original, score 1.0000, 2m/t = 2*39/78
$(sed 's/^/    | /' alpha)
"
run 2 scan --show --json a.book two
err_is 'chultarvi: --show has no meaning with --json; cut the lines from the note by `start` and `end` of each range'
run 2 scan --show --no-optimize a.book two
err_is 'chultarvi: --show has no meaning with --no-optimize, which looks for no ranges; --thorough does'
run 0 scan --show --no-optimize --thorough desk.book all
out_has '    | alpha'
run 2 scan --show=yes a.book two
err_is 'chultarvi: --show takes no value'

# --html: which words it takes
run 2 scan a.book two --html
err_is 'chultarvi: --html wants a value'
run 2 scan a.book two --html ''
err_is "chultarvi: --html wants a file, not ''"
run 2 scan a.book two --html -
err_is 'chultarvi: --html wants a file, since standard output has the answers; ./- is one of that name'
run 2 scan a.book two --html one --html two
err_is 'chultarvi: --html stands twice; one page has all notes'
[ ! -e one ] && [ ! -e ./- ] && good || bad 'a page stands there'

# the page beside the answers, which stay; the same bytes by any number of threads, and again
run 1 scan --thorough desk.book all umlaut alpha
cp .out alone.out
cp .err alone.err
run 1 scan --thorough --html page desk.book all umlaut alpha
same .out alone.out
same .err alone.err
cp page kept
for jobs in 1 2 7; do
    run 1 scan --thorough --html page -j $jobs desk.book all umlaut alpha
    same page kept
done
run 0 scan --html ./- a.book two
[ -s ./- ] && good || bad 'no page of the name -'
rm ./-
from two 0 scan --html page a.book -
grep -q '<h2><span>-</span>' page && good || bad 'no note from standard input'
mkdir bare
run 0 scan -r --html page a.book bare
out_is 'bare: 0 notes'
grep -q '<p>bare: 0 notes' page && good || bad 'no word of the folder'
# its mode is that of a new file, or of the file that stood there; a link stays one
rm page
so 0 "umask 027; $program scan --html page a.book two"
[ "$(stat -c %a page)" = 640 ] && good || bad "mode $(stat -c %a page)"
chmod 604 page
ln -s page link
run 0 scan --html link a.book two
[ -L link ] && [ "$(stat -c %a page)" = 604 ] && grep -q '<h2><span>two</span>' page && good || bad 'not written through the link'
rm link

# a strip of ranges that lie side by side, and not a word of it where they may not
printf "$turns" >turns
strips() { # strips COUNT OPTION...: so many on the page, whose head then speaks of them
    count=$1
    shift
    run 0 scan --html page "$@" a.book turns license empty
    [ "$(grep -c '<div class="strip' page)" = "$count" ] && good || bad "$(grep -c '<div class="strip' page) strips, not $count"
    [ "$(grep -c 'A strip above' page)" = $((count > 0)) ] && good || bad 'its head speaks of strips where there are none, or does not'
}
strips 2 --top-down 1
strips 2 --top-down 1 --threshold 1e-45
for none in '--top-down 1 --threshold 0' '--top-down 1 --threshold -0.0' '--top-down 1 --threshold 1e-46' '--threshold 0' '--threshold 0.8' '--thorough'; do
    strips 0 $none
done
rm page

# what is read here is not written over, by whatever name; nothing is scanned
mkdir tree
cp license tree/note
ln -s tree/note link
ln two hard
printf old >page
over='--html would write over it, and it is a note, a book or the answers of this scan; name another file, outside of folders that -r walks'
safe() { # safe FILE WORD...: the file stays as it is
    written=$1
    shift
    cp "$written" before
    run 2 scan --html "$written" "$@"
    err_is "chultarvi: $written: $over"
    out_is ''
    same "$written" before
}
safe two a.book license two
safe ./two a.book two
safe a.book a.book two
cp a.book b.book
safe b.book a.book --beside b.book two
safe link a.book tree/note
safe tree/note a.book link
safe hard a.book two
safe tree/note -r a.book tree
cp two input
so 2 "$program scan --html input a.book - <input"
err_is "chultarvi: input: $over"
same input two
printf old >answers
so 2 "$program scan --html answers a.book two >>answers"
err_is "chultarvi: answers: $over"
holds answers old
so 2 "$program scan --html answers a.book two 2>>answers"
holds answers "oldchultarvi: answers: $over"
no_beside

# a page that cannot be written: the notes are scanned, it is said what to do, and nothing is left
run 0 scan a.book two license
cp .out alone.out
trouble() { # trouble FILE MESSAGE
    run 2 scan --html "$1" a.book two license
    err_is "chultarvi: $1: $2"
    same .out alone.out
    no_beside
}
trouble nowhere/page 'no new page stands there: No such file or directory; make its folder, or name another file behind --html, and scan again'
trouble two/page 'no new page stands there: Not a directory; name another file behind --html, and scan again'
trouble . 'no page can stand there, since it is no regular file; name another file behind --html, and scan again'
trouble /dev/null 'no page can stand there, since it is no regular file; name another file behind --html, and scan again'
mkfifo pipe
trouble pipe 'no page can stand there, since it is no regular file; name another file behind --html, and scan again'
mkdir closed
chmod 555 closed
as=
[ "$(id -u)" != 0 ] || as='setpriv --reuid=65534 --clear-groups'
if [ -z "$as" ] || { command -v setpriv >/dev/null && $as $program --version >/dev/null 2>&1; }; then
    ran='scan to a closed folder'
    $as $program scan --html closed/page a.book two license >.out 2>.err
    got=$? out=$(cat .out) err=$(cat .err)
    judge 2
    err_is 'chultarvi: closed/page: no new page stands there: Permission denied; name another file behind --html, and scan again'
    same .out alone.out
else
    echo 'not run here: a folder that may not be written (root, and no setpriv)'
fi

# faults on the way: either the page is whole and new, or what stood there stands
run 0 scan --html whole a.book two license
again='chultarvi: --html: name another file, or mend what is said of this one, and scan again'
fails() { # fails FAULT MESSAGE
    cp page kept
    broken "$1" 2 scan --html kept a.book two license
    err_has "kept: $2"
    same .out alone.out
    same kept page
    no_beside
}
fails write 'no new page stands there: No space left on device; make room there, or name another file behind --html, and scan again'
fails fsync "not written: Input/output error; what was there is unchanged
$again"
fails rename "not written: Permission denied; what was there is unchanged
$again"
broken folder 2 scan --html kept a.book two license
err_has "kept: written, but its folder is not flushed to disk: Input/output error
$again"
same kept whole
# every read, write and close in turn; the reads of books and notes come before, and fail by themselves
for call in read write close; do
    number=1 new=0 old=0
    while [ $number -le 16 ]; do
        cp page kept
        FAULT=$call-at-$number $faulty scan --html kept a.book two license >.out 2>.err </dev/null
        got=$? out=$(cat .out) err=$(cat .err) ran="FAULT=$call-at-$number scan --html"
        if cmp -s kept whole && [ $got = 0 ]; then new=$((new + 1))
        elif [ $got = 2 ] && [ -n "$err" ] && { cmp -s kept page || grep -q 'cannot be read' kept; }; then old=$((old + 1)) new=0
        else bad "status $got, and a page that is neither"
        fi
        no_beside
        number=$((number + 1))
    done
    [ $new -ge 3 ] && [ $old -ge 1 ] && good || bad "$call: $old times no new page, $new whole ones at the end"
done
cp page kept
broken write-slow 0 scan --html kept a.book two license
same kept whole
# a kill before the end leaves what stood there, and while notes are scanned nothing beside it; one that can wait does
cp page kept
broken write-kill 137 scan --html kept a.book two license
same kept page
no_beside
broken rename-kill 137 scan --html kept a.book two license
same kept page
rm -f ./.chultarvi.*
broken rename-term 143 scan --html kept a.book two license
same kept whole
no_beside
# over a limit of a file's size, and without a reader: no page, and nothing beside
cp page kept
i=0
while [ $i -lt 40 ]; do
    printf 'My First License and some more words on the line\n\n\n'
    i=$((i + 1))
done >long
so 2 "ulimit -f 1; $program scan --html kept a.book long"
err_has 'kept: no new page stands there: File too large; make room there, or name another file'
same kept page
so 2 "$program scan --html kept a.book two license two license >/dev/full"
err_is 'chultarvi: kept: no new page stands there: standard output takes nothing, so not all notes were scanned; mend that, and scan again
chultarvi: standard output: No space left on device'
same kept page
no_beside
# an interrupt while notes are scanned: at once, and nothing is left
words hum 90000 >hum
for signal in INT TERM; do
    ran="scan --html, then SIG$signal"
    timeout -s $signal 2 $program scan --top-down 1 --html kept default.book hum >.out 2>.err
    got=$? out=$(cat .out) err=$(cat .err)
    judge 124
    same kept page
    no_beside
done

# the most lines and as many ranges as a note can have: the page grows with them
awk 'BEGIN { for (i = 0; i < 32767; i++) printf "My First License\n\n" }' >ranges
so 0 "$soon scan --top-down 1 --html page a.book ranges"
lines=$(grep -c '<li>' page) labels=$(grep -c 'class="label"' page)
[ "$lines" = 65535 ] && [ "$labels" = "$(grep -c '^  lines ' .out)" ] && [ "$labels" -gt 16000 ] && good || bad "$lines lines, $labels labels"
# a range in every other of them, and each has its piece in the strip, with a line behind it
awk 'BEGIN { for (i = 0; i < 32768; i++) printf "%sMy First License\nx", i ? "\n" : "" }' >ranges
so 0 "$soon scan --top-down 1 --html page a.book ranges"
labels=$(grep -c 'class="label"' page) pieces=$(grep -c '^<a href="#n1r[0-9]*" style="--n:1;' page) gaps=$(grep -c '^<span style="--n:1"></span>$' page)
[ "$labels $pieces $gaps" = '32768 32768 32768' ] && good || bad "$labels labels, $pieces pieces, $gaps gaps"
[ "$(wc -c <page)" -lt 33554432 ] && good || bad "a page of $(wc -c <page) bytes"
# a note of the most bytes, all of them to be escaped
head -c 1048576 /dev/zero >zeros
so 0 "$soon scan --no-optimize --html page a.book zeros"
[ "$(wc -c <page)" -gt 4194304 ] && [ "$(wc -c <page)" -lt 8388608 ] && good || bad "a page of $(wc -c <page) bytes"
# and one of those that take the most room: a quote and a byte that is not seen in turn, 8.5 bytes each
awk 'BEGIN { for (i = 0; i < 524288; i++) printf "\"\001" }' >quotes
so 0 "$soon scan --no-optimize --html page a.book quotes"
[ "$(wc -c <page)" -gt 8388608 ] && [ "$(wc -c <page)" -lt 9437184 ] && good || bad "a page of $(wc -c <page) bytes"

the_end
