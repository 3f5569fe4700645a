#!/bin/sh
# shellcheck disable=SC1091,SC2015,SC2034,SC2059,SC2086,SC2154
# Tests of the subcommand scan, run by host/test.sh: line.sh PROGRAM FAULTY BOOK NOTE (common.sh says which they are). The other commands are tested
# in commands.sh.
set -u
. "$(dirname "$0")/common.sh"
scan_help='chultarvi scan --help tells more'
unread='in no range; --thorough looks there'

# usage
run 2 scan a.book
err_is "chultarvi: scan wants a book and at least one note; $scan_help"
run 2 scan --frob a.book two
err_is "chultarvi: --frob: scan has no such option; $scan_help"
run 2 scan -x a.book two
err_is "chultarvi: -x: scan has no such option; $scan_help"
run 2 scan --json=yes a.book two
err_is 'chultarvi: --json takes no value'
run 2 scan --threshold
err_is 'chultarvi: --threshold wants a value'
run 2 scan --threshold x a.book two
err_is "chultarvi: --threshold wants a number from 0.0 to 1.0, not 'x'"
run 2 scan --threshold '' a.book two
run 2 scan --shallow 0.5x a.book two
err_is "chultarvi: --shallow wants a number from 0.0 to 1.0, not '0.5x'"
run 2 scan --passes 65536 a.book two
err_is "chultarvi: --passes wants a whole number up to 65535, not '65536'"
run 0 scan --passes 65535 a.book two
run 2 scan --passes -1 a.book two
run 2 scan --budget 18446744073709551616 a.book two
err_is "chultarvi: --budget wants a number of scorings, not '18446744073709551616'"
run 0 scan --budget 18446744073709551615 a.book two
run 2 scan --top-down 1.5 a.book two
err_is "chultarvi: --top-down wants a number of lines, at least 1, not '1.5'"
run 2 scan --top-down 1 --passes 3 a.book two
err_is 'chultarvi: --passes and --no-optimize have no meaning with --top-down'
run 2 scan --no-optimize --passes 3 a.book two
err_is 'chultarvi: --passes has no meaning with --no-optimize'
# scan: the marked text, for people
run 0 scan a.book two
out_is "two: no licence as a whole (best score 0.6667, 2m/t = 2*2/6)
  line 2: A, original, score 1.0000, 2m/t = 2*2/4
  2 lines with words are $unread
  20 scorings, 1 more behind the scan"
err_is ''
run 0 scan a.book license
out_is 'license: A, original, score 1.0000, 2m/t = 2*2/4
  1 scoring'
run 0 scan --threshold 1 a.book license
out_has 'no licence as a whole (best score 1.0000, 2m/t = 2*2/4)'
run 0 scan --no-optimize a.book two
out_is "two: no licence as a whole (best score 0.6667, 2m/t = 2*2/6)
  3 lines with words are $unread
  1 scoring"
run 0 scan --passes 0 a.book two
out_is "two: no licence as a whole (best score 0.6667, 2m/t = 2*2/6)
  3 lines with words are $unread
  1 scoring"
run 0 scan --threshold=0.5 --shallow=0.6 a.book two
out_is 'two: A, original, score 0.6667, 2m/t = 2*2/6
  1 scoring'
run 0 scan --top-down 1 a.book two
out_has 'two: ranges
  line 2: A, original, score 1.0000, 2m/t = 2*2/4'
run 0 scan --top-down 1 a.book empty
out_has 'empty: no range'
run 0 scan --threshold 0 --top-down 1 a.book empty
out_has 'no line, after line 1: A, original, score 0.0000'
run 1 scan --budget 8 a.book two
out_is 'two: no licence as a whole (best score 0.6667, 2m/t = 2*2/6); stopped by the budget
  8 scorings'
err_is 'chultarvi: two: refused (12): stopped by the budget'
run 1 scan --budget 9 a.book two
out_is 'two: no licence as a whole (best score 0.6667, 2m/t = 2*2/6); stopped by the budget
  line 2: A, original, score 1.0000
  9 scorings'
run 1 scan --budget 0 a.book two
out_is 'two: not known as a whole; stopped by the budget
  0 scorings'
# m and t of a range take one scoring more, where the budget has it
run 0 scan --budget 20 a.book two
out_has 'line 2: A, original, score 1.0000
'
run 0 scan --budget 21 a.book two
out_has 'line 2: A, original, score 1.0000, 2m/t = 2*2/4
'
out_has '20 scorings, 1 more behind the scan'
run 0 scan --json --budget 20 a.book two
json '[notes[0][key] for key in ("score", "m", "t", "more")] + [[r["m"], r["t"]] for r in notes[0]["ranges"]]' '[0.666666687, 2, 6, 0, [null, null]]'
run 1 scan --top-down 1 --budget 1 a.book two
out_has 'two: no range; stopped by the budget'
from two 0 scan a.book -
out_has '-: no licence as a whole'
from a.book 0 scan - two
out_has 'two: no licence as a whole'
from two 2 scan a.book - -
err_is 'chultarvi: -: cannot be read: standard input is read already'
cp two ./-
run 0 scan -- a.book ./-
out_has './-: no licence'
run 0 scan default.book example
out_has ': MIT, original, score 0.9446, 2m/t = 2*162/343
  lines 5 to 22: MIT, original, score 1.0000, 2m/t = 2*162/324'

# scan: refusals, and a note in trouble among others
run 1 scan a.book over
err_is 'chultarvi: over: refused (1): the text is over 1,048,576 bytes; cut it into parts'
run 2 scan a.book /dev/zero
err_is 'chultarvi: /dev/zero: cannot be read: it is a FIFO or a device, which is skipped; a note is a regular file, or - for standard input'
run 1 scan a.book umlaut
err_has 'refused (2): the text is not ASCII: line 2, byte 5 is 0xc3'
out_is ''
run 1 scan a.book lines-over
err_has 'refused (3): the text is over 65,536 lines; cut it into parts'
run 0 scan --no-optimize a.book lines
run 1 scan --top-down 1 --budget 3 a.book lines
run 1 scan cut.book two
err_is 'chultarvi: two: refused (4): the book is not sound; make it anew by chultarvi book'
run 1 scan /dev/zero two
err_is 'chultarvi: two: refused (4): the book is not sound; make it anew by chultarvi book'
run 1 scan empty two
err_is 'chultarvi: two: refused (5): the book has no stored text; make one by chultarvi book'
# said once, however many notes there are
for limit in -0.1 1.1 nan inf 1.0000001; do
    run 2 scan --threshold "$limit" a.book two license
    err_is "chultarvi: --threshold wants a number from 0.0 to 1.0, not '$limit'"
    out_is ''
    run 2 scan a.book two --shallow "$limit" license
    err_is "chultarvi: --shallow wants a number from 0.0 to 1.0, not '$limit'"
done
run 2 scan --top-down 0 a.book two license
err_is "chultarvi: --top-down wants a number of lines, at least 1, not '0'"
run 2 scan nowhere two
err_is 'chultarvi: nowhere: cannot be read: No such file or directory'
run 2 scan a.book license nowhere . umlaut license
out_is 'license: A, original, score 1.0000, 2m/t = 2*2/4
  1 scoring
license: A, original, score 1.0000, 2m/t = 2*2/4
  1 scoring'
err_has 'chultarvi: nowhere: cannot be read: No such file or directory
chultarvi: .: cannot be read: it is a folder; -r scans the files in it
chultarvi: umlaut: refused (2)'
run 1 scan a.book license umlaut license
# the same memory serves a long note and the short ones around it
run 1 scan --no-optimize a.book license most over two
out_is "license: A, original, score 1.0000, 2m/t = 2*2/4
  1 scoring
most: no licence as a whole (best score 0.0000, 2m/t = 2*0/2)
  1 scoring
two: no licence as a whole (best score 0.6667, 2m/t = 2*2/6)
  3 lines with words are $unread
  1 scoring"

# scan: JSON
run 0 scan --json a.book two license
out_is '{"note":"two","refusal":0,"licence":null,"kind":null,"score":0.666666687,"m":2,"t":6,"rival":null,"scorings":20,"ranges":[{"licence":"A","kind":"original","number":0,"first":1,"after":2,"start":22,"end":41,"score":1,"m":2,"t":4,"rival":false}],"unheld":2,"more":1}
{"note":"license","refusal":0,"licence":"A","kind":"original","score":1,"m":2,"t":4,"rival":false,"scorings":1,"ranges":[],"unheld":0,"more":0}'
run 1 scan --json --budget 0 a.book two
out_is '{"note":"two","refusal":12,"message":"refused (12): stopped by the budget","licence":null,"kind":null,"score":null,"m":null,"t":null,"rival":null,"scorings":0,"ranges":[],"unheld":3,"more":0}'
run 0 scan --json --top-down 9 a.book license
out_has '"licence":null,"kind":null,"score":null,"m":null,"t":null,"rival":null,"scorings":'
run 2 scan --json a.book nowhere umlaut
json '[sorted(n) for n in notes]' '[["note", "trouble"], ["message", "note", "offset", "refusal"]]'
out_is '{"note":"nowhere","trouble":"No such file or directory"}
{"note":"umlaut","refusal":2,"message":"refused (2): the text is not ASCII: line 2, byte 5 is 0xc3, of U+00E4; a BOOK of edition 3 takes it (debian-3.book, or yours made anew by chultarvi book --edition 3); --ascii scans it with such characters mapped or dropped","offset":8}'
err_is ''
odd=$(printf 'q" b\\ t\tn\nc\033 \302\205 \303\244 \377 \355\240\200 \303')
cp license "$odd"
run 0 scan --json a.book "$odd"
out_has "$(printf '{"note":"q\\" b\\\\ t\\tn\\nc\\u001b \\udcc2\\udc85 \303\244 \\udcff \\udced\\udca0\\udc80 \\udcc3","refusal":0')"
[ "$(wc -l <.out)" = 1 ] && good || bad 'JSON is not one line'
json 'os.fsencode(notes[0]["note"]) == os.fsencode("""q" b\\ t\tn\nc\x1b """) + b"\xc2\x85 \xc3\xa4 \xff \xed\xa0\x80 \xc3"' true
run 0 scan a.book "$odd"
out_has "$(printf 'q" b\\\\ t\\tn\\nc\\x1b \\xc2\\x85 \303\244 \\xff \\xed\\xa0\\x80 \\xc3: A')"
printf '"\\<&>\047 original license\n' >list
run 0 book odd.book list
run 0 scan --json odd.book license
out_has '"licence":"\"\\<&>'"'"'","kind":"original"'
json 'notes[0]["licence"]' '"\"\\<&>'"'"'"'

# scan: where options may stand: anywhere before '--'
run 0 scan a.book --no-optimize two
out_is "two: no licence as a whole (best score 0.6667, 2m/t = 2*2/6)
  3 lines with words are $unread
  1 scoring"
run 0 scan --json a.book --no-optimize --threshold=0.5 two
json '[n["licence"] for n in notes]' '["A"]'
run 2 scan --top-down 1 a.book --passes 3 two
err_is 'chultarvi: --passes and --no-optimize have no meaning with --top-down'
run 2 scan a.book --budget 5
err_is "chultarvi: scan wants a book and at least one note; $scan_help"
run 2 scan a.book --
err_is "chultarvi: scan wants a book and at least one note; $scan_help"
run 2 scan a.book --frob two
err_is "chultarvi: --frob: scan has no such option; $scan_help"
cp license ./-x
cp license ./--json
for words in '-- a.book -x' 'a.book -- -x' 'a.book --no-optimize -- -x'; do
    run 0 scan $words
    out_is '-x: A, original, score 1.0000, 2m/t = 2*2/4
  1 scoring'
done
run 0 scan a.book -- ./-x -x --json
out_is './-x: A, original, score 1.0000, 2m/t = 2*2/4
  1 scoring
-x: A, original, score 1.0000, 2m/t = 2*2/4
  1 scoring
--json: A, original, score 1.0000, 2m/t = 2*2/4
  1 scoring'
run 0 scan a.book ./-x --json license
json '[n["note"] for n in notes]' '["./-x", "license"]'
run 2 scan a.book -x
err_is "chultarvi: -x: scan has no such option; $scan_help"
run 2 scan a.book "$(printf -- '-\001')" two
err_is "chultarvi: -\\x01: scan has no such option; $scan_help"
run 0 scan a.book license --budget 5
out_has 'license: A, original, score 1.0000, 2m/t = 2*2/4'
run 2 scan a.book license --budget
err_is 'chultarvi: --budget wants a value'
for words in 'scan -h' 'scan --help' 'scan a.book --help license' 'scan --budget 1 -h'; do
    run 0 $words
    out_has '--thorough'
    err_is ''
done
run 0 scan -- a.book license
out_has 'license: A'

# scan: a second book beside
printf 'another text of some words' >other
printf 'B original other\n' >list
run 0 book b.book list
printf 'A original other\n' >list
run 0 book other-a.book list
cp a.book again.book
from_a='license: A, original, score 1.0000, 2m/t = 2*2/4, from a.book
  2 scorings'
for words in 'a.book --beside b.book' '--beside b.book a.book' '--beside=b.book a.book' 'b.book --beside a.book' 'a.book --beside again.book' \
    'a.book --beside a.book' 'other-a.book --beside a.book' 'a.book --beside other-a.book' '--beside b.book -- a.book' 'a.book --beside b.book --'; do
    run 0 scan $words license
    out_is "$from_a"
    err_is ''
done
run 0 scan again.book --beside a.book license
out_has 'A, original, score 1.0000, 2m/t = 2*2/4, from again.book'
run 0 scan a.book license
out_is 'license: A, original, score 1.0000, 2m/t = 2*2/4
  1 scoring'
{ cat two; printf '\n\n'; cat other; } >mixed
run 0 scan b.book --beside a.book mixed
out_is "mixed: no licence as a whole (best score 0.6154, 2m/t = 2*4/13)
  line 6: B, original, score 1.0000, 2m/t = 2*4/8, from b.book
  line 2: A, original, score 1.0000, 2m/t = 2*2/4, from a.book
  2 lines with words are $unread
  39 scorings, 2 more behind the scan"
run 0 scan b.book --beside a.book --top-down 1 mixed
out_has 'mixed: ranges
  line 2: A, original, score 1.0000, 2m/t = 2*2/4, from a.book
  line 6: B, original, score 1.0000, 2m/t = 2*4/8, from b.book'
run 0 scan --json b.book --beside a.book license mixed
out_has '{"note":"license","refusal":0,"licence":"A","book":"a.book","kind":"original","score":1,"m":2,"t":4,"rival":false,"scorings":2,"ranges":[],"unheld":0,"more":0}
{"note":"mixed","refusal":0,"licence":null,"book":null,"kind":null,'
json '[[r["licence"], r["book"], r["number"], r["first"], r["after"]] for r in notes[1]["ranges"]]' '[["B", "b.book", 0, 5, 6], ["A", "a.book", 1, 1, 2]]'
run 0 scan --json --top-down 1 a.book --beside b.book mixed
json '[notes[0]["licence"], notes[0]["book"], [r["number"] for r in notes[0]["ranges"]]]' '[null, null, [0, 1]]'
run 0 scan --json a.book mixed
json '"book" in notes[0] or any("book" in r for r in notes[0]["ranges"])' false

# the second book: its name, its file, its soundness, its texts
run 2 scan a.book --beside b.book --beside b.book license
err_is 'chultarvi: --beside stands twice; a scan takes one book beside BOOK'
run 2 scan --beside b.book a.book --beside again.book license
err_is 'chultarvi: --beside stands twice; a scan takes one book beside BOOK'
run 2 scan a.book --beside '' license
err_is "chultarvi: --beside wants a book, not ''"
run 2 scan a.book --beside= license
err_is "chultarvi: --beside wants a book, not ''"
run 2 scan a.book --beside
err_is 'chultarvi: --beside wants a value'
run 2 scan a.book --beside b.book
err_is "chultarvi: scan wants a book and at least one note; $scan_help"
run 2 scan a.book --beside nowhere license
err_is 'chultarvi: nowhere: cannot be read: No such file or directory'
out_is ''
run 2 scan --json a.book --beside . license
err_is 'chultarvi: .: cannot be read: Is a directory'
out_is ''
run 1 scan a.book --beside cut.book license two
err_is 'chultarvi: license: refused (4): the book cut.book is not sound; make it anew by chultarvi book
chultarvi: two: refused (4): the book cut.book is not sound; make it anew by chultarvi book'
out_is ''
run 1 scan cut.book --beside a.book license
err_is 'chultarvi: license: refused (4): the book cut.book is not sound; make it anew by chultarvi book'
run 1 scan empty --beside cut.book license
err_is 'chultarvi: license: refused (4): the book cut.book is not sound; make it anew by chultarvi book'
run 1 scan cut.book --beside cut.book license
err_is 'chultarvi: license: refused (4): neither book is sound; make them anew by chultarvi book'
run 1 scan a.book --beside /dev/zero license
err_is 'chultarvi: license: refused (4): the book /dev/zero is not sound; make it anew by chultarvi book'
run 1 scan --json a.book --beside cut.book license
json notes '[{"note": "license", "refusal": 4, "message": "refused (4): the book cut.book is not sound; make it anew by chultarvi book"}]'
run 1 scan empty --beside empty license
err_is 'chultarvi: license: refused (5): neither book has a stored text; make one by chultarvi book'
run 0 scan a.book --beside empty license
out_is 'license: A, original, score 1.0000, 2m/t = 2*2/4, from a.book
  1 scoring'
run 0 scan empty --beside a.book license
out_is 'license: A, original, score 1.0000, 2m/t = 2*2/4, from a.book
  1 scoring'
run 1 scan a.book --beside b.book umlaut
err_has 'umlaut: refused (2): the text is not ASCII: line 2, byte 5 is 0xc3'
run 1 scan b.book --beside a.book --budget 1 license
out_is 'license: not known as a whole; stopped by the budget
  1 scoring'
run 1 scan --json b.book --beside a.book --budget 1 license
json '[notes[0][k] for k in ("refusal", "licence", "book", "score", "scorings")]' '[12, null, null, null, 1]'
run 0 scan b.book --beside a.book --budget 2 license
out_is "$from_a"
run 1 scan b.book --beside a.book --budget 2 two
out_is 'two: no licence as a whole (best score 0.6667, 2m/t = 2*2/6); stopped by the budget
  2 scorings'
run 1 scan b.book --beside a.book --threshold 0.6 --budget 2 two
out_is 'two: A, original, score 0.6667, 2m/t = 2*2/6, from a.book; stopped by the budget
  2 scorings'
from a.book 0 scan b.book --beside - license
out_has 'license: A, original, score 1.0000, 2m/t = 2*2/4, from -'
from a.book 2 scan - --beside - license
err_is 'chultarvi: -: cannot be read: standard input is read already'
out_is ''
from a.book 2 scan b.book --beside - - license
err_is 'chultarvi: -: cannot be read: standard input is read already'
out_has 'license: A, original, score 1.0000, 2m/t = 2*2/4, from -'
cp b.book "$odd.book"
run 0 scan a.book --beside "$odd.book" other
out_has "$(printf 'other: B, original, score 1.0000, 2m/t = 2*4/8, from q" b\\\\ t\\tn\\nc\\x1b \\xc2\\x85 \303\244 \\xff \\xed\\xa0\\x80 \\xc3.book')"
run 0 scan --json a.book --beside "$odd.book" other
json 'os.fsencode(notes[0]["book"]) == os.fsencode("""q" b\\ t\tn\nc\x1b """) + b"\xc2\x85 \xc3\xa4 \xff \xed\xa0\x80 \xc3.book"' true
cp cut.book "$odd.book"
run 1 scan --json a.book --beside "$odd.book" other
json 'notes[0]["message"].endswith(" \\xff \\xed\\xa0\\x80 \\xc3.book is not sound; make it anew by chultarvi book")' true
# 1,024 texts in each, and the last of all is the one
awk 'BEGIN { for (i = 0; i < 1024; i++) printf "N%04d original other\n", i }' >list
run 0 book most.book list
awk 'BEGIN { for (i = 0; i < 1024; i++) printf "M%04d original %s\n", i, i < 1023 ? "other" : "license" }' >list
run 0 book maker.book list
run 0 scan most.book --beside maker.book license
out_is 'license: M1023, original, score 1.0000, 2m/t = 2*2/4, from maker.book
  2048 scorings'
run 0 scan --json most.book --beside maker.book two
json '[[r["licence"], r["book"], r["number"]] for r in notes[0]["ranges"]]' '[["M1023", "maker.book", 2047]]'
# the memory that host/README.md names, in MiB; a second book's is taken only for one
broken memory-101 0 scan a.book license
broken memory-101 2 scan a.book --beside b.book license
err_has 'no memory for'
broken memory-117 0 scan a.book --beside b.book license
broken memory-117 0 scan default.book license
broken memory-117 2 scan -j 2 a.book license license
err_has 'no memory for'
broken read 2 scan a.book two
err_has 'a.book: cannot be read: Input/output error'

# standard output that takes nothing
for words in 'scan a.book two' 'scan --json a.book two license'; do to_full $words; done
# a note that may not be read
printf secret >closed
chmod 000 closed
as=
[ "$(id -u)" != 0 ] || as='setpriv --reuid=65534 --clear-groups'
if [ -z "$as" ] || { command -v setpriv >/dev/null && $as $program --version >/dev/null 2>&1; }; then
    ran='scan of a closed note'
    $as $program scan a.book closed license >.out 2>.err
    got=$? out=$(cat .out) err=$(cat .err)
    judge 2
    err_is 'chultarvi: closed: cannot be read: Permission denied'
    out_has 'license: A, original'
else
    echo 'not run here: a note that may not be read (root, and no setpriv)'
fi

# progress: several notes and a terminal, not else
if command -v script >/dev/null; then
    ran='scan in a terminal'
    script -qec "$program scan a.book two license" /dev/null </dev/null >.out 2>&1
    got=$? out=$(cat .out) err=
    judge 0
    out_has '2 of 2: license'
    script -qec "$program scan a.book two" /dev/null </dev/null >.out 2>&1
    out=$(cat .out)
    case $out in *' of 1'* | *"$(printf '\033')"*) bad 'progress of one note' ;; *) good ;; esac
else
    echo 'not run here: progress (no script)'
fi
run 0 scan a.book two license
err_is ''

the_end
