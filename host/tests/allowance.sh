#!/bin/sh
# shellcheck disable=SC1091,SC2015,SC2034,SC2086,SC2094,SC2154
# Tests of scan --allowance, run by host/test.sh: allowance.sh PROGRAM FAULTY BOOK NOTE (common.sh says which they are). One number for all notes in their
# order: what is said of each and at the end, in words, in JSON and on a page, what charges it and what does not, and which words go together.
# allowance.py holds more notes.
set -u
. "$(dirname "$0")/common.sh"
larger='alone, or all with a larger one'
stopped="refused (12): stopped by the allowance; scan this note $larger"
# of each note the refusal, its scorings, those behind its scan, and what is used until then
spent='[[n.get("refusal"), n.get("scorings"), n.get("more"), n["used"]] for n in notes]'

# usage: each wrong word is said with what to do instead, and nothing is scanned
for wrong in '' x -1 +1 1.5 1x ' 1' 0x10 1e3 18446744073709551616; do
    run 2 scan --allowance "$wrong" a.book two
    err_is "chultarvi: --allowance wants a number of scorings, not '$wrong'"
    out_is ''
done
run 2 scan a.book two --allowance
err_is 'chultarvi: --allowance wants a value'
for words in '--allowance 9 --budget 9' '--budget 9 --allowance 9' '--budget=0 --allowance=0'; do
    run 2 scan $words a.book two
    err_is 'chultarvi: --budget has no meaning with --allowance, which pays for all notes together; leave one of them out'
    out_is ''
done
for words in '--allowance 9 -j 2' '-j 256 --allowance 9' '--jobs=2 --allowance=9'; do
    run 2 scan $words a.book two license
    err_is 'chultarvi: --allowance pays for the notes one after another, so -j above 1 has no meaning; leave -j out, or give each note its own by --budget'
    out_is ''
done
run 0 scan --allowance 9 -j 1 a.book license
run 2 scan --allowance 9 a.book
err_is 'chultarvi: scan wants a book and at least one note; chultarvi scan --help tells more'
so 0 "$program scan --help"
out_has '--allowance N'

# in words: all is paid; the last note is stopped; all behind it are, at 0 scorings
two='no licence as a whole (best score 0.6667, 2m/t = 2*2/6)'
unread='2 lines with words are in no range; --thorough looks there'
whole="two: $two
  line 2: A, original, score 1.0000, 2m/t = 2*2/4
  $unread
  20 scorings, 1 more behind the scan"
license='license: A, original, score 1.0000, 2m/t = 2*2/4
  1 scoring'
run 0 scan --allowance 100 a.book two license
out_is "$whole
$license
22 of 100 scorings of the allowance used"
err_is ''
run 0 scan --allowance 22 a.book two license
out_is "$whole
$license
22 of 22 scorings of the allowance used"
run 1 scan --allowance 21 a.book two license
out_is "$whole
license: not known as a whole; stopped by the allowance
  0 scorings
21 of 21 scorings of the allowance used; it stopped 1 note: scan it $larger"
err_is "chultarvi: license: $stopped"
run 1 scan --allowance 30 a.book two two license two
out_is "$whole
two: $two; stopped by the allowance
  line 2: A, original, score 1.0000
  9 scorings
license: not known as a whole; stopped by the allowance
  0 scorings
two: not known as a whole; stopped by the allowance
  0 scorings
30 of 30 scorings of the allowance used; it stopped 3 notes: scan them $larger"
err_is "chultarvi: two: $stopped
chultarvi: license: $stopped
chultarvi: two: $stopped"
# not stopped, though m and t of its range are not paid
run 0 scan --allowance 20 a.book two
out_is "two: $two
  line 2: A, original, score 1.0000
  $unread
  20 scorings
20 of 20 scorings of the allowance used"
run 1 scan --allowance 0 a.book two license
out_has '
0 of 0 scorings of the allowance used; it stopped 2 notes: scan them '
run 1 scan --allowance 1 a.book license license
out_has '
1 of 1 scoring of the allowance used; it stopped 1 note: scan it '
run 0 scan --allowance 18446744073709551615 a.book two
out_is "$whole
21 of 18446744073709551615 scorings of the allowance used"
run 1 scan --top-down 1 --allowance 13 a.book two two
out_has '
two: no range; stopped by the allowance
  0 scorings
13 of 13 scorings of the allowance used; '

# in JSON: used with each note, exact, and no line at the end; without --allowance no such field
run 0 scan --json --allowance 100 a.book two license
json "$spent" '[[0, 20, 1, 21], [0, 1, 0, 22]]'
[ "$(wc -l <.out)" = 2 ] && good || bad 'JSON has another line'
run 1 scan --json --allowance 50 a.book two two two license
json "$spent" '[[0, 20, 1, 21], [0, 20, 1, 42], [12, 8, 0, 50], [12, 0, 0, 50]]'
json '[n.get("message") for n in notes]' "[null, null, \"$stopped\", \"$stopped\"]"
run 1 scan --json --allowance 0 a.book two
out_is "{\"note\":\"two\",\"refusal\":12,\"message\":\"$stopped\",\"licence\":null,\"kind\":null,\"score\":null,\"m\":null,\"t\":null,\"rival\":null,\"scorings\":0,\"ranges\":[],\"unheld\":3,\"more\":0,\"used\":0}"
run 0 scan --json --allowance 18446744073709551615 a.book two
json "$spent" '[[0, 20, 1, 21]]'
run 1 scan --json --budget 3 a.book two umlaut
json '["used" in n for n in notes]' '[false, false]'
run 0 scan --json --no-optimize --allowance 2 a.book two license
json "$spent" '[[0, 1, 0, 1], [0, 1, 0, 2]]'
# a budget is each note's own, as it was
for words in '' '-j 2'; do
    run 0 scan --json --budget 21 $words a.book two license two
    json '[[n["scorings"], n["more"]] for n in notes]' '[[20, 1], [1, 0], [20, 1]]'
done

# what charges nothing: a note that is refused, one that cannot be read, and an unsound book
run 2 scan --json --allowance 22 a.book umlaut two nowhere over license lines-over .
json "$spent" '[[2, null, null, 0], [0, 20, 1, 21], [null, null, null, 21], [1, null, null, 21], [0, 1, 0, 22], [3, null, null, 22], [null, null, null, 22]]'
run 2 scan --allowance 22 a.book umlaut two nowhere over license lines-over .
out_is "$whole
$license
22 of 22 scorings of the allowance used"
run 1 scan --json --allowance 5 cut.book two license
json "$spent" '[[4, null, null, 0], [4, null, null, 0]]'
run 1 scan --allowance 5 empty two
out_is '0 of 5 scorings of the allowance used'
# refused, and nothing is left: the refusal comes before 12
run 1 scan --json --allowance 0 a.book umlaut two
json "$spent" '[[2, null, null, 0], [12, 0, 0, 0]]'
from two 0 scan --json --allowance 30 a.book license -
json "$spent" '[[0, 1, 0, 1], [0, 20, 1, 22]]'
run 0 scan --json --allowance 30 --ascii a.book umlaut two
json "$spent" '[[0, 9, 0, 9], [0, 20, 1, 30]]'
run 0 scan --json --allowance 100 a.book --beside a.book two license
json '[n["used"] for n in notes] == [sum(n["scorings"] + n["more"] for n in notes[:k]) for k in (1, 2)]' true

# all that is scored for a note is charged: further scans, a look for a rival, the next licence
words alpha 40 >alpha
words long 240 >decoy
{ cat alpha; echo; sed -n 'p;n' decoy; } >mixed
printf 'Alpha original alpha\nDecoy original decoy\nTwin original alpha\n' >list
$program book desk.book list >/dev/null 2>&1
for words in '' --second --thorough '--thorough --second' '--top-down 1' '--no-optimize'; do
    run 0 scan --json $words desk.book mixed alpha
    json '[n["more"] > 0 for n in notes][1]' true
    all=$(python3 -c 'import json; print(sum(n["scorings"] + n["more"] for n in map(json.loads, open(".out"))))')
    run 0 scan --json $words --allowance "$all" desk.book mixed alpha
    json '[n["used"] for n in notes][1]' "$all"
done
run 0 scan --json --thorough desk.book mixed
own=$(python3 -c 'import json; print(json.load(open(".out"))["scorings"])')
run 1 scan --json --thorough --allowance "$own" desk.book mixed alpha
json "$spent" "[[0, $own, 0, $own], [12, 0, 0, $own]]"
json '[n["stopped"] for n in notes]' '[true, false]'
run 1 scan --thorough --allowance "$own" desk.book mixed alpha
out_has '  the further scans were stopped by the allowance
'
out_has "
$own of $own scorings of the allowance used; it stopped 2 notes: scan them $larger"

# folders: the line is behind theirs; one without a note uses nothing
mkdir folder none
cp two folder/1 && cp license folder/2 && cp umlaut folder/3
run 1 scan -r --allowance 21 a.book folder
out_is "folder/1: ${whole#two: }
folder/2: not known as a whole; stopped by the allowance
  0 scorings
folder: 3 notes
21 of 21 scorings of the allowance used; it stopped 1 note: scan it $larger"
run 0 scan -r --allowance 21 a.book none
out_is 'none: 0 notes
0 of 21 scorings of the allowance used'
run 1 scan -r --json --allowance 21 a.book folder
json '[n.get("used") for n in notes]' '[21, 21, 21, null]'

# on a page: which of the two stopped a note, and the last line
run 1 scan --allowance 21 --html page a.book two license
run 1 scan --json --allowance 21 --html page-2 a.book two license
same page page-2
grep -q "^<p>21 of 21 scorings of the allowance used; it stopped 1 note: scan it $larger\$" page && good || bad 'the page does not say what is used'
grep -q 'not known as a whole; stopped by the allowance' page && grep -q "$stopped" page && good || bad 'the page does not say that the allowance stopped'
run 1 scan --budget 0 --html page a.book two
grep -q allowance page && bad 'a page of a budget names an allowance' || good

# standard output that takes nothing
to_full scan --allowance 30 a.book two license
to_full scan --json --allowance 30 a.book two license

the_end
