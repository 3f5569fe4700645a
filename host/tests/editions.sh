#!/bin/sh
# shellcheck disable=SC1091,SC2015,SC2034,SC2059,SC2086,SC2094,SC2154
# Tests of editions on the command line, run by host/test.sh: editions.sh PROGRAM FAULTY BOOK NOTE (common.sh says which they are). How an edition is
# asked for, what a book of each holds and says, scans by either, whole and by parts of books, and two books of differing editions.
set -u
. "$(dirname "$0")/common.sh"

bytes() { printf '\002\000\000\000\006\000\002\000'; }
bytes >just-2.book
cat just-2.book a.book >a-2.book
printf 'A original license\n' >list

# --edition: 1, 2 or 3, of compile and book alone, wherever options may stand; what is wrong is said, and nothing is written
for command in 'compile license -o made' 'book made list'; do
    name=${command%% *}
    for wrong in 0 4 5 00 10 256 258 259 65537 65538 65539 4294967297 4294967299 18446744073709551618 x 2x x2 -1 -2 +2 ' 2' '2 ' 2.0 1,2 two; do
        run 2 $command --edition "$wrong"
        err_is "chultarvi: --edition wants 1, 2 or 3, not '$wrong'; $(tells $name)"
        out_is ''
        run 2 $command "--edition=$wrong"
        err_is "chultarvi: --edition wants 1, 2 or 3, not '$wrong'; $(tells $name)"
    done
    run 2 $command --edition ''
    err_is "chultarvi: --edition: wants a value that is not empty; $(tells $name)"
    run 2 $command --edition=
    err_is "chultarvi: --edition: wants a value that is not empty; $(tells $name)"
    run 2 $command --edition
    err_is "chultarvi: --edition: wants a value; $(tells $name)"
    run 2 $command --edition 2 --edition 2
    err_is "chultarvi: --edition: stands twice; $(tells $name)"
    run 2 $command -- --edition 2
    [ ! -e made ] && good || bad 'something is written'
    run 0 $name --help
    out_has '[--edition N]'
    out_has '  --edition N   '
done
for command in 'check a.book' 'list a.book'; do
    run 2 $command --edition 2
    err_is "chultarvi: --edition: no such option; $(tells ${command%% *})"
done
run 2 scan a.book license --edition 2
err_is 'chultarvi: --edition: scan has no such option; chultarvi scan --help tells more'
for words in '--edition 2 made.book list' 'made.book --edition 2 list' 'made.book list --edition 2' '--edition=2 -- made.book list' '--ed 2 made.book list' \
    'made.book --ascii list --edition 2'; do
    rm -f made.book
    run 0 book $words
    out_is 'made.book: 66 bytes, 1 stored text, edition 2'
    err_is ''
    same made.book a-2.book
done

# without --edition a list gives the bytes of before, and so does --edition 1
printf 'a 4' >four
{ printf '\001\000\000\000\001\000A\010\000\000\000\002\000'; head -c 8 /dev/zero; } >four-1
{ bytes; printf '\001\000\000\000\001\000A\023\000\000\000\002\000\001\000\000\000\001\000\000\000\001\000\000\000\003\000\000\000a 4'; } >four-2
printf 'A original four\n' >four.list
for edition in '' '--edition 1'; do
    run 0 book made.book list $edition
    out_is 'made.book: 58 bytes, 1 stored text, edition 1'
    same made.book a.book
    run 0 book made.book four.list $edition
    same made.book four-1
    run 0 compile four $edition
    out_is 'four: a table of 8 bytes, 0 bigrams, 0 of them distinct, edition 1'
    run 0 compile license -o made $edition
    same made table
done
run 0 book made.book four.list --edition 2
out_is 'made.book: 40 bytes, 1 stored text, edition 2'
err_is ''
same made.book four-2
run 0 compile four --edition 2
out_is 'four: a table of 19 bytes, 1 bigrams, 1 of them distinct, edition 2'
run 0 compile license --edition 2 -o made
same made table
run 0 compile four --edition 2 -o -
tail -c 19 four-2 >want
same .out want
run 1 compile --edition 2 umlaut
err_is 'chultarvi: umlaut: refused (2): the text is not ASCII: line 2, byte 5 is 0xc3, of U+00E4; --edition 3 takes it'
run 1 compile --edition 2 over
err_has 'refused (1)'

# the digit alone tells two texts apart in edition 2
printf 'use the GPL version 4 now' >g4
printf 'use the GPL version now' >g5
printf 'G4 original g4\nG5 original g5\n' >gpl.list
run 0 book gpl-1.book gpl.list
err_is 'chultarvi: gpl.list: line 2: warning: G5 original has the same table as G4 original, line 1; a scan names G4 for both'
run 0 book gpl-2.book gpl.list --edition 2
err_is ''
run 0 scan gpl-1.book g5 g4
out_is 'g5: G4, original, score 1.0000, 2m/t = 2*4/8
    but as high: G5, original, score 1.0000, 2m/t = 2*4/8
  2 scorings, 1 more behind the scan
g4: G4, original, score 1.0000, 2m/t = 2*4/8
    but as high: G5, original, score 1.0000, 2m/t = 2*4/8
  2 scorings, 1 more behind the scan'
run 0 scan --json gpl-2.book g5 g4
json '[[n["licence"], n["score"], n["rival"]] for n in notes]' '[["G5", 1, false], ["G4", 1, false]]'
run 0 scan --json --second gpl-2.book g5
json '[notes[0]["second"]["licence"], 0.5 < notes[0]["second"]["score"] < 1]' '["G4", true]'

# what check and list say; a list of no lines, a book of an edition's record alone
run 0 check a.book a-2.book empty just-2.book
out_is 'a.book: sound, 1 licence, 1 stored text, edition 1
a-2.book: sound, 1 licence, 1 stored text, edition 2
empty: sound, 0 licences, 0 stored texts, edition 1
just-2.book: sound, 0 licences, 0 stored texts, edition 2'
from a-2.book 0 check -
out_is '-: sound, 1 licence, 1 stored text, edition 2'
run 0 list a-2.book
out_is 'A: original 2 bigrams, 2 distinct
a-2.book: 1 licence, 1 stored text, 0 aliases, 66 bytes, edition 2'
run 0 list --json a-2.book
out_is '{"licence":"A","texts":[{"kind":"original","number":0,"bigrams":2,"distinct":2}],"aliases":[],"edition":2}'
run 0 book none.book empty --edition 2
out_is 'none.book: 8 bytes, 0 stored texts, edition 2'
same none.book just-2.book
run 0 list just-2.book
out_is 'just-2.book: 0 licences, 0 stored texts, 0 aliases, 8 bytes, edition 2'
run 0 list --json just-2.book
out_is ''
run 1 scan just-2.book license
err_is 'chultarvi: license: refused (5): the book has no stored text; make one by chultarvi book'
printf 'a b a b a b' >pairs
printf 'B alias x\nB original two\nA header two\nA alias z\nA alternate pairs\nA alias b"\\\nA original license\nC original pairs' >mixed.list
run 0 book mixed-1.book mixed.list
run 0 book mixed-2.book mixed.list --edition 2
cat just-2.book mixed-1.book >want
same mixed-2.book want
run 0 list mixed-1.book
sed 's/^mixed-1/mixed-2/; s/ [0-9]* bytes, edition 1$/ '"$(wc -c <mixed-2.book)"' bytes, edition 2/' .out >want
run 0 list mixed-2.book
same .out want
run 0 list --json mixed-1.book
sed 's/"edition":1}$/"edition":2}/' .out >want
run 0 list --json mixed-2.book
same .out want
json '[n["edition"] for n in notes]' '[2, 2, 2]'
run 0 check mixed-2.book
out_is 'mixed-2.book: sound, 3 licences, 5 stored texts, edition 2'
# the record of an edition that is none, or elsewhere than in front
unsound() { # unsound BYTES: before the book A
    { printf "$1"; cat a.book; } >wrong.book
    run 1 check wrong.book
    err_is 'chultarvi: wrong.book: refused (4): the book is not sound; make it anew by chultarvi book'
    run 1 list wrong.book
    out_is ''
    run 1 scan wrong.book license
    err_is 'chultarvi: license: refused (4): the book is not sound; make it anew by chultarvi book'
}
unsound '\002\000\000\000\006\000\001\000'
unsound '\002\000\000\000\006\000\004\000'
unsound '\002\000\000\000\006\000\000\002'
unsound '\001\000\000\000\006\000\002'
unsound '\003\000\000\000\006\000\002\000\000'
unsound '\002\000\000\000\006\000\002\000\002\000\000\000\006\000\002\000'
cat a.book just-2.book >wrong.book
run 1 check wrong.book
head -c 7 just-2.book >wrong.book
run 1 check wrong.book
run 1 scan wrong.book --beside a-2.book license
err_is 'chultarvi: license: refused (4): the book wrong.book is not sound; make it anew by chultarvi book'
# a book that would be over the limit, one that cannot be written, and texts in trouble: what stood there stays
awk 'BEGIN { for (i = 0; i < 149000; i++) printf "%c%05x ", 103 + i % 20, i }' >wide
for i in 1 2 3 4 5 6; do echo "N$i original wide"; done >wide.list
cp a-2.book stands.book
run 1 book stands.book wide.list --edition 2
err_is 'chultarvi: wide.list: line 6: with this the book would be over 16,777,216 bytes; make two of the list
chultarvi: stands.book: no new book stands there'
same stands.book a-2.book
printf 'A original umlaut\n' >wrong.list
run 1 book stands.book wrong.list --edition 2
same stands.book a-2.book
broken write 2 book stands.book four.list --edition 2
err_has 'stands.book: not written: No space left on device; what was there is unchanged'
same stands.book a-2.book
no_beside

# scans of notes without the digit, by every way: books of editions 2 and 3 answer as one of edition 1 does
words alpha 40 >alpha
words beta 40 >beta
{ words gamma 16; echo; words delta 16; echo; words epsilon 16; } >gamma
words long 240 >decoy
sed -n 'p;n' decoy >half
{ cat alpha; echo; sed -n 1,5p half; echo; cat beta; echo; sed -n 6,10p half; echo; cat gamma; echo; sed -n 11,15p half; } >all
words idle 24 >idle
{ cat idle; echo; cat alpha; } >behind
cp alpha twin
printf 'Alpha original alpha\nBeta original beta\nGamma original gamma\nDecoy original decoy\nTwin original twin\nAlpha alias x\n' >desk.list
printf 'Own original idle\nBeta original beta\nBeta header alpha\n' >own.list
for edition in 1 2 3; do
    mkdir "by-$edition"
    $program book "by-$edition/desk.book" desk.list --edition $edition >/dev/null 2>&1
    $program book "by-$edition/own.book" own.list --edition $edition >/dev/null 2>&1
done
take_books() { cp "by-$1/desk.book" "by-$1/own.book" .; }
mkdir folder
cp behind half folder
for way in '' --thorough --second '--thorough --second' '--top-down 5' '--top-down 5 --thorough --second' --no-optimize '--threshold 0.5 --shallow 0.6 --thorough' \
    '--thorough -j 3' '--second -j 2' '--thorough --budget 60' '--second --budget 9'; do
    for beside in '' '--beside own.book'; do
        for as in '' --json; do
            take_books 1
            $program scan -r $as $way desk.book $beside all alpha idle folder >one.out 2>one.err
            status=$?
            [ -s one.out ] && [ $status -lt 2 ] && good || bad 'not scanned'
            for edition in 2 3; do
                take_books $edition
                run $status scan -r $as $way desk.book $beside all alpha idle folder
                same .out one.out
                same .err one.err
            done
        done
    done
done

# texts whose words have the digit: lines are compared with stored texts by the books' own edition, in every further scan too
for file in alpha beta gamma decoy all behind idle; do sed 's/[aeo]/4/g' $file >$file.4; done
printf 'Alpha original alpha.4\nBeta original beta.4\nGamma original gamma.4\nDecoy original decoy.4\n' >four.list
run 0 book desk-4.book four.list --edition 2
printf 'Twin original alpha.4\n' >twin.list
run 0 book twin-4.book twin.list --edition 2
run 0 scan --json --thorough desk-4.book all.4
json 'sorted([r["licence"], r["first"], r["after"], r["score"]] for r in notes[0]["ranges"] + notes[0]["further"])' '[["Alpha", 0, 5, 1], ["Beta", 12, 17, 1], ["Gamma", 24, 32, 1]]'
run 0 scan desk-4.book --beside twin-4.book alpha.4
out_has '    but as high: Twin, original, score 1.0000, 2m/t = 2*39/78, from twin-4.book'
run 0 scan --json --thorough twin-4.book --beside desk-4.book all.4
json 'sorted([r["licence"], r["book"], r["first"], r["rival"] and r["rival"]["book"]] for r in notes[0]["ranges"] + notes[0]["further"])' \
    '[["Beta", "desk-4.book", 12, false], ["Gamma", "desk-4.book", 24, false], ["Twin", "twin-4.book", 0, "desk-4.book"]]'
run 0 scan --json --second desk-4.book --beside twin-4.book behind.4
json '[[r["licence"], r["second"]["licence"], r["second"]["book"], r["second"]["score"]] for r in notes[0]["ranges"]]' '[["Alpha", "Twin", "twin-4.book", 1]]'

# two books of differing editions: both are said, and what to do next
cp a.book debian.book
cp a-2.book debian-2.book
cp a.book ours.book
cp a-2.book ours-2.book
mkdir -p share/chultarvi
cp a.book a-2.book share/chultarvi
cp a.book share/chultarvi/debian.book
cp a-2.book share/chultarvi/debian-2.book
differ() { # differ BOOK BOOK2 MESSAGE
    run 1 scan "$1" --beside "$2" license two
    err_is "chultarvi: license: refused (15): $3
chultarvi: two: refused (15): $3"
    out_is ''
}
differ debian-2.book ours.book 'debian-2.book is of edition 2 and ours.book of edition 1; scan with debian.book, which is of edition 1, or make ours.book anew by chultarvi book --edition 2'
differ ours.book debian-2.book 'ours.book is of edition 1 and debian-2.book of edition 2; scan with debian.book, which is of edition 1, or make ours.book anew by chultarvi book --edition 2'
differ debian.book ours-2.book 'debian.book is of edition 1 and ours-2.book of edition 2; scan with debian-2.book, which is of edition 2, or make ours-2.book anew by chultarvi book --edition 1'
differ share/chultarvi/debian-2.book share/chultarvi/a.book 'share/chultarvi/debian-2.book is of edition 2 and share/chultarvi/a.book of edition 1; scan with debian.book, which is of edition 1, or make share/chultarvi/a.book anew by chultarvi book --edition 2'
differ ours.book ours-2.book 'ours.book is of edition 1 and ours-2.book of edition 2; make ours.book anew by chultarvi book --edition 2; the default book of edition 2 is debian-2.book'
differ ours-2.book ours.book 'ours-2.book is of edition 2 and ours.book of edition 1; make ours.book anew by chultarvi book --edition 2; the default book of edition 2 is debian-2.book'
differ debian.book share/chultarvi/debian-2.book 'debian.book is of edition 1 and share/chultarvi/debian-2.book of edition 2; both are default books, so scan with one of them'
differ a-2.book empty 'a-2.book is of edition 2 and empty of edition 1; make empty anew by chultarvi book --edition 2; the default book of edition 2 is debian-2.book'
differ a.book just-2.book 'a.book is of edition 1 and just-2.book of edition 2; make a.book anew by chultarvi book --edition 2; the default book of edition 2 is debian-2.book'
# a file with a default book's name that is of another edition is no default book
cp a-2.book debian.book
differ debian.book ours.book 'debian.book is of edition 2 and ours.book of edition 1; make ours.book anew by chultarvi book --edition 2; the default book of edition 2 is debian-2.book'
cp a.book debian.book
# the way it names is one
run 0 scan debian.book --beside ours.book license
run 0 book ours.book list --edition 2
run 0 scan debian-2.book --beside ours.book license
out_has 'license: A, original, score 1.0000, 2m/t = 2*2/4, from debian-2.book'
cp a.book ours.book
odd=$(printf 'o"\\\n\033\377.book')
cp a.book "$odd"
differ debian-2.book "$odd" 'debian-2.book is of edition 2 and o"\\\n\x1b\xff.book of edition 1; scan with debian.book, which is of edition 1, or make o"\\\n\x1b\xff.book anew by chultarvi book --edition 2'
from a-2.book 1 scan debian.book --beside - license
err_is 'chultarvi: license: refused (15): debian.book is of edition 1 and - of edition 2; scan with debian-2.book, which is of edition 2, or make - anew by chultarvi book --edition 1'
run 1 scan --json debian-2.book --beside ours.book license
json notes '[{"note": "license", "refusal": 15, "message": "refused (15): debian-2.book is of edition 2 and ours.book of edition 1; scan with debian.book, which is of edition 1, or make ours.book anew by chultarvi book --edition 2"}]'
run 1 scan --json --thorough --second --top-down 1 -j 3 -r debian-2.book --beside ours.book folder
json '[n.get("refusal", n.get("notes")) for n in notes]' '[15, 15, 2]'
err_is ''
# what is said before it: of the text, of soundness, of books without a text
run 1 scan a-2.book --beside a.book umlaut over lines-over
err_has 'umlaut: refused (2)'
err_has 'over: refused (1)'
err_has 'lines-over: refused (3)'
run 1 scan a-2.book --beside cut.book license
err_is 'chultarvi: license: refused (4): the book cut.book is not sound; make it anew by chultarvi book'
run 1 scan just-2.book --beside empty license
err_is 'chultarvi: license: refused (5): neither book has a stored text; make one by chultarvi book'
for words in 'a-2.book --beside just-2.book' 'just-2.book --beside a-2.book'; do
    run 0 scan $words license
    out_is 'license: A, original, score 1.0000, 2m/t = 2*2/4, from a-2.book
  1 scoring'
    run 0 scan --thorough --second --json $words license two
    json '[[n["licence"], n["second"]] for n in notes]' '[["A", null], [null, {"licence": "A", "book": "a-2.book", "kind": "original", "score": 0.666666687, "m": 2, "t": 6}]]'
done

the_end
