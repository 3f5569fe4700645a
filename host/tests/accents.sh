#!/bin/sh
# shellcheck disable=SC1091,SC2015,SC2034,SC2059,SC2086,SC2094,SC2154
# Tests of accents on the command line, run by host/test.sh: accents.sh PROGRAM FAULTY BOOK NOTE (common.sh says which they are). What edition 3 takes
# and leaves of a text, what is said of bytes that an edition does not take, --ascii in each edition, two books, and French and German notes by every way.
set -u
. "$(dirname "$0")/common.sh"
taken='(debian-3.book, or yours made anew by chultarvi book --edition 3)'
mapped='--ascii scans it with such characters mapped or dropped'
latin='--ascii scans it with such bytes read as Latin-1'
just() { printf '\002\000\000\000\006\000\00'"$1"'\000'; } # the record of an edition
printf 'A original license\n' >list
for edition in 1 2 3; do $program book a-$edition.book list --edition $edition >/dev/null; done
{ just 3; cat a.book; } >want
same a-3.book want

# what is left of a text: the table is that of the words left
left() { # left TEXT WORDS, both for printf
    printf "$1" >text
    printf "$2" >words
    run 0 compile --edition 3 text -o table-of-text
    run 0 compile --edition 3 words -o table-of-words
    same table-of-text table-of-words
    run 1 compile --edition 2 text
    run 1 compile text
}
left 'Été à la PLAGE' 'été à la plage'
left '« a » b\302\240c\302\205d' 'a b c d'
left '© 2004 4 ² x' '2004 4 x'
left 'http://é\302\240x y' 'http blackboxed url x y'
left 'éé x\néé y\néé z' 'x y z'
left 'éa x\néa y\néa z' 'éa x éa y éa z'
left 'aéà\naéá\naéâ' 'aéà aéá aéâ'
left 'a\ncopyright\302\205c 1999\nb' 'a b'
left 'ª º µ ÿ ÷ ×' 'ª º µ ÿ'
left '§ 4 ¿qué? ¡no! ½ ¾ ¹ ± °' '4 qué no'
left 'STRASSE ÄÖÜ GRÜSSE Þ Ð' 'strasse äöü grüsse þ ð'
printf 'é é' >text
run 0 compile --edition 3 text
out_is 'text: a table of 21 bytes, 1 bigrams, 1 of them distinct, edition 3'
run 0 compile --edition 3 text -o -
printf '\001\000\000\000\001\000\000\000\001\000\000\000\005\000\000\000\303\251 \303\251' >want
same .out want
run 0 compile --edition 3 license -o made
same made table
# a text of the most bytes, all of them of letters of two
awk 'BEGIN { for (i = 0; i < 524288; i++) printf "\303\251" }' >wide-most
run 0 compile --edition 3 wide-most
{ cat wide-most; printf a; } >wide-over
run 1 compile --edition 3 wide-over
err_is 'chultarvi: wide-over: refused (1): the text is over 1,048,576 bytes; cut it into parts'

# bytes that an edition does not take: the place, the byte, what it is, and what to do next
# said BYTES LINE BYTE HEX WHAT OFFSET NARROW WIDE: NARROW and WIDE say what stands behind WHAT in editions 1 and 2, and in edition 3; '-' there: it is taken
said() {
    printf "$1" >odd
    place="line $2, byte $3 is 0x$4, $5"
    for edition in 1 2 3; do
        [ $edition = 3 ] && next=$8 not='UTF-8 up to U+00FF' || next=$7 not=ASCII
        if [ "$next" = - ]; then
            run 0 scan --json a-$edition.book odd
            json '[notes[0]["refusal"], "offset" in notes[0]]' '[0, false]'
            continue
        fi
        run 1 scan a-$edition.book odd
        err_is "chultarvi: odd: refused (2): the text is not $not: $place; $next"
        out_is ''
        run 1 scan --json a-$edition.book odd
        json notes "[{\"note\": \"odd\", \"refusal\": 2, \"message\": \"refused (2): the text is not $not: $place; $next\", \"offset\": $6}]"
        err_is ''
    done
}
wide="a BOOK of edition 3 takes it $taken; $mapped"
said 'caf\303\251' 1 4 c3 'of U+00E9' 3 "$wide" -
said 'a\n\nb \302\205' 3 3 c2 'of U+0085' 5 "$wide" -
said '\302\200' 1 1 c2 'of U+0080' 0 "$wide" -
said 'y\303\277' 1 2 c3 'of U+00FF' 1 "$wide" -
said 'it\342\200\231s' 1 3 e2 'of U+2019' 2 "$mapped" "$mapped"
said '\304\200' 1 1 c4 'of U+0100' 0 "$mapped" "$mapped"
said '\357\273\277My First License' 1 1 ef 'of U+FEFF' 0 "$mapped" "$mapped"
said 'a\nb\360\237\224\222' 2 2 f0 'of U+1F512' 3 "$mapped" "$mapped"
said '\364\217\277\277' 1 1 f4 'of U+10FFFF' 0 "$mapped" "$mapped"
said 'caf\351' 1 4 e9 'no UTF-8' 3 "$latin" "$latin"
said 'caf\351s' 1 4 e9 'no UTF-8' 3 "$latin" "$latin"
said '\200' 1 1 80 'no UTF-8' 0 "$latin" "$latin"
said 'a\277' 1 2 bf 'no UTF-8' 1 "$latin" "$latin"
said 'a\303' 1 2 c3 'no UTF-8' 1 "$latin" "$latin"
said '\302\nb' 1 1 c2 'no UTF-8' 0 "$latin" "$latin"
said '\303\303\251' 1 1 c3 'no UTF-8' 0 "$latin" "$latin"
said '\300\251' 1 1 c0 'no UTF-8' 0 "$latin" "$latin"
said '\301\277' 1 1 c1 'no UTF-8' 0 "$latin" "$latin"
said '\340\203\251' 1 1 e0 'no UTF-8' 0 "$latin" "$latin"
said '\342\200' 1 1 e2 'no UTF-8' 0 "$latin" "$latin"
said '\355\240\200' 1 1 ed 'no UTF-8' 0 "$latin" "$latin"
said '\364\220\200\200' 1 1 f4 'no UTF-8' 0 "$latin" "$latin"
said '\377' 1 1 ff 'no UTF-8' 0 "$latin" "$latin"
# edition 3 points behind what it takes
refused_at() { # refused_at BYTES PLACE OFFSET
    printf "$1" >odd
    run 1 scan a-3.book odd
    err_has "refused (2): the text is not UTF-8 up to U+00FF: $2; "
    run 1 scan --json a-3.book odd
    json 'notes[0]["offset"]' "$3"
}
refused_at '\303\251t\303\251\n\303\240 \342\202\254' 'line 2, byte 4 is 0xe2, of U+20AC' 9
refused_at '\303\251\251' 'line 1, byte 3 is 0xa9, no UTF-8' 2
refused_at '\303\251\303' 'line 1, byte 3 is 0xc3, no UTF-8' 2
refused_at '\303\251\n\303 \251' 'line 2, byte 1 is 0xc3, no UTF-8' 3
printf 'it\342\200\231s' >quote
printf 'caf\351' >latin-1
printf 'Z original umlaut\nB original quote\nC original latin-1\nA original license\n' >odd.list
book_mapped='--ascii makes the book with such characters mapped or dropped'
cp a.book stands.book
for edition in 1 2; do
    run 1 book stands.book odd.list --edition $edition
    err_is "chultarvi: odd.list: line 2: quote: refused (2): the text is not ASCII: line 1, byte 3 is 0xe2, of U+2019; $book_mapped
chultarvi: odd.list: line 3: latin-1: refused (2): the text is not ASCII: line 1, byte 4 is 0xe9, no UTF-8; --ascii makes the book with such bytes read as Latin-1
chultarvi: odd.list: line 1: umlaut: refused (2): the text is not ASCII: line 2, byte 5 is 0xc3, of U+00E4; --edition 3 takes it; $book_mapped
chultarvi: stands.book: no new book stands there"
    for text in umlaut:'0xc3, of U+00E4; --edition 3 takes it' quote:'0xe2, of U+2019; nothing is filtered, so change it first' \
        latin-1:'0xe9, no UTF-8; nothing is filtered, so change it to UTF-8 first, for --edition 3'; do
        run 1 compile --edition $edition ${text%%:*} -o stands.book
        err_has "${text%%:*}: refused (2): the text is not ASCII: line "
        case $err in *" is ${text#*:}") good ;; *) bad "not said: ${text#*:}" ;; esac
    done
done
run 1 book stands.book odd.list --edition 3
err_is "chultarvi: odd.list: line 2: quote: refused (2): the text is not UTF-8 up to U+00FF: line 1, byte 3 is 0xe2, of U+2019; $book_mapped
chultarvi: odd.list: line 3: latin-1: refused (2): the text is not UTF-8 up to U+00FF: line 1, byte 4 is 0xe9, no UTF-8; --ascii makes the book with such bytes read as Latin-1
chultarvi: stands.book: no new book stands there"
run 1 compile --edition 3 quote
err_is 'chultarvi: quote: refused (2): the text is not UTF-8 up to U+00FF: line 1, byte 3 is 0xe2, of U+2019; nothing is filtered, so change it first'
run 1 compile --edition 3 latin-1
err_is 'chultarvi: latin-1: refused (2): the text is not UTF-8 up to U+00FF: line 1, byte 4 is 0xe9, no UTF-8; nothing is filtered, so change it to UTF-8 first, for --edition 3'
same stands.book a.book
no_beside

# a book of edition 3 with wide words: made, checked, listed, and refused under another edition
printf 'La présente licence est régie par la loi française' >fr
printf 'Überlassung der Rechte für größere Werke' >de
printf 'FR original fr\nFR alias CeCILL\nDE header de\nDE original /dev/null\n' >wide.list
run 0 book wide.book wide.list --edition 3
out_is "wide.book: $(wc -c <wide.book) bytes, 3 stored texts, edition 3"
err_is ''
run 0 check wide.book
out_is 'wide.book: sound, 2 licences, 3 stored texts, edition 3'
run 0 list wide.book
out_is "DE: original 0 bigrams, 0 distinct; header 5 bigrams, 5 distinct
FR: original 8 bigrams, 8 distinct; aliases CeCILL
wide.book: 2 licences, 3 stored texts, 1 alias, $(wc -c <wide.book) bytes, edition 3"
run 0 list --json wide.book
json '[[n["licence"], n["edition"]] for n in notes]' '[["DE", 3], ["FR", 3]]'
run 0 book none.book empty --edition 3
out_is 'none.book: 8 bytes, 0 stored texts, edition 3'
just 3 >want
same none.book want
run 1 scan none.book fr
err_is 'chultarvi: fr: refused (5): the book has no stored text; make one by chultarvi book'
tail -c +9 wide.book >narrow.book
{ just 2; cat narrow.book; } >narrow-2.book
for book in narrow.book narrow-2.book; do
    run 1 check $book
    err_is "chultarvi: $book: refused (4): the book is not sound; make it anew by chultarvi book"
done
printf 'N\303\244me original license\n' >odd.list
run 1 book stands.book odd.list --edition 3
err_has 'line 1: the name is not 1 to 64 bytes of 33 to 126'
# table words, in editions 2 and 3
pair() { # pair BYTES STATUS: is a book of edition 3 with this pair sound? One of edition 2 is not
    printf "$1" >bytes
    for edition in 2 3; do
        {
            just $edition
            printf '\001\000\000\000\001\000A'
            printf "\\$(printf %03o $(($(wc -c <bytes) + 16)))\000\000\000\002\000\001\000\000\000\001\000\000\000\001\000\000\000\\$(printf %03o "$(wc -c <bytes)")\000\000\000"
            cat bytes
        } >pair.book
        [ $edition = 2 ] && run 1 check pair.book || run $2 check pair.book
    done
}
pair 'é à' 0
pair 'É à' 1
pair 'ß ÿ' 0
pair '÷ a' 1
pair 'a ²' 1
pair '\303 \251' 1

# a book that is not sound, and two books: the first's first record decides
head -c 60 a-3.book >cut-3.book
run 1 scan cut-3.book fr
err_is 'chultarvi: fr: refused (4): the book is not sound; make it anew by chultarvi book'
run 1 scan cut.book fr
err_has 'fr: refused (2): the text is not ASCII: line 1, byte 6 is 0xc3, of U+00E9; '
{ just 4; cat a.book; } >four.book
run 1 scan four.book fr license
err_has 'fr: refused (2): the text is not ASCII: '
err_has 'license: refused (4): '
run 1 scan empty --beside a-3.book fr license
err_is "chultarvi: fr: refused (2): the text is not ASCII: line 1, byte 6 is 0xc3, of U+00E9; $wide
chultarvi: license: refused (15): empty is of edition 1 and a-3.book of edition 3; make empty anew by chultarvi book --edition 3; the default book of edition 3 is debian-3.book"
run 1 scan a-3.book --beside a-2.book fr latin-1
err_is "chultarvi: fr: refused (15): a-3.book is of edition 3 and a-2.book of edition 2; make a-2.book anew by chultarvi book --edition 3; the default book of edition 3 is debian-3.book
chultarvi: latin-1: refused (2): the text is not UTF-8 up to U+00FF: line 1, byte 4 is 0xe9, no UTF-8; $latin"
run 1 scan a-2.book --beside a-3.book --ascii fr
err_has 'fr: refused (15): a-2.book is of edition 2 and a-3.book of edition 3; '
run 0 scan wide.book --beside a-3.book fr license
out_is 'fr: FR, original, score 1.0000, 2m/t = 2*8/16, from wide.book
  4 scorings
license: A, original, score 1.0000, 2m/t = 2*2/4, from a-3.book
  4 scorings'
run 0 scan none.book --beside wide.book fr
out_has 'fr: FR, original, score 1.0000, 2m/t = 2*8/16, from wide.book'
# beside a default book: the one that fits, or how the other is made anew
cp a-1.book debian.book
cp a-2.book debian-2.book
cp a-3.book debian-3.book
differ() { # differ BOOK BOOK2 NEXT
    run 1 scan "$1" --beside "$2" license
    case $err in "chultarvi: license: refused (15): $1 is of edition "[123]" and $2 of edition "[123]"; $3") good ;; *) bad "not said: $3" ;; esac
}
differ debian-3.book a-1.book 'scan with debian.book, which is of edition 1, or make a-1.book anew by chultarvi book --edition 3'
differ a-1.book debian-3.book 'scan with debian.book, which is of edition 1, or make a-1.book anew by chultarvi book --edition 3'
differ debian-3.book a-2.book 'scan with debian-2.book, which is of edition 2, or make a-2.book anew by chultarvi book --edition 3'
differ debian-2.book a-3.book 'scan with debian-3.book, which is of edition 3, or make a-3.book anew by chultarvi book --edition 2'
differ debian.book a-3.book 'scan with debian-3.book, which is of edition 3, or make a-3.book anew by chultarvi book --edition 1'
differ debian-3.book debian-2.book 'both are default books, so scan with one of them'
differ a-1.book a-3.book 'make a-1.book anew by chultarvi book --edition 3; the default book of edition 3 is debian-3.book'
run 0 scan debian.book --beside a-1.book license
run 0 scan debian-3.book --beside a-3.book license

# --ascii: what an edition does not take becomes ASCII; bytes that are no UTF-8 are read as Latin-1
# becomes BYTES NARROW CHANGED WIDE CHANGED: in editions 1 and 2, and in edition 3
becomes() {
    for edition in 1 2 3; do
        [ $edition = 3 ] && text=$4 changed=$5 || text=$2 changed=$3
        printf "$1" >odd
        printf "$text" >words
        printf 'A original odd\n' >odd.list
        printf 'A original words\n' >words.list
        run 0 book --ascii odd.book odd.list --edition $edition
        case $changed in 0) err_is '' ;; 1) err_is 'chultarvi: odd.list: line 1: odd: --ascii changed 1 character' ;; *) err_is "chultarvi: odd.list: line 1: odd: --ascii changed $changed characters" ;; esac
        run 0 book words.book words.list --edition $edition
        same odd.book words.book
        run 0 scan --ascii --json words.book odd
        json '[notes[0][key] for key in ("changed", "licence", "score")]' "[$changed, \"A\", 1]"
    done
}
becomes 'pr\303\251sente licence' 'presente licence' 1 'présente licence' 0
becomes 'l\342\200\231\303\251t\303\251 d\305\223uvre' "l'ete doeuvre" 4 "l'été doeuvre" 2
becomes 'pr\351sente licen\347e' 'presente licence' 2 'présente licençe' 2
becomes 'a\302\240b \302\251 c' 'a b (c) c' 2 'a\302\240b © c' 0
becomes 'a \303b' 'a Ab' 1 'a \303\203b' 1
becomes 'a b\303' 'a bA' 1 'a b\303\203' 1
becomes 'x a\205b' 'x a b' 1 'x a\302\205b' 1
becomes '\357\273\277a \342\202\254b' 'a b' 2 'a b' 2
becomes 'stra\303\237e x\304\261' 'strasse xi' 2 'straße xi' 1
becomes '\303\303\251 b' 'Ae b' 2 '\303\203é b' 1
becomes 'A b \302\275' 'A b 1/2' 1 'A b ½' 0
# it may grow over the limit
{ spaces 1048575; printf '\351'; } >grows
run 1 scan --ascii a-3.book grows
err_is 'chultarvi: grows: refused (1): the text is over 1,048,576 bytes; cut it into parts'
{ spaces 1048574; printf '\351'; } >fits
run 0 scan --ascii --no-optimize a-3.book fits
out_has '  --ascii changed 1 character'
run 1 scan --ascii a-3.book over
err_is 'chultarvi: over: refused (1): the text is over 1,048,576 bytes; cut it into parts'

# a note with a name that has accents, which is most of what edition 2 refused, against the default book
sed '3s/(c) 2024 The Bracket Works/© 2024 José Müller/' example >named
run 0 scan default.book named
out_has ': MIT, original, score '
run 0 scan --json --ascii default.book named
json '[notes[0]["licence"], notes[0]["changed"]]' '["MIT", 0]'
run 0 check default.book
out_has 'edition 3'

# every way over French and German: a note of words that all have accents answers as the same note without them does
words alpha 40 >alpha
words beta 40 >beta
{ words gamma 16; echo; words delta 16; echo; words epsilon 16; } >gamma
words long 240 >decoy
sed -n 'p;n' decoy >half
{ cat alpha; echo; sed -n 1,5p half; echo; cat beta; echo; sed -n 6,10p half; echo; cat gamma; echo; sed -n 11,15p half; } >all
words idle 24 >idle
{ cat idle; echo; cat alpha; } >behind
mkdir plain wide
accents() { sed 's/a/à/g; s/e/é/g; s/i/ï/g; s/o/ö/g; s/g/ß/g; s/c/ç/g' "$1"; }
for file in alpha beta gamma decoy idle all behind; do
    cp $file plain
    accents $file >wide/$file
done
printf 'Alpha original alpha\nBeta original beta\nGamma original gamma\nDecoy original decoy\nTwin original alpha\nAlpha alias x\n' >desk.list
printf 'Own original idle\nBeta original beta\nBeta header alpha\n' >own.list
for kind in plain wide; do
    (cd $kind && ${RUN-} ../program book desk.book ../desk.list --edition 3 && ${RUN-} ../program book own.book ../own.list --edition 3) >/dev/null 2>&1
done
for way in '' --thorough --second '--thorough --second' '--top-down 5' --no-optimize '--threshold 0.5 --shallow 0.6 --thorough' '--thorough -j 3' \
    '--thorough --budget 60' --ascii; do
    for beside in '' '--beside own.book'; do
        (cd plain && ${RUN-} ../program scan --json $way desk.book $beside all alpha idle behind) >plain.out 2>plain.err
        status=$?
        so $status "cd wide && ${RUN-} ../program scan --json $way desk.book $beside all alpha idle behind"
        # places are bytes, and here a letter with an accent has two; places.sh holds them against the note
        for said in plain.out .out; do sed 's/"start":[0-9]*,"end":[0-9]*,//g' $said >$said.lines; done
        same .out.lines plain.out.lines
        same .err plain.err
        [ -s plain.out ] && [ $status -lt 2 ] && good || bad 'not scanned'
    done
done
# lines of no-break spaces part stanzas as empty ones do; lines of letters with accents alone have words
sed "s/^\$/$(printf '\302\240 \302\205')/" wide/all >parted
run 0 scan --json --thorough wide/desk.book parted
json 'sorted([r["licence"], r["first"], r["after"], r["score"]] for r in notes[0]["ranges"] + notes[0]["further"])' '[["Alpha", 0, 5, 1], ["Beta", 12, 17, 1], ["Gamma", 24, 32, 1]]'
json 'notes[0]["unheld"]' 15
printf 'é à\n\303\267 \302\247\nÈ\n\302\252\n\302\240\n' >letters
run 0 scan --json a-3.book letters
json 'notes[0]["unheld"]' 3
# lines count by newlines alone: U+0085 ends none
printf 'é\302\205à\302\205ü\n// My First License\nß' >next-lines
run 0 scan a-3.book next-lines
out_has '  line 2: A, original, score 1.0000, 2m/t = 2*2/4'
# a name with accents of a note, in a message and in JSON
cp fr 'prés à.txt'
run 0 scan wide.book 'prés à.txt'
out_is 'prés à.txt: FR, original, score 1.0000, 2m/t = 2*8/16
  3 scorings'
run 0 scan --json wide.book 'prés à.txt'
json 'notes[0]["note"]' '"pr\u00e9s \u00e0.txt"'
from fr 0 scan wide.book -
out_has '-: FR, original, score 1.0000'

# help and words
run 0 --help
out_has 'UTF-8 up to U+00FF'
for command in book compile; do
    run 0 $command --help
    out_has '3, it stays, and UTF-8 up to U+00FF is taken (1)'
done

the_end
