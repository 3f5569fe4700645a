#!/bin/sh
# shellcheck disable=SC1091,SC2015,SC2034,SC2059,SC2086,SC2154
# Tests of the command line but for scan, run by host/test.sh: commands.sh PROGRAM FAULTY BOOK NOTE (common.sh says which they are).
set -u
. "$(dirname "$0")/common.sh"

# help, of the program and of each command
for words in --help -h help; do
    run 0 $words
    out_has 'chultarvi list BOOK [--json]'
    out_has 'Exit status: 0 all is answered'
    err_is ''
done
for command in check list book compile expression; do
    for words in '--help' '-h' '-h a.book' 'a.book --help' '--help nowhere nowhere nowhere' '--hel'; do
        run 0 $command $words
        out_has "chultarvi $command "
        out_has "'--' ends them"
        err_is ''
    done
    run 2 $command --frob a.book
    err_is "chultarvi: --frob: no such option; $(tells $command)"
    run 2 $command a.book -x
    err_is "chultarvi: -x: no such option; $(tells $command)"
    run 2 $command --help=yes
    err_is "chultarvi: --help=yes: takes no value; $(tells $command)"
    # which expression reads as a part
    [ $command = expression ] && continue
    run 2 $command -- --help
    out_is ''
done
run 0 book --help empty
[ ! -e ./--help ] && good || bad 'a book named --help'
for command in scan check list book compile expression; do
    run 0 help $command
    out_has "chultarvi $command "
    run 0 --help $command
    out_has "chultarvi $command "
done
run 2 help frob
err_is 'chultarvi: frob: no such command; chultarvi --help tells more'

# usage
run 0 --version
out_is "chultarvi $(sed -n 's/^#define CHULTARVI_VERSION "\(.*\)"/\1/p' "$root/include/chultarvi.h")"
out_is 'chultarvi 0.8.0'
run 2
err_is "chultarvi: no command; $help"
run 2 frob
err_is "chultarvi: frob: no such command; $help"
run 2 check
err_is "chultarvi: check wants a book, or several; $(tells check)"
run 2 list
err_is "chultarvi: list wants one book; $(tells list)"
run 2 list a.book a.book
err_is "chultarvi: list wants one book; $(tells list)"
run 2 compile
err_is "chultarvi: compile wants one text; $(tells compile)"
run 2 compile license two
err_is "chultarvi: compile wants one text; $(tells compile)"
run 2 compile license -o
err_is "chultarvi: -o: wants a value; $(tells compile)"
run 2 compile license -o ''
err_is "chultarvi: -o: wants a value that is not empty; $(tells compile)"
run 2 compile license -o one -o two
err_is "chultarvi: -o: stands twice; $(tells compile)"
run 2 book out
err_is "chultarvi: book wants OUT and LIST; $(tells book)"
run 2 book out list more
err_is "chultarvi: book wants OUT and LIST; $(tells book)"

# names that begin with '-' stand behind '--'; options stand anywhere before it, whatever the environment says
cp a.book ./-b
cp license ./-t
printf 'A original -t\n' >./-l
run 0 check -- -b
out_is '-b: sound, 1 licence, 1 stored text, edition 1'
run 0 list --json -- -b
run 0 list -- -b
out_has 'A: original'
run 0 compile -o made -- -t
same made table
run 0 book -- -o -l
same ./-o a.book
run 2 check -- --
err_is 'chultarvi: --: cannot be read: No such file or directory'
for words in '-o made license' 'license -o made' '-omade license' 'license -omade --'; do
    rm -f made
    run 0 compile $words
    same made table
done
for words in '--json a.book' 'a.book --json' '--json -- a.book' 'a.book --json --'; do
    run 0 list $words
    json 'len(notes)' 1
    so 0 "POSIXLY_CORRECT=1 $program list $words"
    json 'len(notes)' 1
done

# check: one book or several, and the worst of them counts
run 0 check a.book
out_is 'a.book: sound, 1 licence, 1 stored text, edition 1'
run 0 check empty
out_is 'empty: sound, 0 licences, 0 stored texts, edition 1'
from a.book 0 check -
out_is '-: sound, 1 licence, 1 stored text, edition 1'
run 1 check cut.book
err_is 'chultarvi: cut.book: refused (4): the book is not sound; make it anew by chultarvi book'
run 1 check /dev/zero
err_is 'chultarvi: /dev/zero: refused (4): the book is not sound, it is over 16,777,216 bytes; make it anew by chultarvi book'
run 2 check nowhere
err_is 'chultarvi: nowhere: cannot be read: No such file or directory'
run 2 check .
err_is 'chultarvi: .: cannot be read: Is a directory'
run 0 check default.book
out_has 'default.book: sound, '
run 1 check a.book cut.book empty
out_is 'a.book: sound, 1 licence, 1 stored text, edition 1
empty: sound, 0 licences, 0 stored texts, edition 1'
run 2 check nowhere cut.book . a.book
out_is 'a.book: sound, 1 licence, 1 stored text, edition 1'
err_is 'chultarvi: nowhere: cannot be read: No such file or directory
chultarvi: cut.book: refused (4): the book is not sound; make it anew by chultarvi book
chultarvi: .: cannot be read: Is a directory'
from a.book 2 check - -
out_is '-: sound, 1 licence, 1 stored text, edition 1'
err_is 'chultarvi: -: cannot be read: standard input is read already'

# list
run 0 list a.book
out_is 'A: original 2 bigrams, 2 distinct
a.book: 1 licence, 1 stored text, 0 aliases, 58 bytes, edition 1'
printf 'a b a b a b' >pairs
printf 'B alias x\nB original two\nA header two\nA alias z\nA alternate pairs\nA alias b"\\\nA original license\nC original pairs' >list
run 0 book mixed.book list
run 0 list mixed.book
out_is "A: original 2 bigrams, 2 distinct; alternate 5 bigrams, 2 distinct; header 4 bigrams, 4 distinct; aliases b\"\\, z
B: original 4 bigrams, 4 distinct; aliases x
C: original 5 bigrams, 2 distinct
mixed.book: 3 licences, 5 stored texts, 3 aliases, $(wc -c <mixed.book) bytes, edition 1"
run 0 list --json mixed.book
json 'notes' '[{"licence": "A", "texts": [{"kind": "original", "number": 0, "bigrams": 2, "distinct": 2}, {"kind": "alternate", "number": 1, "bigrams": 5, "distinct": 2}, {"kind": "header", "number": 2, "bigrams": 4, "distinct": 4}], "aliases": ["b\"\\", "z"], "edition": 1}, {"licence": "B", "texts": [{"kind": "original", "number": 3, "bigrams": 4, "distinct": 4}], "aliases": ["x"], "edition": 1}, {"licence": "C", "texts": [{"kind": "original", "number": 4, "bigrams": 5, "distinct": 2}], "aliases": [], "edition": 1}]'
run 0 check mixed.book
out_is 'mixed.book: sound, 3 licences, 5 stored texts, edition 1'
run 0 list empty
out_is 'empty: 0 licences, 0 stored texts, 0 aliases, 0 bytes, edition 1'
run 0 list --json empty
out_is ''
from a.book 0 list -
out_has '-: 1 licence, 1 stored text'
run 1 list cut.book
err_is 'chultarvi: cut.book: refused (4): the book is not sound; make it anew by chultarvi book'
out_is ''
run 1 list /dev/zero
run 2 list nowhere
err_is 'chultarvi: nowhere: cannot be read: No such file or directory'
cp a.book "$(printf 'odd\033\n\377')"
run 0 list "$(printf 'odd\033\n\377')"
out_has 'odd\x1b\n\xff: 1 licence'
# what it says of the default book is what check and the lines themselves say
run 0 list --json default.book
counted=$(python3 -c 'import json; b = [json.loads(l) for l in open(".out")]; print(len(b), sum(len(l["texts"]) for l in b), sum(len(l["aliases"]) for l in b))
assert [t["number"] for l in b for t in l["texts"]] == list(range(sum(len(l["texts"]) for l in b)))')
set -- $counted
run 0 list default.book
out_has "default.book: $1 licences, $2 stored texts, $3 aliases, $(wc -c <default.book) bytes, edition 3"
[ "$(wc -l <.out)" = $(($1 + 1)) ] && good || bad 'not a line for each licence'
run 0 check default.book
out_is "default.book: sound, $1 licences, $2 stored texts, edition 3"

# compile
run 0 compile license
out_is 'license: a table of 45 bytes, 2 bigrams, 2 of them distinct, edition 1'
run 0 compile -o made license
same made table
run 0 compile license -o -
same .out table
from license 0 compile - -o -
same .out table
run 0 compile empty
out_is 'empty: a table of 8 bytes, 0 bigrams, 0 of them distinct, edition 1'
run 0 compile most
run 1 compile over
err_is 'chultarvi: over: refused (1): the text is over 1,048,576 bytes; cut it into parts'
run 1 compile /dev/zero
err_is 'chultarvi: /dev/zero: refused (1): the text is over 1,048,576 bytes; cut it into parts'
run 1 compile umlaut -o made
err_is 'chultarvi: umlaut: refused (2): the text is not ASCII: line 2, byte 5 is 0xc3, of U+00E4; --edition 3 takes it'
same made table
run 0 compile lines
run 1 compile lines-over
err_is 'chultarvi: lines-over: refused (3): the text is over 65,536 lines; cut it into parts'
run 2 compile nowhere
err_is 'chultarvi: nowhere: cannot be read: No such file or directory'
# words of one letter and addresses, which grow most: the table still fits what the program takes
awk 'BEGIN { for (i = 0; i < 349000; i++) printf "%c ", 97 + i * i % 26 }' >letters
run 0 compile letters
awk 'BEGIN { for (i = 0; i < 104857; i++) printf "http://%c a", 97 + i % 26 }' | head -c 1048576 >urls
run 0 compile urls
# book
printf '# a comment\n\nA original license\n' >list
run 0 book made.book list
out_is 'made.book: 58 bytes, 1 stored text, edition 1'
same made.book a.book
from list 0 book made.book -
same made.book a.book
printf 'B alias x\nB  original\ttwo\nA header two\nA alias z\nA alternate two\nA alternate license\nA alias b\nA original license' >list
run 0 book made.book list
out_has '5 stored texts'
printf 'A original license\nA alternate two\nA alternate license\nA header two\nA alias b\nA alias z\nB original two\nB alias x\n' >list
run 0 book sorted.book list
same made.book sorted.book
cp license 'a file with  spaces'
printf 'A original a file with  spaces\n' >list
run 0 book made.book list
same made.book a.book
name=$(spaces 64 | tr ' ' n)
echo "$name original license" >list
run 0 book long.book list
run 0 scan long.book license
out_has "license: $name, original, score 1.0000"
cp a.book stands.book
refused() { # refused LIST MESSAGE: and what stood there stays
    printf "$1" >list
    run 1 book stands.book list
    err_has "$2"
    same stands.book a.book
}
refused "n$name original license\n" 'list: line 1: the name is not 1 to 64 bytes of 33 to 126; a line is NAME KIND FILE'
refused 'N\303\244me original license\n' 'line 1: the name is not'
refused 'A frob license\n' 'line 1: the kind is not original, alternate, header or alias'
refused 'A\n' 'line 1: the kind is not'
refused '# x\nA original\n' 'line 2: no file'
refused 'A original license\nA alias\n' 'line 2: no alias'
refused 'A original license\nA alias b c\n' 'line 2: the alias is not 1 to 64 bytes of 33 to 126'
refused 'A original license\nA original two\n' 'line 2: A has two originals'
refused 'B original license\nA header two\n' 'line 2: A has no original'
refused 'A alias b\n' 'line 1: A has no original'
refused 'A original license\nA header two\nA header license\nA header two\n' 'line 4: A stands twice with the same kind and file'
refused 'A original license\nA alias b\nA alias c\nA alias b\n' 'line 4: A stands twice with the same kind and file'
refused 'A original umlaut\n' 'umlaut: refused (2): the text is not ASCII: line 2, byte 5 is 0xc3'
refused 'A original over\n' 'over: refused (1)'
refused 'A original lines-over\n' 'lines-over: refused (3)'
err_has 'stands.book: no new book stands there'
printf 'A original nowhere\n' >list
run 2 book stands.book list
err_is 'chultarvi: list: line 1: nowhere: cannot be read: No such file or directory
chultarvi: stands.book: no new book stands there'
same stands.book a.book
run 2 book stands.book nowhere
printf 'A original license\000\n' >list
run 2 book stands.book list
err_is 'chultarvi: list: cannot be read: it has a zero byte, and only lines of text are read'
run 2 book stands.book /dev/zero
err_is 'chultarvi: /dev/zero: cannot be read: over 4,194,304 bytes'
yes x | head -c 4194304 >list
run 1 book stands.book list
awk 'BEGIN { for (i = 0; i < 1024; i++) printf "N%04d original license\n", i }' >list
run 0 book many.book list
out_has '1024 stored texts'
echo 'N2000 original license' >>list
run 1 book many.book list
err_is 'chultarvi: list: line 1025: 1025 texts; a book has at most 1,024, so make two of the list
chultarvi: many.book: no new book stands there'
run 0 book empty.book empty
out_is 'empty.book: 0 bytes, 0 stored texts, edition 1'
awk 'BEGIN { for (i = 0; i < 149000; i++) printf "%c%05x ", 103 + i % 20, i }' >wide
for i in 1 2 3 4 5 6; do echo "N$i original wide"; done >list
run 1 book stands.book list
err_is 'chultarvi: list: line 6: with this the book would be over 16,777,216 bytes; make two of the list
chultarvi: stands.book: no new book stands there'
same stands.book a.book
# book: all that is wrong, in one run, each with its line
cp a.book stands.book
printf 'A original nowhere\n\nB original umlaut\n# x\nC original .\nD original license\nE original over\nF header frob\nG original %s\nH original lines-over\n' "$(printf 'od\033d')" >list
run 2 book stands.book list
err_is 'chultarvi: list: line 8: F has no original
chultarvi: list: line 1: nowhere: cannot be read: No such file or directory
chultarvi: list: line 3: umlaut: refused (2): the text is not ASCII: line 2, byte 5 is 0xc3, of U+00E4; --edition 3 takes it; --ascii makes the book with such characters mapped or dropped
chultarvi: list: line 5: .: cannot be read: Is a directory
chultarvi: list: line 7: over: refused (1): the text is over 1,048,576 bytes; cut it into parts
chultarvi: list: line 8: frob: cannot be read: No such file or directory
chultarvi: list: line 9: od\x1bd: cannot be read: No such file or directory
chultarvi: list: line 10: lines-over: refused (3): the text is over 65,536 lines; cut it into parts
chultarvi: stands.book: no new book stands there'
out_is ''
same stands.book a.book
# a line that is no line keeps no file from being looked at, and does not make its name lack an original
printf 'A frob license\nA header nowhere\nB original umlaut\n' >list
run 2 book stands.book list
err_is 'chultarvi: list: line 1: the kind is not original, alternate, header or alias; a line is NAME KIND FILE
chultarvi: list: line 2: nowhere: cannot be read: No such file or directory
chultarvi: list: line 3: umlaut: refused (2): the text is not ASCII: line 2, byte 5 is 0xc3, of U+00E4; --edition 3 takes it; --ascii makes the book with such characters mapped or dropped
chultarvi: stands.book: no new book stands there'
same stands.book a.book
# neither does a book that is over
{ for i in 1 2 3 4 5 6; do echo "N$i original wide"; done; echo 'O original nowhere'; echo 'P original license'; echo 'Q alias x'; } >list
run 2 book stands.book list
err_is 'chultarvi: list: line 9: Q has no original
chultarvi: list: line 6: with this the book would be over 16,777,216 bytes; make two of the list
chultarvi: list: line 7: nowhere: cannot be read: No such file or directory
chultarvi: stands.book: no new book stands there'
same stands.book a.book
printf 'A original -\nB original -\n' >list
from license 2 book stands.book list
err_has 'list: line 2: -: cannot be read: standard input is read already'
# a list whose lines end with CR LF, the last one or not
for end in '\r\n' '\r' '\n' ''; do
    printf "# a comment\r\n\r\n#\r\nA original license\r\nA alias b\r\nB original two$end" >list
    run 0 book crlf.book list
    err_is ''
    printf 'A original license\nA alias b\nB original two\n' >list
    run 0 book lf.book list
    same crlf.book lf.book
done
# warnings do not change the exit status, nor the book
printf 'one' >word
printf 'A original license\nB original empty\nC original word\nD original license\nA alternate license\nE header license\nE original two\nF original most' >list
run 0 book warned.book list
err_is 'chultarvi: list: line 2: empty: warning: no bigrams, so no note is like it; is this the right file?
chultarvi: list: line 3: word: warning: no bigrams, so no note is like it; is this the right file?
chultarvi: list: line 8: most: warning: no bigrams, so no note is like it; is this the right file?
chultarvi: list: line 4: warning: D original has the same table as A original, line 1; a scan names A for both
chultarvi: list: line 6: warning: E header has the same table as A original, line 1; a scan names A for both'
out_has '8 stored texts'
run 0 scan warned.book license
out_has 'license: A, original'
# of equal scores the original is named, though it stands behind; and of equal kinds the first
printf 'A original two\nA header license\nB original license\nB alternate license\nC original empty\nC header license\n' >list
run 0 book warned.book list
err_is 'chultarvi: list: line 5: empty: warning: no bigrams, so no note is like it; is this the right file?
chultarvi: list: line 2: warning: A header has the same table as B original, line 3; a scan names B for both
chultarvi: list: line 6: warning: C header has the same table as B original, line 3; a scan names B for both'
run 0 scan --json warned.book license
json '[notes[0][k] for k in ("licence", "kind")] + [notes[0]["rival"][k] for k in ("licence", "kind")]' '["B", "original", "A", "header"]'
printf 'A original two\nA header license\nC original /dev/null\nC header license\n' >list
run 0 book warned.book list
err_is 'chultarvi: list: line 4: warning: C header has the same table as A header, line 2; a scan names A for both'
run 0 scan warned.book license
out_has 'license: A, header'
printf 'A original license\nA alternate two\nA header license\nB original pairs\n' >list
run 0 book warned.book list
err_is ''
# an original that is empty on purpose
printf 'A original license\nB header two\nB original /dev/null\nC original /dev/null\n' >list
run 0 book warned.book list
err_is ''
# texts that are not ASCII become it, as notes do in a scan
printf 'M\303\277 First\302\240Licens\351\n' >letters
printf 'A original letters\nB original two\n' >list
run 0 book --ascii mapped.book list
err_is 'chultarvi: list: line 1: letters: --ascii changed 3 characters'
printf 'A original license\nB original two\n' >list
run 0 book --ascii plain.book list
err_is ''
same mapped.book plain.book
printf 'A original over\n' >list
run 1 book list.book --ascii list
err_has 'over: refused (1): the text is over 1,048,576 bytes; cut it into parts'
# 1,024 texts under as many names
awk 'BEGIN { for (i = 0; i < 1024; i++) printf "N%04d original license\n", i }' >list
run 0 book many.book list
[ "$(grep -c 'has the same table as N0000 original, line 1;' .err)" = 1023 ] && good || bad 'not a warning for each further name'
# the same file many times for one name: found by sorting
awk 'BEGIN { print "A original license"; for (i = 0; i < 200000; i++) printf "A alias n%d\n", i % 199999 }' >list
run 1 book stands.book list
err_is 'chultarvi: list: line 200001: A stands twice with the same kind and file
chultarvi: stands.book: no new book stands there'
printf 'A original license\n' >list

# what is written stands whole, or what stood there stays
cp table old
fails() { # fails FAULT STATUS MESSAGE
    printf 'old' >kept
    broken "$1" "$2" compile license -o kept
    err_has "$3"
    holds kept old
    no_beside
}
fails write 2 'kept: not written: No space left on device; what was there is unchanged'
fails fsync 2 'kept: not written: Input/output error; what was there is unchanged'
fails close 2 'kept: not written: Disk quota exceeded; what was there is unchanged'
fails rename 2 'kept: not written: Permission denied; what was there is unchanged'
fails read 2 'license: cannot be read: Input/output error'
fails malloc 2 'no memory for'
printf 'old' >kept
broken rename-kill 137 compile license -o kept
holds kept old
rm -f ./.chultarvi.*
broken write-kill 137 book kept list
holds kept old
rm -f ./.chultarvi.*
broken rename-term 143 compile license -o kept
same kept table
no_beside
printf 'old' >kept
broken write-slow 0 compile license -o kept
same kept table
printf 'old' >kept
broken folder 2 compile license -o kept
err_has 'kept: written, but its folder is not flushed to disk: Input/output error'
same kept table
broken folder-unable 0 compile license -o kept
broken read 2 book kept list
err_has 'list: cannot be read: Input/output error'
printf 'A original license\n' >list
cp a.book kept
broken write 2 book kept list
err_has 'kept: not written: No space left on device'
same kept a.book
no_beside
run 2 compile license -o nowhere/out
err_has 'nowhere/out: not written: No such file or directory'
run 2 compile license -o .
err_is 'chultarvi: .: not written: it stands there and is no regular file'
run 2 compile license -o /dev/null
err_is 'chultarvi: /dev/null: not written: it stands there and is no regular file'
ln -s nothing loose
run 2 compile license -o loose
err_has 'loose: not written'
printf old >real
chmod 640 real
ln -s real link
run 0 compile license -o link
same real table
[ -L link ] && [ "$(stat -c %a real)" = 640 ] && good || bad 'a link or a mode is lost'
mask=$(umask)
umask 027
run 0 compile license -o fresh
umask "$mask"
[ "$(stat -c %a fresh)" = 640 ] && good || bad 'a new file does not follow the umask'
no_beside
# standard output that takes nothing
for words in 'check a.book' 'compile license' 'compile license -o -' 'list a.book' 'list --json a.book' 'check -h' --help --version; do to_full $words; done
so 2 "$program --help >&-"
err_is 'chultarvi: standard output: Bad file descriptor'
# standard output past the limit of a file's size
for words in --help 'list default.book' 'list --json default.book' 'compile wide -o -' 'scan --json a.book license license license license license license'; do
    so 2 "ulimit -f 1; $program $words >limited"
    err_is 'chultarvi: standard output: File too large'
done
# a reader that goes away: a quiet end by the signal, as the shell's own tools have it
so 0 "{ $program list --json many.book; echo \$? >.status; } | head -c 1 >/dev/null"
holds .status 141
err_is ''
# a disk that is full: a small one of its own where that is allowed, else the shell's limit on the size of files
mkdir small
if unshare -m sh -c 'mount -t tmpfs -o size=64k none small' 2>/dev/null; then
    ran='compile wide onto a full disk'
    unshare -m sh -c 'mount -t tmpfs -o size=64k none small && printf old >small/kept
        '"$program"' compile wide -o small/kept 2>.err >.out
        echo $? >.got; cat small/kept >.kept; ls -A small >.left'
    got=$(cat .got) out=$(cat .out) err=$(cat .err)
    judge 2
    err_has 'No space left on device; what was there is unchanged'
    holds .kept old
    holds .left kept
else
    echo 'not run here: a full disk (no mount of its own allowed)'
fi
printf old >kept
ran='compile wide under ulimit -f'
(ulimit -f 1; $program compile wide -o kept 2>&1) >.err.limit
got=$? out='' err=$(cat .err.limit)
judge 2
err_has 'kept: not written: File too large; what was there is unchanged'
holds kept old
no_beside

# the script that builds and runs, by a symlink from elsewhere, and by one to that
ln -s "$root/host/run.sh" chultarvi-link
ln -s chultarvi-link again-link
for link in ./chultarvi-link ./again-link "$work/again-link"; do
    so 0 "$link --version"
    out_is 'chultarvi 0.8.0'
done
so 0 "$work/chultarvi-link check a.book"
out_is 'a.book: sound, 1 licence, 1 stored text, edition 1'

the_end
