#!/bin/sh
# shellcheck disable=SC1091,SC2015,SC2016,SC2034,SC2086,SC2094,SC2154
# Tests of scan as the release desk uses it, run by host/test.sh: desk.sh PROGRAM FAULTY BOOK NOTE (common.sh says which they are). Every licence of a
# note, doubt, notes that are not ASCII, folders and odd files, threads, signals, and what is written at once.
set -u
. "$(dirname "$0")/common.sh"
# nothing here may wait for ever
soon="timeout 60 $program"

# three licences of words of their own, the last of three stanzas; and a long one, of which a note holds every other line: it is the best over the whole
# note and is nowhere in it, so elimination ends with it
words alpha 40 >alpha
words beta 40 >beta
{ words gamma 16; echo; words delta 16; echo; words epsilon 16; } >gamma
words idle 24 >idle
words long 240 >decoy
sed -n 'p;n' decoy >half
printf 'Alpha original alpha\nBeta original beta\nGamma original gamma\nDecoy original decoy\n' >list
run 0 book desk.book list
# found: every licence with its lines, the scan's own and the further ones
found='sorted([r["licence"], r["first"], r["after"]] for r in notes[0]["ranges"] + notes[0].get("further", []))'

# --thorough: every licence, with lines counted in the whole note, none twice, each an answer of the library
{ cat alpha; echo; sed -n 1,5p half; echo; cat beta; echo; sed -n 6,10p half; echo; cat gamma; echo; sed -n 11,15p half; } >all
whole='[["Alpha", 0, 5], ["Beta", 12, 17], ["Gamma", 24, 32]]'
run 0 scan --json desk.book all
json '[notes[0]["ranges"], notes[0]["unheld"]]' '[[], 31]'
run 0 scan --json --thorough desk.book all
json "$found" "$whole"
json '[notes[0]["ranges"], notes[0]["stopped"], notes[0]["unheld"]]' '[[], false, 15]'
json '[r["score"] for r in notes[0]["further"]]' '[1, 1, 1]'
run 0 scan --thorough desk.book all
out_has 'further, lines '
out_has '15 lines with words are in no range
'
out_has ' more behind the scan'
# without it, what nobody has read is said, and what looks there
run 0 scan desk.book all idle alpha
out_has 'lines with words are in no range; --thorough looks there'
run 0 scan --json desk.book alpha
json '[notes[0]["licence"], notes[0]["unheld"], "further" in notes[0]]' '["Alpha", 0, false]'
# two licences that are like no third: nothing is named that is not there
run 0 scan --json --thorough desk.book idle
json "$found" '[]'
# lines with CR LF, and of spaces alone, part stanzas as empty ones do
sed 's/$/\r/; s/^\r$/  \t\r/' all >all.crlf
run 0 scan --json --thorough desk.book all.crlf
json "$found" "$whole"
# so do lines without a word
sed 's/^$/ ./; s/^/ * /' all >all.stars
run 0 scan --json --thorough desk.book all.stars
json "$found" '[["Alpha", 0, 6], ["Beta", 12, 18], ["Gamma", 24, 33]]'
# a note above the shallow limit is one licence; a short one in it is found further, and the long one not again
words long 4000 >long
words short 40 >short
printf 'Long original long\nShort original short\n' >list
run 0 book long.book list
{ cat long; echo; cat short; } >nearly
run 0 scan --json long.book nearly
json '[notes[0]["licence"], notes[0]["ranges"], notes[0]["score"] > 0.99]' '["Long", [], true]'
run 0 scan --json --thorough long.book nearly
json '[[r["licence"], r["first"], r["after"]] for r in notes[0]["further"]]' '[["Short", 501, 507]]'
# the further scans take what is left of the budget, and say that it stopped them
run 0 scan --json --thorough desk.book all
json 'notes[0]["more"] > 0' true
own=$(python3 -c 'import json; print(json.load(open(".out"))["scorings"])')
run 1 scan --json --thorough --budget "$own" desk.book all
json '[notes[0]["refusal"], notes[0]["stopped"], notes[0]["scorings"] + notes[0]["more"]]' "[0, true, $own]"
run 1 scan --thorough --budget "$own" desk.book all
out_has 'the further scans were stopped by the budget'
run 1 scan --json --thorough --budget $((own - 1)) desk.book all
json '[notes[0]["refusal"], notes[0]["further"], notes[0]["more"]]' '[12, [], 0]'
# with a second book, and from top to bottom
printf 'Alpha original alpha\n' >list
run 0 book one.book list
printf 'Beta original beta\nGamma original gamma\nDecoy original decoy\n' >list
run 0 book rest.book list
run 0 scan --json --thorough one.book --beside rest.book all
json "$found" "$whole"
json 'sorted((r["licence"], r["book"]) for r in notes[0]["ranges"] + notes[0]["further"])' '[["Alpha", "one.book"], ["Beta", "rest.book"], ["Gamma", "rest.book"]]'
run 0 scan --json --thorough --top-down 50 desk.book all
json "$found" "$whole"
# real texts: each of several in one file
texts=/usr/share/common-licenses
if [ -r $texts/Artistic ] && [ -r $texts/GPL-3 ] && [ -r $texts/BSD ] && [ -r $texts/MPL-1.1 ] && [ -r $texts/Apache-2.0 ] && [ -r $texts/CC0-1.0 ]; then
    names='sorted({r["licence"] for r in notes[0]["ranges"] + notes[0]["further"]})'
    cat $texts/Artistic $texts/GPL-3 >two.texts
    run 0 scan --json --ascii --thorough default.book two.texts
    json "$names" '["Artistic-1.0-Perl", "GPL-3.0-only"]'
    cat $texts/Apache-2.0 $texts/BSD $texts/Artistic $texts/MPL-1.1 $texts/CC0-1.0 >five.texts
    run 0 scan --json --ascii --thorough default.book five.texts
    json "$names" '["Apache-2.0", "Artistic-1.0-Perl", "BSD-3-Clause", "CC0-1.0", "MPL-1.1"]'
else
    echo 'not run here: several real texts in one file (no /usr/share/common-licenses)'
fi

# doubt: a text of another licence with the very score is named; the next one only with --second
cp alpha twin
words zeta 40 | sed 3q >zeta
{ sed 2q alpha; cat zeta; } >near
printf 'Alpha original alpha\nTwin original twin\nNear original near\n' >list
$program book twins.book list >/dev/null 2>&1
run 0 scan twins.book alpha
out_is 'alpha: Alpha, original, score 1.0000, 2m/t = 2*39/78
    but as high: Twin, original, score 1.0000, 2m/t = 2*39/78
  3 scorings, 1 more behind the scan'
run 0 scan --json twins.book alpha
json '[notes[0]["licence"], notes[0]["rival"]]' '["Alpha", {"licence": "Twin", "kind": "original", "score": 1, "m": 39, "t": 78}]'
run 0 scan --json twins.book near
json '[notes[0]["licence"], notes[0]["rival"], "second" in notes[0]]' '["Near", false, false]'
run 0 scan --json --second twins.book near
json '[notes[0]["rival"], notes[0]["second"]["licence"], 0 < notes[0]["second"]["score"] < 1]' '[false, "Alpha", true]'
run 0 scan --second twins.book near
out_has '    next: Alpha, original, score 0.'
run 0 scan --second twins.book zeta
out_has '    nearest: Near, original, score 0.'
run 0 scan --json --second twins.book idle
json '[notes[0]["licence"], notes[0]["rival"], notes[0]["second"]]' '[null, null, null]'
run 0 scan --json --second a.book license
json 'notes[0]["second"]' null
{ cat idle; echo; cat alpha; } >behind
run 0 scan --json twins.book behind
json '[[r["licence"], r["rival"]["licence"]] for r in notes[0]["ranges"]]' '[["Alpha", "Twin"]]'
printf 'Twin original twin\n' >list
run 0 book twin.book list
run 0 scan desk.book --beside twin.book alpha
out_has '    but as high: Twin, original, score 1.0000, 2m/t = 2*39/78, from twin.book'
# on equal scores an original is named, though a header stands before it, in the same book or in the first of two; the header is said beside it
printf 'Alpha original near\nAlpha header alpha\nTwin original twin\n' >list
$program book kinds.book list >/dev/null 2>&1
run 0 scan kinds.book alpha
out_is 'alpha: Twin, original, score 1.0000, 2m/t = 2*39/78
    but as high: Alpha, header, score 1.0000, 2m/t = 2*39/78
  3 scorings, 2 more behind the scan'
run 0 scan --json kinds.book behind
json '[[r["licence"], r["kind"], r["number"], r["rival"]["kind"]] for r in notes[0]["ranges"]]' '[["Twin", "original", 2, "header"]]'
run 0 scan --json --top-down 1 kinds.book behind
json '[[r["licence"], r["kind"], r["number"]] for r in notes[0]["ranges"]]' '[["Twin", "original", 2]]'
printf 'Alpha original near\nAlpha header alpha\n' >list
run 0 book header.book list
for books in 'header.book --beside twin.book' 'twin.book --beside header.book'; do
    run 0 scan $books alpha
    out_has 'alpha: Twin, original, score 1.0000, 2m/t = 2*39/78, from twin.book
    but as high: Alpha, header, score 1.0000, 2m/t = 2*39/78, from header.book'
done
# so is what is found further: Low's header is the best of the last three lines, and on the second of them High's original is as high
words zed 30 >zed
printf 'one two three four x y z' >low
printf 'one two three' >high
printf 'Low original idle\nLow header low\nHigh original high\nZed original zed\n' >list
run 0 book further.book list
{ cat zed; printf '\np q\none two three four five six seven\nk l m n\n'; } >further
run 0 scan --json --thorough --passes 1 --threshold 0.35 further.book further
json '[r["licence"] for r in notes[0]["ranges"]] + [[r["licence"], r["kind"], r["m"], r["rival"]["licence"], r["rival"]["kind"]] for r in notes[0]["further"]]' \
    '["Zed", ["High", "original", 2, "Low", "header"]]'
# the budget did not pay for the look
run 0 scan --json --budget 3 twins.book alpha
json '[notes[0]["licence"], notes[0]["rival"]]' '["Alpha", null]'

run 0 scan --second --json one.book --beside rest.book half
json '[notes[0]["licence"], notes[0]["second"]["licence"], notes[0]["second"]["book"]]' '[null, "Decoy", "rest.book"]'

# --ascii
printf 'M\303\277 \342\200\234F\304\261rst\342\200\235\302\240L\303\255c\303\250ns\351\342\200\224\360\237\224\222\n' >letters
run 1 scan a.book letters
err_is 'chultarvi: letters: refused (2): the text is not ASCII: line 1, byte 2 is 0xc3, of U+00FF; a BOOK of edition 3 takes it (debian-3.book, or yours made anew by chultarvi book --edition 3); --ascii scans it with such characters mapped or dropped'
run 0 scan --ascii a.book letters
out_is 'letters: A, original, score 1.0000, 2m/t = 2*2/4
  --ascii changed 10 characters
  1 scoring'
run 0 scan --ascii --json a.book letters license
json '[n["changed"] for n in notes]' '[10, 0]'
printf 'My First\240License\n' >latin
run 0 scan --ascii --json a.book latin
json '[notes[0]["changed"], notes[0]["licence"]]' '[1, "A"]'
{ spaces 1048575; printf '\302\251'; } >grows
run 1 scan --ascii a.book grows
err_is 'chultarvi: grows: refused (1): the text is over 1,048,576 bytes; cut it into parts'
run 1 scan --ascii a.book over
err_is 'chultarvi: over: refused (1): the text is over 1,048,576 bytes; cut it into parts'

# folders: files in the order of names, links to files followed, loops not, and a count of what is skipped
mkdir -p tree/b/deep tree/.git tree/a tree/closed
cp license tree/b/deep/note
cp license tree/a/note
cp license tree/.git/note
cp over tree/a/over
cp license tree/-x
ln -s ../../license tree/b/link
ln -s .. tree/b/loop
ln -s nowhere tree/b/gone
ln -s self tree/b/self
mkfifo tree/pipe
so 0 "$soon scan -r a.book tree"
out_is 'tree/-x: A, original, score 1.0000, 2m/t = 2*2/4
  1 scoring
tree/a/note: A, original, score 1.0000, 2m/t = 2*2/4
  1 scoring
tree/b/deep/note: A, original, score 1.0000, 2m/t = 2*2/4
  1 scoring
tree/b/link: A, original, score 1.0000, 2m/t = 2*2/4
  1 scoring
tree: 4 notes; skipped: 1 over 1,048,576 bytes, 3 no regular file, 1 a link to a folder, 1 .git'
err_is ''
so 0 "$soon scan --json a.book --recursive tree license"
json '[n.get("note", n.get("folder")) for n in notes]' '["tree/-x", "tree/a/note", "tree/b/deep/note", "tree/b/link", "license", "tree"]'
json '[notes[-1]["notes"], notes[-1]["skipped"]]' '[4, {"large": 1, "odd": 3, "links": 1, "git": 1}]'
cp .out folder.json
so 0 "python3 '$root/host/tests/schema.py' '$root/host/scan.schema.json' <folder.json"
run 0 scan -r a.book license
out_is 'license: A, original, score 1.0000, 2m/t = 2*2/4
  1 scoring'
run 2 scan a.book tree license
err_is 'chultarvi: tree: cannot be read: it is a folder; -r scans the files in it'
out_has 'license: A'
mkdir bare
run 0 scan -r a.book bare
out_is 'bare: 0 notes'
ln -s tree named
so 0 "$soon scan -r a.book named"
out_has 'named: 4 notes; '
chmod 000 tree/closed
if [ "$(id -u)" != 0 ]; then
    so 2 "$soon scan -r a.book tree"
    err_is 'chultarvi: tree/closed: cannot be read: Permission denied'
    out_has 'tree: 4 notes; '
fi
chmod 755 tree/closed

# a FIFO, a device and a socket are never waited for, and keep nothing else from being scanned
so 2 "$soon scan a.book tree/pipe license /dev/null"
err_is 'chultarvi: tree/pipe: cannot be read: it is a FIFO or a device, which is skipped; a note is a regular file, or - for standard input
chultarvi: /dev/null: cannot be read: it is a FIFO or a device, which is skipped; a note is a regular file, or - for standard input'
out_is 'license: A, original, score 1.0000, 2m/t = 2*2/4
  1 scoring'
so 2 "$soon scan --json a.book --beside desk.book tree/pipe license"
json '[sorted(notes[0]), notes[1]["licence"]]' '[["note", "trouble"], "A"]'
so 0 "cat license | $soon scan a.book -"
out_has '-: A, original, score 1.0000, 2m/t = 2*2/4'

so 0 "$soon scan --json --ascii -r a.book --beside desk.book tree letters"
json '[[n["licence"], n["book"], n["changed"]] for n in notes if "note" in n]' '[["A", "a.book", 0], ["A", "a.book", 0], ["A", "a.book", 0], ["A", "a.book", 0], ["A", "a.book", 10]]'

# threads: the same words in the same order
mkdir many
i=0
while [ $i -lt 60 ]; do
    case $((i % 4)) in 0) cp all "many/n$i" ;; 1) cp alpha "many/n$i" ;; 2) cp umlaut "many/n$i" ;; *) cp idle "many/n$i" ;; esac
    i=$((i + 1))
done
run 1 scan --thorough -r desk.book many
cp .out one.out
cp .err one.err
for jobs in 2 7 256; do
    run 1 scan --thorough -r --jobs=$jobs desk.book many
    same .out one.out
    same .err one.err
done
# of several threads one reads standard input, all of it
so 2 "cat license | $soon scan --json -j 4 a.book - - - -"
json '[sum("trouble" in n for n in notes), [n["licence"] for n in notes if "licence" in n]]' '[3, ["A"]]'
for jobs in 0 257 x ''; do
    run 2 scan -j "$jobs" desk.book alpha
    err_is "chultarvi: --jobs wants a number of threads from 1 to 256, not '$jobs'"
done

# a reader that leaves: the program ends at once, and says nothing
so 0 "{ $soon scan -r desk.book many 2>/dev/null; echo \$? >.status; } | head -n 1 >/dev/null"
case $(cat .status) in 141 | 2) good ;; *) bad "status $(cat .status) without a reader" ;; esac
# standard output that takes nothing: the reason is said, whichever thread met it, and nothing more is scanned, also behind an answer larger than a buffer
so 2 "$soon scan -j 4 a.book license license license license license license >/dev/full"
err_is 'chultarvi: standard output: No space left on device'
i=0
while [ $i -lt 200 ]; do
    printf 'My First License\n\n\n'
    i=$((i + 1))
done >ranges
run 0 scan --top-down 1 a.book ranges
[ "$(wc -c <.out)" -gt 8192 ] && good || bad 'an answer of less than a buffer'
so 2 "$soon scan --top-down 1 a.book ranges umlaut >/dev/full"
err_is 'chultarvi: standard output: No space left on device'
# a limit on the size of files: said, and not a death
so 2 "ulimit -f 1; $soon scan --thorough -r desk.book many >limited"
err_has 'chultarvi: standard output: File too large'
[ "$(wc -c <limited)" -le 1024 ] && good || bad 'over the limit'
# Ctrl-C in a scan ends it, with whole answers before
words hum 90000 >hum
cp hum many/m0
cp hum many/m1
for signal in INT TERM; do
    ran="scan, then SIG$signal"
    # a shell lets what it starts in the background ignore an interrupt; python3 does not
    python3 - "$signal" $program scan --top-down 1 --json -r default.book many >.out 2>.err <<'END'
import signal, subprocess, sys, time
words = sys.argv[2:]
with open("stopped", "wb") as out:
    child = subprocess.Popen(words, stdout=out, preexec_fn=lambda: signal.signal(signal.SIGINT, signal.SIG_DFL))
    time.sleep(2)
    child.send_signal(getattr(signal, "SIG" + sys.argv[1]))
    began = time.monotonic()
    status = child.wait(timeout=30)
print(status == -getattr(signal, "SIG" + sys.argv[1]), time.monotonic() - began < 10, open("stopped", "rb").read()[-1:] in (b"", b"\n"))
END
    got=$? out=$(cat .out) err=$(cat .err)
    judge 0
    out_is 'True True True'
done
no_beside

# several writers of one book at once: one of them wins, whole
printf 'Alpha original alpha\n' >list.1
printf 'Beta original beta\nGamma original gamma\n' >list.2
run 0 book made.1 list.1
run 0 book made.2 list.2
i=0
while [ $i -lt 8 ]; do
    $program book made list.$((i % 2 + 1)) >/dev/null 2>>.errors &
    i=$((i + 1))
done
wait
ran='eight writers of one book' out='' err=$(cat .errors)
err_is ''
cmp -s made made.1 || cmp -s made made.2 && good || bad 'no whole book'
no_beside

# progress: as wide as the terminal at most, and none where it cannot be taken back
if command -v script >/dev/null; then
    cp license "$(printf '%0120d' 0)"
    ran='scan in a narrow terminal'
    TERM=xterm script -qec "stty cols 30; $program scan a.book two $(printf '%0120d' 0)" /dev/null </dev/null >.out 2>&1
    got=$? out=$(cat .out) err=
    judge 0
    python3 -c 'import sys
shown = [part.split("\r")[0].split("\n")[0] for part in open(".out", encoding="utf-8", newline="").read().split("\r\x1b[K")[1:]]
shown = [s for s in shown if " of 2: " in s]
sys.exit(not (shown and all(len(s) < 30 for s in shown)))' && good || bad 'progress is wider than the terminal'
    for term in dumb ''; do
        ran="scan with TERM=$term"
        TERM=$term script -qec "$program scan a.book two license" /dev/null </dev/null >.out 2>&1
        out=$(cat .out)
        case $out in *' of 2'* | *"$(printf '\033')"*) bad 'progress on a dumb terminal' ;; *) good ;; esac
    done
else
    echo 'not run here: the width of progress (no script)'
fi

the_end
