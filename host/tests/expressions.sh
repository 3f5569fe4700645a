#!/bin/sh
# shellcheck disable=SC1003,SC1091,SC2015,SC2034,SC2059,SC2086,SC2154
# Tests of the command expression, run by host/test.sh: expressions.sh PROGRAM FAULTY BOOK NOTE (common.sh says which they are).
set -u
. "$(dirname "$0")/common.sh"
often='MIT OR (Apache-2.0 AND BSD-3-Clause)'
none='the text is no licence expression'
may='chultarvi expression --help says what may'

# usage
run 2 expression
err_is "chultarvi: expression wants an expression, or several; $(tells expression)"
run 2 expression --accept-part MIT
err_is "chultarvi: expression wants an expression, or several; $(tells expression)"
run 2 expression MIT --accept
err_is "chultarvi: --accept: wants a value; $(tells expression)"
run 2 expression MIT --accept-part
err_is "chultarvi: --accept-part: wants a value; $(tells expression)"
run 2 expression MIT --accept ''
err_is "chultarvi: --accept: wants a value that is not empty; $(tells expression)"
run 2 expression MIT --json=yes
err_is "chultarvi: --json=yes: takes no value; $(tells expression)"
run 0 expression --help
for word in --accept --accept-part --json 'GPL-2.0+ not by GPL-2.0' '4,194,304'; do out_has "$word"; done

# written: nothing else on standard output
run 0 expression "$often"
out_is 'MIT OR Apache-2.0 AND BSD-3-Clause'
err_is ''
run 0 expression '  a AND((b OR c))  ' '(a OR b)AND(c OR d)' 'GPL-2.0+   WITH  x'
out_is 'a AND (b OR c)
(a OR b) AND (c OR d)
GPL-2.0+ WITH x'
run 0 expression -- -a
out_is '-a'
run 0 expression --json "$often"
json 'notes' '[{"text": "MIT OR (Apache-2.0 AND BSD-3-Clause)", "refusal": 0, "written": "MIT OR Apache-2.0 AND BSD-3-Clause"}]'

# satisfied, by options and by lists; the exit status is the answer
run 0 expression --accept-part mit "$often"
out_is 'MIT OR Apache-2.0 AND BSD-3-Clause: satisfied'
run 1 expression --accept-part Apache-2.0 "$often"
out_is 'MIT OR Apache-2.0 AND BSD-3-Clause: not satisfied; not accepted: MIT, BSD-3-Clause'
err_is ''
run 0 expression --accept-part apache-2.0 "$often" --accept-part=BSD-3-CLAUSE
out_is 'MIT OR Apache-2.0 AND BSD-3-Clause: satisfied'
run 1 expression --accept-part GPL-2.0 GPL-2.0+ GPL-2.0 'GPL-2.0 WITH x'
out_is 'GPL-2.0+: not satisfied; not accepted: GPL-2.0+
GPL-2.0: satisfied
GPL-2.0 WITH x: not satisfied; not accepted: GPL-2.0 WITH x'
run 1 expression --accept-part a '(a OR b) AND (b OR c) AND b AND c WITH ANDY AND c WITH OR-x'
out_is '(a OR b) AND (b OR c) AND b AND c WITH ANDY AND c WITH OR-x: not satisfied; not accepted: b, c, c WITH ANDY, c WITH OR-x'
run 1 expression --accept-part z 'l AND k AND j AND i AND h AND g AND f AND e AND d AND c AND b AND a'
out_has 'not accepted: l, k, j, i, h, g, f, e, d, c and 2 more'
printf '# ours\nMIT\r\n\n#\nGPL-2.0+ WITH x' >ok.list
printf 'Zlib\n' >more.list
run 0 expression --accept ok.list mit 'gpl-2.0+ WITH X OR q'
out_is 'mit: satisfied
gpl-2.0+ WITH X OR q: satisfied'
err_is ''
run 0 expression --accept ok.list --accept more.list --accept-part q 'zlib AND MIT AND q'
out_is 'zlib AND MIT AND q: satisfied'
run 1 expression --accept empty MIT
out_is 'MIT: not satisfied; not accepted: MIT'
from ok.list 0 expression --accept - MIT
out_is 'MIT: satisfied'
run 1 expression --json --accept ok.list MIT 'a OR MIT' 'a AND (b OR a) AND MIT' 'a b'
json '[[n.get(k) for k in ("satisfied", "unmet", "refusal", "place")] for n in notes]' '[[true, [], 0, null], [true, ["a"], 0, null], [false, ["a", "b"], 0, null], [null, null, 13, 2]]'

# a list's line that is no part accepts nothing, and what to write instead is said
printf ' MIT\nMIT OR x\nMIT and x\nAND\n(b)\na  WITH b\nLicenseRef-a+\nok\n\t\nc\303\244\n' >bad.list
run 0 expression --accept bad.list ok
out_is 'ok: satisfied'
such='a part is such as MIT, GPL-2.0+ or GPL-2.0 WITH Classpath-exception-2.0'
err_is "chultarvi: bad.list: line 1: warning: ' MIT' accepts nothing; write MIT
chultarvi: bad.list: line 2: warning: 'MIT OR x' accepts nothing; give each part by itself
chultarvi: bad.list: line 3: warning: 'MIT and x' accepts nothing; $such
chultarvi: bad.list: line 4: warning: 'AND' accepts nothing; $such
chultarvi: bad.list: line 5: warning: '(b)' accepts nothing; write b
chultarvi: bad.list: line 6: warning: 'a  WITH b' accepts nothing; write a WITH b
chultarvi: bad.list: line 7: warning: 'LicenseRef-a+' accepts nothing; $such
chultarvi: bad.list: line 9: warning: '\\t' accepts nothing; $such
chultarvi: bad.list: line 10: warning: 'c$(printf '\303\244')' accepts nothing; $such"
for text in MIT x and b 'a WITH b' licenseref-a+; do run 1 expression --accept bad.list "$text"; done
run 2 expression --accept-part 'MIT OR x' MIT
err_is "chultarvi: --accept-part: 'MIT OR x' accepts nothing; give each part by itself"
out_is ''
run 2 expression --accept-part ' MIT' --accept-part q+ --accept-part '+' MIT
err_is "chultarvi: --accept-part: ' MIT' accepts nothing; write MIT
chultarvi: --accept-part: '+' accepts nothing; $such"
run 2 expression --accept nowhere MIT
err_is 'chultarvi: nowhere: cannot be read: No such file or directory'
out_is ''
run 2 expression --accept . MIT
err_is 'chultarvi: .: cannot be read: Is a directory'
run 2 expression --accept /dev/zero MIT
err_is 'chultarvi: /dev/zero: cannot be read: over 4,194,304 bytes'
printf 'a\000b\n' >zero
run 2 expression --accept zero MIT
err_is 'chultarvi: zero: cannot be read: it has a zero byte, and only lines of text are read'
broken read 2 expression --accept ok.list MIT
err_has 'ok.list: cannot be read: Input/output error'
broken malloc 2 expression --accept ok.list MIT
err_has 'no memory for'

# refused: the byte, what to do next, and a caret under it
run 1 expression 'MIT ANX'
err_is "chultarvi: refused (13): $none: byte 7 cannot stand there; $may
    MIT ANX
          ^"
out_is ''
run 1 expression 'MIT AND'
err_is "chultarvi: refused (13): $none: it breaks off, and something has to follow; $may
    MIT AND
           ^"
run 1 expression ''
err_is "chultarvi: refused (13): $none: it is empty; $may
    
    ^"
for text in 'MIT or x' 'MIT Or x' 'MIT and x' 'MIT with x' 'MIT WItH x'; do
    run 1 expression "$text"
    err_has 'cannot stand there; AND, OR and WITH are written in capitals'
done
for text in '(a)or b' '(a) AND b Or c' 'MIT WITH x and b'; do
    run 1 expression "$text"
    err_has '; AND, OR and WITH are written in capitals'
done
for text in 'MIT AND OR' 'AND' 'MIT, x' 'MIT order x' '(MIT' 'MIT)' 'MIT WITH' 'MIT AND AND x' '(and' '(a OR with' 'DocumentRef-or' 'or, x' 'and(b)' 'MIT AND or(' \
    'GPL-2.0 or-later' '(a) with b' 'MIT or.x'; do
    run 1 expression "$text"
    err_has "; $may"
done
run 1 expression "$(printf 'MIT\tOR \303\244 \377 \\')"
err_is "chultarvi: refused (13): $none: byte 4 cannot stand there; $may
    MIT\\tOR $(printf '\303\244') \\xff \\\\
       ^"
deep='(((((((((((((((((((((((((((((((('
run 1 expression "$deep(a"
err_is "chultarvi: refused (14): more than 32 parentheses are open: byte 33 opens one more; leave out pairs that are not needed, or write it with fewer in one another
    $deep(a
                                    ^"
run 1 expression "${deep}a("
err_has "refused (13): $none: byte 34 cannot stand there"
run 1 expression --json 'MIT ANX' "$deep(" '' "$(printf 'a\377"\\')"
json '[[n["text"], n["refusal"], n["place"]] for n in notes]' "[[\"MIT ANX\", 13, 6], [\"$deep(\", 14, 32], [\"\", 13, 0], [\"a\\udcff\\\"\\\\\", 13, 1]]"
json 'notes[0]["message"]' "\"refused (13): $none: byte 7 cannot stand there; $may\""
err_is ''
# a long text is shown about the place
long=$(printf 'a AND %.0s' 1 2 3 4 5 6 7 8 9 10 11 12 13 14 15 16 17 18 19 20)
run 1 expression "$long, and so on, and on, and on, and on"
err_is "chultarvi: refused (13): $none: byte 121 cannot stand there; $may
    ..a AND a AND a AND a AND a AND a AND a AND a AND a AND a AND , and so on, and on,..
                                                                  ^"

# a word that begins with '-' stands behind '--'; '-' is standard input there too
run 0 expression --accept-part MIT --help
out_has 'chultarvi expression '
run 1 expression --accept-part MIT -- --help
out_is '--help: not satisfied; not accepted: --help'
printf -- '-\n' >dash
from dash 1 expression --accept-part MIT -- -
out_is '-: not satisfied; not accepted: -'
# parts that differ in the case of letters alone are one
run 1 expression --accept-part z 'mit OR MIT OR Mit OR b WITH X OR B WITH x'
out_is 'mit OR MIT OR Mit OR b WITH X OR B WITH x: not satisfied; not accepted: mit, b WITH X'

# several: the worst counts, and each is answered
run 1 expression MIT 'a b' Zlib
out_is 'MIT
Zlib'
err_has 'byte 3 cannot stand there'
run 1 expression --accept-part MIT Zlib MIT
out_is 'Zlib: not satisfied; not accepted: Zlib
MIT: satisfied'

# standard input: one a line, CR LF or LF, the last with a newline or not; an empty line is none
printf 'MIT\r\n( a )\nb c\n\nlast' >texts
from texts 1 expression -
out_is 'MIT
a
last'
err_is "chultarvi: -: line 3: refused (13): $none: byte 3 cannot stand there; $may
    b c
      ^
chultarvi: -: line 4: refused (13): $none: it is empty; $may
    
    ^"
from texts 1 expression --json -
json '[[n["text"], n["refusal"]] for n in notes]' '[["MIT", 0], ["( a )", 0], ["b c", 13], ["", 13], ["last", 0]]'
printf 'a\nb\n' >texts
from texts 0 expression - c
out_is 'a
b
c'
from texts 2 expression - -
err_is 'chultarvi: -: cannot be read: standard input is read already'
from texts 2 expression --accept - -
err_is 'chultarvi: -: cannot be read: standard input is read already'
from empty 1 expression -
err_has 'it is empty'
printf '\n' >one
from one 1 expression -
[ "$(grep -c 'it is empty' .err)" = 1 ] && good || bad 'a line that is empty is one text'
from zero 2 expression -
err_is 'chultarvi: -: cannot be read: it has a zero byte, and only lines of text are read'
from /dev/zero 2 expression -
err_is 'chultarvi: -: cannot be read: over 4,194,304 bytes'

# 1 MiB of each: answered, on a stack of 64 KiB too, as 32 parentheses are
units() { awk -v unit="$1" -v last="$2" 'BEGIN { n = int(1048575 / length(unit)); for (i = 0; i < n; i++) printf "%s", unit; print last }'; }
units 'a AND ' b >chain
from chain 0 expression -
same .out chain
so 0 "ulimit -s 64; $program expression - <chain"
same .out chain
so 0 "ulimit -s 64; $program expression '${deep}a+ WITH b))))))))))))))))))))))))))))))))'"
out_is 'a+ WITH b'
from chain 0 expression --accept-part a --accept-part b -
out_has ' AND b: satisfied'
units '(a OR b)AND ' x >chain
from chain 1 expression --json --accept-part a -
json '[len(notes[0]["written"]), notes[0]["satisfied"], notes[0]["unmet"]]' '[1135954, false, ["b", "x"]]'
units '(' '(' >chain
from chain 1 expression -
err_has 'refused (14): more than 32 parentheses are open: byte 33 opens one more'
# some 100,000 parts, each its own, not accepted: named once, in their order
awk 'BEGIN { for (i = 0; i < 100000; i++) printf "%sp%d", i ? " OR " : "", i; print "" }' >chain
from chain 1 expression --json --accept-part q -
json '[len(notes[0]["unmet"]), notes[0]["unmet"][0], notes[0]["unmet"][-1]]' '[100000, "p0", "p99999"]'
# lines of a list that are long and no part: said at once, as the list's other lines are taken
awk 'BEGIN { for (i = 0; i < 800000; i++) printf "a OR "; print "a"; print "ok" }' >long.list
run 0 expression --accept long.list ok
out_is 'ok: satisfied'
err_is "chultarvi: long.list: line 1: warning: 'a OR a OR a OR a OR a OR a OR a OR a OR a OR a OR a OR a OR ..' accepts nothing; give each part by itself"
awk 'BEGIN { for (i = 0; i < 500000; i++) printf "(a)OR"; print "(a)" }' >long.list
run 1 expression --accept long.list a
awk 'BEGIN { for (i = 0; i < 29; i++) printf "ab"; print "c\303\244\303\244" }' >long.list
run 1 expression --accept long.list a
err_has "abc..' accepts nothing"

# 33 kinds of damage to one text: each is refused, or read and written as it then says; nothing ends otherwise than with 0 or 1
text='(a+ OR LicenseRef-b) AND c WITH d'
for i in 1 2 3 4 5 6 7 8 9 10 11 12 13 14 15 16 17 18 19 20 21 22 23 24 25 26 27 28 29 30 31 32 33; do
    head=$(printf %s "$text" | cut -c "1-$i") rest=$(printf %s "$text" | cut -c "$((i + 1))-")
    for damaged in "$head$(printf '\001')$rest" "${head%?}$rest" "$head"; do
        ran="expression $damaged"
        $program expression "$damaged" >.out 2>.err
        got=$? out=$(cat .out) err=$(cat .err)
        case $got in 0 | 1) good ;; *) bad "exit status $got" ;; esac
        [ "$got" = 0 ] && { $program expression "$out" >.again && same .out .again; }
        [ "$got" = 0 ] || err_has 'refused (13)'
    done
done

# standard output that takes nothing; a reader that goes away
to_full expression MIT
to_full expression --json --accept-part MIT MIT
so 0 "{ $program expression --json - <chain; echo \$? >.status; } | head -c 1 >/dev/null"
holds .status 141

the_end
