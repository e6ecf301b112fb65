# A part of host.sh: text of any length, which is applied in parts of 4,096 lines, one pass after another.

# lines of some terms and positions, a quarter of them removals of a short range
many_lines() { # COUNT SEED TERMS POSITIONS
    awk -v count="$1" -v seed="$2" -v terms="$3" -v positions="$4" '
        function draw(below) { seed = seed * 16807 % 2147483647; return int(seed / 7) % below }
        BEGIN {
            for (i = 0; i < count; i++) {
                term = 1 + draw(terms); from = 1 + draw(positions)
                if (draw(4)) print "A\t" term "\t" from; else print "R\t" term "\t" from "\t" from + draw(4)
            }
        }'
}
# the pairs that a text leaves of those on standard input, by the rule: the last line that touches a pair decides
meant() { # TEXT
    awk 'NR == FNR { inside[$1 " " $2] = 1; next }
        $1 == "A" { inside[$2 " " $3] = 1 }
        $1 == "R" { for (p = $3; p <= $4; p++) delete inside[$2 " " p] }
        END { for (pair in inside) print pair }' - "$1" | sort -n -k 1,1 -k 2,2
}
part_of() { sed -n 's/^part \([0-9]*\) of .*/\1/p' "$1"; } # NOTE: the part that it names, nothing where it names none
parts_shown() { sed -n 's/^[^ ]*: part \([0-9]*\) of \([0-9]*\), lines \([0-9]*\) to \([0-9]*\): the pass is finished; .*/\1 of \2: \3-\4/p' out | tr '\n' ,; }

# ---- whole texts

run 0 'format a card for long texts' format book.card 256 24
many_lines 500 3 30 60 >some.text
run 0 'it has pairs' apply --text book.card some.text
pairs book.card >book.pairs
long_text() { # LINES PARTS: a text of so many lines; its parts are shown so
    many_lines "$1" "$1" 30 60 >long.text
    meant long.text <book.pairs >meant.pairs
    cp book.card long.card
    run 0 "$1 lines" apply --text long.card long.text
    check "$1 lines: no message" [ ! -s err ]
    check "$1 lines: its parts" [ "$(parts_shown)" = "$2" ]
    check "$1 lines: the configuration is shown once" [ "$(grep -c '^configuration' out)" -eq 1 ]
    check "$1 lines: what they mean" has meant.pairs pairs long.card
    check "$1 lines: no note is left" none_named long.card.
    # by hand, each part a batch of its own
    cp book.card hand.card
    rm -f hand.part.*
    split -l 4096 long.text hand.part.
    for part in hand.part.*; do run 0 "$1 lines by hand" apply --text hand.card "$part"; done
    check "$1 lines: the same card by hand" cmp -s long.card hand.card
    cp book.card also.card
    run 0 "$1 lines from standard input" apply --text also.card - <long.text
    check "$1 lines from standard input: the same card" cmp -s long.card also.card
    cp book.card also.card
    head -c -1 long.text >bare.text
    run 0 "$1 lines without the last line feed" apply --text also.card bare.text
    check "$1 lines without the last line feed: the same card" cmp -s long.card also.card
    cp book.card also.card
    run 0 "fits, $1 lines" fits --text also.card long.text
    check "fits, $1 lines: one answer to a part" [ "$(grep -c 'the batch fits; ' out)" -eq "$(find . -name 'hand.part.*' | wc -l)" ]
    check "fits, $1 lines: the card stands" cmp -s also.card book.card
    check "fits, $1 lines: no note" none_named also.card.
}
long_text 4096 ''
long_text 4097 '1 of 2: 1-4096,2 of 2: 4097-4097,'
long_text 8192 '1 of 2: 1-4096,2 of 2: 4097-8192,'
long_text 12289 '1 of 4: 1-4096,2 of 4: 4097-8192,3 of 4: 8193-12288,4 of 4: 12289-12289,'

# a million lines
yes $'A\t5\t2' | head -n 999999 >million.text
printf 'A\t5\t3\n' >>million.text
cp new.card long.card
began=$SECONDS
run 0 'a million lines' apply --text long.card million.text
check "a million lines: $((SECONDS - began)) seconds, at most 30" [ $((SECONDS - began)) -le 30 ]
check 'a million lines: the pairs' [ "$(pairs long.card)" = $'5 2\n5 3' ]
check 'a million lines: 245 parts' [ "$(grep -c 'the pass is finished' out)" -eq 245 ]
began=$SECONDS
run 0 'fits, a million lines' fits --text new.card million.text
check "fits, a million lines: $((SECONDS - began)) seconds, at most 30" [ $((SECONDS - began)) -le 30 ]
rm million.text

# ---- lines that are refused, wherever they stand, before the card is opened

many_lines 12289 1 30 60 >good.text
spoil() { sed "$1" good.text >spoilt.text; } # as sed has it
not_taken() { # NUMBER LINE WHAT
    local meaning=$form
    if [ "$1" -eq 6 ]; then meaning=$figures; fi
    cp book.card long.card
    rm -f long.log
    for command in apply fits; do
        WRITE_LOG=long.log run_cut 1 "$command, $3" $command --text long.card spoilt.text
        check "$command, $3: the message" has err echo "spoilt.text: line $2: refused, number $1: $meaning"
        check "$command, $3: nothing is shown" [ ! -s out ]
        check "$command, $3: the card stands" cmp -s long.card book.card
        check "$command, $3: no note" none_named long.card.
        check "$command, $3: nothing is done" [ ! -e long.log ]
    done
}
for line in 1 4096 4097 6000 8192 8193 12288 12289; do
    spoil "${line}s/.*/A\t5/"
    not_taken 12 $line "12 in line $line"
    spoil "${line}s/.*/A\t0\t1/"
    not_taken 6 $line "6 in line $line"
    spoil "${line}s/.*/R\t5\t1\t0/"
    not_taken 6 $line "6 in a removal in line $line"
done
spoil $'5000s/.*/A\t0\t1/;7000s/.*/A\t1\t0/;9000s/.*/A\t0\t0/'
not_taken 6 5000 'the first of several 6'
spoil $'5000s/.*/bad/;7000s/.*/bad/;9000s/.*/bad/'
not_taken 12 5000 'the first of several 12'
spoil $'10s/.*/A\t0\t1/;9000s/.*/bad/'
not_taken 12 9000 '12 of a later part before 6 of an earlier one'
spoil $'9000s/.*/A\t0\t1/;9001s/.*/bad/'
not_taken 12 9001 '12 before 6 in a part'
{ cat good.text && printf 'bad'; } >spoilt.text
not_taken 12 12290 '12 in a last line without its feed'
{ cat good.text && echo; } >spoilt.text
not_taken 12 12290 'an empty line at the end'
seq 4097 | awk '{ print 1, 8, $1, $1, $1 }' | as_words >words.batch
cp book.card long.card
run 1 'so many words are no batch' apply long.card words.batch
check 'so many words are no batch: the message' grep -q '^words.batch: more than 4096 records: refused, number 6: ' err
check 'so many words are no batch: the card stands' cmp -s long.card book.card

# ---- cuts: the text goes on in the part it was in

# few pairs in three blocks, which each part changes; the index never has a pair of term 9 in the end
run 0 'format a card for a text that is cut' format brief.card 8 9
many_lines 5 1 3 4 >some.text
run 0 'it has pairs' apply --text brief.card some.text
pairs brief.card >brief.pairs
{
    many_lines 4090 5 3 4 && printf 'A\t9\t%d\n' 1 2 3 && printf 'R\t1\t1\t9\nA\t1\t2\nA\t2\t3\n'
    many_lines 4090 6 3 4 && printf 'R\t9\t1\t2\nA\t8\t1\nR\t2\t1\t9\nA\t1\t7\nA\t2\t7\nA\t3\t7\n'
    many_lines 50 7 3 4 && printf 'R\t9\t1\t9\nR\t8\t1\t9\nA\t1\t1\nA\t1\t4\nA\t2\t4\nR\t3\t1\t2\n'
} >brief.text
check 'its lines' [ "$(wc -l <brief.text)" -eq 8248 ]
meant brief.text <brief.pairs >brief.meant
expected_pairs=$(cat brief.meant)
# texts of the same length: one figure is another, in the last part or in the first
other_figure() { awk -v line="$1" 'NR == line { sub(/.$/, /1$/ ? "2" : "1") } { print }' brief.text; } # LINE
other_figure 8200 >differs.text
other_figure 10 >earlier.text
check 'texts of one length' [ "$(stat -c %s differs.text earlier.text | uniq)" = "$(stat -c %s brief.text)" ]
check 'which differ' [ "$(cmp -s differs.text brief.text || cmp -s earlier.text brief.text || echo yes)" = yes ]
{ cat brief.text && printf 'A\t1\t1\n'; } >grown.text
sed -n '4097,8192p' brief.text >second.text
rm -f log && fresh brief.card
WRITE_LOG=log run_now 0 'uncut' apply --text now/card brief.text
check 'uncut: the pairs' [ "$(pairs now/card)" = "$expected_pairs" ]
check 'uncut: it is on the medium' cmp -s now/card now/medium
cp now/card brief.end
part_writes="writes,$(noted card)writes," # what a part's pass is done on is noted before its last write
check 'uncut: each part is noted before its first write, the next right after the last one' [ "$(
    awk '/^write/ { if (last != "write") print "writes"; last = "write"; next } /^sync/ { if (NR == 1) print; next } { print; last = $1 }' log | tr '\n' ,
)" = "$(opened card)$part_writes$(noted card)$part_writes$(noted card)${part_writes}remove card.pass," ]
# The part that a text of three goes on in: the one that the note names, and the next, if that one is finished.
next_part() { # CARD
    local part
    part=$(part_of "$1.pass" 2>/dev/null)
    if [ -z "$part" ]; then echo 1
    elif ! is_open "$1" && grep -q '^done on' "$1.pass"; then echo $((part < 3 ? part + 1 : 3))
    else echo "$part"; fi
}
goes_on_in() { # WHAT CARD: the same text goes on, and another is refused
    local part
    part=$(next_part "$2")
    if is_open "$2"; then
        open_parts[part]=$((${open_parts[part]-0} + 1))
        cp "$2" before.card
        for other in differs earlier grown second; do
            run 1 "$1, $other" apply --text "$2" $other.text
            check "$1, $other: a pass is open" grep -q "^$2: refused, a pass is open: " err
            check "$1, $other: the card stands" cmp -s "$2" before.card
        done
    fi
    run 0 "$1: again" apply --text "$2" brief.text
    check "$1: again, in part $part" begins out "^$2: part $part of 3, lines "
    check "$1: again: the pairs" [ "$(pairs "$2")" = "$expected_pairs" ]
    check "$1: again: no note is left" [ ! -e "$2.pass" -a ! -e "$2.pass.new" ]
}
open_parts=()
for call in $(seq "$(wc -l <log)"); do
    fresh brief.card
    KILL_CALL=$call run_now 137 "cut before call $call" apply --text now/card brief.text
    named=$(head -n $((call - 1)) log | grep -c '^name card.pass')
    part=$(((named + 1) / 2)) # each is noted twice
    check "cut before call $call: part $part is noted" [ "$(part_of now/card.pass 2>/dev/null)" = "${part#0}" ]
    keep
    for choice in $(seq 0 20); do
        rm -f left/*
        MEDIUM=now/medium "$cut" power-cut "$choice" left >/dev/null || break
        # one choice of each call goes on, another on the next, so that all ways are tried somewhere
        if [ $((choice % 3)) -ne $((call % 3)) ]; then continue; fi
        run_cut 0 "cut before call $call, choice $choice: sound" judge left/card
        run_cut 0 "cut before call $call, choice $choice: again" apply --text left/card brief.text
        check "cut before call $call, choice $choice: the pairs" [ "$(pairs left/card)" = "$expected_pairs" ]
    done
    if [ $((call % 4)) -eq 0 ] || ! [[ $(sed -n "${call}p" log) =~ ^(write|sync) ]]; then goes_on_in "cut before call $call" now/card; fi
    # the note is lost: the whole text, resumed, leaves the same pairs
    if [ $((call % 4)) -eq 2 ]; then
        again
        rm -f now/card.pass
        if is_open now/card; then
            run 1 "cut before call $call, no note" apply --text now/card brief.text
            check "cut before call $call, no note: a pass is open" grep -q '^now/card: no file .*/now/card.pass tells which batch' err
        fi
        run 0 "cut before call $call, no note: resumed" apply --text --resume now/card brief.text
        check "cut before call $call, no note: the pairs" [ "$(pairs now/card)" = "$expected_pairs" ]
    fi
done
for part in 1 2 3; do check "${open_parts[$part]-0} cuts in part $part, at least 2" [ "${open_parts[$part]-0}" -ge 2 ]; done

# every write of every part, half of it and after it, goes on in its part from standard input too
for write in $(seq "$(grep -c '^write' log)"); do
    for when in half after; do
        fresh brief.card
        kill_now "$write" $when "write $write, $when" apply --text now/card brief.text
        part=$(next_part now/card)
        run 0 "write $write, $when: again" apply --text now/card - <brief.text
        check "write $write, $when: again, in part $part" begins out "^now/card: part $part of 3, lines "
        check "write $write, $when: the pairs" [ "$(pairs now/card)" = "$expected_pairs" ]
    done
done
# a card that is put back from a copy while any of the notes lies there begins with the first part, wherever its blocks
# stand: no part is left out
cp brief.card turned.0
for turn in $(seq 8); do
    cp turned.$((turn - 1)) turned.$turn
    run 0 "turn the card, $turn" apply turned.$turn none.batch
done
for call in $(awk '/^folder/ && last ~ /^name card.pass/ { print NR + 1 } { last = $0 }' log); do
    cp brief.card back.card
    rm -f back.card.pass
    KILL_CALL=$call run_cut 137 "put back, call $call: cut" apply --text back.card brief.text
    cp back.card.pass back.pass
    for turn in $(seq 0 8); do
        cp turned.$turn back.card
        cp back.pass back.card.pass
        run 0 "put back, call $call, turn $turn" apply --text back.card brief.text
        check "put back, call $call, turn $turn: the first part" begins out '^back.card: part 1 of 3, lines '
        check "put back, call $call, turn $turn: the pairs" [ "$(pairs back.card)" = "$expected_pairs" ]
    done
done
# one write to a run, to the last part, and a few
for most in 1 5; do
    fresh brief.card
    for round in $(seq 200); do
        KILL_WRITE=$((1 + round % most)) KILL_WHEN=after "$cut" apply --text now/card brief.text >/dev/null 2>&1
        status=$?
        if [ "$status" -ne 137 ] || [ "$(part_of now/card.pass)" = 3 ]; then break; fi
    done 2>/dev/null
    check "up to $most writes to a run come to the last part, in $round runs" [ "$round" -gt 3 -a "$round" -lt 100 ]
    run 0 "up to $most writes to a run: the rest" apply --text now/card brief.text
    check "up to $most writes to a run: the pairs" [ "$(pairs now/card)" = "$expected_pairs" ]
done

# an empty batch ends the pass where it is, and the text is told of that was not applied to its end
fresh brief.card
cut_in() { # PART WRITE: a run is cut at this write of the part
    local before
    before=$(awk -v part="$1" '/^name card.pass/ && ++noted == 2 * part - 1 { exit } /^write/ { count++ } END { print count + 0 }' log)
    kill_now $((before + $2)) after "cut in part $1 at its write $2" apply --text now/card brief.text
    check "cut in part $1 at its write $2: the note" [ "$(part_of now/card.pass)" = "$1" ]
}
cut_in 1 4
cp now/card.pass first.pass
fresh brief.card
cut_in 2 4
check 'cut in part 2: a pass is open' is_open now/card
# a note of another part: of a pass that is finished, or that is not known
cp now/card.pass second.pass
cp now/card before.card
for place in $(seq 0 8); do
    sed "s/from place [0-9]* on/from place $place on/" first.pass >now/card.pass
    if [ $place -eq "$(configuration now/card | awk '{ print ($4 + $5) % $3 }')" ]; then continue; fi # as if part 1 were under way
    run 1 "a note of part 1, place $place" apply --text now/card brief.text
    check "a note of part 1, place $place: a pass is open" grep -q '^now/card: refused, a pass is open: ' err
    check "a note of part 1, place $place: the card stands" cmp -s now/card before.card
done
cp now/card still.card
cp second.pass still.card.pass
run 0 'an empty batch in part 2, quietly' apply --quiet still.card none.batch
check 'an empty batch in part 2, quietly: the warning stays' grep -q '^still.card: not applied to its end: part 2 of 3 of a text' err
check 'an empty batch in part 2, quietly: and nothing else' [ "$(wc -l <err)" -eq 1 -a ! -s out ]
cp second.pass now/card.pass
run 0 'an empty batch in part 2' apply now/card none.batch
check 'an empty batch in part 2: what was not applied is told' grep -q \
    '^now/card: not applied to its end: part 2 of 3 of a text of [0-9]* bytes, checksum [0-9a-f]*; apply that text again if the rest is wanted$' err
run 0 'the text again' apply --text now/card brief.text
check 'the text again: from its first part' begins out '^now/card: part 1 of 3, '
check 'the text again: the pairs' [ "$(pairs now/card)" = "$expected_pairs" ]

# ---- each part is forecast when it is reached

run 0 'format a card that a text fills' format shelf.card 8 6
{
    yes $'A\t1\t1' | head -n 4096                                        # one pair
    yes $'A\t2\t1' | head -n 4096                                        # one more
    seq 40 | awk '{ print "A\t" $1 + 2 "\t1" }'                          # many more
} >fills.text
cp shelf.card full.card
rm -f full.log
WRITE_LOG=full.log run_cut 1 'part 3 does not fit' apply --text full.card fills.text
check 'part 3 does not fit: parts 1 and 2 are applied' [ "$(parts_shown)" = '1 of 3: 1-4096,2 of 3: 4097-8192,' ]
check 'part 3 does not fit: number 8' grep -qx 'full.card: refused, number 8: the card is full: the next block would leave no place free' err
check 'part 3 does not fit: it is named' grep -q '^full.card: part 3 of 3, lines 8193 to 8232: the batch does not fit, the card is too full; ' err
check 'part 3 does not fit: what was done' grep -q '^full.card: no step of it was made, and the parts before it are in the index; --anyway goes as far as it can' err
check 'part 3 does not fit: their pairs' [ "$(pairs full.card)" = $'1 1\n2 1' ]
check 'part 3 does not fit: no pass is open' [ "$(configuration full.card | cut -d' ' -f6)" -eq 0 ]
check 'part 3 does not fit: it is noted' [ "$(part_of full.card.pass)" = 3 ]
check 'part 3 does not fit: the note is its last call' [ "$(tail -n 5 full.log | tr '\n' ,)" = "$(noted full.card)" ]
cp full.card parts.card
cp full.card.pass parts.card.pass
run 3 'fits says so of the text' fits --text shelf.card fills.text
check 'fits says so: two parts fit' [ "$(grep -c 'the batch fits; ' out)" -eq 2 ]
check 'fits says so: the third does not' grep -q '^shelf.card: part 3 of 3, lines 8193 to 8232: the batch does not fit' out
run 3 'fits, where two parts are applied' fits --text full.card fills.text
check 'fits, where two parts are applied: about the third alone' [ "$(grep -c -e 'the batch fits' out)" -eq 0 ]
rm -f full.log
WRITE_LOG=full.log run_cut 1 'the same again' apply --text full.card fills.text
check 'the same again: no part is applied' [ ! -s out ]
check 'the same again: no write' [ "$(logged full.log)" = 'sync,folder,' ]
check 'the same again: the card stands' cmp -s full.card parts.card
check 'the same again: the note stands' cmp -s full.card.pass parts.card.pass
run 1 'anyway' apply --text --anyway full.card fills.text
check 'anyway: part 3 alone' begins out '^full.card: part 3 of 3, lines 8193 to 8232: stopped; '
check 'anyway: as far as it can' [ "$(pairs full.card | wc -l)" -gt 2 ]
check 'anyway: a pass is open' is_open full.card
run 1 'anyway, the same again' apply --text full.card fills.text
check 'anyway, the same again: number 8' grep -q '^full.card: refused, number 8: ' err
run 1 'anyway, another' apply full.card one.batch
check 'anyway, another: a pass is open' grep -q '^full.card: refused, a pass is open: ' err
run 0 'anyway, an empty batch' apply full.card none.batch
# room is made: the text is applied from its first line, behind what was removed
cp parts.card full.card
cp parts.card.pass full.card.pass
run 0 'room is made' annul full.card 1 99
check 'room is made: the text is told of' grep -q '^full.card: not applied to its end: part 3 of 3 of a text' err
head -n 8198 fills.text >fewer.text
run 0 'a text that fits' apply --text full.card fewer.text
check 'a text that fits: the pairs' [ "$(pairs full.card)" = "$(seq 8 | sed 's/$/ 1/')" ]
check 'a text that fits: no note is left' none_named full.card.
# a part is refused in the middle, where a later one would make room
{
    yes $'A\t1\t1' | head -n 4096
    { yes $'A\t2\t1' | head -n 4056 && seq 40 | awk '{ print "A\t" $1 + 2 "\t1" }'; }
    echo $'R\t1\t1\t9'
} >middle.text
cp shelf.card full.card
run 1 'part 2 of 3 does not fit' apply --text full.card middle.text
check 'part 2 of 3 does not fit: part 1 is applied' [ "$(parts_shown)" = '1 of 3: 1-4096,' ]
check 'part 2 of 3 does not fit: its pairs' [ "$(pairs full.card)" = '1 1' ]
check 'part 2 of 3 does not fit: it is noted' [ "$(part_of full.card.pass)" = 2 ]
run 3 'fits of it' fits --text shelf.card middle.text
check 'fits of it: it stops there' [ "$(grep -c 'part 3' out)" -eq 0 ]
# and the first
{ tail -n 40 fills.text && yes $'A\t1\t1' | head -n 4096; } >first.text
cp shelf.card full.card
rm -f full.card.pass
run 1 'part 1 of 2 does not fit' apply --text full.card first.text
check 'part 1 of 2 does not fit: nothing is applied' [ ! -s out ]
check 'part 1 of 2 does not fit: the card stands' cmp -s full.card shelf.card
check 'part 1 of 2 does not fit: no note' none_named full.card.
check 'part 1 of 2 does not fit: what was done' grep -q '^full.card: no step of it was made; --anyway' err
