# A part of host.sh: arrival numbers, number 14, and convert, which makes a batch file of one with four-word records.

# ---- the latest record decides, in words and in lines

decided() { # PAIRS WHAT WORDS..: what a batch of five-word records leaves of case 1, also where it is sent again
    cp kept.card both.card
    arrived arrival.batch "${@:3}"
    run 0 "$2" apply both.card arrival.batch
    check "$2: the pairs" [ "$(pairs both.card | tr '\n' ,)" = "$1" ]
    run 0 "$2, again" apply both.card arrival.batch
    check "$2, again: the pairs" [ "$(pairs both.card | tr '\n' ,)" = "$1" ]
}
check 'case 1' [ "$(pairs kept.card | tr '\n' ,)" = '5 2,5 9,7 4,' ]
decided '5 9,7 4,' 'P5, the addition second' 2 5 2 9 1 1 5 9 9 2
decided '7 4,' 'P5, the addition first' 2 5 2 9 2 1 5 9 9 1
decided '5 9,7 4,' 'P5, far apart' 2 5 2 9 7 1 5 9 9 4294967295
decided '7 4,' 'P5, far apart, the addition first' 2 5 2 9 4294967295 1 5 9 9 7
decided '5 9,' 'a round, the addition second' 3 0 2 9 1 1 5 9 9 2
decided '' 'a round, the addition first' 3 0 2 9 2 1 5 9 9 1
decided '5 2,5 3,5 9,7 4,' 'a new pair, added last' 1 5 3 3 9 2 5 3 3 4
decided '5 2,5 9,7 4,' 'a new pair, taken back' 1 5 3 3 4 2 5 3 3 9
decided '5 9,7 4,' 'an empty range decides nothing' 2 5 2 9 1 1 5 9 9 2 2 5 9 2 3
decided '5 2,7 4,' 'added, removed, added, annulled' 3 0 9 9 4 1 5 9 9 1 2 5 9 9 2 1 5 9 9 3
decided '5 2,5 9,7 4,' 'annulled, removed, added' 3 0 9 9 1 2 5 9 9 2 1 5 9 9 3

lines_leave() { # PAIRS WHAT LINES: of case 1, as text and as words
    both arrival <<<"$3"
    alike 0 "$2" kept.card arrival
    check "$2: the pairs" [ "$(pairs both.card | tr '\n' ,)" = "$1" ]
    run 0 "$2, again" apply --text both.card arrival.text
    check "$2, again: the pairs" [ "$(pairs both.card | tr '\n' ,)" = "$1" ]
}
lines_leave '7 4,' 'a game added, then withdrawn' $'A 5 9\nR 5 1 9'
lines_leave '5 9,7 4,' 'a game withdrawn, then added' $'R 5 1 9\nA 5 9'
lines_leave '5 2,5 9,7 4,' 'a new game added, then withdrawn' $'A 6 1\nR 6 1 1'
lines_leave '5 2,5 9,6 1,7 4,' 'a new game withdrawn, then added' $'R 6 1 1\nA 6 1'
lines_leave '5 2,5 9,6 1,7 4,' 'added, withdrawn, added' $'A 6 1\nR 6 1 1\nA 6 1'
lines_leave '5 2,5 9,7 4,' 'withdrawn, added, withdrawn' $'R 6 1 1\nA 6 1\nR 6 1 1'
lines_leave '5 2,6 1,7 4,' 'lines in another order than the records' $'A 7 4\nA 6 1\nA 5 9\nR 5 3 9'

# ---- number 14, in its place

repeated='arrival numbers are at least 1, and no two records of a batch have the same'
wrong_arrival() { # RECORD WHAT WORDS..: apply and fits refuse it in the same words, and the card stands
    arrived arrival.batch "${@:3}"
    declined 14 "$2" kept.card arrival.batch
    check "$2: the words" has err echo "arrival.batch: record $1 ($(echo "${@:3}" | cut -d' ' -f $((5 * $1 - 4))-$((5 * $1)))): refused, number 14: $repeated"
    rm -f arrival.log
    cp kept.card log.card
    WRITE_LOG=arrival.log run_cut 1 "$2, logged" apply log.card arrival.batch
    check "$2: no write" [ "$(logged arrival.log)" = 'sync,folder,' ]
}
wrong_arrival 1 'an arrival number 0' 1 5 3 3 0
wrong_arrival 1 'of a removal' 2 5 3 9 0
wrong_arrival 1 'of an annulment' 3 0 3 9 0
wrong_arrival 1 'of an empty range' 2 5 9 3 0
wrong_arrival 3 'the last of three' 1 5 3 3 1 1 6 3 3 2 1 7 3 3 0
wrong_arrival 2 'one number twice' 1 5 3 3 7 1 6 3 3 7
wrong_arrival 2 'the highest twice' 1 5 3 3 4294967295 2 6 3 3 4294967295
wrong_arrival 3 'twice, far apart' 3 0 9 9 2 1 5 3 3 1 1 6 3 3 2
wrong_arrival 2 'twice, of empty ranges' 3 0 9 8 2 2 5 9 8 2
wrong_arrival 2 '14 before 7' 1 7 4 4 5 1 5 2 2 5
arrived arrival.batch 1 7 4 4 1 1 5 2 2 2
declined 7 '7 alone' kept.card arrival.batch
arrived arrival.batch 1 7 4 5 0
declined 6 '6 before 14' kept.card arrival.batch
arrived arrival.batch 1 7 4 4 0 1
declined 6 'a word too many' kept.card arrival.batch
arrived arrival.batch 1 8 1 1 0
declined 4 'the card before 14' live.card arrival.batch
declined 14 '14 before 8' full.card arrival.batch
seq 4096 | awk '{ print 1, 8, $1, $1, $1 == 4096 ? 1 : $1 }' | as_words >arrival.batch
declined 14 'the first and the last of 4,096' kept.card arrival.batch

# ---- convert

converted() { # WHAT OLD WORDS: the new file's words; new.batch is what becomes of it
    rm -f new.batch
    cp "$2" before.batch
    run 0 "$1" convert "$2" new.batch
    check "$1: the words" [ "$(words new.batch 0)" = "$3" ]
    check "$1: no other message" [ ! -s err ]
    check "$1: the old file stands" cmp -s "$2" before.batch
}
arrived old.batch 3 0 1 4 1 3 1 1 2 5 1 9 1 5 2 2
converted 'four records' old.batch ' 3 0 1 4 1 1 3 1 1 3 2 5 1 9 2 1 5 2 2 4 '
check 'it says what it made' has out echo 'new.batch: 4 records of five words; by arrival 2 removals, then 2 additions'
cp new.batch twice.batch
arrived old.batch 1 5 2 2
converted 'an addition' old.batch ' 1 5 2 2 1 '
check 'it says what it made' has out echo 'new.batch: 1 record of five words; by arrival 0 removals, then 1 addition'
arrived old.batch 2 5 9 3
converted 'a removal with no game in it' old.batch ' 2 5 9 3 1 '
check 'it says what it made' has out echo 'new.batch: 1 record of five words; by arrival 1 removal, then 0 additions'
arrived old.batch 1 5 2 2 1 5 2 2 2 5 2 9 2 5 3 9 1 5 4 4
converted 'repeats' old.batch ' 1 5 2 2 3 1 5 2 2 4 2 5 2 9 1 2 5 3 9 2 1 5 4 4 5 '
arrived old.batch 2 4294967295 1 4294967295 1 4294967295 4294967295 4294967295
converted 'the highest figures' old.batch ' 2 4294967295 1 4294967295 1 1 4294967295 4294967295 4294967295 2 '
: >old.batch
converted 'no records' old.batch ''
check 'an empty file is made' [ -f new.batch -a ! -s new.batch ]
check 'it says what it made' has out echo 'new.batch: 0 records of five words; by arrival 0 removals, then 0 additions'
seq 4096 | awk '{ print $1 % 3 == 0 ? "2 7 " $1 " 9" : "1 7 " $1 " " $1 }' >old.lines
as_words <old.lines >old.batch
converted '4,096 records' old.batch " $(numbered <old.lines | tr '\n' ' ')"
check 'it says what it made' has out echo 'new.batch: 4096 records of five words; by arrival 1365 removals, then 2731 additions'
arrived old.batch 1 5 2 2 2 6 1 9
converted 'two records' old.batch ' 1 5 2 2 2 2 6 1 9 1 '
mv new.batch file.batch
run 0 'from standard input' convert - new.batch <old.batch
check 'the same file' cmp -s new.batch file.batch

# the converted file does what the four words did: less everything removed, plus everything added
old_rule() { # CARD: the pairs that old.lines leave of it, by the four-word rule
    pairs "$1" | awk '
        NR == FNR { kind[NR] = $1; term[NR] = $2; from[NR] = $3; to[NR] = $4; count = NR; next }
        { in_index[$0] = 1 }
        END {
            for (pair in in_index) {
                split(pair, p, " ")
                for (i = 1; i <= count; i++)
                    if (kind[i] != 1 && (kind[i] == 3 || term[i] == p[1]) && from[i] + 0 <= p[2] + 0 && p[2] + 0 <= to[i] + 0) gone[pair] = 1
            }
            for (pair in in_index) if (!(pair in gone)) left[pair] = 1
            for (i = 1; i <= count; i++) if (kind[i] == 1) left[term[i] " " from[i]] = 1
            for (pair in left) print pair
        }' old.lines - | sort -n -k 1 -k 2
}
won=0 seed=20
for round in $(seq 25); do
    draw 9 && count=$((4 + drawn))
    while [ "$count" -gt 0 ]; do
        count=$((count - 1))
        draw 3 && kind=$((1 + drawn))
        draw 6 && term=$((3 + drawn))
        draw 12 && from=$((1 + drawn))
        draw 12 && to=$((1 + drawn))
        case $kind in 1) echo "1 $term $from $from" ;; 2) echo "2 $term $from $to" ;; 3) echo "3 0 $from $to" ;; esac
    done >drawn.lines
    sort -s -k 2,2n -k 3,3n drawn.lines >old.lines
    as_words <old.lines >old.batch
    rm -f new.batch spacious.card
    run 0 "chance, $round" convert old.batch new.batch
    run 0 "chance, $round: a card with room" format spacious.card 8 12
    run 0 "chance, $round: its pairs" apply spacious.card rounds.batch
    expected=$(old_rule spacious.card)
    run 0 "chance, $round: applied" apply spacious.card new.batch
    check "chance, $round: the pairs" [ "$(pairs spacious.card)" = "$expected" ]
    if awk '$1 == 1 { a[$2, $3] } $1 == 3 { for (p = $3; p <= $4; p++) for (t = 3; t <= 8; t++) r[t, p] }
        $1 == 2 { for (p = $3; p <= $4; p++) r[$2, p] }
        END { for (pair in a) if (pair in r) exit 0; exit 1 }' old.lines; then won=$((won + 1)); fi
done
check "chance: in $won batches an addition won over a removal, at least 10" [ "$won" -ge 10 ]

# refused, without a new file
not_converted() { # WHAT MESSAGE: of old.batch
    rm -f new.batch
    cp old.batch before.batch
    run 1 "$1" convert old.batch new.batch
    check "$1: the message" has err echo "old.batch: $2"
    check "$1: nothing is shown" [ ! -s out ]
    check "$1: no file is made" [ ! -e new.batch ]
    check "$1: the old file stands" cmp -s old.batch before.batch
}
for count in 1 2 3 5 6 7 9 15; do
    # shellcheck disable=SC2046
    arrived old.batch $(seq "$count")
    not_converted "$count words" "refused, $count words are not a whole number of records of four words"
done
run 1 '15 words from standard input' convert - new.batch <old.batch
check 'its message' has err echo 'standard input: refused, 15 words are not a whole number of records of four words'
check 'no file is made' [ ! -e new.batch ]
seq 4097 | awk '{ print 1, 7, $1, $1 }' | as_words >old.batch
not_converted '4,097 records' 'refused, more than 4,096 records of four words'
head -c 65540 old.batch >part.batch && mv part.batch old.batch
not_converted '4,096 records and a word' 'refused, more than 4,096 records of four words'
yes old | head -c 1000000 >old.batch
not_converted 'a million bytes' 'refused, more than 4,096 records of four words'
ill='refused, number 6: a batch is at most 4,096 records of five words; kind 1, 2 or 3, term, from, to, arrival; term 0 goes with kind 3 alone; from and to are at least 1, and alike in an addition'
falls='refused, number 7: the records of a batch are in order of term, then from'
arrived old.batch 1 5 2 2 4 5 3 3
not_converted 'a record of no kind' "record 2 (4 5 3 3 1): $ill"
arrived old.batch 1 5 2 3
not_converted 'an addition of two positions' "record 1 (1 5 2 3 1): $ill"
arrived old.batch 1 7 4 4 1 5 2 2
not_converted 'records that fall' "record 2 (1 5 2 2 2): $falls"
# a file that is converted already, whose words are as many as those of four-word records
cp twice.batch old.batch
not_converted 'a converted file' "record 2 (1 1 3 1 3): $ill"

# four-word records that pass for five-word ones: nothing in the file tells them apart
arrived old.batch 1 1 1 1 1 2 1 1 1 2 1 1 2 2 3 2 1 2 5 5
cp new.card both.card
run 0 'five old records as four new ones' apply both.card old.batch
check 'they mean something else' [ "$(pairs both.card)" = '' ]
cp new.card both.card
rm -f new.batch
run 0 'the same, converted' convert old.batch new.batch
run 0 'and applied' apply both.card new.batch
check 'they mean what they meant' [ "$(pairs both.card | tr '\n' ,)" = '1 1,2 1,2 5,' ]

# faults
faulty_convert() { # WHAT FILE MESSAGE WORDS..: at fault, with the message alone
    run 2 "$1" convert "${@:4}"
    check "$1: the message" has err echo "gamecard: $2: $3"
    check "$1: nothing else is shown" [ ! -s out ]
}
printf 'kept' >there.batch
faulty_convert 'a new file that is there' there.batch 'File exists' old.batch there.batch
check 'it stands' [ "$(cat there.batch)" = kept ]
cp old.batch before.batch
faulty_convert 'the old file for the new one' old.batch 'File exists' old.batch old.batch
check 'it stands' cmp -s old.batch before.batch
ln -s nowhere.batch link.batch
faulty_convert 'a link to nowhere for the new one' link.batch 'File exists' old.batch link.batch
check 'nothing is made there' [ ! -e nowhere.batch ]
faulty_convert 'a folder for the new one' . 'File exists' old.batch .
faulty_convert 'a new file in no folder' none/new.batch 'No such file or directory' old.batch none/new.batch
rm -f new.batch
faulty_convert 'an old file that is not there' none.old 'No such file or directory' none.old new.batch
faulty_convert 'a folder for the old one' . 'Is a directory' . new.batch
faulty_convert 'three bytes' odd.card '3 bytes are not a whole number of 32-bit words' odd.card new.batch
faulty_convert 'standard output for the new one' - 'the new file must have a name; standard output is for messages' old.batch -
check 'no file is made' [ ! -e new.batch -a ! -e ./- ]
misused 'no file' 'a word is missing: OLD' convert
misused 'no new file' 'a word is missing: NEW' convert old.batch
misused 'a word too many' 'a word too many: third.batch' convert old.batch new.batch third.batch
misused 'the option of another command' 'it has no option --text' convert --text old.batch new.batch
misused 'an option that all others have' 'it has no option --wait' convert --wait 5 old.batch new.batch

check 'help on the command' grep -qx '  convert OLD NEW' usage
check 'help on what it does' tells convert 'make a batch file of one with records of four words, as earlier boxes wrote them'
check 'help on records' grep -qx 'cards and batches are files of 32-bit words, little-endian; a batch is records of five: kind (1 adds,' usage
check 'help on arrival' grep -qx 'arrival numbers are at least 1, and no two records of a batch have the same; of all records that touch a' usage
check 'help on what decides' grep -qx 'pair, the one with the greatest arrival number decides whether the pair is in the index' usage
check 'help on old files' grep -q 'a file of four-word records whose length is a multiple of 20$' usage
check 'help on telling them apart' grep -q '^file tells them apart, so convert old files once, and know which are which$' usage

# ---- convert and the medium: a new file that was cut short is not there, or is whole

arrived old.batch 2 5 2 9 1 5 9 9 1 7 4 4 1 8 1 1 # of the new file half is two whole records
rm -f new.batch convert.log
WRITE_LOG=convert.log run_cut 0 'the writes' convert old.batch new.batch
check 'all words under another name, then its own' [ "$(sed 's/new\.[0-9]*$/new.N/' convert.log | tr '\n' ,)" = \
    'remove new.batch.new.N,put,file,name new.batch,folder,' ]
cp new.batch whole.batch
cp kept.card both.card
run 0 'the whole file' apply both.card whole.batch
for call in $(seq "$(wc -l <convert.log)"); do
    for half in '' yes; do
        rm -rf now left && mkdir now left
        KILL_CALL=$call MEDIUM=now/medium expect 137 "killed at call $call $half" env ${half:+KILL_HALF=yes} "$cut" convert old.batch now/new.batch
        for choice in $(seq 0 9); do
            MEDIUM=now/medium "$cut" power-cut "$choice" left >/dev/null || break
            check "killed at call $call $half, choice $choice: not there or whole" none_or_same left/new.batch whole.batch
            rm -f left/*
        done
        check "killed at call $call $half: every choice" [ "$choice" -ge 1 ]
        check "killed at call $call $half: not there or whole" none_or_same now/new.batch whole.batch
        if [ -e now/new.batch ]; then
            faulty "killed at call $call $half: it is there" 'now/new.batch: File exists' convert old.batch now/new.batch
        else
            run 0 "killed at call $call $half: again" convert old.batch now/new.batch
        fi
        check "killed at call $call $half: it is whole" cmp -s now/new.batch whole.batch
    done
done
rm -f new.batch*
FAIL_SYNC=1 run_cut 2 'the sync of the file fails' convert old.batch new.batch
says_not_made 'the sync of the file fails' new.batch
check 'the sync of the file fails: no file is left' none_named new.batch
FAIL_SYNC=2 run_cut 2 'the sync of the folder fails' convert old.batch new.batch
says_lost 'the sync of the folder fails'
check 'the sync of the folder fails: no file is left' none_named new.batch
ZERO_PUT=1 run_cut 2 'the write gives 0' convert old.batch new.batch
says_not_made 'the write gives 0' new.batch
check 'the write gives 0: no file is left' none_named new.batch

# ---- the standard streams: the new file is stream.card there

input=old.batch
cp old.batch streams.batch
streams 0 2 '' convert streams.batch stream.card
streams 2 2 '' convert 'no such.batch' stream.card
arrived part.batch 1 5 2
streams 1 1 '' convert part.batch stream.card
