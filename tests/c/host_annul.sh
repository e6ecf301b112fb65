# A part of host.sh: ranges that are removed under every term, with annul.

# The command does and shows what apply does with the batch of one record, also with
# --resume, and leaves the same note.
annulled() { # STATUS WHAT CARD FROM TO OPTION..: on a card whose pass is not open; both.card is what becomes of it
    as_batch "$@"
    form_of "$1" "$2, annulled" annul "${@:3}"
    form_of "$1" "$2, resumed" 'annul --resume' "${@:3}"
}
as_batch() { # STATUS WHAT CARD FROM TO OPTION..: the batch applied; words.card, said and told are what becomes of it
    batch annul.batch 3 0 "$4" "$5"
    lay_both "$3"
    run "$1" "$2, as a batch" apply "${@:6}" both.card annul.batch
    mv both.card words.card
    mv out said
    sed 's/^annul.batch: /the range: /' err >told
    rm -f words.card.pass
    if [ -e both.card.pass ]; then mv both.card.pass words.card.pass; fi
}
form_of() { # STATUS WHAT COMMAND CARD FROM TO OPTION..: the same of the command
    lay_both "$4"
    # shellcheck disable=SC2086
    run "$1" "$2" $3 "${@:7}" both.card "$5" "$6"
    check "$2: the same card" cmp -s both.card words.card
    check "$2: the same note" same_or_none both.card.pass words.card.pass
    check "$2: the same is shown" cmp -s out said
    check "$2: the same is said" cmp -s err told
    if [ "$1" -eq 0 ]; then check "$2: no other message" [ ! -s err ]; fi
}

# ---- ranges that are removed

# three rounds, 1 to 4, 5 to 8 and 9 to 12, in three blocks that go around the circle of five places
run 0 'format a card of rounds' format rounds.card 8 5
batch rounds.batch 1 3 1 1 1 3 5 5 1 3 9 9 1 5 2 2 1 5 6 6 1 5 10 10 1 7 3 3 1 7 7 7 1 8 4 4 1 8 8 8 1 8 12 12
run 0 'add their games' apply rounds.card rounds.batch
run 0 'and once more' apply rounds.card rounds.batch
check 'its configuration' [ "$(configuration rounds.card)" = '1 8 5 3 3 0 0 0' ]
lookup '1 5 9 ' '3 positions, 1 block read' 'term 3 before' rounds.card 3
lookup '2 6 10 ' '3 positions, 2 blocks read' 'term 5 before' rounds.card 5
lookup '3 7 ' '2 positions, 1 block read' 'term 7 before' rounds.card 7
lookup '4 8 12 ' '3 positions, 2 blocks read' 'term 8 before' rounds.card 8
annulled 0 'the second round' rounds.card 5 8
check 'two blocks and three places freed' grep -q \
    'finished; 6 steps, as many writes (2 blocks, 2 map entries, 2 configurations); 3 old places freed' out
check 'its words' [ "$(words both.card 0)" = " 1 8 5 1 2 0 0 0 8 4 3 1 7 3 3 1 5 6 8 3 4 8 12 0 0 0 \
3 2 1 9 5 2 2 10 7 1 3 8 2 4 12 0 3 3 1 5 9 5 1 2 5 2 6 10 7 2 3 7 " ]
lookup '1 9 ' '2 positions, 1 block read' 'term 3 after' both.card 3
lookup '2 10 ' '2 positions, 1 block read' 'term 5 after' both.card 5
lookup '3 ' '1 position, 2 blocks read' 'term 7 after' both.card 7
lookup '4 12 ' '2 positions, 1 block read' 'term 8 after' both.card 8
lookup '' '0 positions, 1 block read' 'the round after' both.card 5 5 8
page $'         8          4         12                                 \n' 'a page after' both.card 8
second=$'3 1\n3 9\n5 2\n5 10\n7 3\n8 4\n8 12'
check 'its pairs' [ "$(pairs both.card)" = "$second" ]

left() { # PAIRS WHAT CARD FROM TO: what an annulment leaves of a card
    annulled 0 "${@:2}"
    check "$2: the pairs" [ "$(pairs both.card)" = "$1" ]
}
every=$(pairs rounds.card)
cp both.card twice.card
left "$second" 'the second round twice' twice.card 5 8
left "$(grep -v ' [1-4]$' <<<"$every")" 'the first round' rounds.card 1 4
left "$(grep -v -e ' 9$' -e ' 1[0-2]$' <<<"$every")" 'the last round' rounds.card 9 12
left "$(grep -v ' 7$' <<<"$every")" 'one position' rounds.card 7 7
left "$(grep -v ' 1$' <<<"$every")" 'the lowest position' rounds.card 1 1
left "$(grep -v ' 12$' <<<"$every")" 'from the highest that is there to the end' rounds.card 12 4294967295
left "$every" 'a position that is nowhere' rounds.card 11 11
left "$every" 'nothing, beyond all' rounds.card 13 4294967295
left '' 'all of it' rounds.card 1 12
check 'one step' grep -q 'finished; 1 step, as many writes (0 blocks, 0 map entries, 1 configuration); 3 old places freed' out
left '' 'all that can be' rounds.card 1 4294967295
left '' 'all of an empty index' new.card 1 4294967295
run 0 'format a card of the highest positions' format last.card 8 6
batch last.batch 1 1 4294967294 4294967294 1 1 4294967295 4294967295 1 4294967295 1 1 1 4294967295 4294967295 4294967295
run 0 'add them' apply last.card last.batch
left $'1 4294967294\n4294967295 1' 'the highest position' last.card 4294967295 4294967295
left $'1 4294967295\n4294967295 4294967295' 'all below it' last.card 1 4294967294
left '' 'from the lowest to the highest' last.card 1 4294967295
left "$(pairs wide.card | awk '$2 < 10 || $2 > 20')" '704 of 4,096 pairs' wide.card 10 20

# ranges with no game in them: the pass is that of an empty batch, and the range is told
none_removed() { # LINE WHAT: what is shown of removals with from above to, no line where there are none
    check "$2: what removes nothing is told" [ "$(grep 'from above to' out)" = "$1" ]
}
cp rounds.card same.card
run 0 'an empty batch' apply same.card none.batch
for range in '2 1' '5 4' '9 4' '12 11' '4294967295 1' '4294967295 4294967294'; do
    # shellcheck disable=SC2086
    left "$every" "from above to, $range" rounds.card $range
    none_removed 'both.card: 1 removal with from above to, which removes nothing' "from above to, $range"
    check "from above to, $range: the card of an empty batch" cmp -s both.card same.card
done
left "$(grep -v ' 7$' <<<"$every")" 'from is to' rounds.card 7 7
none_removed '' 'from is to'

# records of kind 3 beside others, in a batch: additions that arrive later win, and what they remove adds up
mixed() { # PAIRS WHAT WORDS..: what the batch leaves of the rounds
    cp rounds.card both.card
    batch mix.batch "${@:3}"
    run 0 "$2" apply both.card mix.batch
    check "$2: the pairs" [ "$(pairs both.card)" = "$1" ]
}
mixed "$(sort -n -k 1 -k 2 <<<$'3 1\n3 9\n4 6\n5 2\n5 6\n5 10\n7 3\n8 4\n8 12')" \
    'additions in the annulled round' 3 0 5 8 1 4 6 6 1 5 6 6
mixed $'3 1\n3 9\n7 3\n8 4\n8 12' 'a term removed beside it' 3 0 5 8 2 5 1 99
mixed $'3 9\n5 10\n8 12' 'two rounds' 3 0 1 4 3 0 5 8
mixed $'3 1\n5 10\n8 12' 'rounds that overlap' 3 0 2 6 3 0 3 5 3 0 3 9
mixed $'3 5\n8 8' 'all but what is added' 3 0 1 4294967295 1 3 5 5 1 8 8 8
none_removed '' 'all but what is added'
mixed $'3 9\n5 10\n8 12' 'rounds with no game in them beside others' 3 0 1 4 3 0 2 1 3 0 4 3 3 0 5 8 3 0 12 1
none_removed 'both.card: 3 removals with from above to, which remove nothing' 'rounds with no game in them'
mixed $'3 1\n3 5\n3 9\n5 10\n7 3\n7 7\n7 9\n8 4\n8 8\n8 12' 'removals with no game in them beside others' \
    2 3 9 1 2 5 1 6 2 5 2 1 2 5 10 6 1 7 9 9 2 7 9 7 2 8 4294967295 1
none_removed 'both.card: 5 removals with from above to, which remove nothing' 'removals with no game in them'

# ---- refusals

annulled 1 'from 0' case1.card 0 9
check 'it names number 6' grep -q '^the range: record 1 (3 0 0 9 1): refused, number 6: a batch is' err
said_alone 'from 0'
annulled 1 'to 0' case1.card 9 0
check 'it names number 6' grep -q '^the range: record 1 (3 0 9 0 1): refused, number 6: a batch is' err
none_removed '' 'to 0'
annulled 1 'from and to 0' case1.card 0 0
check 'it names number 6' grep -q '^the range: record 1 (3 0 0 0 1): refused, number 6: a batch is' err
check 'the card stands' cmp -s both.card case1.card
check 'no note is made' [ ! -e both.card.pass ]
batch bad.batch 3 5 4 9
refused 6 'kind 3 with a term' case1.card bad.batch
batch bad.batch 1 0 4 4
refused 6 'an addition of term 0' case1.card bad.batch
batch bad.batch 2 0 4 9
refused 6 'a removal of term 0' case1.card bad.batch
batch bad.batch 4 0 4 9
refused 6 'kind 4' case1.card bad.batch
batch bad.batch 0 0 4 9
refused 6 'kind 0' case1.card bad.batch
batch bad.batch 1 5 2 2 3 0 4 9
refused 7 'kind 3 behind a term' case1.card bad.batch
batch bad.batch 3 0 4 9 3 0 3 9
refused 7 'ranges that fall' case1.card bad.batch

# cards that are not sound have the judge's number, also where the range is wrong or a pass may seem open
unsound() { # NUMBER WHAT CARD
    for range in '4 9' '0 9'; do
        # shellcheck disable=SC2086
        annulled 1 "$2, $range" "$3" $range
        check "$2, $range: it names number $1" grep -q "^both.card: refused, number $1:" err
        said_alone "$2, $range"
        check "$2, $range: the card stands" cmp -s both.card "$3"
    done
}
unsound 4 'a damaged card' live.card
unsound 1 'an empty file' empty.card
unsound 1 'a file longer than any card' longer.card
unsound 2 'a card of another format' wrong.card
head -c 20 rounds.card >short.card
unsound 1 'five words' short.card
cp rounds.card seems.card
set_word seems.card 5 1 # a new length, and no boundary
unsound 3 'a new length without a boundary' seems.card
set_word seems.card 6 3
set_word seems.card 7 2 # a boundary, and no new block
unsound 4 'a new length without a block' seems.card

# ---- a pass that is open

still_open() { # WHAT CARD FROM TO: refused in words, with the note and without it, and the card stands
    local numbers option
    for numbers in "$3 $4" '9 4' '1 4294967295'; do
        for option in '' --resume; do
            cp "$2" before.card
            cp "$2.pass" before.pass
            rm -f open.log
            # shellcheck disable=SC2086
            WRITE_LOG=open.log run_cut 1 "$1, $option $numbers" annul $option "$2" $numbers
            check "$1, $option $numbers: the message" open_message "$2" 'it is another than the one that you apply now'
            said_alone "$1, $option $numbers"
            check "$1, $option $numbers: the card stands" cmp -s "$2" before.card
            check "$1, $option $numbers: the note stands" cmp -s "$2.pass" before.pass
            check "$1, $option $numbers: no write" [ "$(logged open.log)" = 'sync,folder,' ]
        done
        cp "$2" part.card
        rm -f part.card.pass
        # shellcheck disable=SC2086
        run_cut 1 "$1, no note, $numbers" annul part.card $numbers
        check "$1, no note, $numbers: the message" open_message part.card 'no file .*/part.card.pass tells which batch'
        said_alone "$1, no note, $numbers"
        check "$1, no note, $numbers: the card stands" cmp -s "$2" part.card
        check "$1, no note, $numbers: none is made" [ ! -e part.card.pass ]
    done
}
open_message() { # CARD WHY: err has the three lines that refuse another batch
    local term position
    read -r term position <<<"$(configuration "$1" | cut -d' ' -f7,8)"
    sed -n 1p err | grep -qx "$1: refused, a pass is open: a batch is in the index up to term $term, position $position, and not beyond" &&
        sed -n 2p err | grep -q "^$1: $2" &&
        sed -n 3p err | grep -qx "$1: or end the pass where it stands, with an empty batch: gamecard apply $1 /dev/null; what it moved stays, and no game is lost" &&
        [ "$(wc -l <err)" -eq 3 ]
}

# a batch that was cut short: it is finished, then the round is annulled
cp rounds.card open.card
batch later.batch 1 3 13 13 1 5 14 14 1 7 15 15
KILL_WRITE=3 KILL_WHEN=synced run_cut 137 'a batch is cut short' apply open.card later.batch
check 'its pass is open' [ "$(configuration open.card)" = '1 8 5 3 3 1 3 13' ]
still_open 'a batch that was cut short' open.card 5 8
# without the note --resume takes the caller's word for it, and mixes two batches where that is not true
cp open.card lost.card
as_batch 0 'another batch mixed into it' lost.card 5 8 --resume
form_of 0 'an annulment mixed into it' 'annul --resume' lost.card 5 8
check 'the pairs are mixed' [ "$(pairs both.card)" = $'3 1\n3 5\n3 9\n3 13\n5 2\n5 10\n7 3\n8 4\n8 12' ]
run 0 'its own batch finishes it' apply open.card later.batch
left $'3 1\n3 9\n3 13\n5 2\n5 10\n5 14\n7 3\n7 15\n8 4\n8 12' 'then the round is annulled' open.card 5 8

# an annulment that was cut short
cp rounds.card open.card
KILL_WRITE=3 KILL_WHEN=synced run_cut 137 'an annulment is cut short' annul open.card 5 8
check 'its pass is open' [ "$(configuration open.card)" = '1 8 5 4 2 1 5 10' ]
still_open 'an annulment that was cut short' open.card 5 7
annulled 0 'the same goes on with it' open.card 5 8
check 'what is left of its steps' grep -q 'finished; 3 steps, as many writes (1 block, 1 map entry, 1 configuration); 2 old places freed' out
check 'no note is left' [ ! -e both.card.pass ]
cp both.card ended.card
cp open.card lost.card
as_batch 0 'its batch goes on with it, without the note' lost.card 5 8 --resume
form_of 0 'it goes on with it, without the note' 'annul --resume' lost.card 5 8
check 'what is left of its steps' grep -q 'finished; 3 steps, as many writes (1 block, 1 map entry, 1 configuration); 2 old places freed' out
check 'it ends alike' cmp -s both.card ended.card
annulled 0 'uncut' rounds.card 5 8
check 'the same card as uncut' cmp -s both.card ended.card
unsound_open() { # WHAT FROM TO: a range that no batch can have, on a card whose note is lost
    as_batch 1 "$1, as a batch" lost.card "$2" "$3" --resume
    form_of 1 "$1, resumed" 'annul --resume' lost.card "$2" "$3"
    check "$1: it names number 6" grep -q '^the range: record 1 (.*): refused, number 6:' err
    said_alone "$1"
    check "$1: the card stands" cmp -s both.card lost.card
    check "$1: no note is made" [ ! -e both.card.pass ]
}
unsound_open 'resumed from 0' 0 8
unsound_open 'resumed to 0' 8 0
as_batch 0 'a range with no game in it mixed into it' lost.card 8 5 --resume
form_of 0 'resumed from above to' 'annul --resume' lost.card 8 5
check 'beyond the boundary nothing goes' [ "$(pairs both.card)" = $'3 1\n3 9\n5 2\n5 10\n7 3\n7 7\n8 4\n8 8\n8 12' ]
none_removed 'both.card: 1 removal with from above to, which removes nothing' 'resumed from above to'
rm open.card.pass

# a block or a map entry alone opens no pass
for write in 1 2; do
    cp rounds.card open.card
    KILL_WRITE=$write KILL_WHEN=synced run_cut 137 "cut at write $write" annul open.card 5 8
    check "cut at write $write: the card has changed" [ "$(cmp open.card rounds.card)" != '' ]
    check "cut at write $write: the note is there" [ -s open.card.pass ]
    left "$second" "cut at write $write, the same range" open.card 5 8
    left "$(grep -v ' [1-4]$' <<<"$every")" "cut at write $write, another range" open.card 1 4
    rm open.card.pass
    left "$second" "cut at write $write, the same range without the note" open.card 5 8
    left "$(grep -v ' [1-4]$' <<<"$every")" "cut at write $write, another range without the note" open.card 1 4
done

# a card with one free place, where an old block whose last pair goes still holds its place
run 0 'format a card of four places' format tight.card 8 4
{ seq 6 | awk '{ print 1, 4, $1, $1 }' && seq 11 16 | awk '{ print 1, 5, $1, $1 }' && echo '1 8 1 1'; } | numbered | as_words >tight.batch
run 0 'fill three of them' apply tight.card tight.batch
annulled 1 'it is full' tight.card 16 16
check 'it names number 8' grep -q '^both.card: refused, number 8:' err
said_alone 'it is full'
check 'the card stands' cmp -s both.card tight.card
check 'no note is made' [ ! -e both.card.pass ]
annulled 1 'it is full, anyway' tight.card 16 16 --anyway
check 'it names number 8' grep -q '^both.card: refused, number 8:' err
check 'it shows what was reached' grep -q 'the pass stays open: it reached term 4, position 6;' out
cp both.card open.card
cp both.card.pass open.card.pass
still_open 'a card that was full' open.card 16 17
for option in '' --anyway; do
    # shellcheck disable=SC2086
    annulled 1 "it is full again $option" open.card 16 16 $option
    check "it is full again $option: number 8" grep -q '^both.card: refused, number 8:' err
    check "it is full again $option: the card stands" cmp -s both.card open.card
    check "it is full again $option: the note stands" cmp -s both.card.pass open.card.pass
done
run 0 'the empty batch' apply open.card none.batch
check 'its pairs' [ "$(pairs open.card)" = "$(pairs tight.card)" ]
check 'no note is left' [ ! -e open.card.pass ]
annulled 1 'it is full at once' open.card 6 6
check 'the card stands' cmp -s both.card open.card
annulled 1 'it is full at once, anyway' open.card 6 6 --anyway
check 'it says that no pass is open' grep -q ': no pass is open; the index is as it was$' out
check 'the card stands' cmp -s both.card open.card

# ---- faults

misspelt() { # WHAT WORD FROM TO: the number that WORD names is at fault, and the card stands
    local form
    for form in annul 'annul --resume'; do
        for card in case1.card none.card; do
            # shellcheck disable=SC2086
            faulty "$form, $1, $card" "$2 $no_word" $form "$card" "$3" "$4"
        done
    done
}
cp case1.card before.card
misspelt 'from is a word' "FROM: 'four'" four 9
misspelt 'to is a word' "TO: 'nine'" 4 nine
misspelt 'from over 32 bits' "FROM: '4294967296'" 4294967296 4294967297
misspelt 'to over 32 bits' "TO: '4294967296'" 4 4294967296
misspelt 'from below 0' "FROM: '-4'" -4 9
misspelt 'to with a sign' "TO: '+9'" 4 +9
misspelt 'from with a letter behind it' "FROM: '4x'" 4x 9
misspelt 'to with a blank before it' "TO: ' 9'" 4 ' 9'
misspelt 'from is empty' "FROM: ''" '' 9
misspelt 'to is empty' "TO: ''" 4 ''
check 'the card stands' cmp -s case1.card before.card
faulty_card() { # WHAT MESSAGE CARD: at fault, with the message alone
    local form
    for form in annul 'annul --resume'; do
        # shellcheck disable=SC2086
        faulty "$form, $1" "$3: $2" $form "$3" 4 9
    done
}
faulty_card 'a card that is not there' 'No such file or directory' none.card
check 'no card is made' [ ! -e none.card ]
faulty_card 'a folder' 'Is a directory' .
printf 'abc' >odd.card
faulty_card 'three bytes' '3 bytes are not a whole number of 32-bit words' odd.card
check 'the bytes stand' [ "$(cat odd.card)" = abc ]

check 'help on the command' grep -qx '  annul \[--resume\] \[--anyway\] CARD FROM TO' usage
check 'help on what it does' tells annul 'remove a range of running numbers under every term'
check 'help on its option' grep -qx '  --resume        go on with an open pass where no file CARD.pass tells its batch' usage
check 'help on its records' grep -qx 'term 0, removes from from to to under every term; a removal with from above to removes nothing' usage
check 'help on their kind' grep -q 'kind 3, with$' usage
check 'help on its refusal' grep -q '^exit status: 0 done, 1 refused (the number is shown, or the ground), 2 ' usage
cp case1.card ./--resume # an option is no card, whatever files there are
misused 'no card and no range' 'a word is missing: CARD' annul
misused 'no range' 'a word is missing: FROM' annul case1.card
misused 'half a range' 'a word is missing: TO' annul case1.card 4
misused 'a word too many' 'a word too many: 8' annul case1.card 4 9 8
misused 'the option alone' 'a word is missing: CARD' annul --resume
misused 'the option and no range' 'a word is missing: FROM' annul --resume case1.card
misused 'the option and half a range' 'a word is missing: TO' annul --resume case1.card 4
misused 'the option and a range' 'a word is missing: TO' annul --resume 4 9
misused 'the option and a word too many' 'a word too many: 8' annul --resume case1.card 4 9 8
misused 'the option behind the card and half a range' 'a word is missing: TO' annul case1.card --resume 4
misused 'the option at the end and half a range' 'a word is missing: TO' annul case1.card 4 --resume
misused 'another option' 'it has no option --text' annul --text case1.card 4 9
misused 'the option of another command' 'it has no option --resume' fits --resume case1.card one.batch
check 'no card is touched' cmp -s case1.card ./--resume
check 'nor this one' cmp -s case1.card before.card
run 0 'a card with the name of the option' annul ./--resume 4 9
check 'its pairs' [ "$(pairs ./--resume)" = '5 2' ]
run 0 'the same behind the end of the options' annul -- --resume 2 2
check 'its pairs' [ "$(pairs ./--resume)" = '' ]
rm ./--resume
cp case1.card both.card
run 0 'figures with zeros before them' annul both.card 004 09
check 'its pairs' [ "$(pairs both.card)" = '5 2' ]

# ---- the medium

rm words.log
cp rounds.card log.card
"$to_words" 3 0 5 8 1 >annul.batch
WRITE_LOG=words.log run_cut 0 'the writes of the batch' apply log.card annul.batch
cp rounds.card log.card
WRITE_LOG=annul.log run_cut 0 'the writes of the annulment' annul log.card 5 8
check 'they are the same, and synced alike' cmp -s annul.log words.log
check 'they are six' [ "$(grep -c write annul.log)" -eq 6 ]
cp rounds.card log.card
WRITE_LOG=resume.log run_cut 0 'the writes of its other form' annul --resume log.card 5 8
check 'they are the same' cmp -s resume.log words.log
check 'the note is before them and goes at the end' [ "$(sed -e '/^write/d' -e '/^sync/d' annul.log | tr '\n' ,)" = "folder,$(noted log.card)remove log.card.pass," ]
for words in 'annul now/card 5 8' 'annul --resume now/card 5 8'; do
    fresh rounds.card
    # shellcheck disable=SC2086
    FAIL_SYNC=1 FAIL_ERROR=22 run_now 2 "$words, where there are no syncs" $words
    check "$words, where there are no syncs: the card stands" cmp -s now/card rounds.card
    # shellcheck disable=SC2086
    FAIL_SYNC=2 FAIL_ERROR=22 run_now 0 "$words, where folders have no syncs" $words
done

# After every cut annul leaves the card that uncut runs leave: with the note, and
# without it where no pass is open; where one is, annul refuses without the note and
# annul --resume goes on. A run that finds the pass finished makes another one, whose
# blocks stand elsewhere.
cut_short() { # WHAT CARD RANGE
    rm -f part.card.pass
    if [ -e "$2.pass" ]; then cp "$2.pass" part.card.pass; fi
    completes "$1, with its note" annul "$2" "$3"
    check "$1, with its note: it is gone" [ ! -e part.card.pass ]
    if is_open "$2"; then
        open_cuts=$((open_cuts + 1))
        cp "$2" part.card
        # shellcheck disable=SC2086
        run_cut 1 "$1, a pass is open" annul part.card $3
        check "$1, a pass is open: the message" open_message part.card 'no file .*/part.card.pass tells which batch'
        check "$1, a pass is open: the card stands" cmp -s part.card "$2"
        completes "$1, resumed" 'annul --resume' "$2" "$3"
    else
        closed_cuts=$((closed_cuts + 1))
        completes "$1, no pass is open" annul "$2" "$3"
    fi
}
goes_on() { cut_short "${@:1:3}"; } # in place of the pairs, the whole card
completes() { # WHAT COMMAND CARD RANGE: on a copy of the card
    cp "$3" part.card
    # shellcheck disable=SC2086
    run_cut 0 "$1" $2 part.card $4
    check "$1: the card of uncut runs" one_of part.card uncut.1 uncut.2 uncut.3
}
one_of() { # FILE FILE..: the first is as one of the others
    local file
    for file in "${@:2}"; do
        if cmp -s "$1" "$file"; then return 0; fi
    done
    return 1
}
annul_cuts() { # CLOSED OPEN WHAT CARD RANGE PAIRS: so many cuts at least leave no pass open, and so many leave one open
    local before=$4 n
    for n in 1 2 3; do
        cp "$before" "uncut.$n"
        # shellcheck disable=SC2086
        run_cut 0 "$3: uncut, run $n" annul "uncut.$n" $5
        before=uncut.$n
    done
    closed_cuts=0 open_cuts=0
    cuts "${@:3}"
    check "$3: $closed_cuts cuts leave no pass open, at least $1" [ "$closed_cuts" -ge "$1" ]
    check "$3: $open_cuts cuts leave a pass open, at least $2" [ "$open_cuts" -ge "$2" ]
}
apply=(annul) resume=(annul --resume)
annul_cuts 30 30 'the second round, cut' rounds.card '5 8' "$second"
annul_cuts 30 60 'nothing, cut' rounds.card '13 99' "$every"
annul_cuts 5 0 'everything, cut' rounds.card '1 12' ''
annul_cuts 30 30 'the first and second round, cut' rounds.card '1 8' $'3 9\n5 10\n8 12'
annul_cuts 30 30 'one position, cut, where one place is free' tight.card '1 1' "$(pairs tight.card | grep -v ' 1$')"

# ---- the standard streams

cp rounds.card open.card
KILL_WRITE=3 KILL_WHEN=synced run_cut 137 'an annulment is cut short' annul open.card 5 8
cp open.card opened.card
streams 0 2 kept.card annul stream.card 4 9
streams 0 2 kept.card annul --resume stream.card 4 9
streams 1 1 kept.card annul stream.card 9 0
streams 1 1 kept.card annul --resume stream.card 9 0
streams 1 1 live.card annul stream.card 4 9
streams 1 1 opened.card annul stream.card 5 8
streams 0 2 opened.card annul --resume stream.card 5 8
cp open.card.pass opened.card.pass
streams 0 2 opened.card annul stream.card 5 8
streams 1 1 opened.card annul stream.card 5 9
rm open.card.pass opened.card.pass
streams 2 2 kept.card annul 'no such.card' 4 9
streams 2 2 kept.card annul stream.card 4
streams 2 2 kept.card annul --resume stream.card 4
