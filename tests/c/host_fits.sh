# A part of host.sh: whether a batch fits on a card, asked with fits, which writes nothing.

# What is said after the name of the card.
going_on='a pass is open, and this is about going on with it'
not_its="$going_on; apply refuses a batch other than the one that it was begun with"
unchanged='nothing has been changed'
ways='use a card with more places, or apply smaller batches, or remove games first; removals alone always fit where two places are free'
ways_open='use a card with more places, or end the pass with an empty batch, which always fits, and then apply smaller batches, or remove games first; removals alone always fit where two places are free'
anyway='no step of it was made; --anyway goes as far as it can: what is moved by then stays in the index, and no game is lost'

# The answer, byte for byte, from the program and from its test build, and nothing else
# is shown; card and note stand, and all that is done is the sync before the card is read.
asked() { # STATUS WHAT CARD BATCH LINE..
    printf "$3: %s\n" "${@:5}" >answer
    cp "$3" before.card
    rm -f before.card.pass
    if [ -e "$3.pass" ]; then cp "$3.pass" before.card.pass; fi
    run "$1" "$2" fits "$3" "$4"
    check "$2: the answer" cmp -s out answer
    check "$2: no other message" [ ! -s err ]
    check "$2: the card stands" cmp -s "$3" before.card
    rm -f asked.log
    WRITE_LOG=asked.log run_cut "$1" "$2, logged" fits "$3" "$4"
    check "$2: no write" [ "$(logged asked.log)" = 'sync,' ]
    check "$2: the card stands to the end" cmp -s "$3" before.card
    check "$2: the note stands" same_or_none "$3.pass" before.card.pass
}
ends() { # STATUS STEPS WHAT CARD BATCH OPTION..: apply then ends so, after so many steps; the card is what it leaves
    run "$1" "$3, applied" apply "${@:6}" "$4" "$5"
    check "$3, applied: $2 steps" grep -Eq "(finished|stopped); $2 steps?, " out
    if [ "$1" -eq 1 ]; then check "$3, applied: number 8" grep -q "^$4: refused, number 8: " err; fi
}
# Apply refuses what fits has just said not to fit, in the same words, and no step is made.
no_room() { # WHAT CARD BATCH
    cp "$2" before.card
    run 1 "$1, applied" apply "$2" "$3"
    {
        echo "$2: refused, number 8: the card is full: the next block would leave no place free"
        grep -v -e "$unchanged\$" -e "$going_on" answer
        echo "$2: $anyway"
    } >said
    check "$1, applied: the message" cmp -s err said
    check "$1, applied: nothing is shown" [ ! -s out ]
    check "$1, applied: the card stands" cmp -s "$2" before.card
    check "$1, applied: the note stands" same_or_none "$2.pass" before.card.pass
}

# ---- the small cases

run 0 'format a card to ask' format ask.card 8 4
cp ask.card fresh.card
asked 0 'no records, no pairs' ask.card none.batch \
    'the batch fits; nothing remains to be put in a block, and the pass finishes in 1 step'
asked 0 'case 1' ask.card one.batch 'the batch fits; the pass fills 1 block and finishes within 3 steps'
ends 0 3 'case 1' ask.card one.batch
check 'its configuration' [ "$(configuration ask.card)" = '1 8 4 0 1 0 0 0' ]
asked 0 'no records' ask.card none.batch 'the batch fits; the pass fills 1 block and finishes within 3 steps'
asked 0 'all removed' ask.card all.batch \
    'the batch fits; nothing remains to be put in a block, and the pass finishes in 1 step'
cp ask.card second.card
batch exact.batch 1 7 11 11
asked 0 'case 2' second.card exact.batch 'the batch fits; the pass fills 1 block and finishes within 3 steps'
ends 0 3 'case 2' second.card exact.batch
asked 0 'case 2, behind the full block' second.card more.batch 'the batch fits; the pass fills 2 blocks and finishes within 6 steps'
asked 0 'case 3' ask.card more.batch 'the batch fits; the pass fills 2 blocks and finishes within 6 steps'
cp ask.card third.card
ends 0 6 'case 3' third.card more.batch
check 'its configuration' [ "$(configuration third.card)" = '1 8 4 1 2 0 0 0' ]

# case 4: two places
run 0 'format a card of two places' format duo.card 8 2
asked 0 'two places, empty' duo.card one.batch 'the batch fits; the pass fills 1 block and finishes within 3 steps'
ends 0 3 'two places, empty' duo.card one.batch
asked 0 'two places, exactly full' duo.card exact.batch 'the batch fits; the pass fills 1 block and finishes within 3 steps'
asked 3 'a block in front that frees none' duo.card front.batch \
    'the batch does not fit, the card is too full; the pass needs 2 blocks and would stop with number 8 after putting in 0 blocks' \
    "$ways (free now: 1 of 2)" "$unchanged"
no_room 'a block in front' duo.card front.batch
cp duo.card stopped.card
ends 1 0 'a block in front, anyway' stopped.card front.batch --anyway
check 'a block in front, applied: the card stands' cmp -s stopped.card duo.card
asked 3 'case 4' duo.card more.batch \
    'the batch does not fit, the card is too full; the pass needs 2 blocks and would stop with number 8 after putting in 1 block' \
    "$ways (free now: 1 of 2)" "$unchanged"
no_room 'case 4' duo.card more.batch
ends 1 3 'case 4, anyway' stopped.card more.batch --anyway
check 'its configuration' [ "$(configuration stopped.card)" = '1 8 2 1 0 1 7 4' ]
check 'no game is lost' [ "$(pairs stopped.card)" = "$(pairs duo.card)" ]
asked 3 'case 4, where it stopped' stopped.card more.batch "$going_on" \
    'the batch does not fit, the card is too full; the pass needs 1 block and would stop with number 8 after putting in 0 blocks' \
    "$ways_open (free now: 1 of 2)" "$unchanged"
no_room 'case 4, where it stopped' stopped.card more.batch
ends 1 0 'case 4, where it stopped, anyway' stopped.card more.batch --anyway
asked 0 'case 4, no records' stopped.card none.batch "$going_on" \
    'the batch fits; nothing remains to be put in a block, and the pass finishes in 1 step'
ends 0 1 'case 4, no records' stopped.card none.batch

# ---- a pass that is open

cp ask.card open.card
KILL_WRITE=3 KILL_WHEN=synced run_cut 137 'a batch is cut short' apply open.card more.batch
check 'its pass is open' [ "$(configuration open.card)" = '1 8 4 1 0 1 7 4' ]
batch wide.batch 1 8 1 1 1 9 1 1 1 10 1 1 1 11 1 1 1 12 1 1 1 13 1 1 1 14 1 1
for note in with without; do
    said_open=$going_on
    if [ "$note" = without ]; then said_open=$not_its; fi
    asked 0 "its own batch, $note its note" open.card more.batch "$said_open" \
        'the batch fits; the pass fills 1 block and finishes within 3 steps'
    asked 0 "no records, $note its note" open.card none.batch "$going_on" \
        'the batch fits; nothing remains to be put in a block, and the pass finishes in 1 step'
    asked 0 "records up to the boundary, $note its note" open.card one.batch "$not_its" \
        'the batch fits; nothing remains to be put in a block, and the pass finishes in 1 step'
    asked 3 "another batch, $note its note" open.card wide.batch "$not_its" \
        'the batch does not fit, the card is too full; the pass needs 4 blocks and would stop with number 8 after putting in 2 blocks' \
        "$ways_open (free now: 3 of 4)" "$unchanged"
    mv open.card.pass kept.pass 2>/dev/null
done
cp open.card stopped.card
ends 1 6 'another batch, anyway' stopped.card wide.batch --anyway --resume
cp kept.pass open.card.pass
ends 0 3 'its own batch' open.card more.batch
# a block or a map entry alone opens no pass
for write in 1 2; do
    cp ask.card open.card
    KILL_WRITE=$write KILL_WHEN=synced run_cut 137 "cut at write $write" apply open.card more.batch
    asked 0 "cut at write $write" open.card more.batch 'the batch fits; the pass fills 2 blocks and finishes within 6 steps'
    ends 0 $((6 - write)) "cut at write $write" open.card more.batch
done

# ---- removals alone: they fit where two places are free, and may not where one is

batch last.batch 2 4 6 6 2 5 16 16
asked 3 'removals, one place free' tight.card last.batch \
    'the batch does not fit, the card is too full; the pass needs 3 blocks and would stop with number 8 after putting in 0 blocks' \
    "$ways (free now: 1 of 4)" "$unchanged"
no_room 'removals, one place free' tight.card last.batch
run 0 'format a card of five places' format five.card 8 5
run 0 'fill three of them' apply five.card tight.batch
asked 0 'removals, two places free' five.card last.batch 'the batch fits; the pass fills 3 blocks and finishes within 9 steps'
ends 0 9 'removals, two places free' five.card last.batch
batch round.batch 3 0 16 16
asked 3 'an annulled round, one place free' tight.card round.batch \
    'the batch does not fit, the card is too full; the pass needs 3 blocks and would stop with number 8 after putting in 1 block' \
    "$ways (free now: 1 of 4)" "$unchanged"
no_room 'an annulled round, one place free' tight.card round.batch
cp tight.card stopped.card
ends 1 3 'an annulled round, one place free, anyway' stopped.card round.batch --anyway
batch round.batch 3 0 1 99
asked 0 'all of it' tight.card round.batch \
    'the batch fits; nothing remains to be put in a block, and the pass finishes in 1 step'
# 64 positions of 64 terms, 31 terms in two blocks
asked 0 'the largest card' large.card many.batch 'the batch fits; the pass fills 5 blocks and finishes within 15 steps'

# ---- text, standard input, cards that others read

mkfifo ask.pipe
also() { # WHAT WORDS..: the last answer again
    run "$status" "$1" fits "${@:2}"
    check "$1: the answer" cmp -s out answer
    check "$1: no other message" [ ! -s err ]
    check "$1: the card stands" cmp -s "$card" before.card
}
for card in ask.card duo.card; do
    case $card in
    ask.card) status=0 && asked 0 'words' $card more.batch 'the batch fits; the pass fills 2 blocks and finishes within 6 steps' ;;
    *) status=3 && asked 3 'words' $card more.batch \
        'the batch does not fit, the card is too full; the pass needs 2 blocks and would stop with number 8 after putting in 1 block' \
        "$ways (free now: 1 of 2)" "$unchanged" ;;
    esac
    also "$card, words from standard input" $card - <more.batch
    also "$card, text" --text $card more.text
    also "$card, text without its last line feed" --text $card bare.text
    also "$card, text from standard input" --text $card - <more.text
    { head -c 3 more.text && sleep 0.1 && tail -c +4 more.text; } >ask.pipe &
    also "$card, text from a pipe, in two parts" --text $card - <ask.pipe
    chmod 444 $card
    also "$card, which may only be read" $card more.batch
    also "$card, which may only be read, text" --text $card more.text
    chmod 644 $card
    rm -f asked.log
    WRITE_LOG=asked.log run_cut "$status" "$card, text, logged" fits --text $card more.text
    check "$card, text: no write" [ "$(logged asked.log)" = 'sync,' ]
done
asked 0 'lines that fall, as words' fresh.card one.batch 'the batch fits; the pass fills 1 block and finishes within 3 steps'
status=0 card=fresh.card
also 'lines that fall' --text fresh.card three.text
asked 0 'no lines, as words' fresh.card none.batch \
    'the batch fits; nothing remains to be put in a block, and the pass finishes in 1 step'
also 'no lines' --text fresh.card none.text
cp fresh.card ./-ask.card
cp three.text ./-three.text
run 0 'names that begin with a dash' fits --text -ask.card -three.text
check 'the answer' grep -qx -e '-ask.card: the batch fits; the pass fills 1 block and finishes within 3 steps' out

# ---- refusals: those of apply, in its words, and the card stands

declined() { # NUMBER WHAT WORDS..: the words behind apply and behind fits
    local card=$3
    if [ "$card" = --text ]; then card=$4; fi
    cp "$card" before.card
    run 1 "$2, applied" apply "${@:3}" <line.text
    mv err said
    check "$2, applied: it names number $1" grep -q ": refused, number $1: " said
    check "$2, applied: nothing is shown" [ ! -s out ]
    run 1 "$2" fits "${@:3}" <line.text
    check "$2: the same is said" cmp -s err said
    check "$2: nothing is shown" [ ! -s out ]
    check "$2: the card stands" cmp -s "$card" before.card
    check "$2: no note" [ ! -e "$card.pass" ]
}
printf 'A\t5\t2\nA\t5\n' >line.text
declined 1 'an empty card' empty.card one.batch
declined 1 'a file longer than any card' longer.card one.batch
declined 1 'five words' short.card one.batch
declined 2 'a card of another format' wrong.card one.batch
declined 4 'a new length without a block' seems.card one.batch
cp rounds.card seems.card
set_word seems.card 5 1
declined 3 'a new length without a boundary' seems.card one.batch
declined 4 'a card that is not sound' live.card one.batch
declined 4 'a card that is not sound, and a batch that is wrong' live.card order.batch
declined 6 'a batch of three words' ask.card part.batch
declined 6 'a record of no kind' ask.card kind.batch
as_words <<<'1 64 64 64 4097' | cat many.batch - >over.batch
declined 6 'a batch of 4,097 records' ask.card over.batch
declined 7 'records that fall' ask.card order.batch
declined 7 'records that fall, on a full card' duo.card order.batch
both wrong <<<'A 5 0'
declined 6 'text of a position 0' --text ask.card wrong.text
check 'its words' has err echo "wrong.text: line 1: refused, number 6: $figures"
declined 6 'the same, and a card that is not sound' --text live.card wrong.text
declined 12 'a line of another form' --text ask.card line.text
check 'its words' has err echo "line.text: line 2: refused, number 12: $form"
declined 12 'such a line from standard input' --text ask.card -
check 'its words' has err echo "standard input: line 2: refused, number 12: $form"
declined 12 'such a line, and a card that is not sound' --text live.card line.text
declined 12 'words for text' --text ask.card one.batch
{ yes $'A\t5\t2' | head -n 4097 && echo bad; } >line.text
declined 12 'a line of another form, of more than 4,096' --text ask.card line.text
check 'its words' has err echo "line.text: line 4098: refused, number 12: $form"

# ---- faults

faulty_fits() { # WHAT FILE MESSAGE WORDS..: at fault, with the message alone
    run 2 "$1" fits "${@:4}"
    check "$1: the message" has err echo "gamecard: $2: $3"
    check "$1: nothing else is shown" [ ! -s out ]
}
cp ask.card before.card
for option in '' --text; do
    file=one.batch
    if [ "$option" = --text ]; then file=three.text; fi
    faulty_fits "$option no card" none.card 'No such file or directory' $option none.card $file
    faulty_fits "$option a folder for a card" . 'not a regular file' $option . $file
    faulty_fits "$option three bytes for a card" odd.card '3 bytes are not a whole number of 32-bit words' $option odd.card $file
    faulty_fits "$option no file" none/one.batch 'No such file or directory' $option ask.card none/one.batch
    faulty_fits "$option a folder for a file" . 'Is a directory' $option ask.card .
    faulty_fits "$option no card and no file" none/one.batch 'No such file or directory' $option none.card none/one.batch
done
check 'no card is made' [ ! -e none.card ]
faulty_fits 'three bytes for a batch' odd.card '3 bytes are not a whole number of 32-bit words' ask.card odd.card
check 'help on the command' grep -qx '  fits \[--text\] CARD BATCH' usage
check 'help on what it does' tells fits 'say whether the card has room to apply a batch; write nothing'
check 'help on its exit status' [ "$(tail -n 1 usage)" = \
    'the output or the command line; of fits, 0 the batch fits, 3 it does not: the card is too full' ]
misused 'no card and no batch' 'a word is missing: CARD' fits
misused 'no batch' 'a word is missing: BATCH' fits ask.card
misused 'a word too many' 'a word too many: two.batch' fits ask.card one.batch two.batch
misused 'the option alone' 'a word is missing: CARD' fits --text
misused 'the option and no file' 'a word is missing: BATCH' fits --text ask.card
misused 'the option and a word too many' 'a word too many: more.text' fits --text ask.card three.text more.text
misused 'the option behind the card alone' 'a word is missing: BATCH' fits ask.card --text
misused 'the option of another command' 'it has no option --resume' fits --resume ask.card one.batch
misused 'another such option' 'it has no option --anyway' fits --anyway ask.card one.batch
check 'the card stands' cmp -s ask.card before.card

# ---- the medium and the standard streams

shown fits grow.batch
input=more.batch
cp duo.card full.card
cp stopped.card opened.card
streams 0 2 kept.card fits stream.card more.batch
streams 0 2 kept.card fits stream.card -
streams 3 2 full.card fits stream.card more.batch
streams 3 2 full.card fits stream.card -
streams 3 2 opened.card fits stream.card wide.batch
streams 1 1 live.card fits stream.card more.batch
streams 2 2 kept.card fits stream.card 'no such.batch'
streams 2 2 kept.card fits stream.card
input=more.text
streams 0 2 kept.card fits --text stream.card -
streams 3 2 full.card fits --text stream.card more.text
streams 1 1 full.card fits --text stream.card returns.text

# ---- chance: fits gives 0 where apply then finishes and 3 where it is refused with 8,
# and its figures are those of the steps

seed=20
draw() { # BELOW: sets drawn, from 0 on
    seed=$((seed * 16807 % 2147483647))
    drawn=$((seed / 7 % $1))
}
draw_records() { # ADDITIONS: any.lines, any.text and any.batch, up to 8 records, of ten so many additions
    local count term from
    draw 9 && count=$drawn
    while [ "$count" -gt 0 ]; do
        count=$((count - 1))
        draw 6 && term=$((1 + drawn))
        draw 12 && from=$((1 + drawn))
        draw 10
        if [ "$drawn" -lt "$1" ]; then echo "A $term $from"; else draw 12 && echo "R $term $from $((1 + drawn))"; fi
    done >any.lines
    both any <any.lines
}
counted() { if [ "$1" -eq 1 ]; then echo "1 $2"; else echo "$1 $2s"; fi; } # COUNT NOUN
needed() { # CARD: the blocks that the records need, counted on a card with room that has the pairs beyond the boundary
    local term position
    read -r term position <<<"$(configuration "$1" | cut -d' ' -f7,8)"
    beyond() { awk -v t="$term" -v p="$position" '$1 == "R" || $2 > t || ($2 == t && $3 > p)'; }
    rm -f roomy.card
    "$program" format roomy.card "$(words "$1" 1 | cut -d' ' -f2)" 60 >/dev/null
    pairs "$1" | sed 's/^/A /' | beyond | both rest
    "$program" apply roomy.card rest.batch >/dev/null 2>&1
    beyond <any.lines | both rest
    "$program" apply roomy.card rest.batch | sed -n 's/.*finished; .* writes (\([0-9]*\) blocks\?, .*/\1/p'
}
agrees() { # WHAT CARD: fits, asked of the records, and apply, which leaves its card; counts the four ends
    local what=$1 card=$2 fits applied blocks steps writes live
    local open=no more=() advice=$ways
    if is_open "$card"; then open=yes more=("$not_its") advice=$ways_open; fi
    if [ ! -s any.lines ] && [ "$open" = yes ]; then more=("$going_on"); fi
    live=$(configuration "$card" | awk '{ print $3 - $5 - $6 " of " $3 }')
    blocks=$(needed "$card")
    cp "$card" before.card
    "$program" fits "$card" any.batch >out 2>err
    fits=$?
    check "$what: the card stands" cmp -s "$card" before.card
    "$program" fits --text "$card" any.text >said 2>>err
    check "$what: the same exit status of text" [ "$?" -eq "$fits" ]
    check "$what: the same of text" cmp -s out said
    check "$what: no other message" [ ! -s err ]
    # where a pass is open its note goes, so that other records may be mixed into it
    rm -f "$card.pass"
    "$program" apply --resume "$card" any.batch >applied 2>told
    applied=$?
    if [ "$applied" -eq 1 ]; then
        check "$what: refused before the first step" [ ! -s applied ]
        check "$what: refused, the card stands" cmp -s "$card" before.card
        check "$what: refused, no note is made" [ ! -e "$card.pass" ]
        "$program" apply --resume --anyway "$card" any.batch >applied 2>told
        check "$what: anyway, the same exit status" [ "$?" -eq 1 ]
    fi
    read -r steps writes <<<"$(sed -n 's/.*; \([0-9]*\) steps\?, .* \([0-9]*\) configurations\?); .*/\1 \2/p' applied)"
    case $applied$(sed -n '1s/.*: refused, number \([0-9]*\):.*/ \1/p' told) in
    0)
        check "$what: exit status $fits, expected 0" [ "$fits" -eq 0 ]
        ends_of["fits, open: $open"]=$((${ends_of["fits, open: $open"]-0} + 1))
        check "$what: a configuration to each block" [ "$writes" -eq $((blocks == 0 ? 1 : blocks)) ]
        check "$what: its steps" [ "$steps" -le $((blocks == 0 ? 1 : 3 * blocks)) ]
        if [ "$blocks" -eq 0 ]; then
            set -- 'the batch fits; nothing remains to be put in a block, and the pass finishes in 1 step'
        else
            set -- "the batch fits; the pass fills $(counted "$blocks" block) and finishes within $((3 * blocks)) steps"
        fi
        set -- "${more[@]}" "$1"
        ;;
    '1 8')
        check "$what: exit status $fits, expected 3" [ "$fits" -eq 3 ]
        ends_of["full, open: $open"]=$((${ends_of["full, open: $open"]-0} + 1))
        set -- "${more[@]}" \
            "the batch does not fit, the card is too full; the pass needs $(counted "$blocks" block) and would stop with number 8 after putting in $(counted "$writes" block)" \
            "$advice (free now: $live)" "$unchanged"
        ;;
    *) check "$what: apply finishes or the card is full" false ;;
    esac
    check "$what: the answer" has out printf "$card: %s\n" "$@"
}
declare -A ends_of=()
for places in 2 3 4 5; do
    rm -f chance.card chance.card.pass
    run 0 "format a card of $places places" format chance.card $((7 + places % 3 * 2 + 1)) $places
    for round in $(seq 20); do
        # it fills up; then batches are mixed, or mostly of removals; every third finds what a cut left, and one that was
        # full is found where it stopped
        case $((round % 5)) in 0) draw_records 2 ;; 4) draw_records 5 ;; *) draw_records 9 ;; esac
        if [ $((round % 3)) -eq 0 ]; then
            rm -f chance.card.pass
            KILL_WRITE=3 KILL_WHEN=synced "$cut" apply --resume --anyway chance.card any.batch >/dev/null 2>&1
            rm -f chance.card.pass
            draw_records 7
        fi
        agrees "chance, $places places, round $round" chance.card
    done
done 2>/dev/null # where the shell tells of the killed runs
for end in 'fits, open: no' 'fits, open: yes' 'full, open: no' 'full, open: yes'; do
    check "chance: ${ends_of[$end]-0} times $end, at least 5" [ "${ends_of[$end]-0}" -ge 5 ]
done
