# A part of host.sh: what does not fit is refused before its first step, and with --anyway goes as far as it can.

full_ways='use a card with more places, or apply smaller batches, or remove games first; removals alone always fit where two places are free'
too_full() { # WHAT CARD BLOCKS PUT FREE WORDS..: refused, with what would help; nothing is changed, and fits gives 3
    local words=("${@:6}")
    rm -rf full.log before.pass
    cp "$2" before.card
    if [ -e "$2.pass" ]; then cp "$2.pass" before.pass; fi
    WRITE_LOG=full.log run_cut 1 "$1" "${words[@]}"
    check "$1: the message" has err printf "$2: %s\n" 'refused, number 8: the card is full: the next block would leave no place free' \
        "the batch does not fit, the card is too full; the pass needs $3 and would stop with number 8 after putting in $4" \
        "${ways_here:-$full_ways} (free now: $5)" "$anyway"
    said_alone "$1"
    check "$1: the card stands" cmp -s "$2" before.card
    check "$1: the note stands" same_or_none "$2.pass" before.pass
    check "$1: no temporary file" [ ! -e "$2.pass.new" ]
    check "$1: no write" [ "$(logged full.log)" = 'sync,folder,' ]
}

# ---- a card of two places, of which one block fills one

run 0 'format a card of two places' format small.card 8 2
run 0 'fill it' apply small.card one.batch
cp small.card first.card
too_full 'words' small.card '2 blocks' '1 block' '1 of 2' apply small.card more.batch
too_full 'words from standard input' small.card '2 blocks' '1 block' '1 of 2' apply small.card - <more.batch
too_full 'text' small.card '2 blocks' '1 block' '1 of 2' apply --text small.card more.text
too_full 'words, resumed' small.card '2 blocks' '1 block' '1 of 2' apply --resume small.card more.batch
too_full 'a block in front' small.card '2 blocks' '0 blocks' '1 of 2' apply small.card front.batch
for words in 'more.batch' 'front.batch' '--text more.text'; do
    case $words in --text*) run 3 "fits $words" fits --text small.card more.text ;; *) run 3 "fits $words" fits small.card "$words" ;; esac
done
run 0 'what fits is applied' apply small.card exact.batch
cp first.card small.card
run 0 'also with --anyway' apply --anyway small.card exact.batch
check 'no message' [ ! -s err ]
cp small.card exact.card
cp first.card small.card
run 0 'and leaves the same' apply small.card exact.batch
check 'the same card' cmp -s small.card exact.card

# as far as it can: the steps that the index makes on such a card
stops() { # WHAT STEPS CONFIGURATION WORDS..: on small.card
    cp first.card small.card
    rm -f small.card.pass
    run 1 "$1" "${@:4}"
    check "$1: number 8" has err echo 'small.card: refused, number 8: the card is full: the next block would leave no place free'
    check "$1: its steps" grep -q "^small.card: stopped; $2, as many writes" out
    check "$1: its configuration" [ "$(configuration small.card)" = "$3" ]
    check "$1: no game is lost" [ "$(pairs small.card)" = "$(pairs first.card)" ]
    check "$1: its note" [ -s small.card.pass -a ! -e small.card.pass.new ]
}
for way in 'apply --anyway small.card more.batch' 'apply --text --anyway small.card more.text' 'apply --anyway --resume small.card more.batch'; do
    # shellcheck disable=SC2086
    stops "$way" '3 steps' '1 8 2 1 0 1 7 4' $way
    check "$way: what was reached" grep -qx 'small.card: the pass stays open: it reached term 7, position 4; beyond that pair the index is as it was; an empty batch finishes the pass' out
    check "$way: its words" [ "$(words small.card 8 | cut -d' ' -f4-)" = "$(words two.open 8 2>/dev/null | cut -d' ' -f4-)" -o ! -e two.open ]
    cp small.card two.open
done
ways_here='use a card with more places, or end the pass with an empty batch, which always fits, and then apply smaller batches, or remove games first; removals alone always fit where two places are free'
too_full 'the same again' small.card '1 block' '0 blocks' '1 of 2' apply small.card more.batch
too_full 'the same again as text' small.card '1 block' '0 blocks' '1 of 2' apply --text small.card more.text
unset ways_here
cp small.card before.card
run 1 'the same again, anyway' apply --anyway small.card more.batch
check 'the same again, anyway: no step' grep -q 'stopped; 0 steps' out
check 'the same again, anyway: the card stands' cmp -s small.card before.card
check 'the same again, anyway: the note stands' [ -s small.card.pass ]
for way in 'apply small.card exact.batch' 'apply --anyway small.card exact.batch' 'apply --anyway --resume small.card exact.batch' 'annul small.card 1 9' 'annul --anyway small.card 1 9'; do
    # shellcheck disable=SC2086
    run 1 "another on it: $way" $way
    check "another on it: $way: a pass is open" grep -q '^small.card: refused, a pass is open: ' err
    check "another on it: $way: the card stands" cmp -s small.card before.card
done
run 0 'fits of the empty batch' fits small.card none.batch
run 0 'the empty batch ends it' apply small.card none.batch
check 'its configuration' [ "$(configuration small.card)" = '1 8 2 1 1 0 0 0' ]
check 'no game is lost' [ "$(pairs small.card)" = "$(pairs first.card)" ]
check 'no note is left' none_named small.card.
cp first.card small.card
run 1 'nothing goes' apply --anyway small.card front.batch
check 'nothing goes: it says so' grep -qx 'small.card: no pass is open; the index is as it was' out
check 'nothing goes: the card stands' cmp -s small.card first.card
run 0 'nothing went: another is applied' apply small.card exact.batch
check 'nothing went: no note is left' none_named small.card.

# ---- annul

cp tight.card small.card
cp tight.card first.card
too_full 'annul' small.card '3 blocks' '1 block' '1 of 4' annul small.card 16 16
too_full 'annul, resumed' small.card '3 blocks' '1 block' '1 of 4' annul --resume small.card 16 16
batch annul.batch 3 0 16 16
run 3 'fits of it' fits small.card annul.batch
stops 'annul, anyway' '3 steps' '1 8 4 1 2 1 4 6' annul --anyway small.card 16 16
ways_here='use a card with more places, or end the pass with an empty batch, which always fits, and then apply smaller batches, or remove games first; removals alone always fit where two places are free'
too_full 'annul, the same again' small.card '2 blocks' '0 blocks' '1 of 4' annul small.card 16 16
unset ways_here
run 0 'annul, the empty batch ends it' apply small.card none.batch
check 'annul: no game is lost' [ "$(pairs small.card)" = "$(pairs first.card)" ]
run 0 'annul what fits' annul --anyway small.card 1 99
check 'annul what fits: nothing is left' [ "$(pairs small.card)" = '' ]

# ---- chance: apply refuses before the first step where fits gives 3, and where it gives 0 both finish

seed=7 zero=0 three=0
for round in $(seq 80); do
    draw 2 && places=$((2 + drawn))
    rm -f small.card small.card.pass
    "$program" format small.card 8 $places >/dev/null
    draw_records 9
    "$program" apply small.card any.batch >/dev/null 2>&1
    draw_records 6
    draw 3
    case $drawn in
    0) draw 12 && from=$((1 + drawn)) && draw 12 && to=$((1 + drawn)) && way=(annul small.card $from $to) && batch any.batch 3 0 $from $to ;;
    1) way=(apply --text small.card any.text) ;;
    2) way=(apply small.card any.batch) ;;
    esac
    "$program" fits small.card any.batch >/dev/null
    fits=$?
    cp small.card before.card
    "$program" "${way[@]}" >out 2>err
    status=$?
    case $fits in
    0) zero=$((zero + 1)) && check "chance, $round: it is applied" [ "$status" -eq 0 ] ;;
    3)
        three=$((three + 1))
        check "chance, $round: it is refused" grep -q '^small.card: refused, number 8: ' err
        check "chance, $round: exit status $status, expected 1" [ "$status" -eq 1 ]
        check "chance, $round: the card stands" cmp -s small.card before.card
        check "chance, $round: no note" none_named small.card.
        ;;
    *) check "chance, $round: fits gives $fits" false ;;
    esac
done
check "chance: $zero fit, at least 15" [ "$zero" -ge 15 ]
check "chance: $three do not, at least 10" [ "$three" -ge 10 ]
