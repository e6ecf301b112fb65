# A part of host.sh: a pass that is open goes on with its own batch alone, which the note beside the card tells.

run 0 'format a card with room' format games.card 8 9
run 0 'add games' apply games.card rounds.batch
at_first=$(pairs games.card)
sorted() { sort -n -k 1,1 -k 2,2; }
both mine <<<$'A 3 13\nA 5 14\nR 8 4 4\nA 7 15'
both other <<<$'A 3 13\nA 5 14\nR 8 4 4\nA 7 16'
with_mine=$(echo "$at_first"$'\n3 13\n5 14\n7 15' | grep -vx '8 4' | sorted)
with_other=$(echo "$at_first"$'\n3 13\n5 14\n7 16' | grep -vx '8 4' | sorted)
stopped=$(echo "$at_first"$'\n3 13' | sorted) # where the pass is ended after its first block

lay_open() { # pass.card is cut short after its first block, and its note is there; open.pass is a copy of that
    rm -rf pass.card*
    cp games.card pass.card
    KILL_WRITE=3 KILL_WHEN=synced "$cut" apply pass.card mine.batch >/dev/null 2>&1
    cp pass.card.pass open.pass
} 2>/dev/null # where the shell tells of the killed run
turned_away() { # WHAT WHY WORDS..: refused in words; card and note stand, and nothing is done beyond the opening
    local place=${through:-pass.card}
    cp pass.card before.card
    rm -rf before.pass pass.log
    if [ -e pass.card.pass ]; then cp pass.card.pass before.pass; fi
    WRITE_LOG=pass.log run_cut 1 "$1" "${@:3}"
    check "$1: the message" open_message "$place" "$2"
    said_alone "$1"
    check "$1: the card stands" cmp -s pass.card before.card
    check "$1: the note stands" same_or_none pass.card.pass before.pass
    check "$1: nothing is done" [ "$(logged pass.log)" = 'sync,folder,' ]
}
another='it is another than the one that you apply now (.*/pass.card.pass tells which); apply that one again, and it goes on'
unknown='no file .*/pass.card.pass tells which batch; if it is the one that you apply now, --resume goes on with it'
finished() { # WHAT PAIRS: the pass is finished
    check "$1: the pairs" [ "$(pairs pass.card)" = "$2" ]
    check "$1: no pass is open" [ "$(configuration pass.card | cut -d' ' -f6)" -eq 0 ]
    check "$1: no note is left" none_named pass.card.
}

# ---- the same batch goes on by itself

cp games.card uncut.card
run 0 'uncut' apply uncut.card mine.batch
check 'uncut: the pairs' [ "$(pairs uncut.card)" = "$with_mine" ]
same_batch() { # WHAT WORDS..: they are those of the same batch
    lay_open
    rm -f pass.log
    WRITE_LOG=pass.log run_cut 0 "$1" "${@:2}"
    finished "$1" "$with_mine"
    check "$1: the card of an uncut run" cmp -s pass.card uncut.card
    check "$1: no message" [ ! -s err ]
    check "$1: the note stands until the end" [ "$(sed -e '/^write/d' -e '/^sync/d' pass.log | tr '\n' ,)" = 'folder,remove pass.card.pass,' ]
}
lay_open
check 'a pass is open' [ "$(configuration pass.card | cut -d' ' -f6)" -eq 1 ]
check 'its note' grep -q '^records 4, checksum [0-9a-f]\{16\}$' pass.card.pass
check 'its note tells the place of the first block' grep -qx 'blocks from place 3 on' pass.card.pass
same_batch 'the same words' apply pass.card mine.batch
same_batch 'the same as text' apply --text pass.card mine.text
same_batch 'the same words, resumed' apply --resume pass.card mine.batch
same_batch 'the same words, anyway' apply --anyway pass.card mine.batch
same_batch 'the same words from standard input' apply pass.card - <mine.batch
same_batch 'the same text from standard input' apply --text pass.card - <mine.text
cp mine.batch renamed.batch
same_batch 'the same words of another name' apply pass.card renamed.batch

# ---- another is refused, whatever its form

lay_open
for way in 'apply' 'apply --resume' 'apply --anyway' 'apply --resume --anyway'; do
    # shellcheck disable=SC2086
    turned_away "$way, other words" "$another" $way pass.card other.batch
    # shellcheck disable=SC2086
    turned_away "$way, other text" "$another" $way --text pass.card other.text
done
turned_away 'other words from standard input' "$another" apply pass.card - <other.batch
turned_away 'other text from standard input' "$another" apply --text pass.card - <other.text
turned_away 'annul' "$another" annul pass.card 5 8
turned_away 'annul, resumed' "$another" annul --resume pass.card 5 8
turned_away 'annul, anyway' "$another" annul --anyway pass.card 5 8
head -c -20 mine.batch >changed.batch
turned_away 'a record fewer' "$another" apply pass.card changed.batch
as_words <<<'1 9 1 1 9' | cat mine.batch - >changed.batch
turned_away 'a record more' "$another" apply pass.card changed.batch
for word in 0 1 2 4 5 9 10 13 14 17 18 19; do # of as many words, one is another
    cp mine.batch changed.batch
    set_word changed.batch $word $(($(od -An -tu4 --endian=little -j $((4 * word)) -N 4 mine.batch) % 200 + 1))
    "$program" fits new.card changed.batch >/dev/null 2>&1 || continue # no batch
    turned_away "word $word is another" "$another" apply pass.card changed.batch
done
{ tail -n 1 mine.text && head -n 3 mine.text; } >changed.text
turned_away 'the same lines in another order' "$another" apply --text pass.card changed.text
seq 5000 | awk '{ print "A\t3\t" $1 }' >long.text
turned_away 'a long text' "$another" apply --text pass.card long.text
turned_away 'a long text, resumed' "$another" apply --text --resume pass.card long.text
run 0 'its own, after all of these' apply pass.card mine.batch
finished 'its own, after all of these' "$with_mine"

# ---- an empty batch ends the pass, with its note and without it

empty_batch() { # WHAT WORDS..
    for note in with without; do
        lay_open
        if [ "$note" = without ]; then rm pass.card.pass; fi
        rm -f pass.log
        WRITE_LOG=pass.log run_cut 0 "$1, $note its note" "${@:2}" </dev/null
        finished "$1, $note its note" "$stopped"
        check "$1, $note its note: it takes it over first" [ "$(sed '/^write/,$d' pass.log | tr '\n' ,)" = "$(opened pass.card)" ]
    done
}
empty_batch 'an empty file' apply pass.card none.batch
empty_batch 'an empty text' apply --text pass.card none.text
empty_batch '/dev/null' apply pass.card /dev/null
empty_batch '/dev/null as text' apply --text pass.card /dev/null
empty_batch 'nothing on standard input' apply pass.card -
empty_batch 'an empty file, resumed' apply --resume pass.card none.batch

# from its first write on the pass is that of the empty batch, which is cut short too
for at in '1 before' '1 after' '3 synced' '4 after'; do
    lay_open
    KILL_WRITE=${at% *} KILL_WHEN=${at#* } run_cut 137 "the empty batch, cut at $at" apply pass.card none.batch
    check "the empty batch, cut at $at: its note" grep -q '^records 0, ' pass.card.pass
    turned_away "the empty batch, cut at $at, then the first" "$another" apply pass.card mine.batch
    turned_away "the empty batch, cut at $at, then the first, resumed" "$another" apply --resume pass.card mine.batch
    run 0 "the empty batch, cut at $at, then again" apply pass.card /dev/null
    finished "the empty batch, cut at $at, then again" "$stopped"
done

# ---- no note

lost_note() { # WHAT: of pass.card, whose note is lost or tells nothing
    turned_away "$1" "$unknown" apply pass.card mine.batch
    turned_away "$1, text" "$unknown" apply --text pass.card mine.text
    turned_away "$1, another" "$unknown" apply pass.card other.batch
    turned_away "$1, annul" "$unknown" annul pass.card 5 8
    KILL_WRITE=1 KILL_WHEN=before run_cut 137 "$1, resumed and cut" apply --resume pass.card mine.batch
    check "$1, resumed and cut: its note is there again" cmp -s pass.card.pass open.pass
    turned_away "$1, then another" "$another" apply --resume pass.card other.batch
    run 0 "$1, resumed" apply pass.card mine.batch
    finished "$1, resumed" "$with_mine"
}
lay_open
rm pass.card.pass
lost_note 'no note'
lay_open
rm pass.card.pass
rm -f pass.log
WRITE_LOG=pass.log run_cut 0 'no note, resumed as text' apply --text --resume pass.card mine.text
finished 'no note, resumed as text' "$with_mine"
check 'no note, resumed as text: the note is made before the first write' [ "$(sed '/^write/,$d' pass.log | tr '\n' ,)" = "$(opened pass.card)" ]
check 'no note, resumed as text: the card of an uncut run' cmp -s pass.card uncut.card

# ---- a note with another text is none, and one that only begins like one names no batch

for text in 'an empty file' 'a word' 'zero bytes' 'a long file' 'half a title'; do
    lay_open
    case $text in
    'an empty file') : >pass.card.pass ;;
    'a word') echo hello >pass.card.pass ;;
    'zero bytes') head -c 100 /dev/zero >pass.card.pass ;;
    'a long file') yes gameindex | head -c 100000 >pass.card.pass ;;
    'half a title') head -c 20 open.pass >pass.card.pass ;;
    esac
    lost_note "$text for a note"
done
spoilt() { # WHAT: pass.card.pass is no note of any batch; nothing but an empty batch goes on
    turned_away "$1" "$another" apply pass.card mine.batch
    turned_away "$1, another" "$another" apply pass.card other.batch
    turned_away "$1, another, resumed" "$another" apply --resume pass.card other.batch
    run 0 "$1, an empty batch" apply pass.card none.batch
    finished "$1, an empty batch" "$stopped"
}
for length in 80 100 $(($(stat -c %s open.pass) - 1)); do
    lay_open
    head -c "$length" open.pass >pass.card.pass
    spoilt "$length bytes of a note"
done
lay_open
cat open.pass open.pass >pass.card.pass
spoilt 'a note twice'
lay_open
sed 's/from place 3 on/from place 2 on/' open.pass >pass.card.pass
spoilt 'a note of another place'
lay_open
sed 's/^records 4/records 5/' open.pass >pass.card.pass
spoilt 'a note of another length'
lay_open
tr '0-9a-e' '1-9a-f' <open.pass | sed -n 2p | { sed -n 1p open.pass && sed 's/^records 5/records 4/' && sed -n 3p open.pass; } >pass.card.pass
spoilt 'a note of another checksum'
lay_open
cp open.pass pass.card.pass
echo "part 1 of 2 of a text of $(stat -c %s mine.text) bytes, checksum 0123456789abcdef" >>pass.card.pass
spoilt 'a note of a part of a text'

# what stands in the place of a note and cannot be read
unreadable() { # WHAT REASON: with a pass open and with none, nothing is done
    for open in yes no; do
        if [ "$open" = no ]; then cp games.card pass.card; fi
        cp pass.card before.card
        for words in 'apply pass.card mine.batch' 'apply --resume pass.card mine.batch' 'apply pass.card other.batch' 'annul pass.card 5 8' 'fits pass.card mine.batch'; do
            # shellcheck disable=SC2086
            run 2 "$1, open: $open, $words" $words
            check "$1, open: $open, $words: the message" grep -qx "gamecard: .*/pass.card.pass: $2" err
            said_alone "$1, open: $open, $words"
            check "$1, open: $open, $words: the card stands" cmp -s pass.card before.card
        done
    done
}
lay_open
rm pass.card.pass
mkdir pass.card.pass
unreadable 'a folder for a note' 'Is a directory'
rmdir pass.card.pass
lay_open
rm pass.card.pass
ln -s pass.card.pass pass.card.pass
unreadable 'a link to itself for a note' 'Too many levels of symbolic links'
lay_open
ln -sf nowhere pass.card.pass
lost_note 'a dangling link for a note'
check 'nothing is made where it led' [ ! -e nowhere ]
lay_open
rm pass.card.pass
mkfifo pass.card.pass
expect 1 'a pipe for a note' timeout 5 "$program" apply pass.card mine.batch
expect 0 'a pipe for a note, resumed' timeout 5 "$program" apply --resume pass.card mine.batch
finished 'a pipe for a note, resumed' "$with_mine"

# a note that cannot be made: no step is made
lay_open
run 0 'ended' apply pass.card none.batch
mkdir pass.card.pass.new
cp pass.card before.card
run 2 'a folder for the temporary name' apply pass.card mine.batch
said_alone 'a folder for the temporary name'
check 'a folder for the temporary name: it says so' grep -qx 'pass.card: no step of it was made' err
check 'a folder for the temporary name: the card stands' cmp -s pass.card before.card
rmdir pass.card.pass.new
for failure in 'FAIL_PUT=1 FAIL_WRITE_ERROR=28' ZERO_PUT=1; do
    # shellcheck disable=SC2086
    expect 2 "$failure" env $failure "$cut" apply pass.card mine.batch
    said_alone "$failure"
    check "$failure: it says so" grep -qx 'pass.card: no step of it was made' err
    check "$failure: the card stands" cmp -s pass.card before.card
    check "$failure: no note is left" none_named pass.card.
done
echo leftover >pass.card.pass.new
run 0 'a temporary file that a cut left' apply pass.card mine.batch
check 'a temporary file that a cut left: none is left' none_named pass.card.

# ---- a note, and no pass open: any batch is applied

lay_closed() { # as a cut after the finishing write leaves it: all is done but the note's removal
    rm -rf pass.card* pass.log
    cp games.card pass.card
    WRITE_LOG=pass.log "$cut" apply pass.card mine.batch >/dev/null
    cp games.card pass.card
    KILL_CALL=$(wc -l <pass.log) "$cut" apply pass.card mine.batch >/dev/null 2>&1
} 2>/dev/null
lay_closed
check 'a note without a pass' [ -s pass.card.pass -a "$(configuration pass.card | cut -d' ' -f6)" -eq 0 ]
check 'the batch is in the index' [ "$(pairs pass.card)" = "$with_mine" ]
for words in 'judge pass.card' 'show pass.card' 'fits pass.card other.batch'; do
    # shellcheck disable=SC2086
    run 0 "a note without a pass: $words" $words
    check "a note without a pass: $words: no pass is open" [ "$(cat out err | grep -c 'a pass is open')" -eq 0 ]
done
run 0 'the same again' apply pass.card mine.batch
finished 'the same again' "$with_mine"
lay_closed
cp pass.card.pass before.pass
KILL_WRITE=1 KILL_WHEN=before run_cut 137 'another, cut before its first write' apply pass.card other.batch
check 'its note replaced the other' [ "$(cmp pass.card.pass before.pass)" != '' ]
run 0 'another' apply pass.card other.batch
finished 'another' "$(echo "$with_mine"$'\n7 16' | sorted)"
lay_closed
run 0 'annul' annul pass.card 5 8
finished 'annul' "$(grep -v ' [5-8]$' <<<"$with_mine")"
lay_closed
run 0 'an empty batch' apply pass.card none.batch
finished 'an empty batch' "$with_mine"

# ---- what judge and show say

lay_open
for command in judge show; do
    for note in with without; do
        run 0 "$command, a pass is open, $note its note" $command pass.card
        check "$command, a pass is open, $note its note: it says so" grep -q \
            '^pass.card: a pass is open: a batch is in the index up to term 3, position 13, and not beyond; .* the same batch goes on with it, and an empty one ends it$' out
        check "$command, a pass is open, $note its note: nothing else is said" [ ! -s err ]
        mv pass.card.pass kept.pass 2>/dev/null
    done
    cp kept.pass pass.card.pass
    run 0 "$command, no pass is open" $command games.card
    check "$command, no pass is open: it does not say so" [ "$(grep -c 'pass' out)" -eq 0 ]
    cp pass.card damaged.card
    set_word damaged.card 6 0
    run 1 "$command, damaged" $command damaged.card
    check "$command, damaged: it does not say so" [ "$(grep -c 'a pass' out)" -eq 0 ]
done

# ---- a card has one note, whatever name leads to it

mkdir -p sub
ln -sf pass.card link.card
ln -sf ../link.card sub/link.card
for through in pass.card ./pass.card "$room/pass.card" link.card sub/link.card sub/../link.card; do
    lay_open
    turned_away "$through, another" "$another" apply "$through" other.batch
    run 0 "$through, the same" apply "$through" mine.batch
    finished "$through, the same" "$with_mine"
    cp games.card pass.card
    KILL_WRITE=3 KILL_WHEN=synced run_cut 137 "$through, cut" apply "$through" mine.batch
    check "$through, cut: its note" cmp -s pass.card.pass open.pass
    check "$through, cut: no other" [ "$(find . -name '*.pass' -newer games.card -path '*link*' | wc -l)" -eq 0 ]
    run 0 "$through, then by its own name" apply pass.card mine.batch
    finished "$through, then by its own name" "$with_mine"
done
unset through
# another card beside it has its own
lay_open
cp games.card pass.card.second
KILL_WRITE=3 KILL_WHEN=synced run_cut 137 'a second card, cut' apply pass.card.second other.batch
run 1 'the first, with the batch of the second' apply pass.card other.batch
run 1 'the second, with the batch of the first' apply pass.card.second mine.batch
run 0 'the first' apply pass.card mine.batch
run 0 'the second' apply pass.card.second other.batch
check 'the second: the pairs' [ "$(pairs pass.card.second)" = "$with_other" ]
rm pass.card.second
finished 'the first' "$with_mine"

# ---- a cut anywhere, and then another batch: it is refused or it is applied to an index that has all or nothing of the first

rm -f log && fresh games.card
WRITE_LOG=log run_now 0 'uncut' apply now/card mine.batch
one_or_the_other() { # WHAT CARD: another batch is applied, and the first where that is refused
    if "$program" apply "$2" other.batch >out 2>err; then
        check "$1, another: the pairs" in_list "$(pairs "$2")" "$with_other" "$(echo "$with_mine"$'\n7 16' | sorted)"
        taken=$((taken + 1))
    else
        check "$1, another: a pass is open" grep -q '^'"$2"': refused, a pass is open: ' err
        run 0 "$1, the first" apply "$2" mine.batch
        check "$1, the first: the pairs" [ "$(pairs "$2")" = "$with_mine" ]
        turned=$((turned + 1))
    fi
}
in_list() { # WORD WORD..: the first is one of the others
    local word
    for word in "${@:2}"; do
        if [ "$1" = "$word" ]; then return 0; fi
    done
    return 1
}
taken=0 turned=0
for call in $(seq "$(wc -l <log)"); do
    fresh games.card
    KILL_CALL=$call run_now 137 "cut before call $call" apply now/card mine.batch
    for choice in $(seq 0 20); do
        rm -f left/*
        MEDIUM=now/medium "$cut" power-cut "$choice" left >/dev/null || break
        one_or_the_other "cut before call $call, choice $choice" left/card
    done
    one_or_the_other "killed before call $call" now/card
done
check "$taken cuts left no pass open, at least 20" [ "$taken" -ge 20 ]
check "$turned cuts left one open, at least 20" [ "$turned" -ge 20 ]
