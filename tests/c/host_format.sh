# A part of host.sh: format loses no index and no other file, and a cut while a file is made leaves all of it or nothing.

lays() { # FILE: form.card is the file, with its note where it has one
    rm -rf form.card*
    cp "$1" form.card
    if [ -e "$1.pass" ]; then cp "$1.pass" form.card.pass; fi
}
not_formatted() { # WHAT FILE GROUND: refused without --force, whatever is asked for; with it only these words change
    lays "$2"
    rm -f form.log
    WRITE_LOG=form.log run_cut 1 "$1" format form.card 8 4
    check "$1: the message" has err printf 'form.card: %s\n' "refused, $3" 'format --force makes an empty index of it, and what it held is lost'
    said_alone "$1"
    check "$1: it stands" cmp -s form.card "$2"
    check "$1: its note stands" same_or_none form.card.pass "$2.pass"
    check "$1: no write" [ "$(logged form.log)" = 'sync,folder,' ]
    run 1 "$1, B too small" format form.card 7 4
    check "$1, B too small: number 5" grep -q '^form.card: refused, number 5: ' err
    run 1 "$1, another length" format form.card 8 5
    check "$1, another length: number 1" grep -q '^form.card: refused, number 1: ' err
    run 1 "$1, B too small, forced" format --force form.card 7 4
    check "$1, B too small, forced: number 5" grep -q '^form.card: refused, number 5: ' err
    run 1 "$1, another length, forced" format --force form.card 8 5
    check "$1, another length, forced: number 1" grep -q '^form.card: refused, number 1: ' err
    said_alone "$1, another length, forced"
    check "$1: it stands to the end" cmp -s form.card "$2"
    forced "$1" "$2"
}
forced() { # WHAT FILE: an empty index is made of the file, and its other words stand
    lays "$2"
    rm -f form.log
    WRITE_LOG=form.log run_cut 0 "$1, forced" format --force form.card 8 4
    check "$1, forced: it says so" has out echo 'form.card: formatted, 4 places of 8 words'
    check "$1, forced: no message" [ ! -s err ]
    check "$1, forced: its configuration" [ "$(configuration form.card)" = '1 8 4 0 0 0 0 0' ]
    check "$1, forced: its other words" [ "$(words form.card 8)" = "$(words "$2" 8)" ]
    check "$1, forced: no note is left" none_named form.card.
    check "$1, forced: the note goes first, for good" [ "$(logged form.log)" = 'sync,folder,remove form.card.pass,folder,write 0 32,sync,' ]
}

# ---- a file that is there

not_formatted 'a card with an index' case1.card 'it is a card with an index, in 1 block'
cp case1.card index.card
run 0 'a second block' apply index.card more.batch
not_formatted 'a card with two blocks' index.card 'it is a card with an index, in 2 blocks'
cp case1.card index.card
KILL_WRITE=3 KILL_WHEN=synced run_cut 137 'a pass is cut short' apply index.card more.batch
check 'its note' [ -s index.card.pass ]
not_formatted 'a card whose pass is open' index.card 'it is a card with an index, in 1 block'
rm index.card.pass
not_formatted 'a card whose pass is open, without its note' index.card 'it is a card with an index, in 1 block'
not_formatted 'a damaged card' live.card 'it is no sound card (the judge gives 4) and may be any file'
cp case1.card index.card
set_word index.card 0 2
not_formatted 'a card of another format' index.card 'it is no sound card (the judge gives 2) and may be any file'
head -c 192 /dev/zero >zeros.file
not_formatted 'zeros of the right length' zeros.file 'it is no sound card (the judge gives 2) and may be any file'
yes 'a letter to the captain' | head -c 192 >letter.file
not_formatted 'a text of the right length' letter.file 'it is no sound card (the judge gives 2) and may be any file'
cp one.batch batch.file # a batch is no card
run 1 'a batch file' format batch.file 8 4
check 'a batch file: number 1' grep -q '^batch.file: refused, number 1: ' err
run 1 'a batch file, forced' format --force batch.file 8 4
check 'a batch file, forced: number 1' grep -q '^batch.file: refused, number 1: ' err
check 'a batch file: it stands' cmp -s batch.file one.batch
echo 'a letter' >letter.txt
faulty 'a text of nine bytes' 'letter.txt: 9 bytes are not a whole number of 32-bit words' format letter.txt 8 4
faulty 'a text of nine bytes, forced' 'letter.txt: 9 bytes are not a whole number of 32-bit words' format --force letter.txt 8 4
check 'a text of nine bytes: it stands' [ "$(cat letter.txt)" = 'a letter' ]

# an empty index is no loss
emptied() { # WHAT FILE B N
    lays "$2"
    run 0 "$1" format form.card "$3" "$4"
    check "$1: it says so" has out echo "form.card: formatted, $4 places of $3 words"
    check "$1: its configuration" [ "$(configuration form.card)" = "1 $3 $4 0 0 0 0 0" ]
    check "$1: its other words" [ "$(words form.card 8)" = "$(words "$2" 8)" ]
    check "$1: no note is left" none_named form.card.
}
emptied 'a new card' new.card 8 4
emptied 'a new card, with other places' new.card 18 2
cp case1.card index.card
run 0 'all is removed' annul index.card 1 4294967295
emptied 'a card of which all was removed' index.card 8 4
forced 'a new card' new.card
echo 'a note that a cut left' >index.card.pass
emptied 'a card with a note that a cut left' index.card 8 4

# a link leads to the card
lays new.card
ln -s form.card form.link
run 0 'a link to a new card' format form.link 8 4
check 'a link to a new card: it is a link' [ -L form.link -a ! -L form.card ]
lays case1.card
run 1 'a link to a card with an index' format form.link 8 4
check 'a link to a card with an index: the card stands' cmp -s form.card case1.card
cp kept.pass form.card.pass
run 0 'a link to a card with an index, forced' format --force form.link 8 4
check 'a link to a card with an index, forced: the note beside the card goes' [ ! -e form.card.pass ]
check 'a link to a card with an index, forced: the card is empty' [ "$(pairs form.card)" = '' ]
rm form.card
for option in '' --force; do
    # shellcheck disable=SC2086
    faulty "a link to nowhere $option" 'form.link: a link to a file that is not there' format $option form.link 8 4
    check "a link to nowhere $option: nothing is made" [ ! -e form.card ]
done
rm form.link
echo text >form.card.pass
mkdir form.card.folder
rm -f form.card.pass && mkdir form.card.pass
cp new.card form.card
run 2 'a folder in the place of the note' format form.card 8 4
check 'a folder in the place of the note: it is told' grep -qx 'gamecard: form.card: its note cannot be removed: Is a directory' err
check 'a folder in the place of the note: the card stands' cmp -s form.card new.card
rm form.card
run 2 'a folder in the place of the note of a new card' format form.card 8 4
check 'a folder in the place of the note of a new card: no card is made' [ ! -e form.card ]

# cut at any call, a card that is there has its index or is empty, and is sound
cp case1.card index.card
KILL_WRITE=3 KILL_WHEN=synced run_cut 137 'a pass is cut short' apply index.card more.batch
fresh index.card
cp index.card.pass now/card.pass
rm -f log
WRITE_LOG=log run_now 0 'format what is there' format --force now/card 8 4
for call in $(seq "$(wc -l <log)"); do
    fresh index.card
    cp index.card.pass now/card.pass
    KILL_CALL=$call run_now 137 "format, cut before call $call" format --force now/card 8 4
    for choice in $(seq 0 9); do
        rm -f left/*
        cp index.card.pass left/card.pass
        MEDIUM=now/medium "$cut" power-cut "$choice" left >/dev/null || break
        check "format, cut before call $call, choice $choice: all or nothing" in_list "$(pairs left/card)" '' "$(pairs index.card)"
        check "format, cut before call $call, choice $choice: an empty card has no note" [ -n "$(pairs left/card)" -o ! -e left/card.pass ]
    done
    check "format, cut before call $call: all or nothing" in_list "$(pairs now/card)" '' "$(pairs index.card)"
    run 0 "format, cut before call $call: again" format --force now/card 8 4
    check "format, cut before call $call: again: it is empty" [ "$(pairs now/card)" = '' ]
done
rm index.card.pass

# ---- a new file

rm -rf form.card* form.log
WRITE_LOG=form.log run_cut 0 'a new card' format form.card 8 4
check 'a new card: it says so' has out echo 'form.card: created and formatted, 4 places of 8 words'
check 'a new card: it has its name when it is whole' [ "$(sed 's/new\.[0-9]*$/new.N/' form.log | tr '\n' ,)" = \
    'remove form.card.pass,remove form.card.new.N,put,file,name form.card,folder,' ]
check 'a new card: its words' cmp -s form.card new.card
check 'a new card: no other file is left' none_named form.card.
rm form.card
for limits in '7 4' '1025 4' '8 1' '8 1025' '0 0' '4294967295 4294967295'; do
    for option in '' --force; do
        # shellcheck disable=SC2086
        run 1 "a new card of $limits $option" format $option form.card $limits
        check "a new card of $limits $option: number 5" grep -q '^form.card: refused, number 5: B must be' err
        said_alone "a new card of $limits $option"
        check "a new card of $limits $option: no file is made" none_named form.card
    done
done
cp kept.pass form.card.pass
run 0 'a new card beside a note that an old one left' format form.card 8 4
check 'a new card beside a note that an old one left: it is gone' none_named form.card.
rm form.card
: >form.card.new.1 && echo x >form.card.new && echo y >form.card.pass.new
run 0 'beside files that a cut left' format form.card 8 4
check 'beside files that a cut left: the card' cmp -s form.card new.card
run 0 'beside files that a cut left: apply' apply form.card one.batch
rm form.card*

made_or_not() { # WHAT NAME FILE WORDS..: of a command that makes FILE of that name in the folder now, or nothing
    local what=$1 name=$2 file=$3 call half choice
    rm -rf now log && mkdir now
    WRITE_LOG=log MEDIUM=now/medium run_cut 0 "$what: uncut" "${@:4}"
    check "$what: uncut: the file" cmp -s "now/$name" "$file"
    for call in $(seq "$(wc -l <log)"); do
        for half in '' yes; do
            rm -rf now left && mkdir now left
            KILL_CALL=$call MEDIUM=now/medium expect 137 "$what, killed at call $call $half" env ${half:+KILL_HALF=yes} "$cut" "${@:4}"
            check "$what, killed at call $call $half: not there or whole" none_or_same "now/$name" "$file"
            for choice in $(seq 0 9); do
                rm -f left/*
                MEDIUM=now/medium "$cut" power-cut "$choice" left >/dev/null || break
                check "$what, killed at call $call $half, choice $choice: not there or whole" none_or_same "left/$name" "$file"
            done
            check "$what, killed at call $call $half: every choice" [ "$choice" -ge 1 ]
            if [ ! -e "now/$name" ]; then run 0 "$what, killed at call $call $half: again" "${@:4}"; fi
            check "$what, killed at call $call $half: it is whole" cmp -s "now/$name" "$file"
        done
    done
    for failure in 'FAIL_PUT=1 FAIL_WRITE_ERROR=28' ZERO_PUT=1 FAIL_SYNC=1 FAIL_SYNC=2; do
        rm -f now/*
        # shellcheck disable=SC2086
        expect 2 "$what, $failure" env $failure "$cut" "${@:4}"
        said_alone "$what, $failure"
        check "$what, $failure: no file is left" [ -z "$(find now -type f)" ]
    done
    # another run makes a file of this name meanwhile
    for way in '' NO_REPLACE=yes; do
        rm -f now/*
        # shellcheck disable=SC2086
        expect 2 "$what, another is faster $way" env $way OTHER_FILE="now/$name" "$cut" "${@:4}"
        check "$what, another is faster $way: the message" has err echo "gamecard: now/$name: File exists"
        check "$what, another is faster $way: nothing is shown" [ ! -s out ]
        check "$what, another is faster $way: its file stands" [ -e "now/$name" -a ! -s "now/$name" ]
        check "$what, another is faster $way: no other is left" [ "$(find now -type f)" = "now/$name" ]
    done
    rm -f now/*
    NO_REPLACE=yes run_cut 0 "$what, where a name may be replaced only" "${@:4}"
    check "$what, where a name may be replaced only: the file" cmp -s "now/$name" "$file"
}
made_or_not 'format' card new.card format now/card 8 4
run 0 'convert' convert streams.batch converted.batch
made_or_not 'convert' batch converted.batch convert streams.batch now/batch
rm -rf now left && mkdir now left
