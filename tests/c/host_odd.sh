# A part of host.sh: files that are no card, writes that fail, wrong words, and what goes to which stream.

# ---- what is no file of words: a fault at once, and nothing is waited for

mkfifo pipe.card
mkdir -p folder.card
ln -sf nowhere.card dangling.card
odd_card() { # FILE REASON-TO-READ REASON-TO-WRITE
    local words reason
    for words in "judge $1" "show $1" "lookup $1 5" "page $1 5" "fits $1 one.batch" "fits --text $1 three.text" \
        "apply $1 one.batch" "apply --text $1 three.text" "apply --resume --anyway $1 one.batch" "annul $1 4 9" \
        "format $1 8 4" "format --force $1 8 4"; do
        case $words in apply* | annul* | format*) reason=$3 ;; *) reason=$2 ;; esac
        # shellcheck disable=SC2086
        expect 2 "$words" timeout 5 "$program" $words </dev/null
        check "$words: the message" has err echo "gamecard: $1: $reason"
        check "$words: nothing is shown" [ ! -s out ]
    done
}
odd_card pipe.card 'not a regular file' 'not a regular file'
odd_card /dev/zero 'not a regular file' 'not a regular file'
odd_card /dev/null 'not a regular file' 'not a regular file'
odd_card /dev/full 'not a regular file' 'not a regular file'
odd_card folder.card 'not a regular file' 'Is a directory'
odd_card dangling.card 'a link to a file that is not there' 'a link to a file that is not there'
check 'nothing is made where the link leads' [ ! -e nowhere.card ]
ln -sf pipe.card link.pipe
odd_card link.pipe 'not a regular file' 'not a regular file'
ln -sf loop.card loop.card
odd_card loop.card 'Too many levels of symbolic links' 'Too many levels of symbolic links'
odd_card none.d/none.card 'No such file or directory' 'No such file or directory'
odd_card one.batch/card 'Not a directory' 'Not a directory'
for words in 'judge /dev/tty' 'apply /dev/tty one.batch' 'format --force /dev/tty 8 4'; do # with no terminal, or with one
    # shellcheck disable=SC2086
    expect 2 "$words" timeout 5 "$program" $words </dev/null
    check "$words: the message" grep -q '^gamecard: /dev/tty: ' err
    expect 2 "$words, with a terminal" timeout 5 script -qec "'$program' $words" /dev/null </dev/null
    check "$words, with a terminal: the message" grep -q '^gamecard: /dev/tty: not a regular file' out
done
check 'no note is made' [ -z "$(find . -name '*.pass*' -newer pipe.card)" ]

# a batch that is a device or a pipe is read
cp case1.card odd.file
expect 0 'a batch from a device' timeout 5 "$program" apply odd.file /dev/null
expect 1 'a batch without an end' timeout 5 "$program" apply odd.file /dev/zero
check 'a batch without an end: number 6' grep -q '^/dev/zero: more than 4096 records: refused, number 6: ' err
expect 1 'a text without an end' timeout 5 "$program" apply --text odd.file /dev/zero
check 'a text without an end: number 12' grep -q '^/dev/zero: line 1: refused, number 12: ' err
"$to_words" 1 8 1 1 1 >pipe.card &
expect 0 'a batch from a pipe' timeout 5 "$program" apply odd.file pipe.card
wait $!
check 'a batch from a pipe: the pairs' [ "$(pairs odd.file)" = $'5 2\n5 9\n7 4\n8 1' ]

# ---- show of what is no card shows no configuration

no_configuration() { # WHAT FILE NUMBER
    run 1 "$1" show "$2"
    check "$1: the verdict alone" has out "$program" judge "$2"
    check "$1: its number" grep -q "^$2: $3, " out
    check "$1: no message" [ ! -s err ]
}
configuration_of() { # WHAT FILE NUMBER: a card that is not sound: its configuration, and no place
    run 1 "$1" show "$2"
    check "$1: its number" grep -q "^$2: $3, " out
    check "$1: its configuration" [ "$(sed -n 's/^  .* \([0-9]*\)$/\1/p' out | tr '\n' ' ')" = "$(configuration "$2") " ]
    check "$1: no live place" [ "$(grep -c 'live places' out)" -eq 0 ]
}
no_configuration 'show an empty file' empty.card 1
yes 'a letter to the captain' | head -c 192 >letter.file
no_configuration 'show a text' letter.file 2
no_configuration 'show a batch' one.batch 3
head -c 192 /dev/zero >zeros.file
no_configuration 'show zeros' zeros.file 2
head -c 20 new.card >words.file
no_configuration 'show five words of a card' words.file 1
head -c 188 new.card >words.file
no_configuration 'show a card less a word' words.file 1
{ cat new.card && head -c 4 new.card; } >words.file
no_configuration 'show a card and a word' words.file 1
cp new.card words.file
set_word words.file 0 2
no_configuration 'show a card of another format' words.file 2
no_configuration 'show a file longer than any card' longer.card 1
configuration_of 'show a damaged card' live.card 4
cp new.card words.file
set_word words.file 4 200
configuration_of 'show a card with a length too great' words.file 3
run 0 'show a sound card' show case1.card
check 'show a sound card: its configuration' [ "$(sed -n '/^configuration/,/^$/s/^  .* \([0-9]*\)$/\1/p' out | tr '\n' ' ')" = "$(configuration case1.card) " ]

# ---- records that are refused are named: the first of them, from 1, with its words

meaning_6='a batch is at most 4,096 records of five words; kind 1, 2 or 3, term, from, to, arrival; term 0 goes with kind 3 alone; from and to are at least 1, and alike in an addition'
meaning_7='the records of a batch are in order of term, then from'
meaning_14='arrival numbers are at least 1, and no two records of a batch have the same'
named() { # NUMBER PART WHAT: of odd.batch, by apply and fits, from a file and from standard input; the card stands
    local meaning=meaning_$1 command
    cp case1.card odd.file
    for command in apply fits 'apply --resume' 'apply --anyway'; do
        # shellcheck disable=SC2086
        run 1 "$command, $3" $command odd.file odd.batch
        check "$command, $3: the message" has err echo "odd.batch: $2: refused, number $1: ${!meaning}"
        check "$command, $3: nothing is shown" [ ! -s out ]
        # shellcheck disable=SC2086
        run 1 "$command, $3, from standard input" $command odd.file - <odd.batch
        check "$command, $3, from standard input: the message" has err echo "standard input: $2: refused, number $1: ${!meaning}"
        check "$command, $3: the card stands" cmp -s odd.file case1.card
        check "$command, $3: no note" none_named odd.file.
    done
}
arrived odd.batch 4 5 2 2 1 1 6 2 2 2 1 7 2 2 3
named 6 'record 1 (4 5 2 2 1)' '6 in the first'
arrived odd.batch 1 5 2 2 1 1 6 2 3 2 1 7 2 2 3
named 6 'record 2 (1 6 2 3 2)' '6 in the middle'
arrived odd.batch 1 5 2 2 1 1 6 2 2 2 2 0 2 2 3
named 6 'record 3 (2 0 2 2 3)' '6 in the last'
arrived odd.batch 1 5 2 2 1 3 6 2 2 2 2 7 0 2 3 1 8 0 0 4 0 0 0 0 0
named 6 'record 2 (3 6 2 2 2)' '6 in several'
arrived odd.batch 4294967295 4294967295 4294967295 4294967295 4294967295
named 6 'record 1 (4294967295 4294967295 4294967295 4294967295 4294967295)' '6 with the highest words'
arrived odd.batch 1 7 2 2 1 1 6 2 2 2 1 8 2 2 3
named 7 'record 2 (1 6 2 2 2)' '7 in the second'
arrived odd.batch 1 5 2 2 1 1 6 9 9 2 1 6 8 8 3
named 7 'record 3 (1 6 8 8 3)' '7 in the last'
arrived odd.batch 1 5 9 9 1 1 5 8 8 2 1 4 9 9 3 1 3 1 1 4
named 7 'record 2 (1 5 8 8 2)' '7 in several'
arrived odd.batch 1 5 2 2 0 1 6 2 2 1 1 7 2 2 2
named 14 'record 1 (1 5 2 2 0)' '14 in the first'
arrived odd.batch 1 5 2 2 1 1 6 2 2 1 1 7 2 2 2
named 14 'record 2 (1 6 2 2 1)' '14 in the middle'
arrived odd.batch 1 5 2 2 1 1 6 2 2 2 1 7 2 2 1
named 14 'record 3 (1 7 2 2 1)' '14 in the last'
seq 4096 | awk '{ print 1, 8, $1, $1, $1 }' >good.lines
for record in 1 2 2047 2048 2049 4095 4096; do
    sed "${record}s/1 8 \([0-9]*\) .*/1 8 \1 9999 $record/" good.lines | as_words >odd.batch
    named 6 "record $record (1 8 $record 9999 $record)" "6 in record $record of 4,096"
done
sed '4096s/.*/1 7 4096 4096 4096/' good.lines | as_words >odd.batch
named 7 'record 4096 (1 7 4096 4096 4096)' '7 in record 4,096'
sed '4096s/.*/1 8 4096 4096 3000/' good.lines | as_words >odd.batch
named 14 'record 4096 (1 8 4096 4096 3000)' '14 in record 4,096'
as_words <good.lines >good.batch
for count in 1 4 6 9 11 20479; do
    head -c $((4 * count)) good.batch >odd.batch
    named 6 "$count words" "$count words"
done
{ cat good.batch && "$to_words" 1; } >odd.batch
named 6 '20481 words' 'a word over 4,096 records'
{ cat good.batch && "$to_words" 1 9 1 1 9999; } >odd.batch
named 6 'more than 4096 records' '4,097 records'
head -c 1000000 /dev/zero >odd.batch
named 6 'more than 4096 records' '50,000 records'

# ---- data on standard output, and nothing else

run 0 'format a card for the streams' format many.card 64 12
run 0 'add to it' apply many.card long.batch
check 'a lookup counts its positions' [ "$("$program" lookup many.card 5 2>/dev/null | wc -l)" -eq 320 ]
check 'a lookup of none counts none' [ "$("$program" lookup many.card 6 2>/dev/null | wc -l)" -eq 0 ]
check 'its summary is on standard error' [ "$("$program" lookup many.card 5 2>&1 >/dev/null)" = 'many.card: term 5 from 1 to 4294967295: 320 positions, 6 blocks read' ]
nothing_shown() { # STATUS WORDS..: refused or at fault, with nothing on standard output
    run "$1" "${*:2}" "${@:2}"
    said_alone "${*:2}"
}
for refused in live.card empty.card longer.card letter.file; do
    nothing_shown 1 lookup $refused 5
    nothing_shown 1 page $refused 5
    nothing_shown 1 apply $refused one.batch
    nothing_shown 1 apply --text $refused three.text
    nothing_shown 1 fits $refused one.batch
    nothing_shown 1 annul $refused 4 9
    nothing_shown 1 format $refused 8 6
done
nothing_shown 1 lookup case1.card 0
nothing_shown 1 page case1.card 5 9 8
nothing_shown 1 annul case1.card 0 0
nothing_shown 1 apply case1.card order.batch
nothing_shown 1 fits case1.card order.batch
nothing_shown 1 apply --text case1.card returns.text
nothing_shown 1 convert part.batch new.file
nothing_shown 1 format case1.card 8 4

# ---- wrong words are named

for command in format apply fits annul convert lookup page terms dump show judge; do
    case $command in
    format) few=(CARD B N) ;;
    apply | fits) few=(CARD BATCH) ;;
    annul) few=(CARD FROM TO) ;;
    convert) few=(OLD NEW) ;;
    lookup | page) few=(CARD TERM) ;;
    *) few=(CARD) ;;
    esac
    given=()
    for name in "${few[@]}"; do
        misused "$command, ${#given[@]} words" "a word is missing: $name" $command "${given[@]}"
        misused "$command, -- and ${#given[@]} words" "a word is missing: $name" $command -- "${given[@]}"
        given+=(5)
    done
    misused "$command, an option that there is not" 'it has no option --frob' $command --frob "${given[@]}"
    misused "$command, a value for an option that has none" 'it has no option --quiet=5' $command --quiet=5 "${given[@]}"
    misused "$command, an option cut short" 'it has no option --w' $command --w "${given[@]}"
    misused "$command, three dashes" 'it has no option ---' $command --- "${given[@]}"
    misused "$command, the same behind" 'it has no option --frob' $command "${given[@]}" --frob
    case $command in
    lookup | page) faulty "$command, a term that is none" "TERM: 'more' $no_word" $command 5 5 5 5 more ;;
    *) misused "$command, a word too many" 'a word too many: more' $command "${given[@]}" more ;;
    esac
    if [ $command = convert ]; then continue; fi
    misused "$command, --wait alone" 'a word is missing: SECONDS' $command --wait
    misused "$command, --wait behind" 'a word is missing: SECONDS' $command "${given[@]}" --wait
    for seconds in '' x 1.5 -1 1s 4294967296 99999999999999999999999 ' 1'; do
        faulty "$command, --wait '$seconds'" "SECONDS: '$seconds' $no_word" $command --wait "$seconds" "${given[@]}"
        faulty "$command, --wait='$seconds'" "SECONDS: '$seconds' $no_word" $command "${given[@]}" "--wait=$seconds"
    done
    faulty "$command, --wait before an option" "SECONDS: '--wait' $no_word" $command --wait --wait 5 "${given[@]}"
done
for seconds in 0 1 007 10 4294967295; do
    run 0 "--wait $seconds" judge --wait "$seconds" case1.card
done
run 0 'an option twice' judge --wait 0 --wait 5 case1.card
cp case1.card odd.file
run 0 'options in any order' apply --anyway --wait 5 --text --resume odd.file more.text
cp case1.card odd.file
run 0 'and in another' apply --text --resume --wait 5 --anyway odd.file more.text
run 0 'options ended' apply --text -- odd.file more.text
cp case1.card ./-w
run 0 'one dash is no option' judge -w
run 0 'nor is one dash alone among them' lookup -w 5
for wrong in frobnicate --text -- '' Apply 'apply ' help2; do
    faulty "no command '$wrong'" "$wrong: there is no such command; gamecard help shows all" "$wrong" case1.card one.batch
done
faulty 'help on no command' 'frobnicate: there is no such command; gamecard help shows all' help frobnicate

# ---- writes that fail: what is there is a card, and the same command goes on

goes='the card is as a power cut would leave it, and no game is lost; when the cause is gone, run the same command again, and it goes on'
writes=$(cp games.card odd.file && rm -f log && WRITE_LOG=log "$cut" apply odd.file mine.batch >/dev/null && grep -c '^write' log)
check 'writes to fail' [ "$writes" -gt 6 ]
write_fails() { # WRITE WHAT REASON ASSIGNMENTS
    rm -f odd.file.pass
    cp games.card odd.file
    # shellcheck disable=SC2086
    expect 2 "$2" env $4 "$cut" apply odd.file mine.batch
    check "$2: the message" has err echo "gamecard: odd.file: $3; $goes"
    check "$2: nothing is shown" [ ! -s out ]
    run 0 "$2: the card is sound" judge odd.file
    check "$2: the note is there" [ -s odd.file.pass ]
    if is_open odd.file; then
        run 1 "$2: another" apply odd.file other.batch
        check "$2: another: a pass is open" grep -q '^odd.file: refused, a pass is open: ' err
    fi
    run 0 "$2: the same command" apply odd.file mine.batch
    check "$2: it goes on" [ "$(pairs odd.file)" = "$with_mine" ]
    check "$2: no note is left" none_named odd.file.
}
for write in $(seq "$writes"); do
    write_fails "$write" "no space at write $write" 'No space left on device' "FAIL_WRITE=$write FAIL_WRITE_ERROR=28"
    write_fails "$write" "write $write fails" 'Input/output error' "FAIL_WRITE=$write"
    write_fails "$write" "write $write gives 0" 'Input/output error' "ZERO_WRITE=$write"
    # half is written, and then there is no more space
    if [ "$(grep '^write' log | sed -n "${write}p" | cut -d' ' -f2)" = 0 ]; then continue; fi # the configuration is written whole
    write_fails "$write" "no space behind half of write $write" 'No space left on device' \
        "SHORT_WRITE=$write FAIL_WRITE=$((write + 1)) FAIL_WRITE_ERROR=28"
done
for write in $(seq "$writes"); do # half is written, and then the rest
    cp games.card odd.file
    rm -f short.log
    SHORT_WRITE=$write WRITE_LOG=short.log run_cut 0 "write $write in halves" apply odd.file mine.batch
    check "write $write in halves: a write more" [ "$(grep -c '^write' short.log)" -eq $((writes + 1)) ]
    check "write $write in halves: the pairs" [ "$(pairs odd.file)" = "$with_mine" ]
done
for error in 28 5; do
    rm -f odd.file.pass
    cp games.card odd.file
    FAIL_WRITE=4 FAIL_WRITE_ERROR=$error expect 2 "annul, error $error" "$cut" annul odd.file 5 8
    check "annul, error $error: it says that it goes on" grep -q "; $goes\$" err
    run 0 "annul, error $error: the same command" annul odd.file 5 8
    check "annul, error $error: it goes on" [ "$(pairs odd.file)" = "$(pairs games.card | grep -v ' [5-8]$')" ]
done
cp new.card odd.file
for failure in 'FAIL_WRITE=1 FAIL_WRITE_ERROR=28' ZERO_WRITE=1; do
    # shellcheck disable=SC2086
    expect 2 "format, $failure" env $failure "$cut" format odd.file 8 4
    check "format, $failure: the message" grep -q '^gamecard: odd.file: ' err
    check "format, $failure: the card stands" cmp -s odd.file new.card
    run 0 "format, $failure: again" format odd.file 8 4
done
