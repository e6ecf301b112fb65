# A part of host.sh: runs that meet on a card.

# A run of the test build is held up before one of its calls; hold waits until it is there.
hold() { # CALL WORDS..: the run's number is held
    rm -f held.out held.err pause
    PAUSE_CALL=$1 PAUSE_FILE=pause "$cut" "${@:2}" >held.out 2>held.err </dev/null &
    held=$!
    for _ in $(seq 1000); do
        if [ -e pause ]; then break; fi
        sleep 0.01
    done
    check "${*:2}: it is held up before call $1" [ -e pause ]
}
let_go() { # STATUS WHAT: the run that is held up goes on, and ends with the status
    local status
    rm -f pause
    wait "$held"
    status=$?
    check "$2: exit status $status, expected $1" [ "$status" -eq "$1" ]
}
in_use() { # WHAT COMMAND WORDS..: it is turned away, in words
    faulty "$1" "$card: in use by another run; run the same command again later, or with --wait SECONDS to wait longer" "${@:2}"
}

# ---- a run that writes: it has the words for its write, and others get in before and after

cp case1.card busy.card
card=busy.card
hold 8 apply busy.card more.batch # the first write
check 'it writes' [ -e busy.card.pass ]
for wait in 0 1; do
    began=${EPOCHREALTIME/./}
    in_use "judge, --wait $wait" judge --wait $wait busy.card
    took=$(((${EPOCHREALTIME/./} - began) / 1000))
    check "--wait $wait takes $took ms, so many seconds and less than two more" [ "$took" -ge $((wait * 1000)) -a "$took" -lt $((wait * 1000 + 2000)) ]
done
in_use 'show' show --wait 0 busy.card
in_use 'look up' lookup --wait 0 busy.card 5
in_use 'a page' page --wait 0 busy.card 5
in_use 'fits' fits --wait 0 busy.card one.batch
in_use 'fits, as text' fits --text --wait 0 busy.card /dev/null
in_use 'apply' apply --wait 0 busy.card one.batch
in_use 'apply, --wait first' apply --wait 0 --text --anyway --resume busy.card /dev/null
in_use 'annul' annul --wait 0 busy.card 4 9
in_use 'format' format --wait 0 --force busy.card 8 4
(
    sleep 0.3
    rm pause
) &
run 0 'judge waits, where nothing else is said' judge busy.card
let_go 0 'the run that was held up'
check 'its pairs' [ "$(pairs busy.card)" = $'5 2\n5 9\n7 4\n8 1' ]
check 'the others changed nothing' [ "$(configuration busy.card)" = '1 8 4 1 2 0 0 0' ]

# between two writes: readers get in, writers do not
between() { # CALL PAIRS
    cp case1.card busy.card
    hold "$1" apply busy.card more.batch
    run 0 "before call $1: judge" judge --wait 0 busy.card
    run 0 "before call $1: show" show --wait 0 busy.card
    run 0 "before call $1: look up" lookup --wait 0 busy.card 5
    check "before call $1: the answer" [ "$(tr '\n' ' ' <out)" = '2 9 ' ]
    run 0 "before call $1: a page" page --wait 0 busy.card 5
    run 0 "before call $1: fits" fits --wait 0 busy.card none.batch
    in_use "before call $1: apply" apply --wait 0 busy.card more.batch
    in_use "before call $1: an empty batch" apply --wait 0 busy.card none.batch
    in_use "before call $1: annul" annul --wait 0 busy.card 4 9
    in_use "before call $1: format" format --wait 0 --force busy.card 8 4
    let_go 0 "before call $1: the run that was held up"
    check "before call $1: its pairs" [ "$(pairs busy.card)" = $'5 2\n5 9\n7 4\n8 1' ]
}
for call in 3 4 5 6 7 20; do between $call; done # the note's calls, and its removal

# ---- a run that reads: others may read beside it, and none may write

for words in 'judge busy.card' 'show busy.card' 'lookup busy.card 5' 'page busy.card 5' 'fits busy.card one.batch'; do
    cp case1.card busy.card
    # shellcheck disable=SC2086
    hold 1 $words # the sync, before the words are read
    run 0 "beside $words: judge" judge --wait 0 busy.card
    run 0 "beside $words: show" show --wait 0 busy.card
    run 0 "beside $words: look up" lookup --wait 0 busy.card 5
    run 0 "beside $words: a page" page --wait 0 busy.card 5
    run 0 "beside $words: fits" fits --wait 0 busy.card one.batch
    in_use "beside $words: apply" apply --wait 0 busy.card one.batch
    in_use "beside $words: annul" annul --wait 0 busy.card 4 9
    in_use "beside $words: format" format --wait 0 --force busy.card 8 4
    check "beside $words: no note" [ ! -e busy.card.pass ]
    let_go 0 "$words"
    check "beside $words: the card stands" cmp -s busy.card case1.card
done

# ---- while a batch is read from standard input nobody has the card

mkfifo wait.batch
for words in 'apply busy.card -' 'apply --text busy.card -' 'fits busy.card -' 'fits --text busy.card -'; do
    cp case1.card busy.card
    # shellcheck disable=SC2086
    "$program" $words <wait.batch >held.out 2>held.err &
    held=$!
    exec 3>wait.batch # its standard input, open for as long as this is
    sleep 0.05
    run 0 "$words reads: judge" judge --wait 0 busy.card
    run 0 "$words reads: look up" lookup --wait 0 busy.card 5
    run 0 "$words reads: fits" fits --wait 0 busy.card more.batch
    run 0 "$words reads: apply" apply --wait 0 busy.card more.batch
    exec 3>&-
    let_go 0 "$words, which waited"
    check "$words, which waited: the pairs" [ "$(pairs busy.card)" = $'5 2\n5 9\n7 4\n8 1' ]
done
