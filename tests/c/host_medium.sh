# A part of host.sh: the power fails, runs are killed, syncs fail.
#
# A state is a folder: the card file and its note, which are what runs see and what a
# killed run leaves; the medium; and what is pending (power_cut.c).

# What a pass is given after the card, the file of a batch or the two ends of a range, is
# one word here, BATCH, and is split where it is run.
# shellcheck disable=SC2086
apply=(apply)           # the command that makes a pass, and goes on with it after a cut
resume=(apply --resume) # the one that goes on where the note is lost

mkdir now left
fresh() { # CARD: the state now: card and medium are the card, and nothing is pending
    rm -f now/*
    cp "$1" now/card
    cp "$1" now/medium
    : >now/medium.pending
}
keep() { rm -rf kept && cp -r now kept; }  # the state now is kept
again() { rm -rf now && cp -r kept now; }  # and is there again
run_now() { MEDIUM=now/medium run_cut "$@"; } # STATUS WHAT WORDS..: a run in the state now
kill_now() { # WRITE WHEN WHAT WORDS..: a run that is killed at the write
    KILL_WRITE=$1 KILL_WHEN=$2 run_now 137 "$3: killed" "${@:4}"
}
cut_short() { :; } # WHAT CARD BATCH: what else is tried on a card that a kill left
is_open() { [ "$(od -An -tu4 --endian=little -j 20 -N 4 "$1")" -ne 0 ]; } # CARD: whether its pass is open

# What a cut left is gone on with, in place: by the same command where the note is there,
# and by that with --resume alone where it is lost.
goes_on() { # WHAT CARD BATCH PAIRS
    cp "$2" lost.card
    run_cut 0 "$1: again" "${apply[@]}" "$2" $3
    check "$1: the pairs" [ "$(pairs "$2")" = "$4" ]
    check "$1: no note is left" [ ! -e "$2.pass" ]
    if ! is_open lost.card; then return; fi
    run_cut 1 "$1, no note: refused" "${apply[@]}" lost.card $3
    run_cut 0 "$1, no note: resumed" "${resume[@]}" lost.card $3
    check "$1, no note: the pairs" [ "$(pairs lost.card)" = "$4" ]
}

# The power fails in the state now, with every choice of what becomes of what is
# pending. What is left must be a sound card, and the batch, applied again, must
# leave its pairs. A state that was tried, or a card with its note, is not tried
# again. Two writes, more than ever are pending, have 36 choices, and a note that
# is removed is there or not.
power_fails() { # WHAT BATCH PAIRS
    local what=$1 batch=$2 expected=$3 choice bytes status
    bytes="state $(MEDIUM=now/medium "$cut" medium-state)"
    if [ -n "${tried[$bytes]-}" ]; then return; fi
    tried[$bytes]=yes
    for choice in {0..72}; do
        if [ -e left/card.pass ]; then rm left/card.pass; fi
        bytes=$(MEDIUM=now/medium "$cut" power-cut "$choice" left)
        status=$?
        if [ "$status" -ne 0 ]; then break; fi
        bytes="card $bytes"
        if [ -n "${tried[$bytes]-}" ]; then continue; fi
        tried[$bytes]=yes
        run_cut 0 "$what, choice $choice: sound" judge left/card
        goes_on "$what, choice $choice" left/card "$batch" "$expected"
    done
    check "$what: every choice" [ "$status" -eq 1 -a "$choice" -ge 1 ]
}

# Runs of a batch on a card are killed at each write, and again at each write of
# the next run, and the power fails after each kill; and they are killed before each
# call that makes or removes the note.
cuts() { # WHAT CARD BATCH PAIRS
    local what=$1 card=$2 batch=$3 expected=$4 writes write when again call
    local -A tried=()
    rm -f log && fresh "$card"
    WRITE_LOG=log run_now 0 "$what: uncut" "${apply[@]}" now/card $batch
    check "$what: its pairs" [ "$(pairs now/card)" = "$expected" ]
    check "$what: it is on the medium" cmp -s now/card now/medium
    check "$what: what it does before its first write" [ "$(sed '/^write/,$d' log | tr '\n' ,)" = "$(opened card)" ]
    check "$what: and at its end" [ "$(tail -n 1 log)" = 'remove card.pass' ]
    writes=$(grep -c write log)
    check "$what: its writes" [ "${writes:-0}" -gt 0 ]
    for write in $(seq "${writes:-0}"); do
        for when in before half after synced; do
            fresh "$card"
            kill_now "$write" "$when" "$what, write $write, $when" "${apply[@]}" now/card $batch
            check "$what, write $write, $when: the note is there" [ -s now/card.pass ]
            keep
            cut_short "$what, write $write, $when" now/card "$batch"
            power_fails "$what, write $write, $when" "$batch" "$expected"
            rm -f again.log
            WRITE_LOG=again.log run_now 0 "$what, write $write, $when: again" "${apply[@]}" now/card $batch
            check "$what, write $write, $when: the pairs" [ "$(pairs now/medium)" = "$expected" ]
            if [ "$when" != after ]; then continue; fi
            for again in $(seq "$(grep -c write again.log)"); do
                again
                kill_now "$again" after "$what, write $write, then $again" "${apply[@]}" now/card $batch
                power_fails "$what, write $write, then $again" "$batch" "$expected"
            done
        done
    done
    for call in $(sed -n -e '/^write/d' -e '/^sync/d' -e '/./=' log); do
        fresh "$card"
        KILL_CALL=$call run_now 137 "$what, call $call: killed" "${apply[@]}" now/card $batch
        power_fails "$what, call $call" "$batch" "$expected"
        run_now 0 "$what, call $call: again" "${apply[@]}" now/card $batch
        check "$what, call $call: the pairs" [ "$(pairs now/medium)" = "$expected" ]
    done

    # one write to a run
    for when in half after; do
        fresh "$card"
        for write in $(seq "${writes:-0}"); do
            kill_now 1 "$when" "$what, again and again, $when" "${apply[@]}" now/card $batch
            power_fails "$what, again and again, $when" "$batch" "$expected"
        done
        run_now 0 "$what, again and again, $when: in the end" "${apply[@]}" now/card $batch
        check "$what, again and again, $when: the pairs" [ "$(pairs now/medium)" = "$expected" ]
    done
    failing_syncs "$@"
}

says_lost() { # WHAT: the last run has said what a failed sync means, and no more
    check "$1: the message" grep -q ': Input/output error: .* may not be on the medium, .*; do not trust the file before' err
    check "$1: nothing else is shown" [ ! -s out ]
}
says_not_made() { # WHAT FILE: the last run has said that it could not make the file, and no more
    check "$1: the message" grep -qx "gamecard: .*$2: Input/output error" err
    check "$1: nothing else is shown" [ ! -s out ]
}

# Each sync of the run fails, with no kill before it and with one.
failing_syncs() { # WHAT CARD BATCH PAIRS
    local what=$1 card=$2 batch=$3 expected=$4 sync write name
    for sync in $(seq "$(grep -c -e sync -e file -e folder log)"); do
        rm -f failed.log && fresh "$card"
        WRITE_LOG=failed.log FAIL_SYNC=$sync run_now 2 "$what, sync $sync fails" "${apply[@]}" now/card $batch
        name=$(grep -e sync -e file -e folder log | sed -n "${sync}p")
        case $name in
        file)
            says_not_made "$what, sync $sync fails" card.pass
            check "$what, sync $sync fails: no note is left" [ -z "$(ls now/card.*)" ]
            ;;
        *) says_lost "$what, sync $sync fails" ;;
        esac
        check "$what, sync $sync fails: no more is done" [ "$(cat failed.log)" = "$(awk -v n="$sync" '
            { if (/^(sync|file|folder)$/ && ++i == n) { print $0, "fails"; if ($0 == "file") print "remove card.pass.new"; exit } print }' log)" ]
        power_fails "$what, sync $sync fails" "$batch" "$expected"
    done 2>/dev/null # where ls finds nothing
    for write in $(seq "$(grep -c write log)"); do
        rm -f failed.log && fresh "$card"
        kill_now "$write" after "$what, write $write, the next sync fails" "${apply[@]}" now/card $batch
        WRITE_LOG=failed.log FAIL_SYNC=1 run_now 2 "$what, write $write, the next sync fails" "${apply[@]}" now/card $batch
        says_lost "$what, write $write, the next sync fails"
        check "$what, write $write, the next sync fails: no write" [ "$(cat failed.log)" = 'sync fails' ]
        power_fails "$what, write $write, the next sync fails" "$batch" "$expected"
    done
}

run 0 'format a card for the cuts' format grow.card 8 6
head -c 192 /dev/zero | tr '\0' '\125' | dd of=grow.card bs=4 seek=20 conv=notrunc status=none # words of another life
cp grow.card another.card
batch grow.batch 1 5 2 2 1 5 9 9 1 7 4 4 1 8 1 1 1 8 2 2 1 8 3 3
cuts 'growth' grow.card grow.batch $'5 2\n5 9\n7 4\n8 1\n8 2\n8 3'
run 0 'grow' apply grow.card grow.batch
lookup '1 2 3 ' '3 positions, 1 block read' 'look up what was added' grow.card 8
batch change.batch 1 1 1 1 2 5 1 5 1 7 9 9 2 8 2 2 1 8 9 9 2 9 1 7
cuts 'change around the circle' grow.card change.batch $'1 1\n5 9\n7 4\n7 9\n8 1\n8 3\n8 9'
run 0 'change' apply grow.card change.batch
batch shrink.batch 2 5 1 99 2 7 1 99 2 8 1 8
cuts 'shrinking' grow.card shrink.batch $'1 1\n8 9'
batch end.batch 2 1 1 1 2 5 1 99 2 7 1 99 2 8 1 99
cuts 'removal of everything' grow.card end.batch ''
run 0 'format a card of four places' format four.card 8 4
run 0 'fill it' apply four.card grow.batch
batch tight.batch 1 1 1 1 1 2 1 1 2 7 1 99 2 8 2 3 # no old place is freed before the end; the next pass starts there
cuts 'no place to spare' four.card tight.batch $'1 1\n2 1\n5 2\n5 9\n8 1'

# What a command shows is on the medium, also where the last run was killed.
shown() { # COMMAND WORDS..
    fresh another.card
    kill_now 6 after "$1 after a kill" apply now/card grow.batch
    run_now 0 "$1 after a kill" "$1" now/card "${@:2}"
    check "$1 after a kill: it is on the medium" cmp -s now/card now/medium
    FAIL_SYNC=1 run_now 2 "$1, the sync fails" "$1" now/card "${@:2}"
    says_lost "$1, the sync fails"
    FAIL_SYNC=1 FAIL_ERROR=22 run_now 0 "$1 where there are no syncs" "$1" now/card "${@:2}"
}
shown judge
shown show
shown lookup 8
shown page 8
FAIL_SYNC=1 FAIL_ERROR=22 run_now 2 'apply where there are no syncs' apply now/card grow.batch
FAIL_SYNC=2 FAIL_ERROR=22 run_now 0 'apply where folders have no syncs' apply now/card grow.batch

# the formatter: the card and its name, the note that goes, and the configuration words
for sync in 1 2 3 4; do
    fresh another.card
    rm -f log
    WRITE_LOG=log FAIL_SYNC=$sync run_now 2 "format, sync $sync fails" format now/card 8 6
    says_lost "format, sync $sync fails"
    check "format, sync $sync fails: no more is done" [ "$(tail -n 1 log | cut -d' ' -f2)" = fails ]
done
check 'its syncs are four' [ "$(logged log)" = 'sync,folder,remove card.pass,folder,write 0 32,sync fails,' ]
for sync in 1 2; do
    rm -f lost.card
    FAIL_SYNC=$sync run_cut 2 "format a new card, sync $sync fails" format lost.card 8 6
    check "format a new card, sync $sync fails: no file is left" [ -z "$(ls lost.card*)" ]
    check "format a new card, sync $sync fails: nothing is shown" [ ! -s out ]
done 2>/dev/null
rm -f log
WRITE_LOG=log run_cut 0 'format a new card' format named.card 8 6
calls=$(wc -l <log)
rm named.card
KILL_CALL=$calls run_cut 137 'format a new card, killed before its name is on the medium' format named.card 8 6
check 'its name is there' [ -e named.card ]
rm -f log
WRITE_LOG=log run_cut 0 'apply to it' apply named.card one.batch
check 'its name is on the medium before the first write' [ "$(sed '/^write/q' log | tr '\n' ,)" = "$(opened named.card)write 80 32," ]

# a write that writes nothing is an error
for write in 1 2 3; do
    cp another.card zero.card
    ZERO_WRITE=$write run_cut 2 "write $write gives 0" apply zero.card one.batch
    check "write $write gives 0: the message" grep -q 'zero.card: Input/output error' err
    run 0 "write $write gives 0: sound" judge zero.card
done
