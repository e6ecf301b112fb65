#!/usr/bin/env bash
# Tests the host program on card files in a temporary folder: host.sh PROGRAM CUT
# CUT is its test build with a medium apart from the card file (power_cut.c).
# Prints each failing check and, as its last line, 'N passed, M failed'.
set -u
export LC_ALL=C
program=$(readlink -f -- "${1:?usage: host.sh PROGRAM CUT}")
cut=$(readlink -f -- "${2:?usage: host.sh PROGRAM CUT}")
here=$(dirname -- "$(readlink -f -- "$0")")
to_words=$here/words.sh
room=$(mktemp -d) || exit 1
trap 'rm -rf "$room"' EXIT
cd "$room" || exit 1

passed=0 failed=0
check() { # WHAT COMMAND..: the command must succeed
    local what=$1
    shift
    if "$@"; then passed=$((passed + 1)); else
        failed=$((failed + 1))
        echo "FAILED: $what"
    fi
}

expect() { # STATUS WHAT COMMAND..: the command must exit with the status
    local expected=$1 what=$2
    shift 2
    { "$@" >out 2>err; } 2>/dev/null
    local status=$?
    check "$what: exit status $status, expected $expected" [ "$status" -eq "$expected" ]
}
run() { expect "$1" "$2" "$program" "${@:3}"; } # STATUS WHAT WORDS..: the program with the words
run_cut() { expect "$1" "$2" "$cut" "${@:3}"; } # the same with its test build
said_alone() { # WHAT: what the last run had to say is on standard error, and nothing is on standard output
    check "$1: on standard error alone" [ -s err -a ! -s out ]
}
# What a command writes is compared by pipes: bash can take the exit status of a process substitution that is long gone for
# that of a command which has got its number.
has() { "${@:2}" | cmp -s "$1" -; }            # FILE COMMAND..: the file has what the command writes
begins() { head -n 1 "$1" | grep -q "$2"; }    # FILE PATTERN: its first line has the pattern
none_or_same() { [ ! -e "$1" ] || cmp -s "$1" "$2"; }                       # FILE FILE
same_or_none() { if [ -e "$1" ]; then cmp -s "$1" "$2"; else [ ! -e "$2" ]; fi; } # FILE FILE
none_named() { [ -z "$(find . -maxdepth 1 -name "$1*")" ]; }                 # NAME: no file has a name that begins so
# calls of a log, as power_cut.c has them, joined by commas
logged() { tr '\n' ',' <"$1"; }
# what a run logs before its first write to a card: the card and its name are synced, then the note is, under its name
opened() { echo "sync,folder,$(noted "$1")"; }                                       # CARD
noted() { echo "remove $1.pass.new,put,file,name $1.pass,folder,"; }                   # CARD: the note's part of it

# the words of a file, decimal, from word FIRST on
words() { od -An -v -tu4 --endian=little -w4 -j $(($2 * 4)) "$1" | tr -s ' \n' ' '; }
# overwrites word AT of a file with a number below 256
set_word() { printf "\\x$(printf %02x "$3")\\0\\0\\0" | dd of="$1" bs=4 seek="$2" conv=notrunc status=none; }

# a new card
run 0 'format a new card' format new.card 8 4
check 'a new card has 48 words' [ "$(stat -c %s new.card)" -eq 192 ]
check 'its words' [ "$(words new.card 0)" = " 1 8 4 0 0 0 0 0 $(yes 0 | head -n 40 | tr '\n' ' ')" ]
run 0 'judge it' judge new.card
check 'the judge names the number' grep -q '0, sound' out
run 0 'show it' show new.card
check 'show names no live place' grep -q 'live places: none' out
run 0 'format the largest card' format large.card 1024 1024
check 'the largest card has 1,050,632 words' [ "$(stat -c %s large.card)" -eq 4202528 ]
run 0 'judge the largest card' judge large.card

# a card that is there: only the configuration words are written
head -c 192 /dev/zero | tr '\0' '\125' >used.card
words used.card 8 >kept
run 1 'format a used card' format used.card 8 4
said_alone 'format a used card'
check 'it stands' [ "$(words used.card 8)" = "$(cat kept)" -a "$(words used.card 0 | cut -d' ' -f2)" = 1431655765 ]
run 0 'format it all the same' format --force used.card 8 4
check 'its configuration words' [ "$(words used.card 0 | cut -d' ' -f2-9)" = '1 8 4 0 0 0 0 0' ]
check 'its other words stand' [ "$(words used.card 8)" = "$(cat kept)" ]
check 'it is as long as before' [ "$(stat -c %s used.card)" -eq 192 ]

# a card with one live block, then damaged
cp new.card live.card
at=16 # the first word of place 0
for word in 5 2 2 9 7 1 4 0; do
    set_word live.card $at "$word"
    at=$((at + 1))
done
set_word live.card 8 5
set_word live.card 9 2
set_word live.card 4 1
run 0 'judge a live card' judge live.card
run 0 'show a live card' show live.card
check 'show names its live place' grep -Eq '^ +0 +old +5 +2$' out
set_word live.card 9 3
run 1 'judge a damaged card' judge live.card
check 'the judge names number 4' grep -q ': 4, ' out
check 'its verdict is on standard output alone' [ -s out -a ! -s err ]
run 1 'show a damaged card' show live.card
check 'show names number 4' grep -q ': 4, ' out

# refusals change nothing
cp live.card before.card
run 1 'format with another N' format live.card 8 5
check 'it names number 1' grep -q 'number 1:' err
said_alone 'format with another N'
run 1 'format with B too small' format live.card 7 4
check 'it names number 5' grep -q 'number 5:' err
said_alone 'format with B too small'
check 'the card stands' cmp -s live.card before.card
run 1 'format a new card with N too large' format none.card 8 1025
check 'no file is made' [ ! -e none.card ]
: >empty.card
run 1 'judge an empty file' judge empty.card
check 'it names number 1' grep -q ': 1, ' out
run 1 'format an empty file' format empty.card 8 4
check 'it names number 1' grep -q 'number 1:' err
check 'the empty file stands' [ ! -s empty.card ]
cp large.card longer.card
head -c 8 /dev/zero >>longer.card
run 1 'judge a file longer than any card' judge longer.card
check 'it names number 1' grep -q ': 1, ' out

# ---- apply

# numbers on standard input as the words of a file
as_words() {
    # shellcheck disable=SC2059
    printf "$(awk '{ for (i = 1; i <= NF; i++) for (k = 0; k < 4; k++) { printf "\\x%02x", $i % 256; $i = int($i / 256) } }')"
}
arrived() { as_words <<<"${*:2}" >"$1"; } # FILE WORDS..: makes a batch file of records with their arrival numbers
# records without them on standard input, one to a line: with arrival numbers, the additions after all removals, so that
# they win
numbered() {
    awk '{ record[NR] = $0; adds[NR] = $1 == 1; removals += $1 != 1 }
        END { for (i = 1; i <= NR; i++) print record[i], adds[i] ? removals + ++added : ++removed }'
}
batch() { printf '%s %s %s %s\n' "${@:2}" | numbered | as_words >"$1"; } # FILE WORDS..: makes a batch file of such records
configuration() { words "$1" 0 | cut -d' ' -f2-9; }
# the live pairs of a sound card, rising, 'term position' to a line
pairs() {
    "$cut" judge "$1" >/dev/null || { echo 'not sound' && return; }
    od -An -v -tu4 --endian=little -w4 "$1" | awk '
        { w[NR - 1] = $1 + 0 }
        function segment(start, count, above_term, above_position,    i, at, end, k) {
            for (i = 0; i < count; i++) {
                at = 8 + 2 * w[2] + (start + i) % w[2] * w[1]; end = at + w[1]
                for (; end - at >= 3 && w[at] != 0; at += 2 + w[at + 1])
                    for (k = 0; k < w[at + 1]; k++)
                        if (w[at] > above_term || (w[at] == above_term && w[at + 2 + k] > above_position))
                            printf "%.0f %.0f\n", w[at], w[at + 2 + k]
            }
        }
        END { segment(w[3] + w[4], w[5], 0, 0); segment(w[3], w[4], w[6], w[7]) }'
}

run 0 'format a card to apply to' format case.card 8 4
batch one.batch 1 5 2 2 1 5 9 9 1 7 4 4
run 0 'apply three additions' apply case.card one.batch
check 'three steps and their writes' grep -q 'finished; 3 steps, as many writes (1 block, 1 map entry, 1 configuration)' out
check 'the configuration is shown' grep -Eq '^ +old length +1$' out
check 'no progress where there is no terminal' [ ! -s err ]
check 'the words of case 1' [ "$(words case.card 0)" = " 1 8 4 0 1 0 0 0 5 2 0 0 0 0 0 0 5 2 2 9 7 1 4 0 $(yes 0 | head -n 24 | tr '\n' ' ')" ]
cp case.card case1.card
check 'no note is left' [ ! -e case.card.pass -a ! -e case.card.pass.new ]
batch more.batch 1 8 1 1
run 0 'apply from standard input' apply case.card - <more.batch
check 'two blocks and a place freed' grep -q '6 steps, as many writes (2 blocks, 2 map entries, 2 configurations); 1 old place freed' out
check 'the configuration of case 3' [ "$(configuration case.card)" = '1 8 4 1 2 0 0 0' ]
check 'its pairs' [ "$(pairs case.card)" = $'5 2\n5 9\n7 4\n8 1' ]
: >none.batch
run 0 'apply no records' apply case.card none.batch
check 'its pairs stand' [ "$(pairs case.card)" = $'5 2\n5 9\n7 4\n8 1' ]
batch all.batch 2 5 1 4294967295 2 7 1 4294967295 2 8 1 1
run 0 'apply removals of everything' apply case.card all.batch
check 'one step' grep -q 'finished; 1 step, as many writes (0 blocks, 0 map entries, 1 configuration)' out
check 'no pairs' [ -z "$(pairs case.card)" ]
script -qec "'$program' apply case.card one.batch" /dev/null >out </dev/null
check 'progress on a terminal' grep -q 'step 1: new length 0, old length' out

# what was there is on the medium first, then the note, and then each write is the step's, in its order, and synced before
# the next; the note goes at the end
cp case1.card log.card
WRITE_LOG=log "$cut" apply log.card more.batch >out
check 'the writes of case 3' [ "$(logged log)" = \
    "$(opened log.card)write 96 32,sync,write 40 8,sync,write 0 32,sync,write 128 32,sync,write 48 8,sync,write 0 32,sync,remove log.card.pass," ]

# refusals: shown with their number, and the file stands
refused() { # NUMBER WHAT CARD BATCH
    cp "$3" before.card
    run 1 "$2" apply "$3" "$4"
    check "$2: it names number $1" grep -q "number $1:" err
    said_alone "$2"
    check "$2: the card stands" cmp -s "$3" before.card
    check "$2: no note is made" [ ! -e "$3.pass" -a ! -e "$3.pass.new" ]
}
arrived part.batch 1 5 2
refused 6 'a batch of three words' case1.card part.batch
arrived part.batch 1 5 2 2
refused 6 'a batch of four words' case1.card part.batch
arrived part.batch 1 5 2 2 1 1 5 9 9
refused 6 'a batch of nine words' case1.card part.batch
batch kind.batch 4 5 2 2
refused 6 'a record of no kind' case1.card kind.batch
seq 4096 | sed 's/^/1 8 1 1 /' | as_words >most.batch # an addition again and again
seq 4097 | sed 's/^/1 8 1 1 /' | as_words >many.batch
refused 6 'a batch of 4,097 records' case1.card many.batch
run 0 'a batch of 4,096 records' apply case.card most.batch
batch order.batch 1 7 4 4 1 5 2 2
refused 7 'records that fall' case1.card order.batch
refused 4 'a card that is not sound' live.card one.batch
refused 1 'an empty card' empty.card one.batch

# a card that is full: the batch is refused before its first step; applied anyway, what was reached is shown, and an empty
# batch finishes
run 0 'format a card of two places' format two.card 8 2
run 0 'fill it' apply two.card one.batch
refused 8 'apply to the full card' two.card more.batch
run 1 'apply to it anyway' apply --anyway two.card more.batch
check 'it names number 8' grep -q '^two.card: refused, number 8:' err
check 'it shows what was done' grep -q 'stopped; 3 steps' out
check 'it shows what was reached' grep -q 'reached term 7, position 4;' out
check 'the configuration of case 4' [ "$(configuration two.card)" = '1 8 2 1 0 1 7 4' ]
cp two.card before.card
run 1 'apply again' apply two.card more.batch
check 'it names number 8' grep -q '^two.card: refused, number 8:' err
said_alone 'apply again'
check 'the card stands' cmp -s two.card before.card
run 1 'apply again, anyway' apply --anyway two.card more.batch
check 'no step is made' grep -q 'stopped; 0 steps' out
check 'the card stands' cmp -s two.card before.card
run 0 'the empty batch' apply two.card none.batch
check 'the configuration of case 4 at its end' [ "$(configuration two.card)" = '1 8 2 1 1 0 0 0' ]
batch front.batch 1 4 1 1
refused 8 'a block in front that frees none' two.card front.batch
cp two.card before.card
run 1 'the same, anyway' apply --anyway two.card front.batch
check 'it says that no pass is open' grep -q 'no pass is open' out
check 'the card stands' cmp -s two.card before.card

# ---- lookup

lookup() { # ANSWER COUNTS WHAT CARD TERM..: the answer, one number to a line, and the counts on standard error
    run 0 "$3" lookup "${@:4}"
    check "$3: the answer" [ "$(tr '\n' ' ' <out)" = "$1" ]
    check "$3: the counts" grep -q ": $2\$" err
    check "$3: nothing beside them" [ "$(wc -l <err)" -eq 1 ]
}
cp case1.card before.card
lookup '2 9 ' '2 positions, 1 block read' 'look up 5' case1.card 5
check 'the whole range is named' grep -q 'term 5 from 1 to 4294967295:' err
lookup '2 9 ' '2 positions, 1 block read' 'look up 5 from 1 to 9' case1.card 5 1 9
lookup '' '0 positions, 1 block read' 'look up 5 from 3 to 8' case1.card 5 3 8
lookup '' '0 positions, 0 blocks read' 'look up 4 from 1 to 9' case1.card 4 1 9
lookup '' '0 positions, 1 block read' 'look up 6 from 1 to 9' case1.card 6 1 9
lookup '9 ' '1 position, 1 block read' 'look up 5 from 9 to the highest' case1.card 5 9 4294967295
lookup '' '0 positions, 0 blocks read' 'look up in an empty index' new.card 5
no_lookup() { # NUMBER WHAT CARD TERM..: refused, with the number on standard error alone
    run 1 "$2" lookup "${@:3}"
    check "$2: it names number $1" grep -q "^$3: refused, number $1: " err
    said_alone "$2"
}
no_lookup 9 'look up term 0' case1.card 0
no_lookup 9 'look up from 0' case1.card 5 0 9
no_lookup 9 'look up from above to' case1.card 5 9 8
no_lookup 4 'look up in a damaged card' live.card 5
no_lookup 1 'look up in an empty file' empty.card 5
check 'lookups change nothing' cmp -s case1.card before.card

# ---- page

page() { # PAGE WHAT CARD TERM..: the page, byte for byte, and nothing else is shown
    run 0 "$2" page "${@:3}"
    check "$2: the page" has out printf %s "$1"
    check "$2: no message" [ ! -s err ]
}
no_page() { # NUMBER WHAT CARD TERM..: refused, with the lookup's message on standard error alone
    run 1 "$2, looked up" lookup "${@:3}"
    mv err said
    run 1 "$2" page "${@:3}"
    check "$2: no page" [ ! -s out ]
    check "$2: it names number $1" grep -q "number $1:" err
    check "$2: the message" cmp -s err said
}
run 0 'format a card for pages' format page.card 8 6
batch page.batch 1 5 7 7 1 6 2 2 1 6 30 30 1 6 400 400 1 6 5000 5000 1 6 60000 60000 \
    1 4294967295 1 1 1 4294967295 9 9 1 4294967295 10 10 1 4294967295 4294967293 4294967293 \
    1 4294967295 4294967294 4294967294 1 4294967295 4294967295 4294967295
run 0 'add its postings' apply page.card page.batch
cp page.card before.card
page $'         5          7                                            \n' \
    'a page of one posting' page.card 5
page $'         6          2         30        400       5000      60000\n' \
    'a page of five' page.card 6
page $'4294967295          1          9         10 4294967293 4294967294\n'\
$'           4294967295                                            \n' \
    'a page of six, with the highest numbers' page.card 4294967295
cp out six
run 0 'the same with its range' page page.card 4294967295 1 4294967295
check 'it is the same page' cmp -s out six
page $'         6         30        400       5000                      \n' \
    'a page of a range' page.card 6 30 5000
page $'         6         30        400       5000                      \n' \
    'a page of a range whose ends are no postings' page.card 6 3 5001
page $'4294967295          9         10 4294967293 4294967294 4294967295\n' \
    'a page from the second to the last' page.card 4294967295 9 4294967295
page '' 'a page of a range without postings' page.card 6 31 399
page '' 'a page of a term without postings' page.card 7
page '' 'a page of an empty index' new.card 5
no_page 9 'a page of term 0' page.card 0
no_page 9 'a page from 0' page.card 6 0 9
no_page 9 'a page from above to' page.card 6 9 8
no_page 4 'a page of a damaged card' live.card 5
no_page 4 'a page of term 0 of a damaged card' live.card 0
no_page 1 'a page of an empty file' empty.card 5
no_page 1 'a page of a file longer than any card' longer.card 5
cp page.card wrong.card
set_word wrong.card 1 7
no_page 3 'a page of a card with B too small' wrong.card 6
set_word wrong.card 0 2
no_page 2 'a page of a card of another format' wrong.card 6
check 'pages change nothing' cmp -s page.card before.card

# many postings, in several blocks: more bytes than standard output keeps before it writes
run 0 'format a card for a long page' format long.card 64 12
seq 320 | awk '{ print 1, 5, $1 * $1, $1 * $1, $1 }' | as_words >long.batch
run 0 'add its postings' apply long.card long.batch
run 0 'a long page' page long.card 5
check 'it has 64 lines of 65 bytes' [ "$(grep -Ec '^.{65}$' out)" -eq 64 -a "$(stat -c %s out)" -eq 4224 ]
check 'its term, on the first line only' [ "$(cut -c1-10 out | uniq -c | tr -s ' \n' ' ')" = ' 1 5 63 ' ]
check 'its positions, read back from their columns' [ "$(cut -c11- out | fold -w 11 | tr -d ' ')" = "$(seq 320 | awk '{ print $1 * $1 }')" ]

# What the help says of a command is told of where it is misused; NAME is the command.
run 0 'help' help
mv out usage
tells() { grep -A 1 "^  $1 " usage | grep -qx "      $2"; } # COMMAND TEXT: the help's line on what the command does
usage_of() { sed -n "s/^  \($1 .*\)/usage: gamecard \1/p" usage; }
misused() { # WHAT MESSAGE COMMAND WORDS..: the message and how the command is used, on standard error alone
    run 2 "$1" "${@:3}"
    check "$1: the message" has err echo "gamecard: $3: $2"$'\n'"$(usage_of "$3")"
    check "$1: nothing else is shown" [ ! -s out ]
}
faulty() { # WHAT MESSAGE COMMAND WORDS..: at fault, with the message alone
    run 2 "$1" "${@:3}"
    check "$1: the message" has err echo "gamecard: $2"
    check "$1: nothing else is shown" [ ! -s out ]
}
no_word="is not a decimal number of at most 4,294,967,295"

# shellcheck source=tests/c/host_locks.sh
. "$here/host_locks.sh"
# shellcheck source=tests/c/host_medium.sh
. "$here/host_medium.sh"
# shellcheck source=tests/c/host_streams.sh
. "$here/host_streams.sh"
# shellcheck source=tests/c/host_text.sh
. "$here/host_text.sh"
# shellcheck source=tests/c/host_annul.sh
. "$here/host_annul.sh"
# shellcheck source=tests/c/host_fits.sh
. "$here/host_fits.sh"
# shellcheck source=tests/c/host_arrival.sh
. "$here/host_arrival.sh"
# shellcheck source=tests/c/host_pass.sh
. "$here/host_pass.sh"
# shellcheck source=tests/c/host_format.sh
. "$here/host_format.sh"
# shellcheck source=tests/c/host_full.sh
. "$here/host_full.sh"
# shellcheck source=tests/c/host_parts.sh
. "$here/host_parts.sh"
# shellcheck source=tests/c/host_odd.sh
. "$here/host_odd.sh"
# shellcheck source=tests/c/host_dump.sh
. "$here/host_dump.sh"
# shellcheck source=tests/c/host_words.sh
. "$here/host_words.sh"
# shellcheck source=tests/c/host_install.sh
. "$here/host_install.sh"

# faults of files and of the command line go to stderr
faulty 'judge a file that is not there' 'none.card: No such file or directory' judge none.card
printf 'abc' >odd.card
faulty 'judge three bytes' 'odd.card: 3 bytes are not a whole number of 32-bit words' judge odd.card
faulty 'judge a folder' '.: not a regular file' judge .
faulty 'format into a folder that is not there' 'none/new.card: No such file or directory' format none/new.card 8 4
faulty 'B that is no number' "B: '8x' $no_word" format new2.card 8x 4
faulty 'N over 32 bits' "N: '4294967298' $no_word" format new2.card 8 4294967298
misused 'a word missing' 'a word is missing: N' format new2.card 8
check 'no file is made' [ ! -e new2.card ]
faulty 'apply to a file that is not there' 'none.card: No such file or directory' apply none.card one.batch
faulty 'apply a batch that is not there' 'none/one.batch: No such file or directory' apply new.card none/one.batch
faulty 'apply a folder' '.: Is a directory' apply new.card .
faulty 'apply three bytes' 'odd.card: 3 bytes are not a whole number of 32-bit words' apply new.card odd.card
misused 'apply without a batch' 'a word is missing: BATCH' apply new.card
for command in lookup page; do
    faulty "$command: a term that is no number" "TERM: 'five' $no_word" $command case1.card five
    faulty "$command: a term over 32 bits" "TERM: '4294967296' $no_word" $command case1.card 4294967296
    faulty "$command: from no number" "FROM: 'one' $no_word" $command case1.card 5 one 9
    faulty "$command: to no number" "TO: '-9' $no_word" $command case1.card 5 1 -9
    misused "$command: no card" 'a word is missing: CARD' $command
    misused "$command: no term" 'a word is missing: TERM' $command case1.card
    faulty "$command: a file that is not there" 'none.card: No such file or directory' $command none.card 5
    faulty "$command: three bytes" 'odd.card: 3 bytes are not a whole number of 32-bit words' $command odd.card 5
done
faulty 'an unknown command' 'frobnicate: there is no such command; gamecard help shows all' frobnicate new.card
run 2 'no command'
check 'no command: the help' cmp -s err usage
check 'no command: nothing else is shown' [ ! -s out ]
run 0 'help' help
check 'help: no other message' [ ! -s err ]
run 0 'help as an option' --help
check 'help as an option: the same' cmp -s out usage
check 'eleven commands, each with a line on what it does' [ "$(grep -A 1 -E '^  [a-z]+ .*[A-Z]' usage | grep -Ec '^      [a-z]')" -eq 11 ]
check 'no option is shown that does nothing' [ "$(grep -Ec '^  (-[a-z], )?--[a-z]+' usage)" -eq 9 ]

echo "$passed passed, $failed failed"
[ "$failed" -eq 0 ]
