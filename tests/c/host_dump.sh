# A part of host.sh: dump, terms, what show tells of the index, and questions of several terms.

answers() { # WHAT ANSWER WORDS..: done, the answer is on standard output, and nothing else is shown
    run 0 "$1" "${@:3}"
    check "$1: the answer" has out printf %s "$2"
    check "$1: no message" [ ! -s err ]
}
# the lines of dump, and of terms, by the pairs that the card's words say
dumped() { pairs "$1" | tr ' ' '\t'; }
counted() { pairs "$1" | cut -d' ' -f1 | uniq -c | awk '{ print $2 "\t" $1 }'; }
lists() { # CARD: dump and terms are what its words say, and its terms looked up together are the dump again
    local terms
    run 0 "dump $1" dump "$1"
    check "dump $1: the pairs" has out dumped "$1"
    check "dump $1: no message" [ ! -s err ]
    mv out dump
    run 0 "terms $1" terms "$1"
    check "terms $1: the counts" has out counted "$1"
    check "terms $1: no message" [ ! -s err ]
    cut -f 1 out >term.list
    mapfile -t terms <term.list
    if [ ${#terms[@]} -lt 2 ]; then return; fi
    run 0 "look up all terms of $1" lookup --to 4294967295 "$1" "${terms[@]}"
    check "look up all terms of $1: its dump" cmp -s out dump
}

# ---- cards of 8-word blocks, written out

# a pass open around the circle: old places 3 and 0, new place 1; the first old block has (2,1), which is the boundary
as_words >wrapped.card <<<'1 8 4 3 2 1 2 1   4 9 1 1 5 5 2 1
    4 1 9 0 0 0 0 0   1 2 1 2 2 1 1 0   5 6 1 2 3 4 5 6   2 2 1 5 3 1 1 0'
# a term in three blocks, around the circle; a free place that looks like a block
as_words >three.card <<<'1 8 4 2 3 0 0 0   6 13 6 13 6 1 6 7
    6 1 13 9 1 1 0 0   6 1 13 9 1 1 0 0   6 6 1 2 3 4 5 6   6 6 7 8 9 10 11 12'
# a pass open, and no old place left
as_words >moved.card <<<'1 8 4 1 0 1 7 4   5 2 5 2 0 0 0 0
    5 2 2 9 7 1 4 0   5 2 2 9 7 1 4 0   0 0 0 0 0 0 0 0   0 0 0 0 0 0 0 0'
# the highest numbers, in a block that is full and in one with two words over
as_words >highest.card <<<'1 8 2 1 1 0 0 0   0 0 4294967294 4294967295
    0 0 0 0 0 0 0 0   4294967294 1 4294967295 4294967295 3 1 4294967294 4294967295'

answers 'dump a card' $'5\t2\n5\t9\n7\t4\n' dump case1.card
answers 'its terms' $'5\t2\n7\t1\n' terms case1.card
answers 'dump an empty card' '' dump new.card
answers 'no terms of it' '' terms new.card
answers 'dump an open pass' $'1\t1\n1\t2\n2\t1\n2\t5\n3\t1\n4\t9\n' dump wrapped.card
answers 'its terms, one in both segments' $'1\t2\n2\t2\n3\t1\n4\t1\n' terms wrapped.card
answers 'terms in several blocks' $'6\t13\n9\t1\n' terms three.card
answers 'dump a card without old places' $'5\t2\n5\t9\n7\t4\n' dump moved.card
answers 'dump the highest numbers' $'4294967294\t4294967295\n4294967295\t1\n4294967295\t4294967294\n4294967295\t4294967295\n' dump highest.card
for card in new.card case1.card wrapped.card three.card moved.card highest.card page.card long.card two.card large.card; do
    cp $card before.card
    lists $card
    check "dump, terms and lookup leave $card" cmp -s $card before.card
done

# killed at every write, in the middle of it, the card tells the index of that moment
batch moment.batch 1 1 1 1 1 6 5 5 1 6 60 60 1 7 7 7 2 4294967295 5 10
rm -f log
cp page.card moment.card
WRITE_LOG=log run_cut 0 'the writes of a pass' apply moment.card moment.batch
for write in $(seq "$(grep -c '^write' log)"); do
    rm -f moment.card.pass && cp page.card moment.card
    KILL_WRITE=$write KILL_WHEN=half expect 137 "killed at write $write" "$cut" apply moment.card moment.batch
    lists moment.card
done
check 'writes enough' [ "$write" -ge 9 ]

# the largest card, and a dump that makes a card again
seq 4096 | awk '{ print 1, 1 + int($1 / 100), $1 * 1000003, $1 * 1000003, $1 }' | as_words >wide.batch
cp large.card wide.card
run 0 'fill the largest card' apply wide.card wide.batch
lists wide.card
check 'all its pairs' [ "$(wc -l <dump)" -eq 4096 ]
sed 's/^/A\t/' dump >again.text
run 0 'format another' format again.card 64 120
run 0 'apply the dump as text' apply --text again.card again.text
run 0 'dump that' dump again.card
check 'it is the same index' cmp -s out dump

# refused, and output that cannot be written
for command in dump terms show; do
    expect 2 "$command, full" bash -c '"$0" "$@" >/dev/full' "$program" $command case1.card
    check "$command, full: the message" has err echo 'gamecard: standard output: No space left on device'
done
for command in dump terms; do
    for number in 1 2 3 4; do
        cp page.card wrong.card
        case $number in
        1) printf '\0\0\0\0' >>wrong.card ;;
        2) set_word wrong.card 0 9 ;;
        3) set_word wrong.card 2 1 ;;
        4) set_word wrong.card 8 9 ;;
        esac
        run 1 "lookup, number $number" lookup wrong.card 5
        mv err said
        run 1 "$command, number $number" $command wrong.card
        check "$command, number $number: the message" grep -q "^wrong.card: refused, number $number: " err
        check "$command, number $number: that of lookup, and no answer" eval 'cmp -s err said && [ ! -s out ]'
    done
    run 1 "$command of an empty file" $command empty.card
    said_alone "$command of an empty file"
done

# ---- show

index_part() { sed -n '/^index$/,/^configuration$/p' out | sed '$d'; }
shows() { # CARD PAIRS TERMS FREE OF WORDS REST PICTURE..: the part on the index, byte for byte
    run 0 "show $1" show "$1"
    index_part >part
    check "show $1: the index" has part printf 'index\n  %-20s %10s\n  %-20s %10s\n  %-20s %10s  of %s\n  %-20s %10s  of %s\n\n%s\n%s\n\n' \
        pairs "$2" terms "$3" 'free places' "$4" "$5" 'words in use' "$6" "$7" \
        'places: o old, n new, . free; after the last comes place 0 again' "$(printf '%6s  %s\n' "${@:8}")"
    check "show $1: the parts in their order" [ "$(grep -Eo '^(index|places|configuration|live places)' out | tr '\n' ' ')" = \
        'index places configuration live places ' ]
    "$program" judge "$1" >said
    check "show $1: the judge's lines first" cmp -s -n "$(stat -c %s said)" out said
    check "show $1: a blank line behind them" [ -z "$(sed -n "$(($(wc -l <said) + 1))p" out)" ]
    check "show $1: no message" [ ! -s err ]
}
dots() { printf "%$1s" '' | tr ' ' "${2:-.}"; } # COUNT [LETTER]
run 0 'a card of two places' format show.card 8 4
batch show.batch 1 5 2 2 1 5 9 9 1 7 4 4
run 0 'three pairs' apply show.card show.batch
run 0 'and a fourth, which moves the segment' apply show.card more.batch
shows show.card 4 3 2 4 10 '16 in live blocks, 62 %' 0 .oo.
shows new.card 0 0 4 4 0 '0 in live blocks' 0 ....
shows case1.card 3 2 3 4 7 '8 in live blocks, 87 %' 0 o...
shows wrapped.card 6 4 1 4 17 '24 in live blocks, 70 %' 0 on.o
shows three.card 14 2 1 4 22 '24 in live blocks, 91 %' 0 o.oo
shows moved.card 3 2 3 4 7 '8 in live blocks, 87 %' 0 .n..
shows highest.card 4 2 1 2 8 '8 in live blocks, 100 %' 0 .o
for places in 63 64 65 128 129; do
    rm -f circle.card
    run 0 "a card of $places places" format circle.card 8 $places
    picture=()
    for ((first = 0; first < places; first += 64)); do
        picture+=("$first" "$(dots $((places - first < 64 ? places - first : 64)))")
    done
    shows circle.card 0 0 $places $places 0 '0 in live blocks' "${picture[@]}"
done
set_word circle.card 3 128 # one live place, the last
set_word circle.card 4 1
as_words <<<'7 3' | dd of=circle.card bs=4 seek=$((8 + 2 * 128)) conv=notrunc status=none
as_words <<<'7 1 3' | dd of=circle.card bs=4 seek=$((8 + 2 * 129 + 8 * 128)) conv=notrunc status=none
shows circle.card 1 1 128 129 3 '8 in live blocks, 37 %' 0 "$(dots 64)" 64 "$(dots 64)" 128 o
picture=(0 "$(dots 5 o)$(dots 59)")
for first in $(seq 64 64 960); do picture+=("$first" "$(dots 64)"); done
shows wide.card 4096 41 1019 1024 "$((4096 + 2 * 45))" '5120 in live blocks, 81 %' "${picture[@]}"
run 1 'show a damaged card' show live.card
check 'show a damaged card: no index' [ -z "$(index_part)" ]

# ---- several terms

asked() { # WHAT ANSWER COUNTS WORDS..: what a lookup shows on standard output and on standard error, as printf has them
    run 0 "$1" lookup "${@:4}"
    check "$1: the answer" has out printf "$2"
    check "$1: the counts" has err printf "$3"
}
case1='case1.card: term'
all='from 1 to 4294967295'
five="$case1 5 $all: 2 positions, 1 block read\n"
seven="$case1 7 $all: 1 position, 1 block read\n"
asked 'two terms' '5\t2\n5\t9\n7\t4\n' "$five$seven" case1.card 5 7
asked 'in another order' '7\t4\n5\t2\n5\t9\n' "$seven$five" case1.card 7 5
asked 'a term twice' '7\t4\n7\t4\n' "$seven$seven" case1.card 7 7
four="$case1 4 $all: 0 positions, 0 blocks read\n"
six="$case1 6 $all: 0 positions, 1 block read\n"
asked 'four terms, two without positions' '7\t4\n5\t2\n5\t9\n' "$four$seven$six$five" case1.card 4 7 6 5
asked 'three numbers' '2\n' "$case1 5 from 1 to 7: 1 position, 1 block read\n" case1.card 5 1 7
in_range="$case1 5 from 1 to 7: 1 position, 1 block read\n$case1 1 from 1 to 7: 0 positions, 0 blocks read\n$case1 7 from 1 to 7: 1 position, 1 block read\n"
asked 'three terms, --to' '5\t2\n7\t4\n' "$in_range" --to 7 case1.card 5 1 7
asked 'three terms, --from' '5\t9\n7\t4\n' "${in_range//from 1 to 7/from 3 to 4294967295}" case1.card 5 1 7 --from 3
asked 'a range by options' '9\n' "$case1 5 from 3 to 9: 1 position, 1 block read\n" --from 3 --to 9 case1.card 5
asked 'from alone' '9\n' "$case1 5 from 9 to 4294967295: 1 position, 1 block read\n" case1.card 5 --from 9
asked 'to alone' '2\n' "$case1 5 from 1 to 2: 1 position, 1 block read\n" case1.card 5 --to 2
asked 'two terms in a range' '7\t4\n' "$case1 5 from 3 to 8: 0 positions, 1 block read\n$case1 7 from 3 to 8: 1 position, 1 block read\n" case1.card 5 7 --from 3 --to 8
pages() { # CARD TERM..: the pages of several terms stand one behind the other
    local term
    for term in "${@:2}"; do "$program" page "$1" "$term"; done >said
    answers "pages of $*" "$(cat said)"$'\n' page --from 1 "$@"
    check "pages of $*: some" [ -s said ]
}
pages page.card 5 6
pages page.card 4294967295 7 5 5
pages page.card 6 5 4294967295
answers 'pages of a range' $'         6         30        400                                 \n4294967295          9         10                                 \n' page page.card --from 9 --to 4000 5 6 4294967295
answers 'three numbers are a page of a range' $'         6         30        400                                 \n' page page.card 6 9 4000
answers 'pages of nothing' '' page page.card 7 8

# refused as a whole: no answer, one message
for words in '5 0' '0 5' '5 7 0 5' '5 7 5 0' '--from 0 5' '--from 9 --to 8 5 7' '--to 0 5' '5 9 8' '5 0 9' '--from=1 5 0 9'; do
    # shellcheck disable=SC2086
    no_lookup 9 "lookup $words" case1.card $words
    check "lookup $words: one message" [ "$(wc -l <err)" -eq 1 ]
    # shellcheck disable=SC2086
    no_page 9 "page $words" case1.card $words
    # shellcheck disable=SC2086
    no_page 4 "page $words of a damaged card" live.card $words
done
for command in lookup page; do
    faulty "$command: a term that is none among others" "TERM: '5x' $no_word" $command case1.card 5 5x 7 8
    faulty "$command: the last of them" "TERM: '' $no_word" $command case1.card 5 7 8 ''
done
