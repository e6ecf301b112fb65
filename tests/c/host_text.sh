# A part of host.sh: scorekeepers' files, applied with apply --text.

# Makes NAME.text of the lines on standard input, which have blanks for tabs, and
# NAME.batch, the words of the same records, each with its line's number, sorted here.
both() { # NAME
    tr ' ' '\t' >"$1.text"
    awk '{ print $1 == "A" ? 1 : 2, $2, $3, $NF, NR }' "$1.text" | sort -s -k 2,2n -k 3,3n | as_words >"$1.batch"
}

# Text and words leave the same card and the same note, and show the same.
alike() { # STATUS WHAT CARD NAME OPTION..: NAME.text and NAME.batch, each applied to the card
    lay_both "$3"
    run "$1" "$2, as words" apply "${@:5}" both.card "$4.batch"
    mv both.card words.card
    mv out said
    mv err told
    rm -f words.card.pass
    if [ -e both.card.pass ]; then mv both.card.pass words.card.pass; fi
    lay_both "$3"
    run "$1" "$2, as text" apply --text "${@:5}" both.card "$4.text"
    check "$2: the same card" cmp -s both.card words.card
    check "$2: the same note" same_or_none both.card.pass words.card.pass
    check "$2: the same is shown" cmp -s out said
    check "$2: the same is said" cmp -s err told
    if [ "$1" -eq 0 ]; then check "$2: no other message" [ ! -s err ]; fi
}
lay_both() { # CARD: both.card is the card, with its note where it has one
    rm -f both.card.pass
    cp "$1" both.card
    if [ -e "$1.pass" ]; then cp "$1.pass" both.card.pass; fi
}

# ---- files that are applied

both three <<<$'A 7 4\nA 5 9\nA 5 2'
alike 0 'lines that fall' new.card three
arrived three.words 1 5 2 2 3 1 5 9 9 2 1 7 4 4 1
check 'it is the batch in order' cmp -s three.batch three.words
check 'the words of case 1' [ "$(words both.card 0)" = " 1 8 4 0 1 0 0 0 5 2 0 0 0 0 0 0 5 2 2 9 7 1 4 0 $(yes 0 | head -n 24 | tr '\n' ' ')" ]
both more <<<'A 8 1'
alike 0 'one line' case1.card more
head -c -1 more.text >bare.text
cp more.batch bare.batch
check 'a file without a line feed' [ "$(tail -c 1 bare.text)" = 1 ]
alike 0 'a last line without its line feed' case1.card bare
: >none.text
alike 0 'an empty file' new.card none
check 'one step' grep -q 'finished; 1 step, as many writes (0 blocks, 0 map entries, 1 configuration)' out
alike 0 'an empty file, on a card with pairs' case1.card none
both mixed <<<$'R 8 2 2\nA 7 9\nA 8 9\nR 5 1 5\nA 1 1\nR 9 1 7\nA 8 2\nA 8 2\nR 7 4 4'
alike 0 'additions and removals' case1.card mixed
check 'their pairs' [ "$(pairs both.card)" = $'1 1\n5 9\n7 9\n8 2\n8 9' ]
both empty <<<$'A 6 1\nR 5 9 8\nA 4 1\nR 7 4294967295 1\nR 5 2 1'
alike 0 'removals with no game in them' case1.card empty
check 'their pairs' [ "$(pairs both.card)" = $'4 1\n5 2\n5 9\n6 1\n7 4' ]
check 'they are told' grep -qx 'both.card: 3 removals with from above to, which remove nothing' out
both highest <<<$'A 4294967295 4294967295\nA 1 4294967295\nA 4294967295 1\nR 4294967295 2 4294967295'
alike 0 'the highest figures' case1.card highest
run 0 'format a card for many lines' format wide.card 256 40
seq 0 4095 | awk '{ k = $1 * 1597 % 4096; print "A", 1 + int(k / 64), 1 + k % 64 }' | both many
alike 0 '4,096 lines in disorder' wide.card many
check 'every pair' [ "$(pairs both.card)" = "$(seq 0 4095 | awk '{ print 1 + int($1 / 64), 1 + $1 % 64 }')" ]
mv both.card wide.card
seq 0 4095 | awk '{ print "R", 1 + 4095 % ($1 + 1) % 64, 1 + $1 % 60, 1 + $1 % 60 + $1 % 4 }' | both fewer
alike 0 '4,096 removals that overlap' wide.card fewer
seq 0 4095 | awk '{ printf "R 42949%05d 42949%05d 4294967295\n", 67295 - $1 % 64, 60000 - $1 }' | both most
check 'the longest file' [ "$(stat -c %s most.text)" -eq 143360 ]
alike 0 'the longest file' case1.card most

# from standard input, and files with names like options
cp case1.card words.card
run 0 'from a file' apply words.card mixed.batch
cp case1.card both.card
run 0 'from standard input' apply --text both.card - <mixed.text
check 'the same card as from the file' cmp -s both.card words.card
cp case1.card both.card
mkfifo text.pipe
{ head -c 20 mixed.text && sleep 0.1 && tail -c +21 mixed.text; } >text.pipe &
run 0 'from a pipe, in two parts' apply --text both.card - <text.pipe
check 'the same card' cmp -s both.card words.card
cp case1.card ./-both.card
cp mixed.text ./-mixed.text
run 0 'names that begin with a dash' apply --text -both.card -mixed.text
check 'the same card' cmp -s ./-both.card words.card

# ---- files that are refused

form='a line must be A<tab>term<tab>position or R<tab>term<tab>from<tab>to, ended by a line feed without a carriage return; figures have no leading zeros and are at most 4,294,967,295'
figures='term, position, from and to are at least 1'
bad() { # NUMBER LINE WHAT FILE: refused at the line, and the card stands
    local meaning=$form
    if [ "$1" -eq 6 ]; then meaning=$figures; fi
    cp case1.card before.card
    run 1 "$3" apply --text case1.card "$4" <line.text
    check "$3: the message" has err echo "${4/#-/standard input}: line $2: refused, number $1: $meaning"
    check "$3: nothing is shown" [ ! -s out ]
    check "$3: the card stands" cmp -s case1.card before.card
    check "$3: no note" [ ! -e case1.card.pass ]
}
good=$'A\t5\t2\n'
bad_line() { # WHAT LINE: the line, as printf has it, is refused wherever it stands
    printf "$2\n%s" "$good$good" >line.text
    bad 12 1 "$1, first" line.text
    printf "%s$2\n%s" "$good" "$good" >line.text
    bad 12 2 "$1, in the middle" line.text
    printf "%s$2\n" "$good$good" >line.text
    bad 12 3 "$1, last" line.text
    printf "%s$2" "$good$good" >line.text
    bad 12 3 "$1, last without a line feed" line.text
}
bad_line 'a carriage return' 'A\t5\t2\r'
bad_line 'a small letter' 'a\t5\t2'
bad_line 'blanks' 'A 5 2'
bad_line 'a field too few' 'R\t5\t2'
bad_line 'a field too many' 'A\t5\t2\t2'
bad_line 'a figure missing' 'A\t5\t'
bad_line 'a leading zero' 'A\t05\t2'
bad_line 'a figure over 32 bits' 'R\t5\t2\t4294967296'
bad_line 'a zero byte' 'A\t5\t2\0'
bad_line 'a mark of the byte order' '\xef\xbb\xbfA\t5\t2'
bad 12 3 'a bad line from standard input' -
printf '\n' >line.text
bad 12 1 'an empty line alone' line.text
printf '%s\n' "$good" >line.text
bad 12 2 'an empty line at the end' line.text
printf 'A\t5\n%sA\t5\n' "$good" >line.text
bad 12 1 'two bad lines' line.text
sed 's/$/\r/' mixed.text >returns.text
bad 12 1 'carriage returns in all lines' returns.text

# more than 4,096 lines
longest=$'R\t4294967295\t4294967295\t4294967295'
applied() { # WHAT: line.text is applied to case 1, in so many parts as it has 4,096 lines
    cp kept.card both.card
    run 0 "$1" apply --text both.card line.text
    check "$1: its parts" [ "$(grep -c 'the pass is finished' out)" -eq $((($(grep -c '' line.text) + 4095) / 4096)) ]
    check "$1: no message" [ ! -s err ]
    check "$1: the pairs" [ "$(pairs both.card)" = $'5 2\n5 9\n7 4' ]
}
cp case1.card kept.card
{ cat most.text && printf '%s\n' "$longest"; } >line.text
applied '4,097 lines'
{ cat most.text && printf '%s' "$longest"; } >line.text
applied '4,097 lines, the last without a line feed'
{ cat most.text && printf '%s\nbad' "$longest"; } >line.text
bad 12 4098 'a bad line behind them' line.text
{ cat most.text && printf '%s\t' "$longest"; } >line.text
bad 12 4097 'line 4,097 too long' line.text
{ cat most.text && echo; } >line.text
bad 12 4097 'line 4,097 empty' line.text
{ head -n 4095 most.text && printf 'bad\n%s' "$good"; } >line.text
bad 12 4096 'line 4,096 bad, of 4,097' line.text
{ echo && cat most.text; } >line.text
bad 12 1 'line 1 empty, of 4,097' line.text

# megabytes
head -c 4000000 /dev/zero | tr '\0' 7 >line.text
bad 12 1 'a line of four million figures' line.text
{ cat most.text && head -c 4000000 /dev/zero; } >line.text
bad 12 4097 '4,096 lines and four million zero bytes' line.text
{ yes $'A\t5\t2' | head -n 100000 && echo bad; } >line.text
bad 12 100001 'a bad line behind a hundred thousand' line.text
rm line.text

# what the library refuses of a batch it refuses of its text, with the same number: the text has the line, the batch the
# record, which stands where the line's does
ill_figures() { # LINE RECORD WHAT NAME
    : >line.text
    bad 6 "$1" "$3" "$4.text"
    cp case1.card before.card
    run 1 "$3, as words" apply case1.card "$4.batch"
    check "$3, as words: the message" grep -q "^$4.batch: record $2 (.*): refused, number 6: a batch is at most 4,096 records" err
    said_alone "$3, as words"
    check "$3, as words: the card stands" cmp -s case1.card before.card
}
both wrong <<<$'A 5 2\nA 0 2'
ill_figures 2 1 'a term 0' wrong
both wrong <<<$'A 5 0\nA 5 2'
ill_figures 1 1 'a position 0' wrong
both wrong <<<'R 5 0 9'
ill_figures 1 1 'a removal from 0' wrong
both wrong <<<$'A 6 1\nR 5 9 0\nA 4 1'
ill_figures 2 2 'a removal to 0' wrong
both wrong <<<$'A 6 1\nR 5 9 0\nA 0 1\nA 4 0'
ill_figures 2 1 'the first of several' wrong
printf 'A\t5\t0\nA\t5\n' >line.text
bad 12 2 'a figure 0 before a line of another form' line.text
printf 'A\t5\nA\t5\t0\n' >line.text
bad 12 1 'a figure 0 behind a line of another form' line.text
rm line.text
not_applied() { # NUMBER WHAT CARD NAME: refused alike, for the card
    alike 1 "$2" "$3" "$4"
    check "$2: it names number $1" grep -q "^both.card: refused, number $1:" err
    check "$2: nothing is shown" [ ! -s out ]
    check "$2: the card stands" cmp -s both.card "$3"
}
not_applied 4 'a card that is not sound' live.card three
not_applied 1 'an empty card' empty.card three
run 0 'format a card of two places' format full.card 8 2
run 0 'fill it' apply --text full.card three.text
not_applied 8 'a card without a place' full.card more
check 'no note is made' [ ! -e both.card.pass ]
alike 1 'a card without a place, anyway' full.card more --anyway
check 'it names number 8' grep -q '^both.card: refused, number 8:' err
check 'it shows what was done' grep -q 'stopped; 3 steps' out
mv both.card open.card
mv both.card.pass open.card.pass
not_applied 8 'the same again' open.card more
check 'the note stands' cmp -s both.card.pass open.card.pass
alike 0 'an empty file ends the pass' open.card none
check 'no note is left' [ ! -e both.card.pass ]
rm open.card.pass
alike 0 'an empty file ends it without a note' open.card none
not_applied_open() { # WHAT NAME: refused alike, for the pass
    alike 1 "$1" open.card "$2"
    check "$1: a pass is open" grep -q '^both.card: refused, a pass is open: ' err
    check "$1: the card stands" cmp -s both.card open.card
}
not_applied_open 'the same again without a note' more
not_applied_open 'another without a note' three

# ---- faults

faulty_text() { # WHAT MESSAGE FILE: at fault, with the message alone, and the card stands
    cp case1.card before.card
    run 2 "$1" apply --text case1.card "$3"
    check "$1: the message" has err echo "gamecard: $3: $2"
    check "$1: nothing else is shown" [ ! -s out ]
    check "$1: the card stands" cmp -s case1.card before.card
}
faulty_text 'a file that is not there' 'No such file or directory' none/three.text
faulty_text 'a file in place of a folder' 'Not a directory' three.text/none
faulty_text 'a folder' 'Is a directory' .
run 2 'a card that is not there' apply --text none.card three.text
check 'no card is made' [ ! -e none.card ]

check 'help on the command' grep -qx '  apply \[--text\] \[--resume\] \[--anyway\] CARD BATCH' usage
check 'help on its option' grep -qx "  --text          BATCH is a scorekeepers' file" usage
check 'help on its file' grep -qx "a scorekeepers' file is lines, the latest last: A<tab>term<tab>position adds, R<tab>term<tab>from<tab>to removes;" usage
check 'help on its length' grep -qx 'it may have any length, and is applied in parts of 4,096 lines' usage
cp new.card ./--text # an option is no card, whatever files there are
misused 'no card and no file' 'a word is missing: CARD' apply --text
misused 'no file' 'a word is missing: BATCH' apply --text new.card
misused 'a batch file alone' 'a word is missing: BATCH' apply --text one.batch
misused 'a word too many' 'a word too many: three.text' apply --text new.card three.text three.text
misused 'the option alone behind the card' 'a word is missing: BATCH' apply new.card --text
misused 'a word too many behind it' 'a word too many: three.text' apply new.card three.text --text three.text
misused 'another option' 'it has no option --words' apply --words new.card one.batch
misused 'the option of another command' 'it has no option --text' judge --text new.card
check 'no card is touched' cmp -s new.card ./--text
run 0 'a card with the name of the option' apply ./--text one.batch
cp new.card ./--text
run 0 'the same behind the end of the options' apply -- --text one.batch
check 'it is applied' [ "$(pairs ./--text)" = $'5 2\n5 9\n7 4' ]
cp new.card ./--text
run 0 'as text' apply --text -- --text three.text
check 'it is applied' [ "$(pairs ./--text)" = $'5 2\n5 9\n7 4' ]
rm ./--text

# ---- the medium

cp case1.card log.card
WRITE_LOG=words.log run_cut 0 'the writes of words' apply log.card mixed.batch
cp case1.card log.card
WRITE_LOG=text.log run_cut 0 'the writes of text' apply --text log.card mixed.text
check 'they are the same, and synced alike' cmp -s text.log words.log
cp case1.card log.card
WRITE_LOG=refused.log run_cut 1 'the writes of text that is refused' apply --text log.card returns.text
check 'there are none, and no sync' [ ! -e refused.log ]

# cuts; and a pass that was cut is completed with the same batch, also in its other form
apply=(apply --text) resume=(apply --text --resume)
both change <<<$'R 9 1 7\nA 8 9\nR 8 2 2\nR 5 1 5\nA 8 6\nA 1 1\nA 7 9'
both seeded <<<$'A 8 3\nA 8 2\nA 8 1\nA 7 4\nA 5 9\nA 5 2'
run 0 'grow, as text' apply --text another.card seeded.text
changed=$'1 1\n5 9\n7 4\n7 9\n8 1\n8 3\n8 6\n8 9'
cuts 'change, as text' another.card change.text "$changed"
for forms in 'apply --text,change.text,apply,change.batch' 'apply,change.batch,apply --text,change.text'; do
    IFS=, read -r begun first ended second <<<"$forms"
    read -ra begin <<<"$begun"
    read -ra end <<<"$ended"
    for write in 1 2 3 4 5 6; do
        fresh another.card
        kill_now "$write" after "$begun, write $write" "${begin[@]}" now/card "$first"
        run_now 0 "$begun, write $write, then $ended" "${end[@]}" now/card "$second"
        check "$begun, write $write, then $ended: the pairs" [ "$(pairs now/medium)" = "$changed" ]
    done
done

# ---- the standard streams

input=more.text
streams 0 2 kept.card apply --text stream.card more.text
streams 0 2 kept.card apply --text stream.card -
streams 1 1 kept.card apply --text stream.card returns.text
streams 2 2 kept.card apply --text stream.card 'no such.text'
streams 2 2 kept.card apply --text stream.card
