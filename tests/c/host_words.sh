# A part of host.sh: the words of the command line: help, the version, options anywhere, misuse, --quiet.

# ---- help, of the program and of each command

forms=('format [--force] CARD B N' 'apply [--text] [--resume] [--anyway] CARD BATCH' 'annul [--resume] [--anyway] CARD FROM TO'
    'fits [--text] CARD BATCH' 'lookup [--from F] [--to T] CARD TERM..' 'page [--from F] [--to T] CARD TERM..' 'terms CARD'
    'dump CARD' 'show CARD' 'judge CARD' 'convert OLD NEW')
statuses() { [ "$(sed -n '/^exit status/,$p' "$1" | grep -ow '[0-9]' | sort -u | tr -d '\n')" = 0123 ]; } # FILE: they are told
# the options that a file shows, one to a line, sorted
shown_options() { sed -En 's/^  (-[a-z], )?(--[a-z]+)( [A-Z]+)?  .*/\1\2\3/p' "$1" | sort; }

printf '%s\n' "${forms[@]}" >expected
check 'the forms of all commands, in their order' has expected sed -En 's/^  ([a-z]+ .*[A-Z].*)/\1/p' usage
printf '%s\n' --text --resume --anyway --force '--from F' '--to T' '--wait SECONDS' '-q, --quiet' '-h, --help' | sort >expected
check 'the options of all commands' has expected shown_options usage
check 'the exit statuses' statuses usage
for words in help --help -h; do
    run 0 "$words" $words
    check "$words: the whole help" cmp -s out usage
    check "$words: nothing else is shown" [ ! -s err ]
done
for form in "${forms[@]}"; do
    command=${form%% *}
    run 0 "help $command" help "$command"
    check "help $command: its form" begins out "^usage: gamecard ${form//[/\\[}\$"
    check "help $command: what it does" grep -qxF "$(grep -A 1 "^  $command " usage | sed -n 's/^      //p')" out
    {
        grep -o -- '--[^]]*' <<<"$form" | tr -d ']'
        printf '%s\n' '-q, --quiet' '-h, --help'
        if [ "$command" != convert ]; then echo '--wait SECONDS'; fi
    } | sort >expected
    check "help $command: its options" has expected shown_options out
    check "help $command: the exit statuses" statuses out
    check "help $command: nothing else is shown" [ ! -s err ]
    mv out asked
    cp case1.card word.card
    for words in "help $command more words" "$command -h" "$command --help" "$command --help word.card one.batch 5 --frob" \
        "$command word.card -h" "$command word.card one.batch 9 --help" "$command --frob --wait -h" \
        "$command none.file 8 4 -h" "$command -q word.card 8 4 --force -h" "$command word.card one.batch --help=5 -h"; do
        # shellcheck disable=SC2086
        run 0 "$words" $words
        check "$words: its help" cmp -s out asked
        check "$words: nothing else is shown" [ ! -s err ]
        check "$words: nothing else is done" [ "$(cmp word.card case1.card)" = '' -a ! -e none.file ]
    done
done
version=$(printf '#include "gameindex.h"\nGI_VERSION\n' | gcc -E -P -I"$here/../../include" - | tail -n 1 | tr -d '"')
run 0 'the version' --version
check 'the version is the header'"'"'s' has out echo "gamecard $version"
check 'the version alone' [ "${#version}" -ge 5 -a ! -s err ]

# ---- options anywhere, with values in both forms

printf 'A\t8\t1\nR\t7\t9\t3\n' >word.text # an addition, and a range with no game in it
alike() { # STATUS WORDS OTHER..: what each of the others does, shows and leaves of word.card is what the first does
    local words
    for words in "${@:2}"; do
        cp case1.card word.card
        # shellcheck disable=SC2086
        run "$1" "$words" $words <word.text
        if [ "$words" = "$2" ]; then mv out first.out && mv err first.err && mv word.card first.card && continue; fi
        check "$words: as $2" eval 'cmp -s out first.out && cmp -s err first.err && cmp -s word.card first.card'
    done
}
cp word.text ./--text
cp word.text ./--
cp word.text ./-q
alike 0 'apply --text --wait 5 word.card word.text' 'apply word.card word.text --text --wait 5' \
    'apply word.card --text word.text --wait=5' 'apply --wait=5 word.card word.text --text' 'apply --text -- word.card word.text' \
    'apply word.card --wait 5 word.text --text' 'apply --text word.card -- word.text' 'apply word.card word.text --text --' \
    'apply word.card --text --text word.text' 'apply --text word.card -- --text' 'apply --text word.card -- --' \
    'apply --text word.card -- -q' 'apply word.card - --text' 'apply --text word.card -- -' 'apply word.card --text -'
alike 0 'format --force word.card 8 4' 'format word.card --force 8 4' 'format word.card 8 --force 4' 'format word.card 8 4 --force'
alike 0 'annul --resume --anyway word.card 4 9' 'annul word.card 4 9 --anyway --resume' 'annul word.card --resume 4 --anyway 9'
alike 0 'fits --text word.card word.text' 'fits word.card word.text --text' 'fits word.card --text word.text --wait=0'
alike 0 'lookup --from 3 --to 9 word.card 5' 'lookup word.card 5 --from=3 --to=9' 'lookup word.card --to 9 5 --from 3' \
    'lookup --to=9 word.card --from=3 -- 5' 'lookup --from=003 word.card 5 --to=9 --wait 0' 'lookup word.card 5 3 9'
alike 0 'page --from 3 --to 9 word.card 5' 'page word.card --from=3 5 --to=9' 'page --wait=1 word.card 5 3 9'
for command in terms dump show judge; do
    alike 0 "$command --wait 5 word.card" "$command word.card --wait 5" "$command word.card --wait=5" "$command -- word.card" \
        "$command word.card --" "$command word.card"
done
cp case1.card ./--help
alike 0 'dump word.card' 'dump -- --help' 'dump --wait 5 -- --help'

# one dash: an option only as -h and -q
for word in -x -qh -q=1 -h=1 -hq -Q; do
    faulty "judge $word" "$word: No such file or directory" judge $word
    faulty "judge word.card $word" "judge: a word too many: $word"$'\n'"$(usage_of judge)" judge word.card $word
done
faulty 'a term with a dash' "TERM: '-5' $no_word" lookup word.card -5

# ---- misuse

while read -r command options; do
    for option in $options --frob --fro --Text ---- --quiet=1 --quiet= --help=1; do
        misused "$command $option first" "it has no option $option" "$command" "$option" word.card 5 9
        misused "$command $option last" "it has no option $option" "$command" word.card 5 9 "$option"
    done
done <<'END'
format --text --resume --anyway --from --to --force=1
apply --force --from=1 --to --text=x --resume= --anyway=1
annul --force --text --from --to=9 --resume=1
fits --force --resume --anyway --from --to --text=
lookup --force --resume --anyway --text
page --force --resume --anyway --text
terms --force --resume --anyway --text --from --to
dump --force --resume --anyway --text --from --to
show --force --resume --anyway --text --from --to
judge --force --resume --anyway --text --from --to
convert --force --resume --anyway --text --from --to --wait --wait=5
END
for command in lookup page; do
    misused "$command: no value behind --from" 'a word is missing: F' $command word.card 5 --from
    misused "$command: no value behind --to" 'a word is missing: T' $command --from 3 word.card 5 --to
    misused "$command: no value behind --wait" 'a word is missing: SECONDS' $command word.card 5 --wait
    misused "$command: no card" 'a word is missing: CARD' $command --from 3 --to 9
    misused "$command: no term" 'a word is missing: TERM' $command --from 3 word.card --to 9
    for value in '' x -1 4294967296 --to --; do
        faulty "$command: --from '$value'" "F: '$value' $no_word" $command word.card 5 --from "$value"
        faulty "$command: --to='$value'" "T: '$value' $no_word" $command "--to=$value" word.card 5
    done
done
faulty 'options behind --' "TERM: '--from' $no_word" lookup word.card -- 5 --from
misused 'an option as a word' 'a word too many: --wait' judge -- word.card --wait 5
check 'nothing is changed by misuse' cmp -s word.card case1.card

# ---- --quiet: success is silent but for answers

quietly() { # STATUS OUT ERR WORDS..: -q and --quiet change nothing but the streams that are 'none', which are else 'same'
    local words="${*:4}" form
    for form in "$words" "$words -q" "${words/ / --quiet }"; do
        rm -rf quiet && mkdir quiet
        cp case1.card quiet/card && cp two.card quiet/full && cp wrapped.card quiet/open
        # shellcheck disable=SC2086
        run "$1" "$form" $form <more.batch
        if [ "$form" = "$words" ]; then
            rm -rf loud && mv quiet loud && mv out loud.out && mv err loud.err
            continue
        fi
        check "$form: what it leaves" diff -rq quiet loud
        if [ "$2" = none ]; then : >loud.out; fi
        if [ "$3" = none ]; then : >loud.err; fi
        check "$form: standard output" cmp -s out loud.out
        check "$form: standard error" cmp -s err loud.err
    done
}
batch old.lines 1 5 1 1
head -c 16 old.lines >old.batch # a record of four words
quietly 0 none none format quiet/new 8 4
quietly 0 none none format --force quiet/card 8 4
quietly 0 none none apply quiet/card more.batch
quietly 0 none none apply quiet/card -
quietly 0 none none apply quiet/card word.text --text
quietly 0 none none apply quiet/open more.batch --resume
quietly 0 none none annul quiet/card 4 9
quietly 0 none none annul quiet/card 9 4
quietly 0 none none fits quiet/card more.batch
quietly 0 none none fits quiet/card word.text --text
quietly 0 none none fits quiet/open more.batch
quietly 0 none none judge quiet/card
quietly 0 none none judge quiet/open
quietly 0 none none convert old.batch quiet/new
quietly 0 same none lookup quiet/card 5
quietly 0 same none lookup quiet/card 5 7 4 8
quietly 0 same none page quiet/card 5
for command in dump terms show; do
    quietly 0 same none $command quiet/card
    quietly 0 same none $command quiet/open
done

# refusals, faults and what does not fit are told as without it
quietly 1 same same judge live.card
quietly 1 same same show live.card
for words in 'dump live.card' 'terms live.card' 'lookup live.card 5' 'page live.card 5' 'lookup quiet/card 5 0' 'page quiet/card 0' \
    'apply live.card more.batch' 'apply quiet/card order.batch' 'apply quiet/full more.batch' 'apply quiet/open more.batch' \
    'apply quiet/card many.batch' 'annul quiet/card 0 9' 'annul live.card 4 9' 'fits quiet/card order.batch' \
    'format quiet/card 8 4' 'format quiet/new 7 4' 'convert part.batch quiet/new'; do
    # shellcheck disable=SC2086
    quietly 1 same same $words
    check "$words: it says why" [ -s loud.err ]
done
quietly 3 same same fits quiet/full more.batch
check 'fits says what does not fit' [ -s loud.out -o -s loud.err ]
quietly 1 none same apply --anyway quiet/full more.batch
for words in 'judge none.card' 'apply quiet/card none/one.batch' 'format none/new.card 8 4' 'lookup quiet/card five' 'dump' \
    'terms quiet/card more' 'convert none.file quiet/new'; do
    # shellcheck disable=SC2086
    quietly 2 same same $words
done
cp case1.card quiet/card
script -qec "'$program' apply quiet/card more.batch --quiet" /dev/null >out </dev/null
check 'no progress on a terminal' [ ! -s out ]
check 'it is applied' [ "$(pairs quiet/card)" = $'5 2\n5 9\n7 4\n8 1' ]
