#!/usr/bin/env bash
# Compares the program with a reader written from docs/FORMAT.md alone, on hundreds of cards: compare.sh PROGRAM READER MAKER
# MAKER makes the cards (make_cards.c). Prints each failing check and, as its last line, 'N passed, M failed'.
set -u
export LC_ALL=C
program=$(readlink -f -- "${1:?PROGRAM}") reader=$(readlink -f -- "${2:?READER}") maker=$(readlink -f -- "${3:?MAKER}")
room=$(mktemp -d) || exit 1
copies=$(mktemp -d -p /dev/shm 2>/dev/null || mktemp -d) || exit 1 # cards to apply to: in memory, since each write is synced
trap 'rm -rf "$room" "$copies"' EXIT
cd "$room" || exit 1
mkdir made said read # the cards; what the program says of them, in the reader's form; what the reader says

passed=0 failed=0
check() { # WHAT COMMAND..: the command must succeed
    local what=$1
    shift
    if "$@"; then passed=$((passed + 1)); else
        failed=$((failed + 1))
        echo "FAILED: $what"
    fi
}
declare -A met
meet() { met[$1]=$((${met[$1]:-0} + 1)); } # KIND: counts how often it came

ask() { # NAME WORDS..: a question for the reader, whose answer is to be said/NAME
    local IFS=$'\t'
    echo "$*" >>questions
}
run() { # FILE WORDS..: the program, its standard output added to the file; told is its number, or what is at fault
    local line
    "$program" "${@:2}" >>"$1" 2>err
    case $? in
    0) told=0 ;;
    1) read -r line <err && [[ $line =~ 'refused, number '([0-9]+): ]] && told=${BASH_REMATCH[1]} || told="no number: $line" ;;
    2) read -r line <err && [[ $line =~ 'not a whole number of 32-bit words' ]] && told='no words' || told="fault: $line" ;;
    *) told=fault ;;
    esac
}

judge() { # sets number, 'no card' where the file is none
    local line
    "$program" judge "$card" >shown 2>err
    case $? in
    0 | 1) read -r line <shown && line=${line#"$card: "} && number=${line%%,*} ;;
    2) number='no card' ;;
    *) number=fault ;;
    esac
    echo "$number" >"said/$name.judge"
    ask "$name.judge" judge "$card"
    meet "number $number"
    if [ "$number" != 0 ]; then meet refused; fi
}
list() { # COMMAND: dump or terms, which gives the judge's number, and nothing else of a card that is not sound
    echo "# $number" >"said/$name.$1"
    run "said/$name.$1" "$1" "$card"
    check "$name: $1 gives $told, the judge $number" [ "${told/words/card}" = "$number" ]
    ask "$name.$1" "$1" "$card"
}
look_up() { # every term of the card in one question, which is the dump again
    echo '# 0' >"said/$name.looked"
    run "said/$name.looked" lookup --from 1 "$card" "${terms[@]}"
    ask "$name.looked" dump "$card"
    meet 'terms looked up'
}
page() { # of one term
    local term=${terms[passed % ${#terms[@]}]}
    run "said/$name.page" page "$card" "$term"
    ask "$name.page" page "$card" "$term"
}
after() { # FILE [--text]: the dump of a copy to which the file was applied
    cp "$card" "$copies/$name.card"
    run /dev/null apply --resume "${@:2}" "$copies/$name.card" "$1"
    meet "applied, $told"
    if [ $# -eq 2 ] && [ "$(wc -l <"$1")" -gt 4096 ]; then meet "in parts, $told"; fi
    if [ $# -eq 1 ] && [ "$number" = 0 ]; then
        ask "$name.batch" batch "$1"
        case $told in 'no words') echo 'no batch' ;; 8) echo 0 ;; *) echo "$told" ;; esac >"said/$name.batch"
    fi
    case $told in
    8 | 'no words') return ;; # no room, of which the page does not tell; no batch
    0) run "said/$name.after" dump "$copies/$name.card" ;;
    *) echo "# $told" >"said/$name.after" ;;
    esac
    ask "$name.after" after "${@:2}" "$card" "$1"
}

"$maker" made || exit 1
names=() sound=() i=0
for card in made/*.card; do
    name=${card#made/} name=${name%.card}
    judge
    list dump
    list terms
    if [ "$number" = 'no card' ]; then continue; fi
    if [ -e "made/$name.batch" ]; then after "made/$name.batch"; fi
    if [ -e "made/$name.text" ]; then after "made/$name.text" --text; fi
    if [ "$number" != 0 ]; then continue; fi
    names+=("${name%-*}") sound+=("$card")
    mapfile -t -s 1 terms <"said/$name.terms"
    terms=("${terms[@]%%$'\t'*}")
    if [ ${#terms[@]} -gt 0 ]; then page; fi
    if [ ${#terms[@]} -gt 1 ] && [ ${#terms[@]} -lt 500 ]; then look_up; fi
done

# ---- the reader's answers, all from one process

python3 - "$reader" <<'END' || echo 'FAILED: the reader did not come to its end'
import contextlib, sys

reader = sys.argv[1]
code = compile(open(reader).read(), reader, 'exec')
for question in open('questions'):
    name, *words = question.rstrip('\n').split('\t')
    sys.argv = [reader] + words
    with open('read/' + name, 'w') as answer, contextlib.redirect_stdout(answer):
        try:
            exec(code, {'__name__': '__main__'})
        except SystemExit as end:
            if end.code:
                print('exit status', end.code)
        except Exception as fault:
            print('exception', repr(fault))
END
diff -rq said read | sed 's/^/FAILED: /' | tee differing
failed=$((failed + $(wc -l <differing)))
passed=$((passed + $(wc -l <questions) - $(wc -l <differing)))

# ---- each kind came often enough

head -qc 32 "${sound[@]}" | od -An -v -tu4 --endian=little -w32 >configurations
while read -r _ b n start old new _; do
    name=${names[i++]}
    if [ "$new" -gt 0 ]; then meet open && meet "$name"; else meet rest; fi
    if [ $((old + new)) -eq 0 ]; then meet empty; fi
    if [ "$new" -gt 0 ] && [ "$old" -eq 0 ]; then meet 'open without old places'; fi
    if [ $((start + old)) -gt "$n" ]; then meet 'old segment round the circle'; fi
    if [ $(((start + old) % n + new)) -gt "$n" ]; then meet 'new segment round the circle'; fi
    if [ $((b * n)) -eq 1048576 ]; then meet largest; fi
done <configurations
while read -r -d ';' times kind; do
    check "$kind: ${met[$kind]:-0} times, expected $times" [ "${met[$kind]:-0}" -ge "$times" ]
done <<'END'
250 open; 150 rest; 150 refused; 10 empty; 2 largest; 60 open-block; 60 open-map; 60 open-configuration; 60 open-full;
30 laid-open; 30 open without old places; 40 old segment round the circle; 20 new segment round the circle; 400 terms looked up;
15 number 1; 8 number 2; 8 number 3; 60 number 4; 15 number no card;
400 applied, 0; 15 applied, 6; 4 applied, 7; 4 applied, 14; 15 applied, 12; 4 applied, no words; 2 in parts, 0; 1 in parts, 12;
END
for kind in "${!met[@]}"; do echo "$kind: ${met[$kind]}"; done | sort
echo "$passed passed, $failed failed"
[ "$failed" -eq 0 ]
