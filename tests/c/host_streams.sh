# A part of host.sh: standard streams that are closed, and output that cannot be written.

# the command with those of the streams 0, 1 and 2 closed that are named
closed() { # STREAMS COMMAND..
    (
        case $1 in *0*) exec <&- ;; esac
        case $1 in *1*) exec >&- ;; esac
        case $1 in *2*) exec 2>&- ;; esac
        exec "${@:2}"
    )
}
full() { "$program" "$@" >/dev/full; }

lay() { # CARD: stream.card is the card, with its note where it has one, or is not there
    rm -f stream.card stream.card.pass
    if [ -n "$1" ]; then cp "$1" stream.card; fi
    if [ -e "$1.pass" ]; then cp "$1.pass" stream.card.pass; fi
}
lies() { # CARD: stream.card is the card, and its note, or not there
    if [ -n "$1" ]; then cmp -s stream.card "$1"; else [ ! -e stream.card ]; fi &&
        if [ -e "$1.pass" ]; then cmp -s stream.card.pass "$1.pass"; else [ ! -e stream.card.pass ]; fi
}

input=one.batch # standard input of every run

# A command makes of the card what it makes with all streams open. Where standard
# output is closed or full its exit status is 2, if it had something to show there;
# else all is as it was. A batch from a standard input that is closed is none: the
# card stands. Output is written at the end or, as stdbuf has it, line by line.
streams() { # STATUS LOST CARD COMMAND..: the exit status, that without standard output, the card before, the command
    local status=$1 lost=$2 card=$3 words=("${@:4}") made='' names
    lay "$card"
    run "$status" "${words[*]}" "${words[@]}" <"$input"
    cp err said
    rm -f made.card made.card.pass
    if [ -e stream.card ]; then mv stream.card made.card && made=made.card; fi
    if [ -e stream.card.pass ]; then mv stream.card.pass made.card.pass; fi
    for names in '' 0 1 2 01 02 12 012; do
        close_streams "$names" "$program"
        close_streams "$names" stdbuf -oL "$program"
    done
    lay "$card"
    expect "$lost" "${words[*]}, full" full "${words[@]}" <"$input"
    check "${words[*]}, full: the card" lies "$made"
    check "${words[*]}, full: it says so" says output
}
close_streams() { # STREAMS PROGRAM..: one run of the command, with these closed
    local names=$1 expected=$status after=$made
    local what="${words[*]}, closed: ${names:-none}"
    case $names in *1*) expected=$lost ;; esac
    case ${words[-1]}$names in -0*) expected=2 after=$card ;; esac
    lay "$card"
    expect "$expected" "$what" closed "$@" "${words[@]}" <"$input"
    check "$what: the card" lies "$after"
    case $names in 1 | 01) check "$what: it says so" says '(in|out)put' ;; esac
}
says() { # STREAM: what was to be shown is lost, and the message names the stream; or it is as it was
    if [ "$lost" -eq 2 ]; then grep -Eq "standard $1: |no such|usage" err; else cmp -s err said; fi
}

cp case1.card kept.card
streams 0 2 '' format stream.card 8 4
streams 0 2 used.card format stream.card 8 4
streams 1 1 kept.card format stream.card 8 5
streams 1 1 kept.card format stream.card 8 4
streams 0 2 kept.card format --force stream.card 8 4
streams 0 2 kept.card judge stream.card
streams 1 2 live.card judge stream.card
streams 0 2 kept.card show stream.card
streams 0 2 kept.card lookup stream.card 5
streams 0 0 kept.card lookup stream.card 4
streams 1 1 kept.card lookup stream.card 0
streams 0 2 kept.card page stream.card 5
streams 0 2 long.card page stream.card 5
streams 0 0 kept.card page stream.card 4
streams 1 1 kept.card page stream.card 0
streams 1 1 live.card page stream.card 5
streams 0 2 kept.card apply stream.card more.batch
streams 0 2 new.card apply stream.card -
streams 1 1 kept.card apply stream.card order.batch
streams 2 2 kept.card apply stream.card 'no such.batch'
streams 2 2 kept.card frobnicate stream.card
expect 2 'help, closed: 1' closed 1 "$program" help
expect 2 'help, full' full help
