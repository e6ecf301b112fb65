#!/usr/bin/env bash
# A round's day with a card, from the empty card to the archive, with a cut in the middle of a
# batch: day.sh PROGRAM FOLDER. The folder is made anew; it has the card and the files afterwards.
set -eu -o pipefail
export LC_ALL=C
program=$(readlink -f -- "${1:?usage: day.sh PROGRAM FOLDER}")
folder=${2:?usage: day.sh PROGRAM FOLDER}
gamecard() { "$program" "$@"; }
rm -rf -- "$folder" && mkdir -p -- "$folder" && cd -- "$folder"

say() { printf '\n-- %s\n' "$*"; }
show() { # COMMAND: shows it as it would be typed, and runs it
    printf '$ %s\n' "$1"
    eval "$1" 2>&1
}

# Running numbers FIRST to LAST as a scorekeepers' file: each game under its two players, of whom
# there are 300, and its opening, one of 80.
games() { # FIRST LAST
    awk -v first="$1" -v last="$2" 'BEGIN {
        for (game = first; game <= last; game++) {
            white = game * 7 % 300 + 1; black = (game * 11 + 5) % 300 + 1
            printf "A\t%d\t%d\nA\t%d\t%d\nA\t%d\t%d\n", white, game, black, game, 1000 + game * game % 80, game
        }
    }'
}

# Applies a file and kills the run, with no chance to tidy up, as soon as its pass is open.
cut_short() { # CARD FILE
    for _ in 1 2 3 4 5 6 7 8 9; do
        "$program" apply --quiet --text "$1" "$2" &
        until [ "$(od -An -tu4 -j20 -N4 "$1" | tr -d ' ')" != 0 ] || ! kill -0 $! 2>/dev/null; do :; done
        kill -KILL $! 2>/dev/null || :
        wait $! 2>/dev/null || :
        if gamecard judge "$1" | grep -q 'a pass is open'; then return; fi
        cp "$1.before" "$1" # the run was done before it could be killed: once more
    done
    echo 'the run was always faster than the cut' && return 1
}

games 1 2000 >season.scores
games 2001 2100 >round1.scores
games 2101 2200 >round2.scores

say 'in the morning: a card (of small blocks, which make a long pass to cut), and the season so far'
show 'gamecard format event.card 32 512'
show 'gamecard apply --quiet --text event.card season.scores'

say "round 1 is over: its games, each under White, Black and the opening"
show 'head -n 3 round1.scores'
show 'gamecard fits --text event.card round1.scores'
show 'gamecard apply --text event.card round1.scores | sed -n 1p'

say 'a captain asks for the games of player 7 since round 1'
show 'gamecard lookup event.card 7 --from 2001'

say 'the press desk prints all of them'
show 'gamecard page event.card 7'

say 'round 2: somebody pulls the plug while its games are put in'
cp event.card event.card.before
printf '$ gamecard apply --text event.card round2.scores\n'
cut_short event.card round2.scores
rm event.card.before
echo '(killed)'
show 'gamecard judge event.card'
show 'gamecard lookup --quiet event.card 7 --from 2001'

say 'the power is back: the same command goes on where it was'
show 'gamecard apply --text event.card round2.scores | sed -n 1p'
show 'gamecard judge event.card'
show 'gamecard lookup event.card 7 8 --from 2001'

say 'the same day on a card that was never cut: the same index'
gamecard format --quiet uncut.card 32 512
for file in season round1 round2; do gamecard apply --quiet --text uncut.card $file.scores; done
show 'gamecard dump event.card >event.pairs'
show 'gamecard dump uncut.card | cmp - event.pairs && wc -l <event.pairs'

say 'game 2150 was scored for the wrong player, and the last ten games are annulled'
show "printf 'R\t51\t2150\t2150\nA\t8\t2150\n' | gamecard apply --text --quiet event.card -"
show 'gamecard annul --quiet event.card 2191 2200'

say 'the archive: how full is the card, which terms does it have'
show 'gamecard show event.card | sed -n 1,18p'
show 'gamecard terms event.card | sed -n 1,3p'
