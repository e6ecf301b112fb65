# A part of host.sh: make install, a program built on what it lays down, and the page of the manual.

root=$here/../..
installed='bin/gamecard include/gameindex.h lib/libgameindex.a lib/pkgconfig/gameindex.pc share/man/man1/gamecard.1'
install_to() { expect 0 "make install $*" make -s -C "$root" install "$@"; } # ASSIGNMENTS..
laid() { # FOLDER PREFIX: the files are there and no others, and are what was built
    check "$1: the files" [ "$(cd "$1" && find . ! -type d | sed 's,^\./,,' | sort | tr '\n' ' ')" = "$installed " ]
    check "$1: the program" cmp -s "$1/bin/gamecard" "$root/target/gamecard"
    check "$1: it runs" [ "$("$1/bin/gamecard" --version)" = "gamecard $version" ]
    check "$1: the header" cmp -s "$1/include/gameindex.h" "$root/include/gameindex.h"
    check "$1: the library" cmp -s "$1/lib/libgameindex.a" "$root/target/staticlib/libgameindex.a"
    check "$1: the prefix" grep -qx "prefix=$2" "$1/lib/pkgconfig/gameindex.pc"
    check "$1: nothing is left to fill in" [ -z "$(grep -l '@' "$1/lib/pkgconfig/gameindex.pc" "$1/share/man/man1/gamecard.1")" ]
}
install_to PREFIX="$room/there"
laid there "$room/there"
install_to PREFIX="$room/there"
laid there "$room/there"
install_to DESTDIR="$room/stage" PREFIX=/opt/games
laid stage/opt/games /opt/games
check 'a stage: nothing beside it' [ "$(find stage -maxdepth 2 | sort | tr '\n' ' ')" = 'stage stage/opt stage/opt/games ' ]
install_to DESTDIR="$room/local"
laid local/usr/local /usr/local

# ---- a program of its own

cat >own.c <<'END'
#include <gameindex.h>
#include <inttypes.h>
#include <stdio.h>

int main(void) {
    uint32_t card[48];
    if (gi_format(card, 48, 8, 4) != GI_DONE || gi_judge(card, 48) != GI_DONE || gi_judge(card, 47) != GI_CARD_LENGTH)
        return 1;
    printf("%s\n%d.%d.%d\n", GI_VERSION, GI_VERSION_MAJOR, GI_VERSION_MINOR, GI_VERSION_PATCH);
    for (uint32_t number = 0; number <= 15; number++)
        printf("%s\n", gi_text(number));
    printf("%s\n", gi_text(UINT32_MAX));
    return 0;
}
END
export PKG_CONFIG_PATH=$room/there/lib/pkgconfig
check 'its version' [ "$(pkg-config --modversion gameindex)" = "$version" ]
# shellcheck disable=SC2046
expect 0 'build a program' gcc -std=c11 -Wall -Wextra -Werror -o own own.c $(pkg-config --cflags --libs gameindex)
expect 0 'run it' ./own
unset PKG_CONFIG_PATH
check 'the version, whole and in parts' [ "$(sed -n 1p out)" = "$version" -a "$(sed -n 2p out)" = "$version" ]
sed 1,2d out >texts
check 'a text for each number' [ "$(grep -c . texts)" -eq 17 ]
check 'another for each that a call gives' [ "$(head -n 15 texts | sort -u | wc -l)" -eq 15 ]
check 'the same for those that no call gives' [ "$(tail -n 2 texts | sort -u)" = 'a number that no call gives' ]
text_of() { sed -n "$(($1 + 1))p" texts; } # NUMBER
run 1 'judge a damaged card' judge live.card
check 'the judge has the text' has out echo "live.card: 4, $(text_of 4)"
run 1 'look up term 0' lookup case1.card 0
check 'lookup has the text' has err echo "case1.card: refused, number 9: $(text_of 9)"
run 1 'records that fall' apply case1.card order.batch
check 'apply has the text' grep -q ": refused, number 7: $(text_of 7)\$" err

# ---- the page of the manual

manual=there/share/man/man1/gamecard.1
sed 's/\\-/-/g; s/\\f[BIRP]//g; s/\\&//g; s/^\.[A-Z]* //; s/"//g' "$manual" >manual.text
if command -v groff >/dev/null; then
    expect 0 'render it' groff -man -Tascii -ww -P-cbou "$manual"
    check 'without a warning' [ ! -s err ]
    mv out manual.text
fi
if command -v man >/dev/null; then
    expect 0 'show it' man --warnings -l "$manual"
    check 'show it: without a warning' [ ! -s err ]
fi
sed -En 's/^  ([a-z]+) .*[A-Z].*/\1/p' usage >names
check 'eleven commands' [ "$(wc -l <names)" -eq 11 ]
while read -r name; do
    check "the manual on $name" grep -Eq "^ *$name .*[A-Z]" manual.text
done <names
grep -Eo -- '--[a-z]+|^  -[a-z]' usage | tr -d ' ' | sort -u >names
check 'options and their letters' [ "$(wc -l <names)" -ge 12 ]
while read -r name; do
    check "the manual on $name" grep -Eq -- "(^|[^-a-z])$name([^-a-z]|\$)" manual.text
done <names
check 'the manual has the version' grep -qF "$version" "$manual"
for status in 0 1 2 3; do check "the manual on status $status" grep -Eq "^ *$status( |\$)" manual.text; done

# ---- what the header says of memory and of threads

check 'the library has no memory of its own' [ -z "$(nm there/lib/libgameindex.a | awk 'NF > 1 && $(NF - 1) ~ /^[BbCDdGgSs]$/')" ]
check 'what it needs of the C library' grep -qxE '(memcpy )?memset ' <<<"$(nm -u there/lib/libgameindex.a | awk 'NF == 2 { print $2 }' | sort | tr '\n' ' ')"
