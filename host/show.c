/* Shows a card file as a whole. */
#include <inttypes.h>
#include <stdio.h>

#include "card_file.h"
#include "gamecard.h"
#include "gameindex.h"
#include "walk.h"

/* Shows what the index of a sound card holds, and how full the card is. */
static void show_index(const uint32_t *card) {
    uint32_t places = card[GI_CONFIG_PLACES];
    uint32_t live = card[GI_CONFIG_OLD_LENGTH] + card[GI_CONFIG_NEW_LENGTH];
    uint64_t room = (uint64_t)live * card[GI_CONFIG_BLOCK_WORDS];
    uint64_t pairs = 0;
    uint64_t terms = 0;
    uint32_t term = 0;
    struct walk walk = walk_over(card);
    struct run run;
    while (walk_next(&walk, &run)) {
        pairs += run.count;
        terms += run.term != term;
        term = run.term;
    }
    printf("\nindex\n");
    printf("  %-20s %10" PRIu64 "\n", "pairs", pairs);
    printf("  %-20s %10" PRIu64 "\n", "terms", terms);
    printf("  %-20s %10" PRIu32 "  of %" PRIu32 "\n", "free places", places - live, places);
    printf("  %-20s %10" PRIu64 "  of %" PRIu64 " in live blocks", "words in use", walk.entries, room);
    if (room > 0)
        printf(", %" PRIu64 " %%", 100 * walk.entries / room);
    printf("\n");
}

/* Shows each place of a sound card as a letter. */
static void show_circle(const uint32_t *card) {
    enum { LINE = 64 };
    uint32_t places = card[GI_CONFIG_PLACES];
    uint32_t old_length = card[GI_CONFIG_OLD_LENGTH];
    uint32_t live = old_length + card[GI_CONFIG_NEW_LENGTH];
    printf("\nplaces: o old, n new, . free; after the last comes place 0 again");
    for (uint32_t place = 0; place < places; place++) {
        uint32_t ahead = (place + places - card[GI_CONFIG_OLD_START]) % places;
        if (place % LINE == 0)
            printf("\n%6" PRIu32 "  ", place);
        putchar(ahead < old_length ? 'o' : ahead < live ? 'n' : '.');
    }
    printf("\n");
}

/* Shows the map entries of a segment of a sound card. */
static void show_segment(const uint32_t *card, const char *name, uint32_t start, uint32_t length) {
    for (uint32_t i = 0; i < length; i++) {
        uint32_t place = (start + i) % card[GI_CONFIG_PLACES];
        const uint32_t *entry = card + GI_CONFIG_WORDS + (size_t)place * GI_MAP_ENTRY_WORDS;
        printf("  %5" PRIu32 "  %-7s  %10" PRIu32 "  %14" PRIu32 "\n", place, name, entry[0], entry[1]);
    }
}

/* Shows the live places of a sound card, around the circle. */
static void show_live_places(const uint32_t *card) {
    uint32_t old_start = card[GI_CONFIG_OLD_START];
    uint32_t old_length = card[GI_CONFIG_OLD_LENGTH];
    uint32_t new_length = card[GI_CONFIG_NEW_LENGTH];
    if (old_length + new_length == 0) {
        printf("\nlive places: none\n");
        return;
    }
    printf("\nlive places\n  %5s  %-7s  %10s  %14s\n", "place", "segment", "first term", "first position");
    show_segment(card, "old", old_start, old_length);
    show_segment(card, "new", old_start + old_length, new_length);
}

/* Whether a file is a card, sound or not: it has the length that its first words ask
 * for. Of another file the first words are no configuration. */
static bool is_card(const struct card_file *card) {
    const uint32_t *words = card->words;
    if (card->length < GI_CONFIG_WORDS || words[GI_CONFIG_FORMAT] != GI_FORMAT)
        return false;
    uint32_t b = words[GI_CONFIG_BLOCK_WORDS];
    uint32_t n = words[GI_CONFIG_PLACES];
    return b <= GI_BLOCK_WORDS_MAX && n <= GI_PLACES_MAX && card->length == gi_card_words(b, n);
}

int run_show(const struct options *options, char **words) {
    struct card_file card;
    int status = card_open(&card, words[0], false, options->wait);
    if (status != EXIT_DONE)
        return status;
    status = card_verdict(&card, true);
    if (status == EXIT_DONE) {
        show_index(card.words);
        show_circle(card.words);
    }
    if (is_card(&card))
        show_configuration(card.words);
    if (status == EXIT_DONE)
        show_live_places(card.words);
    card_close(&card);
    return status;
}
