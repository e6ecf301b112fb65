/* Makes card files of many kinds, the same ones at every run: make_cards FOLDER
 *
 * Beside NAME.card stands what is to be applied to it, NAME.batch or NAME.text. The
 * first word of a name is the card's kind:
 *
 *   empty, rest, bad, text   sound; a bad batch has a fault, every second text may have one
 *   open                     sound, in mid-pass, with the write that came last; full where none could follow
 *   laid, largest            sound, with blocks that no pass would lay so
 *   damaged, random          a sound card with a fault; random words
 */
#include <inttypes.h>
#include <stdbool.h>
#include <stdio.h>
#include <stdlib.h>
#include <string.h>

#include "draw.h"
#include "gameindex.h"

static const char *folder;
static uint32_t card[GI_CARD_WORDS_MAX];
static size_t card_len;
static uint32_t batch[GI_RECORD_WORDS * (GI_BATCH_RECORDS_MAX + 1)];
static size_t batch_len;
static char text[1 << 20];
static size_t text_len;

static uint32_t terms, positions; /* the highest that are drawn for the card in hand, but for a few */

/* ---- files */

static void save(const char *kind, uint32_t i, const char *suffix, const void *bytes, size_t count) {
    char path[4096];
    snprintf(path, sizeof path, "%s/%s-%03" PRIu32 "%s", folder, kind, i, suffix);
    FILE *file = fopen(path, "wb");
    if (file == NULL || fwrite(bytes, 1, count, file) != count || fclose(file) != 0) {
        perror(path);
        exit(1);
    }
}

static void save_card(const char *kind, uint32_t i, size_t bytes_cut) {
    save(kind, i, ".card", card, card_len * sizeof *card - bytes_cut);
}

static void save_batch(const char *kind, uint32_t i, size_t bytes_cut) {
    save(kind, i, ".batch", batch, batch_len * sizeof *batch - bytes_cut);
}

/* ---- batches and texts */

/* By term, then from; records alike in both by kind and arrival, so that every run has them so. */
static int by_term_then_from(const void *a, const void *b) {
    static const int order[] = {1, 2, 0, 4};
    for (size_t i = 0; i < sizeof order / sizeof *order; i++) {
        uint32_t x = ((const uint32_t *)a)[order[i]];
        uint32_t y = ((const uint32_t *)b)[order[i]];
        if (x != y)
            return x < y ? -1 : 1;
    }
    return 0;
}

/* A good batch, which arrived in the order in which it is drawn. */
static void draw_batch(uint32_t records) {
    static const uint32_t kinds[] = {1, 1, 1, 1, 1, 1, 1, 1, 2, 2, 2, 3};
    uint32_t apart = once_in(2) ? 1 : 1 + draw(1000000);
    for (uint32_t i = 0; i < records; i++) {
        uint32_t *record = batch + (size_t)i * GI_RECORD_WORDS;
        record[0] = kinds[draw(sizeof kinds / sizeof *kinds)];
        record[1] = record[0] == GI_RECORD_ANNUL ? 0 : draw_number(terms);
        record[2] = draw_number(positions);
        record[3] = record[0] == GI_RECORD_ADD ? record[2] : draw_end(record[2], positions);
        record[4] = i + 1 == records && once_in(4) ? GI_HIGHEST : (i + 1) * apart;
    }
    qsort(batch, records, GI_RECORD_WORDS * sizeof *batch, by_term_then_from);
    batch_len = (size_t)records * GI_RECORD_WORDS;
}

static bool batch_fits(void) {
    uint32_t blocks, limit, finishes, writes;
    gi_forecast(card, card_len, batch, batch_len, &blocks, &limit, &finishes, &writes);
    return finishes != 0;
}

/* A good batch that the card has room for; one of no records always fits. */
static void draw_fitting(void) {
    uint32_t records = 1 + draw(least(300, (uint32_t)card_len / 3));
    do {
        draw_batch(records);
        records /= 2;
    } while (!batch_fits());
}

static void draw_text(uint32_t lines) {
    text_len = 0;
    for (uint32_t i = 0; i < lines; i++) {
        uint32_t term = draw_number(terms);
        uint32_t from = draw_number(positions);
        bool removes = once_in(4);
        text_len += (size_t)sprintf(text + text_len, "%c\t%" PRIu32 "\t%" PRIu32, removes ? 'R' : 'A', term, from);
        if (removes)
            text_len += (size_t)sprintf(text + text_len, "\t%" PRIu32, draw_end(from, positions));
        text[text_len++] = '\n';
    }
    text_len -= text_len > 0 && once_in(4); /* the last line feed may be left out */
}

/* Adds a line with an odd figure, or changes a byte. */
static void spoil_text(uint32_t way) {
    static const char *const lines[] = {"A\t%s\t5\n", "A\t5\t%s\n", "R\t5\t1\t%s\n"};
    static const char *const figures[] = {"0", "01", "4294967296", "4294967295", "", "-1", "1 ", "7\t7", "99999999999"};
    if (way % 2 == 0)
        text_len += (size_t)sprintf(text + text_len, lines[way % 3], figures[way / 2 % 9]);
    else
        text[draw(text_len)] = "\t\n\r 0-AR"[draw(8)];
}

/* ---- cards by the library */

static void new_card(uint32_t b, uint32_t n) {
    card_len = gi_card_words(b, n);
    bool used = once_in(2);
    for (size_t i = 0; i < card_len; i++)
        card[i] = used ? draw_word() : 0;
    gi_format(card, card_len, b, n);
    terms = 1 + draw((uint32_t[]){2, 6, 20, 1000}[draw(4)]);
    positions = 2 + draw((uint32_t[]){8, 40, 100000}[draw(3)]);
}

/* An empty card, mostly a small one. */
static void draw_card(void) {
    static const uint32_t spans[][2] = {{9, 8}, {9, 8}, {9, 8}, {9, 8}, {60, 30}, {1017, 8}, {5, 1023}};
    const uint32_t *span = spans[draw(sizeof spans / sizeof *spans)];
    new_card(GI_BLOCK_WORDS_MIN + draw(span[0]), GI_PLACES_MIN + draw(span[1]));
}

/* Makes a step and gives its write, 0 where it is refused. */
static uint32_t step(bool *finished) {
    uint32_t write, freed, done;
    gi_step(card, card_len, batch, batch_len, &write, &freed, &done);
    *finished = done != 0;
    return write;
}

/* Some passes, so that the old segment stands anywhere around the circle. */
static void draw_passes(void) {
    for (uint32_t passes = 1 + draw(6); passes > 0; passes--) {
        draw_fitting();
        for (bool finished = false; !finished;)
            step(&finished);
    }
}

/* Makes passes until one is open after a write of this kind or, with 0, finds the card full. Gives
 * up where the card seems too small for it. */
static bool open_pass(uint32_t last) {
    for (int tries = 0; tries < 8; tries++) {
        draw_fitting();
        if (last == 0)
            draw_batch(1 + draw(300));
        uint32_t write;
        bool finished;
        do {
            write = step(&finished);
            if (write == last && card[GI_CONFIG_NEW_LENGTH] != 0 && (last == 0 || once_in(3)))
                return true;
        } while (write != 0 && !finished);
    }
    return false;
}

/* A power cut in the last write, of a block or a map entry: any words may be left there. */
static void tear(uint32_t write) {
    size_t start, count;
    gi_write_span(card, card_len, write, &start, &count);
    for (size_t i = draw(count); i < count; i++)
        card[start + i] = draw_word();
}

/* Any words in the free places and their map entries. */
static void litter(void) {
    uint32_t b = card[GI_CONFIG_BLOCK_WORDS];
    uint32_t n = card[GI_CONFIG_PLACES];
    for (uint32_t i = card[GI_CONFIG_OLD_LENGTH] + card[GI_CONFIG_NEW_LENGTH]; i < n; i++) {
        uint32_t place = (card[GI_CONFIG_OLD_START] + i) % n;
        for (uint32_t k = 0; k < 2; k++)
            card[GI_CONFIG_WORDS + 2 * place + k] = draw_word();
        for (uint32_t k = 0; k < b; k++)
            card[GI_CONFIG_WORDS + 2 * n + place * b + k] = draw_word();
    }
}

/* ---- cards by hand */

struct pair {
    uint32_t term;
    uint32_t position;
};

/* Lays a block of pairs above the one given, which is then the last of them. */
static void lay_block(uint32_t place, struct pair *last) {
    uint32_t b = card[GI_CONFIG_BLOCK_WORDS];
    uint32_t *block = card + GI_CONFIG_WORDS + 2 * card[GI_CONFIG_PLACES] + place * b;
    memset(block, 0, b * sizeof *block);
    uint32_t at = 0;
    do {
        if (at != 0 || last->term == 0 || once_in(2))
            *last = (struct pair){last->term + 1 + draw(3), draw(4)};
        uint32_t count = 1 + draw(least(b - at - 2, once_in(2) ? b : 3));
        block[at++] = last->term;
        block[at++] = count;
        while (count-- > 0)
            block[at++] = last->position += 1 + draw(3);
    } while (b - at >= 3 && !once_in(4));
    card[GI_CONFIG_WORDS + 2 * place] = block[0];
    card[GI_CONFIG_WORDS + 2 * place + 1] = block[2];
}

/* Lays both segments of a card. The old one begins near the boundary, and is laid again where its first
 * block has no pair above it. */
static void lay_card(uint32_t b, uint32_t n, uint32_t live, bool open) {
    new_card(b, n);
    uint32_t start = draw(n);
    uint32_t new_length = open ? 1 + draw(live) : 0;
    uint32_t old_length = live - new_length;
    struct pair last = {once_in(4) ? 4290000000 : 0, 0};
    for (uint32_t i = 0; i < new_length; i++)
        lay_block((start + old_length + i) % n, &last);
    struct pair boundary = open ? last : (struct pair){0, 0};
    uint32_t configuration[] = {start, old_length, new_length, boundary.term, boundary.position};
    memcpy(card + GI_CONFIG_OLD_START, configuration, sizeof configuration);
    do {
        if (open)
            last = (struct pair){boundary.term - draw(least(3, boundary.term)), draw(boundary.position + 1)};
        for (uint32_t i = 0; i < old_length; i++)
            lay_block((start + i) % n, &last);
    } while (gi_judge(card, card_len) != GI_DONE);
}

/* ---- the kinds */

/* Saves a sound card with the batch in hand, or with another where that is too much for it. */
static void save_sound(const char *kind, uint32_t i) {
    if (once_in(2))
        litter();
    if (once_in(2) || !batch_fits())
        draw_fitting();
    save_card(kind, i, 0);
    save_batch(kind, i, 0);
}

static void make_rest(uint32_t i) {
    draw_card();
    if (i % 8 != 0)
        draw_passes();
    draw_fitting();
    bool finished;
    if (i % 4 == 1 && step(&finished) == GI_WRITE_BLOCK) /* cut in the first write of a pass */
        tear(GI_WRITE_BLOCK);
    save_sound(i % 8 != 0 ? "rest" : "empty", i);
}

static void make_open(uint32_t i) {
    static const char *const kinds[] = {"open-full", "open-block", "open-map", "open-configuration"};
    uint32_t last = i % 4;
    do {
        draw_card();
        draw_passes();
    } while (!open_pass(last));
    if ((last == GI_WRITE_BLOCK || last == GI_WRITE_MAP_ENTRY) && once_in(2))
        tear(last);
    save_sound(kinds[last], i);
}

static void make_laid(uint32_t i) {
    uint32_t n = GI_PLACES_MIN + draw(10);
    lay_card(GI_BLOCK_WORDS_MIN + draw(20), n, 1 + draw(n - 1), i % 4 != 0);
    save_sound(i % 4 != 0 ? "laid-open" : "laid-rest", i);
}

static void make_largest(uint32_t i) {
    lay_card(GI_BLOCK_WORDS_MAX, GI_PLACES_MAX, GI_PLACES_MAX - 1, i != 0);
    save_card("largest", i, 0);
}

static void make_bad(uint32_t i) {
    uint32_t way = i % 9;
    draw_card();
    draw_passes();
    save_card("bad", i, 0);
    draw_batch(way == 8 ? GI_BATCH_RECORDS_MAX + i % 2 : 2 + draw(30));
    for (uint32_t k = 0; k < 1 + way / 5 && way < 8; k++) /* a word, each of a record's in turn, or two */
        change_word(batch, batch_len, draw(batch_len / 5) * 5 + (way + k) % 5, GI_RECORD_WORDS);
    batch_len -= way == 7 ? draw(GI_RECORD_WORDS) : 0;
    save_batch("bad", i, way == 6 ? 1 + draw(3) : 0);
}

static void make_text(uint32_t i) {
    bool in_parts = i % 8 == 0;
    new_card(in_parts ? 256 : 64, in_parts ? 150 : 80);
    draw_passes();
    if (!in_parts && once_in(2))
        open_pass(GI_WRITE_CONFIGURATION);
    save_card("text", i, 0);
    draw_text(in_parts ? (uint32_t[]){9000, 4097, 4096}[i / 8 % 3] : draw(300));
    if ((in_parts ? i >= 24 : i % 2 != 0) && text_len > 1)
        spoil_text(i / 2);
    save("text", i, ".text", text, text_len);
}

static void make_damaged(uint32_t i) {
    uint32_t way = i % 9;
    uint32_t n = GI_PLACES_MIN + draw(8);
    lay_card(GI_BLOCK_WORDS_MIN + draw(8), n, n - 1, once_in(2));
    draw_batch(draw(5));
    save_batch(way < 8 ? "damaged" : "random", i, 0);
    uint32_t turn = i / 9 * 2 + way;
    if (way < 2) /* each configuration word in turn, to each of these */
        card[turn % GI_CONFIG_WORDS] = (uint32_t[]){1025, 7, n, 1, 0}[turn / GI_CONFIG_WORDS % 5];
    for (uint32_t k = way == 5 ? 0 : 1; k < 2 && way > 1 && way < 6; k++) /* one word, or two */
        change_word(card, card_len, draw(card_len), 1);
    card[0] += way == 6 && once_in(3);
    if (way == 6)
        card_len = (size_t[]){0, 7, 8, 8, card_len - 1, card_len - 1 - draw(8), card_len + 1 + draw(8)}[draw(7)];
    for (size_t at = draw(2) * GI_CONFIG_WORDS; at < card_len && way == 8; at++)
        card[at] = draw_word();
    save_card(way < 8 ? "damaged" : "random", i, way == 7 ? 1 + draw(3) : 0);
}

static void make(uint32_t count, void (*kind)(uint32_t i)) {
    for (uint32_t i = 0; i < count; i++)
        kind(i);
}

int main(int argc, char **argv) {
    if (argc != 2) {
        fprintf(stderr, "usage: make_cards FOLDER\n");
        return 2;
    }
    folder = argv[1];
    make(96, make_rest);
    make(250, make_open);
    make(48, make_laid);
    make(2, make_largest);
    make(63, make_bad);
    make(72, make_text);
    make(189, make_damaged);
    return 0;
}
