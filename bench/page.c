/* Times pages of long answers on the largest card, full: what a page takes beyond
 * the judge for each position, since every page judges first, against a loop in
 * plain C that writes the same bytes. The calls take turns, and the median of each
 * counts. */
#include <inttypes.h>
#include <stdio.h>
#include <stdlib.h>
#include <string.h>

#include "bench.h"

enum {
    CALLS = 100,
    COLUMNS = 10, /* of a number on a page */
    TEN_DIGITS = 1000000000
};

/* The median times of a page's calls, and how large it is. */
struct times {
    double page;
    double judge;
    double plain;
    uint32_t positions;
    uint32_t lines;
};

static double timed_page(const uint32_t *card, uint32_t term, uint8_t *page, uint32_t *lines) {
    double began = seconds();
    uint32_t number = gi_page(card, CARD_WORDS, term, GI_LOWEST, GI_HIGHEST, page, gi_page_bytes(CARD_WORDS), lines);
    double took = seconds() - began;
    if (number != GI_DONE)
        give_up("a page was refused");
    return took;
}

/* ---- the page in plain C */

static uint8_t *put_blanks(uint8_t *at, uint32_t count) {
    memset(at, ' ', count);
    return at + count;
}

/* Writes a number right-aligned in its columns: blanks, and over them its digits
 * from the last to the first. */
static uint8_t *put_number(uint8_t *at, uint32_t number) {
    uint8_t *end = put_blanks(at, COLUMNS);
    uint8_t *digit = end;
    do {
        *--digit = (uint8_t)('0' + number % 10);
        number /= 10;
    } while (number != 0);
    return end;
}

/* Writes the page of a term's positions, told where they stand; nothing is judged
 * and nothing searched but each block's entries. Gives the number of positions. */
static uint32_t write_positions(uint32_t *card, struct holders places, uint32_t term, uint8_t *page) {
    uint8_t *at = page;
    uint32_t left = 0; /* fields of the line still to be written */
    uint32_t positions = 0;
    for (uint32_t k = 0; k < places.count; k++) {
        const uint32_t *block = block_at(card, (places.first + k) % PLACES);
        const uint32_t *entry = block + entry_of(block, term);
        uint32_t count = entry[1];
        for (uint32_t i = 0; i < count; i++) {
            if (left == 0) {
                at = at == page ? put_number(at, term) : put_blanks(at, COLUMNS);
                left = GI_PAGE_LINE_POSITIONS;
            }
            *at++ = ' ';
            at = put_number(at, entry[2 + i]);
            if (--left == 0)
                *at++ = '\n';
        }
        positions += count;
    }
    if (left > 0) {
        at = put_blanks(at, left * (1 + COLUMNS));
        *at = '\n';
    }
    return positions;
}

/* ---- the two in turns */

static struct times time_term(uint32_t *card, uint32_t term, uint8_t *page, uint8_t *plain_page) {
    static double in_judge[CALLS];
    static double in_page[CALLS];
    static double in_plain[CALLS];
    struct holders places = holders_of(card, term);
    struct times times = {.positions = write_positions(card, places, term, plain_page)};
    size_t bytes = gi_page_bytes(times.positions);
    for (int i = 0; i < CALLS; i++) {
        /* other bytes in each, so that a byte which is not written differs */
        memset(page, 0, bytes);
        memset(plain_page, 1, bytes);
        timed_judge(card); /* brings the card to the cache again, for the judge as for the page */
        in_judge[i] = timed_judge(card);
        in_page[i] = timed_page(card, term, page, &times.lines);
        double began = seconds();
        write_positions(card, places, term, plain_page);
        in_plain[i] = seconds() - began;
        if ((size_t)times.lines * GI_PAGE_LINE_BYTES != bytes || memcmp(page, plain_page, bytes) != 0)
            give_up("page and plain C differ");
    }
    times.judge = median(in_judge, CALLS);
    times.page = median(in_page, CALLS);
    times.plain = median(in_plain, CALLS);
    return times;
}

static void show(const char *what, struct times times) {
    double page = times.page - times.judge;
    double ns = 1e9 / times.positions;
    printf("%-22s %9" PRIu32 " %7" PRIu32 " %9.4f %9.4f %9.3f %9.3f %9.2f\n", what, times.positions, times.lines,
           times.page * 1e3, times.judge * 1e3, page * ns, times.plain * ns, page / times.plain);
}

int main(void) {
    uint32_t *card = words_for(CARD_WORDS);
    uint8_t *page = bytes_for(gi_page_bytes(CARD_WORDS));
    uint8_t *plain_page = bytes_for(gi_page_bytes(CARD_WORDS));
    printf("page, 1,023 places live, ms a call (median of %d); ns a position beyond the judge\n", CALLS);
    printf("%-22s %9s %7s %9s %9s %9s %9s %9s\n", "term", "positions", "lines", "page", "judge", "page ns", "plain C",
           "ratio");
    fill_zipf(card, LIVE_PLACES);
    show("the most frequent", time_term(card, 1, page, plain_page));
    fill_one_term(card, LIVE_PLACES, 1, 1);
    show("one term, whole card", time_term(card, 1, page, plain_page));
    fill_one_term(card, LIVE_PLACES, GI_HIGHEST, TEN_DIGITS);
    show("the same, ten digits", time_term(card, GI_HIGHEST, page, plain_page));
    fill_one_a_block(card);
    show("one to a block", time_term(card, 1, page, plain_page));
    free(plain_page);
    free(page);
    free(card);
    return 0;
}
