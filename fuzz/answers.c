/* The questions that every card is asked. */
#include <stdio.h>
#include <stdlib.h>
#include <string.h>

#include "fuzz.h"
#include "lookup_c.h"

/* What the plain C lookup says: a reply, counts and the positions. */
struct answer {
    uint32_t number;
    struct told told; /* found, blocks */
    struct words words;
};

/* The plain C lookup makes no promise for a card that is not sound. */
static struct answer ask_twin(struct words card, uint32_t judged, struct question asked, size_t room) {
    struct answer answer = {judged, told_nothing(), words_blank(room)};
    if (judged == GI_DONE)
        answer.number = lookup_c(card.at, asked.term, asked.from, asked.to, answer.words.at, room, true,
                                 &answer.told.at[1], &answer.told.at[3]);
    else
        answer.told.at[1] = answer.told.at[3] = 0;
    return answer;
}

static void see_lookup(struct words card, struct question asked, const struct answer *twin) {
    struct told told = told_nothing();
    struct words blank = words_blank(twin->words.count);
    struct words lent = lend(card);
    struct words answer = lend(blank);
    uint32_t number = gi_lookup(lent.at, lent.count, asked.term, asked.from, asked.to, answer.at, answer.count,
                                &told.at[1], &told.at[3]);
    assert(number == twin->number && told_same(told, twin->told) && words_same(answer, twin->words));
    if (asked.from == GI_LOWEST && asked.to == GI_HIGHEST) {
        struct told all = told_nothing();
        struct words again = lend(blank);
        number = gi_lookup_all(lent.at, lent.count, asked.term, again.at, again.count, &all.at[1], &all.at[3]);
        assert(number == twin->number && told_same(all, told) && words_same(again, answer));
        take_back(again);
    }
    take_back(answer);
    take_back_unchanged(lent, card);
    words_free(blank);
}

/* What is read is the first of all positions, as many as there is room for. */
static void see_read(struct words card, struct question asked, const struct answer *all, size_t room) {
    struct told_lengths told = told_no_lengths();
    struct words expected = words_blank(room);
    struct words lent = lend(card);
    struct words answer = lend(expected);
    size_t found = all->told.at[1] < room ? all->told.at[1] : room;
    memcpy(expected.at, all->words.at, found * sizeof *expected.at);
    uint32_t number =
        gi_read(lent.at, lent.count, asked.term, asked.from, asked.to, answer.at, answer.count, &told.at[1]);
    told_lengths_whole(told);
    assert(number == all->number && told.at[1] == found && words_same(answer, expected));
    take_back(answer);
    take_back_unchanged(lent, card);
    words_free(expected);
}

/* Where the entry of a term ends in a block of a sound card that has it. */
static const uint32_t *entry_end(const uint32_t *block, uint32_t term) {
    while (*block != term)
        block += 2 + block[1];
    return block + 2 + block[1];
}

/* What is viewed is the first of all positions, up to the end of their block. */
static void see_view(struct words card, struct question asked, const struct answer *all) {
    struct told_lengths told = told_no_lengths();
    struct words lent = lend(card);
    uint32_t number = gi_run_view(lent.at, lent.count, asked.term, asked.from, asked.to, &told.at[1], &told.at[3]);
    take_back_unchanged(lent, card);
    told_lengths_whole(told);
    size_t start = told.at[1];
    size_t found = told.at[3];
    assert(number == all->number && (found != 0) == (all->told.at[1] != 0) && found <= all->told.at[1]);
    if (found == 0) {
        assert(start == 0);
        return;
    }
    size_t b = card.at[GI_CONFIG_BLOCK_WORDS];
    size_t places = gi_card_words(0, card.at[GI_CONFIG_PLACES]);
    assert(start >= places && start + found <= card.count);
    assert(memcmp(card.at + start, all->words.at, found * sizeof *card.at) == 0);
    const uint32_t *end = entry_end(card.at + places + (start - places) / b * b, asked.term);
    assert(card.at + start + found <= end);
    assert(card.at + start + found == end || card.at[start + found] > asked.to);
}

/* Writes the page of all positions. */
static void write_page(char *page, uint32_t term, const uint32_t *positions, uint32_t count) {
    for (uint32_t i = 0; i < count; i++) {
        if (i == 0)
            page += sprintf(page, "%10u", term);
        else if (i % GI_PAGE_LINE_POSITIONS == 0)
            page += sprintf(page, "\n%10s", "");
        page += sprintf(page, " %10u", positions[i]);
    }
    uint32_t absent = (GI_PAGE_LINE_POSITIONS - count % GI_PAGE_LINE_POSITIONS) % GI_PAGE_LINE_POSITIONS;
    if (count != 0)
        sprintf(page, "%*s\n", (int)(11 * absent), "");
}

/* The page of all positions, with memory for it and for a byte less. */
static void see_page(struct words card, struct question asked, const struct answer *all) {
    uint32_t count = all->told.at[1];
    size_t bytes = gi_page_bytes(count);
    struct words blank = words_blank(bytes / 4 + 2);
    struct words expected = words_of(blank.at, blank.count);
    char *page = malloc(bytes + 1); /* and a zero byte */
    write_page(page, asked.term, all->words.at, count);
    memcpy(expected.at, page, bytes);
    for (size_t less = 0; less <= (bytes != 0); less++) {
        struct told told = told_nothing();
        struct words lent = lend(card);
        struct words written = lend(blank);
        uint32_t number = gi_page(lent.at, lent.count, asked.term, asked.from, asked.to, (uint8_t *)written.at,
                                  bytes - less, &told.at[1]);
        told_whole(told);
        assert(number == (less == 0 ? all->number : GI_PAGE_MEMORY));
        assert(told.at[1] == (less == 0 ? bytes / GI_PAGE_LINE_BYTES : 0));
        assert(words_same(written, less == 0 ? expected : blank));
        take_back(written);
        take_back_unchanged(lent, card);
    }
    free(page);
    words_free(expected);
    words_free(blank);
}

void ask(struct words card, uint32_t judged, struct question asked, size_t room) {
    struct answer all = ask_twin(card, judged, asked, card.count);
    struct answer some = ask_twin(card, judged, asked, room);
    see_lookup(card, asked, &all);
    see_lookup(card, asked, &some);
    see_read(card, asked, &all, room);
    see_view(card, asked, &all);
    see_page(card, asked, &all);
    words_free(all.words);
    words_free(some.words);
}
