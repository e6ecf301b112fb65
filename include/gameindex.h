/* The game index on a store card: the C functions of libgameindex.a.
 *
 * A card is words of 32 bits: 8 configuration words, a map of two words for
 * each place, then the places of B words each. Lengths are counts of words, the
 * length of a page's memory or of a file one of bytes. Every call takes any card,
 * whatever its words and its length, and any file: what is wrong with it comes
 * back as a number, and a refused call writes nothing.
 *
 * Pointers and NULL: a pointer stands for as many words or bytes as the length
 * beside it says, for one word where there is none. It is never NULL, not even where
 * that length is 0: lend it any word of yours then. Words are aligned as uint32_t is.
 * Memory that a call may write is lent to it only once; what a call only reads may
 * overlap.
 *
 * Memory: a call keeps nothing and allocates nothing. It uses what it is lent and its
 * stack: gi_step, gi_forecast and gi_scores up to some 160 KB, the others less than
 * 1 KB, as measured on x86-64. Of the C library it needs no more than memcpy and memset.
 *
 * Threads: there is no state behind the calls. Any of them may run at the same time as
 * long as no memory that one of them may write is lent to another; so many threads can
 * look up in one card, and none while gi_step or gi_format writes it.
 */
#ifndef GAMEINDEX_H
#define GAMEINDEX_H

#include <stddef.h>
#include <stdint.h>

#ifdef __cplusplus
extern "C" {
#endif

/* The version of this library and of the host program, as numbers and as text. A
 * greater first number breaks what callers or cards rely on, a greater second one adds
 * to it. */
#define GI_VERSION_MAJOR 1
#define GI_VERSION_MINOR 0
#define GI_VERSION_PATCH 0
#define GI_VERSION_QUOTED(version) #version
#define GI_VERSION_JOINED(major, minor, patch) GI_VERSION_QUOTED(major.minor.patch)
#define GI_VERSION GI_VERSION_JOINED(GI_VERSION_MAJOR, GI_VERSION_MINOR, GI_VERSION_PATCH)

/* The numbers that a call can give. */
enum {
    GI_DONE = 0,               /* no refusal; from the judge, a sound card */
    GI_CARD_LENGTH = 1,        /* fewer than 8 words, or another length than B and N ask for */
    GI_CARD_FORMAT = 2,        /* the first word is not a known format */
    GI_CARD_CONFIGURATION = 3, /* configuration words outside their limits */
    GI_CARD_BLOCKS = 4,        /* a live block, its map entry or the boundary is wrong */
    GI_FORMAT_LIMITS = 5,      /* the formatter's B or N is outside its limits */
    GI_BATCH_RECORD = 6,       /* no whole number of records, more than 4,096, or a record is ill formed,
                                * whatever its arrival number is */
    GI_BATCH_ORDER = 7,        /* the records are not in order of term, then from */
    GI_CARD_FULL = 8,          /* the step would leave no place free */
    GI_LOOKUP_RANGE = 9,       /* term or from is 0, or from is above to */
    GI_LOOKUP_ANSWER = 10,     /* fewer answer words than positions, or fewer words lent for a batch than it has */
    GI_PAGE_MEMORY = 11,       /* the page memory is shorter than the page */
    GI_SCORES_LINE = 12,       /* a line of a scorekeepers' file has another form, or a figure above 4,294,967,295 */
    GI_SCORES_LINES = 13,      /* the file has more than 4,096 lines */
    GI_BATCH_ARRIVAL = 14      /* an arrival number is 0, or two records of the batch have the same */
};

/* A text for a number, without a line feed; the same memory in every call, not to be
 * written. A number that no call gives has one too. */
static inline const char *gi_text(uint32_t number) {
    switch (number) {
    case GI_DONE:
        return "done";
    case GI_CARD_LENGTH:
        return "the card's length is not what B and N ask for";
    case GI_CARD_FORMAT:
        return "the card has an unknown format, or none";
    case GI_CARD_CONFIGURATION:
        return "a configuration word is outside its limits";
    case GI_CARD_BLOCKS:
        return "a live block, its map entry or the boundary is wrong";
    case GI_FORMAT_LIMITS:
        return "B must be from 8 to 1,024 and N from 2 to 1,024";
    case GI_BATCH_RECORD:
        return "a batch is at most 4,096 records of five words; kind 1, 2 or 3, term, from, to, arrival; term 0 goes "
               "with kind 3 alone; from and to are at least 1, and alike in an addition";
    case GI_BATCH_ORDER:
        return "the records of a batch are in order of term, then from";
    case GI_CARD_FULL:
        return "the card is full: the next block would leave no place free";
    case GI_LOOKUP_RANGE:
        return "term and from must be at least 1, and from at most to";
    case GI_LOOKUP_ANSWER:
        return "fewer words are lent than the answer or the batch has";
    case GI_PAGE_MEMORY:
        return "the page memory is shorter than the page";
    case GI_SCORES_LINE:
        return "a line must be A<tab>term<tab>position or R<tab>term<tab>from<tab>to, ended by a line feed without a "
               "carriage return; figures have no leading zeros and are at most 4,294,967,295";
    case GI_SCORES_LINES:
        return "the file has more than 4,096 lines";
    case GI_BATCH_ARRIVAL:
        return "arrival numbers are at least 1, and no two records of a batch have the same";
    default:
        return "a number that no call gives";
    }
}

/* The limits of a card. */
enum {
    GI_FORMAT = 1,          /* the card format of this library */
    GI_CONFIG_WORDS = 8,    /* configuration words at the start of a card */
    GI_MAP_ENTRY_WORDS = 2, /* words of a map entry: a term and a position */
    GI_BLOCK_WORDS_MIN = 8, /* B, the words of a block */
    GI_BLOCK_WORDS_MAX = 1024,
    GI_PLACES_MIN = 2, /* N, the places for blocks */
    GI_PLACES_MAX = 1024,
    GI_CARD_WORDS_MAX = 1050632 /* the largest card: B and N both 1,024 */
};

/* The records of a batch: kind, term, from, to, arrival. Term 0 goes with kind 3 and
 * kind 3 with term 0; from and to are at least 1. A removal of either kind whose from
 * is above its to has no game in its range: it is well formed and removes nothing.
 *
 * The arrival number is at least 1, and no two records of a batch have the same one.
 * An addition touches its pair, a removal every pair of its range. Of all records that
 * touch a pair, the one with the greatest arrival number decides: an addition leaves
 * the pair in the index, a removal leaves it out. A pair that no record touches stays
 * as it was. So the order of the records, which is by term, then from, says nothing
 * about which of them came later. Arrival numbers need not be in a row. */
enum {
    GI_RECORD_WORDS = 5,
    GI_BATCH_RECORDS_MAX = 4096,
    GI_RECORD_ADD = 1,    /* adds the pair of term and from; to is from again */
    GI_RECORD_REMOVE = 2, /* removes the term's positions from from to to */
    GI_RECORD_ANNUL = 3   /* removes the positions from from to to under every term */
};

/* The writes of a pass; a step makes one of them. */
enum {
    GI_WRITE_BLOCK = 1,        /* the B words of the due place, the one after the new segment */
    GI_WRITE_MAP_ENTRY = 2,    /* the two map words of the due place */
    GI_WRITE_CONFIGURATION = 3 /* configuration words; they are written as one */
};

/* A bulletin page: lines of 65 bytes and a line feed, five positions to a line. */
enum { GI_PAGE_LINE_BYTES = 66, GI_PAGE_LINE_POSITIONS = 5 };

/* A scorekeepers' file: the most bytes of a line that is a record, with its line
 * feed, and the bytes that settle what any file gives: the first 4,097 lines. */
enum { GI_SCORES_LINE_BYTES = 35, GI_SCORES_BYTES = 143395 };

/* The range of all positions, and of all terms. */
#define GI_LOWEST ((uint32_t)1)
#define GI_HIGHEST UINT32_MAX

/* Where each configuration word stands. */
enum {
    GI_CONFIG_FORMAT = 0,
    GI_CONFIG_BLOCK_WORDS = 1,
    GI_CONFIG_PLACES = 2,
    GI_CONFIG_OLD_START = 3,
    GI_CONFIG_OLD_LENGTH = 4,
    GI_CONFIG_NEW_LENGTH = 5,
    GI_CONFIG_BOUNDARY_TERM = 6,
    GI_CONFIG_BOUNDARY_POSITION = 7
};

/* The words that a card with blocks of b words and n places has, for b and n
 * within their limits. */
static inline size_t gi_card_words(uint32_t b, uint32_t n) {
    return (size_t)GI_CONFIG_WORDS + (size_t)GI_MAP_ENTRY_WORDS * n + (size_t)n * b;
}

/* The bytes that a page of so many positions has, for any number of positions
 * that a card can hold. */
static inline size_t gi_page_bytes(size_t positions) {
    size_t lines = positions / GI_PAGE_LINE_POSITIONS + (positions % GI_PAGE_LINE_POSITIONS != 0);
    return lines * GI_PAGE_LINE_BYTES;
}

/* Makes an empty index: writes the 8 configuration words and no other word.
 * Gives 5 where b or n is outside its limits, then 1 where card_len is not
 * gi_card_words(b, n); 0 when done. */
uint32_t gi_format(uint32_t *card, size_t card_len, uint32_t b, uint32_t n);

/* Judges a card and writes nothing. Gives the first of 1, 2, 3, 1, 3, 4 whose
 * ground holds, in that order: shorter than 8 words (1); unknown format (2);
 * B or N outside its limits (3); not the length that they ask for (1); segments
 * or boundary words that cannot be (3); live blocks that are wrong (4). Gives 0
 * for a sound card. Words of free places are never judged. */
uint32_t gi_judge(const uint32_t *card, size_t card_len);

/* Makes the next write of a pass that applies a batch, and tells which it was.
 * The batch is records of five words, by term, then from, never falling; each pair
 * that they touch is in the index or out of it as the latest of them has it. Records
 * of kind 3 stand first, since their term is 0. The card is all that a pass remembers:
 * call it with the same batch until it says finished. Each write must be on the medium
 * before the next step's; a pass cut short anywhere goes on where it was.
 *
 * Gives the judge's number for a card that is not sound; then 6, then 14, then 7 for
 * a batch that is wrong; then 8 where the write of the configuration words to come
 * would leave no place free. After a refusal write, freed and finished are 0 and
 * no word of the card has changed. Otherwise gives 0; write is one of the three
 * writes, and with the third, freed is the number of old places that it freed
 * and finished is 1 where the pass is done. They are 0 in all other cases. */
uint32_t gi_step(uint32_t *card, size_t card_len, const uint32_t *batch, size_t batch_len, uint32_t *write,
                 uint32_t *freed, uint32_t *finished);

/* Tells, without a write, what comes of applying a batch to the end with no cut:
 * of gi_step called with this batch until it says finished or refuses. It takes a
 * card with a pass open as well, and tells what comes of going on with this batch.
 * blocks is G, the number of blocks that what remains fills; limit the steps within
 * which the pass finishes, 3 times that, or 1 where nothing remains. finishes is 1
 * where the pass finishes; writes is then 0. Where it is 0, some step is refused
 * with 8, after writes configuration writes.
 *
 * Gives the judge's number for a card that is not sound; then 6, then 14, then 7 for a
 * batch that is wrong. After such a refusal all four are 0. Otherwise gives 0. */
uint32_t gi_forecast(const uint32_t *card, size_t card_len, const uint32_t *batch, size_t batch_len, uint32_t *blocks,
                     uint32_t *limit, uint32_t *finishes, uint32_t *writes);

/* For the card that a step left and the write that this step named, tells where
 * the write stands: in the count words from card[start] on, and in no other word
 * has the step changed the card. These are the B words of the due place for write
 * 1, the two words of its map entry for write 2, the 8 configuration words for
 * write 3; for any other write start and count are 0. Ask before the next step:
 * after a configuration write another place is due.
 *
 * Gives the judge's number for a card that is not sound; start and count are then
 * 0. Gives 0 otherwise. Writes nothing to the card. */
uint32_t gi_write_span(const uint32_t *card, size_t card_len, uint32_t write, size_t *start, size_t *count);

/* Looks up the positions of a term from from to to, both included. They come
 * rising in the first answer words, their number in found; other answer words
 * are left as they are. blocks is the number of blocks that the map names for
 * the question, at most two more than hold a position of the answer.
 *
 * Gives the judge's number for a card that is not sound; then 9 where term or
 * from is 0 or from is above to; then 10 where there are more positions than
 * answer_len. After a refusal found and blocks are 0 and no answer word has
 * changed. Gives 0 otherwise. Writes nothing to the card. An answer of as many
 * words as the card has is never too short. */
uint32_t gi_lookup(const uint32_t *card, size_t card_len, uint32_t term, uint32_t from, uint32_t to, uint32_t *answer,
                   size_t answer_len, uint32_t *found, uint32_t *blocks);

/* Looks up all positions of a term: what gi_lookup does and gives with GI_LOWEST
 * as from and GI_HIGHEST as to.
 *
 * Gives the judge's number for a card that is not sound; then 9 where term is 0;
 * then 10 where there are more positions than answer_len. After a refusal found
 * and blocks are 0 and no answer word has changed. Gives 0 otherwise. Writes
 * nothing to the card. */
uint32_t gi_lookup_all(const uint32_t *card, size_t card_len, uint32_t term, uint32_t *answer, size_t answer_len,
                       uint32_t *found, uint32_t *blocks);

/* Reads the first positions of gi_lookup's question, as many as there are answer
 * words: one after another into the first of them, their number in found; other
 * answer words are left as they are. Where found is answer_len there may be more:
 * ask again from one above the last. Where the last is GI_HIGHEST there is no more.
 *
 * Gives the judge's number for a card that is not sound, then 9 as the lookup
 * does, and never 10. After a refusal found is 0 and no answer word has changed.
 * Gives 0 otherwise. Writes nothing to the card. */
uint32_t gi_read(const uint32_t *card, size_t card_len, uint32_t term, uint32_t from, uint32_t to, uint32_t *answer,
                 size_t answer_len, size_t *found);

/* Finds, without moving them, the positions of the same question in the first
 * block that has any, new segment before old: they are the found words of the card
 * from card[start] on. Both are 0 where there is none.
 *
 * Gives the same numbers as gi_read; after a refusal start and found are 0. Writes
 * nothing to the card. */
uint32_t gi_run_view(const uint32_t *card, size_t card_len, uint32_t term, uint32_t from, uint32_t to, size_t *start,
                     size_t *found);

/* Writes the positions of gi_lookup's question as a page of text into the first
 * bytes of the page memory, and the number of lines behind lines. A line is 65
 * bytes and a line feed: the term right-aligned in 10 columns, in the first line
 * only, then five fields of one blank and a position right-aligned in 10 columns.
 * What is absent is blanks: the term of later lines, and fields behind the last
 * position. No positions give no lines and need no memory. The bytes are ASCII;
 * those after the page are left as they are, and no zero byte is at its end.
 *
 * Gives the judge's number for a card that is not sound; then 9 as the lookup
 * does; then 11, and never 10, where page_len is less than the bytes of the lines.
 * After a refusal lines is 0 and no byte has changed. Gives 0 otherwise. Writes
 * nothing to the card. A memory of gi_page_bytes(card_len) bytes is never too
 * short for a sound card. */
uint32_t gi_page(const uint32_t *card, size_t card_len, uint32_t term, uint32_t from, uint32_t to, uint8_t *page,
                 size_t page_len, uint32_t *lines);

/* Reads a scorekeepers' file: lines of text, one record a line, its fields parted by
 * single tabs. A, a term and a position add a pair; R, a term, from and to remove the
 * term's positions from from to to. The line's number, counted from 1, is the record's
 * arrival number, so that a later line decides over an earlier one. Figures are
 * decimal, without a sign and without leading zeros; 0 alone is a figure. A line ends
 * at a line feed, which the last line may lack: no bytes are no line, a line feed at
 * the start or behind another is an empty line, and a carriage return is a byte like
 * any other.
 *
 * Writes the batch of these records into the first batch words, sorted by term, then
 * from, records equal in both in the order of their lines; its length in words goes
 * behind words. The words after it are left as they are. The batch goes to gi_step,
 * which judges it: a figure 0 gives 6 there, and no file gives 14 or 7.
 *
 * Gives 12 for a line of another form or with a figure above 4,294,967,295, and 13 for
 * the 4,097th line, whichever line comes first, and 12 where both are of one line;
 * the line's number, counted from 1, goes behind line. Then gives 10 where batch_len is
 * less than the words of the batch. After a refusal words is 0 and no batch word has
 * changed, and line is 0 but after 12 and 13. Gives 0 otherwise. A batch of
 * GI_RECORD_WORDS x GI_BATCH_RECORDS_MAX words is never too short. Bytes behind the
 * first GI_SCORES_BYTES change nothing. */
uint32_t gi_scores(const uint8_t *bytes, size_t bytes_len, uint32_t *batch, size_t batch_len, size_t *words,
                   size_t *line);

#ifdef __cplusplus
}
#endif

#endif
