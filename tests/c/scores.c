/* Tests of gi_scores: files written out byte by byte, every word of their batches and around them, and
 * the refusals. */
#include "small_cards.h"

enum { MOST_WORDS = GI_RECORD_WORDS * GI_BATCH_RECORDS_MAX, GUARDS = 16 };

/* A text with its length, and no words of a batch. */
#define TEXT(text) (const uint8_t *)(text), sizeof(text) - 1
#define NO_BATCH NULL, 0

/* What a word lent or around those lent holds before the call: each another. */
static uint32_t unused_word(size_t i) {
    return UNUSED ^ (uint32_t)(i << 8);
}

/* Whether the words begin with the batch and all others, also those around them, are unused. */
static bool as_expected(const uint32_t *memory, size_t length, const uint32_t *batch, size_t words) {
    bool same = true;
    for (size_t i = 0; i < length + 2 * GUARDS; i++) {
        bool in_batch = i >= GUARDS && i < GUARDS + words;
        same = same && memory[i] == (in_batch ? batch[i - GUARDS] : unused_word(i));
    }
    return same;
}

/* Reads a file with some words lent for its batch, and sees that the number, the line, the batch's length
 * and every word are as expected. The file is lent in memory of just its length. */
static void ask(const uint8_t *bytes, size_t length, size_t batch_length, uint32_t number, size_t line,
                const uint32_t *batch, size_t words, const char *group, const char *what) {
    uint32_t *memory = malloc((batch_length + 2 * GUARDS) * sizeof *memory);
    uint8_t *file = malloc(length + (length == 0));
    check(memory != NULL && file != NULL, group, "memory for the file and its batch");
    if (memory != NULL && file != NULL) {
        for (size_t i = 0; i < batch_length + 2 * GUARDS; i++)
            memory[i] = unused_word(i);
        memcpy(file, bytes, length);
        size_t got_words = UNUSED, got_line = UNUSED;
        check_number(gi_scores(file, length, memory + GUARDS, batch_length, &got_words, &got_line), number, group,
                     what);
        check(got_words == words, group, what);
        check(got_line == line, group, what);
        check(as_expected(memory, batch_length, batch, words), group, what);
        check(memcmp(file, bytes, length) == 0, group, "the file is as it was");
    }
    free(file);
    free(memory);
}

/* A file whose batch this is: with just the words, with more, and with fewer, which is refused. */
static void given(const uint8_t *bytes, size_t length, const uint32_t *batch, size_t words, const char *what) {
    const size_t more[] = {0, 1, GI_RECORD_WORDS, MOST_WORDS};
    for (int i = 0; i < 4; i++)
        ask(bytes, length, words + more[i], GI_DONE, 0, batch, words, "scores", what);
    for (size_t fewer = 0; fewer < words && fewer < 40; fewer++) {
        ask(bytes, length, fewer, GI_LOOKUP_ANSWER, 0, NO_BATCH, "fewer words", what);
        ask(bytes, length, words - 1 - fewer, GI_LOOKUP_ANSWER, 0, NO_BATCH, "fewer words", what);
    }
}

/* The same of a text that ends with a line feed, and of the text without it. */
static void given_both(const uint8_t *bytes, size_t length, const uint32_t *batch, size_t words, const char *what) {
    given(bytes, length, batch, words, what);
    check(bytes[length - 1] == '\n', "scores", "a line feed at the end of the text");
    given(bytes, length - 1, batch, words, what);
}

/* A file with a fault in a line, whatever words are lent: 12 and 13 come before 10. */
static void refused(const uint8_t *bytes, size_t length, uint32_t number, size_t line, const char *what) {
    const size_t lent[] = {0, 1, GI_RECORD_WORDS, 100, MOST_WORDS};
    for (int i = 0; i < 5; i++)
        ask(bytes, length, lent[i], number, line, NO_BATCH, "refused scores", what);
}

/* A line of another form: alone, with a line feed, between records and behind them. */
static void bad_line(const uint8_t *line, size_t length, const char *what) {
    static const char before[] = "A\t5\t2\nR\t7\t1\t4\n", after[] = "\nA\t5\t3\nx\n";
    uint8_t text[200];
    memcpy(text, line, length);
    refused(text, length, GI_SCORES_LINE, 1, what);
    memcpy(text + length, after, sizeof after);
    refused(text, length + 1, GI_SCORES_LINE, 1, what);
    refused(text, length + strlen(after), GI_SCORES_LINE, 1, what);
    memcpy(text, before, sizeof before);
    memcpy(text + strlen(before), line, length);
    refused(text, strlen(before) + length, GI_SCORES_LINE, 3, what);
    memcpy(text + strlen(before) + length, after, sizeof after);
    refused(text, strlen(before) + length + 1, GI_SCORES_LINE, 3, what);
    refused(text, strlen(before) + length + strlen(after), GI_SCORES_LINE, 3, what);
}

/* ---- files without a fault */

static void records(void) {
    given(TEXT(""), NO_BATCH, "no bytes are no line");
    given_both(TEXT("A\t5\t2\n"), ARRIVED(ADDED(5, 2, 1)), "an addition");
    given_both(TEXT("R\t5\t2\t9\n"), ARRIVED(REMOVED(5, 2, 9, 1)), "a removal");
    given_both(TEXT("A\t5\t2\nR\t7\t1\t4\n"), ARRIVED(ADDED(5, 2, 1), REMOVED(7, 1, 4, 2)), "two lines");
    given_both(TEXT("A\t0\t0\n"), ARRIVED(ADDED(0, 0, 1)), "0 alone is a figure");
    given_both(TEXT("R\t0\t0\t0\n"), ARRIVED(REMOVED(0, 0, 0, 1)), "0 alone in a removal");
    given_both(TEXT("R\t5\t9\t2\n"), ARRIVED(REMOVED(5, 9, 2, 1)), "from above to");
    given_both(TEXT("R\t5\t4294967295\t1\n"), ARRIVED(REMOVED(5, UINT32_MAX, 1, 1)), "from the highest to the lowest");
    given_both(TEXT("R\t5\t9\t0\n"), ARRIVED(REMOVED(5, 9, 0, 1)), "to 0");
    given_both(TEXT("A\t10\t100\n"), ARRIVED(ADDED(10, 100, 1)), "zeros that do not lead");
    given_both(TEXT("A\t1234567890\t987654321\n"), ARRIVED(ADDED(1234567890, 987654321, 1)), "every digit");
    given_both(TEXT("A\t4294967295\t4294967294\n"), ARRIVED(ADDED(UINT32_MAX, 4294967294, 1)), "highest addition");
    given_both(TEXT("R\t4294967295\t4294967295\t4294967295\n"), ARRIVED(REMOVED(UINT32_MAX, UINT32_MAX, UINT32_MAX, 1)),
               "the longest line");
}

static void order(void) {
    given_both(TEXT("A\t6\t1\nA\t5\t9\n"), ARRIVED(ADDED(5, 9, 2), ADDED(6, 1, 1)), "by term");
    given_both(TEXT("A\t5\t9\nA\t5\t2\n"), ARRIVED(ADDED(5, 2, 2), ADDED(5, 9, 1)), "then by from");
    given_both(TEXT("A\t10\t1\nA\t9\t1\n"), ARRIVED(ADDED(9, 1, 2), ADDED(10, 1, 1)), "as numbers, not as text");
    given_both(TEXT("A\t4294967295\t1\nA\t1\t4294967295\nA\t1\t1\n"),
               ARRIVED(ADDED(1, 1, 3), ADDED(1, UINT32_MAX, 2), ADDED(UINT32_MAX, 1, 1)), "the highest last");
    given_both(TEXT("A\t5\t2\nR\t5\t2\t9\n"), ARRIVED(ADDED(5, 2, 1), REMOVED(5, 2, 9, 2)),
               "equal in both, added first");
    given_both(TEXT("R\t5\t2\t9\nA\t5\t2\n"), ARRIVED(REMOVED(5, 2, 9, 1), ADDED(5, 2, 2)),
               "equal in both, removed first");
    given_both(TEXT("R\t5\t2\t9\nR\t5\t2\t4\nR\t5\t2\t6\n"),
               ARRIVED(REMOVED(5, 2, 9, 1), REMOVED(5, 2, 4, 2), REMOVED(5, 2, 6, 3)), "equal in both, whatever to is");
    given_both(TEXT("R\t5\t9\t3\nA\t5\t4\n"), ARRIVED(ADDED(5, 4, 2), REMOVED(5, 9, 3, 1)),
               "by from, not by a lower to");
    given_both(TEXT("R\t5\t9\t3\nR\t5\t8\t20\n"), ARRIVED(REMOVED(5, 8, 20, 2), REMOVED(5, 9, 3, 1)),
               "by from, not by a higher to");
    given_both(TEXT("R\t5\t9\t3\nA\t5\t9\n"), ARRIVED(REMOVED(5, 9, 3, 1), ADDED(5, 9, 2)),
               "equal in both, from above to");
    given_both(TEXT("A\t5\t2\nA\t5\t2\n"), ARRIVED(ADDED(5, 2, 1), ADDED(5, 2, 2)), "one line twice");
    given_both(TEXT("R\t7\t4\t9\nA\t5\t9\nA\t7\t4\nR\t5\t2\t3\nA\t7\t4\nR\t7\t4\t5\nA\t5\t2\n"),
               ARRIVED(REMOVED(5, 2, 3, 4), ADDED(5, 2, 7), ADDED(5, 9, 2), REMOVED(7, 4, 9, 1), ADDED(7, 4, 3),
                       ADDED(7, 4, 5), REMOVED(7, 4, 5, 6)),
               "seven lines, of which some are equal in both");
}

/* A batch of a file goes to the step, which judges it. On a fresh card a pass that
 * adds nothing is finished by it. */
static void to_the_step(void) {
    static const struct {
        const char *text;
        uint32_t number;
        uint32_t finished;
    } files[] = {{"", 0, 1},
                 {"A\t5\t2\n", 0, 0},
                 {"R\t5\t2\t9", 0, 1},
                 {"A\t7\t4\nA\t5\t2\n", 0, 0},
                 {"R\t5\t3\t2\n", 0, 1},
                 {"R\t5\t9\t3", 0, 1},
                 {"R\t5\t4294967295\t1\n", 0, 1},
                 {"R\t5\t9\t3\nA\t5\t4\n", 0, 0},
                 {"R\t5\t9\t3\nR\t5\t8\t20", 0, 1},
                 {"A\t0\t2\n", 6, 0},
                 {"A\t5\t0\n", 6, 0},
                 {"R\t0\t1\t1", 6, 0},
                 {"R\t0\t9\t3\n", 6, 0},
                 {"R\t5\t0\t1\n", 6, 0},
                 {"R\t5\t1\t0", 6, 0},
                 {"R\t5\t9\t0\n", 6, 0}};
    for (size_t i = 0; i < sizeof files / sizeof files[0]; i++) {
        struct card card = CARD(1, 8, 4, 0, 0, 0, 0, 0);
        uint32_t batch[2 * GI_RECORD_WORDS], write, freed, finished;
        size_t words = UNUSED, line = UNUSED;
        uint32_t number =
            gi_scores((const uint8_t *)files[i].text, strlen(files[i].text), batch, 2 * GI_RECORD_WORDS, &words, &line);
        check_number(number, GI_DONE, "to the step", files[i].text);
        check(line == 0, "to the step", files[i].text);
        number = gi_step(card.words, WORDS, batch, words, &write, &freed, &finished);
        check_number(number, files[i].number, "to the step", files[i].text);
        check_number(finished, files[i].finished, "to the step", files[i].text);
    }
}

/* ---- refusals */

static void forms(void) {
    bad_line(TEXT("A"), "a letter alone");
    bad_line(TEXT("A\t5"), "no position");
    bad_line(TEXT("A\t5\t"), "an empty position");
    bad_line(TEXT("A\t\t2"), "an empty term");
    bad_line(TEXT("A\t"), "a letter and a tab");
    bad_line(TEXT("\t5\t2"), "no letter");
    bad_line(TEXT("5\t2"), "figures alone");
    bad_line(TEXT("A5\t2"), "no tab behind the letter");
    bad_line(TEXT("A\t5\t2\t"), "a tab at the end of an addition");
    bad_line(TEXT("A\t5\t2\t2"), "a field more in an addition");
    bad_line(TEXT("A\t\t5\t2"), "two tabs behind the letter");
    bad_line(TEXT("A\t5\t\t2"), "two tabs between figures");
    bad_line(TEXT("R\t5\t2"), "no to");
    bad_line(TEXT("R\t5\t2\t"), "an empty to");
    bad_line(TEXT("R\t5\t\t9"), "an empty from");
    bad_line(TEXT("R\t\t2\t9"), "an empty term in a removal");
    bad_line(TEXT("R\t5\t2\t9\t"), "a tab at the end of a removal");
    bad_line(TEXT("R\t5\t2\t9\t9"), "a field more in a removal");
    bad_line(TEXT("a\t5\t2"), "a lower case addition");
    bad_line(TEXT("r\t5\t2\t9"), "a lower case removal");
    bad_line(TEXT("B\t5\t2"), "another letter");
    bad_line(TEXT("AR\t5\t2"), "two letters");
    bad_line(TEXT("\xc1\t5\t2"), "a byte over 127 for a letter");
    bad_line(TEXT("A 5 2"), "blanks for tabs");
    bad_line(TEXT("A\t5 2"), "a blank for a tab");
    bad_line(TEXT(" A\t5\t2"), "a blank before the letter");
    bad_line(TEXT("A\t 5\t2"), "a blank before a figure");
    bad_line(TEXT("A\t5\t2 "), "a blank at the end");
    bad_line(TEXT("A\t5\t2\r"), "a carriage return at the end");
    bad_line(TEXT("\rA\t5\t2"), "a carriage return at the start");
    bad_line(TEXT("\r"), "a carriage return alone");
    bad_line(TEXT("A\t5\t2\0"), "a zero byte at the end");
    bad_line(TEXT("\0A\t5\t2"), "a zero byte at the start");
}

static void figures(void) {
    bad_line(TEXT("A\t05\t2"), "a term with a leading zero");
    bad_line(TEXT("A\t5\t02"), "a position with a leading zero");
    bad_line(TEXT("R\t05\t2\t9"), "a removal's term with a leading zero");
    bad_line(TEXT("R\t5\t02\t9"), "from with a leading zero");
    bad_line(TEXT("R\t5\t2\t09"), "to with a leading zero");
    bad_line(TEXT("A\t5\t00"), "two zeros");
    bad_line(TEXT("A\t5\t00000000002"), "ten leading zeros");
    bad_line(TEXT("A\t+5\t2"), "a plus sign");
    bad_line(TEXT("A\t-5\t2"), "a minus sign");
    bad_line(TEXT("A\t5\t-0"), "a minus sign before 0");
    bad_line(TEXT("A\t5\t2.0"), "a point");
    bad_line(TEXT("A\t5\t1,000"), "a comma");
    bad_line(TEXT("A\t5\t0x2"), "a figure that is not decimal");
    bad_line(TEXT("A\t5\t2/"), "the byte before the digits");
    bad_line(TEXT("A\t5\t2:"), "the byte behind the digits");
    bad_line(TEXT("A\t5\t\xb2"), "a digit with its highest bit set");
    bad_line(TEXT("A\t4294967296\t2"), "a term too high by one");
    bad_line(TEXT("A\t5\t4294967296"), "a position too high by one");
    bad_line(TEXT("R\t4294967296\t2\t9"), "a removal's term too high by one");
    bad_line(TEXT("R\t5\t4294967296\t9"), "from too high by one");
    bad_line(TEXT("R\t5\t2\t4294967296"), "to too high by one");
    bad_line(TEXT("A\t5\t4294967298"), "2 and 2 to the 32nd");
    bad_line(TEXT("A\t5\t9999999999"), "the highest of ten digits");
    bad_line(TEXT("A\t5\t10000000000"), "eleven digits");
    bad_line(TEXT("A\t5\t18446744073709551618"), "2 and 2 to the 64th");
    bad_line(TEXT("A\t5\t340282366920938463463374607431768211458"), "2 and 2 to the 128th");
}

static void lines(void) {
    refused(TEXT("\n"), GI_SCORES_LINE, 1, "a lone line feed is an empty line");
    refused(TEXT("\n\n"), GI_SCORES_LINE, 1, "two line feeds alone");
    refused(TEXT("\nA\t5\t2\n"), GI_SCORES_LINE, 1, "a line feed at the start");
    refused(TEXT("A\t5\t2\n\n"), GI_SCORES_LINE, 2, "a second line feed at the end");
    refused(TEXT("A\t5\t2\n\nA\t5\t3\n"), GI_SCORES_LINE, 2, "an empty line between others");
    refused(TEXT("A\t5\t2\r\nA\t5\t3\r\n"), GI_SCORES_LINE, 1, "carriage returns");
    refused(TEXT("A\t5\t2\nx\nA\t5\t3\ny\n"), GI_SCORES_LINE, 2, "the earlier line first");
    refused(TEXT("A\t5\t2\nA\t5\t3\nA\t5\t4\nA\t5\t5\nx"), GI_SCORES_LINE, 5, "the last line, without a line feed");
    refused(TEXT("A\t0\t0\nx"), GI_SCORES_LINE, 2, "a zero, which the step judges, is no fault");
}

/* So many lines of one text, a line feed behind each, and a last text behind them; NULL without memory. */
static uint8_t *repeated(const char *line, size_t count, const char *end, size_t *length) {
    size_t each = strlen(line);
    uint8_t *bytes = malloc(count * each + strlen(end) + 1);
    if (bytes == NULL)
        return NULL;
    for (size_t i = 0; i < count; i++)
        memcpy(bytes + i * each, line, each);
    memcpy(bytes + count * each, end, strlen(end) + 1);
    *length = count * each + strlen(end);
    return bytes;
}

static void refused_behind(const char *line, size_t count, const char *end, uint32_t number, size_t at,
                           const char *what) {
    size_t length;
    uint8_t *bytes = repeated(line, count, end, &length);
    check(bytes != NULL, "many lines", "memory for them");
    if (bytes != NULL)
        refused(bytes, length, number, at, what);
    free(bytes);
}

/* 4,096 lines in falling order give their batch, and one more is refused. */
static void many_lines(void) {
    char *text = malloc(20 * GI_BATCH_RECORDS_MAX);
    uint32_t *batch = malloc(MOST_WORDS * sizeof *batch);
    check(text != NULL && batch != NULL, "many lines", "memory for them");
    if (text != NULL && batch != NULL) {
        char *end = text;
        for (uint32_t i = 0; i < GI_BATCH_RECORDS_MAX; i++) {
            end += sprintf(end, "R\t5\t%" PRIu32 "\t%" PRIu32 "\n", 2000 - i / 4, i);
            /* four lines to a from, in their order, the last four lines first */
            uint32_t *record = batch + GI_RECORD_WORDS * (4 * (1023 - i / 4) + i % 4);
            record[0] = GI_RECORD_REMOVE;
            record[1] = 5;
            record[2] = 2000 - i / 4;
            record[3] = i;
            record[4] = i + 1;
        }
        given_both((const uint8_t *)text, (size_t)(end - text), batch, MOST_WORDS, "4,096 lines");
        strcpy(end, "A\t5\t2\n");
        refused((const uint8_t *)text, (size_t)(end - text) + 6, GI_SCORES_LINES, 4097, "4,097 lines");
        refused((const uint8_t *)text, (size_t)(end - text) + 5, GI_SCORES_LINES, 4097, "4,097, without a line feed");
    }
    free(batch);
    free(text);
    refused_behind("A\t5\t2\n", 4098, "", GI_SCORES_LINES, 4097, "4,098 lines");
    refused_behind("A\t5\t2\n", 4096, "A\t0\t0", GI_SCORES_LINES, 4097, "a zero in the 4,097th");
    refused_behind("A\t5\t2\n", 4097, "x\n", GI_SCORES_LINES, 4097, "12 of a later line");
    refused_behind("A\t5\t2\n", 4096, "x\n", GI_SCORES_LINE, 4097, "12 of the same line");
    refused_behind("A\t5\t2\n", 4096, "\n", GI_SCORES_LINE, 4097, "a second line feed behind 4,096 lines");
    refused_behind("A\t5\t2\n", 4095, "x\nA\t5\t2\n", GI_SCORES_LINE, 4096, "12 of the line before");
    refused_behind("A\t5\t2\n", 100000, "", GI_SCORES_LINES, 4097, "100,000 lines");
    refused_behind("7", 1000000, "\n", GI_SCORES_LINE, 1, "a line of a million digits");
}

/* The longest lines there are, to where further bytes change nothing. */
static void settling_bytes(void) {
    static const char longest[] = "R\t4294967295\t4294967295\t4294967295\n";
    check(sizeof longest - 1 == GI_SCORES_LINE_BYTES, "the longest line", "its bytes");
    check(4097 * GI_SCORES_LINE_BYTES == GI_SCORES_BYTES, "the longest line", "4,097 of them");
    refused_behind(longest, 4097, "", GI_SCORES_LINES, 4097, "4,097 of the longest lines");
    refused_behind(longest, 4097, "x", GI_SCORES_LINES, 4097, "and bytes behind them");
    refused_behind(longest, 4096, "R\t4294967295\t4294967295\t4294967295", GI_SCORES_LINES, 4097,
                   "the last line feed left out");
    refused_behind(longest, 4096, "R\t4294967295\t4294967295\t42949672950", GI_SCORES_LINE, 4097,
                   "the last line a byte too long");
    refused_behind(longest, 4096, "R\t4294967295\t4294967295\t4294967295\t\n", GI_SCORES_LINE, 4097,
                   "the last line with a tab");
    size_t length;
    uint8_t *bytes = repeated(longest, 4096, "", &length);
    uint32_t *batch = malloc(MOST_WORDS * sizeof *batch);
    check(bytes != NULL && batch != NULL, "the longest line", "memory for 4,096 of them");
    if (bytes != NULL && batch != NULL) {
        for (uint32_t i = 0; i < GI_BATCH_RECORDS_MAX; i++)
            PUT(batch, i, REMOVE(UINT32_MAX, UINT32_MAX, UINT32_MAX));
        given_both(bytes, length, batch, MOST_WORDS, "4,096 of the longest lines");
    }
    free(batch);
    free(bytes);
}

void test_scores(void) {
    records();
    order();
    to_the_step();
    forms();
    figures();
    lines();
    many_lines();
    settling_bytes();
}
