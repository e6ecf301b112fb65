/* What the commands tell. */
#include "gamecard.h"

#include <inttypes.h>
#include <stdarg.h>
#include <stdio.h>

#include "gameindex.h"

static bool silent;

void tell_quietly(bool quiet) {
    silent = quiet;
}

bool telling(void) {
    return !silent;
}

void tell(const char *form, ...) {
    if (silent)
        return;
    va_list words;
    va_start(words, form);
    vprintf(form, words);
    va_end(words);
}

int fault(const char *path, const char *form, ...) {
    va_list words;
    va_start(words, form);
    fprintf(stderr, "gamecard: %s: ", path);
    vfprintf(stderr, form, words);
    fputc('\n', stderr);
    va_end(words);
    return EXIT_FAULT;
}

int no_memory(const char *path) {
    return fault(path, "no memory for it");
}

int refused(const char *path, uint32_t number) {
    fprintf(stderr, "%s: refused, number %" PRIu32 ": %s\n", path, number, gi_text(number));
    return EXIT_REFUSED;
}

int refused_part(const char *path, const char *part, uint32_t number, const char *ground) {
    fprintf(stderr, "%s: %s: refused, number %" PRIu32 ": %s\n", path, part, number,
            ground != NULL ? ground : gi_text(number));
    return EXIT_REFUSED;
}

void show_configuration(const uint32_t *card) {
    static const char *const names[GI_CONFIG_WORDS] = {
        [GI_CONFIG_FORMAT] = "format",
        [GI_CONFIG_BLOCK_WORDS] = "B, words of a block",
        [GI_CONFIG_PLACES] = "N, places",
        [GI_CONFIG_OLD_START] = "old start",
        [GI_CONFIG_OLD_LENGTH] = "old length",
        [GI_CONFIG_NEW_LENGTH] = "new length",
        [GI_CONFIG_BOUNDARY_TERM] = "boundary term",
        [GI_CONFIG_BOUNDARY_POSITION] = "boundary position",
    };
    printf("\nconfiguration\n");
    for (size_t i = 0; i < GI_CONFIG_WORDS; i++)
        printf("  %-20s %10" PRIu32 "\n", names[i], card[i]);
}

bool parse_word(const char *name, const char *text, uint32_t *word) {
    uint64_t value = 0;
    const char *next = text;
    while (*next >= '0' && *next <= '9' && value <= UINT32_MAX)
        value = 10 * value + (uint64_t)(*next++ - '0');
    if (*next != '\0' || next == text || value > UINT32_MAX) {
        fault(name, "'%s' is not a decimal number of at most 4,294,967,295", text);
        return false;
    }
    *word = (uint32_t)value;
    return true;
}
