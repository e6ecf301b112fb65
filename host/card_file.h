/* Card files: the words of a card, 32 bits each, little-endian, and nothing else. What
 * fails is told on standard error; the functions give an exit status.
 *
 * Runs keep out of each other's way by locks on the card's file. Who reads has its words
 * for as long as it takes to read them, and then works on what it has read. Who writes
 * keeps other writers off from the first to the last, but has the words for one write at
 * a time: readers get in between any two. */
#ifndef CARD_FILE_H
#define CARD_FILE_H

#include <stdbool.h>
#include <stddef.h>
#include <stdint.h>

/* A card file and its words in memory. */
struct card_file {
    const char *path; /* as messages have it */
    char *real;       /* the same without links */
    uint32_t wait;    /* seconds to wait for other runs */
    int file;         /* open while the card may be written, else -1 */
    uint32_t *words;
    size_t length;
};

/* Opens a card file and reads its words; they are on the medium, also those that a
 * killed run left unsynced. Of a file longer than the largest card one word more than
 * that is read: every call of the library gives the same number for all such lengths. */
int card_open(struct card_file *card, const char *path, bool writable, uint32_t wait);

/* Writes count words, at most those of a block, from word first on back to their place
 * in the file; they are on the medium when it gives EXIT_DONE. After another status
 * nothing more may be written in this run. */
int card_store(const struct card_file *card, size_t first, size_t count);

/* Closes the file and gives the memory back. */
void card_close(struct card_file *card);

/* Tells why a card is not sound and gives EXIT_REFUSED, or EXIT_DONE for a sound one. */
int card_judge(const struct card_file *card);

/* Shows the judge's number with its meaning and, of a sound card, whether a pass is open;
 * of a sound card only if all is wanted. Gives EXIT_REFUSED where it is not sound. */
int card_verdict(const struct card_file *card, bool all);

/* Whether a pass is open on a sound card. */
bool pass_open(const struct card_file *card);

#endif
