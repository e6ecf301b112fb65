/* Card files, read and written in whole words. */
#define _XOPEN_SOURCE 700

#include "card_file.h"

#include <errno.h>
#include <fcntl.h>
#include <inttypes.h>
#include <stdio.h>
#include <stdlib.h>
#include <string.h>
#include <sys/stat.h>
#include <time.h>
#include <unistd.h>

#include "files.h"
#include "gamecard.h"
#include "gameindex.h"
#include "words.h"

/* ---- bytes and words */

/* Reads length bytes from the start of a file; false with errno set on an error, errno
 * 0 where the file ends early. */
static bool read_bytes(int file, unsigned char *bytes, size_t length) {
    size_t done = 0;
    while (done < length) {
        ssize_t got = pread(file, bytes + done, length - done, (off_t)done);
        if (got < 0 && errno == EINTR)
            continue;
        if (got <= 0) {
            errno = got < 0 ? errno : 0;
            return false;
        }
        done += (size_t)got;
    }
    return true;
}

/* Writes length bytes at an offset; false with errno set on an error. */
static bool write_bytes(int file, const unsigned char *bytes, size_t length, size_t offset) {
    size_t done = 0;
    while (done < length) {
        ssize_t put = pwrite(file, bytes + done, length - done, (off_t)(offset + done));
        if (put < 0 && errno == EINTR)
            continue;
        if (put <= 0) {
            errno = put < 0 ? errno : EIO;
            return false;
        }
        done += (size_t)put;
    }
    return true;
}

/* Writes count words at word first; false with errno set on an error. */
static bool write_words(int file, const uint32_t *words, size_t first, size_t count) {
    unsigned char bytes[GI_BLOCK_WORDS_MAX * WORD_BYTES];
    for (size_t i = 0; i < count; i++)
        word_to(bytes + i * WORD_BYTES, words[i]);
    return write_bytes(file, bytes, count * WORD_BYTES, first * WORD_BYTES);
}

/* Brings what was written to the medium; false with errno set on an error. */
static bool sync_words(int file) {
    int done;
    do
        done = fdatasync(file);
    while (done != 0 && errno == EINTR);
    return done == 0;
}

/* Counts the words of an open file. */
static int measure(struct card_file *card) {
    struct stat about;
    if (fstat(card->file, &about) != 0)
        return fault(card->path, "%s", strerror(errno));
    if (!S_ISREG(about.st_mode))
        return fault(card->path, "not a regular file");
    if (about.st_size % WORD_BYTES != 0)
        return fault(card->path, "%jd bytes are not a whole number of 32-bit words", (intmax_t)about.st_size);
    uintmax_t words = (uintmax_t)about.st_size / WORD_BYTES;
    card->length = words > GI_CARD_WORDS_MAX ? (size_t)GI_CARD_WORDS_MAX + 1 : (size_t)words;
    return EXIT_DONE;
}

/* Reads the words of an open file. */
static int read_words(struct card_file *card) {
    /* one word more, so that an empty file has memory too */
    unsigned char *bytes = malloc((card->length + 1) * WORD_BYTES);
    card->words = malloc((card->length + 1) * sizeof *card->words);
    int status = EXIT_DONE;
    if (bytes == NULL || card->words == NULL)
        status = no_memory(card->path);
    else if (!read_bytes(card->file, bytes, card->length * WORD_BYTES))
        status = fault(card->path, "%s", errno != 0 ? strerror(errno) : "the file became shorter while it was read");
    else
        for (size_t i = 0; i < card->length; i++)
            card->words[i] = word_from(bytes + i * WORD_BYTES);
    free(bytes);
    return status;
}

/* ---- locks */

/* What of the file a lock is on: its words, or one of two bytes that no card reaches.
 * Whoever wants the words comes through the gate first, and leaves it when the words are
 * got: so those who wait come before those who come again, readers and writers alike. */
enum { LOCK_WORDS = 0, LOCK_GATE = 1 << 30, LOCK_WRITER };

/* Sets or releases a lock without waiting; false with errno set where that fails. */
static bool set_lock(const struct card_file *card, off_t which, short type) {
    struct flock lock = {.l_type = type, .l_whence = SEEK_SET, .l_start = which};
    lock.l_len = which == LOCK_WORDS ? LOCK_GATE : 1;
    int done;
    do
        done = fcntl(card->file, F_SETLK, &lock);
    while (done != 0 && errno == EINTR);
    return done == 0;
}

/* Begins to wait for other runs. */
static int begin_waiting(const struct card_file *card, struct timespec *since) {
    return clock_gettime(CLOCK_MONOTONIC, since) == 0 ? EXIT_DONE : fault(card->path, "%s", strerror(errno));
}

/* Sets a lock, after others have released theirs. */
static int lock(const struct card_file *card, off_t which, short type, const struct timespec *since) {
    const struct timespec pause = {.tv_nsec = 1000 * 1000};
    struct timespec now;
    while (!set_lock(card, which, type)) {
        if ((errno != EACCES && errno != EAGAIN) || clock_gettime(CLOCK_MONOTONIC, &now) != 0)
            return fault(card->path, "%s", strerror(errno));
        int64_t seconds = (int64_t)now.tv_sec - since->tv_sec - (now.tv_nsec < since->tv_nsec);
        if (seconds >= card->wait)
            return fault(
                card->path,
                "in use by another run; run the same command again later, or with --wait SECONDS to wait longer");
        nanosleep(&pause, NULL);
    }
    return EXIT_DONE;
}

/* Releases a lock. Where that fails the run's end releases it. */
static void unlock(const struct card_file *card, off_t which) {
    set_lock(card, which, F_UNLCK);
}

/* Takes the words, through the gate: with others who read, or alone. */
static int take_words(const struct card_file *card, short type, const struct timespec *since) {
    int status = lock(card, LOCK_GATE, type, since);
    if (status != EXIT_DONE)
        return status;
    status = lock(card, LOCK_WORDS, type, since);
    unlock(card, LOCK_GATE);
    return status;
}

/* ---- the medium */

/* Brings to the medium what a run left behind that was killed before its sync: its last
 * write and, where it made the file, the file's name. Else this run would show, and build
 * on, words that a power cut can still take away. A file that is only read may lie where
 * there are no syncs (EINVAL) and no writes. */
static int settle(const struct card_file *card, bool writable) {
    if (!sync_words(card->file) && (writable || errno != EINVAL))
        return not_on_medium(card->path, "its words");
    if (writable && !sync_folder(card->real))
        return not_on_medium(card->path, "its name");
    return EXIT_DONE;
}

/* Takes the words of a file that is open, to read them; other writers are kept off from
 * here on where it may be written. */
static int take_card(const struct card_file *card, bool writable) {
    struct timespec since;
    int status = begin_waiting(card, &since);
    if (status == EXIT_DONE && writable)
        status = lock(card, LOCK_WRITER, F_WRLCK, &since);
    return status == EXIT_DONE ? take_words(card, writable ? F_WRLCK : F_RDLCK, &since) : status;
}

/* Reads a file that is open, while no other run writes it. */
static int read_card(struct card_file *card, bool writable) {
    card->real = realpath(card->path, NULL);
    if (card->real == NULL)
        return fault(card->path, "%s", strerror(errno));
    int status = take_card(card, writable);
    if (status == EXIT_DONE)
        status = measure(card); /* again: a writer may have been at work */
    if (status == EXIT_DONE)
        status = settle(card, writable);
    if (status == EXIT_DONE)
        status = read_words(card);
    unlock(card, LOCK_WORDS);
    return status;
}

/* ---- what the commands call */

int card_open(struct card_file *card, const char *path, bool writable, uint32_t wait) {
    *card = (struct card_file){.path = path, .wait = wait};
    /* a pipe or a device is not waited for */
    card->file = open_file(path, (writable ? O_RDWR : O_RDONLY) | O_NONBLOCK | O_NOCTTY);
    if (card->file < 0) {
        int reason = errno;
        struct stat about;
        bool link = reason == ENOENT && lstat(path, &about) == 0;
        return fault(path, "%s", link ? "a link to a file that is not there" : strerror(reason));
    }
    int status = measure(card);
    if (status == EXIT_DONE)
        status = read_card(card, writable);
    if (status != EXIT_DONE) {
        card_close(card);
    } else if (!writable) {
        close(card->file);
        card->file = -1;
    }
    return status;
}

int card_store(const struct card_file *card, size_t first, size_t count) {
    struct timespec since;
    int status = begin_waiting(card, &since);
    if (status == EXIT_DONE)
        status = take_words(card, F_WRLCK, &since);
    if (status != EXIT_DONE)
        return status;
    if (!write_words(card->file, card->words + first, first, count))
        status = fault(card->path,
                       "%s; the card is as a power cut would leave it, and no game is lost; when the cause is gone, "
                       "run the same command again, and it goes on",
                       strerror(errno));
    else if (!sync_words(card->file))
        status = not_on_medium(card->path, "its last write");
    unlock(card, LOCK_WORDS);
    return status;
}

void card_close(struct card_file *card) {
    free(card->words);
    free(card->real);
    if (card->file >= 0)
        close(card->file);
}

int card_judge(const struct card_file *card) {
    uint32_t number = gi_judge(card->words, card->length);
    return number == GI_DONE ? EXIT_DONE : refused(card->path, number);
}

int card_verdict(const struct card_file *card, bool all) {
    uint32_t number = gi_judge(card->words, card->length);
    if (number != GI_DONE || all)
        printf("%s: %" PRIu32 ", %s\n", card->path, number, number == GI_DONE ? "sound" : gi_text(number));
    if (number == GI_DONE && all && pass_open(card))
        printf(
            "%s: a pass is open: a batch is in the index up to term %" PRIu32 ", position %" PRIu32
            ", and not beyond; a run is at work on it, or was cut short; the same batch goes on with it, and an empty "
            "one ends it\n",
            card->path, card->words[GI_CONFIG_BOUNDARY_TERM], card->words[GI_CONFIG_BOUNDARY_POSITION]);
    return number == GI_DONE ? EXIT_DONE : EXIT_REFUSED;
}

bool pass_open(const struct card_file *card) {
    return card->words[GI_CONFIG_NEW_LENGTH] != 0;
}
