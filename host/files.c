/* Files as a whole, read and made. */
#define _GNU_SOURCE

#include "files.h"

#include <errno.h>
#include <fcntl.h>
#include <stdio.h>
#include <stdlib.h>
#include <string.h>
#include <sys/stat.h>
#include <unistd.h>

#include "gamecard.h"
#include "words.h"

int open_file(const char *path, int flags) {
    int file;
    do
        file = open(path, flags | O_CLOEXEC, 0666);
    while (file < 0 && errno == EINTR);
    return file;
}

char *name_beside(const char *path, const char *behind) {
    size_t length = strlen(path) + strlen(behind) + 1;
    char *name = malloc(length);
    if (name != NULL)
        snprintf(name, length, "%s%s", path, behind);
    return name;
}

/* ---- reading */

static bool is_standard(const char *path) {
    return strcmp(path, "-") == 0;
}

const char *input_name(const char *path) {
    return is_standard(path) ? "standard input" : path;
}

/* Reads an open file; false with errno set on an error. */
static bool read_rest(int file, enough_function *enough, unsigned char **bytes, size_t *length) {
    size_t room = 0;
    for (;;) {
        if (*length == room) {
            room = 2 * room + 65536;
            unsigned char *more = realloc(*bytes, room);
            if (more == NULL)
                return false;
            *bytes = more;
        }
        ssize_t got = read(file, *bytes + *length, room - *length);
        if (got < 0 && errno == EINTR)
            continue;
        if (got <= 0)
            return got == 0;
        *length += (size_t)got;
        if (enough(*bytes, *length, (size_t)got))
            return true;
    }
}

int file_rest(const char *name, int file, enough_function *enough, unsigned char **bytes, size_t *length) {
    *bytes = NULL;
    *length = 0;
    bool done = file >= 0 && read_rest(file, enough, bytes, length);
    int status = done ? EXIT_DONE : fault(name, "%s", strerror(errno));
    if (file > STDIN_FILENO)
        close(file);
    if (!done) {
        free(*bytes);
        *bytes = NULL;
    }
    return status;
}

int file_read(const char *path, enough_function *enough, unsigned char **bytes, size_t *length) {
    int file = is_standard(path) ? STDIN_FILENO : open_file(path, O_RDONLY);
    return file_rest(input_name(path), file, enough, bytes, length);
}

/* ---- making */

int not_on_medium(const char *path, const char *what) {
    return fault(path,
                 "%s: %s may not be on the medium, whatever the file shows; do not trust the file before its medium "
                 "has been unmounted and mounted again (README: If a write does not reach the medium)",
                 strerror(errno), what);
}

/* fsync, tried again where a signal came in between. */
static bool sync_file(int file) {
    int done;
    do
        done = fsync(file);
    while (done != 0 && errno == EINTR);
    return done == 0;
}

/* Closes a file and leaves errno as it is. What was written is on the medium by then, or
 * is known to have failed, so that closing has nothing to tell. */
static void close_quietly(int file) {
    int kept = errno;
    close(file);
    errno = kept;
}

bool sync_folder(const char *path) {
    const char *slash = strrchr(path, '/');
    /* "." for a bare name, "/" for a file of the root */
    char *folder = slash == NULL ? strdup(".") : strndup(path, slash == path ? 1 : (size_t)(slash - path));
    if (folder == NULL)
        return false;
    int file = open_file(folder, O_RDONLY | O_DIRECTORY);
    free(folder);
    if (file < 0)
        return false;
    bool synced = sync_file(file) || errno == EINVAL;
    close_quietly(file);
    return synced;
}

/* Writes bytes to a file from where it stands; false with errno set on an error. */
static bool write_all(int file, const unsigned char *bytes, size_t length) {
    while (length > 0) {
        ssize_t put = write(file, bytes, length);
        if (put < 0 && errno == EINTR)
            continue;
        if (put <= 0) {
            errno = put < 0 ? errno : EIO;
            return false;
        }
        bytes += put;
        length -= (size_t)put;
    }
    return true;
}

/* Makes a file that is on the medium but for its name; false with errno set on an
 * error. One that a run left which was cut short is in the way. */
static bool make_temporary(const char *path, const void *bytes, size_t length) {
    if (unlink(path) != 0 && errno != ENOENT)
        return false;
    int file = open_file(path, O_WRONLY | O_CREAT | O_EXCL);
    if (file < 0)
        return false;
    bool made = write_all(file, bytes, length) && sync_file(file);
    close_quietly(file);
    return made;
}

/* Gives a file a name that no file has; false with errno set on an error. Not every file
 * system can do both at once (EINVAL). */
static bool rename_new(const char *from, const char *to) {
    if (renameat2(AT_FDCWD, from, AT_FDCWD, to, RENAME_NOREPLACE) == 0)
        return true;
    if (errno != EINVAL)
        return false;
    struct stat about;
    if (lstat(to, &about) == 0) {
        errno = EEXIST;
        return false;
    }
    return errno == ENOENT && rename(from, to) == 0;
}

/* Tells what went wrong before a file had its name, and takes the temporary one away. */
static int not_made(const char *path, const char *temporary) {
    int status = fault(path, "%s", strerror(errno));
    unlink(temporary);
    return status;
}

int file_replace(const char *path, const char *temporary, const void *bytes, size_t length) {
    if (!make_temporary(temporary, bytes, length) || rename(temporary, path) != 0)
        return not_made(path, temporary);
    return sync_folder(path) ? EXIT_DONE : not_on_medium(path, "its name");
}

/* Makes a file that must not be there. */
static int create(const char *path, const char *temporary, const void *bytes, size_t length) {
    if (!make_temporary(temporary, bytes, length) || !rename_new(temporary, path))
        return not_made(path, temporary);
    if (sync_folder(path))
        return EXIT_DONE;
    int status = not_on_medium(path, "its name");
    unlink(path);
    return status;
}

int file_create(const char *path, const uint32_t *words, size_t length) {
    char behind[40];
    snprintf(behind, sizeof behind, ".new.%jd", (intmax_t)getpid());
    char *temporary = name_beside(path, behind);
    unsigned char *bytes = malloc(length * WORD_BYTES + 1); /* also where there are no words */
    int status;
    if (temporary == NULL || bytes == NULL) {
        status = no_memory(path);
    } else {
        for (size_t i = 0; i < length; i++)
            word_to(bytes + i * WORD_BYTES, words[i]);
        status = create(path, temporary, bytes, length * WORD_BYTES);
    }
    free(bytes);
    free(temporary);
    return status;
}
