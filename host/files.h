/* Files as a whole: read from their start to their end, and made so that a cut leaves
 * all of them or nothing. What fails is told on standard error. */
#ifndef FILES_H
#define FILES_H

#include <stdbool.h>
#include <stddef.h>
#include <stdint.h>

/* Opens a file as open does, and tries again where a signal came in between. */
int open_file(const char *path, int flags);

/* Puts a name together with what stands behind it; NULL where there is no memory. */
char *name_beside(const char *path, const char *behind);

/* What messages call a file to read: its path, or standard input where that is "-". */
const char *input_name(const char *path);

/* Whether a file that is read has bytes enough for its reader, who was handed all bytes
 * so far, of which the last count are new. */
typedef bool enough_function(const unsigned char *bytes, size_t length, size_t count);

/* Reads a file, or standard input where path is "-", to its end or until its bytes are
 * enough. The bytes are the caller's to free. Gives an exit status. */
int file_read(const char *path, enough_function *enough, unsigned char **bytes, size_t *length);

/* The same of a file that is open, which is closed; -1 is one that could not be opened,
 * with errno set. */
int file_rest(const char *name, int file, enough_function *enough, unsigned char **bytes, size_t *length);

/* Makes a file of these bytes under a temporary name, brings it to the medium, gives it
 * its own name and brings that to the medium too. A file of that name is replaced. A cut
 * leaves the file as it was before or as it is to be. Gives an exit status. */
int file_replace(const char *path, const char *temporary, const void *bytes, size_t length);

/* The same of a file that must not be there, which has these words, under a temporary
 * name of its own. */
int file_create(const char *path, const uint32_t *words, size_t length);

/* Has the name of a file on the medium: syncs the folder that it is in, where the file
 * system has syncs of folders (EINVAL: it has none). False with errno set otherwise. */
bool sync_folder(const char *path);

/* Tells that a sync failed, of what, and gives EXIT_FAULT. The system tells only once of
 * a write that did not reach the medium: from here on neither the file nor another sync
 * shows it. */
int not_on_medium(const char *path, const char *what);

#endif
