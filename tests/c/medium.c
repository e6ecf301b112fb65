/* A medium apart from the files that runs see.
 *
 * The files of the folder of cards are what runs read and write, as the page cache is. The
 * medium is what a power cut leaves of them: of a file, what it was at its last sync, and of
 * the writes after it each not at all, whole, in part or as other words; of the folder, its
 * names at its last sync, and the changes after it up to any one of them. The 8
 * configuration words of a card land whole or not at all. What is pending stays so when a
 * run is killed, until another syncs. */
#define _GNU_SOURCE

#include "medium.h"

#include <dirent.h>
#include <errno.h>
#include <fcntl.h>
#include <stdio.h>
#include <stdlib.h>
#include <string.h>
#include <sys/mman.h>
#include <sys/stat.h>
#include <unistd.h>

enum { PATH_BYTES = 512 };

const char cards[] = "cards";
ino_t cards_number;
struct run *run;
static char room[PATH_BYTES]; /* the folder of the tests */

void must(bool done, const char *what) {
    if (done)
        return;
    fprintf(stderr, "faults: %s: %s\n", what, strerror(errno));
    abort();
}

/* ---- names */

static int names_find(const struct names *names, const char *name) {
    for (int i = 0; i < names->count; i++)
        if (strcmp(names->entries[i].name, name) == 0)
            return i;
    return -1;
}

static void names_remove(struct names *names, const char *name) {
    int at = names_find(names, name);
    if (at >= 0)
        names->entries[at] = names->entries[--names->count];
}

static void names_put(struct names *names, const char *name, int node) {
    names_remove(names, name);
    must(names->count < FILES, "too many files in the folder");
    strcpy(names->entries[names->count].name, name);
    names->entries[names->count++].node = node;
}

int names_node(const struct names *names, const char *name) {
    int at = names_find(names, name);
    return at < 0 ? NODE_NONE : names->entries[at].node;
}

static void names_change(struct names *names, const struct operation *operation) {
    if (operation->kind == OPERATION_RENAME) {
        names_remove(names, operation->name);
        names_put(names, operation->to, operation->node);
    } else if (operation->kind == OPERATION_CREATE) {
        names_put(names, operation->name, operation->node);
    } else {
        names_remove(names, operation->name);
    }
}

/* The name in the folder of cards that a path stands for, or NULL. */
const char *name_in_cards(const char *path) {
    size_t length = strlen(room);
    if (strncmp(path, room, length) == 0 && path[length] == '/')
        path += length + 1;
    length = strlen(cards);
    if (strncmp(path, cards, length) != 0 || path[length] != '/')
        return NULL;
    const char *name = path + length + 1;
    return *name == '\0' || strchr(name, '/') != NULL ? NULL : name;
}

/* ---- the medium */

static bool names_have(const struct names *names, int node) {
    for (int i = 0; i < names->count; i++)
        if (names->entries[i].node == node)
            return true;
    return false;
}

bool node_used(const struct medium *medium, int node) {
    if (names_have(&medium->now, node) || names_have(&medium->durable, node))
        return true;
    for (int i = 0; i < medium->operation_count; i++)
        if (medium->operations[i].node == node)
            return true;
    return false;
}

/* A file that has no bytes on the medium and nothing pending. */
int node_new(struct medium *medium, ino_t number) {
    int node = 0;
    while (node < NODES && node_used(medium, node))
        node++;
    must(node < NODES, "too many files on the medium");
    int kept = 0;
    for (int i = 0; i < medium->pending_count; i++)
        if (medium->pending[i].node != node)
            medium->pending[kept++] = medium->pending[i];
    medium->pending_count = kept;
    medium->nodes[node] = (struct node){.number = number};
    return node;
}

void medium_change(struct medium *medium, struct operation operation) {
    if (medium->operation_count == OPERATIONS) { /* the earliest comes to be on the medium */
        names_change(&medium->durable, &medium->operations[0]);
        memmove(medium->operations, medium->operations + 1, (OPERATIONS - 1) * sizeof *medium->operations);
        medium->operation_count--;
    }
    medium->operations[medium->operation_count++] = operation;
    names_change(&medium->now, &operation);
    for (int node = 0; node < NODES; node++)
        if (!names_have(&medium->now, node))
            medium->nodes[node].number = 0;
}

/* What can become of a write that is pending when the power fails. */
enum way { WAY_NOTHING, WAY_WHOLE, WAY_FIRST_HALF, WAY_SECOND_HALF, WAY_OTHER_WORDS, WAY_HALF_AND_OTHER_WORDS, WAYS };

static unsigned ways_of(const struct pending *write) {
    return write->truncates || write->whole ? WAY_WHOLE + 1 : WAYS;
}

static void land(const struct pending *write, enum way way, unsigned char *bytes, size_t *length) {
    if (way == WAY_NOTHING)
        return;
    if (write->truncates) {
        *length = 0;
        return;
    }
    size_t half = write->length / 2;
    size_t end = write->offset + (way == WAY_FIRST_HALF ? half : write->length);
    if (end > *length) {
        memset(bytes + *length, 0, end - *length);
        *length = end;
    }
    for (size_t i = 0; i < write->length; i++) {
        unsigned char *place = &bytes[write->offset + i];
        bool first = i < half;
        if (way == WAY_WHOLE || (first && (way == WAY_FIRST_HALF || way == WAY_HALF_AND_OTHER_WORDS)) ||
            (!first && way == WAY_SECOND_HALF))
            *place = write->bytes[i];
        else if (way == WAY_OTHER_WORDS || way == WAY_HALF_AND_OTHER_WORDS)
            *place = (unsigned char)~write->bytes[i];
    }
}

void medium_sync(struct medium *medium, int node) {
    int kept = 0;
    for (int i = 0; i < medium->pending_count; i++) {
        const struct pending *write = &medium->pending[i];
        if (write->node == node)
            land(write, WAY_WHOLE, medium->nodes[node].bytes, &medium->nodes[node].length);
        else
            medium->pending[kept++] = *write;
    }
    medium->pending_count = kept;
}

struct pending *pending_new(struct medium *medium, int node) {
    if (medium->pending_count == PENDING) /* the earliest file's come to be on the medium */
        medium_sync(medium, medium->pending[0].node);
    struct pending *write = &medium->pending[medium->pending_count++];
    *write = (struct pending){.node = node};
    return write;
}

/* The files that a choice of names and of what became of the writes leaves. */
static void folder_of(const struct medium *medium, const struct names *names, const enum way *ways,
                      struct folder *left) {
    left->count = 0;
    for (int i = 0; i < names->count; i++) {
        static unsigned char bytes[FILE_BYTES];
        int node = names->entries[i].node;
        size_t length = medium->nodes[node].length;
        memcpy(bytes, medium->nodes[node].bytes, length);
        for (int j = 0; j < medium->pending_count; j++)
            if (medium->pending[j].node == node)
                land(&medium->pending[j], ways[j], bytes, &length);
        folder_put(left, names->entries[i].name, bytes, length);
    }
}

void medium_cut(struct folder *left, choose *chosen, void *from) {
    const struct medium *medium = &run->medium;
    struct names names = medium->durable;
    unsigned landed = chosen(from, (unsigned)medium->operation_count + 1);
    for (unsigned i = 0; i < landed; i++)
        names_change(&names, &medium->operations[i]);
    enum way ways[PENDING];
    for (int i = 0; i < medium->pending_count; i++)
        ways[i] = (enum way)chosen(from, ways_of(&medium->pending[i]));
    folder_of(medium, &names, ways, left);
}

uint64_t medium_choices(uint64_t limit) {
    const struct medium *medium = &run->medium;
    uint64_t choices = (uint64_t)medium->operation_count + 1;
    for (int i = 0; i < medium->pending_count && choices < limit; i++)
        choices *= ways_of(&medium->pending[i]);
    return choices < limit ? choices : limit;
}

bool medium_agrees(void) {
    static struct folder seen;
    static struct folder modelled;
    enum way ways[PENDING];
    for (int i = 0; i < PENDING; i++)
        ways[i] = WAY_WHOLE;
    folder_take(&seen);
    folder_of(&run->medium, &run->medium.now, ways, &modelled);
    return folder_hash(&seen) == folder_hash(&modelled);
}

/* ---- folders and states */

const struct file *folder_find(const struct folder *folder, const char *name) {
    for (int i = 0; i < folder->count; i++)
        if (strcmp(folder->files[i].name, name) == 0)
            return &folder->files[i];
    return NULL;
}

void folder_remove(struct folder *folder, const char *name) {
    const struct file *found = folder_find(folder, name);
    if (found == NULL)
        return;
    struct file *file = &folder->files[found - folder->files];
    struct file *end = folder->files + folder->count--;
    memmove(file, file + 1, (size_t)(end - file - 1) * sizeof *file);
}

void folder_put(struct folder *folder, const char *name, const void *bytes, size_t length) {
    folder_remove(folder, name);
    must(folder->count < FILES && length <= FILE_BYTES && strlen(name) < NAME_BYTES, "a file is too large");
    int at = folder->count++;
    for (; at > 0 && strcmp(folder->files[at - 1].name, name) > 0; at--)
        folder->files[at] = folder->files[at - 1];
    strcpy(folder->files[at].name, name);
    folder->files[at].length = length;
    memcpy(folder->files[at].bytes, bytes, length);
}

static void path_in_cards(char *path, const char *name) {
    must(snprintf(path, PATH_BYTES, "%s/%s", cards, name) < PATH_BYTES, "a name is too long");
}

static void clear_cards(void) {
    char path[PATH_BYTES];
    DIR *folder = opendir(cards);
    must(folder != NULL, cards);
    for (struct dirent *entry; (entry = readdir(folder)) != NULL;)
        if (strcmp(entry->d_name, ".") != 0 && strcmp(entry->d_name, "..") != 0) {
            path_in_cards(path, entry->d_name);
            must(unlink(path) == 0, path);
        }
    closedir(folder);
}

static ino_t write_file(const char *path, const void *bytes, size_t length) {
    struct stat about;
    int file = open(path, O_WRONLY | O_CREAT | O_TRUNC, 0666);
    must(file >= 0 && write(file, bytes, length) == (ssize_t)length && fstat(file, &about) == 0, path);
    close(file);
    return about.st_ino;
}

void input_write(const char *name, const void *bytes, size_t length) {
    char path[PATH_BYTES];
    must(snprintf(path, sizeof path, "in/%s", name) < PATH_BYTES, "a name is too long");
    write_file(path, bytes, length);
}

void folder_lay(const struct folder *folder) {
    struct medium *medium = &run->medium;
    char path[PATH_BYTES];
    clear_cards();
    medium->now.count = medium->durable.count = medium->pending_count = medium->operation_count = 0;
    for (int i = 0; i < folder->count; i++) {
        const struct file *file = &folder->files[i];
        path_in_cards(path, file->name);
        struct node *node = &medium->nodes[i];
        node->number = write_file(path, file->bytes, file->length);
        node->length = file->length;
        memcpy(node->bytes, file->bytes, file->length);
        names_put(&medium->now, file->name, i);
    }
    medium->durable = medium->now;
}

void folder_take(struct folder *folder) {
    char path[PATH_BYTES];
    folder->count = 0;
    DIR *entries = opendir(cards);
    must(entries != NULL, cards);
    for (struct dirent *entry; (entry = readdir(entries)) != NULL;) {
        unsigned char bytes[FILE_BYTES + 1];
        if (strcmp(entry->d_name, ".") == 0 || strcmp(entry->d_name, "..") == 0)
            continue;
        path_in_cards(path, entry->d_name);
        int file = open(path, O_RDONLY);
        must(file >= 0, path);
        ssize_t length = read(file, bytes, sizeof bytes);
        must(length >= 0, path);
        close(file);
        folder_put(folder, entry->d_name, bytes, (size_t)length);
    }
    closedir(entries);
}

void state_take(struct state *state) {
    folder_take(&state->files);
    state->medium = run->medium;
}

void state_lay(const struct state *state) {
    struct medium *medium = &run->medium;
    char path[PATH_BYTES];
    clear_cards();
    *medium = state->medium;
    for (int node = 0; node < NODES; node++)
        medium->nodes[node].number = 0;
    for (int i = 0; i < state->files.count; i++) {
        const struct file *file = &state->files.files[i];
        path_in_cards(path, file->name);
        ino_t number = write_file(path, file->bytes, file->length);
        int node = names_node(&medium->now, file->name);
        must(node >= 0, "a state's file is not on its medium");
        medium->nodes[node].number = number;
    }
}

static uint64_t hash_bytes(uint64_t hash, const void *bytes, size_t length) {
    const unsigned char *byte = bytes;
    for (size_t i = 0; i < length; i++)
        hash = (hash ^ byte[i]) * UINT64_C(1099511628211);
    return (hash ^ length) * UINT64_C(1099511628211);
}

/* Of names that have a run's number in them the figures do not count. */
static uint64_t hash_name(uint64_t hash, const char *name) {
    for (; *name != '\0'; name++)
        if (*name < '0' || *name > '9')
            hash = hash_bytes(hash, name, 1);
    return hash_bytes(hash, "", 0);
}

uint64_t folder_hash(const struct folder *folder) {
    uint64_t hash = UINT64_C(14695981039346656037);
    for (int i = 0; i < folder->count; i++) {
        hash = hash_name(hash, folder->files[i].name);
        hash = hash_bytes(hash, folder->files[i].bytes, folder->files[i].length);
    }
    return hash;
}

uint64_t state_hash(const struct state *state) {
    const struct medium *medium = &state->medium;
    uint64_t hash = folder_hash(&state->files);
    for (int i = 0; i < medium->durable.count; i++) {
        hash = hash_name(hash, medium->durable.entries[i].name);
        const struct node *node = &medium->nodes[medium->durable.entries[i].node];
        hash = hash_bytes(hash, node->bytes, node->length);
    }
    for (int i = 0; i < medium->operation_count; i++) {
        hash = hash_name(hash, medium->operations[i].name);
        hash = hash_name(hash, medium->operations[i].to);
        hash = hash_bytes(hash, &medium->operations[i].kind, sizeof medium->operations[i].kind);
    }
    for (int i = 0; i < medium->pending_count; i++) {
        const struct pending *write = &medium->pending[i];
        hash = hash_bytes(hash, &write->offset, sizeof write->offset);
        hash = hash_bytes(hash, write->bytes, write->length);
    }
    return hash;
}

void medium_begin(void) {
    struct stat about;
    const char *tmp = getenv("TMPDIR");
    const char *where = access("/dev/shm", W_OK) == 0 ? "/dev/shm" : tmp != NULL ? tmp : "/tmp";
    char path[PATH_BYTES];
    must(snprintf(path, sizeof path, "%s/faults.XXXXXX", where) < PATH_BYTES, "the folder's name is too long");
    must(mkdtemp(path) != NULL && chdir(path) == 0 && getcwd(room, sizeof room) != NULL, path);
    must(mkdir(cards, 0777) == 0 && mkdir("in", 0777) == 0 && stat(cards, &about) == 0, cards);
    must(symlink("../cards/card", "in/link") == 0, "in/link");
    cards_number = about.st_ino;
    run = mmap(NULL, sizeof *run, PROT_READ | PROT_WRITE, MAP_SHARED | MAP_ANONYMOUS, -1, 0);
    must(run != MAP_FAILED, "no memory to share");
}

static void remove_files(const char *name) {
    char path[PATH_BYTES];
    DIR *folder = opendir(name);
    for (struct dirent *entry; folder != NULL && (entry = readdir(folder)) != NULL;)
        if (strcmp(entry->d_name, ".") != 0 && strcmp(entry->d_name, "..") != 0 &&
            snprintf(path, sizeof path, "%s/%s", name, entry->d_name) < PATH_BYTES)
            unlink(path);
    if (folder != NULL)
        closedir(folder);
    rmdir(name);
}

void medium_end(void) {
    remove_files(cards);
    remove_files("in");
    if (chdir("/") == 0)
        rmdir(room);
}
