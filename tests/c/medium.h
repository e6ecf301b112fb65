/* What the system calls of a run need of the medium apart from its files. */
#ifndef MEDIUM_H
#define MEDIUM_H

#include "faults.h"

/* What an open file of a run is, beside the number of a node. */
enum { NODE_NONE = -1, NODE_FOLDER = -2 };

extern const char cards[]; /* the folder of cards */
extern ino_t cards_number; /* its number */

/* Ends the test where it cannot go on. */
void must(bool done, const char *what);

/* The name in the folder of cards that a path stands for, or NULL. */
const char *name_in_cards(const char *path);

/* The file that has a name, or NODE_NONE. */
int names_node(const struct names *names, const char *name);

/* Whether a file has a name, or may come to have one. */
bool node_used(const struct medium *medium, int node);

/* A file that has no bytes on the medium and nothing pending. */
int node_new(struct medium *medium, ino_t number);

/* A write to a file that is pending, to be filled in. */
struct pending *pending_new(struct medium *medium, int node);

/* Brings the pending writes of a file to the medium. */
void medium_sync(struct medium *medium, int node);

/* A change of the folder's names, which is pending. */
void medium_change(struct medium *medium, struct operation operation);

#endif
