/* What a piece of work took: time, syncs, bytes. */
#ifndef MEASURE_H
#define MEASURE_H

#include <stddef.h>

enum measure {
    TIME,    /* seconds */
    SYNCS,   /* calls of this process after which something is on the medium */
    SYNCING, /* seconds in them */
    HANDED,  /* bytes handed to write calls, by this process and its children that ended */
    DEVICE,  /* bytes that the folder's device was given to write, by whomever; 0 where not known */
    MEASURES
};

struct taken {
    double of[MEASURES];
};

double seconds(void);

/* All that was taken since the program's start. */
struct taken taken_by_now(void);

struct taken taken_since(const struct taken *start);

/* The median of some figures, which it sorts: the first is then the least. */
double median(double *figures, size_t count);

/* Seconds of one sync of a page of 4 KiB in this folder, median of 50. */
double sync_seconds(void);

#endif
