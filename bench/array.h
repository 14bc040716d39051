/* An array: its shape, what each operation loses in turn, Jerasure's schedules. */

#ifndef ARRAY_H
#define ARRAY_H

#include <stddef.h>
#include <stdint.h>

enum { MOST_DISKS = 31 };

enum Operation { ENCODE, CHECK, REBUILD_ONE, REBUILD_TWO, OPERATIONS };

/* Data disks that are lost together. */
struct Loss {
    int count;                  /* 0, 1 or 2 */
    int disks[2];
    int **schedule;             /* Jerasure's, from its own decoding matrix */
    int sources[MOST_DISKS];    /* the k disks that it reads */
};

/* What an operation loses in turn; encoding and checking lose nothing, once. */
struct Losses {
    int count;
    struct Loss *all;
};

struct Array {
    int p;                      /* cells a disk */
    int k;                      /* data disks */
    int **encoding;             /* Jerasure's schedule */
    struct Losses losses[OPERATIONS];
    double cells[OPERATIONS];   /* cells that an operation has to read of a stripe */
};

void open_array(struct Array *array, int p, int k);
void close_array(struct Array *array);

/* Ends the program with status 1 unless the condition holds. */
void demand(int holds, const char *what);

#endif
