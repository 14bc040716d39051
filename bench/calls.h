/* The contestants: each operation as each of them does it on one stripe. */

#ifndef CALLS_H
#define CALLS_H

#include "shelf.h"

enum Contestant { OURS, JERASURE, ISAL, MEMCPY, CONTESTANTS };

/* A contestant's call on a stripe; only a rebuild looks at the loss. */
typedef void Call(const struct Shelf *shelf, size_t number, const struct Loss *loss);

/* NULL stands where a contestant has no such operation. */
extern Call *const CALLS[OPERATIONS][CONTESTANTS];

/* Compares the results of all contestants that have the same code, and ends
   the program if they differ; leaves clean stripes. */
void compare(const struct Shelf *shelf);

#endif
