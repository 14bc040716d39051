/* SPDX-License-Identifier: Apache-2.0 */
/* Jerasure's Liberation code, offered to the conformance runner, as an example of a shim over
 * columns:
 *     make conformance IMPL=conformance/examples/jerasure.c \
 *         IMPL_CFLAGS=-I/usr/include/jerasure IMPL_LIBS=-lJerasure
 * (Debian packages libjerasure-dev and libgf-complete-dev). With words of p bits and packets of
 * s bytes it is the same code in the same layout. */

#include "yours.h"

#include <jerasure.h>
#include <liberation.h>
#include <stdlib.h>

enum { MOST_DISKS = 33 };

size_t yours_unit(void)
{
    return sizeof(long);
}

static void disks_of(size_t k, uint8_t *const *columns, char **disks)
{
    for (size_t c = 0; c < k + 2; c++)
        disks[c] = (char *)columns[c];
}

int yours_encode_columns(size_t p, size_t k, size_t s, uint8_t *const *columns)
{
    char *disks[MOST_DISKS];
    int *matrix = liberation_coding_bitmatrix((int)k, (int)p);
    if (!matrix)
        return YOURS_LEFT_OUT;
    disks_of(k, columns, disks);
    jerasure_bitmatrix_encode((int)k, 2, (int)p, matrix, disks, disks + k, (int)(p * s), (int)s);
    free(matrix);
    return 0;
}

static int rebuild(size_t p, size_t k, size_t s, int *lost, uint8_t *const *columns)
{
    char *disks[MOST_DISKS];
    int *matrix = liberation_coding_bitmatrix((int)k, (int)p);
    if (!matrix)
        return YOURS_LEFT_OUT;
    disks_of(k, columns, disks);
    int failed = jerasure_bitmatrix_decode((int)k, 2, (int)p, matrix, 1, lost, disks, disks + k, (int)(p * s), (int)s);
    free(matrix);
    return failed ? 1 : 0;
}

int yours_rebuild_one_columns(size_t p, size_t k, size_t s, size_t first, uint8_t *const *columns)
{
    int lost[] = {(int)first, -1};
    return rebuild(p, k, s, lost, columns);
}

int yours_rebuild_two_columns(size_t p, size_t k, size_t s, size_t first, size_t second, uint8_t *const *columns)
{
    int lost[] = {(int)first, (int)second, -1};
    return rebuild(p, k, s, lost, columns);
}
