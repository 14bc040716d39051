/* SPDX-License-Identifier: Apache-2.0 */
/* A plain Liberation code, as an example of what can be tested: make conformance
 * IMPL=conformance/examples/plain.c It lists the cells of each set and XORs them; cell c * p + i
 * is row i of disk c. */

#include "yours.h"

#include <stdlib.h>
#include <string.h>

enum { MOST_CELLS = 31 * 33, MOST_SIZE = 4096, MOST_IN_SET = 33 };

static void add(uint8_t *to, const uint8_t *from, size_t s)
{
    while (s-- > 0)
        *to++ ^= *from++;
}

/* The cells of set n, its parity cell last: row set n for n below p, diagonal set n - p from
 * there on. */
static size_t set_cells(size_t p, size_t k, size_t n, size_t *cells)
{
    size_t i = n % p, extra = p - 2 * i % p, count = 0;
    for (size_t c = 0; c < k; c++)
        cells[count++] = c * p + (n < p ? i : (i + c) % p);
    if (n >= p && i > 0 && extra < k)
        cells[count++] = extra * p + p - 1 - i;
    cells[count++] = (k + n / p) * p + i;
    return count;
}

/* A cell of set n becomes the XOR of the others. */
static void solve(size_t p, size_t k, size_t s, size_t n, size_t cell, uint8_t *stripe)
{
    size_t cells[MOST_IN_SET], count = set_cells(p, k, n, cells);
    memset(stripe + cell * s, 0, s);
    for (size_t j = 0; j < count; j++)
        if (cells[j] != cell)
            add(stripe + cell * s, stripe + cells[j] * s, s);
}

int yours_encode(size_t p, size_t k, size_t s, uint8_t *stripe)
{
    for (size_t n = 0; n < 2 * p; n++)
        solve(p, k, s, n, k * p + n, stripe);
    return 0;
}

int yours_check(size_t p, size_t k, size_t s, const uint8_t *stripe, int *clean)
{
    *clean = 1;
    for (size_t n = 0; n < 2 * p; n++) {
        uint8_t sum[MOST_SIZE] = {0};
        size_t cells[MOST_IN_SET], count = set_cells(p, k, n, cells);
        for (size_t j = 0; j < count; j++)
            add(sum, stripe + cells[j] * s, s);
        for (size_t b = 0; b < s; b++)
            if (sum[b] != 0)
                *clean = 0;
    }
    return 0;
}

/* Row sets, and diagonal sets for Q. */
int yours_plan(size_t p, size_t k, size_t lost, uint8_t *plan)
{
    for (size_t row = 0; row < p; row++, plan += 3) {
        plan[0] = plan[2] = (uint8_t)row;
        plan[1] = lost == k + 1;
    }
    return 0;
}

int yours_rebuild_one(size_t p, size_t k, size_t s, size_t lost, uint8_t *stripe)
{
    for (size_t row = 0; row < p; row++)
        solve(p, k, s, lost == k + 1 ? p + row : row, lost * p + row, stripe);
    return 0;
}

/* Tries each disk: is the stripe clean once it is rebuilt? */
int yours_scrub(size_t p, size_t k, size_t s, const uint8_t *stripe, int *verdict, size_t *disk)
{
    int clean;
    uint8_t *copy = malloc((k + 2) * p * s);
    if (!copy)
        return YOURS_LEFT_OUT;
    yours_check(p, k, s, stripe, &clean);
    *verdict = clean ? 0 : 2;
    for (size_t d = 0; *verdict == 2 && d < k + 2; d++) {
        memcpy(copy, stripe, (k + 2) * p * s);
        yours_rebuild_one(p, k, s, d, copy);
        yours_check(p, k, s, copy, &clean);
        if (clean) {
            *verdict = 1;
            *disk = d;
        }
    }
    free(copy);
    return 0;
}

/* A sum of sets: which missing cells it has, and the XOR of its other cells. */
struct sum {
    uint64_t missing;
    uint8_t value[MOST_SIZE];
};

static void add_sum(struct sum *to, const struct sum *from, size_t s)
{
    to->missing ^= from->missing;
    add(to->value, from->value, s);
}

/* Gauss: of all missing cells sum b is left with the b-th alone. 0 if it can be done. */
static int eliminate(struct sum *sums, size_t count, size_t unknowns, size_t s)
{
    for (size_t b = 0; b < unknowns; b++) {
        size_t n = b;
        while (n < count && !(sums[n].missing >> b & 1))
            n++;
        if (n == count)
            return 23;
        struct sum found = sums[n];
        sums[n] = sums[b], sums[b] = found;
        for (n = 0; n < count; n++)
            if (n != b && sums[n].missing >> b & 1)
                add_sum(&sums[n], &sums[b], s);
    }
    return 0;
}

int yours_rebuild_cells(size_t p, size_t k, size_t s, const uint8_t *missing, uint8_t *stripe)
{
    size_t lost[MOST_CELLS], unknowns = 0;
    struct sum *sums = calloc(2 * p, sizeof *sums);
    if (!sums)
        return YOURS_LEFT_OUT;
    for (size_t cell = 0; cell < p * (k + 2); cell++)
        if (missing[cell])
            lost[unknowns++] = cell;
    for (size_t n = 0; n < 2 * p; n++) {
        size_t cells[MOST_IN_SET], count = set_cells(p, k, n, cells);
        for (size_t j = 0; j < count; j++)
            if (!missing[cells[j]])
                add(sums[n].value, stripe + cells[j] * s, s);
        for (size_t j = 0; j < count && unknowns <= 2 * p; j++)
            for (size_t b = 0; b < unknowns; b++)
                sums[n].missing ^= (uint64_t)(cells[j] == lost[b]) << b;
    }
    int refused = unknowns > 2 * p ? 23 : eliminate(sums, 2 * p, unknowns, s);
    for (size_t b = 0; refused == 0 && b < unknowns; b++)
        memcpy(stripe + lost[b] * s, sums[b].value, s);
    free(sums);
    return refused;
}

int yours_rebuild_two(size_t p, size_t k, size_t s, size_t first, size_t second, uint8_t *stripe)
{
    uint8_t missing[MOST_CELLS] = {0};
    memset(missing + first * p, 1, p);
    memset(missing + second * p, 1, p);
    return yours_rebuild_cells(p, k, s, missing, stripe);
}

int yours_update(size_t p, size_t k, size_t s, size_t row, size_t disk, const uint8_t *cell, uint8_t *stripe)
{
    uint8_t change[MOST_SIZE] = {0}, *old = stripe + (disk * p + row) * s;
    add(change, old, s);
    add(change, cell, s);
    for (size_t n = 0; n < 2 * p; n++) {
        size_t cells[MOST_IN_SET], last = set_cells(p, k, n, cells) - 1;
        for (size_t j = 0; j < last; j++)
            if (cells[j] == disk * p + row)
                add(stripe + cells[last] * s, change, s);
    }
    memcpy(old, cell, s);
    return 0;
}
