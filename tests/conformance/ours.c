/* The library itself behind yours.h, every function in both forms: what the runner asks of it,
 * it must find right. tests/conformance/run links it with a copy of the archive, and makes wrong
 * variants of it. */

#include "cuzhaveli.h"
#include "yours.h"

#include <stdlib.h>
#include <string.h>

#define SHAPE ((struct cuzhaveli_shape){p, k, s})
#define LENGTH (CUZHAVELI_STRIPE_BYTES(SHAPE))

int yours_refuses(int number)
{
    (void)number;
    return YOURS_BY_NUMBER;
}

/* Plans. */

int yours_plan(size_t p, size_t k, size_t lost, uint8_t *plan)
{
    struct cuzhaveli_plan ours = cuzhaveli_plan_disk(p, k, lost);
    if (ours.answer.refusal == CUZHAVELI_OK)
        cuzhaveli_plan_bytes(&ours, p, plan);
    return ours.answer.refusal;
}

int yours_read_list(size_t p, size_t k, size_t lost, uint8_t *list)
{
    return cuzhaveli_read_list(p, k, lost, list, CUZHAVELI_LIST_BYTES(p, k)).refusal;
}

static int judged(struct cuzhaveli_judged given, size_t *reads, size_t *step)
{
    *reads = given.reads;
    *step = given.answer.place;
    return given.answer.refusal;
}

int yours_judge(size_t p, size_t k, size_t lost, const uint8_t *plan, size_t *reads, size_t *step)
{
    return judged(cuzhaveli_judge_plan(p, k, lost, plan, CUZHAVELI_PLAN_BYTES(p)), reads, step);
}

int yours_judge_text(size_t p, size_t k, size_t lost, const uint8_t *text, size_t length, size_t *reads, size_t *step)
{
    return judged(cuzhaveli_judge_text(p, k, lost, text, length), reads, step);
}

/* Units. */

#define UNIT SHAPE, n, name, CUZHAVELI_NAME_BYTES, unit

int yours_seal(size_t p, size_t k, size_t s, size_t n, const uint8_t *name, uint64_t unit, const uint8_t *cells,
               uint8_t *block)
{
    return cuzhaveli_seal_unit(UNIT, cells, n * LENGTH, block, CUZHAVELI_BLOCK_BYTES(p, k)).refusal;
}

int yours_open(size_t p, size_t k, size_t s, size_t n, const uint8_t *name, uint64_t unit, const uint8_t *block,
               uint8_t *marks, uint8_t *cells)
{
    return cuzhaveli_open_unit(UNIT, block, CUZHAVELI_BLOCK_BYTES(p, k), marks, CUZHAVELI_LIST_BYTES(p, k), cells,
                               n * LENGTH).refusal;
}

/* Stripes in one stretch. */

int yours_encode(size_t p, size_t k, size_t s, uint8_t *stripe)
{
    return cuzhaveli_encode_stripe(SHAPE, stripe, LENGTH).refusal;
}

int yours_check(size_t p, size_t k, size_t s, const uint8_t *stripe, int *clean)
{
    struct cuzhaveli_checked checked = cuzhaveli_check_stripe(SHAPE, stripe, LENGTH);
    *clean = checked.clean;
    return checked.answer.refusal;
}

int yours_scrub(size_t p, size_t k, size_t s, const uint8_t *stripe, int *verdict, size_t *disk)
{
    struct cuzhaveli_scrubbed scrubbed = cuzhaveli_scrub_stripe(SHAPE, stripe, LENGTH);
    *verdict = scrubbed.verdict;
    *disk = scrubbed.disk;
    return scrubbed.answer.refusal;
}

typedef struct cuzhaveli_answer rebuild(struct cuzhaveli_shape shape, size_t lost, const uint8_t *stripe,
                                        size_t stripe_len, uint8_t *column, size_t column_len);

static int rebuild_in_place(size_t p, size_t k, size_t s, size_t lost, uint8_t *stripe, rebuild *call)
{
    uint8_t *column = malloc(31 * 4096);
    int refusal = call(SHAPE, lost, stripe, LENGTH, column, CUZHAVELI_COLUMN_BYTES(SHAPE)).refusal;
    if (refusal == CUZHAVELI_OK)
        memcpy(stripe + lost * p * s, column, p * s);
    free(column);
    return refusal;
}

int yours_rebuild_one(size_t p, size_t k, size_t s, size_t lost, uint8_t *stripe)
{
    return rebuild_in_place(p, k, s, lost, stripe, cuzhaveli_rebuild_one);
}

int yours_rebuild_tested(size_t p, size_t k, size_t s, size_t lost, uint8_t *stripe)
{
    return rebuild_in_place(p, k, s, lost, stripe, cuzhaveli_rebuild_tested);
}

int yours_rebuild_two(size_t p, size_t k, size_t s, size_t first, size_t second, uint8_t *stripe)
{
    return cuzhaveli_rebuild_two(SHAPE, first, second, stripe, LENGTH).refusal;
}

int yours_rebuild_cells(size_t p, size_t k, size_t s, const uint8_t *missing, uint8_t *stripe)
{
    return cuzhaveli_rebuild_cells(SHAPE, missing, CUZHAVELI_LIST_BYTES(p, k), stripe, LENGTH).refusal;
}

int yours_update(size_t p, size_t k, size_t s, size_t row, size_t disk, const uint8_t *cell, uint8_t *stripe)
{
    return cuzhaveli_update_cell(SHAPE, row, disk, stripe, LENGTH, cell, s).refusal;
}

/* Stripes in columns: copied to one stretch and back. Where the numbers are out of range nothing
 * is copied, and the call refuses. */

static uint8_t *gathered(size_t p, size_t k, size_t s, const uint8_t *const *columns)
{
    uint8_t *stripe = malloc((size_t)33 * 31 * 4096);
    for (size_t c = 0; p <= 31 && k <= 31 && s <= 4096 && c < k + 2; c++)
        memcpy(stripe + c * p * s, columns[c], p * s);
    return stripe;
}

static int scattered(size_t p, size_t k, size_t s, uint8_t *stripe, uint8_t *const *columns, int refusal)
{
    for (size_t c = 0; refusal == 0 && c < k + 2; c++)
        memcpy(columns[c], stripe + c * p * s, p * s);
    free(stripe);
    return refusal;
}

#define GATHERED gathered(p, k, s, (const uint8_t *const *)columns)

int yours_encode_columns(size_t p, size_t k, size_t s, uint8_t *const *columns)
{
    uint8_t *stripe = GATHERED;
    return scattered(p, k, s, stripe, columns, yours_encode(p, k, s, stripe));
}

int yours_check_columns(size_t p, size_t k, size_t s, const uint8_t *const *columns, int *clean)
{
    uint8_t *stripe = GATHERED;
    int refusal = yours_check(p, k, s, stripe, clean);
    free(stripe);
    return refusal;
}

int yours_scrub_columns(size_t p, size_t k, size_t s, const uint8_t *const *columns, int *verdict, size_t *disk)
{
    uint8_t *stripe = GATHERED;
    int refusal = yours_scrub(p, k, s, stripe, verdict, disk);
    free(stripe);
    return refusal;
}

int yours_rebuild_one_columns(size_t p, size_t k, size_t s, size_t lost, uint8_t *const *columns)
{
    uint8_t *stripe = GATHERED;
    return scattered(p, k, s, stripe, columns, yours_rebuild_one(p, k, s, lost, stripe));
}

int yours_rebuild_tested_columns(size_t p, size_t k, size_t s, size_t lost, uint8_t *const *columns)
{
    uint8_t *stripe = GATHERED;
    return scattered(p, k, s, stripe, columns, yours_rebuild_tested(p, k, s, lost, stripe));
}

int yours_rebuild_two_columns(size_t p, size_t k, size_t s, size_t first, size_t second, uint8_t *const *columns)
{
    uint8_t *stripe = GATHERED;
    return scattered(p, k, s, stripe, columns, yours_rebuild_two(p, k, s, first, second, stripe));
}

int yours_rebuild_cells_columns(size_t p, size_t k, size_t s, const uint8_t *missing, uint8_t *const *columns)
{
    uint8_t *stripe = GATHERED;
    return scattered(p, k, s, stripe, columns, yours_rebuild_cells(p, k, s, missing, stripe));
}

int yours_update_columns(size_t p, size_t k, size_t s, size_t row, size_t disk, const uint8_t *cell,
                         uint8_t *const *columns)
{
    uint8_t *stripe = GATHERED;
    return scattered(p, k, s, stripe, columns, yours_update(p, k, s, row, disk, cell, stripe));
}
