/* The rebuild of missing cells: single ones, on one disk and beside it, on two, anywhere, and
 * ones that nothing determines. */

#include "kit.h"

#include <string.h>

#define PATTERNS 24

static int call(struct trial *t)
{
    return t->form == STRIPE ? yours_rebuild_cells(P_K_S(t), t->lent_beside, t->stripe)
                             : yours_rebuild_cells_columns(P_K_S(t), t->lent_beside, t->columns);
}

/* Marks of any byte but 0. */
static void mark(struct trial *t, uint8_t *missing, size_t cell)
{
    missing[cell] = (uint8_t)(1 + below(&t->random, 255));
}

static void mark_disk(struct trial *t, uint8_t *missing, size_t disk)
{
    for (size_t row = 0; row < t->shape.width; row++)
        mark(t, missing, CUZHAVELI_CELL(t->shape.width, row, disk));
}

static void mark_some(struct trial *t, uint8_t *missing, size_t count)
{
    for (size_t i = 0; i < count; i++)
        mark(t, missing, below(&t->random, t->shape.width * (t->shape.disks + 2)));
}

/* A data cell with the parity cells of its row set and of its diagonal: nothing determines them,
 * unless it is an extra cell. */
static void mark_triple(struct trial *t, uint8_t *missing)
{
    size_t p = t->shape.width, k = t->shape.disks, row = below(&t->random, p), disk = below(&t->random, k);
    mark(t, missing, CUZHAVELI_CELL(p, row, disk));
    mark(t, missing, CUZHAVELI_CELL(p, row, k));
    mark(t, missing, CUZHAVELI_CELL(p, (row + p - disk) % p, k + 1));
}

static void mark_pattern(struct trial *t, uint8_t *missing, size_t pattern)
{
    size_t p = t->shape.width, disks = t->shape.disks + 2, disk = below(&t->random, disks);
    switch (pattern % 8) {
    case 0: mark_disk(t, missing, disk); break;
    case 1:
        mark_disk(t, missing, disk);
        mark_disk(t, missing, (disk + 1 + below(&t->random, disks - 1)) % disks);
        break;
    case 2:
        mark_disk(t, missing, disk);
        mark_some(t, missing, 1);
        break;
    case 3:
        mark_disk(t, missing, disk);
        mark_some(t, missing, 2 + below(&t->random, p));
        break;
    case 4: mark_triple(t, missing); break;
    case 5: mark_some(t, missing, 2 * p + 1); break;
    default: mark_some(t, missing, below(&t->random, 2 * p));
    }
}

static void try_pattern(enum form form, struct cuzhaveli_shape shape, size_t pattern)
{
    uint8_t missing[MOST_CELLS] = {0};
    struct trial *t = begin_trial(REBUILD_CELLS, form, shape, "pattern=%zu", pattern);
    if (!t)
        return;
    t->beside = missing;
    t->beside_length = shape.width * (shape.disks + 2);
    put_stripe(t, true);
    mark_pattern(t, missing, pattern);
    for (size_t cell = 0; cell < t->beside_length; cell++)
        if (missing[cell])
            lose_cell(t, cell);
    memcpy(t->wanted, t->before, stripe_bytes(t));
    int refusal = cuzhaveli_rebuild_cells(shape, missing, t->beside_length, t->wanted, stripe_bytes(t)).refusal;
    if (call_yours(t, call) && same_answer(t, refusal) && same_stripe(t))
        same_beside(t);
}

static void try_size(enum form form, struct cuzhaveli_shape shape)
{
    for (size_t pattern = 0; pattern < (is_small(shape) ? PATTERNS : 3); pattern++)
        try_pattern(form, shape, pattern);
}

void try_rebuild_cells(enum form form)
{
    each_shape(form, try_size);
    try_refusals(REBUILD_CELLS, form, call);
}
