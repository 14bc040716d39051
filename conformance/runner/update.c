/* The update of one cell: every data cell, of clean and of dirty stripes. */

#include "kit.h"

/* Of longer stripes the first, the last and the extra cells are updated; with large cells the
 * first and the last. */
#define MOST_BYTES 65536

static int call(struct trial *t)
{
    return t->form == STRIPE ? yours_update(P_K_S(t), t->first, t->second, t->lent_beside, t->stripe)
                             : yours_update_columns(P_K_S(t), t->first, t->second, t->lent_beside, t->columns);
}

static void try_cell(enum form form, struct cuzhaveli_shape shape, size_t row, size_t disk)
{
    uint8_t cell[CUZHAVELI_MAX_CELL_SIZE];
    bool clean = (row + disk) % 2 == 0;
    struct trial *t = begin_trial(UPDATE, form, shape, "row=%zu/disk=%zu/%s", row, disk, content_name(clean));
    if (!t)
        return;
    put_stripe(t, clean);
    fill(&t->random, cell, shape.cell_size);
    t->first = row;
    t->second = disk;
    t->beside = cell;
    t->beside_length = shape.cell_size;
    cuzhaveli_update_cell(shape, row, disk, t->wanted, stripe_bytes(t), cell, shape.cell_size);
    if (call_yours(t, call) && same_answer(t, 0) && same_stripe(t))
        same_beside(t);
}

static bool is_extra(size_t p, size_t row, size_t disk)
{
    size_t diagonal = p - 1 - row;
    return diagonal > 0 && p - 2 * diagonal % p == disk;
}

static void try_size(enum form form, struct cuzhaveli_shape shape)
{
    size_t p = shape.width, last = p * shape.disks - 1;
    bool all = is_small(shape) && p * (shape.disks + 2) * shape.cell_size <= MOST_BYTES;
    for (size_t cell = 0; cell <= last; cell++)
        if (all || cell == 0 || cell == last || (is_small(shape) && is_extra(p, cell % p, cell / p)))
            try_cell(form, shape, cell % p, cell / p);
}

void try_update(enum form form)
{
    each_shape(form, try_size);
    try_refusals(UPDATE, form, call);
}
