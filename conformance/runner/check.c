/* The check: clean stripes, a changed bit in any cell, noise. */

#include "kit.h"

/* Of longer stripes one cell of each disk is changed, not all; with large cells the first and
 * the last. */
#define MOST_BYTES 65536

static int call(struct trial *t)
{
    return t->form == STRIPE ? yours_check(P_K_S(t), t->stripe, &t->clean)
                             : yours_check_columns(P_K_S(t), (const uint8_t *const *)t->columns, &t->clean);
}

static void compare(struct trial *t)
{
    bool clean = cuzhaveli_check_stripe(t->shape, t->before, stripe_bytes(t)).clean;
    t->clean = -1;
    if (!call_yours(t, call) || !same_answer(t, 0) || !same_stripe(t))
        return;
    if (t->clean == (int)clean)
        return;
    fprintf(begin_failure(t), "*clean is %d and should be %d", t->clean, clean);
    end_failure(t);
}

static void try_whole(enum form form, struct cuzhaveli_shape shape, bool clean)
{
    struct trial *t = begin_whole(CHECK, form, shape, clean);
    if (t)
        compare(t);
}

/* One bit of a cell of a clean stripe is another. */
static void try_changed(enum form form, struct cuzhaveli_shape shape, size_t cell)
{
    struct trial *t = begin_trial(CHECK, form, shape, "changed=%zu", cell);
    if (!t)
        return;
    put_stripe(t, true);
    size_t byte = cell * shape.cell_size + below(&t->random, shape.cell_size);
    t->wanted[byte] ^= (uint8_t)(1 << below(&t->random, 8));
    t->before[byte] = t->wanted[byte];
    compare(t);
}

static void try_size(enum form form, struct cuzhaveli_shape shape)
{
    size_t cells = shape.width * (shape.disks + 2);
    bool all = is_small(shape) && cells * shape.cell_size <= MOST_BYTES;
    try_whole(form, shape, true);
    try_whole(form, shape, false);
    for (size_t cell = 0; cell < cells; cell += all ? 1 : is_small(shape) ? shape.width + 1 : cells - 1)
        try_changed(form, shape, cell);
}

void try_check(enum form form)
{
    each_shape(form, try_size);
    try_refusals(CHECK, form, call);
}
