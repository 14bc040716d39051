/* Encoding: named cells, random data, cell sizes at the edges. */

#include "kit.h"

#include <string.h>

#define CELLS_NAMED 4

static int call(struct trial *t)
{
    return t->form == STRIPE ? yours_encode(P_K_S(t), t->stripe) : yours_encode_columns(P_K_S(t), t->columns);
}

static void compare(struct trial *t)
{
    memcpy(t->before, t->wanted, stripe_bytes(t));
    cuzhaveli_encode_stripe(t->shape, t->wanted, stripe_bytes(t));
    lose_disk(t, t->shape.disks);
    lose_disk(t, t->shape.disks + 1);
    if (call_yours(t, call) && same_answer(t, 0))
        same_stripe(t);
}

static bool has_bit(const uint8_t *cell, size_t bit)
{
    return cell[bit / 8] >> bit % 8 & 1;
}

/* Names the data cells that yours counts to a set and should not, or the other way round. */
static void name_cells(FILE *out, const struct trial *t, size_t cell)
{
    size_t p = t->shape.width, k = t->shape.disks, s = t->shape.cell_size, named = 0, row = cell % p;
    const uint8_t *right = t->wanted + cell * s, *yours = t->got + cell * s;
    char set = cell / p == k ? 'R' : 'D';
    if (cell < p * k)
        return;
    for (size_t data = 0; data < p * k && named < CELLS_NAMED; data++) {
        if (has_bit(right, data) == has_bit(yours, data))
            continue;
        bool extra = set == 'D' && (row + data / p) % p != data % p;
        fprintf(out, "    your %c %zu %s row %zu of disk %zu%s\n", set, row, has_bit(right, data) ? "lacks" : "has",
                data % p, data / p, !has_bit(right, data) ? ", which is not its" : extra ? ", its extra cell" : "");
        named++;
    }
}

/* Each data cell has one bit of its own, so that a parity cell says which cells its set has. */
static void try_named(enum form form, size_t n)
{
    struct cuzhaveli_shape shape = small_shape(n);
    size_t cells = shape.width * shape.disks;
    shape.cell_size = in_units((cells + 7) / 8);
    struct trial *t = begin_trial(ENCODE, form, shape, "named");
    if (!t)
        return;
    t->explain = name_cells;
    memset(t->wanted, 0, stripe_bytes(t));
    for (size_t cell = 0; cell < cells; cell++)
        t->wanted[cell * shape.cell_size + cell / 8] = (uint8_t)(1 << cell % 8);
    compare(t);
}

static void try_random(enum form form, struct cuzhaveli_shape shape)
{
    struct trial *t = begin_trial(ENCODE, form, shape, "random");
    if (!t)
        return;
    put_stripe(t, false);
    compare(t);
}

void try_encode(enum form form)
{
    for (size_t n = 0; n < ARRAYS; n++)
        try_named(form, n);
    each_shape(form, try_random);
    try_refusals(ENCODE, form, call);
}
