/* What a trial's stripe holds before the call, and as it should be after it. */

#include "kit.h"

#include <string.h>

/* The bytes that are lent. */
size_t stripe_bytes(const struct trial *trial)
{
    return trial->disks * trial->column;
}

/* Random data, encoded by the library if the stripe is to be clean; else random P and Q, too. */
void put_stripe(struct trial *t, bool clean)
{
    fill(&t->random, t->wanted, stripe_bytes(t));
    if (clean)
        cuzhaveli_encode_stripe(t->shape, t->wanted, stripe_bytes(t));
    memcpy(t->before, t->wanted, stripe_bytes(t));
}

/* Begins a trial on a clean stripe, or on noise. */
struct trial *begin_whole(enum function function, enum form form, struct cuzhaveli_shape shape, bool clean)
{
    struct trial *t = begin_trial(function, form, shape, "%s", content_name(clean));
    if (t)
        put_stripe(t, clean);
    return t;
}

/* Before the call a disk holds noise. */
void lose_disk(struct trial *t, size_t disk)
{
    for (size_t row = 0; row < t->shape.width; row++)
        lose_cell(t, CUZHAVELI_CELL(t->shape.width, row, disk));
}

/* Before the call a cell holds noise. */
void lose_cell(struct trial *t, size_t cell)
{
    size_t s = t->shape.cell_size;
    fill(&t->random, t->before + cell * s, s);
    t->noise[cell] = true;
}

const char *content_name(bool clean)
{
    return clean ? "clean" : "dirty";
}
