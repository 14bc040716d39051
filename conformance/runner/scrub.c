/* The scrub: clean stripes, stripes with changed bytes on one disk or on two, noise. */

#include "kit.h"

#include <string.h>

static int call(struct trial *t)
{
    return t->form == STRIPE
               ? yours_scrub(P_K_S(t), t->stripe, &t->verdict, &t->disk)
               : yours_scrub_columns(P_K_S(t), (const uint8_t *const *)t->columns, &t->verdict, &t->disk);
}

static void name_verdict(FILE *out, const struct trial *t, int verdict, size_t disk)
{
    static const char *const TEXT[] = {"0 (clean)", "1 (one disk)", "2 (more than one)"};
    if (verdict >= 0 && verdict <= 2)
        fputs(TEXT[verdict], out);
    else
        fprintf(out, "%d", verdict);
    if (verdict == CUZHAVELI_ONE_DISK) {
        fputs(": ", out);
        name_disk(out, t, disk);
    }
}

static void compare(struct trial *t)
{
    memcpy(t->wanted, t->before, stripe_bytes(t));
    struct cuzhaveli_scrubbed right = cuzhaveli_scrub_stripe(t->shape, t->before, stripe_bytes(t));
    t->verdict = -1;
    t->disk = NO_DISK;
    if (!call_yours(t, call) || !same_answer(t, 0) || !same_stripe(t))
        return;
    if (t->verdict == right.verdict && (right.verdict != CUZHAVELI_ONE_DISK || t->disk == right.disk))
        return;
    FILE *out = begin_failure(t);
    fputs("the verdict is ", out);
    name_verdict(out, t, t->verdict, t->disk);
    fputs(" and should be ", out);
    name_verdict(out, t, right.verdict, right.disk);
    end_failure(t);
}

/* Some bytes of a disk are others: one of them, or all. */
static void change_disk(struct trial *t, size_t disk, bool all)
{
    uint8_t *column = t->before + disk * t->column;
    if (all)
        fill(&t->random, column, t->column);
    else
        column[below(&t->random, t->column)] ^= (uint8_t)(1 + below(&t->random, 255));
}

/* A clean stripe with changes on disk `first`, and on `second` if it is another. */
static void try_changed(enum form form, struct cuzhaveli_shape shape, size_t first, size_t second, bool all)
{
    struct trial *t = begin_trial(SCRUB, form, shape, "changed=%zu,%zu%s", first, second, all ? "/all" : "");
    if (!t)
        return;
    put_stripe(t, true);
    change_disk(t, first, all);
    if (second != first)
        change_disk(t, second, all);
    compare(t);
}

static void try_whole(enum form form, struct cuzhaveli_shape shape, bool clean)
{
    struct trial *t = begin_whole(SCRUB, form, shape, clean);
    if (t)
        compare(t);
}

/* Every disk with small cells, the first with large ones. */
static void try_size(enum form form, struct cuzhaveli_shape shape)
{
    size_t disks = shape.disks + 2;
    try_whole(form, shape, true);
    try_whole(form, shape, false);
    for (size_t disk = 0; disk < disks; disk++) {
        try_changed(form, shape, disk, disk, false);
        if (!is_small(shape))
            return;
        try_changed(form, shape, disk, disk, true);
        try_changed(form, shape, disk, (disk + 1) % disks, false);
        try_changed(form, shape, disk, (disk + 2) % disks, true);
    }
}

void try_scrub(enum form form)
{
    each_shape(form, try_size);
    try_refusals(SCRUB, form, call);
}
