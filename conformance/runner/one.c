/* The rebuild of one lost disk: clean stripes, dirty ones by your plan, noise off your read
 * list. */

#include "kit.h"

#include <string.h>

static int call(struct trial *t)
{
    return t->form == STRIPE ? yours_rebuild_one(P_K_S(t), t->first, t->stripe)
                             : yours_rebuild_one_columns(P_K_S(t), t->first, t->columns);
}

static struct trial *begin(enum form form, struct cuzhaveli_shape shape, size_t lost, const char *content)
{
    struct trial *t = begin_trial(REBUILD_ONE, form, shape, "lost=%zu/%s", lost, content);
    if (t)
        t->first = lost;
    return t;
}

static bool compare(struct trial *t)
{
    return call_yours(t, call) && same_answer(t, 0) && same_stripe(t);
}

static void try_clean(enum form form, struct cuzhaveli_shape shape, size_t lost)
{
    struct trial *t = begin(form, shape, lost, "clean");
    if (!t)
        return;
    put_stripe(t, true);
    lose_disk(t, lost);
    compare(t);
}

/* A dirty stripe gives what the steps of your plan give. */
static void try_by_plan(struct trial *t, const uint8_t *plan)
{
    cuzhaveli_rebuild_by_plan(t->shape, t->first, plan, CUZHAVELI_PLAN_BYTES(t->shape.width), t->before,
                              stripe_bytes(t), t->wanted + t->first * t->column, t->column);
    lose_disk(t, t->first);
    compare(t);
}

/* Without a plan, a dirty stripe gives the same whatever the lost disk held, and no other disk
 * changes. */
static void try_twice(struct trial *t)
{
    lose_disk(t, t->first);
    if (!call_yours(t, call) || !same_answer(t, 0))
        return;
    uint8_t *column = t->wanted + t->first * t->column;
    memcpy(column, t->got + t->first * t->column, t->column);
    lose_disk(t, t->first);
    compare(t);
}

static void try_dirty(enum form form, struct cuzhaveli_shape shape, size_t lost)
{
    uint8_t plan[MOST_PLAN_BYTES];
    struct trial *t = begin(form, shape, lost, "dirty");
    if (!t)
        return;
    put_stripe(t, false);
    if (plan_of_yours(shape, lost, plan))
        try_by_plan(t, plan);
    else
        try_twice(t);
}

/* The cells that you do not read hold noise, and the disk comes back. */
static void try_noise(enum form form, struct cuzhaveli_shape shape, size_t lost)
{
    uint8_t list[MOST_CELLS];
    if (!list_of_yours(shape, lost, list))
        return;
    struct trial *t = begin(form, shape, lost, "noise");
    if (!t)
        return;
    size_t s = shape.cell_size;
    put_stripe(t, true);
    for (size_t cell = 0; cell < shape.width * (shape.disks + 2); cell++)
        if (!list[cell] && cell / shape.width != lost) {
            fill(&t->random, t->before + cell * s, s);
            memcpy(t->wanted + cell * s, t->before + cell * s, s);
        }
    lose_disk(t, lost);
    compare(t);
}

/* Every disk with small cells; the first, the last data disk, P and Q with large ones. */
static void try_size(enum form form, struct cuzhaveli_shape shape)
{
    for (size_t lost = 0; lost < shape.disks + 2; lost++) {
        if (!is_small(shape) && lost > 0 && lost + 1 < shape.disks)
            continue;
        try_clean(form, shape, lost);
        try_dirty(form, shape, lost);
        try_noise(form, shape, lost);
    }
}

void try_rebuild_one(enum form form)
{
    each_shape(form, try_size);
    try_refusals(REBUILD_ONE, form, call);
}
