/* The rebuild of one lost disk whose survivors are tested: clean ones, and ones with changed
 * bytes. */

#include "kit.h"

#include <string.h>

static int call(struct trial *t)
{
    return t->form == STRIPE ? yours_rebuild_tested(P_K_S(t), t->first, t->stripe)
                             : yours_rebuild_tested_columns(P_K_S(t), t->first, t->columns);
}

/* The lost disk comes back, or the call is refused and the stripe stands. */
static void compare(struct trial *t)
{
    lose_disk(t, t->first);
    memcpy(t->wanted, t->before, stripe_bytes(t));
    int refusal = cuzhaveli_rebuild_tested(t->shape, t->first, t->before, stripe_bytes(t),
                                           t->wanted + t->first * t->column, t->column)
                      .refusal;
    if (call_yours(t, call) && same_answer(t, refusal))
        same_stripe(t);
}

static struct trial *begin(enum form form, struct cuzhaveli_shape shape, size_t lost, const char *content)
{
    struct trial *t = begin_trial(REBUILD_TESTED, form, shape, "lost=%zu/%s", lost, content);
    if (!t)
        return NULL;
    t->first = lost;
    put_stripe(t, true);
    return t;
}

static void try_lost(enum form form, struct cuzhaveli_shape shape, size_t lost)
{
    struct trial *t = begin(form, shape, lost, "clean");
    if (t)
        compare(t);
    if ((t = begin(form, shape, lost, "changed"))) {
        size_t survivor = (lost + 1 + below(&t->random, shape.disks + 1)) % (shape.disks + 2);
        t->before[survivor * t->column + below(&t->random, t->column)] ^= (uint8_t)(1 + below(&t->random, 255));
        compare(t);
    }
    if ((t = begin(form, shape, lost, "dirty"))) {
        fill(&t->random, t->before, stripe_bytes(t));
        compare(t);
    }
}

/* Every disk with small cells; the first, the last data disk, P and Q with large ones. */
static void try_size(enum form form, struct cuzhaveli_shape shape)
{
    for (size_t lost = 0; lost < shape.disks + 2; lost++)
        if (is_small(shape) || lost == 0 || lost + 1 >= shape.disks)
            try_lost(form, shape, lost);
}

void try_rebuild_tested(enum form form)
{
    each_shape(form, try_size);
    try_refusals(REBUILD_TESTED, form, call);
}
