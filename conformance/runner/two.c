/* The rebuild of two lost disks: every pair, in one order or the other. */

#include "kit.h"

#define MOST_BYTES ((size_t)1 << 18)

static int call(struct trial *t)
{
    return t->form == STRIPE ? yours_rebuild_two(P_K_S(t), t->first, t->second, t->stripe)
                             : yours_rebuild_two_columns(P_K_S(t), t->first, t->second, t->columns);
}

/* A dirty stripe has one right answer, too: the clean stripe that has its other disks. */
static void try_pair(enum form form, struct cuzhaveli_shape shape, size_t first, size_t second, bool clean)
{
    struct trial *t = begin_trial(REBUILD_TWO, form, shape, "lost=%zu,%zu/%s", first, second, content_name(clean));
    if (!t)
        return;
    t->first = first;
    t->second = second;
    put_stripe(t, clean);
    cuzhaveli_rebuild_two(shape, first, second, t->wanted, stripe_bytes(t));
    lose_disk(t, first);
    lose_disk(t, second);
    if (call_yours(t, call) && same_answer(t, 0))
        same_stripe(t);
}

/* With large cells: neighbours, the outermost disks, a data disk with P or Q, and P with Q; of
 * long stripes the first two disks alone. */
static bool is_chosen(struct cuzhaveli_shape shape, size_t first, size_t second)
{
    size_t k = shape.disks;
    if (is_small(shape))
        return true;
    if (CUZHAVELI_STRIPE_BYTES(shape) > MOST_BYTES)
        return second == 1;
    return first + 1 == second ? first == 0 || first + 2 >= k : first == 0 && second + 1 >= k;
}

static void try_size(enum form form, struct cuzhaveli_shape shape)
{
    for (size_t first = 0; first < shape.disks + 2; first++)
        for (size_t second = first + 1; second < shape.disks + 2; second++) {
            if (!is_chosen(shape, first, second))
                continue;
            bool upward = (first + second) % 2 == 0;
            try_pair(form, shape, upward ? first : second, upward ? second : first, false);
            if (!is_small(shape) || second == first + 1)
                try_pair(form, shape, upward ? second : first, upward ? first : second, true);
        }
}

void try_rebuild_two(enum form form)
{
    each_shape(form, try_size);
    try_refusals(REBUILD_TWO, form, call);
}
