/* Your read lists: those of your plans, if you offer plans. */

#include "kit.h"

#include <string.h>

static int call(struct trial *t)
{
    return yours_read_list(t->shape.width, t->shape.disks, t->first, t->lent_beside);
}

/* The list of your plan; without a plan, your own list with marks of 0 and 1, and none for the
 * lost disk. */
static void put_right(struct trial *t, uint8_t *right)
{
    uint8_t plan[MOST_PLAN_BYTES];
    size_t p = t->shape.width, k = t->shape.disks;
    if (plan_of_yours(t->shape, t->first, plan)) {
        cuzhaveli_plan_list(p, k, t->first, plan, CUZHAVELI_PLAN_BYTES(p), right, t->beside_length);
        return;
    }
    for (size_t cell = 0; cell < t->beside_length; cell++)
        right[cell] = t->lent_beside[cell] != 0 && cell / p != t->first;
}

static void compare(struct trial *t)
{
    uint8_t right[MOST_CELLS];
    put_right(t, right);
    for (size_t cell = 0; cell < t->beside_length; cell++) {
        if (t->lent_beside[cell] == right[cell])
            continue;
        FILE *out = begin_failure(t);
        fprintf(out, "lost disk %zu: the mark of ", t->first);
        name_disk(out, t, cell / t->shape.width);
        fprintf(out, ", row %zu is %u and should be %u", cell % t->shape.width, t->lent_beside[cell], right[cell]);
        end_failure(t);
        return;
    }
}

static void try_list(size_t n, size_t lost)
{
    uint8_t noise[MOST_CELLS];
    struct trial *t = begin_trial(READ_LIST, STRIPE, small_shape(n), "lost=%zu", lost);
    if (!t)
        return;
    t->first = lost;
    t->beside = noise;
    t->beside_length = CUZHAVELI_LIST_BYTES(t->shape.width, t->shape.disks);
    fill(&t->random, noise, t->beside_length);
    if (call_yours(t, call) && same_answer(t, 0))
        compare(t);
}

void try_read_lists(enum form form)
{
    each_loss(try_list);
    try_refusals(READ_LIST, form, call);
}

/* The cells that your rebuild reads: by your list, else by your plan; false if you offer
 * neither. */
bool list_of_yours(struct cuzhaveli_shape shape, size_t lost, uint8_t *list)
{
    uint8_t plan[MOST_PLAN_BYTES];
    size_t p = shape.width, k = shape.disks;
    if (yours_read_list)
        return ask_yours(yours_read_list, shape, lost, list);
    return plan_of_yours(shape, lost, plan) &&
           cuzhaveli_plan_list(p, k, lost, plan, CUZHAVELI_PLAN_BYTES(p), list, CUZHAVELI_LIST_BYTES(p, k)).refusal ==
               CUZHAVELI_OK;
}
