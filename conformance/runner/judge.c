/* The judge on accepted and on damaged plans, which come as bytes or as text. */

#include "kit.h"

#include <string.h>

#define PLANS 12

static int call(struct trial *t)
{
    return yours_judge(t->shape.width, t->shape.disks, t->first, t->lent_beside, &t->reads, &t->step);
}

static void tell_step(struct trial *t, struct cuzhaveli_judged right)
{
    fprintf(begin_failure(t), "lost disk %zu: *step is %zu and should be %u, for %s", t->first, t->step,
            right.answer.place, refusal_text(right.answer.refusal));
    end_failure(t);
}

/* Accepted with that count, or refused, with the step if yours refuses by numbers. */
void compare_judged(struct trial *t, struct cuzhaveli_judged right)
{
    int refusal = right.answer.refusal;
    if (!same_answer(t, refusal) || !same_beside(t))
        return;
    bool has_step = refusal >= CUZHAVELI_STEP_RANGE && refusal <= CUZHAVELI_STEP_EARLY;
    if (has_step && refuses_by(refusal) == YOURS_BY_NUMBER && t->step != right.answer.place)
        tell_step(t, right);
    if (refusal != 0 || t->reads == right.reads)
        return;
    fprintf(begin_failure(t), "lost disk %zu: *reads is %zu and should be %u", t->first, t->reads, right.reads);
    end_failure(t);
}

/* Begins a trial on any plan, which is put into `plan`. */
struct trial *begin_judged(enum function function, size_t n, size_t lost, size_t which, uint8_t *plan)
{
    struct trial *t = begin_trial(function, STRIPE, small_shape(n), "lost=%zu/plan=%zu", lost, which);
    if (!t)
        return NULL;
    any_plan(&t->random, t->shape.width, t->shape.disks, lost, plan);
    t->first = lost;
    t->reads = t->step = NO_DISK;
    return t;
}

static void try_plan(size_t n, size_t lost, size_t which)
{
    uint8_t plan[MOST_PLAN_BYTES];
    struct trial *t = begin_judged(JUDGE, n, lost, which, plan);
    if (!t)
        return;
    t->beside = plan;
    t->beside_length = CUZHAVELI_PLAN_BYTES(t->shape.width);
    if (call_yours(t, call))
        compare_judged(t, cuzhaveli_judge_plan(t->shape.width, t->shape.disks, lost, plan, t->beside_length));
}

static void try_loss(size_t n, size_t lost)
{
    for (size_t which = 0; which < PLANS; which++)
        try_plan(n, lost, which);
}

void try_judge(enum form form)
{
    each_loss(try_loss);
    try_refusals(JUDGE, form, call);
}
