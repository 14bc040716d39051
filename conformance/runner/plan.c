/* Your plan for every lost disk: accepted by the judge, and how many cells it reads. */

#include "kit.h"

#include <string.h>

/* Cells read for all data disks of full arrays: by your plans, and by those of fewest reads. */
static size_t reads_of_yours, fewest_reads;

const char *refusal_text(int refusal)
{
    switch (refusal) {
    case CUZHAVELI_BAD_WIDTH: return "a width that is none of the ten";
    case CUZHAVELI_BAD_CELL_SIZE: return "a cell size of 0 or over 4096";
    case CUZHAVELI_NO_SUCH_DISK: return "a disk that is not there";
    case CUZHAVELI_SAME_DISK: return "a pair that is one disk";
    case CUZHAVELI_STEP_RANGE: return "a step with a number out of range";
    case CUZHAVELI_STEP_SET: return "a step whose set lacks that row's lost cell";
    case CUZHAVELI_STEP_REPEATED: return "a step for a row that is rebuilt already";
    case CUZHAVELI_STEP_EARLY: return "a step whose set lacks another lost cell still";
    case CUZHAVELI_BAD_DISKS: return "a number of data disks under 2 or over the width";
    case CUZHAVELI_NO_SUCH_ROW: return "a row that is not there";
    case CUZHAVELI_SURVIVORS_DISAGREE: return "survivors that are those of no clean stripe";
    case CUZHAVELI_BAD_PLAN_TEXT: return "a text that is not a plan's";
    case CUZHAVELI_UNDETERMINED: return "cells that the others do not determine";
    default: return "something";
    }
}

static int call(struct trial *t)
{
    return yours_plan(t->shape.width, t->shape.disks, t->first, t->lent_beside);
}

static void tell_refused(struct trial *t, struct cuzhaveli_answer answer)
{
    const uint8_t *step = t->lent_beside + 3 * answer.place;
    FILE *out = begin_failure(t);
    fprintf(out, "lost disk %zu: step %u (row %u, kind %u, number %u) is refused by %u: %s", t->first, answer.place,
            step[0], step[1], step[2], answer.refusal, refusal_text(answer.refusal));
    end_failure(t);
}

static void count_reads(struct trial *t, uint32_t reads)
{
    size_t p = t->shape.width, fewest = (3 * p * p + 1) / 4;
    if (t->shape.disks != p || t->first >= p)
        return;
    reads_of_yours += reads;
    fewest_reads += fewest;
    if (!options.fewest || reads == fewest)
        return;
    fprintf(begin_failure(t), "lost disk %zu: the plan reads %u cells, and the fewest are %zu", t->first, reads,
            fewest);
    end_failure(t);
}

static void try_plan(size_t n, size_t lost)
{
    uint8_t noise[MOST_PLAN_BYTES];
    struct trial *t = begin_trial(PLAN, STRIPE, small_shape(n), "lost=%zu", lost);
    if (!t)
        return;
    t->first = lost;
    t->beside = noise;
    t->beside_length = CUZHAVELI_PLAN_BYTES(t->shape.width);
    fill(&t->random, noise, t->beside_length);
    if (!call_yours(t, call) || !same_answer(t, 0))
        return;
    struct cuzhaveli_judged judged =
        cuzhaveli_judge_plan(t->shape.width, t->shape.disks, lost, t->lent_beside, t->beside_length);
    if (judged.answer.refusal != CUZHAVELI_OK)
        tell_refused(t, judged.answer);
    else
        count_reads(t, judged.reads);
}

void try_plans(enum form form)
{
    each_loss(try_plan);
    try_refusals(PLAN, form, call);
}

void say_reads(void)
{
    if (fewest_reads > 0)
        say("reads: your plans for data disks of full arrays read %zu cells, and the fewest are %zu (%.2f times)",
            reads_of_yours, fewest_reads, (double)reads_of_yours / (double)fewest_reads);
}

/* The plan that you offer; false if there is none that the judge accepts. */
bool plan_of_yours(struct cuzhaveli_shape shape, size_t lost, uint8_t *plan)
{
    size_t p = shape.width, length = CUZHAVELI_PLAN_BYTES(p);
    return ask_yours(yours_plan, shape, lost, plan) &&
           cuzhaveli_judge_plan(p, shape.disks, lost, plan, length).answer.refusal == CUZHAVELI_OK;
}
