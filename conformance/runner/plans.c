/* Plans for the judge: accepted ones of several sorts, and damaged ones. */

#include "kit.h"

#include <string.h>

static void put_step(uint8_t *step, size_t row, size_t kind, size_t number)
{
    step[0] = (uint8_t)row;
    step[1] = (uint8_t)kind;
    step[2] = (uint8_t)number;
}

/* Any rows of a data disk by diagonals, the others by row sets first. */
static void put_any_rows(struct random *random, size_t p, size_t lost, uint8_t *plan)
{
    uint64_t diagonal = next_number(random);
    for (size_t kind = 0; kind < 2; kind++)
        for (size_t row = 0; row < p; row++)
            if ((diagonal >> row & 1) == kind) {
                put_step(plan, row, kind, kind == 0 ? row : (row + p - lost) % p);
                plan += 3;
            }
}

/* A plan that the judge accepts. */
static void put_accepted(struct random *random, size_t p, size_t k, size_t lost, uint8_t *plan)
{
    struct cuzhaveli_plan record = cuzhaveli_plan_disk(p, k, lost);
    size_t sort = below(random, 4);
    if (sort == 0)
        record = cuzhaveli_balanced_plan(p, k, lost);
    cuzhaveli_plan_bytes(&record, p, plan);
    if (sort > 1 && lost < k)
        put_any_rows(random, p, lost, plan);
}

/* The diagonal that has a cell of the lost disk as its extra cell rebuilds that row, before the
 * row's own sets. */
static void take_extra(size_t p, size_t lost, uint8_t *plan)
{
    for (size_t i = 1; i < p; i++)
        if (p - 2 * i % p == lost)
            for (size_t n = 0; n < p; n++)
                if (plan[3 * n] == p - 1 - i)
                    put_step(plan + 3 * n, p - 1 - i, 1, i);
}

static void damage(struct random *random, size_t p, size_t lost, uint8_t *plan)
{
    uint8_t step[3];
    size_t first = 3 * below(random, p), second = 3 * below(random, p);
    switch (below(random, 6)) {
    case 0: plan[below(random, 3 * p)] = (uint8_t)next_number(random); break;
    case 1: plan[below(random, 3 * p)] = (uint8_t)p; break;
    case 2: plan[below(random, 3 * p)] = (uint8_t)below(random, p); break;
    case 3: memcpy(plan + first, plan + second, sizeof step); break;
    case 4: take_extra(p, lost, plan); break;
    default:
        memcpy(step, plan + first, sizeof step);
        memmove(plan + first, plan + second, sizeof step);
        memcpy(plan + second, step, sizeof step);
    }
}

/* A plan of 3p bytes that is accepted, or damaged once or several times. */
void any_plan(struct random *random, size_t p, size_t k, size_t lost, uint8_t *plan)
{
    put_accepted(random, p, k, lost, plan);
    while (once_in(random, 2))
        damage(random, p, lost, plan);
}
