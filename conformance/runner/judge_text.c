/* The judge on plans that are texts: in the forms that editors leave, and damaged. */

#include "kit.h"

#include <string.h>

#define TEXTS 6
#define MOST_TEXT 512

static int call(struct trial *t)
{
    return yours_judge_text(t->shape.width, t->shape.disks, t->first, t->lent_beside, t->beside_length, &t->reads,
                            &t->step);
}

static size_t put_end(struct random *random, char *text)
{
    strcpy(text, once_in(random, 2) ? "\r\n" : "\n");
    return strlen(text);
}

/* The plan with line ends, letters and leading zeros at random; its length. */
static size_t put_text(struct random *random, size_t p, const uint8_t *plan, char *text)
{
    char *at = text + sprintf(text, "row,set,number");
    at += put_end(random, at);
    for (const uint8_t *step = plan; step < plan + 3 * p; step += 3) {
        char letter = "RrDd??"[2 * (step[1] < 3 ? step[1] : 2) + below(random, 2)];
        at += sprintf(at, "%0*u,%c,%0*u", (int)(1 + below(random, 3)), step[0], letter, (int)(1 + below(random, 3)),
                      step[2]);
        at += put_end(random, at);
    }
    return (size_t)(at - text);
}

/* One byte more, less or another. */
static size_t damage_text(struct random *random, char *text, size_t length)
{
    static const char LIKELY[] = "0123456789,RrDd\r\n /:PQ;.-+x";
    size_t place = below(random, length);
    char other = LIKELY[below(random, sizeof LIKELY)];
    switch (below(random, 4)) {
    case 0: text[place] = other; return length;
    case 1: memmove(text + place, text + place + 1, length - place - 1); return length - 1;
    case 2: return place;
    default:
        memmove(text + place + 1, text + place, length - place);
        text[place] = other;
        return length + 1;
    }
}

static void try_text(size_t n, size_t lost, size_t which)
{
    uint8_t plan[MOST_PLAN_BYTES];
    char text[MOST_TEXT];
    struct trial *t = begin_judged(JUDGE_TEXT, n, lost, which, plan);
    if (!t)
        return;
    t->beside = (const uint8_t *)text;
    t->beside_length = put_text(&t->random, t->shape.width, plan, text);
    if (once_in(&t->random, 3))
        t->beside_length = damage_text(&t->random, text, t->beside_length);
    if (call_yours(t, call))
        compare_judged(t, cuzhaveli_judge_text(t->shape.width, t->shape.disks, lost, t->beside, t->beside_length));
}

static void try_loss(size_t n, size_t lost)
{
    for (size_t which = 0; which < TEXTS; which++)
        try_text(n, lost, which);
}

void try_judge_text(enum form form)
{
    each_loss(try_loss);
    try_refusals(JUDGE_TEXT, form, call);
}
