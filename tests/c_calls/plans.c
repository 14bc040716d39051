/* The calls on plans alone. */

#include "calls.h"

static bool same_plan(struct caller *c, int call, struct cuzhaveli_plan got, struct cuzhaveli_plan wanted)
{
    return same(c, call, got.answer, wanted.answer) && memcmp(&got.steps, &wanted.steps, sizeof got.steps) == 0 &&
           got.routes == wanted.routes && got.reads == wanted.reads;
}

bool plan_disk(struct caller *c)
{
    struct array a = any_array(&c->random);
    SAY(c, "cuzhaveli_plan_disk(%zu, %zu, %zu)", a.width, a.disks, a.lost);
    return same_plan(c, PLAN, cuzhaveli_plan_disk(a.width, a.disks, a.lost), second_plan_disk(a.width, a.disks, a.lost));
}

bool balanced_plan(struct caller *c)
{
    struct array a = any_array(&c->random);
    SAY(c, "cuzhaveli_balanced_plan(%zu, %zu, %zu)", a.width, a.disks, a.lost);
    struct cuzhaveli_plan got = cuzhaveli_balanced_plan(a.width, a.disks, a.lost);
    return same_plan(c, BALANCED_PLAN, got, second_balanced_plan(a.width, a.disks, a.lost));
}

/* Another disk to relieve, mostly; the lost one now and then. */
bool relief_plan(struct caller *c)
{
    struct array a = any_array(&c->random);
    size_t relieved = once_in(&c->random, 16) ? a.lost : any_disk(&c->random, a.disks);
    SAY(c, "cuzhaveli_relief_plan(%zu, %zu, %zu, %zu)", a.width, a.disks, a.lost, relieved);
    struct cuzhaveli_plan got = cuzhaveli_relief_plan(a.width, a.disks, a.lost, relieved);
    return same_plan(c, RELIEF_PLAN, got, second_relief_plan(a.width, a.disks, a.lost, relieved));
}

bool fewest_plan(struct caller *c)
{
    struct array a = any_array(&c->random);
    SAY(c, "cuzhaveli_fewest_plan(%zu, %zu, %zu)", a.width, a.disks, a.lost);
    struct cuzhaveli_plan got = cuzhaveli_fewest_plan(a.width, a.disks, a.lost);
    return same_plan(c, FEWEST_PLAN, got, second_fewest_plan(a.width, a.disks, a.lost));
}

bool read_list(struct caller *c)
{
    struct array a = any_array(&c->random);
    struct lent *list = &c->first;
    size_t right = is_array(a) ? CUZHAVELI_LIST_BYTES(a.width, a.disks) : below(&c->random, 400);
    lend(list, &c->random, right, c->at_end);
    SAY(c, "cuzhaveli_read_list(%zu, %zu, %zu, %p, %zu)", a.width, a.disks, a.lost, (void *)list->bytes, list->length);
    struct cuzhaveli_answer got = cuzhaveli_read_list(a.width, a.disks, a.lost, list->bytes, list->length);
    struct cuzhaveli_answer wanted = second_read_list(a.width, a.disks, a.lost, list->same, list->same_length);
    return same(c, LIST, got, wanted) && lent_agrees(list);
}

/* Our plan, the balanced one or one that relieves a disk. */
static struct cuzhaveli_plan some_plan(struct random *r, struct array a)
{
    struct cuzhaveli_plan relief = second_relief_plan(a.width, a.disks, a.lost, any_disk(r, a.disks));
    if (relief.answer.refusal == 0 && once_in(r, 3))
        return relief;
    return once_in(r, 2) ? second_balanced_plan(a.width, a.disks, a.lost) : second_plan_disk(a.width, a.disks, a.lost);
}

/* Such a plan as bytes, with steps exchanged or bytes changed now and then. */
void lend_plan(struct caller *c, struct array a, struct lent *plan)
{
    struct random *r = &c->random;
    lend(plan, r, is_array(a) ? CUZHAVELI_PLAN_BYTES(a.width) : below(r, 100), c->at_end);
    struct cuzhaveli_plan given = some_plan(r, a);
    if (!plan->bytes || given.answer.refusal != 0 || plan->length != CUZHAVELI_PLAN_BYTES(a.width))
        return;
    cuzhaveli_plan_bytes(&given, a.width, plan->same);
    for (size_t changes = below(r, 4); changes > 0; changes--) {
        uint8_t step[3], *one = plan->same + 3 * below(r, a.width), *other = plan->same + 3 * below(r, a.width);
        memcpy(step, one, 3);
        memmove(one, other, 3);
        if (!once_in(r, 8))
            memcpy(other, step, 3);
        if (once_in(r, 4))
            one[below(r, 3)] = (uint8_t)(once_in(r, 4) ? next_number(r) : below(r, a.width + 1));
    }
    set_content(plan);
}

bool judge_plan(struct caller *c)
{
    struct array a = any_array(&c->random);
    struct lent *plan = &c->first;
    lend_plan(c, a, &c->first);
    SAY(c, "cuzhaveli_judge_plan(%zu, %zu, %zu, %p, %zu)", a.width, a.disks, a.lost, (void *)plan->bytes, plan->length);
    struct cuzhaveli_judged got = cuzhaveli_judge_plan(a.width, a.disks, a.lost, plan->bytes, plan->length);
    struct cuzhaveli_judged wanted = second_judge_plan(a.width, a.disks, a.lost, plan->same, plan->same_length);
    return same(c, JUDGE, got.answer, wanted.answer) && got.reads == wanted.reads && lent_agrees(plan);
}

bool plan_list(struct caller *c)
{
    struct array a = any_array(&c->random);
    struct lent *plan = &c->first, *list = &c->second;
    lend_plan(c, a, plan);
    lend(list, &c->random, is_array(a) ? CUZHAVELI_LIST_BYTES(a.width, a.disks) : below(&c->random, 400), c->at_end);
    SAY(c, "cuzhaveli_plan_list(%zu, %zu, %zu, %p, %zu, %p, %zu)", a.width, a.disks, a.lost, (void *)plan->bytes,
        plan->length, (void *)list->bytes, list->length);
    struct cuzhaveli_answer got =
        cuzhaveli_plan_list(a.width, a.disks, a.lost, plan->bytes, plan->length, list->bytes, list->length);
    struct cuzhaveli_answer wanted =
        second_plan_list(a.width, a.disks, a.lost, plan->same, plan->same_length, list->same, list->same_length);
    return same(c, PLAN_LIST, got, wanted) && lent_agrees(plan) && lent_agrees(list);
}

/* An input of the form, mostly, with a byte of it changed now and then; NULL only with no bytes. */
bool plan_text(struct caller *c)
{
    struct random *r = &c->random;
    struct lent *input = &c->first;
    struct cuzhaveli_answer none = {0, 0};
    char text[60];
    size_t width = any_width(r);
    size_t length = (size_t)snprintf(text, sizeof text, "p,lost\n%zu,%zu\n", width, any_disk(r, width));
    lend(input, r, length, c->at_end);
    if (!input->bytes)
        input->length = 0;
    if (input->length == length) {
        memcpy(input->same, text, length);
        if (once_in(r, 3))
            input->same[below(r, length)] = (uint8_t)(once_in(r, 2) ? '0' + below(r, 10) : next_number(r));
        set_content(input);
    }
    SAY(c, "cuzhaveli_plan_text(%p, %zu)", (void *)input->bytes, input->length);
    struct cuzhaveli_text got = cuzhaveli_plan_text(input->bytes, input->length);
    struct cuzhaveli_text wanted = second_plan_text(input->same, input->same_length);
    return same(c, PRINTED, none, none) && got.length == wanted.length &&
           memcmp(got.bytes, wanted.bytes, sizeof got.bytes) == 0 && lent_agrees(input);
}

#define TEXT_MOST (16 + 31 * 11 + 8)

static size_t put_number(struct random *r, uint8_t *text, unsigned number)
{
    static const char *const FORMS[] = {"%u", "%02u", "%03u"};
    return (size_t)sprintf((char *)text, FORMS[below(r, 3)], number);
}

static size_t put_end(struct random *r, uint8_t *text)
{
    size_t cr = below(r, 2);
    memcpy(text, "\r\n" + 1 - cr, 1 + cr);
    return 1 + cr;
}

/* A plan's bytes as text, in one of the forms that hosts write. */
static size_t any_text(struct random *r, const uint8_t *plan, size_t steps, uint8_t *text)
{
    size_t used = 14;
    memcpy(text, "row,set,number", used);
    used += put_end(r, text + used);
    for (size_t n = 0; n < steps; n++) {
        used += put_number(r, text + used, plan[3 * n]);
        text[used++] = ',';
        text[used++] = (uint8_t)"RDrd"[plan[3 * n + 1] % 2 + 2 * below(r, 2)];
        text[used++] = ',';
        used += put_number(r, text + used, plan[3 * n + 2]);
        used += put_end(r, text + used);
    }
    return used;
}

/* Lends a text: a plan's, with a byte changed, put in or left out now and then, or its end cut off; or nothing. */
static void lend_text(struct caller *c, struct array a)
{
    static const uint8_t LIKELY[] = "0129,RDrd\r\n x";
    uint8_t text[TEXT_MOST];
    struct random *r = &c->random;
    lend_plan(c, a, &c->first);
    size_t steps = c->first.bytes && c->first.length <= 93 ? c->first.length / 3 : 0;
    size_t used = once_in(r, 50) ? 0 : any_text(r, c->first.same, steps, text);
    for (size_t changes = once_in(r, 3) ? 1 + below(r, 2) : 0; changes > 0 && used > 0; changes--) {
        size_t place = below(r, used);
        switch (below(r, 4)) {
        case 0: text[place] = LIKELY[below(r, sizeof LIKELY)]; break;
        case 1: memmove(text + place, text + place + 1, --used - place); break;
        case 2: memmove(text + place + 1, text + place, used++ - place); break;
        default: used = once_in(r, 2) ? place : used - 1;
        }
    }
    lend_bytes(&c->first, text, used, c->at_end);
}

bool judge_text(struct caller *c)
{
    struct array a = any_array(&c->random);
    struct lent *text = &c->first;
    lend_text(c, a);
    const uint8_t *bytes = text->length == 0 && once_in(&c->random, 2) ? NULL : text->bytes;
    SAY(c, "cuzhaveli_judge_text(%zu, %zu, %zu, %p, %zu)", a.width, a.disks, a.lost, (const void *)bytes, text->length);
    struct cuzhaveli_judged got = cuzhaveli_judge_text(a.width, a.disks, a.lost, bytes, text->length);
    struct cuzhaveli_judged wanted = second_judge_text(a.width, a.disks, a.lost, text->same, text->same_length);
    return same(c, TEXT, got.answer, wanted.answer) && got.reads == wanted.reads && lent_agrees(text);
}

bool write_plan(struct caller *c)
{
    struct array a = any_array(&c->random);
    struct lent *plan = &c->first, *out = &c->second;
    lend_plan(c, a, &c->first);
    lend(out, &c->random, CUZHAVELI_TEXT_BYTES, c->at_end);
    SAY(c, "cuzhaveli_write_plan(%zu, %zu, %zu, %p, %zu, %p, %zu)", a.width, a.disks, a.lost, (void *)plan->bytes,
        plan->length, (void *)out->bytes, out->length);
    struct cuzhaveli_written got =
        cuzhaveli_write_plan(a.width, a.disks, a.lost, plan->bytes, plan->length, out->bytes, out->length);
    struct cuzhaveli_written wanted =
        second_write_plan(a.width, a.disks, a.lost, plan->same, plan->same_length, out->same, out->same_length);
    return same(c, WRITE, got.answer, wanted.answer) && got.length == wanted.length && lent_agrees(plan) &&
           lent_agrees(out);
}

bool plain_text(struct caller *c)
{
    struct array a = any_array(&c->random);
    struct lent *text = &c->first, *out = &c->second;
    lend_text(c, a);
    lend(out, &c->random, CUZHAVELI_TEXT_BYTES, c->at_end);
    const uint8_t *bytes = text->length == 0 && once_in(&c->random, 2) ? NULL : text->bytes;
    SAY(c, "cuzhaveli_plain_text(%zu, %zu, %zu, %p, %zu, %p, %zu)", a.width, a.disks, a.lost, (const void *)bytes,
        text->length, (void *)out->bytes, out->length);
    struct cuzhaveli_written got =
        cuzhaveli_plain_text(a.width, a.disks, a.lost, bytes, text->length, out->bytes, out->length);
    struct cuzhaveli_written wanted =
        second_plain_text(a.width, a.disks, a.lost, text->same, text->same_length, out->same, out->same_length);
    return same(c, PLAIN, got.answer, wanted.answer) && got.length == wanted.length && lent_agrees(text) &&
           lent_agrees(out);
}
