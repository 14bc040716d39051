/* The rebuilds of disks and cells of a stripe. */

#include "calls.h"

/* A call that rebuilds a disk of a stripe into a column, or the second implementation of it. */
typedef __typeof__(cuzhaveli_rebuild_one) into_column;

static bool same_column(struct caller *c, int call, into_column *library, into_column *second,
                        struct cuzhaveli_shape shape, size_t lost)
{
    struct lent *stripe = &c->first, *column = &c->second;
    SAY(c, "%s(" SHAPE ", %zu, %p, %zu, %p, %zu)", CALL[call].name, OF(shape), lost, (void *)stripe->bytes,
        stripe->length, (void *)column->bytes, column->length);
    struct cuzhaveli_answer got = library(shape, lost, stripe->bytes, stripe->length, column->bytes, column->length);
    struct cuzhaveli_answer wanted =
        second(shape, lost, stripe->same, stripe->same_length, column->same, column->same_length);
    return same(c, call, got, wanted) && lent_agrees(stripe) && lent_agrees(column);
}

static bool into_any_column(struct caller *c, int call, into_column *library, into_column *second)
{
    struct cuzhaveli_shape shape = any_shape(&c->random);
    size_t lost = any_disk(&c->random, shape.disks);
    lend_stripe(c, shape);
    lend_column(c, shape);
    return same_column(c, call, library, second, shape, lost);
}

bool rebuild_one(struct caller *c)
{
    return into_any_column(c, ONE, cuzhaveli_rebuild_one, second_rebuild_one);
}

bool rebuild_balanced(struct caller *c)
{
    return into_any_column(c, BALANCED, cuzhaveli_rebuild_balanced, second_rebuild_balanced);
}

bool rebuild_by_plan(struct caller *c)
{
    struct cuzhaveli_shape shape = any_shape(&c->random);
    struct array a = {shape.width, shape.disks, any_disk(&c->random, shape.disks)};
    struct lent *plan = &c->third, *stripe = &c->first, *column = &c->second;
    lend_plan(c, a, plan);
    lend_stripe(c, shape);
    lend_column(c, shape);
    SAY(c, "cuzhaveli_rebuild_by_plan(" SHAPE ", %zu, %p, %zu, %p, %zu, %p, %zu)", OF(shape), a.lost,
        (void *)plan->bytes, plan->length, (void *)stripe->bytes, stripe->length, (void *)column->bytes, column->length);
    struct cuzhaveli_answer got = cuzhaveli_rebuild_by_plan(shape, a.lost, plan->bytes, plan->length, stripe->bytes,
                                                            stripe->length, column->bytes, column->length);
    struct cuzhaveli_answer wanted =
        second_rebuild_by_plan(shape, a.lost, plan->same, plan->same_length, stripe->same, stripe->same_length,
                               column->same, column->same_length);
    return same(c, BY_PLAN, got, wanted) && lent_agrees(plan) && lent_agrees(stripe) && lent_agrees(column);
}

/* Survivors of a clean stripe, mostly, and anything on the lost disk; now and then a byte of any disk changed. */
bool rebuild_tested(struct caller *c)
{
    struct random *r = &c->random;
    struct cuzhaveli_shape shape = any_shape(r);
    size_t lost = any_disk(r, shape.disks);
    struct lent *stripe = &c->first;
    lend_stripe(c, shape);
    lend_column(c, shape);
    if (stripe->bytes && is_shape(shape) && stripe->length == CUZHAVELI_STRIPE_BYTES(shape) && !once_in(r, 4)) {
        size_t bytes = CUZHAVELI_COLUMN_BYTES(shape), first = lost % (shape.disks + 2) * bytes;
        second_encode_stripe(shape, stripe->same, stripe->same_length);
        for (size_t i = 0; i < bytes; i++)
            stripe->same[first + i] ^= (uint8_t)next_number(r);
        if (once_in(r, 3))
            stripe->same[below(r, stripe->length)] ^= (uint8_t)next_number(r);
        set_content(stripe);
    }
    return same_column(c, TESTED, cuzhaveli_rebuild_tested, second_rebuild_tested, shape, lost);
}

bool rebuild_two(struct caller *c)
{
    struct cuzhaveli_shape shape = any_shape(&c->random);
    size_t first = any_disk(&c->random, shape.disks), second = any_disk(&c->random, shape.disks);
    struct lent *stripe = &c->first;
    lend_stripe(c, shape);
    SAY(c, "cuzhaveli_rebuild_two(" SHAPE ", %zu, %zu, %p, %zu)", OF(shape), first, second, (void *)stripe->bytes,
        stripe->length);
    struct cuzhaveli_answer got = cuzhaveli_rebuild_two(shape, first, second, stripe->bytes, stripe->length);
    struct cuzhaveli_answer wanted = second_refuse_two(shape, first, second, stripe->same_length);
    if (!same(c, TWO, got, wanted))
        return false;
    if (got.refusal == 0) {
        size_t column = CUZHAVELI_COLUMN_BYTES(shape);
        memcpy(stripe->same + first * column, stripe->bytes + first * column, column);
        memcpy(stripe->same + second * column, stripe->bytes + second * column, column);
        if (!second_check_stripe(shape, stripe->same, stripe->same_length).clean)
            return false;
    }
    return lent_agrees(stripe);
}

/* Marks some cells, up to two whole disks, or both; now and then cells anywhere. */
static void lend_marks(struct caller *c, struct cuzhaveli_shape shape)
{
    struct random *r = &c->random;
    struct lent *marks = &c->second;
    lend(marks, r, is_shape(shape) ? CUZHAVELI_LIST_BYTES(shape.width, shape.disks) : below(r, 400), c->at_end);
    if (!marks->bytes || marks->length == 0 || !is_shape(shape) || once_in(r, 8))
        return;
    memset(marks->same, 0, marks->length);
    for (size_t disks = below(r, 3); disks > 0; disks--) {
        size_t first = below(r, shape.disks + 2) * shape.width;
        for (size_t i = first; i < first + shape.width && i < marks->length; i++)
            marks->same[i] = (uint8_t)(1 + below(r, 255));
    }
    for (size_t cells = below(r, once_in(r, 4) ? 2 * shape.width : 4); cells > 0; cells--)
        marks->same[below(r, marks->length)] = (uint8_t)(1 + below(r, 255));
    set_content(marks);
}

bool rebuild_cells(struct caller *c)
{
    struct cuzhaveli_shape shape = any_shape(&c->random);
    struct lent *stripe = &c->first, *marks = &c->second;
    lend_stripe(c, shape);
    lend_marks(c, shape);
    SAY(c, "cuzhaveli_rebuild_cells(" SHAPE ", %p, %zu, %p, %zu)", OF(shape), (void *)marks->bytes, marks->length,
        (void *)stripe->bytes, stripe->length);
    struct cuzhaveli_answer got =
        cuzhaveli_rebuild_cells(shape, marks->bytes, marks->length, stripe->bytes, stripe->length);
    struct cuzhaveli_answer wanted =
        second_rebuild_cells(shape, marks->same, marks->same_length, stripe->same, stripe->same_length);
    return same(c, CELLS, got, wanted) && lent_agrees(stripe) && lent_agrees(marks);
}
