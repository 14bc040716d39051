/* Calls on the layout of images with random numbers. */

#include "calls.h"

#define LAYOUT "{%zu, %zu, %zu, %ju, %ju, %ju}"
#define OF_LAYOUT(l) (l).width, (l).disks, (l).cell_size, (uintmax_t)(l).unit, (uintmax_t)(l).group, (uintmax_t)(l).length

/* Within the limits, mostly. */
static struct cuzhaveli_layout any_layout(struct random *r)
{
    struct cuzhaveli_shape shape = any_shape(r);
    size_t most = shape.cell_size > 0 && shape.cell_size < CUZHAVELI_MAX_PIECE ? CUZHAVELI_MAX_PIECE / shape.cell_size : 1;
    size_t unit = once_in(r, 4) ? most : 1 + below(r, most);
    size_t groups = CUZHAVELI_MAX_GROUP / unit;
    struct cuzhaveli_layout l = {shape.width, shape.disks, shape.cell_size, unit, unit * (1 + below(r, groups)), 0};
    l.length = once_in(r, 3) ? next_number(r) >> (15 + below(r, 49)) : below(r, 1 << 20);
    if (once_in(r, 12))
        l.unit = any_number(r);
    if (once_in(r, 12))
        l.group = once_in(r, 2) ? any_number(r) : l.group + 1;
    if (once_in(r, 20))
        l.length = any_number(r);
    return l;
}

/* Below that number, mostly. */
static uint64_t any_below(struct random *r, uint64_t limit)
{
    if (limit == 0 || once_in(r, 10))
        return once_in(r, 2) ? limit : any_number(r);
    return next_number(r) % limit;
}

static bool same_place(struct cuzhaveli_place a, struct cuzhaveli_place b)
{
    return a.at == b.at && a.bytes == b.bytes;
}

bool image_bytes(struct caller *c)
{
    struct cuzhaveli_layout l = any_layout(&c->random);
    SAY(c, "cuzhaveli_image_bytes(" LAYOUT ")", OF_LAYOUT(l));
    struct cuzhaveli_image got = cuzhaveli_image_bytes(l), wanted = second_image_bytes(l);
    return same(c, IMAGE, got.answer, wanted.answer) && got.stripes == wanted.stripes && got.units == wanted.units &&
           got.end == wanted.end && got.bytes == wanted.bytes;
}

bool cell_place(struct caller *c)
{
    struct cuzhaveli_layout l = any_layout(&c->random);
    size_t row = any_row(&c->random, l.width);
    uint64_t stripe = any_below(&c->random, second_image_bytes(l).stripes);
    SAY(c, "cuzhaveli_cell_place(" LAYOUT ", %zu, %ju)", OF_LAYOUT(l), row, (uintmax_t)stripe);
    struct cuzhaveli_place got = cuzhaveli_cell_place(l, row, stripe), wanted = second_cell_place(l, row, stripe);
    return same(c, CELL_PLACE, got.answer, wanted.answer) && same_place(got, wanted);
}

bool block_place(struct caller *c)
{
    struct cuzhaveli_layout l = any_layout(&c->random);
    uint64_t unit = any_below(&c->random, second_image_bytes(l).units);
    SAY(c, "cuzhaveli_block_place(" LAYOUT ", %ju)", OF_LAYOUT(l), (uintmax_t)unit);
    struct cuzhaveli_place got = cuzhaveli_block_place(l, unit), wanted = second_block_place(l, unit);
    return same(c, BLOCK_PLACE, got.answer, wanted.answer) && same_place(got, wanted);
}

bool unit_place(struct caller *c)
{
    struct cuzhaveli_layout l = any_layout(&c->random);
    size_t row = any_row(&c->random, l.width);
    uint64_t unit = any_below(&c->random, second_image_bytes(l).units);
    SAY(c, "cuzhaveli_unit_place(" LAYOUT ", %zu, %ju)", OF_LAYOUT(l), row, (uintmax_t)unit);
    struct cuzhaveli_unit_place got = cuzhaveli_unit_place(l, row, unit), wanted = second_unit_place(l, row, unit);
    return same(c, UNIT_PLACE, got.answer, wanted.answer) && got.first == wanted.first &&
           got.stripes == wanted.stripes && got.at == wanted.at && got.bytes == wanted.bytes;
}

bool film_place(struct caller *c)
{
    struct cuzhaveli_layout l = any_layout(&c->random);
    uint64_t byte = any_below(&c->random, l.length);
    SAY(c, "cuzhaveli_film_place(" LAYOUT ", %ju)", OF_LAYOUT(l), (uintmax_t)byte);
    struct cuzhaveli_film_place got = cuzhaveli_film_place(l, byte), wanted = second_film_place(l, byte);
    return same(c, FILM_PLACE, got.answer, wanted.answer) && got.stripe == wanted.stripe && got.disk == wanted.disk &&
           got.row == wanted.row && got.byte == wanted.byte && got.at == wanted.at;
}
