/* Calls on units under their checksums, with random units and damage. */

#include "calls.h"

#define UNIT SHAPE ", %zu, %p, %zu, %ju"
#define OF_UNIT(u) OF((u).shape), (u).stripes, (const void *)(u).name, (u).name_len, (uintmax_t)(u).unit

/* A unit as the calls name it; its cells are lent first, its checksum block second. */
struct unit {
    struct cuzhaveli_shape shape;
    size_t stripes, name_len;
    uint8_t name[CUZHAVELI_NAME_BYTES + 1];
    uint64_t unit;
};

static bool is_unit(struct unit u)
{
    return is_shape(u.shape) && u.stripes > 0 && u.stripes <= CUZHAVELI_MAX_PIECE / u.shape.cell_size;
}

static size_t piece_bytes(struct unit u)
{
    return u.stripes * u.shape.cell_size;
}

/* Few stripes, mostly, whose cells have room in the lent memory. */
static struct unit any_unit(struct random *r)
{
    struct unit u = {any_shape(r), 1 + below(r, 6), once_in(r, 20) ? below(r, 18) : CUZHAVELI_NAME_BYTES, {0}, 0};
    if (is_shape(u.shape) && u.shape.cell_size > 600)
        u.shape.cell_size = 1 + below(r, 600);
    if (once_in(r, 16))
        u.stripes = once_in(r, 2) ? any_number(r) : u.shape.cell_size > 0 ? CUZHAVELI_MAX_PIECE / u.shape.cell_size + 1 : 0;
    fill(r, u.name, sizeof u.name);
    u.unit = next_number(r) >> below(r, 64);
    return u;
}

/* Lends cells and checksum block: of an encoded unit that was sealed, mostly, with some bytes changed. */
static void lend_unit(struct caller *c, struct unit u)
{
    struct random *r = &c->random;
    struct lent *cells = &c->first, *block = &c->second;
    bool good = is_unit(u);
    lend(cells, r, good ? CUZHAVELI_UNIT_BYTES(u.shape, u.stripes) : below(r, 400), c->at_end);
    lend(block, r, good ? CUZHAVELI_BLOCK_BYTES(u.shape.width, u.shape.disks) : below(r, 400), c->at_end);
    if (!good || !cells->bytes || !block->bytes || cells->length != CUZHAVELI_UNIT_BYTES(u.shape, u.stripes) ||
        block->length != CUZHAVELI_BLOCK_BYTES(u.shape.width, u.shape.disks))
        return;
    struct cuzhaveli_shape whole = {u.shape.width, u.shape.disks, piece_bytes(u)};
    if (!once_in(r, 8))
        second_encode_stripe(whole, cells->same, cells->same_length);
    second_seal_unit(u.shape, u.stripes, u.name, CUZHAVELI_NAME_BYTES, u.unit, cells->same, cells->same_length, block->same,
                     block->same_length);
    for (size_t changes = once_in(r, 2) ? below(r, 4) : 0; changes > 0; changes--)
        cells->same[below(r, cells->length)] ^= (uint8_t)next_number(r);
    if (once_in(r, 12))
        block->same[below(r, block->length)] ^= (uint8_t)next_number(r);
    set_content(cells);
    set_content(block);
}

bool seal_unit(struct caller *c)
{
    struct unit u = any_unit(&c->random);
    struct lent *cells = &c->first, *block = &c->second;
    lend_unit(c, u);
    SAY(c, "cuzhaveli_seal_unit(" UNIT ", %p, %zu, %p, %zu)", OF_UNIT(u), (void *)cells->bytes, cells->length,
        (void *)block->bytes, block->length);
    struct cuzhaveli_answer got = cuzhaveli_seal_unit(u.shape, u.stripes, u.name, u.name_len, u.unit, cells->bytes,
                                                      cells->length, block->bytes, block->length);
    struct cuzhaveli_answer wanted = second_seal_unit(u.shape, u.stripes, u.name, u.name_len, u.unit, cells->same,
                                                      cells->same_length, block->same, block->same_length);
    return same(c, SEAL, got, wanted) && lent_agrees(cells) && lent_agrees(block);
}

/* Marks of no piece, of some, or of one disk and some. */
static void lend_marks(struct caller *c, struct unit u)
{
    struct random *r = &c->random;
    struct lent *marks = &c->third;
    lend(marks, r, is_unit(u) ? CUZHAVELI_LIST_BYTES(u.shape.width, u.shape.disks) : below(r, 40), c->at_end);
    if (!marks->bytes)
        return;
    size_t marked = below(r, 3) * below(r, 5), disk = any_disk(r, u.shape.disks), width = u.shape.width;
    memset(marks->same, 0, marks->length);
    for (; marks->length > 0 && marked > 0; marked--)
        marks->same[below(r, marks->length)] = (uint8_t)next_number(r);
    if (is_unit(u) && once_in(r, 4) && (disk + 1) * width <= marks->length)
        memset(marks->same + disk * width, 1, width);
    set_content(marks);
}

bool open_unit(struct caller *c)
{
    struct unit u = any_unit(&c->random);
    struct lent *cells = &c->first, *block = &c->second, *marks = &c->third;
    lend_unit(c, u);
    lend_marks(c, u);
    SAY(c, "cuzhaveli_open_unit(" UNIT ", %p, %zu, %p, %zu, %p, %zu)", OF_UNIT(u), (void *)block->bytes, block->length,
        (void *)marks->bytes, marks->length, (void *)cells->bytes, cells->length);
    struct cuzhaveli_answer got =
        cuzhaveli_open_unit(u.shape, u.stripes, u.name, u.name_len, u.unit, block->bytes, block->length, marks->bytes,
                            marks->length, cells->bytes, cells->length);
    struct cuzhaveli_answer wanted =
        second_open_unit(u.shape, u.stripes, u.name, u.name_len, u.unit, block->same, block->same_length, marks->same,
                         marks->same_length, cells->same, cells->same_length);
    return same(c, OPEN_UNIT, got, wanted) && lent_agrees(cells) && lent_agrees(block) && lent_agrees(marks);
}

bool film_bytes(struct caller *c)
{
    struct random *r = &c->random;
    struct unit u = any_unit(r);
    struct lent *cells = &c->first, *block = &c->second, *out = &c->third;
    lend_unit(c, u);
    size_t film = is_unit(u) ? CUZHAVELI_UNIT_FILM(u.shape, u.stripes) : 100;
    size_t length = below(r, once_in(r, 2) ? film + 1 : 40) % (film + 1), from = below(r, film - length + 1);
    if (once_in(r, 16))
        from = once_in(r, 2) ? film - length + 1 : any_number(r);
    lend_random(out, r, length, c->at_end);
    SAY(c, "cuzhaveli_film_bytes(" UNIT ", %p, %zu, %p, %zu, %zu, %p, %zu)", OF_UNIT(u), (void *)block->bytes,
        block->length, (void *)cells->bytes, cells->length, from, (void *)out->bytes, out->length);
    struct cuzhaveli_answer got =
        cuzhaveli_film_bytes(u.shape, u.stripes, u.name, u.name_len, u.unit, block->bytes, block->length, cells->bytes,
                             cells->length, from, out->bytes, out->length);
    struct cuzhaveli_answer wanted =
        second_film_bytes(u.shape, u.stripes, u.name, u.name_len, u.unit, block->same, block->same_length, cells->same,
                          cells->same_length, from, out->same, out->same_length);
    return same(c, FILM, got, wanted) && lent_agrees(cells) && lent_agrees(block) && lent_agrees(out);
}

bool block_fits(struct caller *c)
{
    struct unit u = any_unit(&c->random);
    struct lent *block = &c->second;
    lend_unit(c, u);
    SAY(c, "cuzhaveli_block_fits(%zu, %zu, %p, %zu, %ju, %p, %zu)", u.shape.width, u.shape.disks,
        (const void *)u.name, u.name_len, (uintmax_t)u.unit, (void *)block->bytes, block->length);
    struct cuzhaveli_answer got = cuzhaveli_block_fits(u.shape.width, u.shape.disks, u.name, u.name_len, u.unit,
                                                       block->bytes, block->length);
    struct cuzhaveli_answer wanted = second_block_fits(u.shape.width, u.shape.disks, u.name, u.name_len, u.unit,
                                                       block->same, block->same_length);
    return same(c, BLOCK, got, wanted) && lent_agrees(block);
}

bool piece_fits(struct caller *c)
{
    struct random *r = &c->random;
    struct unit u = any_unit(r);
    struct lent *cells = &c->first, *block = &c->second, *piece = &c->third;
    lend_unit(c, u);
    size_t disk = any_disk(r, u.shape.disks), row = any_row(r, u.shape.width), size = is_unit(u) ? piece_bytes(u) : 40;
    lend(piece, r, size, c->at_end);
    bool there = disk < u.shape.disks + 2 && row < u.shape.width;
    if (is_unit(u) && there && piece->bytes && cells->bytes && piece->length == size) {
        size_t first = CUZHAVELI_CELL(u.shape.width, row, disk) * size;
        if (first + size <= cells->length)
            memcpy(piece->same, cells->same + first, size);
        set_content(piece);
    }
    SAY(c, "cuzhaveli_piece_fits(" UNIT ", %p, %zu, %zu, %zu, %p, %zu)", OF_UNIT(u), (void *)block->bytes, block->length,
        disk, row, (void *)piece->bytes, piece->length);
    struct cuzhaveli_answer got = cuzhaveli_piece_fits(u.shape, u.stripes, u.name, u.name_len, u.unit, block->bytes,
                                                       block->length, disk, row, piece->bytes, piece->length);
    struct cuzhaveli_answer wanted = second_piece_fits(u.shape, u.stripes, u.name, u.name_len, u.unit, block->same,
                                                       block->same_length, disk, row, piece->same, piece->same_length);
    return same(c, FITS, got, wanted) && lent_agrees(block) && lent_agrees(piece);
}
