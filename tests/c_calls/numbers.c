/* Random numbers, most of them accepted. */

#include "boundary.h"

static const size_t WIDTHS[] = {3, 5, 7, 11, 13, 17, 19, 23, 29, 31};

uint64_t next_number(struct random *r)
{
    r->state ^= r->state >> 12;
    r->state ^= r->state << 25;
    r->state ^= r->state >> 27;
    return r->state * 0x2545F4914F6CDD1Du;
}

size_t below(struct random *r, size_t limit)
{
    return (size_t)(next_number(r) >> 16) % limit;
}

bool once_in(struct random *r, size_t times)
{
    return below(r, times) == 0;
}

void fill(struct random *r, uint8_t *bytes, size_t length)
{
    for (size_t i = 0; i < length; i += 8) {
        uint64_t number = next_number(r);
        for (size_t j = i; j < i + 8 && j < length; j++, number >>= 8)
            bytes[j] = (uint8_t)number;
    }
}

/* Small, near a power of two at which numbers are cut, or anything. */
size_t any_number(struct random *r)
{
    static const unsigned POWERS[] = {8, 16, 31, 32, 48, 54, 63};
    size_t small = below(r, 36);
    switch (below(r, 5)) {
    case 0: return small;
    case 1: return ((size_t)1 << POWERS[below(r, 7)]) + small;
    case 2: return ((size_t)1 << POWERS[below(r, 7)]) - small;
    case 3: return (size_t)0 - small;
    default: return next_number(r);
    }
}

size_t any_width(struct random *r)
{
    if (once_in(r, 16))
        return any_number(r);
    return WIDTHS[below(r, once_in(r, 3) ? 10 : 4)];
}

size_t any_disks(struct random *r, size_t width)
{
    if (width < 2 || once_in(r, 16))
        return once_in(r, 2) ? any_number(r) : width + 1;
    return once_in(r, 2) ? width : 2 + below(r, width - 1);
}

size_t any_disk(struct random *r, size_t disks)
{
    if (disks > 31 || once_in(r, 16))
        return once_in(r, 2) ? any_number(r) : disks + 2;
    return below(r, disks + 2);
}

size_t any_row(struct random *r, size_t width)
{
    if (width == 0 || once_in(r, 16))
        return once_in(r, 2) ? any_number(r) : width;
    return below(r, width);
}

/* Two to five servers, mostly. */
size_t any_servers(struct random *r)
{
    if (once_in(r, 16))
        return once_in(r, 2) ? any_number(r) : 17;
    return once_in(r, 8) ? 2 + below(r, 15) : 2 + below(r, 4);
}

static size_t any_cell_size(struct random *r, size_t width)
{
    if (once_in(r, 16))
        return any_number(r);
    if (once_in(r, 4000))
        return 4096;
    if (width <= 7 && once_in(r, 100))
        return 1 + below(r, 4096);
    return 1 + below(r, once_in(r, 8) ? 130 : 9);
}

struct cuzhaveli_shape any_shape(struct random *r)
{
    struct cuzhaveli_shape shape;
    shape.width = any_width(r);
    shape.disks = any_disks(r, shape.width);
    shape.cell_size = any_cell_size(r, shape.width);
    return shape;
}

bool is_shape(struct cuzhaveli_shape shape)
{
    bool width = false;
    for (size_t i = 0; i < 10; i++)
        width = width || shape.width == WIDTHS[i];
    return width && shape.disks >= 2 && shape.disks <= shape.width && shape.cell_size >= 1 && shape.cell_size <= 4096;
}

/* The right length, or another one. */
size_t any_length(struct random *r, size_t right)
{
    if (!once_in(r, 12))
        return right;
    switch (below(r, 4)) {
    case 0: return right - 1;
    case 1: return right + 1;
    case 2: return right + ((size_t)1 << 32);
    default: return any_number(r);
    }
}
