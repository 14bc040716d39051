/* The 148 arrays, and the cell sizes that each is tried with. */

#include "kit.h"

const size_t WIDTH[WIDTHS] = {3, 5, 7, 11, 13, 17, 19, 23, 29, 31};

/* Sizes at which loops over words, vectors, lines and pages change. */
static const size_t EDGE[] = {1,   2,   3,   7,   8,   9,   15,  16,   17,   31,   32,   33,   63,   64,   65,  127,
                              128, 129, 255, 256, 257, 511, 512, 513, 1023, 1024, 1025, 2047, 2048, 2049, 4095, 4096};
#define EDGES (sizeof EDGE / sizeof *EDGE)
#define MOST_IN_TURN ((size_t)1 << 18)

struct array array_at(size_t n)
{
    for (size_t w = 0; w < WIDTHS; w++) {
        if (n < WIDTH[w] - 1)
            return (struct array){WIDTH[w], n + 2};
        n -= WIDTH[w] - 1;
    }
    return (struct array){0, 0};
}

/* The place of a width in the results. */
size_t slot_of(size_t p)
{
    size_t slot = 0;
    while (slot < WIDTHS && WIDTH[slot] != p)
        slot++;
    return slot;
}

void name_slot(FILE *out, size_t slot)
{
    if (slot < WIDTHS)
        fprintf(out, "p=%zu", WIDTH[slot]);
    else
        fputs("other widths", out);
}

/* The bytes of which every cell has a multiple. */
size_t unit(void)
{
    return yours_unit ? yours_unit() : 1;
}

/* The size, rounded up to units if there is room, else down. */
size_t in_units(size_t size)
{
    size_t u = unit();
    size_t more = (size + u - 1) / u * u;
    return more <= CUZHAVELI_MAX_CELL_SIZE ? more : CUZHAVELI_MAX_CELL_SIZE / u * u;
}

bool is_small(struct cuzhaveli_shape shape)
{
    return shape.cell_size == in_units(1);
}

/* Array n with cells of one unit, on which everything is tried. */
struct cuzhaveli_shape small_shape(size_t n)
{
    struct array array = array_at(n);
    return (struct cuzhaveli_shape){array.p, array.k, in_units(1)};
}

/* Loops over bytes do not depend on the array: those up to 7 rows have all sizes at edges, the
 * others two of them in turn, of short stripes, and full ones the largest. */
static bool is_wanted(struct cuzhaveli_shape shape, size_t n, size_t edge)
{
    bool in_turn = (edge + EDGES - 2 * n % EDGES) % EDGES < 2;
    return shape.width <= 7 || (in_turn && CUZHAVELI_STRIPE_BYTES(shape) <= MOST_IN_TURN) ||
           (shape.disks == shape.width && edge == EDGES - 1);
}

/* Array n with larger cells. */
static void each_size(enum form form, size_t n, void (*attempt)(enum form form, struct cuzhaveli_shape shape))
{
    struct cuzhaveli_shape shape = small_shape(n);
    size_t last = shape.cell_size;
    for (size_t edge = 0; edge < EDGES; edge++) {
        shape.cell_size = in_units(EDGE[edge]);
        if (shape.cell_size > last && is_wanted(shape, n, edge)) {
            attempt(form, shape);
            last = shape.cell_size;
        }
    }
}

/* Every array and every lost disk of it. */
void each_loss(void (*attempt)(size_t n, size_t lost))
{
    for (size_t n = 0; n < ARRAYS; n++)
        for (size_t lost = 0; lost < array_at(n).k + 2; lost++)
            attempt(n, lost);
}

/* Every array with small cells, and with some of the larger sizes. */
void each_shape(enum form form, void (*attempt)(enum form form, struct cuzhaveli_shape shape))
{
    for (size_t n = 0; n < ARRAYS; n++) {
        attempt(form, small_shape(n));
        each_size(form, n, attempt);
    }
}
