/* Units: checksum blocks written, and units opened with wrong bytes, lost disks, bad blocks and
 * damage that nothing determines. */

#include "kit.h"

#include <string.h>

#define PATTERNS 12
#define MOST_BLOCK CUZHAVELI_BLOCK_BYTES(CUZHAVELI_MAX_WIDTH, CUZHAVELI_MAX_WIDTH)

/* The unit of a trial; its cells are the trial's stripe, of which a cell is a piece. */
static struct {
    size_t stripes;
    uint64_t number;
    uint8_t name[CUZHAVELI_NAME_BYTES], block[MOST_BLOCK], marks[MOST_CELLS];
} unit_of;

static size_t block_bytes(const struct trial *t)
{
    return CUZHAVELI_BLOCK_BYTES(t->shape.width, t->shape.disks);
}

static struct cuzhaveli_shape stripe_shape(const struct trial *t)
{
    return (struct cuzhaveli_shape){t->shape.width, t->shape.disks, t->shape.cell_size / unit_of.stripes};
}

#define UNIT_OF(t) stripe_shape(t), unit_of.stripes, unit_of.name, sizeof unit_of.name, unit_of.number
#define YOUR_UNIT(t) \
    (t)->shape.width, (t)->shape.disks, (t)->shape.cell_size / unit_of.stripes, unit_of.stripes, unit_of.name, \
        unit_of.number

static int call_seal(struct trial *t)
{
    return yours_seal(YOUR_UNIT(t), t->stripe, t->lent_beside);
}

static int call_open(struct trial *t)
{
    size_t length = block_bytes(t) < sizeof unit_of.block ? block_bytes(t) : sizeof unit_of.block;
    return yours_open(YOUR_UNIT(t), lend(THE_BLOCK, unit_of.block, length, true), t->lent_beside, t->stripe);
}

/* Begins a trial on a unit of as many stripes as divide its pieces, encoded and sealed by the library. */
static struct trial *begin_unit(enum function function, struct cuzhaveli_shape shape, size_t pattern)
{
    static const size_t STRIPES[] = {1, 2, 3, 8};
    unit_of.stripes = STRIPES[pattern % 4];
    if (shape.cell_size % unit_of.stripes != 0)
        unit_of.stripes = 1;
    struct trial *t = begin_trial(function, STRIPE, shape, "pattern=%zu", pattern);
    if (!t)
        return NULL;
    unit_of.number = next_number(&t->random) >> below(&t->random, 64);
    fill(&t->random, unit_of.name, sizeof unit_of.name);
    put_stripe(t, true);
    cuzhaveli_seal_unit(UNIT_OF(t), t->wanted, stripe_bytes(t), unit_of.block, block_bytes(t));
    return t;
}

static bool same_block(struct trial *t)
{
    size_t byte = 0, guard = block_bytes(t) - 8;
    if (memcmp(unit_of.block, t->lent_beside, block_bytes(t)) == 0)
        return true;
    while (unit_of.block[byte] == t->lent_beside[byte])
        byte++;
    FILE *out = begin_failure(t);
    if (byte >= guard)
        fputs("the guard of the block is another", out);
    else
        fprintf(out, "the checksum of row %zu of disk %zu is another", byte / 8 % t->shape.width,
                byte / 8 / t->shape.width);
    end_failure(t);
    return false;
}

static void try_sealed(struct cuzhaveli_shape shape, size_t pattern)
{
    uint8_t noise[MOST_BLOCK];
    struct trial *t = begin_unit(SEAL, shape, pattern);
    if (!t)
        return;
    fill(&t->random, noise, sizeof noise);
    t->beside = noise;
    t->beside_length = block_bytes(t);
    if (call_yours(t, call_seal) && same_answer(t, 0) && same_stripe(t))
        same_block(t);
}

/* A wrong byte in a piece; one that cannot be read. */
static void change_piece(struct trial *t, size_t piece)
{
    t->before[piece * t->shape.cell_size + below(&t->random, t->shape.cell_size)] ^=
        (uint8_t)(1 + below(&t->random, 255));
    t->noise[piece] = true;
}

static void miss_disk(struct trial *t, size_t disk)
{
    lose_disk(t, disk);
    memset(unit_of.marks + disk * t->shape.width, 1 + (int)below(&t->random, 255), t->shape.width);
}

static void damage(struct trial *t, size_t pattern)
{
    size_t disks = t->shape.disks + 2, pieces = disks * t->shape.width, disk = below(&t->random, disks);
    switch (pattern % 6) {
    case 0: break;
    case 1: change_piece(t, below(&t->random, pieces)); break;
    case 2:
        miss_disk(t, disk);
        change_piece(t, (disk + 1) % disks * t->shape.width + below(&t->random, t->shape.width));
        break;
    case 3:
        for (size_t i = 0; i < 3; i++)
            miss_disk(t, (disk + i) % disks);
        break;
    case 4: unit_of.block[below(&t->random, block_bytes(t))] ^= (uint8_t)(1 + below(&t->random, 255)); break;
    default:
        for (size_t i = 0; i < t->shape.width; i++)
            change_piece(t, below(&t->random, pieces));
    }
}

static bool same_marks(struct trial *t, const uint8_t *wanted)
{
    for (size_t piece = 0; piece < t->beside_length; piece++)
        if (t->lent_beside[piece] != wanted[piece]) {
            fprintf(begin_failure(t), "the mark of row %zu of disk %zu is %d and should be %d",
                    piece % t->shape.width, piece / t->shape.width, t->lent_beside[piece], wanted[piece]);
            end_failure(t);
            return false;
        }
    return true;
}

static void try_opened(struct cuzhaveli_shape shape, size_t pattern)
{
    uint8_t marks[MOST_CELLS];
    struct trial *t = begin_unit(OPEN, shape, pattern);
    if (!t)
        return;
    memset(unit_of.marks, 0, sizeof unit_of.marks);
    damage(t, pattern);
    t->beside = unit_of.marks;
    t->beside_length = shape.width * (shape.disks + 2);
    memcpy(marks, unit_of.marks, t->beside_length);
    memcpy(t->wanted, t->before, stripe_bytes(t));
    int refusal = cuzhaveli_open_unit(UNIT_OF(t), unit_of.block, block_bytes(t), marks, t->beside_length, t->wanted,
                                      stripe_bytes(t)).refusal;
    if (call_yours(t, call_open) && same_answer(t, refusal) && same_stripe(t))
        same_marks(t, marks);
}

/* Pieces of one cell with every pattern, larger ones with some of several stripes. */
static void each_pattern(struct cuzhaveli_shape shape, void (*attempt)(struct cuzhaveli_shape shape, size_t pattern))
{
    static const size_t LARGE[] = {1, 2, 7};
    size_t count = is_small(shape) ? PATTERNS : sizeof LARGE / sizeof *LARGE;
    for (size_t i = 0; i < count; i++)
        attempt(shape, is_small(shape) ? i : LARGE[i]);
}

static void try_seal_size(enum form form, struct cuzhaveli_shape shape)
{
    (void)form;
    each_pattern(shape, try_sealed);
}

static void try_open_size(enum form form, struct cuzhaveli_shape shape)
{
    (void)form;
    each_pattern(shape, try_opened);
}

void try_seal(enum form form)
{
    each_shape(form, try_seal_size);
    unit_of.stripes = 1;
    try_refusals(SEAL, form, call_seal);
}

void try_open(enum form form)
{
    each_shape(form, try_open_size);
    unit_of.stripes = 1;
    try_refusals(OPEN, form, call_open);
}
