/* Arguments that yours refuses, if it says that it does: nothing that was lent may change. */

#include "kit.h"

#include <string.h>

#define MOST_LENT_SIZE 16

/* A call with one argument out of range. */
struct fault {
    int number;
    struct cuzhaveli_shape shape;
    size_t first, second;
};

static const size_t BAD_WIDTH[] = {0, 1, 2, 4, 9, 25, 37, 256 + 5, SIZE_MAX};
static const size_t BAD_DISKS[] = {0, 1, 6, 256 + 5, SIZE_MAX};
static const size_t BAD_SIZE[] = {0, 4097, 65536 + 8, SIZE_MAX};

static size_t least(size_t a, size_t b)
{
    return a < b ? a : b;
}

static void try_fault(enum function function, enum form form, struct fault fault, int (*call)(struct trial *trial))
{
    uint8_t beside[CUZHAVELI_MAX_CELL_SIZE];
    if (refuses_by(fault.number) == YOURS_NEVER)
        return;
    struct trial *t = begin_trial(function, form, fault.shape, "refused=%d/with=%zu,%zu", fault.number, fault.first,
                                  fault.second);
    if (!t)
        return;
    t->first = fault.first;
    t->second = fault.second;
    t->disks = least(fault.shape.disks, MOST_DISKS - 2) + 2;
    t->column = least(fault.shape.width + 1, CUZHAVELI_MAX_WIDTH) * (least(fault.shape.cell_size, MOST_LENT_SIZE) + 1);
    put_stripe(t, false);
    memset(beside, 0, sizeof beside);
    t->beside = beside;
    t->beside_length = sizeof beside;
    if (call_yours(t, call) && same_answer(t, fault.number) && (!takes_stripe(function) || same_stripe(t)))
        same_beside(t);
}

/* The shape is refused: its width, data disks, or cell size. */
static void try_shapes(enum function function, enum form form, int (*call)(struct trial *trial))
{
    size_t second = function == REBUILD_TWO ? 1 : 0, s = in_units(1);
    for (size_t i = 0; i < sizeof BAD_WIDTH / sizeof *BAD_WIDTH; i++)
        try_fault(function, form, (struct fault){CUZHAVELI_BAD_WIDTH, {BAD_WIDTH[i], 2, s}, 0, second}, call);
    for (size_t i = 0; i < sizeof BAD_DISKS / sizeof *BAD_DISKS; i++)
        try_fault(function, form, (struct fault){CUZHAVELI_BAD_DISKS, {5, BAD_DISKS[i], s}, 0, second}, call);
    for (size_t i = 0; takes_stripe(function) && i < sizeof BAD_SIZE / sizeof *BAD_SIZE; i++)
        try_fault(function, form, (struct fault){CUZHAVELI_BAD_CELL_SIZE, {5, 5, BAD_SIZE[i]}, 0, second}, call);
}

/* A lost disk is not there, or is named twice. */
static void try_disks(enum function function, enum form form, int (*call)(struct trial *trial))
{
    struct cuzhaveli_shape shape = {5, 3, in_units(1)};
    static const size_t NONE[] = {5, 6, 256, SIZE_MAX};
    for (size_t i = 0; i < sizeof NONE / sizeof *NONE; i++) {
        try_fault(function, form, (struct fault){CUZHAVELI_NO_SUCH_DISK, shape, NONE[i], 1}, call);
        if (function == REBUILD_TWO)
            try_fault(function, form, (struct fault){CUZHAVELI_NO_SUCH_DISK, shape, 1, NONE[i]}, call);
    }
    for (size_t disk = 0; function == REBUILD_TWO && disk < 5; disk++)
        try_fault(function, form, (struct fault){CUZHAVELI_SAME_DISK, shape, disk, disk}, call);
}

/* The row or the disk of an update is none of the data cells'. */
static void try_places(enum form form, int (*call)(struct trial *trial))
{
    struct cuzhaveli_shape shape = {5, 3, in_units(1)};
    static const size_t NO_DATA[] = {3, 4, 5, SIZE_MAX}, NO_ROW[] = {5, 6, SIZE_MAX};
    for (size_t i = 0; i < sizeof NO_DATA / sizeof *NO_DATA; i++)
        try_fault(UPDATE, form, (struct fault){CUZHAVELI_NO_SUCH_DISK, shape, 1, NO_DATA[i]}, call);
    for (size_t i = 0; i < sizeof NO_ROW / sizeof *NO_ROW; i++)
        try_fault(UPDATE, form, (struct fault){CUZHAVELI_NO_SUCH_ROW, shape, NO_ROW[i], 1}, call);
}

/* All that a function should refuse by 1, 2, 3, 4, 13 and 15. */
void try_refusals(enum function function, enum form form, int (*call)(struct trial *trial))
{
    try_shapes(function, form, call);
    if (function == UPDATE)
        try_places(form, call);
    else if (function != ENCODE && function != CHECK && function != SCRUB && function != REBUILD_CELLS &&
             function != SEAL && function != OPEN)
        try_disks(function, form, call);
}
