#include "mends.h"

#include "clock.h"
#include "cuzhaveli.h"
#include "results.h"

#include <stdio.h>
#include <string.h>

static const double SAMPLE_SECONDS = 300e-6;

/* What is timed: a call, the disks that are lost whole, the further cells that are missing, and the kind that it is
   compared with. */
enum Kind { ONE, BALANCED, BY_PLAN, A_CELL, A_DISK, TWO_MORE, SIX_MORE, ONE_Q, ALL_OF_Q, TWO, TWO_DISKS, KINDS };

/* A loss: marks of its cells, and the balanced plan for the first disk. */
struct Gone {
    int disks[2];
    uint8_t marks[CUZHAVELI_LIST_BYTES(MOST_DISKS, MOST_DISKS)];
    uint8_t plan[CUZHAVELI_PLAN_BYTES(MOST_DISKS)];
};

/* One loss for each data disk, or of Q. */
struct Losing {
    int count; /* 0 if so many cells are never determined */
    struct Gone all[MOST_DISKS];
};

typedef struct cuzhaveli_answer Mend(const struct Shelf *shelf, const struct Gone *gone);

static struct cuzhaveli_shape shape_of(const struct Shelf *shelf)
{
    return (struct cuzhaveli_shape){ shelf->array->p, shelf->array->k, shelf->s };
}

static struct cuzhaveli_answer one(const struct Shelf *shelf, const struct Gone *gone)
{
    return cuzhaveli_rebuild_one(shape_of(shelf), gone->disks[0], shelf->bytes, shelf->stripe,
                                 shelf->columns, shelf->column);
}

static struct cuzhaveli_answer balanced(const struct Shelf *shelf, const struct Gone *gone)
{
    return cuzhaveli_rebuild_balanced(shape_of(shelf), gone->disks[0], shelf->bytes, shelf->stripe,
                                      shelf->columns, shelf->column);
}

static struct cuzhaveli_answer by_plan(const struct Shelf *shelf, const struct Gone *gone)
{
    return cuzhaveli_rebuild_by_plan(shape_of(shelf), gone->disks[0], gone->plan,
                                     CUZHAVELI_PLAN_BYTES(shelf->array->p), shelf->bytes,
                                     shelf->stripe, shelf->columns, shelf->column);
}

static struct cuzhaveli_answer two(const struct Shelf *shelf, const struct Gone *gone)
{
    return cuzhaveli_rebuild_two(shape_of(shelf), gone->disks[0], gone->disks[1], shelf->bytes,
                                 shelf->stripe);
}

static struct cuzhaveli_answer cells(const struct Shelf *shelf, const struct Gone *gone)
{
    return cuzhaveli_rebuild_cells(shape_of(shelf), gone->marks,
                                   CUZHAVELI_LIST_BYTES(shelf->array->p, shelf->array->k),
                                   shelf->bytes, shelf->stripe);
}

static const struct {
    Mend *mend;
    int disks, cells;
    enum Kind against;
} TIMED[KINDS] = {
    [ONE] = { one, 1, 0, ONE },          [BALANCED] = { balanced, 1, 0, ONE },
    [BY_PLAN] = { by_plan, 1, 0, ONE },  [A_CELL] = { cells, 0, 1, ONE },
    [A_DISK] = { cells, 1, 0, ONE },     [TWO_MORE] = { cells, 1, 2, ONE },
    [SIX_MORE] = { cells, 1, 6, ONE },   [ONE_Q] = { one, 1, 0, ONE_Q },
    [ALL_OF_Q] = { cells, 1, 0, ONE_Q }, [TWO] = { two, 2, 0, TWO },
    [TWO_DISKS] = { cells, 2, 0, TWO },
};

/* Marks the lost disks, and from a first place on as many cells of other disks, far apart. */
static void mark(const struct Array *array, enum Kind kind, int first, struct Gone *gone)
{
    int p = array->p, places = p * (array->k + 2), place = first, left = TIMED[kind].cells;
    memset(gone->marks, 0, sizeof gone->marks);
    for (int i = 0; i < TIMED[kind].disks; i++) {
        memset(gone->marks + gone->disks[i] * p, 1, p);
    }
    while (left > 0) {
        if (gone->marks[place] == 0) {
            gone->marks[place] = 1;
            left--;
        }
        place = (place + 2 * p + 3) % places;
    }
}

/* The loss of a disk, with further cells that the others determine; 0 if there are none. */
static int lose(const struct Shelf *shelf, enum Kind kind, int disk, struct Gone *gone)
{
    const struct Array *array = shelf->array;
    struct cuzhaveli_plan plan = cuzhaveli_balanced_plan(array->p, array->k, disk);
    cuzhaveli_plan_bytes(&plan, array->p, gone->plan);
    gone->disks[0] = disk;
    gone->disks[1] = (disk + 1 + disk % (array->k - 1)) % array->k;
    for (int first = 0; first < array->p * (array->k + 2); first++) {
        mark(array, kind, first, gone);
        if (cells(shelf, gone).refusal == CUZHAVELI_OK) {
            return 1;
        }
    }
    return 0;
}

/* Mends a loss of the clean stripe once; what was lost must come back. */
static void compare_mend(const struct Shelf *shelf, enum Kind kind, const struct Gone *gone)
{
    int in_place = TIMED[kind].mend == cells || TIMED[kind].mend == two;
    const uint8_t *lost = disk_at(shelf, 0, gone->disks[0]);
    memset(shelf->columns, 0x55, shelf->column);
    for (size_t cell = 0; in_place && cell < shelf->stripe / shelf->s; cell++) {
        if (gone->marks[cell]) {
            memset(shelf->bytes + cell * shelf->s, 0x55, shelf->s);
        }
    }
    demand(TIMED[kind].mend(shelf, gone).refusal == CUZHAVELI_OK, "the library refuses to mend");
    demand(memcmp(shelf->bytes, shelf->copies, shelf->stripe) == 0, "the library mends wrongly");
    demand(in_place || memcmp(shelf->columns, lost, shelf->column) == 0,
           "the library rebuilds wrongly by another plan");
}

static void open_losses(const struct Shelf *shelf, enum Kind kind, struct Losing *losing)
{
    int k = shelf->array->k, of_q = TIMED[kind].against == ONE_Q;
    losing->count = 0;
    for (int disk = of_q ? k + 1 : 0; disk < (of_q ? k + 2 : k); disk++) {
        struct Gone *gone = &losing->all[losing->count];
        if (lose(shelf, kind, disk, gone)) {
            compare_mend(shelf, kind, gone);
            losing->count++;
        }
    }
}

/* Seconds a call, so many of them for each loss on end. */
static double sample(const struct Shelf *shelf, enum Kind kind, const struct Losing *losing, int calls)
{
    double start = now();
    for (int i = 0; i < losing->count; i++) {
        for (int call = 0; call < calls; call++) {
            demand(TIMED[kind].mend(shelf, &losing->all[i]).refusal == CUZHAVELI_OK,
                   "the library refuses to mend");
        }
    }
    return (now() - start) / (losing->count * calls);
}

static void print_ratio(double best[KINDS], double times[KINDS][MOST_ROUNDS], enum Kind kind, int rounds)
{
    static double ratios[MOST_ROUNDS];
    enum Kind against = TIMED[kind].against;
    for (int round = 0; round < rounds; round++) {
        ratios[round] = times[kind][round] / times[against][round];
    }
    printf(" %.2f / %.2f |", best[kind] / best[against], median(ratios, rounds));
}

static void print_row(const struct Shelf *shelf, const struct Losing losing[KINDS], int rounds)
{
    static double times[KINDS][MOST_ROUNDS];
    double best[KINDS];
    for (int round = 0; round < rounds; round++) {
        for (int turn = 0; turn < KINDS; turn++) {
            enum Kind kind = (turn + round) % KINDS;
            if (losing[kind].count == 0) {
                continue;
            }
            double once = sample(shelf, kind, &losing[kind], 1);
            int calls = 1 + (int)(SAMPLE_SECONDS / (once * losing[kind].count));
            double took = sample(shelf, kind, &losing[kind], calls);
            times[kind][round] = took;
            best[kind] = round == 0 || took < best[kind] ? took : best[kind];
        }
    }
    printf("| %d | %d | %zu |", shelf->array->p, shelf->array->k, shelf->s);
    for (enum Kind kind = ONE; kind < KINDS; kind++) {
        if (losing[kind].count == 0) {
            printf(" none |");
        } else if (kind == TIMED[kind].against || kind == A_CELL) {
            printf(" %.2f |", 1e6 * best[kind]);
        } else {
            print_ratio(best, times, kind, rounds);
        }
    }
    printf("\n");
}

static void measure(const struct Array *array, size_t s, int rounds)
{
    static struct Losing losing[KINDS];
    struct Shelf shelf;
    fprintf(stderr, "bench: mends, p = %d, k = %d, s = %zu\n", array->p, array->k, s);
    open_shelf(&shelf, array, s, 1);
    demand(cuzhaveli_encode_stripe(shape_of(&shelf), shelf.bytes, shelf.stripe).refusal == 0,
           "the library refuses to encode");
    memcpy(shelf.copies, shelf.bytes, shelf.stripe);
    for (enum Kind kind = ONE; kind < KINDS; kind++) {
        open_losses(&shelf, kind, &losing[kind]);
    }
    print_row(&shelf, losing, rounds);
    close_shelf(&shelf);
}

void print_mends(int rounds)
{
    printf("### warm: further rebuilds over that of one disk by our plan, and over that of two; best / median\n\n");
    printf("| p | k | s | one disk, us | balanced | by a plan sent | a missing cell, us | cells: one disk | and 2 | "
           "and 6 | Q, us | cells: Q | two disks, us | cells: two disks |\n"
           "|---|---|---|---|---|---|---|---|---|---|---|---|---|---|\n");
    for (int i = 0; i < ARRAYS; i++) {
        static struct Array array;
        open_array(&array, SHAPES[i][0], SHAPES[i][1]);
        for (int size = 0; size < SIZES; size++) {
            measure(&array, CELL_SIZES[size], rounds);
        }
        close_array(&array);
    }
    printf("\n");
}
