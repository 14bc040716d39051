#include "scrub.h"

#include "clock.h"
#include "cuzhaveli.h"
#include "results.h"

#include <stdio.h>
#include <string.h>

static const int TURNS = 8;

/* What is wrong with one disk of the stripe. */
enum Damage { NOTHING, ONE_CELL, NOISE, SAME_BYTES, DAMAGES };

/* One timed call on a stripe whose disk is damaged or lost. */
typedef void Timed(const struct Shelf *shelf, int disk);

static struct cuzhaveli_shape shape_of(const struct Shelf *shelf)
{
    return (struct cuzhaveli_shape){ shelf->array->p, shelf->array->k, shelf->s };
}

static void check(const struct Shelf *shelf, int disk)
{
    (void)disk;
    struct cuzhaveli_checked checked =
        cuzhaveli_check_stripe(shape_of(shelf), shelf->bytes, shelf->stripe);
    demand(checked.answer.refusal == 0, "the library refuses to check");
}

static void scrub(const struct Shelf *shelf, int disk)
{
    struct cuzhaveli_scrubbed scrubbed =
        cuzhaveli_scrub_stripe(shape_of(shelf), shelf->bytes, shelf->stripe);
    demand(scrubbed.answer.refusal == 0, "the library refuses to scrub");
    demand(scrubbed.verdict == 0 || (scrubbed.verdict == 1 && scrubbed.disk == (size_t)disk),
           "the library doesn't name the damaged disk");
}

static void rebuild(const struct Shelf *shelf, int disk)
{
    struct cuzhaveli_answer answer = cuzhaveli_rebuild_one(
        shape_of(shelf), disk, shelf->bytes, shelf->stripe, shelf->columns, shelf->column);
    demand(answer.refusal == 0, "the library refuses to rebuild");
}

static void rebuild_tested(const struct Shelf *shelf, int disk)
{
    struct cuzhaveli_answer answer = cuzhaveli_rebuild_tested(
        shape_of(shelf), disk, shelf->bytes, shelf->stripe, shelf->columns, shelf->column);
    demand(answer.refusal == 0, "the library refuses to rebuild with tested survivors");
}

/* Changes the disk's bytes; a second time it changes them back. */
static void damage(const struct Shelf *shelf, int disk, enum Damage kind)
{
    uint8_t *column = disk_at(shelf, 0, disk);
    size_t cell = (size_t)disk % shelf->array->p * shelf->s;
    for (size_t i = 0; kind == NOISE && i < shelf->column; i++) {
        column[i] ^= (uint8_t)(1 + i * 167 % 251);
    }
    for (size_t i = 0; kind == SAME_BYTES && i < shelf->column; i++) {
        column[i] ^= (uint8_t)(1 + i % shelf->s % 251);
    }
    for (size_t i = 0; kind == ONE_CELL && i < shelf->s; i++) {
        column[cell + i] ^= (uint8_t)(1 + i % 251);
    }
}

/* The mean over the disks of a call's best seconds on a stripe damaged there. */
static double mean_of(const struct Shelf *shelf, Timed *call, enum Damage kind, int rounds)
{
    int disks = shelf->array->k + 2;
    double sum = 0;
    for (int disk = 0; disk < disks; disk++) {
        double best = 1;
        damage(shelf, disk, kind);
        for (int round = 0; round < rounds; round++) {
            double start = now();
            for (int turn = 0; turn < TURNS; turn++) {
                call(shelf, disk);
            }
            double seconds = (now() - start) / TURNS;
            best = seconds < best ? seconds : best;
        }
        damage(shelf, disk, kind);
        sum += best;
    }
    return sum / disks;
}

static void print_row(const struct Shelf *shelf, int rounds)
{
    double checking = mean_of(shelf, check, NOTHING, rounds);
    double rebuilding = mean_of(shelf, rebuild, NOTHING, rounds);
    double testing = mean_of(shelf, rebuild_tested, NOTHING, rounds);
    printf("| %d | %d | %zu | %.2f |", shelf->array->p, shelf->array->k, shelf->s, 1e6 * checking);
    for (enum Damage kind = NOTHING; kind < DAMAGES; kind++) {
        printf(" %.2f |", mean_of(shelf, scrub, kind, rounds) / checking);
    }
    printf(" %.2f |\n", testing / (checking + rebuilding));
}

void print_scrubs(int rounds)
{
    printf("### warm: the scrub in checks of a clean stripe, one damaged disk, mean over the disks; "
           "the tested rebuild over check + rebuild\n\n");
    printf("| p | k | s | check, us | clean | one cell | noise | same bytes in each cell | tested rebuild |\n"
           "|---|---|---|---|---|---|---|---|---|\n");
    for (int i = 0; i < ARRAYS; i++) {
        static struct Array array;
        open_array(&array, SHAPES[i][0], SHAPES[i][1]);
        for (int size = 0; size < SIZES; size++) {
            struct Shelf shelf;
            fprintf(stderr, "bench: scrubs, p = %d, k = %d, s = %zu\n", array.p, array.k, CELL_SIZES[size]);
            open_shelf(&shelf, &array, CELL_SIZES[size], 1);
            demand(cuzhaveli_encode_stripe(shape_of(&shelf), shelf.bytes, shelf.stripe).refusal == 0,
                   "the library refuses to encode");
            print_row(&shelf, rounds);
            close_shelf(&shelf);
        }
        close_array(&array);
    }
    printf("\n");
}
