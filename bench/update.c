#include "update.h"

#include "clock.h"
#include "cuzhaveli.h"
#include "results.h"

#include <stdio.h>
#include <string.h>

static const int WIDTHS[] = { 5, 31 };

static const double SAMPLE_SECONDS = 1e-3;

/* Puts a cell's new bytes into a stripe and leaves it clean. */
typedef void Put(const struct Shelf *shelf, int row, int disk, const uint8_t *cell);

static struct cuzhaveli_shape shape_of(const struct Shelf *shelf)
{
    return (struct cuzhaveli_shape){ shelf->array->p, shelf->array->k, shelf->s };
}

static void update(const struct Shelf *shelf, int row, int disk, const uint8_t *cell)
{
    struct cuzhaveli_answer answer = cuzhaveli_update_cell(
        shape_of(shelf), row, disk, shelf->bytes, shelf->stripe, cell, shelf->s);
    demand(answer.refusal == 0, "the library refuses to update");
}

static void encode_anew(const struct Shelf *shelf, int row, int disk, const uint8_t *cell)
{
    memcpy(disk_at(shelf, 0, disk) + row * shelf->s, cell, shelf->s);
    struct cuzhaveli_answer answer =
        cuzhaveli_encode_stripe(shape_of(shelf), shelf->bytes, shelf->stripe);
    demand(answer.refusal == 0, "the library refuses to encode");
}

/* New bytes: those of another cell of the stripe as it was at first. */
static const uint8_t *new_cell(const struct Shelf *shelf, int turn)
{
    return shelf->copies + turn % (shelf->array->p * shelf->array->k) * shelf->s;
}

/* Updates every cell in turn; the stripe must stay clean. */
static void compare_updates(const struct Shelf *shelf)
{
    int p = shelf->array->p, cells = p * shelf->array->k;
    encode_anew(shelf, 0, 0, new_cell(shelf, 0));
    for (int turn = 0; turn < cells; turn++) {
        update(shelf, turn % p, turn / p, new_cell(shelf, turn + 1));
        struct cuzhaveli_checked checked =
            cuzhaveli_check_stripe(shape_of(shelf), shelf->bytes, shelf->stripe);
        demand(checked.clean, "the library doesn't keep an updated stripe clean");
    }
}

/* Seconds a call, over so many calls; each is for the next cell. */
static double sample(const struct Shelf *shelf, Put *put, int calls)
{
    int p = shelf->array->p, cells = p * shelf->array->k;
    double start = now();
    for (int turn = 0; turn < calls; turn++) {
        int cell = turn % cells;
        put(shelf, cell % p, cell / p, new_cell(shelf, turn + 1));
    }
    return (now() - start) / calls;
}

static int calls_needed(const struct Shelf *shelf, Put *put)
{
    int calls = shelf->array->p * shelf->array->k;
    while (sample(shelf, put, calls) * calls < SAMPLE_SECONDS) {
        calls *= 2;
    }
    return calls;
}

static void print_row(const struct Shelf *shelf, int rounds)
{
    static double ratios[MOST_ROUNDS];
    double best_update = 1, best_encode = 1;
    int updates = calls_needed(shelf, update), encodings = calls_needed(shelf, encode_anew);
    for (int round = 0; round < rounds; round++) {
        double updating = sample(shelf, update, updates);
        double encoding = sample(shelf, encode_anew, encodings);
        best_update = updating < best_update ? updating : best_update;
        best_encode = encoding < best_encode ? encoding : best_encode;
        ratios[round] = encoding / updating;
    }
    printf("| %d | %zu | %.2f | %.2f | %.1f / %.1f |\n", shelf->array->p, shelf->s,
           1e6 * best_update, 1e6 * best_encode, best_encode / best_update,
           median(ratios, rounds));
}

void print_updates(int rounds)
{
    printf("### warm: a cell updated against its stripe encoded anew, k = p\n\n");
    printf("| p | s | update, us | anew, us | anew over update, best / median |\n"
           "|---|---|---|---|---|\n");
    for (size_t i = 0; i < sizeof WIDTHS / sizeof *WIDTHS; i++) {
        static struct Array array;
        open_array(&array, WIDTHS[i], WIDTHS[i]);
        for (int size = 0; size < SIZES; size++) {
            struct Shelf shelf;
            fprintf(stderr, "bench: updates, p = %d, s = %zu\n", WIDTHS[i], CELL_SIZES[size]);
            open_shelf(&shelf, &array, CELL_SIZES[size], 1);
            memcpy(shelf.copies, shelf.bytes, shelf.stripe);
            compare_updates(&shelf);
            print_row(&shelf, rounds);
            close_shelf(&shelf);
        }
        close_array(&array);
    }
    printf("\n");
}
