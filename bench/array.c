#include "array.h"

#include "cuzhaveli.h"

#include <jerasure.h>
#include <liberation.h>
#include <stdio.h>
#include <stdlib.h>
#include <string.h>

void demand(int holds, const char *what)
{
    if (!holds) {
        fprintf(stderr, "bench: %s\n", what);
        exit(1);
    }
}

static void *room(size_t count, size_t size)
{
    void *memory = calloc(count, size);
    demand(memory != NULL, "no memory");
    return memory;
}

/* Jerasure's schedule for the lost disks, from its own decoding matrix: what
   jerasure_schedule_decode_cache keeps, without its search on each call. */
static void schedule_loss(const struct Array *array, int *bitmatrix, struct Loss *loss)
{
    int p = array->p, k = array->k;
    size_t disk_rows = (size_t)p * k * p;
    int erased[MOST_DISKS + 2] = { 0 };
    for (int i = 0; i < loss->count; i++) {
        erased[loss->disks[i]] = 1;
    }
    int *matrix = room(k * disk_rows, sizeof(int));
    int *rows = room(loss->count * disk_rows, sizeof(int));
    int failed = jerasure_make_decoding_bitmatrix(k, 2, p, bitmatrix, erased, matrix,
                                                  loss->sources);
    demand(failed == 0, "Jerasure has no decoding matrix");
    for (int i = 0; i < loss->count; i++) {
        memcpy(rows + i * disk_rows, matrix + loss->disks[i] * disk_rows,
               disk_rows * sizeof(int));
    }
    loss->schedule = jerasure_smart_bitmatrix_to_schedule(k, loss->count, p, rows);
    free(rows);
    free(matrix);
}

static void lose_nothing(struct Losses *losses)
{
    losses->count = 1;
    losses->all = room(1, sizeof *losses->all);
}

/* Each data disk. */
static void lose_one(const struct Array *array, int *bitmatrix, struct Losses *losses)
{
    losses->count = array->k;
    losses->all = room(array->k, sizeof *losses->all);
    for (int disk = 0; disk < array->k; disk++) {
        struct Loss *loss = &losses->all[disk];
        loss->count = 1;
        loss->disks[0] = disk;
        schedule_loss(array, bitmatrix, loss);
    }
}

/* Every pair of data disks of a small array, each seventh of a larger one. */
static void lose_two(const struct Array *array, int *bitmatrix, struct Losses *losses)
{
    int k = array->k, every = k <= 7 ? 1 : 7, pair = 0;
    losses->all = room(k * (k - 1) / 2, sizeof *losses->all);
    losses->count = 0;
    for (int first = 0; first < k; first++) {
        for (int second = first + 1; second < k; second++) {
            if (pair++ % every != 0) {
                continue;
            }
            struct Loss *loss = &losses->all[losses->count++];
            loss->count = 2;
            loss->disks[0] = first;
            loss->disks[1] = second;
            schedule_loss(array, bitmatrix, loss);
        }
    }
}

/* The cells that our plans read, over all data disks. */
static double cells_of_plans(const struct Array *array)
{
    double cells = 0;
    for (int disk = 0; disk < array->k; disk++) {
        struct cuzhaveli_plan plan = cuzhaveli_plan_disk(array->p, array->k, disk);
        demand(plan.answer.refusal == 0, "the library refuses to plan");
        cells += plan.reads;
    }
    return cells / array->k;
}

void open_array(struct Array *array, int p, int k)
{
    array->p = p;
    array->k = k;
    int *bitmatrix = liberation_coding_bitmatrix(k, p);
    demand(bitmatrix != NULL, "Jerasure has no such code");
    array->encoding = jerasure_smart_bitmatrix_to_schedule(k, 2, p, bitmatrix);
    lose_nothing(&array->losses[ENCODE]);
    lose_nothing(&array->losses[CHECK]);
    lose_one(array, bitmatrix, &array->losses[REBUILD_ONE]);
    lose_two(array, bitmatrix, &array->losses[REBUILD_TWO]);
    free(bitmatrix);
    array->cells[ENCODE] = k * p;
    array->cells[CHECK] = (k + 2) * p;
    array->cells[REBUILD_ONE] = cells_of_plans(array);
    array->cells[REBUILD_TWO] = k * p;
}

void close_array(struct Array *array)
{
    for (int operation = 0; operation < OPERATIONS; operation++) {
        struct Losses *losses = &array->losses[operation];
        for (int i = 0; i < losses->count; i++) {
            if (losses->all[i].schedule != NULL) {
                jerasure_free_schedule(losses->all[i].schedule);
            }
        }
        free(losses->all);
    }
    jerasure_free_schedule(array->encoding);
}
