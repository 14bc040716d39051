/* SPDX-License-Identifier: Apache-2.0 */
/* Loses a disk and rebuilds it by the balanced plan, then a disk and bad cells of two others, and mends them. */

#include <cuzhaveli.h>
#include <stdio.h>
#include <stdlib.h>
#include <string.h>

static const struct cuzhaveli_shape shape = {7, 7, 512}; /* width, data disks, bytes of a cell */
enum { CELLS = 7 * 9, LOST = 2 };

/* Ends the program if a call was refused. */
static void must(const char *call, struct cuzhaveli_answer answer)
{
    if (answer.refusal != CUZHAVELI_OK) {
        fprintf(stderr, "%s refused by %u, place %u\n", call, answer.refusal, answer.place);
        exit(1);
    }
}

/* Marks the cells that a plan reads, and says how many the busiest disk gives. */
static size_t list_of(struct cuzhaveli_plan plan, uint8_t *list)
{
    uint8_t bytes[CUZHAVELI_PLAN_BYTES(7)];
    size_t busiest = 0;
    must("plan", plan.answer);
    cuzhaveli_plan_bytes(&plan, shape.width, bytes);
    must("list", cuzhaveli_plan_list(shape.width, shape.disks, LOST, bytes, sizeof bytes, list, CELLS));
    for (size_t disk = 0; disk < shape.disks + 2; disk++) {
        size_t share = 0;
        for (size_t row = 0; row < shape.width; row++)
            share += list[CUZHAVELI_CELL(shape.width, row, disk)];
        busiest = share > busiest ? share : busiest;
    }
    return busiest;
}

/* Copies the marked cells of a stripe, or those that are not marked; the others may hold anything. */
static void read_cells(const uint8_t *stripe, const uint8_t *marks, int marked, uint8_t *to)
{
    memset(to, 0xEE, CUZHAVELI_STRIPE_BYTES(shape));
    for (size_t cell = 0; cell < CELLS; cell++)
        if ((marks[cell] != 0) == marked)
            memcpy(to + cell * shape.cell_size, stripe + cell * shape.cell_size, shape.cell_size);
}

/* By the balanced plan, which reads as few cells as ours and less of the disk that gives most. */
static void rebuild_balanced(const uint8_t *stripe, uint8_t *survivors, uint8_t *column)
{
    size_t stripe_len = CUZHAVELI_STRIPE_BYTES(shape), column_len = CUZHAVELI_COLUMN_BYTES(shape);
    struct cuzhaveli_plan ours = cuzhaveli_plan_disk(shape.width, shape.disks, LOST);
    struct cuzhaveli_plan balanced = cuzhaveli_balanced_plan(shape.width, shape.disks, LOST);
    uint8_t list[CELLS];
    size_t busiest = list_of(ours, list);
    printf("our plan reads %u cells, %zu of one disk; ", ours.reads, busiest);
    busiest = list_of(balanced, list);
    printf("the balanced one %u, %zu of one disk\n", balanced.reads, busiest);
    read_cells(stripe, list, 1, survivors);
    must("rebuild", cuzhaveli_rebuild_balanced(shape, LOST, survivors, stripe_len, column, column_len));
    printf("disk %d rebuilt from them: %s\n", LOST,
           memcmp(column, stripe + LOST * column_len, column_len) == 0 ? "the same" : "another");
}

/* A disk is lost, and a cell of disk 4 and one of Q, which is disk 8, cannot be read. */
static void mend_cells(const uint8_t *stripe, uint8_t *survivors)
{
    size_t stripe_len = CUZHAVELI_STRIPE_BYTES(shape);
    uint8_t missing[CELLS] = {0};
    memset(missing + CUZHAVELI_CELL(shape.width, 0, LOST), 1, shape.width);
    missing[CUZHAVELI_CELL(shape.width, 3, 4)] = missing[CUZHAVELI_CELL(shape.width, 5, 8)] = 1;
    read_cells(stripe, missing, 0, survivors);
    must("mend", cuzhaveli_rebuild_cells(shape, missing, sizeof missing, survivors, stripe_len));
    printf("a disk and two cells mended: %s\n", memcmp(survivors, stripe, stripe_len) == 0 ? "the same" : "another");

    /* With disk 4 lost whole, two disks and a cell are missing: the others do not determine them. */
    memset(missing + CUZHAVELI_CELL(shape.width, 0, 4), 1, shape.width);
    printf("two disks and a cell: refused by %u\n",
           cuzhaveli_rebuild_cells(shape, missing, sizeof missing, survivors, stripe_len).refusal);
}

int main(void)
{
    size_t stripe_len = CUZHAVELI_STRIPE_BYTES(shape);
    uint8_t *stripe = malloc(stripe_len), *survivors = malloc(stripe_len);
    uint8_t *column = malloc(CUZHAVELI_COLUMN_BYTES(shape));
    if (!stripe || !survivors || !column)
        return 1;
    for (size_t i = 0; i < CUZHAVELI_DATA_BYTES(shape); i++)
        stripe[i] = (uint8_t)(i * 31 + i / 512);
    must("encode", cuzhaveli_encode_stripe(shape, stripe, stripe_len));
    rebuild_balanced(stripe, survivors, column);
    mend_cells(stripe, survivors);
    free(stripe);
    free(survivors);
    free(column);
    return 0;
}
