/* SPDX-License-Identifier: Apache-2.0 */
/* A run: the rebuild of one disk over many stripes, one of them free, with its record kept in a file and its bill. */

#include <cuzhaveli.h>
#include <inttypes.h>
#include <stdio.h>
#include <stdlib.h>
#include <string.h>

#define STRIPES 6

/* The film of stripe number n; stripe 3 holds none. */
static void fill(struct cuzhaveli_shape shape, uint8_t *stripe, uint32_t n)
{
    for (size_t i = 0; i < CUZHAVELI_DATA_BYTES(shape); i++)
        stripe[i] = n == 3 ? 0 : (uint8_t)(i * 7 + n);
    if (cuzhaveli_encode_stripe(shape, stripe, CUZHAVELI_STRIPE_BYTES(shape)).refusal != CUZHAVELI_OK)
        exit(1);
}

/* The record as text, and back: numbers field by field, never the struct's bytes. */
static struct cuzhaveli_run through_text(struct cuzhaveli_run run)
{
    struct cuzhaveli_run again;
    char text[200];
    snprintf(text, sizeof text, "run 1 %zu %zu %zu %zu %" PRIu32 " %" PRIu32 " %" PRIu32, run.shape.width, run.shape.disks,
             run.shape.cell_size, run.lost, run.stripes, run.next, run.skipped);
    printf("record: %s\n", text);
    if (sscanf(text, "run 1 %zu %zu %zu %zu %" SCNu32 " %" SCNu32 " %" SCNu32, &again.shape.width, &again.shape.disks,
               &again.shape.cell_size, &again.lost, &again.stripes, &again.next, &again.skipped) != 7)
        exit(1);
    return again;
}

int main(void)
{
    struct cuzhaveli_shape shape = {5, 5, 4096};
    uint8_t *stripe = malloc(CUZHAVELI_STRIPE_BYTES(shape)), *column = malloc(CUZHAVELI_COLUMN_BYTES(shape));
    uint64_t length = 600000; /* one file; examples/space.c has many */
    struct cuzhaveli_space space = cuzhaveli_package_space(shape, &length, 1, 200000);
    struct cuzhaveli_run_answer opened = cuzhaveli_open_run(shape, 1, STRIPES);
    struct cuzhaveli_run run = opened.run;
    if (!stripe || !column || space.answer.refusal != CUZHAVELI_OK || opened.answer.refusal != CUZHAVELI_OK)
        return 1;
    printf("600000 bytes take %" PRIu64 " stripes, %" PRIu64 " bytes of each disk: %s\n", space.stripes, space.bytes,
           space.fits ? "fits" : "does not fit");

    while (!cuzhaveli_run_progress(&run).over) {
        struct cuzhaveli_answer answer;
        uint32_t n = run.next;
        if (n == 3) {
            answer = cuzhaveli_skip_stripe(&run, n);
            run = through_text(run); /* as after a restart */
        } else {
            fill(shape, stripe, n);
            memset(stripe + 1 * CUZHAVELI_COLUMN_BYTES(shape), 0xEE, CUZHAVELI_COLUMN_BYTES(shape)); /* lost */
            answer = cuzhaveli_step_run(&run, n, stripe, CUZHAVELI_STRIPE_BYTES(shape), column, CUZHAVELI_COLUMN_BYTES(shape));
        }
        if (answer.refusal != CUZHAVELI_OK)
            return 1;
        if (n != 3)
            printf("stripe %" PRIu32 " rebuilt, first byte %u\n", n, column[0]);
    }
    printf("over: %" PRIu32 " stripes, %" PRIu32 " skipped, %" PRIu64 " cells read\n", run.next, run.skipped,
           cuzhaveli_run_progress(&run).cells);
    struct cuzhaveli_bill bill = cuzhaveli_bill_run(run, 1000, 500, 100);
    printf("bill at 1000 cents a GiB: %" PRIu64 " bytes, %" PRIu64 " cents\n", bill.first, bill.cents);
    free(stripe);
    free(column);
    return 0;
}
