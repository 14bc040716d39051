/* SPDX-License-Identifier: Apache-2.0 */
/* Encodes a stripe, loses one disk and then two, and rebuilds them. */

#include <cuzhaveli.h>
#include <stdio.h>
#include <stdlib.h>
#include <string.h>

/* Ends the program if a call was refused. */
static void must(const char *call, struct cuzhaveli_answer answer)
{
    if (answer.refusal != CUZHAVELI_OK) {
        fprintf(stderr, "%s refused by %u, place %u\n", call, answer.refusal, answer.place);
        exit(1);
    }
}

int main(void)
{
    struct cuzhaveli_shape shape = {7, 5, 512}; /* width, data disks, bytes of a cell */
    size_t stripe_len = CUZHAVELI_STRIPE_BYTES(shape), column_len = CUZHAVELI_COLUMN_BYTES(shape);
    uint8_t *stripe = malloc(stripe_len), *survivors = malloc(stripe_len), *column = malloc(column_len);
    uint8_t list[CUZHAVELI_LIST_BYTES(7, 5)];
    size_t lost = 2, read = 0;
    if (!stripe || !survivors || !column)
        return 1;

    /* Encode: the film first, then P and Q, which the call writes. */
    for (size_t i = 0; i < CUZHAVELI_DATA_BYTES(shape); i++)
        stripe[i] = (uint8_t)(i * 31 + i / 512);
    must("encode", cuzhaveli_encode_stripe(shape, stripe, stripe_len));
    printf("clean: %s\n", cuzhaveli_check_stripe(shape, stripe, stripe_len).clean ? "yes" : "no");

    /* One disk lost: read only the cells of the list; the rest may hold anything. */
    must("read list", cuzhaveli_read_list(shape.width, shape.disks, lost, list, sizeof list));
    memset(survivors, 0xEE, stripe_len);
    for (size_t cell = 0; cell < sizeof list; cell++) {
        if (list[cell]) {
            memcpy(survivors + cell * shape.cell_size, stripe + cell * shape.cell_size, shape.cell_size);
            read++;
        }
    }
    must("rebuild one", cuzhaveli_rebuild_one(shape, lost, survivors, stripe_len, column, column_len));
    printf("disk %zu rebuilt from %zu of %zu cells: %s\n", lost, read, sizeof list - shape.width,
           memcmp(column, stripe + lost * column_len, column_len) == 0 ? "the same" : "another");

    /* Two disks lost: all others are read. */
    memcpy(survivors, stripe, stripe_len);
    memset(survivors + 0 * column_len, 0xEE, column_len);
    memset(survivors + 5 * column_len, 0xEE, column_len); /* P, since there are 5 data disks */
    must("rebuild two", cuzhaveli_rebuild_two(shape, 0, 5, survivors, stripe_len));
    printf("disks 0 and 5 rebuilt: %s\n", memcmp(survivors, stripe, stripe_len) == 0 ? "the same" : "another");

    /* What is out of the limits is refused, and nothing is touched. */
    printf("disk 7 of 7: refused by %u\n", cuzhaveli_plan_disk(shape.width, shape.disks, 7).answer.refusal);
    free(stripe);
    free(survivors);
    free(column);
    return 0;
}
