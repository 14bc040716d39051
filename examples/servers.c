/* SPDX-License-Identifier: Apache-2.0 */
/* Three servers and a parity server: one is lost whole, another has two disks lost, and all come back. */

#include <cuzhaveli.h>
#include <stdio.h>
#include <stdlib.h>
#include <string.h>

#define SERVERS 3

static const struct cuzhaveli_shape shape = {7, 5, 512}; /* width, data disks, bytes of a cell */

/* Ends the program if a call was refused. */
static void must(const char *call, struct cuzhaveli_answer answer)
{
    if (answer.refusal != CUZHAVELI_OK) {
        fprintf(stderr, "%s refused by %u\n", call, answer.refusal);
        exit(1);
    }
}

/* The stripe of a server, and a disk's part of it. */
static uint8_t *server(uint8_t *stripes, size_t i)
{
    return stripes + i * CUZHAVELI_STRIPE_BYTES(shape);
}

static void lose(uint8_t *stripe, size_t disk)
{
    memset(stripe + disk * CUZHAVELI_COLUMN_BYTES(shape), 0xEE, CUZHAVELI_COLUMN_BYTES(shape));
}

int main(void)
{
    size_t stripe_len = CUZHAVELI_STRIPE_BYTES(shape), len = CUZHAVELI_SERVERS_BYTES(shape, SERVERS);
    uint8_t *stripes = malloc(len), *before = malloc(len), losses[CUZHAVELI_LOSSES_BYTES(SERVERS)];
    if (!stripes || !before)
        return 1;

    /* Every server encodes its own stripe; the parity server's, number 3, is the XOR of theirs. */
    for (size_t i = 0; i < SERVERS; i++) {
        for (size_t byte = 0; byte < CUZHAVELI_DATA_BYTES(shape); byte++)
            server(stripes, i)[byte] = (uint8_t)(byte * 31 + byte / 512 + i * 7);
        must("encode", cuzhaveli_encode_stripe(shape, server(stripes, i), stripe_len));
    }
    must("write", cuzhaveli_write_server(shape, SERVERS, stripes, len));
    printf("the parity server's stripe is clean: %s\n",
           cuzhaveli_check_stripe(shape, server(stripes, SERVERS), stripe_len).clean ? "yes" : "no");
    memcpy(before, stripes, len);

    /* Server 1 is lost whole; server 2 has lost disks 0 and 6, which is Q. */
    memset(server(stripes, 1), 0xEE, stripe_len);
    lose(server(stripes, 2), 0);
    lose(server(stripes, 2), 6);
    memset(losses, CUZHAVELI_NO_LOSS, sizeof losses);
    losses[2 * 2] = 0;
    losses[2 * 2 + 1] = 6;
    must("rebuild", cuzhaveli_rebuild_server(shape, SERVERS, 1, stripes, len, losses, sizeof losses));
    printf("server 1 rebuilt, disks 0 and 6 of server 2 mended: %s\n",
           memcmp(stripes, before, len) == 0 ? "all as before" : "something differs");

    /* Losses are tested before anything is written. */
    losses[2 * 3] = 7;
    printf("disk 7 of 7 at the parity server: refused by %u\n",
           cuzhaveli_rebuild_server(shape, SERVERS, 1, stripes, len, losses, sizeof losses).refusal);
    free(stripes);
    free(before);
    return 0;
}
