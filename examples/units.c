/* A unit sealed, damaged, opened and played: docs/UNITS.md explains it.
 *
 * Eight stripes of an array of five data disks are encoded and put under checksums. Then two bytes change on one disk,
 * another disk cannot be read at all, and a player asks for film. */

#include <cuzhaveli.h>

#include <stdio.h>
#include <string.h>

enum { STRIPES = 8, PIECES = 35, BLOCK = 8 * PIECES + 8 };

static const struct cuzhaveli_shape shape = {5, 5, 512}; /* width p, data disks k, cell size s */
static const uint8_t name[CUZHAVELI_NAME_BYTES] = "chosen at random";
static uint8_t cells[PIECES * STRIPES * 512], was[sizeof cells], block[BLOCK], marks[PIECES], out[20];

static int said(const char *what, struct cuzhaveli_answer answer)
{
    printf("%s: %s\n", what, cuzhaveli_refusal_text(answer.refusal));
    return answer.refusal;
}

/* Film from byte 89,600 of the unit on: its last stripe begins there, on disk 0. */
static struct cuzhaveli_answer play(void)
{
    return cuzhaveli_film_bytes(shape, STRIPES, name, sizeof name, 7, block, BLOCK, cells, sizeof cells, 89600, out,
                                sizeof out);
}

int main(void)
{
    struct cuzhaveli_shape whole = {5, 5, STRIPES * 512}; /* a unit is encoded as one stripe of larger cells */
    size_t film = 25 * STRIPES * 512, lost = 3 * 5 * STRIPES * 512, disk = 5 * STRIPES * 512;
    for (size_t i = 0; i < film; i++)
        cells[i] = (uint8_t)(i * i >> 7);
    if (said("encode", cuzhaveli_encode_stripe(whole, cells, sizeof cells)) ||
        said("seal", cuzhaveli_seal_unit(shape, STRIPES, name, sizeof name, 7, cells, sizeof cells, block, BLOCK)))
        return 1;
    memcpy(was, cells, sizeof cells);
    said("play", play());
    uint8_t right[sizeof out];
    memcpy(right, out, sizeof out);

    cells[20] ^= 1; /* two bytes of disk 0 have changed, without an error */
    cells[4000] ^= 4;
    memset(cells + lost, 0xEE, disk); /* disk 3 cannot be read */
    memset(marks + 3 * 5, 1, 5);
    memset(out, 0, sizeof out);
    said("play, damaged", play());
    if (said("open", cuzhaveli_open_unit(shape, STRIPES, name, sizeof name, 7, block, BLOCK, marks, PIECES, cells,
                                         sizeof cells)))
        return 1;
    said("play, opened", play());
    printf("as sealed: %s\n", memcmp(cells, was, sizeof cells) || memcmp(out, right, sizeof out) ? "no" : "yes");

    memset(marks, 1, 3 * 5); /* three disks gone: more than the rest determines */
    said("open, three disks lost", cuzhaveli_open_unit(shape, STRIPES, name, sizeof name, 7, block, BLOCK, marks, PIECES,
                                                       cells, sizeof cells));
    block[3] ^= 1;
    said("play, another block", play());
    return 0;
}
