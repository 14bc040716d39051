#include "shelf.h"

#include <stdlib.h>
#include <string.h>

size_t stripe_bytes(const struct Array *array, size_t s)
{
    return (array->k + 2) * array->p * s;
}

static uint8_t *lend(size_t length)
{
    void *bytes = NULL;
    demand(posix_memalign(&bytes, 4096, length) == 0, "no memory");
    memset(bytes, 1, length);
    return bytes;
}

static void fill(uint8_t *bytes, size_t length)
{
    static uint64_t state = 20000831;
    for (size_t i = 0; i < length; i++) {
        state ^= state >> 12;
        state ^= state << 25;
        state ^= state >> 27;
        bytes[i] = (uint8_t)(state * 0x2545F4914F6CDD1DULL >> 56);
    }
}

void open_shelf(struct Shelf *shelf, const struct Array *array, size_t s, size_t stripes)
{
    shelf->array = array;
    shelf->s = s;
    shelf->column = array->p * s;
    shelf->stripe = stripe_bytes(array, s);
    shelf->stripes = stripes;
    shelf->bytes = lend(stripes * shelf->stripe);
    shelf->isal = lend(stripes * 2 * shelf->column);
    shelf->columns = lend(stripes * shelf->column);
    shelf->copies = lend(stripes * shelf->stripe);
    shelf->spare = lend(2 * shelf->column);
    fill(shelf->bytes, stripes * shelf->stripe);
}

void close_shelf(struct Shelf *shelf)
{
    free(shelf->spare);
    free(shelf->copies);
    free(shelf->columns);
    free(shelf->isal);
    free(shelf->bytes);
}

uint8_t *stripe_at(const struct Shelf *shelf, size_t number)
{
    return shelf->bytes + number * shelf->stripe;
}

uint8_t *disk_at(const struct Shelf *shelf, size_t number, int disk)
{
    return stripe_at(shelf, number) + disk * shelf->column;
}

uint8_t *isal_at(const struct Shelf *shelf, size_t number)
{
    return shelf->isal + number * 2 * shelf->column;
}

uint8_t *column_at(const struct Shelf *shelf, size_t number)
{
    return shelf->columns + number * shelf->column;
}
