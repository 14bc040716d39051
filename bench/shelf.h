/* Stripes of one array and cell size, and the memory that the contestants use. */

#ifndef SHELF_H
#define SHELF_H

#include "array.h"

struct Shelf {
    const struct Array *array;
    size_t s;           /* bytes of a cell */
    size_t column;      /* bytes of a disk's part of a stripe */
    size_t stripe;      /* bytes of a stripe */
    size_t stripes;     /* how many there are */
    uint8_t *bytes;     /* the stripes, one after the other, P and Q ours */
    uint8_t *isal;      /* ISA-L's P and Q of each stripe: another code */
    uint8_t *columns;   /* a rebuilt column for each stripe */
    uint8_t *copies;    /* where memcpy copies to */
    uint8_t *spare;     /* P and Q of Jerasure's check, the same for all stripes */
};

size_t stripe_bytes(const struct Array *array, size_t s);

/* Lends memory and fills the data with random bytes. */
void open_shelf(struct Shelf *shelf, const struct Array *array, size_t s, size_t stripes);
void close_shelf(struct Shelf *shelf);

uint8_t *stripe_at(const struct Shelf *shelf, size_t number);
uint8_t *disk_at(const struct Shelf *shelf, size_t number, int disk);
uint8_t *isal_at(const struct Shelf *shelf, size_t number);
uint8_t *column_at(const struct Shelf *shelf, size_t number);

#endif
