/* Tells and draws where two stripes differ. */

#include "kit.h"

#include <string.h>

#define ROWS_AROUND 3
#define BYTES_SHOWN 16

void name_disk(FILE *out, const struct trial *t, size_t disk)
{
    fprintf(out, "disk %zu", disk);
    if (disk >= t->shape.disks)
        fputs(disk == t->shape.disks ? " (P)" : " (Q)", out);
}

static bool cell_differs(const struct trial *t, size_t cell)
{
    size_t s = t->shape.cell_size;
    return memcmp(t->wanted + cell * s, t->got + cell * s, s) != 0;
}

static char letter_of(const struct trial *t, size_t cell, size_t first)
{
    if (cell == first)
        return 'X';
    if (cell_differs(t, cell))
        return '#';
    return t->noise[cell] ? 'o' : '.';
}

/* The rows around the first cell that differs. */
static void draw_rows(FILE *out, const struct trial *t, size_t first)
{
    size_t p = t->shape.width, k = t->shape.disks, row = first % p;
    size_t from = row > ROWS_AROUND ? row - ROWS_AROUND : 0;
    fputs("\n\n       ", out);
    for (size_t c = 0; c < k; c++)
        fprintf(out, "%3zu", c);
    fputs("  P  Q\n", out);
    for (size_t i = from; i < p && i <= row + ROWS_AROUND; i++) {
        fprintf(out, "    %3zu", i);
        for (size_t c = 0; c < k + 2; c++)
            fprintf(out, "  %c", letter_of(t, CUZHAVELI_CELL(p, i, c), first));
        fputc('\n', out);
    }
    fputs("\n    X the first cell that differs   # differs too   o was noise and is right   . as it was\n", out);
}

static void show_bytes(FILE *out, const char *whose, const uint8_t *cell, size_t from, size_t to)
{
    fprintf(out, "    %-8s", whose);
    for (size_t i = from; i < to; i++)
        fprintf(out, " %02x", cell[i]);
    fputc('\n', out);
}

/* Tells the place by disk, row and byte, draws the cell, and shows its bytes. */
void draw_difference(FILE *out, const struct trial *t, size_t byte)
{
    size_t s = t->shape.cell_size, p = t->shape.width, cell = byte / s, within = byte % s;
    const uint8_t *wanted = t->wanted + cell * s, *got = t->got + cell * s;
    name_disk(out, t, cell / p);
    fprintf(out, ", row %zu, byte %zu is %02x and should be %02x", cell % p, within, got[within], wanted[within]);
    if (!t->noise[cell] && memcmp(t->wanted + cell * s, t->before + cell * s, s) == 0)
        fputs(", as it was", out);
    draw_rows(out, t, cell);
    size_t from = within > BYTES_SHOWN / 2 ? within - BYTES_SHOWN / 2 : 0;
    size_t to = from + BYTES_SHOWN < s ? from + BYTES_SHOWN : s;
    fprintf(out, "    bytes %zu to %zu of this cell:\n", from, to - 1);
    show_bytes(out, "right", wanted, from, to);
    show_bytes(out, "yours", got, from, to);
    if (t->explain)
        t->explain(out, t, cell);
}
