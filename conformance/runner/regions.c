/* Memory between protected pages, lent so that it ends at the one or begins at the other. */

#include "kit.h"

#include <string.h>
#include <sys/mman.h>

#define PAGE ((size_t)4096)
#define GUARD 64
#define MARK 0xA5

static struct region {
    uint8_t *low, *high; /* the first byte between protected pages, and the one after the last */
    uint8_t *lent;       /* NULL if nothing is lent */
    size_t length;
} regions[REGIONS];

static bool make_region(struct region *region, size_t room)
{
    room = (room + GUARD + PAGE - 1) / PAGE * PAGE;
    uint8_t *pages = mmap(NULL, room + 2 * PAGE, PROT_NONE, MAP_PRIVATE | MAP_ANONYMOUS, -1, 0);
    if (pages == MAP_FAILED || mprotect(pages + PAGE, room, PROT_READ | PROT_WRITE) != 0)
        return false;
    *region = (struct region){pages + PAGE, pages + PAGE + room, NULL, 0};
    return true;
}

bool make_regions(void)
{
    size_t cells = CUZHAVELI_MAX_WIDTH * (size_t)CUZHAVELI_MAX_CELL_SIZE;
    bool made = make_region(&regions[THE_STRIPE], MOST_DISKS * cells);
    made = made && make_region(&regions[THE_POINTERS], MOST_DISKS * sizeof(uint8_t *));
    size_t block = CUZHAVELI_BLOCK_BYTES(CUZHAVELI_MAX_WIDTH, CUZHAVELI_MAX_WIDTH);
    made = made && make_region(&regions[BESIDE], block) && make_region(&regions[THE_BLOCK], block);
    for (int disk = 0; disk < MOST_DISKS; disk++)
        made = made && make_region(&regions[THE_COLUMNS + disk], cells);
    return made;
}

/* The bytes beside the lent ones that are not protected. */
static uint8_t *beside(const struct region *region)
{
    bool at_end = region->lent + region->length == region->high;
    return at_end ? region->lent - GUARD : region->lent + region->length;
}

void *lend(int number, const void *content, size_t length, bool at_end)
{
    struct region *region = &regions[number];
    region->lent = at_end ? region->high - length : region->low;
    region->length = length;
    memset(beside(region), MARK, GUARD);
    if (length > 0)
        memcpy(region->lent, content, length);
    return region->lent;
}

/* What is lent is given back. */
void forget_lent(void)
{
    for (int i = 0; i < REGIONS; i++)
        regions[i].lent = NULL;
}

static void name_region(FILE *out, int number)
{
    if (number >= THE_COLUMNS)
        fprintf(out, "the column of disk %d", number - THE_COLUMNS);
    else if (number == BESIDE)
        fputs("what was lent beside the stripe", out);
    else if (number == THE_BLOCK)
        fputs("the checksum block", out);
    else
        fputs(number == THE_STRIPE ? "the stripe" : "the pointers", out);
}

static void name_place(FILE *out, int number, const uint8_t *address)
{
    const struct region *region = &regions[number];
    if (address < region->lent)
        fprintf(out, "%td bytes before ", region->lent - address);
    else
        fprintf(out, "byte %td of the %zu bytes of ", address - region->lent, region->length);
    name_region(out, number);
}

/* Tells where a touched address lies; false if it is not near lent memory. */
bool describe_address(FILE *out, const void *address)
{
    const uint8_t *touched = address;
    for (int i = 0; i < REGIONS; i++) {
        const struct region *region = &regions[i];
        if (region->lent && touched >= region->low - PAGE && touched < region->high + PAGE) {
            name_place(out, i, touched);
            return true;
        }
    }
    return false;
}

/* Tells of bytes beside lent memory that were written; false if none were. */
bool describe_written(FILE *out)
{
    for (int i = 0; i < REGIONS; i++) {
        if (!regions[i].lent)
            continue;
        const uint8_t *guard = beside(&regions[i]);
        for (size_t n = 0; n < GUARD; n++) {
            if (guard[n] != MARK) {
                fputs("wrote ", out);
                name_place(out, i, guard + n);
                return true;
            }
        }
    }
    return false;
}
