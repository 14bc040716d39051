/* Memory between protected pages, lent so that it ends at the one or begins at the other. */

#include "boundary.h"

#include <stdio.h>
#include <stdlib.h>
#include <string.h>
#include <sys/mman.h>

#define PAGE ((size_t)4096)
#define ROOM (1026 * PAGE) /* the longest stripe has 1023 pages */
#define MARK 0xA5

struct lent new_lent(void)
{
    struct lent lent = {0};
    uint8_t *pages = mmap(NULL, ROOM + 2 * PAGE, PROT_NONE, MAP_PRIVATE | MAP_ANONYMOUS, -1, 0);
    lent.same = malloc(ROOM);
    if (pages == MAP_FAILED || !lent.same || mprotect(pages + PAGE, ROOM, PROT_READ | PROT_WRITE) != 0) {
        perror("boundary: no memory between protected pages; free some, or raise the limit of mapped memory");
        exit(2);
    }
    lent.low = pages + PAGE;
    lent.high = lent.low + ROOM;
    return lent;
}

/* The bytes beside the lent ones that are not protected. */
static uint8_t *beside(const struct lent *lent)
{
    bool at_end = lent->bytes + lent->length == lent->high;
    return at_end ? lent->bytes - GUARD : lent->bytes + lent->length;
}

/* Lends NULL for so many bytes. */
void lend_null(struct lent *lent, size_t length)
{
    lent->bytes = NULL;
    lent->length = length;
    lent->same_length = 0;
}

/* Lends so many bytes of random content. */
void lend_random(struct lent *lent, struct random *r, size_t length, bool at_end)
{
    lent->length = lent->same_length = length;
    lent->bytes = at_end ? lent->high - length : lent->low;
    fill(r, lent->bytes, length);
    memset(beside(lent), MARK, GUARD);
    memcpy(lent->same, lent->bytes, length);
}

/* Lends memory of the right length, mostly; where it is wrong, NULL now and then, and always where there is no room for
 * it. */
void lend(struct lent *lent, struct random *r, size_t right, bool at_end)
{
    size_t length = any_length(r, right);
    if (length > ROOM - GUARD || (length != right && once_in(r, 2)))
        lend_null(lent, length);
    else
        lend_random(lent, r, length, at_end);
}

/* Lends memory of this content. */
void lend_bytes(struct lent *lent, const uint8_t *bytes, size_t length, bool at_end)
{
    lent->length = lent->same_length = length;
    lent->bytes = at_end ? lent->high - length : lent->low;
    memset(beside(lent), MARK, GUARD);
    memcpy(lent->same, bytes, length);
    set_content(lent);
}

/* Copies the second implementation's content to the lent memory. */
void set_content(struct lent *lent)
{
    if (lent->bytes)
        memcpy(lent->bytes, lent->same, lent->length);
}

/* The lent memory is as the second implementation's, and nothing beside it was written. */
bool lent_agrees(const struct lent *lent)
{
    if (!lent->bytes)
        return true;
    const uint8_t *guard = beside(lent);
    for (size_t i = 0; i < GUARD; i++)
        if (guard[i] != MARK)
            return false;
    return memcmp(lent->bytes, lent->same, lent->length) == 0;
}
