/* Random numbers: the same for one seed and one name. */

#include "kit.h"

#include <string.h>

struct random random_of(uint64_t seed, const char *name)
{
    uint64_t state = seed ^ 0xCBF29CE484222325u;
    for (; *name; name++)
        state = (state ^ (uint8_t)*name) * 0x100000001B3u;
    return (struct random){state};
}

uint64_t next_number(struct random *random)
{
    uint64_t z = random->state += 0x9E3779B97F4A7C15u;
    z = (z ^ z >> 30) * 0xBF58476D1CE4E5B9u;
    z = (z ^ z >> 27) * 0x94D049BB133111EBu;
    return z ^ z >> 31;
}

size_t below(struct random *random, size_t limit)
{
    return (size_t)(next_number(random) % limit);
}

bool once_in(struct random *random, size_t times)
{
    return below(random, times) == 0;
}

void fill(struct random *random, uint8_t *bytes, size_t length)
{
    for (; length > 0;) {
        uint64_t number = next_number(random);
        size_t part = length < sizeof number ? length : sizeof number;
        memcpy(bytes, &number, part);
        bytes += part;
        length -= part;
    }
}
