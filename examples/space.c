/* SPDX-License-Identifier: Apache-2.0 */
/* The ingest check: does a package fit? Every file starts on a stripe of its own, so 300 small subtitle images beside one
 * feature take far more than their bytes. */

#include <cuzhaveli.h>
#include <inttypes.h>
#include <stdio.h>

#define IMAGES 300

static void say(const char *what, struct cuzhaveli_shape shape, const uint64_t *lengths, size_t files, uint64_t free_bytes)
{
    struct cuzhaveli_space space = cuzhaveli_package_space(shape, lengths, files, free_bytes);
    if (space.answer.refusal == CUZHAVELI_TOO_MANY_FILES)
        printf("%s: refused, more than %d files\n", what, CUZHAVELI_MAX_FILES);
    else if (space.answer.refusal != CUZHAVELI_OK)
        printf("%s: refused, %u\n", what, space.answer.refusal);
    else
        printf("%s: %" PRIu64 " stripes, %" PRIu64 " bytes of each disk: %s\n", what, space.stripes, space.bytes,
               space.fits ? "fits" : "does not fit");
}

int main(void)
{
    struct cuzhaveli_shape shape = {7, 5, 4096};
    uint64_t free_bytes = 36004000000u; /* of each disk */
    uint64_t lengths[1 + IMAGES] = {180000000000u}, images = 0;
    for (int i = 1; i <= IMAGES; i++) {
        lengths[i] = 2000 + (uint64_t)i * 617 % 3000;
        images += lengths[i];
    }
    uint64_t whole = lengths[0] + images;

    printf("a stripe holds %zu bytes; %d images have %" PRIu64 " bytes together\n", CUZHAVELI_DATA_BYTES(shape), IMAGES, images);
    say("feature", shape, lengths, 1, free_bytes);
    say("images", shape, lengths + 1, IMAGES, free_bytes);
    say("images in one file", shape, &images, 1, free_bytes);
    say("feature and images", shape, lengths, 1 + IMAGES, free_bytes);
    say("feature and images in one file", shape, &whole, 1, free_bytes);
    say("no file", shape, NULL, 0, 0);
    say("4097 files", shape, NULL, 4097, free_bytes);
    return 0;
}
