/* Tests the choice that scripts/dispatch/pick.c makes: x86-64-v3 is taken exactly where every feature of it
 * is there and the system saves the wide registers. Then prints the level of this processor.
 *
 * The bits stand here a second time, as numbers of Intel's manual, volume 2A, CPUID. Compiled with
 * an empty calls.h. */

#include "../../scripts/dispatch/pick.c"

#include <stdio.h>

enum word { LEAF_1_ECX, LEAF_7_EBX, EXTENDED_1_ECX, XCR0, WORDS };

static const struct feature {
    const char *name;
    enum word word;
    unsigned bit;
} FEATURES[] = {
    {"SSE3", LEAF_1_ECX, 0},         {"SSSE3", LEAF_1_ECX, 9},     {"CMPXCHG16B", LEAF_1_ECX, 13},
    {"SSE4.1", LEAF_1_ECX, 19},      {"SSE4.2", LEAF_1_ECX, 20},   {"POPCNT", LEAF_1_ECX, 23},
    {"LAHF", EXTENDED_1_ECX, 0},     {"FMA", LEAF_1_ECX, 12},      {"MOVBE", LEAF_1_ECX, 22},
    {"OSXSAVE", LEAF_1_ECX, 27},     {"AVX", LEAF_1_ECX, 28},      {"F16C", LEAF_1_ECX, 29},
    {"BMI1", LEAF_7_EBX, 3},         {"AVX2", LEAF_7_EBX, 5},      {"BMI2", LEAF_7_EBX, 8},
    {"LZCNT", EXTENDED_1_ECX, 5},    {"xmm saved", XCR0, 1},       {"ymm saved", XCR0, 2},
};
#define COUNT (sizeof FEATURES / sizeof *FEATURES)

static bool chosen(const unsigned words[WORDS])
{
    struct words has = {words[LEAF_1_ECX], words[LEAF_7_EBX], words[EXTENDED_1_ECX], words[XCR0]};
    return is_v3(has);
}

static bool fails(const char *what, const char *name)
{
    printf("dispatch: FAILED: %s%s\n", what, name);
    return true;
}

int main(void)
{
    unsigned all[WORDS] = {~0u, ~0u, ~0u, ~0u}, least[WORDS] = {0, 0, 0, 0};
    bool wrong = false;
    for (size_t i = 0; i < COUNT; i++) {
        all[FEATURES[i].word] &= ~(1u << FEATURES[i].bit);
        if (chosen(all))
            wrong = fails("x86-64-v3 is taken without ", FEATURES[i].name);
        all[FEATURES[i].word] |= 1u << FEATURES[i].bit;
        if (chosen(least))
            wrong = fails("x86-64-v3 is taken with no more than the features before ", FEATURES[i].name);
        least[FEATURES[i].word] |= 1u << FEATURES[i].bit;
    }
    if (!chosen(all) || !chosen(least))
        wrong = fails("x86-64-v3 is not taken where all its features are there", "");
    puts(is_v3(this_processor()) ? "x86-64-v3" : "x86-64");
    return wrong;
}
