/* SPDX-License-Identifier: Apache-2.0 */
/* Chooses between the two compilations of each call, x86-64 and x86-64-v3, when a program is loaded.
 * fast.sh compiles this file once for each member of the archive, whose calls stand in calls.h as
 * PICK(name).
 *
 * The loader runs a resolver before the program is relocated and has a stack protector. So a
 * resolver calls nothing outside this file, keeps no state, and is compiled without
 * instrumentation. */

#include "cuzhaveli.h"

#include <cpuid.h>

/* What the processor says of itself, and of which registers the system says that it saves them. */
struct words {
    unsigned leaf_1_ecx, leaf_7_ebx, extended_1_ecx, xcr0;
};

/* All that a compiler may use for x86-64-v3, that of v2 included, as the psABI lists it. Each is
 * asked for: code for a processor with LZCNT runs without it, too, but as BSR, which gives other
 * numbers. */
static const struct words NEEDED = {
    .leaf_1_ecx = bit_SSE3 | bit_SSSE3 | bit_SSE4_1 | bit_SSE4_2 | bit_CMPXCHG16B | bit_POPCNT | bit_FMA | bit_MOVBE |
                  bit_OSXSAVE | bit_AVX | bit_F16C,
    .leaf_7_ebx = bit_BMI | bit_AVX2 | bit_BMI2,
    .extended_1_ecx = bit_LAHF_LM | bit_ABM, /* ABM is LZCNT */
    .xcr0 = 1 << 1 | 1 << 2,                 /* the xmm registers, and the upper halves of the ymm registers */
};

static inline bool is_v3(struct words has)
{
    return (has.leaf_1_ecx & NEEDED.leaf_1_ecx) == NEEDED.leaf_1_ecx &&
           (has.leaf_7_ebx & NEEDED.leaf_7_ebx) == NEEDED.leaf_7_ebx &&
           (has.extended_1_ecx & NEEDED.extended_1_ecx) == NEEDED.extended_1_ecx &&
           (has.xcr0 & NEEDED.xcr0) == NEEDED.xcr0;
}

/* Nothing where leaf 7 is unknown: it tells of AVX2. The extended leaf is there on every x86-64: it
 * tells of that. */
static inline struct words this_processor(void)
{
    struct words has = {0, 0, 0, 0};
    unsigned eax, ebx, ecx, edx;
    if (__get_cpuid_max(0, 0) < 7)
        return has;
    __cpuid(1, eax, ebx, has.leaf_1_ecx, edx);
    __cpuid_count(7, 0, eax, has.leaf_7_ebx, ecx, edx);
    __cpuid(0x80000001, eax, ebx, has.extended_1_ecx, edx);
    if (has.leaf_1_ecx & bit_OSXSAVE) /* else xgetbv is no instruction */
        __asm__("xgetbv" : "=a"(has.xcr0), "=d"(edx) : "c"(0));
    return has;
}

/* Tests define it as 0 or 1, so that one level is taken. */
#ifndef TAKES_V3
#define TAKES_V3 is_v3(this_processor())
#endif

#define PICK(call)                                                                                                     \
    extern __attribute__((visibility("hidden"))) __typeof__(call) call##_x86_64, call##_x86_64_v3;                     \
    static __attribute__((used)) __typeof__(call) *pick_##call(void)                                                   \
    {                                                                                                                  \
        return TAKES_V3 ? call##_x86_64_v3 : call##_x86_64;                                                            \
    }                                                                                                                  \
    __typeof__(call) call __attribute__((ifunc("pick_" #call)));
#include "calls.h"
