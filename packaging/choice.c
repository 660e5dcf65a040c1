/* On x86-64 one archive holds the library three times, for x86-64, x86-64-v2 and x86-64-v3, each as Rattle proved and built
   it. This file gives every export a jump to one of the three, which `choose` takes once, when the program or the shared
   object is loaded, by what the processor and the system offer. Calls that come before, as from other constructors, run
   the code for every processor. No proof covers this file: scripts/dist-check tries it on each processor that QEMU has.

   names.h, which scripts/dist writes, has the exports: EACH(DO) is DO(bitm_version) and so on. */
#include <cpuid.h>

#include "names.h"

typedef void body(void);

#define DECLARED(name) \
    __attribute__((visibility("hidden"))) body name##_x86_64, name##_x86_64_v2, name##_x86_64_v3; \
    static body *name##_chosen __attribute__((used)) = name##_x86_64; \
    __attribute__((naked)) void name(void) { __asm__("jmp *" #name "_chosen(%rip)"); }
EACH(DECLARED)

/* The bits of CPUID that the levels need, as the System V ABI for x86-64 lists them. */
enum {
    V2_1C = bit_SSE3 | bit_SSSE3 | bit_CMPXCHG16B | bit_SSE4_1 | bit_SSE4_2 | bit_POPCNT,
    V2_EXTENDED_C = bit_LAHF_LM,
    V3_1C = bit_FMA | bit_MOVBE | bit_OSXSAVE | bit_AVX | bit_F16C,
    V3_7B = bit_BMI | bit_AVX2 | bit_BMI2,
    V3_EXTENDED_C = bit_LZCNT,
    SAVED = 6 /* of XCR0: the system keeps the registers of SSE and AVX */
};

static unsigned saved(void) {
    unsigned low, high;
    __asm__("xgetbv" : "=a"(low), "=d"(high) : "c"(0));
    return low;
}

/* 1, 2 or 3: the highest level that both the processor and the system offer. */
static int level(void) {
    unsigned a, b, c, d, c1, b7 = 0, extended = 0;
    if (!__get_cpuid(1, &a, &b, &c1, &d)) return 1;
    if (__get_cpuid_count(7, 0, &a, &b, &c, &d)) b7 = b;
    if (__get_cpuid(0x80000001, &a, &b, &c, &d)) extended = c;
    if ((c1 & V2_1C) != V2_1C || !(extended & V2_EXTENDED_C)) return 1;
    if ((c1 & V3_1C) != V3_1C || (b7 & V3_7B) != V3_7B || !(extended & V3_EXTENDED_C)) return 2;
    return (saved() & SAVED) == SAVED ? 3 : 2;
}

#define V2(name) name##_chosen = name##_x86_64_v2;
#define V3(name) name##_chosen = name##_x86_64_v3;

__attribute__((constructor)) static void choose(void) {
    int found = level();
    if (found == 2) {
        EACH(V2)
    } else if (found == 3) {
        EACH(V3)
    }
}
