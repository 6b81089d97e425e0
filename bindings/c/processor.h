/* What a processor of the architecture x86-64 can do. It needs <stdbool.h> and <stdint.h>. A test that defines
 * PROCESSOR_IS_MADE_UP answers the two instructions itself. */
#ifndef DATA_URL_PROCESSOR_H
#define DATA_URL_PROCESSOR_H

struct registers {
    uint32_t a, b, c, d;
};

#ifdef PROCESSOR_IS_MADE_UP
static struct registers cpuid(uint32_t leaf);
static uint32_t saved(void);
#else
static inline struct registers cpuid(uint32_t leaf) {
    struct registers it;
    __asm__ volatile("cpuid" : "=a"(it.a), "=b"(it.b), "=c"(it.c), "=d"(it.d) : "a"(leaf), "c"(0));
    return it;
}

/* The registers that the system saves for each thread. */
static inline uint32_t saved(void) {
    uint32_t low, high;
    __asm__ volatile("xgetbv" : "=a"(low), "=d"(high) : "c"(0));
    return low;
}
#endif

static inline bool has(uint32_t word, uint32_t bits) { return (word & bits) == bits; }

/* Whether the processor has the instructions that compilers use for x86-64-v2 beyond those of every x86-64. */
static inline bool has_v2(void) {
    const uint32_t sse3 = 1u << 0, ssse3 = 1u << 9, sse4_1 = 1u << 19, sse4_2 = 1u << 20, popcnt = 1u << 23;
    return has(cpuid(1).c, sse3 | ssse3 | sse4_1 | sse4_2 | popcnt);
}

/* Whether the processor has what x86-64-v3 has beyond x86-64-v2, and the system saves its registers. */
static inline bool has_v3(void) {
    const uint32_t fma = 1u << 12, movbe = 1u << 22, osxsave = 1u << 27, avx = 1u << 28, f16c = 1u << 29;
    const uint32_t bmi1 = 1u << 3, avx2 = 1u << 5, bmi2 = 1u << 8, lzcnt = 1u << 5, sse_and_avx = 6;
    return cpuid(0).a >= 7 && cpuid(0x80000000).a >= 0x80000001 &&
           has(cpuid(1).c, fma | movbe | osxsave | avx | f16c) && has(cpuid(7).b, bmi1 | avx2 | bmi2) &&
           has(cpuid(0x80000001).c, lzcnt) && has(saved(), sse_and_avx);
}

#endif
