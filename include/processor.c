/* Whether the processor has what the library's code needs. This file is compiled for every x86-64 processor, and asks it
 * once: where a system runs in another, the instruction takes long. */
#include <cpuid.h>
#include <stddef.h>

const char *sfv_processor_error(void);

/* The features of x86-64-v2 beyond x86-64: bits of ECX of the leaf 1, and of the leaf 0x80000001. */
enum { SSE3 = 1 << 0, SSSE3 = 1 << 9, CMPXCHG16B = 1 << 13, SSE4_1 = 1 << 19, SSE4_2 = 1 << 20, POPCNT = 1 << 23 };
enum { LAHF_SAHF = 1 << 0 };

static int has(unsigned leaf, unsigned features) {
    unsigned a, b, c, d;
    return __get_cpuid(leaf, &a, &b, &c, &d) && (c & features) == features;
}

/* Whether the processor is known to have all. */
static int is_known;

const char *sfv_processor_error(void) {
    if (__atomic_load_n(&is_known, __ATOMIC_RELAXED)) return NULL;
    if (has(1, SSE3 | SSSE3 | CMPXCHG16B | SSE4_1 | SSE4_2 | POPCNT) && has(0x80000001, LAHF_SAHF)) {
        __atomic_store_n(&is_known, 1, __ATOMIC_RELAXED);
        return NULL;
    }
    return "libsfv needs an x86-64-v2 processor (SSE4.2, POPCNT)";
}
