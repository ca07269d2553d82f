/* Runs the check of the processor over processors that lack one feature each, and over this one. Prints each check that
 * fails, and `ok` if none does. */
#include <cpuid.h>
#include <stdio.h>
#include <string.h>

/* What the processor answers: whether it has the leaves, and the register ECX of each. */
static unsigned has_leaf, ecx_1, ecx_extended;
static int is_asked;

static int answer(unsigned leaf, unsigned *a, unsigned *b, unsigned *c, unsigned *d) {
    is_asked = 1;
    *a = *b = *d = 0;
    *c = leaf == 1 ? ecx_1 : leaf == 0x80000001 ? ecx_extended : 0;
    return leaf == 1 ? has_leaf & 1 : has_leaf >> 1 & 1;
}

static int ask(unsigned leaf, unsigned *a, unsigned *b, unsigned *c, unsigned *d) { return __get_cpuid(leaf, a, b, c, d); }

#define __get_cpuid answer
#include "../include/processor.c"

static int errors;

static void expect(int holds, const char *name) {
    if (!holds) printf("%s\n", name), errors++;
}

static void set(unsigned leaves, unsigned first, unsigned second) {
    has_leaf = leaves;
    ecx_1 = first;
    ecx_extended = second;
    is_known = 0;
}

static void check(const char *name, unsigned leaves, unsigned first, unsigned second) {
    const char *error;
    set(leaves, first, second);
    error = sfv_processor_error();
    expect(error != NULL && strchr(error, '\n') == NULL && strstr(error, "x86-64-v2") != NULL, name);
}

int main(void) {
    /* The bits of Intel's manual: SSE3, SSSE3, CMPXCHG16B, SSE4.1, SSE4.2, POPCNT. */
    static const int bits[] = {0, 9, 13, 19, 20, 23};
    unsigned a, b, c, d, all = 0;
    size_t i;
    for (i = 0; i < sizeof bits / sizeof *bits; i++) all |= 1u << bits[i];
    set(3, all, 1);
    expect(sfv_processor_error() == NULL, "a processor with these features alone");
    set(3, ~0u, ~0u);
    expect(sfv_processor_error() == NULL, "a processor with all features");
    is_asked = 0;
    expect(sfv_processor_error() == NULL && !is_asked, "a processor is asked again");
    for (i = 0; i < sizeof bits / sizeof *bits; i++) check("without a feature", 3, ~(1u << bits[i]), ~0u);
    check("without LAHF", 3, ~0u, ~1u);
    check("without the first leaf", 2, ~0u, ~0u);
    check("without the second leaf", 1, ~0u, ~0u);
    if (ask(1, &a, &b, &c, &d)) ecx_1 = c;
    expect(!__builtin_cpu_supports("sse4.2") == !(ecx_1 >> 20 & 1), "this processor: SSE4.2");
    expect(!__builtin_cpu_supports("popcnt") == !(ecx_1 >> 23 & 1), "this processor: POPCNT");
    if (errors == 0) puts("ok");
    return errors != 0;
}
