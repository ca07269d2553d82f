/* The seed of sfv_canonical. getrandom(2) chooses it at the first call. If getrandom fails, the seed comes from the random
 * bytes that the kernel passes to each program. The system call is direct, because glibc has getrandom only since 2.25. */
#define _GNU_SOURCE
#include <stdint.h>
#include <string.h>
#include <sys/auxv.h>
#include <sys/syscall.h>
#include <unistd.h>

#ifndef SYS_getrandom
#define SYS_getrandom 318 /* of x86-64 */
#endif
#ifndef GRND_NONBLOCK
#define GRND_NONBLOCK 1u
#endif

uint64_t sfv_seed(void);

/* The seed, or 0 before the first call. */
static uint64_t chosen;

uint64_t sfv_seed(void) {
    uint64_t seed = __atomic_load_n(&chosen, __ATOMIC_RELAXED), none = 0;
    const void *start;
    if (seed != 0) return seed;
    if (syscall(SYS_getrandom, &seed, sizeof seed, GRND_NONBLOCK) != (long)sizeof seed) {
        start = (const void *)getauxval(AT_RANDOM);
        if (start != NULL) memcpy(&seed, start, sizeof seed);
    }
    seed |= 1;
    /* If another thread was first, its seed counts. */
    if (!__atomic_compare_exchange_n(&chosen, &none, seed, 0, __ATOMIC_RELAXED, __ATOMIC_RELAXED)) return none;
    return seed;
}
