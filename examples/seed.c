/* Usage: seed [getrandom|AT_RANDOM|both|neither]
 * With an argument, prints the seed that seed.c takes if there are these sources. Without one, runs itself in many processes
 * for each source, and checks their seeds. Prints each check that fails, and `ok` if none does. */
#define _GNU_SOURCE
#include <inttypes.h>
#include <stdio.h>
#include <stdlib.h>
#include <string.h>
#include <sys/auxv.h>
#include <sys/syscall.h>
#include <unistd.h>

uint64_t sfv_seed(void);

static int errors;

static void expect(int holds, const char *name) {
    if (!holds) printf("%s\n", name), errors++;
}

/* The source. While the first call of sfv_seed asks for a random number, `early` is the seed of a second call. */
static const char *source = "";
static uint64_t early;
static int asked;

static int has(const char *name) { return strcmp(source, name) == 0 || strcmp(source, "both") == 0; }

static long take_random(long number, void *to, size_t length, unsigned flags) {
    if (asked++ == 0) early = sfv_seed();
    expect(number == SYS_getrandom, "another system call");
    return has("getrandom") ? syscall(number, to, length, flags) : -1;
}

static unsigned long take_auxval(unsigned long type) { return has("AT_RANDOM") ? getauxval(type) : 0; }

/* Returns 1 if the seed has the kernel's random bytes. */
static int is_at_random(uint64_t seed) {
    uint64_t bytes;
    memcpy(&bytes, (const void *)getauxval(AT_RANDOM), sizeof bytes);
    return seed == (bytes | 1);
}

#define syscall take_random
#define getauxval take_auxval
#include "../include/seed.c"

/* Prints the seed. */
static int print_seed(void) {
    uint64_t seed = sfv_seed();
    expect(seed == early && seed == sfv_seed() && asked == 2, "another seed");
    expect(is_at_random(seed) == (strcmp(source, "AT_RANDOM") == 0), "another source");
    printf("%" PRIx64 "\n", seed);
    return errors != 0;
}

/* Returns the seed of a new process, or 0 if it prints none. */
static uint64_t seed_of(const char *program, const char *from) {
    char command[4096];
    uint64_t seed = 0;
    FILE *output;
    snprintf(command, sizeof command, "'%s' %s", program, from);
    output = popen(command, "r");
    if (!output || fscanf(output, "%" SCNx64, &seed) != 1 || pclose(output) != 0) return 0;
    return seed;
}

/* The lowest bit of each seed is 1. Each other bit is 0 in some process, and 1 in another. No two seeds are the same. */
static void check_random(const char *program, const char *from) {
    enum { PROCESSES = 64 };
    uint64_t seeds[PROCESSES], any = 0, all = UINT64_MAX;
    for (size_t i = 0; i < PROCESSES; i++) {
        seeds[i] = seed_of(program, from);
        any |= seeds[i];
        all &= seeds[i];
        for (size_t j = 0; j < i; j++) expect(seeds[i] != seeds[j], from);
    }
    expect(any == UINT64_MAX && all == 1, from);
}

int main(int count, char **arguments) {
    if (count > 1) {
        source = arguments[1];
        return print_seed();
    }
    check_random(arguments[0], "getrandom");
    check_random(arguments[0], "AT_RANDOM");
    check_random(arguments[0], "both");
    expect(seed_of(arguments[0], "neither") == 1, "neither");
    if (errors == 0) puts("ok");
    return errors != 0;
}
