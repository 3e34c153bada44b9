/*
 * Checks that are counted, and a small random number generator.
 */
#ifndef CHECK_H
#define CHECK_H

#include <stdint.h>
#include <stdio.h>
#include <stdlib.h>

static unsigned long checks, failures;

static void check(int holds, const char *what, int line)
{
    checks++;
    if (!holds) {
        failures++;
        if (failures <= 20)
            printf("FAILED, line %d: %s\n", line, what);
    }
}

#define CHECK(condition) check(condition, #condition, __LINE__)

#define LENGTH(array) (sizeof(array) / sizeof(array)[0])

/* The last line of a test, and its exit status. */
static int verdict(void)
{
    if (failures > 0) {
        printf("%lu of %lu checks failed\n", failures, checks);
        return 1;
    }
    printf("%lu checks, no fault\n", checks);
    return 0;
}

/* splitmix64 */
static uint64_t random_state;

static inline uint64_t bits(void)
{
    uint64_t z = random_state += UINT64_C(0x9E3779B97F4A7C15);
    z = (z ^ (z >> 30)) * UINT64_C(0xBF58476D1CE4E5B9);
    z = (z ^ (z >> 27)) * UINT64_C(0x94D049BB133111EB);
    return z ^ (z >> 31);
}

/* A number from low to high, both included. */
static inline unsigned between(unsigned low, unsigned high)
{
    return low + (unsigned)(bits() % (high - low + 1));
}

/* The ranks of so many sessions, drawn. */
static inline void draw_ranks(uint8_t *ranks, unsigned sessions)
{
    for (unsigned k = 0; k < sessions; k++) {
        unsigned place = between(0, k);
        ranks[k] = ranks[place];
        ranks[place] = (uint8_t)(k + 1);
    }
}

#endif
