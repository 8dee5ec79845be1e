/* grant [ROUNDS]: nanoseconds a call of fpu_grant, the best of so many rounds, by the period. Eight routines with equal limits take one phase and a last
 * round, eight with limits from 1/36 to 8/36 of the period take eight phases. */
#include "fpu.h"

#include <stdio.h>
#include <stdlib.h>
#include <time.h>

enum { CALLS = 1000 };

static double now(void)
{
    struct timespec t;
    clock_gettime(CLOCK_MONOTONIC, &t);
    return t.tv_sec * 1e9 + t.tv_nsec;
}

static double best(uint32_t period, const uint32_t *limits, long rounds)
{
    static const uint32_t shares[FPU_MOST_ROUTINES];
    uint32_t grants[FPU_MOST_ROUTINES];
    double least = 1e18;
    for (long r = 0; r < rounds; r++) {
        double start = now();
        for (int i = 0; i < CALLS; i++)
            if (fpu_grant(period, shares, 8, limits, 8, limits, 8, grants, 8) != FPU_FINISHED)
                exit(1);
        double each = (now() - start) / CALLS;
        if (each < least)
            least = each;
    }
    return least;
}

int main(int argc, char **argv)
{
    static const uint32_t periods[] = {10, 100, 1000, 10000, 1000000, 100000000, 0xFFFFFFFF};
    long rounds = argc > 1 ? atol(argv[1]) : 1000;
    printf("| period | equal limits, ns a call | eight phases |\n|---|---|---|\n");
    for (size_t p = 0; p < sizeof periods / sizeof *periods; p++) {
        uint32_t equal[8], rising[8];
        for (uint32_t i = 0; i < 8; i++) {
            equal[i] = periods[p];
            rising[i] = (uint32_t)((uint64_t)periods[p] * (i + 1) / 36);
        }
        printf("| %lu | %.0f | %.0f |\n", (unsigned long)periods[p], best(periods[p], equal, rounds), best(periods[p], rising, rounds));
    }
    return 0;
}
