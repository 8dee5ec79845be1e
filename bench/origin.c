/* origin [ROUNDS]: microseconds a call of fpu_watch and of fpu_origin on the same list, state and map, in alternation over so many rounds: the two medians,
 * and the ratio of the two. A list is 4,096 words, one or several words repeated; 'pairs' is the length of the chain that is given. */
#include "fpu.h"

#include <stdio.h>
#include <stdlib.h>
#include <string.h>
#include <time.h>

enum { WORDS = FPU_LIST_MOST_WORDS, WINDOW = 64, PAIRS_WORDS = 2 * FPU_PAIRS_PER_WORD * WORDS };

struct input {
    const char *name;
    uint32_t control; /* FPSCR 27:5 */
    uint64_t unknown; /* places before the window */
    uint32_t place;   /* asked for */
    uint32_t count, words[16];
};

/* LEN is 7 where control is 70000. r0 to r3 point into the window, at its words 0, 16, 32 and 48. */
static const struct input inputs[] = {
    {"FADDS s0, s0, s0, its s0", 0, FPU_MARK(0), 0, 1, {0xEE300A00}},
    {"the same, its exceptions", 0, FPU_MARK(0), FPU_PLACE_FPSCR_EXCEPTIONS, 1, {0xEE300A00}},
    {"the same, a place never written", 0, FPU_MARK(0) | FPU_MARK(9), 9, 1, {0xEE300A00}},
    {"FMACD d0, d1, d2", 0, FPU_MARK(0), 0, 1, {0xEE010B02}},
    {"FCPYS s1, s0; FCPYS s0, s1", 0, FPU_MARK(0), 0, 2, {0xEEF00A40, 0xEEB00A60}},
    {"FADDS s9, s8, s24 of 8 steps, round the bank", 0x00070000, FPU_MARK(8), 8, 1, {0xEE744A0C}},
    {"FADDS s8, s8, s16 of 8 steps, the exceptions", 0x00070000, FPU_MARK(FPU_PLACE_FPSCR_EXCEPTIONS), FPU_PLACE_FPSCR_EXCEPTIONS, 1, {0xEE344A08}},
    {"FMACD d4, d8, d12 of 8 steps", 0x00070000, FPU_MARK(8), 8, 1, {0xEE084B0C}},
    {"FCPYS s8, s16; FCPYS s16, s8 of 8 steps", 0x00070000, FPU_MARK(8), 8, 2, {0xEEB08A44, 0xEEB04A48}},
    {"FSTS s0, [r0]; FLDS s0, [r0]", 0, FPU_MARK(0), 0, 2, {0xED800A00, 0xED900A00}},
    {"FSTMIAS r0, {s0-s31}; FLDMIAS r0, {s0-s31}", 0, FPU_MARK(0), 0, 2, {0xEC800A20, 0xEC900A20}},
    {"FSTMIAD r0, {d0-d15}; FLDMIAD r0, {d0-d15}", 0, FPU_MARK(31), 31, 2, {0xEC800B20, 0xEC900B20}},
    {"FMRS r4, s0; FMSR s0, r4", 0, FPU_MARK(0), 0, 2, {0xEE104A10, 0xEE004A10}},
    {"FMRRD r4, r5, d0; FMDRR d0, r4, r5", 0, FPU_MARK(0), 0, 2, {0xEC554B10, 0xEC454B10}},
    {"FMRX r4, FPSCR; FMXR FPSCR, r4; FMSTAT", 0, FPU_MARK(FPU_PLACE_FPSCR_EXCEPTIONS), FPU_PLACE_NZCV, 3, {0xEEF14A10, 0xEEE14A10, 0xEEF1FA10}},
    {"FCMPS s0, s1; FCVTDS d1, s0; FTOSIS s6, s0; FSITOS s0, s6", 0, FPU_MARK(0), 0, 4, {0xEEB40A60, 0xEEB71AC0, 0xEEBD3A40, 0xEEB80AC3}},
    {"a mix of 14: sums, products, a root, moves, a compare, conversions, transfers, loads and stores", 0, FPU_MARK(0), 0, 14,
     {0xEE300A00, 0xEE201A20, 0xED801A02, 0xEDD11A01, 0xEEB40A61, 0xEE311B02, 0xEE104A10, 0xEE014A90, 0xEEF13AC0, 0xEEB70AC0, 0xEEB70BC0, 0xEEBD5A40, 0xEC801A04,
      0xEE010A81}},
    {"FADDS s0, s0, s0 under EQ: skipped", 0, FPU_MARK(0), 0, 1, {0x0E300A00}},
};

static uint32_t first_state[FPU_STATE_WORDS], state[FPU_STATE_WORDS], window[WINDOW], list[WORDS], pairs[PAIRS_WORDS], answer[FPU_ORIGIN_ANSWER_WORDS];
static uint8_t window_marks[WINDOW];
static uint64_t marks;

static double now(void)
{
    struct timespec t;
    clock_gettime(CLOCK_MONOTONIC, &t);
    return t.tv_sec * 1e6 + t.tv_nsec / 1e3;
}

static void lay_out(const struct input *of)
{
    memcpy(state, first_state, sizeof state);
    memset(window, 0, sizeof window);
    memset(window_marks, 1, sizeof window_marks);
    marks = FPU_MARKS_ALL & ~of->unknown;
}

/* The microseconds of a call, of fpu_origin or of fpu_watch. */
static double timed(const struct input *of, int origin)
{
    uint32_t result;
    lay_out(of);
    double start = now();
    if (origin)
        result = fpu_origin(state, FPU_STATE_WORDS, &marks, window, WINDOW, window_marks, WINDOW, 0x8000, 0, list, WORDS, of->place, pairs, PAIRS_WORDS, answer,
                            FPU_ORIGIN_ANSWER_WORDS);
    else
        result = fpu_watch(state, FPU_STATE_WORDS, &marks, window, WINDOW, window_marks, WINDOW, 0x8000, 0, list, WORDS, answer, FPU_ANSWER_WORDS);
    double end = now();
    if (result != FPU_FINISHED || answer[FPU_ANSWER_COUNT] != WORDS || (origin && answer[FPU_ANSWER_ORIGIN_REFUSAL] != 0)) {
        printf("%s: result %lu, count %lu, refusal %lu\n", of->name, (unsigned long)result, (unsigned long)answer[FPU_ANSWER_COUNT],
               (unsigned long)answer[FPU_ANSWER_ORIGIN_REFUSAL]);
        exit(1);
    }
    return end - start;
}

static int by_size(const void *a, const void *b)
{
    double x = *(const double *)a, y = *(const double *)b;
    return (x > y) - (x < y);
}

static double median(double *of, size_t count)
{
    qsort(of, count, sizeof *of, by_size);
    return of[count / 2];
}

int main(int argc, char **argv)
{
    long rounds = argc > 1 ? atol(argv[1]) : 101;
    double *watch = malloc(sizeof *watch * (size_t)rounds), *origin = malloc(sizeof *origin * (size_t)rounds), worst = 0;
    if (rounds < 1 || watch == NULL || origin == NULL || fpu_new(first_state, FPU_STATE_WORDS) != FPU_FINISHED)
        return 1;
    for (uint32_t r = 0; r < 4; r++)
        first_state[FPU_PLACE_R0 + r] = 0x8000 + 64 * r;
    printf("| 4,096 words | pairs | fpu_watch, us | fpu_origin, us | ratio |\n|---|---|---|---|---|\n");
    for (size_t i = 0; i < sizeof inputs / sizeof *inputs; i++) {
        const struct input *of = &inputs[i];
        first_state[FPU_PLACE_FPSCR_CONTROL] = of->control;
        for (uint32_t k = 0; k < WORDS; k++)
            list[k] = of->words[k % of->count];
        for (long r = 0; r < rounds; r++) {
            watch[r] = timed(of, 0);
            origin[r] = timed(of, 1);
        }
        double w = median(watch, (size_t)rounds), o = median(origin, (size_t)rounds);
        if (o / w > worst)
            worst = o / w;
        printf("| %s | %lu | %.1f | %.1f | %.2f |\n", of->name, (unsigned long)answer[FPU_ANSWER_PAIRS], w, o, o / w);
    }
    printf("the greatest ratio: %.2f\n", worst);
    free(watch);
    free(origin);
    return 0;
}
