/* softfloat check | names | once OPERATION WAY | times ROUNDS: the plain run beside Berkeley SoftFloat, operation by operation, on the same 4,096 pairs of operands.
 * SoftFloat's time is that of a call of its function, its operands read from a list, its result stored, and its flags set. Ours is that of a word of fpu_run: the
 * same, with the word's class, its condition, its decoding, the registers, and a 4,096th of the C interface.
 * Ways: peer and set have operands whose results are nearly all inexact, set with FPSCR bit 4 set; peer-exact and exact have operands with exact results, exact with
 * bit 4 clear, which stays so; cleared has inexact results, and a write of FPSCR before each word clears bit 4; writes has these writes alone. */
#include "fpu.h"
#include "softfloat.h"

#include <stdio.h>
#include <stdlib.h>
#include <string.h>
#include <time.h>

enum { WORDS = 4096, OPERATIONS = 8, PEER = 0, PEER_EXACT, SET, EXACT, CLEARED, WRITES, WAYS };

static const char *const ways[WAYS] = {"peer", "peer-exact", "set", "exact", "cleared", "writes"};
static const char *const names[OPERATIONS] = {"f32_add", "f32_mul", "f32_div", "f32_sqrt", "f64_add", "f64_mul", "f64_div", "f64_sqrt"};
static const uint32_t words[4] = {0xEE300A00, 0xEE200A00, 0xEE800A00, 0xEEB10AC0};

/* FMXR FPSCR, r2: r2 is 0 */
static const uint32_t CLEAR = 0xEEE12A10;

static uint64_t seed = 9;

/* splitmix64 */
static uint64_t draw(void)
{
    uint64_t z = seed += 0x9E3779B97F4A7C15u;
    z = (z ^ z >> 30) * 0xBF58476D1CE4E5B9u;
    z = (z ^ z >> 27) * 0x94D049BB133111EBu;
    return z ^ z >> 31;
}

static uint64_t bits_of(int width, double x)
{
    uint64_t d;
    uint32_t s;
    float f = (float)x;
    memcpy(&d, &x, sizeof d);
    memcpy(&s, &f, sizeof s);
    return width ? d : s;
}

/* An operand: ordinary, or one of those whose results are exact: multiples of one odd number by powers of two, squares, and quarters from 1 on. */
static uint64_t operand(int operation, int exact, int i)
{
    int width = operation / 4, kind = operation % 4;
    double root = (width ? 33554433.0 : 2049.0) + 2 * i;
    if (!exact)
        return width ? (0x3FD0000000000000 + (draw() % 0x50000000000000)) : 0x3E800000 + draw() % 0x02000000;
    return bits_of(width, kind == 2 ? 12345.0 * (1 << i % 5) : kind == 3 ? root * root : 1 + 7 * i % 16 / 4.0);
}

/* What is run: a state, a list, and the operands of each word. Sources are eight or sixteen registers from s8 or d4 on, targets the others. */
struct job {
    uint32_t state[FPU_STATE_WORDS], list[2 * WORDS];
    size_t list_words;
    uint64_t a[WORDS], b[WORDS];
};

static void put(uint32_t *state, int width, int i, uint64_t x)
{
    if (width) {
        state[2 * i] = (uint32_t)x;
        state[2 * i + 1] = (uint32_t)(x >> 32);
    } else {
        state[i] = (uint32_t)x;
    }
}

static uint32_t field(int width, uint32_t i, int at, int extra)
{
    return width ? i << at : i / 2 << at | i % 2 << extra;
}

static void prepare(struct job *j, int operation, int way)
{
    int width = operation / 4, exact = way == PEER_EXACT || way == EXACT;
    uint32_t sources = width ? 8 : 16, first = width ? 4 : 8, banks = width ? 4 : 8;
    uint64_t values[16];
    seed = 9;
    fpu_new(j->state, FPU_STATE_WORDS);
    j->state[FPU_PLACE_FPSCR_EXCEPTIONS] = way == SET ? FPU_EXCEPTION_INEXACT : 0;
    for (uint32_t i = 0; i < sources; i++)
        put(j->state, width, first + i, values[i] = operand(operation, exact, i));
    j->list_words = 0;
    for (int i = 0; i < WORDS; i++) {
        uint32_t n = draw() % sources, m = draw() % sources, t = draw() % (2 * banks), d = t < banks ? t : first + sources + t - banks;
        uint32_t word = words[operation % 4] | (uint32_t)width << 8 | field(width, d, 12, 22) | field(width, first + m, 0, 5);
        j->a[i] = values[operation % 4 == 3 ? m : n];
        j->b[i] = values[m];
        if (way == CLEARED || way == WRITES)
            j->list[j->list_words++] = CLEAR;
        if (way != WRITES)
            j->list[j->list_words++] = operation % 4 == 3 ? word : word | field(width, first + n, 16, 7);
    }
}

static uint64_t called(int operation, uint64_t a, uint64_t b)
{
    float32_t x = {(uint32_t)a}, y = {(uint32_t)b};
    float64_t u = {a}, v = {b};
    switch (operation) {
    case 0: return f32_add(x, y).v;
    case 1: return f32_mul(x, y).v;
    case 2: return f32_div(x, y).v;
    case 3: return f32_sqrt(x).v;
    case 4: return f64_add(u, v).v;
    case 5: return f64_mul(u, v).v;
    case 6: return f64_div(u, v).v;
    default: return f64_sqrt(u).v;
    }
}

/* SoftFloat over all pairs; each operation has a loop of its own. */
#define LOOP(format, type, call)                       \
    for (int i = 0; i < WORDS; i++) {                  \
        format x = {(type)j->a[i]}, y = {(type)j->b[i]}; \
        (void)y;                                       \
        results[i] = call.v;                           \
    }                                                  \
    break;
__attribute__((noinline)) void berkeley(const struct job *j, int operation, uint64_t *results)
{
    switch (operation) {
    case 0: LOOP(float32_t, uint32_t, f32_add(x, y))
    case 1: LOOP(float32_t, uint32_t, f32_mul(x, y))
    case 2: LOOP(float32_t, uint32_t, f32_div(x, y))
    case 3: LOOP(float32_t, uint32_t, f32_sqrt(x))
    case 4: LOOP(float64_t, uint64_t, f64_add(x, y))
    case 5: LOOP(float64_t, uint64_t, f64_mul(x, y))
    case 6: LOOP(float64_t, uint64_t, f64_div(x, y))
    default: LOOP(float64_t, uint64_t, f64_sqrt(x))
    }
}

static void once(struct job *j, int operation, int way)
{
    static uint64_t results[WORDS];
    uint32_t state[FPU_STATE_WORDS], answer[FPU_ANSWER_WORDS], window[1];
    if (way == PEER || way == PEER_EXACT) {
        berkeley(j, operation, results);
        return;
    }
    memcpy(state, j->state, sizeof state);
    for (size_t at = 0; at < j->list_words; at += WORDS)
        if (fpu_run(state, FPU_STATE_WORDS, window, 0, 0, 0, j->list + at, WORDS, answer, FPU_ANSWER_WORDS) != FPU_FINISHED)
            abort();
}

/* every pair of every way by both: words and exceptions have to be the same, and exact operands raise nothing */
static int check(struct job *j)
{
    unsigned long compared = 0, differ = 0;
    for (int operation = 0; operation < OPERATIONS; operation++)
        for (int way = PEER; way <= PEER_EXACT; way++) {
            prepare(j, operation, way);
            for (int i = 0; i < WORDS; i++) {
                uint32_t state[FPU_STATE_WORDS], answer[FPU_ANSWER_WORDS], d = j->list[i] >> 12 & 15;
                int width = operation / 4;
                d = width ? d : 2 * d + (j->list[i] >> 22 & 1);
                memcpy(state, j->state, sizeof state);
                fpu_run(state, FPU_STATE_WORDS, state, 0, 0, 0, j->list + i, 1, answer, FPU_ANSWER_WORDS);
                softfloat_exceptionFlags = 0;
                uint64_t theirs = called(operation, j->a[i], j->b[i]), ours = width ? (uint64_t)state[2 * d + 1] << 32 | state[2 * d] : state[d];
                uint32_t set = state[FPU_PLACE_FPSCR_EXCEPTIONS], e = softfloat_exceptionFlags;
                uint32_t as = (e >> 4 & 1) | (e >> 3 & 1) << 1 | (e >> 2 & 1) << 2 | (e >> 1 & 1) << 3 | (e & 1) << 4;
                compared++;
                differ += ours != theirs || set != as || (way == PEER_EXACT && set != 0);
            }
        }
    printf("%lu compared with SoftFloat, words and exceptions, %lu differ\n\n", compared, differ);
    return differ != 0;
}

static double now(void)
{
    struct timespec t;
    clock_gettime(CLOCK_MONOTONIC, &t);
    return (double)t.tv_sec * 1e9 + (double)t.tv_nsec;
}

static void times(struct job *jobs, int rounds)
{
    printf("| ns an operation | SoftFloat | SoftFloat, exact | fpu_run, inexact set | clear, exact results | clear, inexact results |\n|---|---|---|---|---|---|\n");
    for (int operation = 0; operation < OPERATIONS; operation++) {
        double best[WAYS];
        for (int way = 0; way < WAYS; way++) {
            prepare(&jobs[way], operation, way);
            best[way] = 1e9;
        }
        for (int r = 0; r < rounds; r++)
            for (int way = 0; way < WAYS; way++) {
                double start = now();
                once(&jobs[way], operation, way);
                double took = (now() - start) / WORDS;
                best[way] = took < best[way] ? took : best[way];
            }
        printf("| %s | %.2f | %.2f | %.2f | %.2f | %.2f |\n", names[operation], best[PEER], best[PEER_EXACT], best[SET], best[EXACT], best[CLEARED] - best[WRITES]);
    }
}

int main(int count, char **given)
{
    static struct job jobs[WAYS];
    if (count == 2 && strcmp(given[1], "check") == 0)
        return check(jobs);
    if (count == 2 && strcmp(given[1], "names") == 0) {
        for (int i = 0; i < OPERATIONS; i++)
            puts(names[i]);
        return 0;
    }
    if (count == 4 && strcmp(given[1], "once") == 0)
        for (int way = 0; way < WAYS; way++)
            if (strcmp(given[3], ways[way]) == 0) {
                prepare(jobs, atoi(given[2]), way);
                once(jobs, atoi(given[2]), way);
                return 0;
            }
    if (count == 3 && strcmp(given[1], "times") == 0) {
        times(jobs, atoi(given[2]));
        return 0;
    }
    fprintf(stderr, "usage: softfloat check | names | once OPERATION WAY | times ROUNDS\n");
    return 2;
}
