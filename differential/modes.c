/* modes CASES SEED: the unit's number operations in the four rounding modes, against this machine's floats under fesetround: words, and the exceptions
 * that they set in FPSCR 4:0, against the C library's flags. Arithmetic, roots, conversions between the widths and from and to integers, and compares,
 * quiet and signalling. Each case draws an operation, a mode, FZ, DN, the exceptions that are set before, operands, and for arithmetic and roots up to four
 * iterations, and goes through fpu_data_processing, fpu_run or fpu_watch.
 * NaNs count as one, and the unit's has to be the default NaN where DN is set. A result that FZ flushes is flushed here too: it sets underflow alone,
 * beside what a product before it set.
 * This machine judges tininess after rounding and the unit before it (2026-07): where an inexact result is the least normal value, whether the exact one
 * is smaller is told by an exact computation in a wider format, and underflow is expected there. Those cases in which this machine does not set it are
 * counted; any other difference fails.
 * It prints how many cases of each operation were compared, how many set each exception, and how many differ.
 * To be compiled with -frounding-math -ffp-contract=off. */
#include "fpu.h"

#include <fenv.h>
#include <math.h>
#include <stdio.h>
#include <stdlib.h>
#include <string.h>

static uint64_t seed;

/* splitmix64 */
static uint64_t draw(void)
{
    uint64_t z = seed += 0x9E3779B97F4A7C15u;
    z = (z ^ z >> 30) * 0xBF58476D1CE4E5B9u;
    z = (z ^ z >> 27) * 0x94D049BB133111EBu;
    return z ^ z >> 31;
}

static unsigned below(unsigned n)
{
    return (unsigned)(draw() % n);
}

/* -n to n, modulo 2^64 */
static uint64_t around(unsigned n)
{
    return (uint64_t)below(2 * n + 1) - n;
}

enum { KINDS = 9, ROOT = KINDS, NARROW, WIDEN, SIGNED, UNSIGNED, TO_SIGNED, TO_SIGNED_ZERO, TO_UNSIGNED, TO_UNSIGNED_ZERO,
       COMPARE, COMPARE_E, COMPARE_ZERO, COMPARE_E_ZERO, OPERATIONS };

/* the words with all registers 0, for singles; bit 8 makes them of doubles */
static const struct {
    const char *name;
    uint32_t word;
} operations[OPERATIONS] = {
    {"d + nm", 0xEE000A00}, {"d - nm", 0xEE000A40}, {"-d + nm", 0xEE100A00}, {"-d - nm", 0xEE100A40}, {"nm", 0xEE200A00},
    {"-(nm)", 0xEE200A40}, {"n + m", 0xEE300A00}, {"n - m", 0xEE300A40}, {"n / m", 0xEE800A00}, {"root", 0xEEB10AC0},
    {"narrowing", 0xEEB70AC0}, {"widening", 0xEEB70AC0}, {"from signed", 0xEEB80AC0}, {"from unsigned", 0xEEB80A40},
    {"to signed", 0xEEBD0A40}, {"to signed, zero", 0xEEBD0AC0}, {"to unsigned", 0xEEBC0A40}, {"to unsigned, zero", 0xEEBC0AC0},
    {"FCMP", 0xEEB40A40}, {"FCMPE", 0xEEB40AC0}, {"FCMPZ", 0xEEB50A40}, {"FCMPEZ", 0xEEB50AC0},
};

static const int rounding[4] = {FE_TONEAREST, FE_UPWARD, FE_DOWNWARD, FE_TOWARDZERO};

struct format {
    unsigned fraction, exponent; /* bits */
};
static const struct format formats[2] = {{23, 8}, {52, 11}};

/* digits: none, all, one, a few at an end, or any */
static uint64_t fraction(unsigned bits)
{
    uint64_t all = ((uint64_t)1 << bits) - 1;
    switch (below(8)) {
    case 0: return 0;
    case 1: return all;
    case 2: return (uint64_t)1 << below(bits);
    case 3: return draw() & 7;
    case 4: return all - (draw() & 7);
    case 5: return (draw() & all) >> below(bits) << below(bits) & all;
    default: return draw() & all;
    }
}

/* a word: any, or with an exponent near an end, near 1 or among the special ones */
static uint64_t operand(const struct format *f)
{
    uint64_t ones = ((uint64_t)1 << f->exponent) - 1, bias = ones / 2, e;
    switch (below(8)) {
    case 0: e = 0; break;
    case 1: e = below(4); break;
    case 2: e = ones - below(4); break;
    case 3: e = bias - below(f->fraction + 4); break;
    case 4: e = bias + below(f->fraction + 4); break;
    case 5: e = (below(2) ? bias / 2 : bias + bias / 2) + around(2); break;
    default: e = draw() & ones; break;
    }
    return (draw() & 1) << (f->fraction + f->exponent) | e << f->fraction | fraction(f->fraction);
}

/* a word near another, of either sign */
static uint64_t beside(const struct format *f, uint64_t w)
{
    uint64_t sign = (uint64_t)1 << (f->fraction + f->exponent), size = w & (sign - 1);
    switch (below(4)) {
    case 0: size += around(4); break;
    case 1: size += around(2) + (around(3) << f->fraction); break;
    case 2: size += around(f->fraction) << f->fraction; break;
    default: break;
    }
    return (size & (sign - 1)) | (draw() & 1 ? sign : 0);
}

static float single_of(uint64_t w)
{
    uint32_t b = (uint32_t)w;
    float x;
    memcpy(&x, &b, sizeof x);
    return x;
}

static double double_of(uint64_t w)
{
    double x;
    memcpy(&x, &w, sizeof x);
    return x;
}

static uint64_t of_single(float x)
{
    uint32_t b;
    memcpy(&b, &x, sizeof b);
    return b;
}

static uint64_t of_double(double x)
{
    uint64_t b;
    memcpy(&b, &x, sizeof b);
    return b;
}

/* a word, and FPSCR 4:0 that making it sets */
struct made {
    uint64_t word;
    unsigned raised;
};

/* the cases in which this machine, judging after rounding, set no underflow */
static uint64_t after_rounding;

static void clear(void)
{
    feclearexcept(FE_ALL_EXCEPT);
}

static unsigned raised(void)
{
    int set = fetestexcept(FE_ALL_EXCEPT);
    return (set & FE_INVALID ? FPU_EXCEPTION_INVALID : 0) | (set & FE_DIVBYZERO ? FPU_EXCEPTION_DIVISION_BY_ZERO : 0)
           | (set & FE_OVERFLOW ? FPU_EXCEPTION_OVERFLOW : 0) | (set & FE_UNDERFLOW ? FPU_EXCEPTION_UNDERFLOW : 0)
           | (set & FE_INEXACT ? FPU_EXCEPTION_INEXACT : 0);
}

enum operator { SUM, DIFFERENCE, PRODUCT, QUOTIENT, SQUARE_ROOT, NARROWING };

static uint64_t size_of(const struct format *f, uint64_t w)
{
    return w & (((uint64_t)1 << (f->fraction + f->exponent)) - 1);
}

/* whether the exact result is smaller than the least normal value of the format: what is rounded here stands in a format that holds it, or its comparison,
 * exactly. A sum so small is exact, and a root is never so small. */
static int is_tiny(enum operator o, int width, uint64_t a, uint64_t b)
{
    __float128 least = width ? 0x1p-1022 : 0x1p-126, x, y;
    if (o == NARROWING)
        return fabs(double_of(a)) < 0x1p-126;
    if (o != PRODUCT && o != QUOTIENT)
        return 0;
    x = width ? double_of(a) : single_of(a);
    y = width ? double_of(b) : single_of(b);
    x = x < 0 ? -x : x;
    y = y < 0 ? -y : y;
    return o == PRODUCT ? x * y < least : x < y * least;
}

#define OPERATED(type, name, root, of, to)                                     \
    static struct made name(enum operator o, uint64_t a, uint64_t b)           \
    {                                                                          \
        volatile type x = of(a), y = of(b), r;                                 \
        clear();                                                               \
        switch (o) {                                                           \
        case SUM: r = x + y; break;                                            \
        case DIFFERENCE: r = x - y; break;                                     \
        case PRODUCT: r = x * y; break;                                        \
        case QUOTIENT: r = x / y; break;                                       \
        default: r = root(x); break;                                           \
        }                                                                      \
        unsigned set = raised();                                               \
        return (struct made){to(r), set};                                      \
    }
OPERATED(float, operated_single, sqrtf, single_of, of_single)
OPERATED(double, operated_double, sqrt, double_of, of_double)

static struct made narrowed(uint64_t a)
{
    volatile double x = double_of(a);
    volatile float r;
    clear();
    r = (float)x;
    unsigned set = raised();
    return (struct made){of_single(r), set};
}

/* one operator, rounded once by the mode that is set, as this machine has it */
static struct made native(enum operator o, int width, uint64_t a, uint64_t b)
{
    return o == NARROWING ? narrowed(a) : width ? operated_double(o, a, b) : operated_single(o, a, b);
}

/* the same, with tininess judged before rounding */
static struct made operated(enum operator o, int width, uint64_t a, uint64_t b)
{
    const struct format *f = &formats[width];
    struct made r = native(o, width, a, b);
    if (r.raised & FPU_EXCEPTION_INEXACT && size_of(f, r.word) == (uint64_t)1 << f->fraction && is_tiny(o, width, a, b)) {
        after_rounding += !(r.raised & FPU_EXCEPTION_UNDERFLOW);
        r.raised |= FPU_EXCEPTION_UNDERFLOW;
    }
    return r;
}

static struct made flushed(int fz, const struct format *f, struct made r)
{
    uint64_t size = size_of(f, r.word);
    if (fz && size && size < (uint64_t)1 << f->fraction)
        return (struct made){r.word - size, FPU_EXCEPTION_UNDERFLOW};
    return r;
}

static uint64_t negated(int width, uint64_t w)
{
    return w ^ (uint64_t)1 << (formats[width].fraction + formats[width].exponent);
}

/* the nine kinds: of an accumulate the sum alone is flushed */
static struct made kind_of(int kind, int fz, int width, uint64_t n, uint64_t m, uint64_t d)
{
    const struct format *f = &formats[width];
    if (kind >= 6)
        return flushed(fz, f, operated(kind == 6 ? SUM : kind == 7 ? DIFFERENCE : QUOTIENT, width, n, m));
    struct made p = operated(PRODUCT, width, n, m);
    if (kind >= 4) {
        p = flushed(fz, f, p);
        return kind == 4 ? p : (struct made){negated(width, p.word), p.raised};
    }
    struct made s = flushed(fz, f, operated(kind % 2 ? DIFFERENCE : SUM, width, kind < 2 ? d : negated(width, d), p.word));
    s.raised |= p.raised;
    return s;
}

/* FPSCR 31:28, in place of a word; signalling comparisons are invalid for any NaN, quiet ones for signalling NaNs */
static struct made compared_as(int signalling, int width, uint64_t a, uint64_t b)
{
    struct made r;
    if (width) {
        volatile double x = double_of(a), y = double_of(b);
        clear();
        volatile int held = signalling ? x < y : x == y;
        (void)held;
        r.raised = raised();
        r.word = isunordered(x, y) ? 3 : x < y ? 8 : x == y ? 6 : 2;
    } else {
        volatile float x = single_of(a), y = single_of(b);
        clear();
        volatile int held = signalling ? x < y : x == y;
        (void)held;
        r.raised = raised();
        r.word = isunordered(x, y) ? 3 : x < y ? 8 : x == y ? 6 : 2;
    }
    return r;
}

/* to an integer of 32 bits by way of one of 64: a NaN or a value outside is invalid alone */
static struct made to_integer(int zero, int is_signed, int width, uint64_t a)
{
    volatile double x = width ? double_of(a) : (double)single_of(a);
    int64_t least = is_signed ? -0x80000000ll : 0, most = is_signed ? 0x7FFFFFFF : 0xFFFFFFFF;
    if (isnan(x))
        return (struct made){0, FPU_EXCEPTION_INVALID};
    if (fabs(x) > 0x1p40)
        return (struct made){(uint32_t)(x < 0 ? least : most), FPU_EXCEPTION_INVALID};
    clear();
    volatile int64_t r = zero ? (int64_t)x : (int64_t)llrint(x);
    unsigned set = raised();
    if (r < least || r > most)
        return (struct made){(uint32_t)(r < least ? least : most), FPU_EXCEPTION_INVALID};
    return (struct made){(uint32_t)r, set};
}

static struct made from_integer(int is_signed, int width, uint64_t m)
{
    volatile int64_t i = is_signed ? (int64_t)(int32_t)(uint32_t)m : (int64_t)(uint32_t)m;
    volatile double x;
    volatile float s;
    clear();
    if (width)
        x = (double)i;
    else
        s = (float)i;
    unsigned set = raised();
    return (struct made){width ? of_double(x) : of_single(s), set};
}

/* what this machine makes in the mode that is set */
static struct made expected(int operation, int fz, int width, uint64_t n, uint64_t m, uint64_t d)
{
    volatile double x;
    if (operation < KINDS)
        return kind_of(operation, fz, width, n, m, d);
    switch (operation) {
    case ROOT: return operated(SQUARE_ROOT, width, m, 0);
    case NARROW: return flushed(fz, &formats[0], operated(NARROWING, 0, m, 0));
    case WIDEN: {
        volatile float s = single_of(m);
        clear();
        x = s;
        unsigned set = raised();
        return (struct made){of_double(x), set};
    }
    case SIGNED: return from_integer(1, width, m);
    case UNSIGNED: return from_integer(0, width, m);
    case TO_SIGNED: return to_integer(0, 1, width, m);
    case TO_SIGNED_ZERO: return to_integer(1, 1, width, m);
    case TO_UNSIGNED: return to_integer(0, 0, width, m);
    case TO_UNSIGNED_ZERO: return to_integer(1, 0, width, m);
    case COMPARE: return compared_as(0, width, d, m);
    case COMPARE_E: return compared_as(1, width, d, m);
    case COMPARE_ZERO: return compared_as(0, width, d, 0);
    default: return compared_as(1, width, d, 0);
    }
}

static uint64_t one_nan(const struct format *f, uint64_t w)
{
    uint64_t sign = (uint64_t)1 << (f->fraction + f->exponent), infinity = (((uint64_t)1 << f->exponent) - 1) << f->fraction;
    return (w & (sign - 1)) > infinity ? infinity | (uint64_t)1 << (f->fraction - 1) : w;
}

/* register i of the precision */
static void put(uint32_t *state, int width, unsigned i, uint64_t w)
{
    if (width) {
        state[2 * i] = (uint32_t)w;
        state[2 * i + 1] = (uint32_t)(w >> 32);
    } else {
        state[i] = (uint32_t)w;
    }
}

static uint64_t get(const uint32_t *state, int width, unsigned i)
{
    return width ? (uint64_t)state[2 * i + 1] << 32 | state[2 * i] : state[i];
}

static uint32_t field(int width, unsigned i, int at, int extra)
{
    return width ? i << at : i / 2 << at | (i % 2) << extra;
}

/* operands near those whose product or quotient is the least normal or the largest value */
static uint64_t opposite(int operation, int width, uint64_t n)
{
    const struct format *f = &formats[width];
    uint64_t edge = below(2) ? (uint64_t)1 << f->fraction : ((((uint64_t)1 << f->exponent) - 1) << f->fraction) - 1;
    uint64_t w = native(QUOTIENT, width, operation == 8 ? n : edge, operation == 8 ? edge : n).word + around(2);
    return width ? w : w & 0xFFFFFFFF;
}

/* a value to convert to an integer: whole, half or a quarter off, around an end of the range, or any */
static uint64_t near_integer(int width)
{
    static const double ends[] = {0, 0, 1, 0x1p31, 0x1p32, 0x1p24, 1000};
    double x = ends[below(7)] + (double)(int)around(4) / 4;
    if (below(3) == 0)
        x = ldexp((double)(uint32_t)draw(), -(int)below(34));
    x = below(2) ? -x : x;
    return width ? of_double(x) + (below(4) ? 0 : around(1)) : (of_single((float)x) + (below(4) ? 0 : around(1))) & 0xFFFFFFFF;
}

/* the most iterations of a vector here */
enum { MOST = 4 };

int main(int count, char **given)
{
    if (count != 3) {
        fprintf(stderr, "usage: modes CASES SEED\n");
        return 2;
    }
    uint64_t cases = strtoull(given[1], NULL, 10);
    seed = strtoull(given[2], NULL, 10);
    static uint64_t compared[OPERATIONS][2][4], set[OPERATIONS][2][5], differ[OPERATIONS][2];
    uint64_t wrong = 0, counted = 0;
    for (uint64_t i = 0; i < cases; i++) {
        int operation = (int)below(OPERATIONS), mode = (int)below(4), fz = below(4) == 0, dn = (int)below(2);
        int compare = operation >= COMPARE, to_int = operation >= TO_SIGNED && !compare, from_int = operation == SIGNED || operation == UNSIGNED;
        /* the width of the word, of the operand m, n and d, and of the result */
        int width = operation == NARROW ? 1 : operation == WIDEN ? 0 : (int)below(2);
        int from = from_int ? 0 : width, to = operation == NARROW || to_int ? 0 : operation == WIDEN ? 1 : width;
        const struct format *f = &formats[from];
        unsigned was = below(2) ? 0 : below(2) ? FPU_EXCEPTION_INEXACT : below(32), raised_here = 0;
        unsigned iterations = operation <= ROOT && below(4) == 0 ? 1 + below(MOST) : 1;
        uint64_t n[MOST], m[MOST], d[MOST];
        struct made want[MOST];
        for (unsigned k = 0; k < iterations; k++) {
            fesetround(FE_TONEAREST);
            n[k] = operand(f), m[k] = below(3) ? operand(f) : beside(f, n[k]), d[k] = operand(f);
            if (compare && below(2))
                d[k] = beside(f, m[k]);
            if (to_int && below(4))
                m[k] = near_integer(width);
            if (from_int)
                m[k] = (draw() & 0xFFFFFFFF) >> below(32) << (below(4) ? 0 : below(32)) & 0xFFFFFFFF;
            if (operation == NARROW && below(2))
                m[k] = (m[k] & 0x800FFFFFFFFFFFFF) | (uint64_t)(below(2) ? 871 + below(30) : 1145 + below(8)) << 52;
            if (operation == NARROW && below(8) == 0)
                m[k] = of_double((double)single_of(below(2) ? 0x00800000 : 0x7F7FFFFF)) + around(2) + (around(3) << 27);
            if (operation == ROOT && below(4))
                m[k] = size_of(f, m[k]);
            if (operation < KINDS && below(6) == 0)
                m[k] = opposite(operation, width, n[k]);
            if (operation < 4 && below(2))
                d[k] = beside(f, native(PRODUCT, width, n[k], m[k]).word);
            fesetround(rounding[mode]);
            want[k] = expected(operation, fz, width, n[k], m[k], d[k]);
            fesetround(FE_TONEAREST);
            raised_here |= want[k].raised;
            if (!compare && !to_int)
                want[k].word = one_nan(&formats[to], want[k].word);
        }

        /* one iteration: d is register 1 of its precision, n 4 and m 6, and no two share a word; several: each has a bank of its own */
        unsigned bank = width ? 4 : 8, at_d = iterations > 1 ? bank : 1, at_n = iterations > 1 ? 2 * bank : 4, at_m = iterations > 1 ? 3 * bank : 6;
        uint32_t state[FPU_STATE_WORDS], answer[FPU_ANSWER_WORDS], window[1] = {0};
        uint64_t marks = FPU_MARKS_ALL;
        uint8_t window_marks[1] = {1};
        fpu_new(state, FPU_STATE_WORDS);
        state[FPU_PLACE_FPSCR_CONTROL] = (uint32_t)mode << 22 | (uint32_t)fz << 24 | (uint32_t)dn << 25 | (iterations - 1) << 16;
        state[FPU_PLACE_FPSCR_EXCEPTIONS] = was;
        uint32_t control = state[FPU_PLACE_FPSCR_CONTROL];
        for (unsigned k = 0; k < iterations; k++) {
            put(state, compare ? width : to, at_d + k, d[k]);
            put(state, from, at_n + k, n[k]);
            put(state, from, at_m + k, m[k]);
        }
        uint32_t word = operations[operation].word | (width ? 0x100 : 0) | field(compare ? width : to, at_d, 12, 22) | field(from, at_m, 0, 5);
        if (operation < KINDS)
            word |= field(from, at_n, 16, 7);
        uint32_t said = i % 3 == 0 ? fpu_data_processing(state, FPU_STATE_WORDS, 0, word, answer, FPU_ANSWER_WORDS)
                        : i % 3 == 1 ? fpu_run(state, FPU_STATE_WORDS, window, 1, 0, 0, &word, 1, answer, FPU_ANSWER_WORDS)
                                     : fpu_watch(state, FPU_STATE_WORDS, &marks, window, 1, window_marks, 1, 0, 0, &word, 1, answer, FPU_ANSWER_WORDS);
        int same = said == FPU_FINISHED && state[FPU_PLACE_FPSCR_EXCEPTIONS] == (was | raised_here) && state[FPU_PLACE_FPSCR_CONTROL] == control
                   && marks == FPU_MARKS_ALL;
        for (unsigned k = 0; k < iterations; k++) {
            uint64_t left = compare ? state[FPU_PLACE_FPSCR_FLAGS] >> 28 : get(state, to, at_d + k);
            same = same && want[k].word == (dn || compare || to_int ? left : one_nan(&formats[to], left));
        }
        compared[operation][width][mode]++;
        counted += iterations;
        for (int e = 0; e < 5; e++)
            set[operation][width][e] += raised_here >> e & 1;
        if (!same) {
            differ[operation][width]++;
            if (wrong++ < 20) {
                printf("differs: %s, %s, mode %d, FZ %d, DN %d, kind %u, exceptions %02X: expected %02X, got %02X\n", operations[operation].name,
                       width ? "double" : "single", mode, fz, dn, said, was, was | raised_here, state[FPU_PLACE_FPSCR_EXCEPTIONS]);
                for (unsigned k = 0; k < iterations; k++)
                    printf("  n %016llX m %016llX d %016llX: expected %016llX, got %016llX\n", (unsigned long long)n[k], (unsigned long long)m[k],
                           (unsigned long long)d[k], (unsigned long long)want[k].word,
                           (unsigned long long)(compare ? state[FPU_PLACE_FPSCR_FLAGS] >> 28 : get(state, to, at_d + k)));
            }
        }
    }
    printf("%-24s %28s  %40s\n", "", "compared in modes 00 to 11", "invalid, by zero, over, under, inexact");
    for (int operation = 0; operation < OPERATIONS; operation++)
        for (int width = 0; width < 2; width++) {
            uint64_t *c = compared[operation][width], *e = set[operation][width];
            if (c[0] + c[1] + c[2] + c[3])
                printf("%-17s %s %7llu %7llu %7llu %7llu  %7llu %7llu %7llu %7llu %7llu  %llu differ\n", operations[operation].name, width ? "double" : "single",
                       (unsigned long long)c[0], (unsigned long long)c[1], (unsigned long long)c[2], (unsigned long long)c[3], (unsigned long long)e[0],
                       (unsigned long long)e[1], (unsigned long long)e[2], (unsigned long long)e[3], (unsigned long long)e[4],
                       (unsigned long long)differ[operation][width]);
        }
    printf("tiny before rounding and not after it: %llu, where this machine sets no underflow\n", (unsigned long long)after_rounding);
    printf("%llu compared, of %llu iterations, %llu differ\n", (unsigned long long)cases, (unsigned long long)counted, (unsigned long long)wrong);
    return wrong != 0;
}
