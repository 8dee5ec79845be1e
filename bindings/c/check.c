/* Calls every function of libfpu.a by include/fpu.h: every kind of result, every refusal and every sort of invalid argument, with what
 * the buffers hold afterwards. It prints a line for each difference and 'c: N passed, M failed'; it fails where anything differs. */
#include "fpu.h"

#include <stdio.h>
#include <string.h>

enum call { DATA_PROCESSING, COPROCESSOR_REGISTER, COPROCESSOR_LOAD_STORE, RUN, WATCH, ORIGIN, CALLS };

/* so many words more has the answer of fpu_origin than the others, and so many pairs are lent to it */
enum { ORIGIN_MORE = FPU_ORIGIN_ANSWER_WORDS - FPU_ANSWER_WORDS, PAIRS = 40 };

/* What is passed to a call; each buffer has an element more than a call may touch. */
struct passed {
    uint32_t state[FPU_STATE_WORDS + 1];
    size_t state_words;
    uint64_t marks[2];
    uint32_t window[FPU_WINDOW_MOST_WORDS + 1];
    size_t window_words;
    uint8_t window_marks[FPU_WINDOW_MOST_WORDS + 1];
    size_t window_marks_bytes;
    uint32_t base, thumb, word;
    uint32_t list[FPU_LIST_MOST_WORDS + 1];
    size_t list_words;
    uint32_t place, pairs[2 * PAIRS + 1];
    size_t pairs_words;
    uint32_t answer[FPU_ORIGIN_ANSWER_WORDS + 1];
    size_t answer_words; /* without ORIGIN_MORE */
};

static struct passed given, p;
static int seen[256];
static unsigned long good, bad;
static const char *doing = "";

static void same(const char *what, unsigned long got, unsigned long expected)
{
    if (got == expected) {
        good++;
        return;
    }
    bad++;
    printf("differs: %s: %s is %lX, expected %lX\n", doing, what, got, expected);
}

static void same_bytes(const char *what, const void *got, const void *expected, size_t bytes)
{
    same(what, memcmp(got, expected, bytes) != 0, 0);
}

/* A result that is a kind, a refusal or an invalid argument; the end looks at which were seen. */
static void result(uint32_t got, uint32_t expected)
{
    same("the result", got, expected);
    if (got < 256)
        seen[got] = 1;
}

/* What fpu_origin's answer has to have in its last words; s0 being known, there is no chain to it. */
static uint32_t origin_answer[ORIGIN_MORE];

static void origin(uint32_t refusal, uint32_t first, uint32_t pairs)
{
    origin_answer[0] = refusal;
    origin_answer[1] = first;
    origin_answer[2] = pairs;
}

/* A new machine in ARM state, all of it known, a window of four words, and an answer that has to be overwritten. */
static void fresh(const char *name)
{
    doing = name;
    memset(&p, 0, sizeof p);
    p.state_words = FPU_STATE_WORDS;
    p.state[FPU_STATE_WORDS] = 0x5A5A5A5A;
    result(fpu_new(p.state, p.state_words), FPU_FINISHED);
    p.marks[0] = FPU_MARKS_ALL;
    p.marks[1] = 0x5A5A5A5A5A5A5A5A;
    p.window_words = p.window_marks_bytes = 4;
    memset(p.window_marks, 1, sizeof p.window_marks);
    for (uint32_t i = 0; i < FPU_WINDOW_MOST_WORDS + 1; i++)
        p.window[i] = 7 + i;
    p.base = 0x8000;
    p.pairs_words = 2 * PAIRS;
    memset(p.pairs, 0x5A, sizeof p.pairs);
    p.answer_words = FPU_ANSWER_WORDS;
    for (int i = 0; i < FPU_ORIGIN_ANSWER_WORDS + 1; i++)
        p.answer[i] = 0xA5A5A5A5;
    origin(FPU_REFUSED_KNOWN, 0, 0);
}

static void list(const uint32_t *words, size_t count)
{
    memcpy(p.list, words, count * sizeof *words);
    p.list_words = count;
}

/* Whether the last call has marks: then the answer says how many places they call known. And how many words its answer has. */
static int watched;
static size_t answered;

static uint32_t known(void)
{
    uint32_t n = 0;
    for (int place = 0; watched && place < FPU_STATE_WORDS; place++)
        n += (p.marks[0] & FPU_MARK(place)) != 0;
    for (size_t i = 0; watched && i < p.window_marks_bytes; i++)
        n += p.window_marks[i] == 1;
    return n;
}

static uint32_t made(enum call call)
{
    given = p;
    watched = call == WATCH || call == ORIGIN;
    answered = call == ORIGIN ? FPU_ORIGIN_ANSWER_WORDS : FPU_ANSWER_WORDS;
    switch (call) {
    case DATA_PROCESSING:
        return fpu_data_processing(p.state, p.state_words, p.thumb, p.word, p.answer, p.answer_words);
    case COPROCESSOR_REGISTER:
        return fpu_coprocessor_register(p.state, p.state_words, p.thumb, p.word, p.answer, p.answer_words);
    case COPROCESSOR_LOAD_STORE:
        return fpu_coprocessor_load_store(p.state, p.state_words, p.window, p.window_words, p.base, p.thumb, p.word, p.answer,
                                          p.answer_words);
    case RUN:
        return fpu_run(p.state, p.state_words, p.window, p.window_words, p.base, p.thumb, p.list, p.list_words, p.answer,
                       p.answer_words);
    case WATCH:
        return fpu_watch(p.state, p.state_words, p.marks, p.window, p.window_words, p.window_marks, p.window_marks_bytes, p.base,
                         p.thumb, p.list, p.list_words, p.answer, p.answer_words);
    default:
        return fpu_origin(p.state, p.state_words, p.marks, p.window, p.window_words, p.window_marks, p.window_marks_bytes, p.base,
                          p.thumb, p.list, p.list_words, p.place, p.pairs, p.pairs_words, p.answer, p.answer_words + ORIGIN_MORE);
    }
}

static void answer(uint32_t count, uint32_t place, uint32_t address, uint32_t word)
{
    same("the count", p.answer[FPU_ANSWER_COUNT], count);
    same("the place", p.answer[FPU_ANSWER_PLACE], place);
    same("the address", p.answer[FPU_ANSWER_ADDRESS], address);
    same("the word", p.answer[FPU_ANSWER_WORD], word);
    same("the known places", p.answer[FPU_ANSWER_KNOWN], known());
    for (size_t i = FPU_ANSWER_WORDS; i < answered; i++)
        same("a word on the origin", p.answer[i], origin_answer[i - FPU_ANSWER_WORDS]);
    if (answered == FPU_ORIGIN_ANSWER_WORDS && p.answer[FPU_ANSWER_ORIGIN_REFUSAL] < 256)
        seen[p.answer[FPU_ANSWER_ORIGIN_REFUSAL]] = 1;
    same("what stands after the answer", p.answer[answered], 0xA5A5A5A5);
}

/* Places that have other words than were passed are named; all others have to be as they came. */
static void changed(int place, uint32_t word)
{
    same("a word of the state", p.state[place], word);
    given.state[place] = word;
}

static void unchanged(void)
{
    same_bytes("the state", p.state, given.state, sizeof p.state);
    same_bytes("the marks", p.marks, given.marks, sizeof p.marks);
    same_bytes("the window", p.window, given.window, sizeof p.window);
    same_bytes("the window marks", p.window_marks, given.window_marks, sizeof p.window_marks);
    same_bytes("the list", p.list, given.list, sizeof p.list);
    same_bytes("the pairs", p.pairs, given.pairs, sizeof p.pairs);
}

static void refused(enum call call, uint32_t n)
{
    origin(0, 0, 0);
    result(made(call), FPU_REFUSED + n);
    answer(0, 0, 0, 0);
    unchanged();
}

static void invalid(enum call call)
{
    result(made(call), FPU_INVALID_ARGUMENT);
    same_bytes("the answer", p.answer, given.answer, sizeof p.answer);
    unchanged();
}

/* s0 = s1 + s2, Undefined, s1 to r15, s0 from and to memory at r0 */
static const uint32_t ADD = 0xEE300A81, UNDEFINED = 0xEEB70A40, TO_R15 = 0xEE10FA90, LOAD = 0xED900A00, STORE = 0xED800A01;

/* s0 doubled, compared with zero, the flags to NZCV, and s0 doubled where they are equal */
static const uint32_t LIST[] = {0xEE300A00, 0xEEB50A40, 0xEEF1FA10, 0x0E300A00};

static void new_machine(void)
{
    fresh("a new machine");
    for (int i = 0; i < FPU_STATE_WORDS; i++)
        same("a word of the state", p.state[i], i == FPU_PLACE_FPEXC ? 0x40000000 : 0);
    same("what stands after the state", p.state[FPU_STATE_WORDS], 0x5A5A5A5A);
    for (size_t words = 0; words < FPU_STATE_WORDS + 2; words++) {
        if (words == FPU_STATE_WORDS)
            continue;
        memset(p.state, 0x33, sizeof p.state);
        given = p;
        result(fpu_new(p.state, words), FPU_INVALID_ARGUMENT);
        same_bytes("the state", p.state, given.state, sizeof p.state);
    }
}

static void single_calls(void)
{
    fresh("a sum");
    p.state[1] = 0x3F800000;
    p.state[2] = 0x40000000;
    p.word = ADD;
    result(made(DATA_PROCESSING), FPU_FINISHED);
    answer(0, 0, 0, 0);
    changed(0, 0x40400000);
    unchanged();

    for (uint32_t thumb = 0; thumb < 2; thumb++) {
        fresh("an undefined word");
        p.state[FPU_PLACE_R0 + 15] = 0x1000;
        p.thumb = thumb;
        p.word = UNDEFINED;
        result(made(DATA_PROCESSING), FPU_UNDEFINED);
        answer(0, 0, thumb ? 0xFFC : 0xFF8, UNDEFINED);
        unchanged();

        fresh("a branch");
        p.state[1] = 0x1237;
        p.thumb = thumb;
        p.word = TO_R15;
        result(made(COPROCESSOR_REGISTER), FPU_BRANCHED);
        answer(0, 0, 0, 0);
        changed(FPU_PLACE_R0 + 15, thumb ? 0x1236 : 0x1234);
        unchanged();
    }

    fresh("FPSCR in three words");
    p.state[FPU_PLACE_R0] = 0xA7654321;
    p.word = 0xEEE10A10; /* r0 to FPSCR */
    result(made(COPROCESSOR_REGISTER), FPU_FINISHED);
    answer(0, 0, 0, 0);
    changed(FPU_PLACE_FPSCR_FLAGS, 0xA0000000);
    changed(FPU_PLACE_FPSCR_CONTROL, 0x07654320);
    changed(FPU_PLACE_FPSCR_EXCEPTIONS, FPU_EXCEPTION_INVALID);
    unchanged();
    p.word = 0xEEF11A10; /* FPSCR to r1 */
    result(made(COPROCESSOR_REGISTER), FPU_FINISHED);
    changed(FPU_PLACE_R0 + 1, 0xA7654321);
    unchanged();

    fresh("a sum that is inexact");
    p.state[0] = 0x3F800000;
    p.state[1] = 0x33000000;
    p.state[FPU_PLACE_FPSCR_EXCEPTIONS] = FPU_EXCEPTION_OVERFLOW;
    p.word = 0xEE301A20; /* FADDS s2, s0, s1 */
    result(made(DATA_PROCESSING), FPU_FINISHED);
    answer(0, 0, 0, 0);
    changed(2, 0x3F800000);
    changed(FPU_PLACE_FPSCR_EXCEPTIONS, FPU_EXCEPTION_OVERFLOW | FPU_EXCEPTION_INEXACT);
    unchanged();

    fresh("a quotient by zero");
    p.state[0] = 0x3F800000;
    p.word = 0xEE801A20; /* FDIVS s2, s0, s1 */
    result(made(DATA_PROCESSING), FPU_FINISHED);
    answer(0, 0, 0, 0);
    changed(2, 0x7F800000);
    changed(FPU_PLACE_FPSCR_EXCEPTIONS, FPU_EXCEPTION_DIVISION_BY_ZERO);
    unchanged();

    fresh("a load");
    p.state[FPU_PLACE_R0] = 0x8004;
    p.word = LOAD;
    result(made(COPROCESSOR_LOAD_STORE), FPU_FINISHED);
    answer(0, 0, 0, 0);
    changed(0, 8);
    unchanged();

    fresh("a store");
    p.state[0] = 5;
    p.state[FPU_PLACE_R0] = 0x8004;
    p.word = STORE;
    result(made(COPROCESSOR_LOAD_STORE), FPU_FINISHED);
    answer(0, 0, 0, 0);
    same("the word stored", p.window[2], 5);
    given.window[2] = 5;
    unchanged();
}

static void runs(void)
{
    static const uint32_t foreign[] = {0xEE300A00, 0xE3A00000}, undefined[] = {0xEE300A00, 0xEEB70A40},
                          branched[] = {0xEE300A00, 0xEE10FA90};
    for (int call = RUN; call < CALLS; call++) {
        fresh("a run");
        list(LIST, 4);
        result(made(call), FPU_FINISHED);
        answer(4, 0, 0, 0);
        changed(FPU_PLACE_R0 + 15, 16);
        changed(FPU_PLACE_FPSCR_FLAGS, 0x60000000);
        changed(FPU_PLACE_NZCV, 0x60000000);
        unchanged();

        fresh("a run up to a foreign word");
        list(foreign, 2);
        result(made(call), FPU_FOREIGN);
        answer(1, 0, 0, 0);
        changed(FPU_PLACE_R0 + 15, 4);
        unchanged();

        fresh("a run up to an undefined word");
        p.state[FPU_PLACE_R0 + 15] = 0x1000;
        list(undefined, 2);
        result(made(call), FPU_UNDEFINED);
        answer(1, 0, 0xFFC, UNDEFINED);
        changed(FPU_PLACE_R0 + 15, 0x1004);
        unchanged();

        fresh("a run up to a branch");
        p.state[1] = 0x1237;
        list(branched, 2);
        result(made(call), FPU_BRANCHED);
        answer(2, 0, 0, 0);
        changed(FPU_PLACE_R0 + 15, 0x1234);
        unchanged();
    }

    fresh("a watched run that hangs");
    list(LIST, 4);
    p.marks[0] &= ~FPU_MARK(FPU_PLACE_S0);
    result(made(WATCH), FPU_HANGS);
    answer(3, FPU_PLACE_NZCV, 0, 0);
    given.marks[0] &= ~(FPU_MARK(FPU_PLACE_FPSCR_FLAGS) | FPU_MARK(FPU_PLACE_NZCV) | FPU_MARK(FPU_PLACE_FPSCR_EXCEPTIONS));
    changed(FPU_PLACE_R0 + 15, 12);
    changed(FPU_PLACE_FPSCR_FLAGS, 0x60000000);
    changed(FPU_PLACE_NZCV, 0x60000000);
    unchanged();

    fresh("an operand that is unknown: so are the exceptions");
    p.list[0] = 0xEE301A20;
    p.list_words = 1;
    p.state[0] = 0x7F7FFFFF;
    p.state[1] = 0x7F7FFFFF;
    p.marks[0] &= ~FPU_MARK(FPU_PLACE_S0 + 1);
    result(made(WATCH), FPU_FINISHED);
    answer(1, 0, 0, 0);
    given.marks[0] &= ~(FPU_MARK(FPU_PLACE_S0 + 2) | FPU_MARK(FPU_PLACE_FPSCR_EXCEPTIONS));
    changed(2, 0x7F800000);
    changed(FPU_PLACE_R0 + 15, 4);
    changed(FPU_PLACE_FPSCR_EXCEPTIONS, FPU_EXCEPTION_OVERFLOW | FPU_EXCEPTION_INEXACT);
    unchanged();

    fresh("an unknown word of the window");
    p.list[0] = 0xED900A00;
    p.list_words = 1;
    p.state[FPU_PLACE_R0] = 0x800C;
    p.window_marks[3] = 0;
    result(made(WATCH), FPU_FINISHED);
    answer(1, 0, 0, 0);
    given.marks[0] &= ~FPU_MARK(FPU_PLACE_S0);
    changed(0, 10);
    changed(FPU_PLACE_R0 + 15, 4);
    unchanged();

    for (int i = 0; i < 2 * FPU_STATE_WORDS; i++) {
        uint32_t place = (uint32_t)i / 2;
        fresh("a place that is unknown, with bits above the last place");
        p.marks[0] = FPU_MARKS_ALL ^ FPU_MARK(place) ^ 0xA560000000000000;
        p.place = place;
        origin(0, place, 0);
        result(made(i % 2 ? ORIGIN : WATCH), FPU_FINISHED);
        answer(0, 0, 0, 0);
        given.marks[0] = FPU_MARKS_ALL ^ FPU_MARK(place);
        unchanged();
    }
}

/* A word by the call and by both runs: what it sets of FPSCR 4:0, beside what was set, and what it leaves in s0. */
static void raised(const char *name, uint32_t word, uint32_t s0, uint32_t s1, uint32_t s2, uint32_t control, uint32_t expected, uint32_t set)
{
    for (int call = 0; call < CALLS; call += call == DATA_PROCESSING ? RUN : 1)
        for (uint32_t was = 0; was < 32; was++) {
            fresh(name);
            p.state[0] = s0;
            p.state[1] = s1;
            p.state[2] = s2;
            p.state[FPU_PLACE_FPSCR_CONTROL] = control;
            p.state[FPU_PLACE_FPSCR_EXCEPTIONS] = was;
            p.word = word;
            list(&word, 1);
            result(made(call), FPU_FINISHED);
            answer(call != DATA_PROCESSING, 0, 0, 0);
            changed(0, expected);
            changed(FPU_PLACE_FPSCR_EXCEPTIONS, was | set);
            given.state[FPU_PLACE_FPSCR_FLAGS] = p.state[FPU_PLACE_FPSCR_FLAGS];
            given.state[FPU_PLACE_R0 + 15] = p.state[FPU_PLACE_R0 + 15];
            unchanged();
        }
}

static void exceptions(void)
{
    raised("an exact sum", ADD, 5, 0x3F800000, 0x40000000, 0, 0x40400000, 0);
    raised("an inexact sum", ADD, 5, 0x3F800000, 0x33000000, 0, 0x3F800000, FPU_EXCEPTION_INEXACT);
    raised("an inexact sum, rounded up", ADD, 5, 0x3F800000, 0x33000000, 0x00400000, 0x3F800001, FPU_EXCEPTION_INEXACT);
    raised("infinity less infinity", ADD, 5, 0x7F800000, 0xFF800000, 0, 0x7FC00000, FPU_EXCEPTION_INVALID);
    raised("a sum with a quiet NaN", ADD, 5, 0x7FC00001, 0x3F800000, 0, 0x7FC00001, 0);
    raised("a sum with a signalling NaN", ADD, 5, 0x7F800001, 0x3F800000, 0, 0x7FC00001, FPU_EXCEPTION_INVALID);
    raised("a quotient by zero", 0xEE800A81, 5, 0xBF800000, 0, 0, 0xFF800000, FPU_EXCEPTION_DIVISION_BY_ZERO);
    raised("a product that overflows", 0xEE200A81, 5, 0x7F7FFFFF, 0x40000000, 0, 0x7F800000, FPU_EXCEPTION_OVERFLOW | FPU_EXCEPTION_INEXACT);
    raised("a tiny product that rounds to 0", 0xEE200A81, 5, 1, 0x3F000000, 0, 0, FPU_EXCEPTION_UNDERFLOW | FPU_EXCEPTION_INEXACT);
    raised("a subnormal product, exact", 0xEE200A81, 5, 0x00800000, 0x3F000000, 0, 0x00400000, 0);
    raised("the same, flushed", 0xEE200A81, 5, 0x00800000, 0x3F000000, 0x01000000, 0, FPU_EXCEPTION_UNDERFLOW);
    raised("a root of a negative number", 0xEEB10AE0, 5, 0xBF800000, 0, 0, 0x7FC00000, FPU_EXCEPTION_INVALID);
    raised("an integer out of range", 0xEEBD0AE0, 5, 0x4F000000, 0, 0, 0x7FFFFFFF, FPU_EXCEPTION_INVALID);
    raised("an integer that is rounded", 0xEEBD0AE0, 5, 0x3FC00000, 0, 0, 1, FPU_EXCEPTION_INEXACT);
    raised("FCMP of a quiet NaN", 0xEEB40A60, 5, 0x7FC00000, 0, 0, 5, 0);
    raised("FCMPE of a quiet NaN", 0xEEB40AE0, 5, 0x7FC00000, 0, 0, 5, FPU_EXCEPTION_INVALID);
    raised("FCMP of a signalling NaN", 0xEEB40A60, 5, 0x7F800001, 0, 0, 5, FPU_EXCEPTION_INVALID);
    raised("a move of a signalling NaN", 0xEEB00A60, 5, 0x7F800001, 0, 0, 0x7F800001, 0);
}

/* The marks after one word of which some places are unknown: those that it makes unknown, of those that it writes. */
static void marked(const char *name, uint32_t word, uint64_t unknown, uint64_t after)
{
    fresh(name);
    p.state[1] = p.state[2] = 0x3F800000;
    p.marks[0] &= ~unknown;
    list(&word, 1);
    result(made(WATCH), FPU_FINISHED);
    same("the marks", p.marks[0], FPU_MARKS_ALL & ~after);
    same("the known places", p.answer[FPU_ANSWER_KNOWN], known());
}

static void marks_of_exceptions(void)
{
    const uint64_t s0 = FPU_MARK(0), s1 = FPU_MARK(1), r0 = FPU_MARK(FPU_PLACE_R0), flags = FPU_MARK(FPU_PLACE_FPSCR_FLAGS),
                   control = FPU_MARK(FPU_PLACE_FPSCR_CONTROL), nzcv = FPU_MARK(FPU_PLACE_NZCV), e = FPU_MARK(FPU_PLACE_FPSCR_EXCEPTIONS);
    marked("a sum of known operands", ADD, s0, 0);
    marked("a sum with an unknown operand", ADD, s1, s0 | s1 | e);
    marked("a sum with the exceptions unknown", ADD, s0 | e, e);
    marked("a compare with an unknown operand", 0xEEB40A60, s1, s1 | flags | e);
    marked("widening, the control bits unknown", 0xEEB71AE0, control, FPU_MARK(2) | FPU_MARK(3) | control);
    marked("narrowing, the control bits unknown", 0xEEB70BC1, control, s0 | control | e);
    marked("from an integer, the control bits unknown", 0xEEB80AE0, control, s0 | control);
    marked("to an integer by the mode, the control bits unknown", 0xEEBD0A60, control, s0 | control | e);
    marked("to an integer towards zero, the control bits unknown", 0xEEBD0AE0, control | s0, control);
    marked("from an integer to a double, the operand unknown", 0xEEB81BE0, s1, s1 | FPU_MARK(2) | FPU_MARK(3) | e);
    marked("a move of an unknown single", 0xEEB00A60, s1, s0 | s1);
    marked("FPSCR to r0, the exceptions unknown", 0xEEF10A10, e, e | r0);
    marked("FPSCR to NZCV, the exceptions unknown", 0xEEF1FA10, e | nzcv, e);
    marked("r0 to FPSCR", 0xEEE10A10, flags | control | e, 0);
    marked("r0 to FPSCR, r0 unknown", 0xEEE10A10, r0, r0 | flags | control | e);
}

/* LIST with s0 unknown hangs on place 51, after three words: what it leaves, asked for a place with so much room for pairs. */
static void hung(const char *name, uint32_t place, size_t pairs_words)
{
    fresh(name);
    list(LIST, 4);
    p.marks[0] &= ~FPU_MARK(FPU_PLACE_S0);
    p.place = place;
    p.pairs_words = pairs_words;
}

/* Calls, with the chain expected: its pairs are the first of the list, and all else of it is as it came. */
static void chained(uint32_t first, const uint32_t *pairs, uint32_t count)
{
    origin(0, first, count);
    result(made(ORIGIN), FPU_HANGS);
    answer(3, FPU_PLACE_NZCV, 0, 0);
    for (uint32_t i = 0; i < 2 * count; i++) {
        same("a word of the pairs", p.pairs[i], pairs[i]);
        given.pairs[i] = pairs[i];
    }
    given.marks[0] &= ~(FPU_MARK(FPU_PLACE_FPSCR_FLAGS) | FPU_MARK(FPU_PLACE_NZCV) | FPU_MARK(FPU_PLACE_FPSCR_EXCEPTIONS));
    changed(FPU_PLACE_R0 + 15, 12);
    changed(FPU_PLACE_FPSCR_FLAGS, 0x60000000);
    changed(FPU_PLACE_NZCV, 0x60000000);
    unchanged();
}

static void origin_refused(uint32_t refusal)
{
    origin(refusal, 0, 0);
    result(made(ORIGIN), FPU_HANGS);
    answer(3, FPU_PLACE_NZCV, 0, 0);
    given.marks[0] = p.marks[0];
    memcpy(given.state, p.state, sizeof given.state);
    unchanged();
}

static void origins(void)
{
    static const uint32_t nzcv[] = {0, 0, 1, 48, 2, 51};
    enum { ROOM = 2 * 3 * FPU_PAIRS_PER_WORD };
    hung("the origin of a hang", FPU_PLACE_NZCV, 2 * PAIRS);
    chained(0, nzcv, 3);
    hung("the origin of a hang, no more room than has to be", FPU_PLACE_NZCV, ROOM);
    chained(0, nzcv, 3);
    hung("the origin of the flags", FPU_PLACE_FPSCR_FLAGS, ROOM);
    chained(0, nzcv, 2);
    hung("the origin of s0", FPU_PLACE_S0, ROOM);
    chained(0, nzcv, 1);

    hung("a place beyond the map", FPU_STATE_WORDS + 4, ROOM);
    origin_refused(FPU_REFUSED_PLACE);
    hung("a place far beyond the map, with no room", 0xFFFFFFFF, 0);
    origin_refused(FPU_REFUSED_PLACE);
    hung("the last place of the map, which is known", FPU_STATE_WORDS + 3, ROOM);
    origin_refused(FPU_REFUSED_KNOWN);
    hung("a place that is known, with no room", FPU_PLACE_S0 + 1, 0);
    origin_refused(FPU_REFUSED_KNOWN);
    hung("a pair too few", FPU_PLACE_NZCV, ROOM - 2);
    origin_refused(FPU_REFUSED_PAIRS);
    hung("no pairs", FPU_PLACE_S0, 0);
    origin_refused(FPU_REFUSED_PAIRS);

    /* no words: an unknown place is its own chain, with no room too */
    for (uint32_t place = 0; place < FPU_STATE_WORDS + 4; place++) {
        fresh("a place that is never written");
        p.marks[0] = 0;
        memset(p.window_marks, 0, 4);
        p.place = place;
        p.pairs_words = place % 2 * 2;
        origin(0, place, 0);
        result(made(ORIGIN), FPU_FINISHED);
        answer(0, 0, 0, 0);
        unchanged();
    }

    fresh("a word of the window, stored and loaded");
    list((const uint32_t[]){0xED800A01, 0xEDD01A01}, 2); /* FSTS s0, [r0, 4]; FLDS s3, [r0, 4] */
    p.state[0] = 5;
    p.state[FPU_PLACE_R0] = 0x8000;
    p.marks[0] &= ~FPU_MARK(0);
    p.place = 3;
    origin(0, 0, 2);
    result(made(ORIGIN), FPU_FINISHED);
    answer(2, 0, 0, 0);
    same_bytes("the pairs", p.pairs, (const uint32_t[]){0, FPU_STATE_WORDS + 1, 1, 3}, 4 * sizeof *p.pairs);
    memcpy(given.pairs, p.pairs, 4 * sizeof *p.pairs);
    same("the word stored", p.window[1], 5);
    given.window[1] = 5;
    given.window_marks[1] = 0;
    given.marks[0] &= ~FPU_MARK(3);
    changed(3, 5);
    changed(FPU_PLACE_R0 + 15, 8);
    unchanged();
}

static void refusals(void)
{
    for (int call = COPROCESSOR_LOAD_STORE; call < CALLS; call++) {
        fresh("a window of 16,385 words");
        p.word = LOAD;
        p.window_words = p.window_marks_bytes = FPU_WINDOW_MOST_WORDS + 1;
        p.base = 2;
        refused(call, 2);

        fresh("a base that is no multiple of 4");
        p.word = LOAD;
        p.base = 0xFFFFFFFA;
        refused(call, 3);

        fresh("a window that ends beyond the last address");
        p.word = LOAD;
        p.base = 0xFFFFFFF4;
        refused(call, 4);

        fresh("a window that ends at the last address");
        p.word = LOAD;
        p.base = 0xFFFFFFF0;
        result(made(call), FPU_FINISHED);
        answer(0, 0, 0, 0);
        unchanged();
    }
    for (int call = RUN; call < CALLS; call++) {
        fresh("a list of 4,097 words");
        p.list_words = FPU_LIST_MOST_WORDS + 1;
        p.base = 2;
        p.thumb = 1;
        refused(call, 1);

        fresh("a run in Thumb state");
        list(LIST, 4);
        p.thumb = 1;
        refused(call, 5);
    }
    for (int call = WATCH; call < CALLS; call++) {
        fresh("a window mark too few");
        list(LIST, 4);
        p.window_marks_bytes = 3;
        p.window_marks[1] = 2;
        p.marks[0] ^= 0xA560000000000000;
        refused(call, 6);

        fresh("a window mark of 2");
        list(LIST, 4);
        p.window_marks[3] = 2;
        p.marks[0] = ~(uint64_t)0;
        p.place = 1000;
        p.pairs_words = 0;
        refused(call, 7);
    }
}

static void invalid_arguments(void)
{
    for (int call = 0; call < CALLS; call++) {
        for (int sort = 0; sort < (call == ORIGIN ? 12 : 10); sort++) {
            /* every word here is one that a call refuses or acts upon */
            fresh("an invalid argument");
            p.word = call == COPROCESSOR_REGISTER ? TO_R15 : call == DATA_PROCESSING ? ADD : LOAD;
            p.state[1] = p.state[2] = 0x3F800000;
            p.base = 2;
            p.marks[0] ^= 0xA560000000000000;
            list(LIST, 4);
            switch (sort) {
            case 0: p.state_words--; break;
            case 1: p.state_words++; break;
            case 2: p.answer_words--; break;
            case 3: p.answer_words++; break;
            case 4: p.thumb = 2; break;
            case 5: p.state[FPU_PLACE_FPSCR_FLAGS] = 0x08000000; break;
            case 6: p.state[FPU_PLACE_FPSCR_CONTROL] = 0x10000000; break;
            case 7: p.state[FPU_PLACE_FPSCR_CONTROL] = 0x00000010; break;
            case 8: p.state[FPU_PLACE_FPSCR_EXCEPTIONS] = 0x00000020; break;
            case 9: p.state[FPU_PLACE_NZCV] = 0x00000001; break;
            case 10: p.pairs_words++; break;
            default: p.pairs_words = 1; break;
            }
            invalid(call);
        }
    }
}

/* Its results are no kinds: 1 and 0 say whether the condition holds. */
static void condition(uint32_t condition, uint32_t nzcv, uint32_t expected)
{
    same("the result", fpu_check_condition(condition, nzcv), expected);
}

static void conditions(void)
{
    doing = "a condition";
    condition(0, 0x40000000, 1);
    condition(0, 0xB0000000, 0);
    condition(1, 0x40000000, 0);
    condition(1, 0, 1);
    condition(10, 0x80000000, 0);
    condition(10, 0x90000000, 1);
    condition(14, 0xF0000000, 1);
    condition(0xFFFFFFF0, 0x40000000, 1);
    for (uint32_t bit = 1; bit < 0x10000000; bit *= 2)
        condition(14, 0x40000000 + bit, FPU_INVALID_ARGUMENT);
}

/* Of every operation a word, in the order of their numbers, and the same with all bits changed that are not looked at. */
static void operations(void)
{
    static const uint32_t words[] = {
        0xEE800A40, 0xEE000A00, 0xEE000A40, 0xEE100A00, 0xEE100A40, 0xEE200A00, 0xEE200A40, 0xEE300A00, 0xEE300A40,
        0xEE800A00, 0xEEB00A40, 0xEEB00AC0, 0xEEB10A40, 0xEEB10AC0, 0xEEB40A40, 0xEEB40AC0, 0xEEB50A40, 0xEEB50AC0,
        0xEEB70AC0, 0xEEB80A40, 0xEEB80AC0, 0xEEBC0A40, 0xEEBC0AC0, 0xEEBD0A40, 0xEEBD0AC0,
    };
    doing = "an operation";
    for (uint32_t n = 0; n < sizeof words / sizeof *words; n++) {
        same("the number", fpu_operation(words[n]), n);
        same("the number", fpu_operation(words[n] ^ 0xFF00FF3F), n);
    }
    same("FADD", fpu_operation(0xEE300A00), FPU_OPERATION_FADD);
    same("FTOSIZ", fpu_operation(0xEEBD0BC0), FPU_OPERATION_FTOSIZ);
}

/* A period's grants to so many routines; the lists have an element more than a call may touch. */
static void granted(const char *name, uint32_t period, const uint32_t shares[10], const uint32_t limits[10], const uint32_t left[10],
                    size_t routines, uint32_t expected, const uint32_t grants[10])
{
    uint32_t lent[10];
    doing = name;
    for (size_t i = 0; i < 10; i++)
        lent[i] = 0xA5A5A5A5;
    result(fpu_grant(period, shares, routines, limits, routines, left, routines, lent, routines), expected);
    same_bytes("the grants", lent, grants, routines * sizeof *lent);
    same("the word after them", lent[routines], 0xA5A5A5A5);
}

static void grants(void)
{
    static const uint32_t none[10], threes[10] = {3, 3, 3, 3, 3, 3, 3, 3, 3, 3};
    static const uint32_t most[10] = {0xFFFFFFFF, 0xFFFFFFFF, 0xFFFFFFFF, 0xFFFFFFFF, 0xFFFFFFFF, 0xFFFFFFFF, 0xFFFFFFFF, 0xFFFFFFFF};
    granted("two of period 3", 3, none, threes, threes, 2, FPU_FINISHED, (const uint32_t[10]){2, 1});
    granted("a period that is not used up", 9, none, threes, (const uint32_t[10]){2, 9}, 2, FPU_FINISHED, (const uint32_t[10]){2, 3});
    granted("eight of the largest period", 0xFFFFFFFF, none, most, most, 8, FPU_FINISHED,
            (const uint32_t[10]){0x20000000, 0x20000000, 0x20000000, 0x20000000, 0x20000000, 0x20000000, 0x20000000, 0x1FFFFFFF});
    granted("no routine", 3, none, none, none, 0, FPU_REFUSED_ROUTINES, none);
    granted("nine routines", 3, threes, none, none, 9, FPU_REFUSED_ROUTINES, none);
    granted("a share above its limit", 0, threes, none, threes, 2, FPU_REFUSED_SHARE, none);
    granted("shares above the period", 1, (const uint32_t[10]){2}, (const uint32_t[10]){2}, none, 1, FPU_REFUSED_SHARES, none);
    granted("shares that add up past 2^32", 0xFFFFFFFF, most, most, none, 2, FPU_REFUSED_SHARES, none);

    /* one of the four lengths is another: the grants stay as they are */
    for (int which = 0; which < 4; which++) {
        uint32_t lent[3] = {7, 7, 7};
        size_t lengths[4] = {2, 2, 2, 2};
        lengths[which] = which % 2 ? 1 : 3;
        doing = "grants of unequal lengths";
        result(fpu_grant(9, none, lengths[0], threes, lengths[1], threes, lengths[2], lent, lengths[3]), FPU_INVALID_ARGUMENT);
        same_bytes("the grants", lent, (const uint32_t[3]){7, 7, 7}, sizeof lent);
    }
}

/* The sheet of a state in which every half has a word of its own, on a page of so many bytes; the page has some more that a call must not touch. */
static void sheet(const char *name, uint64_t marks, size_t bytes)
{
    uint32_t state[FPU_STATE_WORDS], kept[FPU_STATE_WORDS];
    uint8_t page[FPU_SHEET_BYTES + 8], expected[FPU_SHEET_BYTES + 8];
    doing = name;
    fpu_new(state, FPU_STATE_WORDS);
    for (uint32_t n = 0; n < 32; n++)
        state[n] = n * 0x11111111 ^ 0x89ABCDEF;
    memcpy(kept, state, sizeof kept);
    memset(page, 0xA5, sizeof page);
    memset(expected, 0xA5, sizeof expected);
    for (int d = 0; bytes >= FPU_SHEET_BYTES && d < 16; d++) {
        char line[64];
        snprintf(line, sizeof line, "%02d %08X %08X %c%c%17s\n", d, (unsigned)state[2 * d + 1], (unsigned)state[2 * d],
                 marks & FPU_MARK(2 * d + 1) ? 'K' : 'U', marks & FPU_MARK(2 * d) ? 'K' : 'U', "");
        memcpy(expected + 41 * d, line, 41);
    }
    result(fpu_sheet(state, FPU_STATE_WORDS, marks, page, bytes), bytes < FPU_SHEET_BYTES ? FPU_REFUSED_PAGE : FPU_FINISHED);
    same_bytes("the page", page, expected, sizeof page);
    same_bytes("the state", state, kept, sizeof state);
}

static void sheets(void)
{
    static const size_t lengths[] = {0, 1, 41, 655, 656, 657, 664};
    for (size_t i = 0; i < sizeof lengths / sizeof *lengths; i++) {
        sheet("a sheet of known words", FPU_MARKS_ALL, lengths[i]);
        sheet("a sheet of unknown words", 0, lengths[i]);
    }
    for (int place = 0; place < 64; place++) {
        sheet("a sheet of which one place is known", FPU_MARK(place), 656);
        sheet("a sheet of which one place is unknown", ~FPU_MARK(place), 657);
    }

    /* the first and the last line as they are printed */
    uint8_t page[FPU_SHEET_BYTES];
    fresh("the lines of d0 and d15");
    p.state[0] = 0x12345678;
    p.state[1] = 0x9ABCDEF0;
    p.state[30] = 0xDEADBEEF;
    p.state[31] = 0x00000001;
    result(fpu_sheet(p.state, FPU_STATE_WORDS, FPU_MARKS_ALL ^ FPU_MARK(0) ^ FPU_MARK(31), page, sizeof page), FPU_FINISHED);
    same_bytes("d0", page, "00 9ABCDEF0 12345678 KU                 \n", 41);
    same_bytes("d15", page + 615, "15 00000001 DEADBEEF UK                 \n", 41);

    /* an invalid state comes before a short page */
    for (int sort = 0; sort < 14; sort++) {
        uint8_t kept[FPU_SHEET_BYTES];
        fresh("a sheet of an invalid state");
        memset(page, 0xA5, sizeof page);
        memset(kept, 0xA5, sizeof kept);
        switch (sort % 7) {
        case 0: p.state_words--; break;
        case 1: p.state_words++; break;
        case 2: p.state[FPU_PLACE_FPSCR_FLAGS] = 0x08000000; break;
        case 3: p.state[FPU_PLACE_FPSCR_CONTROL] = 0x10000000; break;
        case 4: p.state[FPU_PLACE_FPSCR_CONTROL] = 0x00000010; break;
        case 5: p.state[FPU_PLACE_FPSCR_EXCEPTIONS] = 0x00000020; break;
        default: p.state[FPU_PLACE_NZCV] = 0x00000001; break;
        }
        given = p;
        result(fpu_sheet(p.state, p.state_words, FPU_MARKS_ALL, page, sort < 7 ? FPU_SHEET_BYTES : 655), FPU_INVALID_ARGUMENT);
        same_bytes("the page", page, kept, sizeof page);
        unchanged();
    }
}

int main(void)
{
    static const uint32_t every[] = {FPU_FINISHED, FPU_FOREIGN, FPU_UNDEFINED, FPU_BRANCHED, FPU_HANGS, FPU_REFUSED_LIST_LONG,
                                     FPU_REFUSED_WINDOW_LONG, FPU_REFUSED_BASE_ALIGNMENT, FPU_REFUSED_WINDOW_END, FPU_REFUSED_THUMB,
                                     FPU_REFUSED_WINDOW_MARKS, FPU_REFUSED_WINDOW_MARK, FPU_REFUSED_PAGE, FPU_REFUSED_PLACE, FPU_REFUSED_KNOWN,
                                     FPU_REFUSED_PAIRS, FPU_REFUSED_ROUTINES, FPU_REFUSED_SHARE, FPU_REFUSED_SHARES, FPU_INVALID_ARGUMENT};
    new_machine();
    single_calls();
    runs();
    exceptions();
    marks_of_exceptions();
    origins();
    refusals();
    invalid_arguments();
    conditions();
    operations();
    sheets();
    grants();
    doing = "every result is seen";
    for (size_t i = 0; i < sizeof every / sizeof *every; i++)
        same("one", seen[every[i]], 1);
    printf("c: %lu passed, %lu failed\n", good, bad);
    return bad != 0 || good == 0;
}
