/* A worked example: document 01's four words under the watch, where s0 is unknown, and where the place that they hang on came from. It prints what
 * bindings/rust/example prints. It is C99, and C++ too. */
#include "fpu.h"

#include <inttypes.h>
#include <stdio.h>

#if FPU_VERSION_MAJOR != 1
#error "written for version 1 of fpu.h"
#endif

enum { WORDS = 4, WINDOW_WORDS = 4, PAIRS = FPU_PAIRS_PER_WORD * WORDS };

/* s0 = s0 + s0; compare s0 with 0; the flags to NZCV; if equal, s0 = s0 + s0 */
static const uint32_t list[WORDS] = {0xEE300A00, 0xEEB50A40, 0xEEF1FA10, 0x0E300A00};

/* the address of the window's first word */
static const uint32_t base = 0x8000;

/* What a watched run is lent, and changes. */
struct lent {
    uint32_t state[FPU_STATE_WORDS];
    uint64_t marks;
    uint32_t window[WINDOW_WORDS];
    uint8_t window_marks[WINDOW_WORDS];
};

/* The start: a new machine, of which all is known but s0, and a window of four words, all known. */
static struct lent start(void)
{
    struct lent l;
    int i;
    fpu_new(l.state, FPU_STATE_WORDS);
    l.marks = FPU_MARKS_ALL & ~FPU_MARK(FPU_PLACE_S0);
    for (i = 0; i < WINDOW_WORDS; i++) {
        l.window[i] = 0;
        l.window_marks[i] = 1;
    }
    return l;
}

int main(void)
{
    struct lent l = start();
    uint32_t answer[FPU_ORIGIN_ANSWER_WORDS], pairs[2 * PAIRS], place, kind, i;

    kind = fpu_watch(l.state, FPU_STATE_WORDS, &l.marks, l.window, WINDOW_WORDS, l.window_marks, WINDOW_WORDS, base, 0, list, WORDS, answer, FPU_ANSWER_WORDS);
    if (kind != FPU_HANGS) {
        printf("it was to hang: %" PRIu32 "\n", kind);
        return 1;
    }
    place = answer[FPU_ANSWER_PLACE];
    printf("hangs on place %" PRIu32 ": ran %" PRIu32 " of %d words, %" PRIu32 " of %d places known\n", place, answer[FPU_ANSWER_COUNT], WORDS,
           answer[FPU_ANSWER_KNOWN], FPU_STATE_WORDS + WINDOW_WORDS);

    /* where that place came from: fpu_origin runs the list again, from the same start, and lays pairs of a word and a place into the list lent last */
    l = start();
    kind = fpu_origin(l.state, FPU_STATE_WORDS, &l.marks, l.window, WINDOW_WORDS, l.window_marks, WINDOW_WORDS, base, 0, list, WORDS, place, pairs, 2 * PAIRS,
                      answer, FPU_ORIGIN_ANSWER_WORDS);
    if (kind != FPU_HANGS || answer[FPU_ANSWER_ORIGIN_REFUSAL] != 0) {
        printf("no chain: %" PRIu32 ", %" PRIu32 "\n", kind, answer[FPU_ANSWER_ORIGIN_REFUSAL]);
        return 1;
    }
    printf("place %" PRIu32 " came from place %" PRIu32 ", unknown at the start\n", place, answer[FPU_ANSWER_FIRST]);
    for (i = 0; i < answer[FPU_ANSWER_PAIRS]; i++)
        printf("  word %" PRIu32 " made place %" PRIu32 " unknown\n", pairs[2 * i], pairs[2 * i + 1]);
    return 0;
}
