/* What each function of include/fpu.h turns away, for tests: what can be wrong with its arguments, which of it is answered, and what each lent buffer
 * holds afterwards. Written from documents 01 and 02 and the header alone. */
#ifndef REFUSALS_H
#define REFUSALS_H

#include "fpu.h"

#include <stdio.h>
#include <string.h>

#define BIT(n) ((uint32_t)1 << (n))
#define SIZE(array) (sizeof(array) / sizeof *(array))

/* ---- the functions, what is lent to each, and what each turns away */

enum buffer { STATE, MARKS, WINDOW, WINDOW_MARKS, LIST, PAIRS, ANSWER, RECORD, PAGE, SHARES, LIMITS, LEFT, GRANTS, BUFFERS };
static const struct {
    const char *name;
    size_t size;
} sort[BUFFERS] = {{"state", 4}, {"marks", 8}, {"window", 4}, {"window marks", 1}, {"list", 4}, {"pairs", 4}, {"answer", 4},
                   {"record", 1}, {"page", 1}, {"shares", 4}, {"limits", 4}, {"left", 4}, {"grants", 4}};

/* What can be wrong, in the order in which it is put into arguments: what hangs on a length comes after it. */
enum wrong {
    STATE_WORDS, STATE_BIT, THUMB_VALUE, ANSWER_WORDS, LIST_LONG, WINDOW_LONG, BASE, WINDOW_END, THUMB, MARKS_COUNT, WINDOW_MARK, PLACE, KNOWN,
    FEW_PAIRS, HALF_PAIR, SHORT_PAGE, ROUTINES, SHARE, SUM, UNEQUAL, RECORD_STATE, RECORD_SIZE, WRONGS
};
static const char *const wrong_name[WRONGS] = {
    "state words", "state bit", "thumb value", "answer words", "list long", "window long", "base", "window end", "thumb", "marks count",
    "window mark", "place", "known", "few pairs", "half a pair", "short page", "routines", "share", "sum of shares", "unequal lists",
    "record state", "record size"};

/* The order of the answers: 255 first; 9 and 10 precede 1 to 7 (2026-03); the others follow by number. 11 to 13 come after the run's own. */
static const struct {
    enum wrong wrong;
    uint32_t result;
} order[] = {{STATE_WORDS, 255}, {STATE_BIT, 255}, {THUMB_VALUE, 255}, {ANSWER_WORDS, 255}, {HALF_PAIR, 255}, {UNEQUAL, 255},
             {RECORD_SIZE, 109}, {RECORD_STATE, 110}, {LIST_LONG, 101}, {WINDOW_LONG, 102}, {BASE, 103}, {WINDOW_END, 104}, {THUMB, 105},
             {MARKS_COUNT, 106}, {WINDOW_MARK, 107}, {SHORT_PAGE, 108}, {ROUTINES, 114}, {SHARE, 115}, {SUM, 116}};

enum call { NEW, DATA, REGISTER, LOAD_STORE, RUN, WATCH, ORIGIN, REPLAY, CONDITION, OPERATION, SHEET, GRANT, CALLS };
enum {
    SINGLE_CALL = BIT(STATE_WORDS) | BIT(STATE_BIT) | BIT(THUMB_VALUE) | BIT(ANSWER_WORDS),
    OVER_WINDOW = BIT(WINDOW_LONG) | BIT(BASE) | BIT(WINDOW_END),
    PLAIN_RUN = SINGLE_CALL | OVER_WINDOW | BIT(LIST_LONG) | BIT(THUMB),
    WATCHED = PLAIN_RUN | BIT(MARKS_COUNT) | BIT(WINDOW_MARK),
    WATCHED_LENT = BIT(STATE) | BIT(MARKS) | BIT(WINDOW) | BIT(WINDOW_MARKS) | BIT(ANSWER),
};
static const struct {
    const char *name;
    uint32_t lends, refuses;
} calls[CALLS] = {
    {"fpu_new", BIT(STATE), BIT(STATE_WORDS)},
    {"fpu_data_processing", BIT(STATE) | BIT(ANSWER), SINGLE_CALL},
    {"fpu_coprocessor_register", BIT(STATE) | BIT(ANSWER), SINGLE_CALL},
    {"fpu_coprocessor_load_store", BIT(STATE) | BIT(WINDOW) | BIT(ANSWER), SINGLE_CALL | OVER_WINDOW},
    {"fpu_run", BIT(STATE) | BIT(WINDOW) | BIT(LIST) | BIT(ANSWER), PLAIN_RUN},
    {"fpu_watch", WATCHED_LENT | BIT(LIST), WATCHED},
    {"fpu_origin", WATCHED_LENT | BIT(LIST) | BIT(PAIRS), WATCHED | BIT(PLACE) | BIT(KNOWN) | BIT(FEW_PAIRS) | BIT(HALF_PAIR)},
    {"fpu_replay", WATCHED_LENT | BIT(RECORD),
     BIT(STATE_WORDS) | BIT(ANSWER_WORDS) | BIT(RECORD_SIZE) | BIT(RECORD_STATE) | BIT(LIST_LONG) | OVER_WINDOW | BIT(WINDOW_MARK)},
    {"fpu_check_condition", 0, 0},
    {"fpu_operation", 0, 0},
    {"fpu_sheet", BIT(STATE) | BIT(PAGE), BIT(STATE_WORDS) | BIT(STATE_BIT) | BIT(SHORT_PAGE)},
    {"fpu_grant", BIT(SHARES) | BIT(LIMITS) | BIT(LEFT) | BIT(GRANTS), BIT(UNEQUAL) | BIT(ROUTINES) | BIT(SHARE) | BIT(SUM)},
};

/* Two that cannot hold at once: of one thumb, and of one place. */
static int never_both(enum wrong a, enum wrong b) { return (a == THUMB_VALUE && b == THUMB) || (a == PLACE && b == KNOWN); }

/* ---- the arguments of a call */

enum { ROOM = 80 * 4096 }; /* in bytes, for each buffer */
static struct {
    size_t count, more; /* elements, and 2^32 of them more that are lent and not looked at */
    uint8_t given[ROOM], expected[ROOM];
} lent[BUFFERS];
static uint32_t base, thumb, word, place, period;
static uint64_t sheet_marks;
static size_t record_words, record_list;

static size_t count(enum buffer b) { return lent[b].count + lent[b].more; }

static uint32_t given(enum buffer b, size_t i)
{
    uint32_t x;
    memcpy(&x, lent[b].given + 4 * i, 4);
    return x;
}
static void give(enum buffer b, size_t i, uint32_t x) { memcpy(lent[b].given + 4 * i, &x, 4); }
static void expect(enum buffer b, size_t i, uint32_t x) { memcpy(lent[b].expected + 4 * i, &x, 4); }

/* The list stores s1 at r0 + 4, doubles s0, which is 0 and alone unknown, compares it with zero, takes the flags to NZCV and doubles s0 where they
 * are equal: watched it hangs on place 51 before that. More words copy s1 to s3. */
static const uint32_t LIST_WORDS[] = {0xEDC00A01, 0xEE300A00, 0xEEB50A40, 0xEEF1FA10, 0x0E300A00};
static const uint32_t COPY = 0xEEF01A60, UNDEFINED = 0xEEB70A40, TO_R2 = 0xEE102A90, TO_R15 = 0xEE10FA90, AT = 0x8000;
enum { OUTSIDE = FPU_PLACE_FPSCR_FLAGS, R0 = FPU_PLACE_R0, R15 = R0 + 15, RUN_WORDS = 4 };
static const uint32_t own[] = {0xF0000000, 0x0FFFFFE0, 0xFFFFFFFF, 0xF0000000, 0x1F};  /* the bits of places 48 to 52 */
static const uint64_t PLACE_MARKS = (FPU_MARKS_ALL - 1) ^ 0xA560000000000000;          /* with bits above the last place */

/* What stands in a buffer before a call: element i. */
static uint64_t element(enum buffer b, size_t i)
{
    static const uint32_t last[] = {0x90000000, 0x0FFFFFE0, 0xFFFFFFFF, 0x50000000, 0x15};
    switch (b) {
    case STATE: return i == R0 ? AT : i < OUTSIDE ? i * 0x01010101 : i < FPU_STATE_WORDS ? last[i - OUTSIDE] : 0;
    case MARKS: return PLACE_MARKS;
    case WINDOW_MARKS: return i % 2;
    case LIST: return i < SIZE(LIST_WORDS) ? LIST_WORDS[i] : COPY;
    case SHARES: return 1;
    case LIMITS: return 3;
    case LEFT: return 2 + i;
    default: return 0xA5000000 + 0x01000000 * (uint32_t)b + i % 0x1000;
    }
}

/* Lends so many elements; those that were lent before stay as they are. */
static void lend(enum buffer b, size_t elements)
{
    for (size_t i = lent[b].count; i < elements; i++) {
        uint64_t x = element(b, i);
        memcpy(lent[b].given + sort[b].size * i, &x, sort[b].size);
    }
    lent[b].count = elements;
}

static void lend_window(size_t words)
{
    lend(WINDOW, words);
    lend(WINDOW_MARKS, words);
}

static uint32_t number(size_t i)
{
    const uint8_t *at = lent[RECORD].given + 4 * i;
    return at[0] | (uint32_t)at[1] << 8 | (uint32_t)at[2] << 16 | (uint32_t)at[3] << 24;
}
static void put_number(size_t i, uint32_t x)
{
    for (int k = 0; k < 4; k++)
        lent[RECORD].given[4 * i + k] = (uint8_t)(x >> 8 * k);
}

/* A record of so many state words and instruction words, with buffers for its window. */
static void record(size_t words, size_t list)
{
    record_words = words;
    record_list = list;
    lend(RECORD, 4 * (3 + 2 * words + list));
    put_number(0, 0x80000000 | (uint32_t)list);
    put_number(1, (uint32_t)words);
    for (size_t w = 0; w < words; w++) {
        put_number(2 + w, w < FPU_STATE_WORDS ? (uint32_t)element(STATE, w) : 0x70000000 + (uint32_t)w);
        put_number(2 + words + w, w < FPU_STATE_WORDS ? PLACE_MARKS >> w & 1 : w % 2);
    }
    put_number(2 + 2 * words, AT);
    for (size_t i = 0; i < list; i++)
        put_number(3 + 2 * words + i, (uint32_t)element(LIST, i));
    lend_window(words < FPU_STATE_WORDS ? 0 : words - FPU_STATE_WORDS);
}

static size_t answer_words(enum call call) { return call == ORIGIN ? FPU_ORIGIN_ANSWER_WORDS : FPU_ANSWER_WORDS; }

/* Arguments with which nothing is wrong. What a replay writes only is no state. */
static void fresh(enum call call)
{
    for (int b = 0; b < BUFFERS; b++)
        lent[b].count = lent[b].more = 0;
    base = AT;
    thumb = 0;
    word = call == REGISTER ? TO_R2 : call == LOAD_STORE ? LIST_WORDS[0] : COPY;
    place = FPU_PLACE_NZCV;
    period = 20;
    sheet_marks = PLACE_MARKS;
    lend(STATE, FPU_STATE_WORDS);
    lend(MARKS, 1);
    lend_window(5);
    lend(LIST, SIZE(LIST_WORDS));
    lend(PAIRS, 2 * FPU_PAIRS_PER_WORD * RUN_WORDS + 6);
    lend(ANSWER, answer_words(call));
    lend(PAGE, FPU_SHEET_BYTES + 5);
    for (int b = SHARES; b <= GRANTS; b++)
        lend(b, 3);
    if (call == REPLAY) {
        record(FPU_STATE_WORDS + 5, SIZE(LIST_WORDS));
        memset(lent[STATE].given, 0xDD, 4 * FPU_STATE_WORDS);
    }
}

/* ---- what is wrong with them, by the documents */

static size_t list_words(enum call call) { return call == REPLAY ? number(0) & 0x7FFFFFFF : count(LIST); }
static size_t window_words(enum call call) { return call == REPLAY ? number(1) - (size_t)FPU_STATE_WORDS : count(WINDOW); }
static uint32_t base_of(enum call call) { return call == REPLAY ? number(2 + 2 * (size_t)number(1)) : base; }

/* A bit outside a place's own, of places 48 to 52, as far as there are words. */
static int bit_outside(enum call call)
{
    for (size_t i = 0; i < 5 && (call == REPLAY || OUTSIDE + i < lent[STATE].count); i++)
        if ((call == REPLAY ? number(2 + OUTSIDE + i) : given(STATE, OUTSIDE + i)) & ~own[i])
            return 1;
    return 0;
}

/* A mark that is neither 0 nor 1: of the window, or of a record's places from one on, so many. */
static int no_mark(enum call call, size_t first, size_t marks)
{
    for (size_t i = 0; i < marks; i++)
        if ((call == REPLAY ? number(2 + number(1) + first + i) : lent[WINDOW_MARKS].given[i]) > 1)
            return 1;
    return 0;
}

static size_t words_run(void) { return lent[LIST].count < RUN_WORDS ? lent[LIST].count : RUN_WORDS; }

/* The places that the run makes unknown: 52 from the sum on, 48 by the compare, 51. */
static uint64_t made_unknown(void)
{
    return (words_run() > 1 ? FPU_MARK(52) : 0) | (words_run() > 2 ? FPU_MARK(48) : 0) | (words_run() > 3 ? FPU_MARK(51) : 0);
}

/* The window word that the list stores to, or their number. */
static size_t stored(void)
{
    uint32_t offset = given(STATE, R0) + 4 - base;
    return words_run() > 0 && offset / 4 < lent[WINDOW].count ? offset / 4 : lent[WINDOW].count;
}

static int known_after(size_t p)
{
    size_t i = p - FPU_STATE_WORDS;
    if (p < FPU_STATE_WORDS)
        return (PLACE_MARKS & ~made_unknown()) >> p & 1;
    return i < lent[WINDOW_MARKS].count && (lent[WINDOW_MARKS].given[i] == 1 || i == stored());
}

static int record_size(void)
{
    uint64_t words = number(1);
    return count(RECORD) < 8 || number(0) >> 31 == 0 || count(RECORD) != 4 * (3 + 2 * words + list_words(REPLAY)) || words < FPU_STATE_WORDS ||
           count(WINDOW) != words - FPU_STATE_WORDS || count(WINDOW_MARKS) != words - FPU_STATE_WORDS;
}

static int share_above_limit(void)
{
    for (size_t i = 0; i < lent[SHARES].count && i < lent[LIMITS].count; i++)
        if (given(SHARES, i) > given(LIMITS, i))
            return 1;
    return 0;
}

static uint64_t sum_of_shares(void)
{
    uint64_t sum = 0;
    for (size_t i = 0; i < lent[SHARES].count; i++)
        sum += given(SHARES, i);
    return sum;
}

static int holds(enum call call, enum wrong w)
{
    switch (w) {
    case STATE_WORDS: return count(STATE) != FPU_STATE_WORDS;
    case STATE_BIT: return bit_outside(call);
    case THUMB_VALUE: return thumb > 1;
    case ANSWER_WORDS: return count(ANSWER) != answer_words(call);
    case LIST_LONG: return list_words(call) > FPU_LIST_MOST_WORDS;
    case WINDOW_LONG: return window_words(call) > FPU_WINDOW_MOST_WORDS;
    case BASE: return base_of(call) % 4 != 0;
    case WINDOW_END: return base_of(call) + 4 * (uint64_t)window_words(call) > (uint64_t)1 << 32;
    case THUMB: return thumb == 1;
    case MARKS_COUNT: return count(WINDOW_MARKS) != count(WINDOW);
    case WINDOW_MARK: return no_mark(call, FPU_STATE_WORDS, call == REPLAY ? window_words(call) : lent[WINDOW_MARKS].count);
    case PLACE: return place >= FPU_STATE_WORDS + count(WINDOW);
    case KNOWN: return known_after(place);
    case FEW_PAIRS: return count(PAIRS) / 2 < FPU_PAIRS_PER_WORD * words_run();
    case HALF_PAIR: return count(PAIRS) % 2;
    case SHORT_PAGE: return count(PAGE) < FPU_SHEET_BYTES;
    case ROUTINES: return count(SHARES) == 0 || count(SHARES) > FPU_MOST_ROUTINES;
    case SHARE: return share_above_limit();
    case SUM: return sum_of_shares() > period;
    case UNEQUAL: return count(SHARES) != count(GRANTS) || count(LIMITS) != count(GRANTS) || count(LEFT) != count(GRANTS);
    case RECORD_STATE: return bit_outside(call) || no_mark(call, 0, FPU_STATE_WORDS);
    default: return record_size();
    }
}

/* Of a record of the wrong size nothing more is read. */
static uint32_t all_wrong(enum call call)
{
    uint32_t refuses = calls[call].refuses, set = 0;
    if (call == REPLAY && record_size())
        refuses &= BIT(STATE_WORDS) | BIT(ANSWER_WORDS) | BIT(RECORD_SIZE);
    for (int w = 0; w < WRONGS; w++)
        if (refuses & BIT(w) && holds(call, w))
            set |= BIT(w);
    return set;
}

/* ---- what is expected of a call */

static uint32_t known_places(const uint8_t *window_marks, uint64_t marks)
{
    uint32_t n = 0;
    for (int p = 0; p < FPU_STATE_WORDS; p++)
        n += marks >> p & 1;
    for (size_t i = 0; i < lent[WINDOW_MARKS].count; i++)
        n += window_marks[i] == 1;
    return n;
}

static void expect_answer(enum call call, uint32_t counted, uint32_t hung, uint32_t address, uint32_t at, uint32_t known)
{
    uint32_t words[FPU_ORIGIN_ANSWER_WORDS] = {counted, hung, address, at, known};
    memcpy(lent[ANSWER].expected, words, 4 * answer_words(call));
}

static void expect_chain(uint32_t set)
{
    static const uint32_t chain[] = {1, 0, 2, FPU_PLACE_FPSCR_FLAGS, 3, FPU_PLACE_NZCV};
    uint32_t refusal = set & BIT(PLACE) ? FPU_REFUSED_PLACE : set & BIT(KNOWN) ? FPU_REFUSED_KNOWN : set & BIT(FEW_PAIRS) ? FPU_REFUSED_PAIRS : 0;
    uint32_t pairs = place == 0 ? words_run() > 1 : place == FPU_PLACE_FPSCR_FLAGS ? 2 : place == FPU_PLACE_NZCV ? 3 : 0;
    expect(ANSWER, FPU_ANSWER_ORIGIN_REFUSAL, refusal);
    if (refusal != 0)
        return;
    expect(ANSWER, FPU_ANSWER_FIRST, place < FPU_STATE_WORDS ? 0 : place);
    expect(ANSWER, FPU_ANSWER_PAIRS, pairs);
    memcpy(lent[PAIRS].expected, chain, 8 * pairs);
}

static uint32_t expect_run(enum call call, uint32_t set)
{
    size_t all = lent[LIST].count, ran = call == RUN ? all : words_run();
    uint64_t marks = PLACE_MARKS & FPU_MARKS_ALL & ~made_unknown();
    int hangs = call != RUN && all > ran;
    if (stored() < lent[WINDOW].count) {
        expect(WINDOW, stored(), given(STATE, 1));
        lent[WINDOW_MARKS].expected[stored()] = 1;
    }
    if (ran > 2)
        expect(STATE, FPU_PLACE_FPSCR_FLAGS, 0x60000000);
    if (ran > 3)
        expect(STATE, FPU_PLACE_NZCV, 0x60000000);
    if (ran > SIZE(LIST_WORDS))
        expect(STATE, 3, given(STATE, 1));
    expect(STATE, R15, given(STATE, R15) + 4 * (uint32_t)ran);
    memcpy(lent[MARKS].expected, &marks, sizeof marks);
    expect_answer(call, (uint32_t)ran, hangs ? FPU_PLACE_NZCV : 0, 0, 0, call == RUN ? 0 : known_places(lent[WINDOW_MARKS].expected, marks));
    if (call == ORIGIN)
        expect_chain(set);
    return hangs ? FPU_HANGS : FPU_FINISHED;
}

/* What fpu_watch gives and leaves on the state that the record holds, as the header says. */
static uint32_t expect_replay(void)
{
    static uint32_t state[FPU_STATE_WORDS], window[FPU_WINDOW_MOST_WORDS], list[FPU_LIST_MOST_WORDS], answer[FPU_ANSWER_WORDS];
    static uint8_t window_marks[FPU_WINDOW_MOST_WORDS];
    size_t words = number(1), laid = words - FPU_STATE_WORDS, run = list_words(REPLAY);
    uint64_t marks = 0;
    for (size_t w = 0; w < FPU_STATE_WORDS; w++) {
        state[w] = number(2 + w);
        marks |= (uint64_t)number(2 + words + w) << w;
    }
    for (size_t w = 0; w < laid; w++) {
        window[w] = number(2 + FPU_STATE_WORDS + w);
        window_marks[w] = (uint8_t)number(2 + words + FPU_STATE_WORDS + w);
    }
    for (size_t i = 0; i < run; i++)
        list[i] = number(3 + 2 * words + i);
    uint32_t result = fpu_watch(state, FPU_STATE_WORDS, &marks, window, laid, window_marks, laid, base_of(REPLAY), 0, list, run, answer,
                                FPU_ANSWER_WORDS);
    memcpy(lent[STATE].expected, state, sizeof state);
    memcpy(lent[MARKS].expected, &marks, sizeof marks);
    memcpy(lent[WINDOW].expected, window, 4 * laid);
    memcpy(lent[WINDOW_MARKS].expected, window_marks, laid);
    memcpy(lent[ANSWER].expected, answer, sizeof answer);
    return result;
}

static void expect_sheet(void)
{
    for (int d = 0; d < 16; d++) {
        char line[64];
        snprintf(line, sizeof line, "%02d %08lX %08lX %c%c%17s\n", d, (unsigned long)given(STATE, 2 * d + 1), (unsigned long)given(STATE, 2 * d),
                 sheet_marks >> (2 * d + 1) & 1 ? 'K' : 'U', sheet_marks >> 2 * d & 1 ? 'K' : 'U', "");
        memcpy(lent[PAGE].expected + 41 * d, line, 41);
    }
}

/* One word at a time, as 2026-14 says it. */
static void expect_grants(void)
{
    uint32_t got[FPU_MOST_ROUTINES] = {0}, rest = period, taken;
    size_t routines = lent[SHARES].count;
    for (size_t i = 0; i < routines; i++) {
        got[i] = given(SHARES, i) < given(LEFT, i) ? given(SHARES, i) : given(LEFT, i);
        rest -= got[i];
    }
    do {
        taken = 0;
        for (size_t i = 0; i < routines && rest > 0; i++)
            if (got[i] < given(LIMITS, i) && got[i] < given(LEFT, i)) {
                got[i]++;
                rest--;
                taken++;
            }
    } while (taken > 0);
    memcpy(lent[GRANTS].expected, got, 4 * routines);
}

static void expect_new(void)
{
    memset(lent[STATE].expected, 0, 4 * FPU_STATE_WORDS);
    expect(STATE, FPU_PLACE_FPEXC, 0x40000000);
}

/* A single call on one of the words above. */
static uint32_t expect_single(enum call call)
{
    expect_answer(call, 0, 0, 0, 0, 0);
    if (call == DATA && word == UNDEFINED) {
        expect_answer(call, 0, 0, given(STATE, R15) - (thumb ? 4 : 8), word, 0);
        return FPU_UNDEFINED;
    }
    if (call == REGISTER && word == TO_R15) {
        expect(STATE, R15, given(STATE, 1) & ~(thumb ? 1u : 3u));
        return FPU_BRANCHED;
    }
    if (call == DATA)
        expect(STATE, 3, given(STATE, 1));
    else if (call == REGISTER)
        expect(STATE, R0 + 2, given(STATE, 1));
    else if (stored() < lent[WINDOW].count)
        expect(WINDOW, stored(), given(STATE, 1));
    return FPU_FINISHED;
}

static uint32_t expect_success(enum call call, uint32_t set)
{
    switch (call) {
    case NEW: expect_new(); return FPU_FINISHED;
    case SHEET: expect_sheet(); return FPU_FINISHED;
    case GRANT: expect_grants(); return FPU_FINISHED;
    case REPLAY: return expect_replay();
    case DATA:
    case REGISTER:
    case LOAD_STORE: return expect_single(call);
    default: return expect_run(call, set);
    }
}

/* Fills what is expected in each buffer, and gives the result. */
static uint32_t expected_of(enum call call, uint32_t set)
{
    uint32_t result = 0;
    for (size_t i = SIZE(order); i-- > 0;)
        if (set & BIT(order[i].wrong))
            result = order[i].result;
    for (int b = 0; b < BUFFERS; b++)
        memcpy(lent[b].expected, lent[b].given, sort[b].size * lent[b].count);
    if (result == 0)
        return expect_success(call, set);
    if (result == FPU_INVALID_ARGUMENT || call == SHEET)
        return result;
    if (call == GRANT) {
        memset(lent[GRANTS].expected, 0, 4 * lent[GRANTS].count);
        return result;
    }
    expect_answer(call, 0, 0, 0, 0, call < WATCH ? 0 : known_places(lent[WINDOW_MARKS].given, call == REPLAY ? 0 : PLACE_MARKS));
    if (call == REPLAY) {
        expect_new();
        memset(lent[MARKS].expected, 0, 8);
    }
    return result;
}

#endif
