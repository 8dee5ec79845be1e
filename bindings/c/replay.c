/* fpu_replay beside an independent reading of document 02's 2026-03 and 2026-07: records that are whole, that are damaged in each field alone and in two at once, and
 * that are cut or drawn out, with lent buffers of the right length and of others. Where the reading finds no refusal, the replay is compared with fpu_watch
 * on the state that the record holds. Each buffer has an element before and behind it that has to stay, and what a refusal may not touch has to stay.
 * It prints a line for each difference and 'replay: N records, M differ', and fails where one differs or a refusal was never seen. */
#include "fpu.h"

#include <stdio.h>
#include <string.h>

enum { NUMBERS = 3 + 2 * (FPU_STATE_WORDS + FPU_WINDOW_MOST_WORDS + 1) + FPU_LIST_MOST_WORDS + 1 };

static uint8_t bytes[4 * NUMBERS + 16];
static size_t length;
static unsigned long records, differing, seen[256];

static uint32_t number(size_t i)
{
    return bytes[4 * i] | (uint32_t)bytes[4 * i + 1] << 8 | (uint32_t)bytes[4 * i + 2] << 16 | (uint32_t)bytes[4 * i + 3] << 24;
}

/* how many instruction words: bit 31 is no part of it */
static uint32_t counted(void) { return number(0) & 0x7FFFFFFF; }

static void put(size_t i, uint32_t x)
{
    for (int k = 0; k < 4; k++)
        bytes[4 * i + k] = (uint8_t)(x >> 8 * k);
}

/* the numbers of a record's fields, in the order of the request's text */
static size_t words, list_words;
static size_t value(size_t w) { return 2 + w; }
static size_t mark(size_t w) { return 2 + words + w; }
static size_t base(void) { return 2 + 2 * words; }
static size_t instruction(size_t i) { return 3 + 2 * words + i; }

static uint64_t drawn = 0x9E3779B97F4A7C15;
static uint32_t draw(void)
{
    drawn ^= drawn << 13;
    drawn ^= drawn >> 7;
    drawn ^= drawn << 17;
    return (uint32_t)(drawn >> 16);
}

/* A record that is not refused. The words of its list add, compare, load, store and transfer. */
static void whole(size_t window, size_t list)
{
    static const uint32_t sorts[] = {0xEE300A00, 0xEE310B01, 0xEEB40A40, 0xEEF1FA10, 0xED900A01, 0xED800A02, 0xEC900A04, 0xEC800B04,
                                     0xEE100A10, 0xEE000A90, 0x0E300A00, 0xEEB80A40, 0xEE200A81, 0xEEF10A10, 0xEEB00A40, 0xEEBD0A40};
    words = FPU_STATE_WORDS + window;
    list_words = list;
    length = 4 * (3 + 2 * words + list);
    put(0, 0x80000000 | (uint32_t)list);
    put(1, (uint32_t)words);
    for (size_t w = 0; w < words; w++) {
        put(value(w), draw());
        put(mark(w), draw() % 8 != 0);
    }
    for (size_t w = 0; w < 32; w++)
        put(value(w), (draw() & 0x807FFFFF) | (120 + draw() % 16) << 23);
    put(value(32), 0x8000 + 4 * (draw() % 4));
    put(value(FPU_PLACE_FPSCR_FLAGS), draw() & 0xF0000000);
    put(value(FPU_PLACE_FPSCR_CONTROL), draw() % 4 == 0 ? draw() & 0x0FFFFFE0 : 0);
    put(value(FPU_PLACE_FPEXC), draw() % 8 == 0 ? draw() : 0x40000000);
    put(value(FPU_PLACE_NZCV), draw() & 0xF0000000);
    put(value(FPU_PLACE_FPSCR_EXCEPTIONS), draw() & 0x1F);
    put(base(), 0x8000);
    for (size_t i = 0; i < list; i++)
        put(instruction(i), sorts[draw() % 16] ^ (draw() % 4 == 0 ? (draw() & 0xF) << 12 : 0));
}

/* The first refusal that applies, by the request's text, or 0. */
static uint32_t refusal(size_t window, size_t marks)
{
    if (length < 8)
        return 9;
    uint64_t n = counted(), s = number(1);
    if (number(0) < 0x80000000 || length != 4 * (3 + 2 * s + n) || s < 53 || window != s - 53 || marks != s - 53)
        return 9;
    if (number(2 + 48) & 0x0FFFFFFF || number(2 + 49) & 0xF000001F || number(2 + 51) & 0x0FFFFFFF || number(2 + 52) > 0x1F)
        return 10;
    for (size_t p = 0; p < 53; p++)
        if (number(2 + s + p) > 1)
            return 10;
    uint64_t at = number(2 + 2 * s);
    if (n > 4096)
        return 1;
    if (s - 53 > 16384)
        return 2;
    if (at % 4 != 0)
        return 3;
    if (at + 4 * (s - 53) > (uint64_t)1 << 32)
        return 4;
    for (size_t w = 53; w < s; w++)
        if (number(2 + s + w) > 1)
            return 7;
    return 0;
}

static void differs(const char *what, uint32_t expected, uint32_t got)
{
    differing++;
    if (differing <= 20)
        printf("differs: %s, expected result %u, got %u, %zu bytes\n", what, expected, got, length);
}

struct buffers {
    uint32_t state[FPU_STATE_WORDS + 2];
    uint64_t marks[3];
    uint32_t window[FPU_WINDOW_MOST_WORDS + 3];
    uint8_t window_marks[FPU_WINDOW_MOST_WORDS + 3];
    uint32_t answer[FPU_ANSWER_WORDS + 2];
};
static struct buffers given, got, expected;

/* Replays what stands in the bytes with buffers of so many words and marks, a state of so many words and an answer of so many. */
static void tried(const char *what, size_t window, size_t marks, size_t state_words, size_t answer_words)
{
    static uint8_t kept[sizeof bytes];
    memcpy(kept, bytes, length);
    memset(&given, 0xA5, sizeof given);
    expected = got = given;
    uint32_t result = fpu_replay(bytes, length, got.state + 1, state_words, got.marks + 1, got.window + 1, window, got.window_marks + 1, marks,
                                 got.answer + 1, answer_words);
    uint32_t n = refusal(window, marks), as;
    if (state_words != FPU_STATE_WORDS || answer_words != FPU_ANSWER_WORDS) {
        as = FPU_INVALID_ARGUMENT;
    } else if (n != 0) {
        as = 100 + n;
        memset(expected.state + 1, 0, sizeof *expected.state * FPU_STATE_WORDS);
        expected.state[1 + FPU_PLACE_FPEXC] = 0x40000000;
        expected.marks[1] = 0;
        memset(expected.answer + 1, 0, sizeof *expected.answer * FPU_ANSWER_WORDS);
        for (size_t i = 0; i < marks; i++)
            expected.answer[1 + FPU_ANSWER_KNOWN] += expected.window_marks[1 + i] == 1;
    } else {
        static uint32_t list[FPU_LIST_MOST_WORDS];
        size_t s = number(1);
        expected.marks[1] = 0;
        for (size_t p = 0; p < 53; p++) {
            expected.state[1 + p] = number(2 + p);
            expected.marks[1] |= (uint64_t)number(2 + s + p) << p;
        }
        for (size_t w = 0; w < window; w++) {
            expected.window[1 + w] = number(55 + w);
            expected.window_marks[1 + w] = (uint8_t)number(2 + s + 53 + w);
        }
        for (size_t i = 0; i < counted(); i++)
            list[i] = number(3 + 2 * s + i);
        as = fpu_watch(expected.state + 1, FPU_STATE_WORDS, expected.marks + 1, expected.window + 1, window, expected.window_marks + 1, marks,
                       number(2 + 2 * s), 0, list, counted(), expected.answer + 1, FPU_ANSWER_WORDS);
    }
    records++;
    if (result < 256)
        seen[result]++;
    if (result != as || memcmp(&got, &expected, sizeof got) != 0 || memcmp(kept, bytes, length) != 0)
        differs(what, as, result);
}

static void replayed(const char *what)
{
    size_t s = length < 8 || number(1) < 53 || number(1) - 53 > FPU_WINDOW_MOST_WORDS + 1 ? 0 : number(1) - 53;
    tried(what, s, s, FPU_STATE_WORDS, FPU_ANSWER_WORDS);
}

/* What a number is damaged to. */
static uint32_t damaged(uint32_t x, unsigned how)
{
    switch (how) {
    case 0: return x + 1;
    case 1: return x - 1;
    case 2: return x ^ 0x80000000;
    case 3: return 2;
    case 4: return 256;
    case 5: return 0xFFFFFFFF;
    case 6: return 0;
    case 7: return 52;
    case 8: return x ^ 0x08000000;
    case 9: return x ^ 0x10000000;
    case 10: return x ^ 0x10;
    case 11: return x ^ 0x20;
    default: return draw();
    }
}
enum { WAYS = 13 };

/* The record as it was written before place 52: without its value and its mark, FPSCR 4:0 with place 49, and bit 31 of the count clear. */
static void made_old(void)
{
    put(value(FPU_PLACE_FPSCR_CONTROL), number(value(FPU_PLACE_FPSCR_CONTROL)) | number(value(FPU_PLACE_FPSCR_EXCEPTIONS)));
    for (size_t skipped = 0, i = 0; i < length / 4; i++) {
        if (i == value(FPU_PLACE_FPSCR_EXCEPTIONS) || i == mark(FPU_PLACE_FPSCR_EXCEPTIONS))
            skipped++;
        else
            put(i - skipped, number(i));
    }
    length -= 8;
    put(0, counted());
    put(1, (uint32_t)words - 1);
}

int main(void)
{
    /* whole records, of windows and lists of all sorts of lengths */
    static const size_t lengths[] = {0, 1, 2, 7, 63, 64, 65};
    for (size_t i = 0; i < sizeof lengths / sizeof *lengths; i++)
        for (size_t k = 0; k < sizeof lengths / sizeof *lengths; k++)
            for (int again = 0; again < 40; again++) {
                whole(lengths[i], lengths[k]);
                replayed("a whole record");
            }

    /* each number damaged alone, and with one other */
    for (int again = 0; again < 40; again++) {
        whole(again % 5, 3 + again % 3);
        size_t all = length / 4;
        for (size_t i = 0; i < all; i++)
            for (unsigned how = 0; how < WAYS; how++) {
                uint32_t was = number(i);
                put(i, damaged(was, how));
                replayed("one number damaged");
                /* the buffers of the record as it was written */
                tried("one number damaged, buffers as before", words - 53, words - 53, FPU_STATE_WORDS, FPU_ANSWER_WORDS);
                put(i, was);
            }
        for (int k = 0; k < 4000; k++) {
            size_t i = draw() % all, j = draw() % 4 == 0 ? draw() % 2 : draw() % all;
            uint32_t was_i = number(i), was_j = number(j);
            put(i, damaged(was_i, draw() % WAYS));
            put(j, damaged(number(j), draw() % WAYS));
            replayed("two numbers damaged");
            put(j, was_j);
            put(i, was_i);
        }
    }

    /* cut to every length and drawn out, and buffers of other lengths */
    whole(3, 5);
    for (size_t cut = 4 * (3 + 2 * words + list_words) + 9; cut-- > 0;) {
        length = cut;
        replayed("another length");
    }
    for (size_t w = 0; w < 6; w++)
        for (size_t v = 0; v < 6; v++) {
            whole(3, 5);
            tried("buffers of other lengths", w, v, FPU_STATE_WORDS, FPU_ANSWER_WORDS);
            put(value(FPU_PLACE_NZCV), 1);
            tried("buffers of other lengths and a bit that is no flag", w, v, FPU_STATE_WORDS, FPU_ANSWER_WORDS);
        }

    /* old records, and those of today without bit 31: turned away, every one, whatever the buffers are */
    unsigned long before = seen[109], old = 0;
    for (size_t window = 0; window < 4; window++)
        for (size_t lent = 0; lent < 5; lent++, old += 2) {
            whole(window, 4);
            made_old();
            tried("an old record", lent, lent, FPU_STATE_WORDS, FPU_ANSWER_WORDS);
            whole(window, 4);
            put(0, counted());
            tried("a record without bit 31", lent, lent, FPU_STATE_WORDS, FPU_ANSWER_WORDS);
        }
    if (seen[109] != before + old) {
        differing++;
        printf("old records: %lu of %lu are turned away with 9\n", seen[109] - before, old);
    }

    /* records of 0 to 12 bytes and counts of up to 2^32 - 1, whatever their bytes are */
    static const uint32_t counts[] = {0, 1, 2, 52, 53, 54, 0x20000000, 0x7FFFFFFF, 0x80000000, 0x80000001, 0xFFFFFFFE, 0xFFFFFFFF};
    for (size_t i = 0; i < sizeof counts / sizeof *counts; i++)
        for (size_t k = 0; k < sizeof counts / sizeof *counts; k++)
            for (length = 0; length <= 64; length++) {
                memset(bytes, 0, 64);
                put(0, counts[i]);
                put(1, counts[k]);
                replayed("counts of a short record");
            }

    /* the limits: at them, one past them, and several refusals at once */
    static const size_t windows[] = {0, 4, 16384, 16385}, lists[] = {0, 4096, 4097};
    static const uint32_t bases[] = {0x8000, 0x8002, 0xFFFFFFFC, 0xFFFF0000, 0xFFFF0004};
    for (size_t i = 0; i < 4; i++)
        for (size_t k = 0; k < 3; k++)
            for (size_t b = 0; b < 5; b++)
                for (unsigned sort = 0; sort < 16; sort++) {
                    whole(windows[i], lists[k]);
                    put(base(), bases[b]);
                    if (sort & 1 && windows[i] > 0)
                        put(mark(words - 1), sort & 8 ? 256 : 2);
                    if (sort & 2)
                        put(mark(52), 2);
                    if (sort & 4)
                        put(value(48), 1);
                    replayed("at the limits");
                }

    /* 255 comes before every refusal */
    for (size_t s = 52; s <= 54; s++)
        for (size_t a = 3; a <= 5; a++)
            for (int broken = 0; broken < 2; broken++) {
                whole(3, 5);
                length -= broken;
                tried("lengths of the state and the answer", 3, 3, s, a);
            }

    static const unsigned every[] = {0, 2, 3, 4, 101, 102, 103, 104, 107, 109, 110, 255};
    for (size_t i = 0; i < sizeof every / sizeof *every; i++)
        if (seen[every[i]] == 0) {
            differing++;
            printf("never seen: %u\n", every[i]);
        }
    printf("replay: %lu records, %lu differ; refused", records, differing);
    for (unsigned r = 101; r < 255; r++)
        if (seen[r] > 0)
            printf(" %u: %lu", r, seen[r]);
    printf("\n");
    return differing != 0;
}
