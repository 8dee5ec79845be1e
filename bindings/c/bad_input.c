/* bad_input [share] [heap]: every function of include/fpu.h with what it turns away, as refusals.h has it: each length, bit, thumb and mark that is
 * wrong, each refusal alone and each two that can hold at once. Valid calls stand between. After each call every byte of every lent buffer is
 * compared, and what stands around it.
 *
 * Each input is tried with the buffers between canaries, aligned no more than they have to be; with each buffer's end at a page that may not be
 * touched; and with its start behind one. With `heap` these two give way to heap blocks of exactly its bytes, for valgrind. With `share` fewer
 * variants are tried, of every refusal and every pair still. It prints a line for what is wrong, one for each function, and 'bad input: N inputs, M
 * wrong'. */
#define _DEFAULT_SOURCE
#include "refusals.h"

#include <signal.h>
#include <stdlib.h>
#include <sys/mman.h>
#include <unistd.h>

/* ---- a call */

enum way { BETWEEN, UP_TO_FENCE, FROM_FENCE, HEAP, WAYS };
static const char *const way_name[WAYS] = {"between canaries", "up to a fence", "from a fence", "on the heap"};
static int is_way[WAYS];
enum { FENCE = 4096, AROUND = 64, CANARY = 0xC3 };
static uint8_t *at[BUFFERS], *area[BUFFERS]; /* where a buffer lies, and the bytes between its fences */
static uint8_t *beyond;                      /* room for 2^32 words and more */

static enum call trying;
static enum way lying;
static uint32_t wrong_now;
static unsigned long inputs[CALLS], bad[CALLS], alone[CALLS][WRONGS], both[CALLS][WRONGS][WRONGS];

static void describe(void)
{
    printf("wrong: %s, buffers %s; wrong in it:", calls[trying].name, way_name[lying]);
    for (int w = 0; w < WRONGS; w++)
        if (wrong_now & BIT(w))
            printf(" %s,", wrong_name[w]);
    printf("%s base %lX, thumb %lX, place %lu, period %lu", wrong_now ? "" : " nothing,", (unsigned long)base, (unsigned long)thumb,
           (unsigned long)place, (unsigned long)period);
    for (int b = 0; b < BUFFERS; b++)
        if (calls[trying].lends & BIT(b))
            printf(", %s %zu", sort[b].name, count(b));
}

static void differs(const char *what, const char *of, unsigned long got, unsigned long expected)
{
    if (++bad[trying] > 10)
        return;
    describe();
    printf(": %s%s is %lu, expected %lu\n", what, of, got, expected);
}

/* A touched fence ends the program. */
static void fenced(int number)
{
    describe();
    printf(": signal %d\n", number);
    fflush(stdout);
    _exit(1);
}

static int is_before(enum buffer b) { return lent[b].more != 0 || lying == BETWEEN || lying == UP_TO_FENCE; }
static int is_behind(enum buffer b) { return lent[b].more != 0 || lying == BETWEEN || lying == FROM_FENCE; }

/* Lays a buffer where the way says, with canaries where there is no fence. */
static void lay(enum buffer b)
{
    size_t bytes = sort[b].size * lent[b].count, odd = 2 * AROUND + (sort[b].size == 1 ? 3 : sort[b].size);
    if (lent[b].more != 0)
        at[b] = beyond + odd;
    else if (lying == HEAP)
        at[b] = malloc(bytes);
    else
        at[b] = area[b] + (lying == BETWEEN ? odd : lying == UP_TO_FENCE ? ROOM + FENCE - bytes : 0);
    if (at[b] == NULL)
        abort();
    memcpy(at[b], lent[b].given, bytes);
    if (is_before(b))
        memset(at[b] - AROUND, CANARY, AROUND);
    if (is_behind(b))
        memset(at[b] + bytes, CANARY, AROUND);
}

static void compare(enum buffer b)
{
    size_t bytes = sort[b].size * lent[b].count, i = 0;
    if (memcmp(at[b], lent[b].expected, bytes) != 0) {
        char what[40];
        while (at[b][i] == lent[b].expected[i])
            i++;
        snprintf(what, sizeof what, "byte %zu of ", i);
        differs(what, sort[b].name, at[b][i], lent[b].expected[i]);
    }
    for (ptrdiff_t k = -AROUND; k < 0 && is_before(b); k++)
        if (at[b][k] != CANARY)
            differs("a byte before the ", sort[b].name, at[b][k], CANARY);
    for (size_t k = 0; k < AROUND && is_behind(b); k++)
        if (at[b][bytes + k] != CANARY)
            differs("a byte behind the ", sort[b].name, at[b][bytes + k], CANARY);
    if (lent[b].more == 0 && lying == HEAP)
        free(at[b]);
}

#define WORDS(b) (uint32_t *)(void *)at[b], count(b)
#define BYTES(b) at[b], count(b)
#define PLACES (uint64_t *)(void *)at[MARKS]

static uint32_t made(enum call call)
{
    switch (call) {
    case NEW: return fpu_new(WORDS(STATE));
    case DATA: return fpu_data_processing(WORDS(STATE), thumb, word, WORDS(ANSWER));
    case REGISTER: return fpu_coprocessor_register(WORDS(STATE), thumb, word, WORDS(ANSWER));
    case LOAD_STORE: return fpu_coprocessor_load_store(WORDS(STATE), WORDS(WINDOW), base, thumb, word, WORDS(ANSWER));
    case RUN: return fpu_run(WORDS(STATE), WORDS(WINDOW), base, thumb, WORDS(LIST), WORDS(ANSWER));
    case WATCH: return fpu_watch(WORDS(STATE), PLACES, WORDS(WINDOW), BYTES(WINDOW_MARKS), base, thumb, WORDS(LIST), WORDS(ANSWER));
    case ORIGIN:
        return fpu_origin(WORDS(STATE), PLACES, WORDS(WINDOW), BYTES(WINDOW_MARKS), base, thumb, WORDS(LIST), place, WORDS(PAIRS), WORDS(ANSWER));
    case REPLAY: return fpu_replay(BYTES(RECORD), WORDS(STATE), PLACES, WORDS(WINDOW), BYTES(WINDOW_MARKS), WORDS(ANSWER));
    case SHEET: return fpu_sheet(WORDS(STATE), sheet_marks, BYTES(PAGE));
    default: return fpu_grant(period, WORDS(SHARES), WORDS(LIMITS), WORDS(LEFT), WORDS(GRANTS));
    }
}

/* The arguments as they stand, in each way; `standing` is what was wrong with the record before its size was. */
static void judged(enum call call, uint32_t standing)
{
    uint32_t set = all_wrong(call), expected;
    if (set & BIT(RECORD_SIZE))
        set |= standing;
    trying = call;
    wrong_now = set;
    inputs[call]++;
    for (int w = 0; w < WRONGS; w++) {
        alone[call][w] += set == BIT(w);
        for (int x = w + 1; x < WRONGS; x++)
            both[call][w][x] += set == (BIT(w) | BIT(x));
    }
    expected = expected_of(call, set);
    for (lying = 0; lying < WAYS; lying++) {
        if (!is_way[lying])
            continue;
        for (int b = 0; b < BUFFERS; b++)
            if (calls[call].lends & BIT(b))
                lay(b);
        uint32_t result = made(call);
        if (result != expected)
            differs("the result", "", result, expected);
        for (int b = 0; b < BUFFERS; b++)
            if (calls[call].lends & BIT(b))
                compare(b);
    }
}

/* ---- what is put into the arguments, each in so many variants */

/* Lengths other than a constant: all up to one more than twice it, and some beyond. */
static size_t other_length(size_t constant, unsigned v)
{
    size_t others[] = {3 * constant, 4 * constant, 8 * constant, 256 + constant, 1000, 4096, 65536 + constant};
    return v < constant ? v : v < 2 * constant + 1 ? v + 1 : others[v - (2 * constant + 1)];
}
static unsigned other_lengths(size_t constant) { return 2 * (unsigned)constant + 1 + 7; }

/* Bit v of those outside a place's own: the place's index from 48 on, and the bit. */
static uint32_t outside(unsigned v, size_t *which)
{
    for (*which = 0; *which < 5; ++*which)
        for (int k = 0; k < 32; k++)
            if (!(own[*which] & BIT(k)) && v-- == 0)
                return BIT(k);
    return 0;
}
enum { BITS_OUTSIDE = 28 + 9 + 28 + 27, WIDE_MARKS = 35, BYTE_MARKS = 11 };

/* What is no mark: a number of each bit but the lowest, and some more; a byte of each, and some more. */
static uint32_t wide_mark(unsigned v) { return v < 31 ? BIT(v + 1) : v == 31 ? 3 : v == 32 ? 0xFFFFFFFF : v == 33 ? 0x101 : 0x80000001; }
static uint8_t byte_mark(unsigned v) { return (uint8_t)(v < 7 ? BIT(v + 1) : v == 7 ? 3 : v == 8 ? 255 : v == 9 ? 254 : 129); }

/* Lengths and places of which variant v is entry v. */
static const size_t long_lists[] = {4097, 4098, 5000, 8192}, long_windows[] = {16385, 16386, 20000, 32768}, few_pairs[] = {0, 2, 16, 62},
                    half_pairs[] = {1, 3, 63, 65, 67, 81, 4097, 65539}, routines[] = {0, 9, 10, 11, 16, 17, 100, 264, 65544};
static const uint32_t known_places_of_all[] = {1, 2, 31, 32, 47, 49, 50, 54, 56};

/* By how much a record's bytes, the lent buffers and its two counts are others. Counted in 32 bits, the last six call for the bytes that it has. */
static const struct {
    int bytes, window, marks;
    uint32_t list, words;
} other_sizes[] = {{-1, 0, 0, 0, 0}, {1, 0, 0, 0, 0}, {-4, 0, 0, 0, 0}, {4, 0, 0, 0, 0}, {0, -1, 0, 0, 0}, {0, 1, 0, 0, 0}, {0, 0, -1, 0, 0},
                   {0, 0, 1, 0, 0}, {0, -1, -1, 0, 0}, {0, 1, 1, 0, 0}, {0, 0, 0, 1, 0}, {0, 0, 0, 0xFFFFFFFF, 0}, {0, 0, 0, 0, 1},
                   {0, 0, 0, 0, 0xFFFFFFFF}, {8, 1, 1, 0, 2}, {0, 0, 0, 0x7FFFFFFF, 0x7FFFFFFF}, {0, 0, 0, 0x80000000, 0}, {0, 0, 0, 0x40000000, 0},
                   {0, 0, 0, 0, 0x20000000}, {0, 0, 0, 0, 0x40000000}, {0, 0, 0, 0, 0x80000000}, {0, 0, 0, 0x40000000, 0xE0000000}};

static unsigned variants(enum call call, enum wrong w)
{
    switch (w) {
    case STATE_WORDS: return other_lengths(FPU_STATE_WORDS);
    case STATE_BIT: return BITS_OUTSIDE;
    case THUMB_VALUE: return 64;
    case ANSWER_WORDS: return other_lengths(answer_words(call));
    case BASE: return 3;
    case THUMB: return 1;
    case MARKS_COUNT: return 6;
    case WINDOW_MARK: return 3 * (call == REPLAY ? WIDE_MARKS : BYTE_MARKS);
    case PLACE: return 7;
    case KNOWN: return SIZE(known_places_of_all);
    case HALF_PAIR: return SIZE(half_pairs);
    case SHORT_PAGE: return FPU_SHEET_BYTES;
    case ROUTINES: return SIZE(routines);
    case SHARE: return 6;
    case UNEQUAL: return 4 * 14;
    case RECORD_STATE: return BITS_OUTSIDE + FPU_STATE_WORDS * WIDE_MARKS;
    case RECORD_SIZE: return SIZE(other_sizes);
    default: return 4;
    }
}

/* The first, a middle or the last of n. */
static size_t position(unsigned v, size_t n) { return v % 3 == 0 ? 0 : v % 3 == 1 ? n / 2 : n - 1; }

/* A base with bits 1:0, or one from which the window ends beyond memory, by a word, by two, by all but the first, or by those bits alone. */
static void put_base(enum call call, enum wrong w, unsigned v)
{
    uint32_t was = base_of(call), low = was % 4, end = 0 - 4 * (uint32_t)window_words(call);
    uint32_t past = v == 1 ? end + 8 : v == 2 ? 0xFFFFFFFC : v == 3 && low != 0 ? end : end + 4, put = w == BASE ? was | (v + 1) : past | low;
    if (call == REPLAY)
        put_number(2 + 2 * record_words, put);
    else
        base = put;
}

static void put_bit(enum call call, unsigned v)
{
    size_t which;
    uint32_t bit = outside(v, &which);
    if (call == REPLAY)
        put_number(2 + OUTSIDE + which, number(2 + OUTSIDE + which) ^ bit);
    else
        give(STATE, OUTSIDE + which, given(STATE, OUTSIDE + which) ^ bit);
}

/* A share above its limit, without the shares adding up to more than the period; and that, in sums of up to 2^32 and more. */
static void put_share(unsigned v)
{
    size_t n = lent[SHARES].count, i = position(v, n);
    if (n == 0)
        return;
    give(SHARES, i, v < 3 ? 1 : 0x80000001);
    give(LIMITS, i, v < 3 ? 0 : 0x80000000);
    period = 0xFFFFFFFF;
}
static void put_sum(unsigned v)
{
    size_t n = lent[SHARES].count;
    if (n < 2)
        return;
    period = v == 0 ? 0 : v == 1 ? (uint32_t)n - 1 : v == 2 ? 0xFFFFFFFF : 0x7FFFFFFF;
    for (size_t i = 0; v > 1 && i < n; i++)
        if (given(SHARES, i) <= given(LIMITS, i)) {
            give(SHARES, i, v == 2 ? 0xFFFFFFFF : 0x80000000);
            give(LIMITS, i, 0xFFFFFFFF);
        }
}

/* Some of the four lists, but not all, with one element more, one less, none or five more. */
static void put_unequal(unsigned v)
{
    size_t n = lent[SHARES].count, others[] = {n + 1, n == 0 ? 1 : n - 1, n == 0 ? 2 : 0, n + 5};
    for (int b = SHARES; b <= GRANTS; b++)
        if ((v % 14 + 1) & BIT(b - SHARES))
            lend(b, others[v / 14]);
}

static void put_record_size(unsigned v)
{
    lend(RECORD, lent[RECORD].count + (size_t)other_sizes[v].bytes);
    lend(WINDOW, lent[WINDOW].count + (size_t)other_sizes[v].window);
    lend(WINDOW_MARKS, lent[WINDOW_MARKS].count + (size_t)other_sizes[v].marks);
    put_number(0, number(0) + other_sizes[v].list);
    put_number(1, number(1) + other_sizes[v].words);
}

static void put(enum call call, enum wrong w, unsigned v)
{
    size_t window = lent[WINDOW].count, counts[] = {window - 1, window + 1, 0, 2 * window, window + 8, window / 2};
    uint32_t places[] = {(uint32_t)window + 53, (uint32_t)window + 54, 4 * (uint32_t)window + 60, 0x10000, 0x7FFFFFFF, 0x80000000, 0xFFFFFFFF};
    switch (w) {
    case STATE_WORDS: lend(STATE, other_length(FPU_STATE_WORDS, v)); break;
    case STATE_BIT: put_bit(call, v); break;
    case THUMB_VALUE: thumb = v < 31 ? BIT(v + 1) : v < 62 ? BIT(v - 30) | 1 : v == 62 ? 0xFFFFFFFF : 0xFFFFFFFE; break;
    case ANSWER_WORDS: lend(ANSWER, other_length(answer_words(call), v)); break;
    case LIST_LONG:
        if (call == REPLAY)
            record(record_words, long_lists[v]);
        else
            lend(LIST, long_lists[v]);
        break;
    case WINDOW_LONG:
        if (call == REPLAY)
            record(FPU_STATE_WORDS + long_windows[v], record_list);
        else
            lend_window(long_windows[v]);
        break;
    case BASE:
    case WINDOW_END: put_base(call, w, v); break;
    case THUMB: thumb = 1; break;
    case MARKS_COUNT: lend(WINDOW_MARKS, counts[v]); break;
    case WINDOW_MARK:
        if (call == REPLAY)
            put_number(2 + record_words + FPU_STATE_WORDS + position(v, window), wide_mark(v / 3));
        else if (lent[WINDOW_MARKS].count > 0)
            lent[WINDOW_MARKS].given[position(v, lent[WINDOW_MARKS].count)] = byte_mark(v / 3);
        break;
    case PLACE: place = places[v]; break;
    case KNOWN: place = known_places_of_all[v]; break;
    case FEW_PAIRS: lend(PAIRS, few_pairs[v]); break;
    case HALF_PAIR: lend(PAIRS, lent[PAIRS].count < 64 ? lent[PAIRS].count + 1 : half_pairs[v]); break;
    case SHORT_PAGE: lend(PAGE, v); break;
    case ROUTINES:
        for (int b = SHARES; b <= GRANTS; b++)
            lend(b, routines[v]);
        period = 0x20000;
        break;
    case SHARE: put_share(v); break;
    case SUM: put_sum(v); break;
    case UNEQUAL: put_unequal(v); break;
    case RECORD_STATE:
        if (v < BITS_OUTSIDE)
            put_bit(call, v);
        else
            put_number(2 + record_words + (v - BITS_OUTSIDE) / WIDE_MARKS, wide_mark((v - BITS_OUTSIDE) % WIDE_MARKS));
        break;
    default: put_record_size(v); break;
    }
}

/* ---- what is tried */

static int share; /* fewer variants */

/* One wrong, or two. */
static void tried(enum call call, enum wrong w, unsigned v, enum wrong other, unsigned u)
{
    uint32_t standing = 0;
    fresh(call);
    put(call, w, v);
    if (other == RECORD_SIZE)
        standing = all_wrong(call);
    if (other != WRONGS)
        put(call, other, u);
    judged(call, standing);
}

/* Each alone in all its variants, each two in up to `most` of each, spread over all; then whether every one and every two were seen. */
static void alone_and_in_pairs(enum call call)
{
    const unsigned most = share ? 4 : 40;
    uint32_t refuses = calls[call].refuses;
    for (int w = 0; w < WRONGS; w++) {
        unsigned all = variants(call, w), some = all < most ? all : most;
        for (unsigned v = 0; refuses & BIT(w) && v < all; v += share && all > 200 ? 7 : 1)
            tried(call, w, v, WRONGS, 0);
        for (int x = w + 1; refuses & BIT(w) && x < WRONGS; x++) {
            unsigned others = variants(call, x), some_others = others < most ? others : most;
            for (unsigned i = 0; refuses & BIT(x) && !never_both(w, x) && i < some; i++)
                for (unsigned k = 0; k < some_others; k++)
                    tried(call, w, i * all / some, x, k * others / some_others);
        }
    }
    for (int w = 0; w < WRONGS; w++)
        for (int x = w; refuses & BIT(w) && x < WRONGS; x++)
            if (refuses & BIT(x) && !never_both(w, x) && (x == w ? alone[call][w] : both[call][w][x]) == 0) {
                bad[call]++;
                printf("wrong: %s: %s%s%s was never tried\n", calls[call].name, wrong_name[w], x == w ? "" : " and ", x == w ? "" : wrong_name[x]);
            }
}

/* Every value of a mark at every position of short windows, and at some of long ones; in a record every bit of its number. */
static void window_marks(enum call call)
{
    static const size_t lengths[] = {41, 63, 64, 65, 127, 128, 129, 1000, 1023, 1024, 4099, 16383, 16384};
    for (size_t n = 0; n < 41 + SIZE(lengths); n++) {
        size_t length = n < 41 ? n : lengths[n - 41], positions[] = {0, 1, 7, 8, length / 2, length - 9, length - 8, length - 2, length - 1};
        for (size_t i = 0; i < (n < 41 ? length : share && n > 46 ? 1 : SIZE(positions)); i++) {
            size_t where = n < 41 ? i : positions[i];
            fresh(call);
            if (call == REPLAY)
                record(FPU_STATE_WORDS + length, SIZE(LIST_WORDS));
            else
                lend_window(length);
            for (unsigned value = 0; value < (call == REPLAY ? WIDE_MARKS : 254); value += share ? 31 : 1) {
                if (call == REPLAY)
                    put_number(2 + record_words + FPU_STATE_WORDS + where, wide_mark(value));
                else
                    lent[WINDOW_MARKS].given[where] = (uint8_t)(value + 2);
                judged(call, 0);
            }
        }
    }
}

/* Records of every length, each bit of one changed, counts of all sorts, records of 0 to 52 state words that are whole, and lent buffers of all sorts
 * of lengths. */
static void records(void)
{
    static const uint32_t counts[] = {0, 1, 52, 53, 54, 58, 0x20000000, 0x7FFFFFFF, 0x80000000, 0x80000001, 0xFFFFFFFE, 0xFFFFFFFF};
    size_t all = 4 * (3 + 2 * (FPU_STATE_WORDS + 5) + SIZE(LIST_WORDS));
    for (size_t length = 0; length < all + 40; length += share ? 5 : 1) {
        fresh(REPLAY);
        lend(RECORD, length);
        judged(REPLAY, 0);
    }
    for (size_t bit = 0; bit < 8 * all; bit += share ? 29 : 1) {
        fresh(REPLAY);
        lent[RECORD].given[bit / 8] ^= (uint8_t)BIT(bit % 8);
        judged(REPLAY, 0);
    }
    for (size_t i = 0; i < SIZE(counts) * SIZE(counts); i++) {
        fresh(REPLAY);
        put_number(0, counts[i / SIZE(counts)]);
        put_number(1, counts[i % SIZE(counts)]);
        judged(REPLAY, 0);
    }
    for (size_t words = 0; words < FPU_STATE_WORDS; words++) {
        fresh(REPLAY);
        record(words, words % 3);
        judged(REPLAY, 0);
    }
    for (size_t i = 0; i < 9 * 9; i++) {
        fresh(REPLAY);
        lend(WINDOW, i / 9);
        lend(WINDOW_MARKS, i % 9);
        judged(REPLAY, 0);
    }
}

/* Calls with which nothing is wrong but, of fpu_origin, the place: windows, lists, pages and pairs of many lengths. */
static void good(enum call call)
{
    static const size_t windows[] = {41, 1000, 16383, 16384}, lists[] = {0, 1, 2, 3, 4, 5, 6, 100, 4096};
    static const uint32_t places[] = {FPU_PLACE_NZCV, FPU_PLACE_FPSCR_FLAGS, 0, 53, 1, 54};
    size_t lengths = call == GRANT ? FPU_MOST_ROUTINES : calls[call].lends & (BIT(WINDOW) | BIT(PAGE)) ? 41 + SIZE(windows) : 1;
    size_t sorts = call >= RUN ? SIZE(lists) : call == DATA || call == REGISTER ? 2 : 1, twice = call == NEW || call == GRANT ? 1 : 2;
    for (size_t i = 0; i < lengths * sorts * twice; i++) {
        size_t n = i / twice / sorts, k = i / twice % sorts, window = n < 41 ? n : windows[n - 41];
        uint32_t last = i % twice;
        fresh(call);
        lend_window(window);
        lend(LIST, call < RUN ? 1 : lists[k]);
        base = last && window > 0 ? 0 - 4 * (uint32_t)window : AT;
        if (call == REPLAY) {
            record(FPU_STATE_WORDS + window, lists[k]);
            put_number(2 + 2 * record_words, base);
        }
        word = call == DATA && k % 2 ? UNDEFINED : call == REGISTER && k % 2 ? TO_R15 : word;
        thumb = call <= LOAD_STORE ? last : 0;
        place = places[k % SIZE(places)];
        lend(PAIRS, 2 * FPU_PAIRS_PER_WORD * words_run() + 2 * (n % 7));
        lend(PAGE, FPU_SHEET_BYTES + n);
        sheet_marks = (PLACE_MARKS ^ FPU_MARKS_ALL * last) << k;
        for (int b = SHARES; b <= GRANTS; b++)
            lend(b, 1 + n % FPU_MOST_ROUTINES);
        period = 8 + (uint32_t)(3 * k);
        judged(call, 0);
    }
}

/* Four lists of all sorts of lengths. */
static void unequal_lists(void)
{
    static const size_t lengths[] = {0, 1, 2, 8, 9, 10};
    for (size_t i = 0; i < 6 * 6 * 6 * 6; i++) {
        fresh(GRANT);
        for (size_t b = SHARES, k = i; b <= GRANTS; b++, k /= 6)
            lend(b, lengths[k % 6]);
        judged(GRANT, 0);
    }
}

/* Lengths of 2^32 and more: those of one buffer at a time. All window marks are counted after a refusal, so these stay as they are. */
static void long_lengths(void)
{
    beyond = mmap(NULL, ((size_t)1 << 34) + 2 * ROOM, PROT_READ | PROT_WRITE, MAP_PRIVATE | MAP_ANONYMOUS | MAP_NORESERVE, -1, 0);
    if (beyond == MAP_FAILED) {
        printf("bad input: lengths of 2^32 and more are not tried: there are no such addresses\n");
        return;
    }
    is_way[UP_TO_FENCE] = is_way[FROM_FENCE] = is_way[HEAP] = 0;
    for (int call = 0; call < CALLS; call++)
        for (int b = 0; b < BUFFERS; b++)
            if (calls[call].lends & BIT(b) && b != MARKS && b != WINDOW_MARKS) {
                fresh(call);
                lent[b].more = (size_t)1 << 32;
                judged(call, 0);
            }
}

static void no_buffers(enum call call, uint32_t got, uint32_t expected)
{
    trying = call;
    wrong_now = 0;
    inputs[call]++;
    if (got != expected)
        differs("the result", "", got, expected);
}

/* Every condition under all flags, by the manual's table, with each bit that is no flag; and every operation with each bit that does not count. */
static void without_buffers(void)
{
    for (uint32_t f = 0; f < 16; f++)
        for (uint32_t condition = 0; condition < 16; condition++) {
            int n = f >> 3 & 1, z = f >> 2 & 1, c = f >> 1 & 1, v = f & 1;
            int held[] = {z, c, n, v, c && !z, n == v, n == v && !z, 1};
            uint32_t expected = condition == 15 ? 1 : (uint32_t)(held[condition / 2] != (int)(condition % 2));
            no_buffers(CONDITION, fpu_check_condition(condition, f << 28), expected);
            for (int bit = 4; bit < 32; bit++) {
                no_buffers(CONDITION, fpu_check_condition(condition | BIT(bit), f << 28), expected);
                no_buffers(CONDITION, fpu_check_condition(condition, f << 28 | BIT(bit - 4)), FPU_INVALID_ARGUMENT);
                no_buffers(CONDITION, fpu_check_condition(condition | BIT(bit), f << 28 | BIT(bit - 4) | 1), FPU_INVALID_ARGUMENT);
            }
        }
    for (uint32_t index = 0; index < 1024; index++) {
        uint32_t by_index = index >> 6 << 20 | (index >> 2 & 15) << 16 | (index & 3) << 6, operation = fpu_operation(by_index);
        no_buffers(OPERATION, operation > FPU_OPERATION_FTOSIZ, 0);
        for (int bit = 0; bit < 32; bit++)
            if (!(0x00FF00C0 & BIT(bit)))
                no_buffers(OPERATION, fpu_operation(by_index ^ BIT(bit)), operation);
    }
}

int main(int arguments, char **argument)
{
    unsigned long all = 0, wrong = 0;
    is_way[BETWEEN] = 1;
    for (int i = 1; i < arguments; i++) {
        share |= strcmp(argument[i], "share") == 0;
        is_way[HEAP] |= strcmp(argument[i], "heap") == 0;
    }
    is_way[UP_TO_FENCE] = is_way[FROM_FENCE] = !is_way[HEAP];
    for (int b = 0; b < BUFFERS; b++) {
        uint8_t *mapped = mmap(NULL, FENCE + ROOM + FENCE + FENCE, PROT_READ | PROT_WRITE, MAP_PRIVATE | MAP_ANONYMOUS, -1, 0);
        area[b] = mapped + FENCE;
        if (mapped == MAP_FAILED || mprotect(mapped, FENCE, PROT_NONE) != 0 || mprotect(area[b] + ROOM + FENCE, FENCE, PROT_NONE) != 0) {
            printf("bad input: no fences\n");
            return 1;
        }
    }
    signal(SIGSEGV, fenced);
    signal(SIGBUS, fenced);

    for (int call = 0; call < CALLS; call++)
        if (calls[call].lends != 0) {
            good(call);
            alone_and_in_pairs(call);
        }
    for (int call = WATCH; call <= REPLAY; call++)
        window_marks(call);
    records();
    unequal_lists();
    without_buffers();
    long_lengths();

    for (int call = 0; call < CALLS; call++) {
        unsigned refusals = 0, pairs = 0;
        for (int w = 0; w < WRONGS; w++) {
            refusals += alone[call][w] > 0;
            for (int x = w + 1; x < WRONGS; x++)
                pairs += both[call][w][x] > 0;
        }
        printf("%s: %lu inputs, %lu wrong; %u refusals alone, %u in pairs\n", calls[call].name, inputs[call], bad[call], refusals, pairs);
        all += inputs[call];
        wrong += bad[call];
    }
    printf("bad input: %lu inputs, %lu wrong\n", all, wrong);
    return wrong != 0 || all == 0;
}
