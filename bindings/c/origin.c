/* origin [LISTS [FIRST]]: the chains of fpu_origin checked by the definition of document 02's 2026-09, on random lists. Each list is run a word at a time
 * under fpu_watch, which gives the state and the map before every word; steps.h has the steps of a word, and the map that they make has to be
 * the one that fpu_watch leaves. fpu_origin is then asked for places of all sorts, with room for the chain and without. What it gives beside the chain
 * has to be fpu_watch's; a chain is searched for among the steps of the list; and what stands around each lent buffer, or behind the chain, has to stay.
 * The first difference ends the program with a report. List n is the same in every run: `origin 1 n` tries it alone. */
#include "fpu.h"
#include "steps.h"

#include <stdio.h>
#include <stdlib.h>
#include <string.h>

enum {
    LISTS = 30000,
    MOST_WINDOW = FPU_WINDOW_MOST_WORDS,
    MOST_LIST = FPU_LIST_MOST_WORDS,
    MOST_PAIRS = FPU_PAIRS_PER_WORD * MOST_LIST,
    CANARY = 0x5A5A5A5A,
    UNFILLED = 0x25A5A5A5,
};

/* ---- a list, and what it does */

/* A machine with its map and its window. */
struct machine {
    uint32_t state[FPU_STATE_WORDS];
    uint64_t marks;
    uint32_t window[MOST_WINDOW + 1];
    uint8_t window_marks[MOST_WINDOW + 1];
};

/* Before the list, before and after a word, and after the list by fpu_watch. */
static struct machine start, before, now, after;
static uint32_t window_words, base, list[MOST_LIST + 1], list_words;
/* of the whole list by fpu_watch */
static uint32_t run_result, run_answer[FPU_ANSWER_WORDS];

/* A step of the list, and of each write whether its place is unknown after the step. */
struct event {
    struct step step;
    uint8_t unknown[MOST_WRITES];
};

/* The steps of the words run so far; those of word i stand from first_event[i] on. */
static struct event *events;
static size_t event_room, first_event[MOST_LIST + 2];
static enum kind word_kind[MOST_LIST + 1];
static uint8_t word_skipped[MOST_LIST + 1];
static uint32_t words_run;
/* the map by the steps */
static uint8_t known_at_start[WINDOW + MOST_WINDOW], known_by_steps[WINDOW + MOST_WINDOW];

/* What was asked for, and what came. */
static uint32_t asked_place, lent_pairs[2 * MOST_PAIRS + 8], lent_answer[FPU_ORIGIN_ANSWER_WORDS + 2];
static size_t asked_pairs_words;
static int is_asked;

/* Counts for the last lines. */
static unsigned long list_number, lists, words, skipped_words, stopped_lists, calls, chains, links, links_of[KINDS][2], links_to[WINDOW + 1], words_of[KINDS],
    empty_chains, longest, most_of_a_word, repeats, rewritten, results[256], refusals[256];

static uint64_t drawn;
static uint32_t draw(void)
{
    drawn ^= drawn << 13;
    drawn ^= drawn >> 7;
    drawn ^= drawn << 17;
    return (uint32_t)(drawn >> 16);
}

static int one_in(uint32_t n) { return draw() % n == 0; }

static uint32_t places(void) { return WINDOW + window_words; }

static int is_known(const struct machine *m, uint32_t place)
{
    return place < WINDOW ? (int)(m->marks >> place & 1) : m->window_marks[place - WINDOW];
}

/* ---- the report of a difference */

static void print_chain(void)
{
    uint32_t count = lent_answer[1 + FPU_ANSWER_PAIRS];
    printf("chain: %lu", (unsigned long)lent_answer[1 + FPU_ANSWER_FIRST]);
    for (uint32_t k = 0; k < count && k < 200 && 2 * k + 1 < asked_pairs_words; k++)
        printf(" (%lu, %lu)", (unsigned long)lent_pairs[1 + 2 * k], (unsigned long)lent_pairs[2 + 2 * k]);
    printf("%s\n", count > 200 ? " .." : "");
}

static void print_steps(uint32_t word)
{
    for (size_t e = first_event[word]; e < first_event[word + 1] && e < first_event[word] + 40; e++) {
        printf("   ");
        for (uint32_t i = 0; i < events[e].step.writes; i++) {
            const struct write *w = &events[e].step.write[i];
            printf(" %u%s from", w->target, events[e].unknown[i] ? " unknown" : "");
            for (uint32_t k = 0; k < w->sources; k++)
                printf(" %u", w->source[k]);
            printf(";");
        }
        printf("\n");
    }
}

static void print_list(void)
{
    printf("base %08lX, window of %lu words, FPSCR 27:5 %08lX, FPEXC %08lX, NZCV %08lX\nunknown at the start:", (unsigned long)base,
           (unsigned long)window_words, (unsigned long)start.state[CONTROL], (unsigned long)start.state[EXC], (unsigned long)start.state[NZCV]);
    for (uint32_t p = 0; p < places(); p++)
        if (!is_known(&start, p))
            printf(" %lu", (unsigned long)p);
    printf("\nlist of %lu words, %lu run:\n", (unsigned long)list_words, (unsigned long)words_run);
    for (uint32_t i = 0; i < list_words && i < 300; i++) {
        printf("%4lu %08lX", (unsigned long)i, (unsigned long)list[i]);
        if (i >= words_run) {
            printf(" not run\n");
        } else if (word_skipped[i]) {
            printf(" skipped\n");
        } else {
            printf(" %s\n", kind_name[word_kind[i]]);
            print_steps(i);
        }
    }
}

/* The first difference is the last. */
static void differs(const char *what, unsigned long at, unsigned long got, unsigned long expected)
{
    printf("origin: list %lu differs: %s (%lu): got %lX, expected %lX\n", list_number, what, at, got, expected);
    if (is_asked) {
        printf("asked for place %lu with %lu words of pairs; answer", (unsigned long)asked_place, (unsigned long)asked_pairs_words);
        for (int i = 0; i < FPU_ORIGIN_ANSWER_WORDS; i++)
            printf(" %lX", (unsigned long)lent_answer[1 + i]);
        printf("\n");
        print_chain();
    }
    print_list();
    exit(1);
}

static void same(const char *what, unsigned long at, unsigned long got, unsigned long expected)
{
    if (got != expected)
        differs(what, at, got, expected);
}

/* ---- the list, a word at a time */

static void copy_machine(struct machine *to, const struct machine *from)
{
    memcpy(to->state, from->state, sizeof to->state);
    to->marks = from->marks;
    memcpy(to->window, from->window, window_words * sizeof *to->window);
    memcpy(to->window_marks, from->window_marks, window_words);
}

static void same_machines(const char *what, const struct machine *got, const struct machine *expected)
{
    for (uint32_t p = 0; p < WINDOW; p++)
        same(what, p, got->state[p], expected->state[p]);
    same(what, 100, (unsigned long)got->marks, (unsigned long)expected->marks);
    for (uint32_t i = 0; i < window_words; i++) {
        same(what, WINDOW + i, got->window[i], expected->window[i]);
        same(what, WINDOW + i, got->window_marks[i], expected->window_marks[i]);
    }
}

static uint32_t watch(struct machine *m, const uint32_t *of, size_t count, uint32_t *answer)
{
    return fpu_watch(m->state, FPU_STATE_WORDS, &m->marks, m->window, window_words, m->window_marks, window_words, base, 0, of, count, answer,
                     FPU_ANSWER_WORDS);
}

static void begin_list(void)
{
    copy_machine(&now, &start);
    now.marks &= FPU_MARKS_ALL;
    list_words = words_run = 0;
    first_event[0] = 0;
    is_asked = 0;
    for (uint32_t p = 0; p < places(); p++)
        known_at_start[p] = known_by_steps[p] = (uint8_t)is_known(&start, p);
}

static void add_event(const struct step *step)
{
    size_t at = first_event[words_run + 1]++;
    if (at == event_room) {
        event_room = 2 * event_room + 1024;
        events = realloc(events, event_room * sizeof *events);
        if (events == NULL)
            exit(2);
    }
    events[at].step = *step;
    mark_step(step, known_by_steps);
    for (uint32_t i = 0; i < step->writes; i++)
        events[at].unknown[i] = !known_by_steps[step->write[i].target];
}

/* Adds a word that was run, with its steps, from the state before it; the map has to be the one that fpu_watch left. */
static void add_run_word(uint32_t word)
{
    static struct steps made;
    list[list_words++] = word;
    first_event[words_run + 1] = first_event[words_run];
    word_skipped[words_run] = !condition_holds(word, before.state[NZCV]);
    if (word_skipped[words_run]) {
        skipped_words++;
    } else {
        steps_of(&made, word, before.state, base, window_words);
        word_kind[words_run] = made.kind;
        if (made.kind == KINDS)
            differs("an undefined word is run", words_run, word, 0);
        words_of[made.kind]++;
        for (uint32_t i = 0; i < made.count; i++)
            add_event(&made.step[i]);
    }
    words_run++;
    words++;
    for (uint32_t p = 0; p < places(); p++)
        same("the mark of a place after a word, by its steps", p, known_by_steps[p], (unsigned long)is_known(&now, p));
}

/* The list as a whole ends as its words did. */
static void run_whole(uint32_t last_result)
{
    copy_machine(&after, &start);
    run_result = watch(&after, list, list_words, run_answer);
    same("the result of the list and of its last word", 0, run_result, last_result);
    same("the count of the list and of its words", 0, run_answer[FPU_ANSWER_COUNT], words_run);
    same_machines("a place after the list and after its words", &now, &after);
}

/* Runs given words from the start that is laid out. */
static void run_words(const uint32_t *of, uint32_t count)
{
    uint32_t result = FPU_FINISHED, answer[FPU_ANSWER_WORDS];
    begin_list();
    for (uint32_t i = 0; i < count && result == FPU_FINISHED; i++) {
        copy_machine(&before, &now);
        result = watch(&now, &of[i], 1, answer);
        if (answer[FPU_ANSWER_COUNT] == 1)
            add_run_word(of[i]);
    }
    memcpy(list, of, count * sizeof *of);
    list_words = count;
    run_whole(result);
}

/* ---- chains */

/* Whether a step is a link from p to r: its last write of r reads p, and r is unknown after it. */
static int is_link(const struct event *e, uint32_t p, uint32_t r)
{
    const struct write *w = last_write(&e->step, r);
    return w != NULL && is_source(w, p) && e->unknown[w - e->step.write];
}

/* Whether the steps of a word go from a place by these pairs' places in turn, with no write of a place where the chain rests. on[k] says that
 * after the steps so far the chain can have made k of the links. */
static int through_word(uint32_t word, uint32_t from, const uint32_t *pairs, uint32_t count)
{
    uint8_t on[MOST_STEPS + 1] = {1};
    if (count > first_event[word + 1] - first_event[word])
        return 0;
    for (size_t e = first_event[word]; e < first_event[word + 1]; e++)
        for (uint32_t k = count + 1; k-- > 0;) {
            uint32_t here = k == 0 ? from : pairs[2 * k - 1];
            int kept = on[k] && last_write(&events[e].step, here) == NULL;
            int linked = k > 0 && on[k - 1] && is_link(&events[e], k == 1 ? from : pairs[2 * k - 3], here);
            on[k] = (uint8_t)(kept || linked);
        }
    return on[count];
}

/* Counts the links of a word for the last lines: where they lead, and how many to a register or a window's word that the word writes more than once. */
static void count_links(uint32_t word, const uint32_t *pairs, uint32_t count)
{
    links_of[word_kind[word]][field(list[word], 8, 11) == 11] += count;
    repeats += count > 1;
    if (count > most_of_a_word)
        most_of_a_word = count;
    for (uint32_t k = 0; k < count; k++) {
        uint32_t place = pairs[2 * k + 1], times = 0;
        links_to[place < WINDOW ? place : WINDOW]++;
        for (size_t e = first_event[word]; e < first_event[word + 1]; e++)
            for (uint32_t i = 0; i < events[e].step.writes; i++)
                times += events[e].step.write[i].target == place;
        rewritten += times > 1 && place != EXCEPTIONS;
    }
}

static void check_chain(uint32_t first, const uint32_t *pairs, uint32_t count)
{
    uint32_t here = first, made = 0;
    if (first >= places() || known_at_start[first])
        differs("the first place is not unknown at the start", first, first, 0);
    if (count > FPU_PAIRS_PER_WORD * words_run)
        differs("more than 8 pairs for a word run", words_run, count, FPU_PAIRS_PER_WORD * words_run);
    for (uint32_t k = 0; k < count; k++)
        if (pairs[2 * k] >= words_run || (k > 0 && pairs[2 * k] < pairs[2 * k - 2]))
            differs("the index of a pair falls, or is past the words run", k, pairs[2 * k], words_run);
    for (uint32_t i = 0; i < words_run; i++) {
        uint32_t of_word = 0;
        while (made + of_word < count && pairs[2 * (made + of_word)] == i)
            of_word++;
        if (!through_word(i, here, &pairs[2 * made], of_word))
            differs("the chain does not go through a word", i, here, of_word);
        if (of_word > 0) {
            count_links(i, &pairs[2 * made], of_word);
            made += of_word;
            here = pairs[2 * made - 1];
        }
    }
    same("the place where the chain ends", count, here, asked_place);
    chains++;
    links += count;
    empty_chains += count == 0;
    if (count > longest)
        longest = count;
}

/* ---- calls */

/* What is lent, each buffer with a canary before and behind it. */
static struct {
    uint32_t state[FPU_STATE_WORDS + 2];
    uint64_t marks[3];
    uint32_t window[MOST_WINDOW + 3];
    uint8_t window_marks[MOST_WINDOW + 3];
    uint32_t list[MOST_LIST + 3];
} lent;

static void lend_words(uint32_t *buffer, const uint32_t *from, size_t count)
{
    memcpy(buffer + 1, from, count * sizeof *from);
    buffer[0] = buffer[1 + count] = CANARY;
}

static void same_words(const char *what, const uint32_t *buffer, const uint32_t *expected, size_t count)
{
    same("the word before a buffer", 0, buffer[0], CANARY);
    same("the word behind a buffer", count, buffer[1 + count], CANARY);
    if (memcmp(buffer + 1, expected, count * sizeof *expected) != 0)
        for (size_t i = 0; i < count; i++)
            same(what, i, buffer[1 + i], expected[i]);
}

static void lend(size_t marks_bytes)
{
    lend_words(lent.state, start.state, FPU_STATE_WORDS);
    lend_words(lent.window, start.window, window_words);
    lend_words(lent.list, list, list_words);
    lent.marks[0] = lent.marks[2] = CANARY;
    lent.marks[1] = start.marks;
    memcpy(lent.window_marks + 1, start.window_marks, marks_bytes);
    lent.window_marks[0] = lent.window_marks[1 + marks_bytes] = (uint8_t)CANARY;
    for (size_t i = 0; i < asked_pairs_words; i++)
        lent_pairs[1 + i] = UNFILLED;
    lent_pairs[0] = lent_pairs[1 + asked_pairs_words] = CANARY;
    for (int i = 0; i < FPU_ORIGIN_ANSWER_WORDS; i++)
        lent_answer[1 + i] = UNFILLED;
    lent_answer[0] = lent_answer[1 + FPU_ORIGIN_ANSWER_WORDS] = CANARY;
}

/* All but the chain is as fpu_watch left it. */
static void same_run(const struct machine *expected, size_t marks_bytes)
{
    same_words("a place after fpu_origin and after fpu_watch", lent.state, expected->state, FPU_STATE_WORDS);
    same_words("a word of the window after fpu_origin and after fpu_watch", lent.window, expected->window, window_words);
    same_words("a word of the list", lent.list, list, list_words);
    same("the word before the marks", 0, (unsigned long)lent.marks[0], CANARY);
    same("the word behind the marks", 0, (unsigned long)lent.marks[2], CANARY);
    same("the marks after fpu_origin and after fpu_watch", 0, (unsigned long)lent.marks[1], (unsigned long)expected->marks);
    same("the byte before the window marks", 0, lent.window_marks[0], (uint8_t)CANARY);
    same("the byte behind the window marks", 0, lent.window_marks[1 + marks_bytes], (uint8_t)CANARY);
    for (size_t i = 0; i < marks_bytes; i++)
        same("a window mark after fpu_origin and after fpu_watch", i, lent.window_marks[1 + i], expected->window_marks[i]);
    same_words("a word of the answer of fpu_origin and of fpu_watch", (uint32_t[]){CANARY, lent_answer[1], lent_answer[2], lent_answer[3], lent_answer[4],
               lent_answer[5], CANARY}, run_answer, FPU_ANSWER_WORDS);
    same("the word before the answer", 0, lent_answer[0], CANARY);
    same("the word behind the answer", 0, lent_answer[1 + FPU_ORIGIN_ANSWER_WORDS], CANARY);
}

static void same_rest_of_pairs(size_t filled)
{
    same("the word before the pairs", 0, lent_pairs[0], CANARY);
    same("the word behind the pairs", 0, lent_pairs[1 + asked_pairs_words], CANARY);
    for (size_t i = filled; i < asked_pairs_words; i++)
        same("a word of the pairs that the chain does not fill", i, lent_pairs[1 + i], UNFILLED);
}

static uint32_t called(size_t marks_bytes, uint32_t thumb)
{
    is_asked = 1;
    calls++;
    lend(marks_bytes);
    uint32_t result = fpu_origin(lent.state + 1, FPU_STATE_WORDS, lent.marks + 1, lent.window + 1, window_words, lent.window_marks + 1, marks_bytes, base,
                                 thumb, lent.list + 1, list_words, asked_place, lent_pairs + 1, asked_pairs_words, lent_answer + 1, FPU_ORIGIN_ANSWER_WORDS);
    same("the result of fpu_origin and of fpu_watch", 0, result, run_result);
    results[result & 255]++;
    return result;
}

/* The first refusal that applies to what is asked for, or 0. */
static uint32_t refusal(void)
{
    if (asked_place >= places())
        return FPU_REFUSED_PLACE;
    if (is_known(&after, asked_place))
        return FPU_REFUSED_KNOWN;
    return asked_pairs_words / 2 < FPU_PAIRS_PER_WORD * (size_t)words_run ? FPU_REFUSED_PAIRS : 0;
}

static void ask(uint32_t place, size_t pairs_words)
{
    asked_place = place;
    asked_pairs_words = pairs_words;
    called(window_words, 0);
    same_run(&after, window_words);
    uint32_t expected = refusal(), *answer = lent_answer + 1, count = answer[FPU_ANSWER_PAIRS];
    same("the refusal", place, answer[FPU_ANSWER_ORIGIN_REFUSAL], expected);
    refusals[expected]++;
    if (expected != 0) {
        same("the first place of a refusal", place, answer[FPU_ANSWER_FIRST], 0);
        same("the pairs of a refusal", place, count, 0);
    } else {
        if (count > pairs_words / 2)
            differs("more pairs than the list holds", place, count, pairs_words / 2);
        check_chain(answer[FPU_ANSWER_FIRST], lent_pairs + 1, count);
    }
    same_rest_of_pairs(2 * (size_t)count);
}

/* The least room for pairs that is not refused. */
static size_t enough(void) { return 2 * FPU_PAIRS_PER_WORD * (size_t)words_run; }

/* With that room, or more, or now and then less. */
static void ask_with_some_room(uint32_t place)
{
    size_t room = enough();
    if (one_in(4) && room + 6 <= 2 * MOST_PAIRS)
        room += 2 * (draw() % 4);
    else if (one_in(16) && room > 0)
        room = one_in(2) ? room - 2 : 2 * (draw() % (room / 2));
    ask(place, room);
}

/* ---- random lists */

/* Mostly in the window or near it, so that a register that takes it is a base. */
static uint32_t pointer(void) { return base + 4 * (draw() % (window_words + 24)) - 48 + (one_in(8) ? draw() % 4 : 0); }

static uint32_t control_bits(void)
{
    return (one_in(3) ? 0 : draw() & 0x00070000) | (one_in(3) ? 0x00300000 : 0) | (draw() & 0x03C00000) | (one_in(8) ? draw() & 0x0FFFFFE0 : 0);
}

static uint32_t value(void)
{
    switch (draw() % 8) {
    case 0: return draw();
    case 1: return control_bits() | (draw() & 0xF000001F);
    case 2:
    case 3: return (draw() & 0x807FFFFF) | (120 + draw() % 16) << 23;
    default: return pointer();
    }
}

/* Of one list each place is unknown with one chance in so many; those that stop a run seldom are. */
static void random_start(void)
{
    static const uint32_t chances[] = {2, 4, 8, 32, 64}, sizes[] = {0, 1, 4, 9, 24, 24, 60, 300};
    uint32_t chance = chances[draw() % 5];
    window_words = one_in(500) ? MOST_WINDOW : sizes[draw() % 8];
    base = one_in(4) ? 0u - 4 * window_words : one_in(8) ? 0 : 0x8000 + 4 * (draw() % 64);
    for (uint32_t p = 0; p < WINDOW; p++)
        start.state[p] = value();
    start.state[FLAGS] &= 0xF0000000;
    start.state[CONTROL] = control_bits();
    start.state[EXC] = one_in(64) ? draw() : 0x40000000;
    start.state[NZCV] &= 0xF0000000;
    start.state[EXCEPTIONS] &= 0x1F;
    start.marks = FPU_MARK(draw() % 3 == 0 ? EXCEPTIONS : draw() % 32);
    for (uint32_t p = 0; p < WINDOW; p++)
        if (one_in(p == CONTROL ? 12 : p == EXC ? 40 : p == NZCV ? 8 : chance))
            start.marks |= FPU_MARK(p);
    start.marks = (FPU_MARKS_ALL & ~start.marks) | (one_in(8) ? (uint64_t)draw() << 53 : 0);
    for (uint32_t i = 0; i < window_words; i++) {
        start.window[i] = value();
        start.window_marks[i] = !one_in(chance);
    }
}

static uint32_t with_n(uint32_t word, int wide, uint32_t n)
{
    return (word & ~0x000F0080u) | (wide ? (n & 15) << 16 | n >> 4 << 7 : n >> 1 << 16 | (n & 1) << 7);
}

static uint32_t with_m(uint32_t word, int wide, uint32_t m)
{
    return (word & ~0x0000002Fu) | (wide ? (m & 15) | m >> 4 << 5 : m >> 1 | (m & 1) << 5);
}

/* In a third of the vectors an operand is the target of the iteration before. */
static uint32_t data_word(void)
{
    static const uint32_t extensions[] = {0x00000, 0x00080, 0x10000, 0x10080, 0x40000, 0x40080, 0x50000, 0x50080,
                                          0x70080, 0x70080, 0x80000, 0x80080, 0xC0000, 0xC0080, 0xD0000, 0xD0080};
    int wide = one_in(3);
    uint32_t word = 0xEE000A00 | (uint32_t)wide << 8 | (draw() & 0x0040F02F), bank = wide ? 4 : 8;
    uint32_t d = reg(wide, field(word, 12, 15), field(word, 22, 22)), stride = field(now.state[CONTROL], 20, 21) == 3 ? 2 : 1;
    uint32_t last = d / bank * bank + (d + bank - stride) % bank;
    if (one_in(3)) {
        word |= 0x00B00040 | extensions[draw() % 16];
        return one_in(3) ? with_m(word, wide, last) : word;
    }
    uint32_t formula = draw() % 9;
    word |= formula >> 3 << 23 | (formula >> 1 & 3) << 20 | (formula & 1) << 6 | (draw() & 0x000F0080);
    return one_in(3) ? with_n(word, wide, last) : one_in(8) ? with_m(word, wide, last) : word;
}

static uint32_t transfer_word(void)
{
    static const uint32_t systems[] = {1, 1, 1, 1, 8, 8, 0, 5};
    uint32_t word = 0xEE000A10 | (draw() & 0x001FF1EF), opc1 = draw() % 8;
    if (opc1 < 4)
        return word | (one_in(16) ? 0x00400000 : 0);
    if (opc1 < 6)
        return (one_in(8) ? word : word | 0x100) | 0x00200000;
    word = (word & 0xFFF0FFFF) | 0x00E00000 | systems[draw() % 8] << 16;
    return one_in(3) ? word | 0x0010F000 : word;
}

static uint32_t pair_word(void)
{
    uint32_t word = 0xEC400A00 | (draw() & 0x001FF1FF);
    return one_in(3) ? (word & 0xFFF0FFFF) | (word & 0xF000) << 4 : word;
}

/* Of a base that is known, where there is one; one in eight is long. */
static uint32_t memory_word(void)
{
    uint32_t from = draw() % 16, imm8 = one_in(8) ? draw() % 256 : draw() % 12;
    for (int tries = 0; tries < 8; tries++) {
        uint32_t place = place_at(now.state[CORE + from] & 0xFFFFFF00, base & 0xFFFFFF00, window_words + 128);
        if (is_known(&now, CORE + from) && (place != 0 || tries > 5))
            break;
        from = draw() % 16;
    }
    return 0xEC000A00 | (draw() & 0x01F0F100) | from << 16 | imm8;
}

static uint32_t random_word(void)
{
    uint32_t sort = draw() % 32, word;
    if (sort == 0)
        return one_in(2) ? draw() : 0xEE000A00 | (draw() & 0x10FFF1FF);
    word = sort < 16 ? data_word() : sort < 21 ? transfer_word() : sort < 24 ? pair_word() : memory_word();
    return one_in(10) ? (word & 0x0FFFFFFF) | draw() % 14 << 28 : word;
}

/* FPEXC bit 30 is known to be set: else few words can run. */
static int is_enabled(const struct machine *m) { return is_known(m, EXC) && m->state[EXC] & 0x40000000; }

/* Whether a word is left out, mostly: it stops the run, or would stop most that follow, or makes too many places unknown, or all known. */
static int is_unwanted(uint32_t result, uint32_t known, uint32_t most_unknown)
{
    uint32_t unknown = places() - known;
    if (result != FPU_FINISHED)
        return !one_in(60);
    return (is_known(&before, CONTROL) && !is_known(&now, CONTROL) && !one_in(3)) || (is_enabled(&before) && !is_enabled(&now) && !one_in(6))
           || (unknown > most_unknown && !one_in(4)) || (unknown == 0 && !one_in(30));
}

static void random_list(void)
{
    static const uint32_t most[] = {3, 6, 12, 24, 60, 100000};
    uint32_t length = one_in(150) ? MOST_LIST : draw() % (one_in(4) ? 6 : one_in(3) ? 200 : 40), most_unknown, result = FPU_FINISHED;
    random_start();
    if (window_words == MOST_WINDOW)
        length %= 30;
    most_unknown = most[draw() % 6] + (uint32_t)(places() / 16);
    begin_list();
    while (list_words < length && result == FPU_FINISHED) {
        uint32_t word = 0, answer[FPU_ANSWER_WORDS];
        copy_machine(&before, &now);
        for (int tries = 0; tries < 40; tries++) {
            copy_machine(&now, &before);
            word = random_word();
            result = watch(&now, &word, 1, answer);
            if (!is_unwanted(result, answer[FPU_ANSWER_KNOWN], most_unknown))
                break;
        }
        if (answer[FPU_ANSWER_COUNT] == 1)
            add_run_word(word);
        else
            list[list_words++] = word;
    }
    /* words behind the one that stops the run */
    if (result != FPU_FINISHED)
        for (uint32_t k = draw() % 4; k > 0 && list_words < MOST_LIST; k--)
            list[list_words++] = random_word();
    stopped_lists += result != FPU_FINISHED;
    run_whole(result);
}

/* Places of all sorts: every one, or some of the unknown, and some of the others. */
static void ask_for_places(void)
{
    static const uint32_t beyond[] = {0, 1, 2, 11, 64, 0x7FFFFFCB, 0xFFFFFFCA};
    int all = places() < 200 && list_words < 1000 && one_in(4);
    uint32_t asked = 0, most = list_words > 1000 ? 4 : 10, turn = draw() % places();
    for (uint32_t k = 0; k < places() && (all || asked < most); k++) {
        uint32_t place = (turn + k) % places();
        if (!all && (is_known(&after, place) || (k < 400 && one_in(3))))
            continue;
        ask_with_some_room(place);
        asked++;
    }
    if (!is_known(&after, EXCEPTIONS))
        ask_with_some_room(EXCEPTIONS);
    ask_with_some_room(draw() % places());
    /* beyond the map, and known, both also with too little room */
    ask(places() + beyond[draw() % 7], one_in(2) ? enough() : 0);
    for (uint32_t k = 0; k < places() && one_in(2); k++)
        if (is_known(&after, (turn + k) % places())) {
            ask((turn + k) % places(), one_in(2) ? enough() : 0);
            break;
        }
}

/* ---- lists whose chains are known */

/* A new machine of which some places before the window are unknown; every word of the window is known. */
static void new_start(uint64_t unknown, uint32_t control, uint32_t words_of_window)
{
    window_words = words_of_window;
    base = 0x8000;
    fpu_new(start.state, FPU_STATE_WORDS);
    start.state[CONTROL] = control;
    for (uint32_t r = 0; r < 16; r++)
        start.state[CORE + r] = base + 16 * r;
    start.marks = FPU_MARKS_ALL & ~unknown;
    for (uint32_t i = 0; i < window_words; i++) {
        start.window[i] = i;
        start.window_marks[i] = 1;
    }
}

static void expect_chain(uint32_t place, uint32_t first, const uint32_t *pairs, uint32_t count)
{
    ask(place, enough());
    same("the refusal of an example", place, lent_answer[1 + FPU_ANSWER_ORIGIN_REFUSAL], 0);
    same("the first place of an example", place, lent_answer[1 + FPU_ANSWER_FIRST], first);
    same("the pairs of an example", place, lent_answer[1 + FPU_ANSWER_PAIRS], count);
    for (uint32_t i = 0; i < 2 * count; i++)
        same("a word of the pairs of an example", i, lent_pairs[1 + i], pairs[i]);
}

static void examples(void)
{
    /* s0 doubled, and s2 = s1 + s1: every sum writes place 52 */
    new_start(FPU_MARK(0), 0, 0);
    run_words((const uint32_t[]){0xEE300A00, 0xEE301AA0}, 2);
    expect_chain(EXCEPTIONS, 0, (const uint32_t[]){0, 52, 1, 52}, 2);
    expect_chain(0, 0, (const uint32_t[]){0, 0}, 1);

    /* document 01's watch, which hangs on the flags */
    new_start(FPU_MARK(0), 0, 0);
    run_words((const uint32_t[]){0xEE300A00, 0xEEB50A40, 0xEEF1FA10, 0x0E300A00}, 4);
    same("the place that document 01's watch hangs on", 0, run_answer[FPU_ANSWER_PLACE], NZCV);
    expect_chain(NZCV, 0, (const uint32_t[]){0, 0, 1, 48, 2, 51}, 3);
    expect_chain(FLAGS, 0, (const uint32_t[]){0, 0, 1, 48}, 2);

    /* FADDS s9, s8, s24, LEN 7: round the bank, a link for each step */
    new_start(FPU_MARK(8), 0x00070000, 0);
    run_words((const uint32_t[]){0xEE744A0C}, 1);
    expect_chain(8, 8, (const uint32_t[]){0, 9, 0, 10, 0, 11, 0, 12, 0, 13, 0, 14, 0, 15, 0, 8}, 8);
    expect_chain(11, 8, (const uint32_t[]){0, 9, 0, 10, 0, 11}, 3);

    /* s1 stored to the second word of the window, loaded to s5, and r15, which only grows */
    new_start(FPU_MARK(1) | FPU_MARK(CORE + 15), 0, 4);
    run_words((const uint32_t[]){0xEDC00A01, 0xED900A00, 0xEDD02A01}, 3);
    expect_chain(5, 1, (const uint32_t[]){0, 54, 2, 5}, 2);
    expect_chain(54, 1, (const uint32_t[]){0, 54}, 1);
    expect_chain(CORE + 15, CORE + 15, NULL, 0);
    expect_chain(1, 1, NULL, 0);

    /* s2 and s3 to r4 and r4: the second counts, s2 being unknown too; then both to r5, to FPSCR, and its flags to NZCV */
    new_start(FPU_MARK(2) | FPU_MARK(3), 0, 0);
    run_words((const uint32_t[]){0xEC544A11, 0xEC455A13, 0xEEE14A10, 0xEEF1FA10}, 4);
    expect_chain(CORE + 4, 3, (const uint32_t[]){0, 36}, 1);
    expect_chain(CONTROL, 3, (const uint32_t[]){0, 36, 2, 49}, 2);
    expect_chain(NZCV, 3, (const uint32_t[]){0, 36, 2, 48, 3, 51}, 3);

    /* s1 and place 49 unknown: FCVTDS d1, s1, FSITOS s0, s1 and FTOSIZS s0, s1 raise by s1 alone */
    for (int k = 0; k < 3; k++) {
        new_start(FPU_MARK(1) | FPU_MARK(CONTROL), 0, 0);
        run_words((const uint32_t[]){0xEEB71AE0, 0xEEB80AE0, 0xEEBD0AE0} + k, 1);
        expect_chain(EXCEPTIONS, 1, (const uint32_t[]){0, 52}, 1);
    }
    /* 49 alone unknown: FCVTSD s0, d1 and FTOSIS s0, s1 raise by it; FCVTDS d0, s1 and FSITOS s0, s1 do not, but their results come from it */
    for (int k = 0; k < 4; k++) {
        new_start(FPU_MARK(CONTROL), 0, 0);
        run_words((const uint32_t[]){0xEEB70BC1, 0xEEBD0A60, 0xEEB70AE0, 0xEEB80AE0} + k, 1);
        expect_chain(0, CONTROL, (const uint32_t[]){0, 0}, 1);
        if (k < 2)
            expect_chain(EXCEPTIONS, CONTROL, (const uint32_t[]){0, 52}, 1);
    }

    /* no words: each unknown place is its own chain, and no room is enough */
    new_start(FPU_MARKS_ALL, 0, 0);
    run_words((const uint32_t[]){0}, 0);
    for (uint32_t p = 0; p < WINDOW; p++)
        expect_chain(p, p, NULL, 0);
}

/* 4,096 words of 8 steps each: the bound is reached, by place 52 with known operands and round a bank. */
static void longest_chains(void)
{
    static const struct {
        uint32_t word, place;
    } of[] = {{0xEE344A08, EXCEPTIONS}, {0xEE744A0C, 8}};
    static uint32_t all[MOST_LIST];
    for (int k = 0; k < 2; k++) {
        for (uint32_t i = 0; i < MOST_LIST; i++)
            all[i] = of[k].word;
        new_start(FPU_MARK(of[k].place), 0x00070000, 0);
        run_words(all, MOST_LIST);
        ask(of[k].place, enough());
        same("the pairs of 4,096 words of 8 steps", of[k].place, lent_answer[1 + FPU_ANSWER_PAIRS], MOST_PAIRS);
        ask(of[k].place, enough() - 2);
    }
}

/* A run's own refusal is the whole answer, whatever is asked for. */
static void refused_runs(void)
{
    static struct machine kept;
    for (int sort = 0; sort < 700; sort++) {
        size_t marks_bytes;
        uint32_t thumb = 0, kind = 1 + (uint32_t)sort % 7;
        list_number = (unsigned long)sort;
        random_start();
        begin_list();
        window_words = 4;
        marks_bytes = 4;
        list_words = draw() % 4;
        for (uint32_t i = 0; i < list_words; i++)
            list[i] = 0xEE300A00;
        memset(start.window_marks, 1, 8);
        base = 0x8000;
        switch (kind) {
        case 1: list_words = MOST_LIST + 1; break;
        case 2: window_words = MOST_WINDOW + 1; marks_bytes = window_words; memset(start.window_marks, 1, marks_bytes); break;
        case 3: base |= 1 + draw() % 3; break;
        case 4: base = 0xFFFFFFF4; break;
        case 5: thumb = 1; break;
        case 6: marks_bytes = one_in(2) ? 3 : 5; break;
        default: start.window_marks[draw() % 4] = (uint8_t)(2 + draw() % 254);
        }
        kept = start;
        run_result = fpu_watch(kept.state, FPU_STATE_WORDS, &kept.marks, kept.window, window_words, kept.window_marks, marks_bytes, base, thumb, list,
                               list_words, run_answer, FPU_ANSWER_WORDS);
        same("the refusal of a run", kind, run_result, FPU_REFUSED + kind);
        asked_place = draw() % 70;
        asked_pairs_words = 2 * (draw() % 40);
        called(marks_bytes, thumb);
        same_run(&kept, marks_bytes);
        for (int i = FPU_ANSWER_WORDS; i < FPU_ORIGIN_ANSWER_WORDS; i++)
            same("a word of a refused run's answer", (unsigned long)i, lent_answer[1 + i], 0);
        same_rest_of_pairs(0);
    }
}

/* ---- the counts */

static unsigned long sum(const unsigned long *of, int from, int to)
{
    unsigned long all = 0;
    for (int i = from; i < to; i++)
        all += of[i];
    return all;
}

static void print_counts(void)
{
    printf("origin: %lu lists, %lu stopped before their end; %lu words run, %lu of them skipped; %lu calls\n", lists, stopped_lists, words, skipped_words, calls);
    printf("origin: %lu chains with %lu links, the longest of %lu; %lu without pairs; at most %lu links of a word, %lu times more than one; %lu links to a "
           "place other than 52 that the word writes more than once\n", chains, links, longest, empty_chains, most_of_a_word, repeats, rewritten);
    printf("origin: links, single and double precision:");
    for (int k = 0; k < KINDS; k++)
        printf("%s %s %lu+%lu", k == 0 ? "" : ",", kind_name[k], links_of[k][0], links_of[k][1]);
    printf("\norigin: links to s0 to s31 %lu, r0 to r14 %lu", sum(links_to, 0, CORE), sum(links_to, CORE, CORE + 15));
    for (int p = CORE + 15; p < WINDOW; p++)
        printf(", %d: %lu", p, links_to[p]);
    printf(", the window %lu", links_to[WINDOW]);
    printf("\norigin: results");
    for (int r = 0; r < 256; r++)
        if (results[r] > 0)
            printf(" %d: %lu", r, results[r]);
    printf("; refusals");
    for (int r = 111; r < 114; r++)
        printf(" %d: %lu", r, refusals[r]);
    printf("\n");
}

/* A kind of word or of answer that never came would be one that is not tested. */
static void expect_all_seen(void)
{
    for (int k = 0; k < KINDS; k++) {
        int single = k != NARROW && k != HIGH_TRANSFER && k != NO_TRANSFER, wide = k != WIDEN && k != NO_TRANSFER;
        if (words_of[k] == 0 || (single && links_of[k][0] == 0) || (wide && links_of[k][1] == 0))
            differs(kind_name[k], (unsigned long)k, 0, 1);
    }
    for (unsigned long p = 0; p <= WINDOW; p++)
        if (links_to[p] == 0)
            differs("a place that no link led to", p, 0, 1);
    for (uint32_t r = 0; r < 5; r++)
        if (results[r] == 0)
            differs("a result that never came", r, 0, 1);
    for (uint32_t r = 111; r < 114; r++)
        if (refusals[r] == 0)
            differs("a refusal that never came", r, 0, 1);
}

int main(int argc, char **argv)
{
    unsigned long count = argc > 1 ? strtoul(argv[1], NULL, 10) : LISTS, first = argc > 2 ? strtoul(argv[2], NULL, 10) : 0;
    drawn = 0x9E3779B97F4A7C15;
    examples();
    longest_chains();
    refused_runs();
    for (list_number = first; list_number < first + count; list_number++) {
        drawn = 0x9E3779B97F4A7C15 * (uint64_t)(list_number + 1);
        for (int k = 0; k < 8; k++)
            draw();
        random_list();
        ask_for_places();
        lists++;
    }
    print_counts();
    if (count >= LISTS)
        expect_all_seen();
    free(events);
    return 0;
}
