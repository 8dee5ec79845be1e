/* The steps of an instruction word, for tests: which places each step writes, and from which places the mark of each is made. Written from documents 01
 * and 02 alone: nothing of the unit is looked at. A step is an iteration of a vector, a register of a load or store, a transfer, or the write-back. */
#ifndef STEPS_H
#define STEPS_H

#include "fpu.h"

#include <string.h>

enum {
    CORE = FPU_PLACE_R0,
    FLAGS = FPU_PLACE_FPSCR_FLAGS,
    CONTROL = FPU_PLACE_FPSCR_CONTROL,
    EXC = FPU_PLACE_FPEXC,
    NZCV = FPU_PLACE_NZCV,
    EXCEPTIONS = FPU_PLACE_FPSCR_EXCEPTIONS,
    WINDOW = FPU_STATE_WORDS,

    MOST_SOURCES = 7, /* of place 52 in a double accumulate: itself and three doubles */
    MOST_WRITES = 3,  /* a double and place 52; FPSCR in its three places */
    MOST_STEPS = 256, /* 255 singles and the write-back */
};

/* What a word is; of it the program counts how often it was a link. */
enum kind {
    ACCUMULATE, ARITHMETIC, MOVE, SIGN, ROOT, COMPARE, COMPARE_ZERO, WIDEN, NARROW, FROM_INTEGER, TO_INTEGER, TRUNCATE,
    SINGLE_TRANSFER, HIGH_TRANSFER, SYSTEM_READ, SYSTEM_READ_FLAGS, SYSTEM_WRITE, NO_TRANSFER, PAIR, LOAD, STORE, KINDS
};

static const char *const kind_name[KINDS] = {
    "accumulate", "arithmetic", "move", "sign change", "root", "compare", "compare with zero", "widening", "narrowing", "from integer",
    "to integer by mode", "to integer truncating", "single transfer", "high half transfer", "system register read", "read to r15",
    "system register write", "transfer that does nothing", "pair", "load", "store",
};

/* A write of a place: its mark is 1 just when every source's mark before the step is. */
struct write {
    uint16_t target, sources, source[MOST_SOURCES];
};

/* Writes at once; of several of one place the last counts. */
struct step {
    uint16_t writes;
    struct write write[MOST_WRITES];
};

struct steps {
    enum kind kind;
    int wide; /* coprocessor 11 */
    uint32_t count;
    struct step step[MOST_STEPS];
};

static uint32_t field(uint32_t word, int low, int high) { return word >> low & ((2u << (high - low)) - 1); }

/* The two numberings of registers. */
static uint32_t sreg(uint32_t v, uint32_t extra) { return v * 2 + extra; }
static uint32_t dreg(uint32_t v, uint32_t extra) { return extra * 16 + v; }
static uint32_t reg(int wide, uint32_t v, uint32_t extra) { return wide ? dreg(v, extra) : sreg(v, extra); }

static struct step *new_step(struct steps *s)
{
    struct step *made = &s->step[s->count++];
    made->writes = 0;
    return made;
}

/* A write of no sources yet: that of a constant. */
static struct write *writes(struct step *s, uint32_t target)
{
    struct write *w = &s->write[s->writes++];
    w->target = (uint16_t)target;
    w->sources = 0;
    return w;
}

static void reads(struct write *w, uint32_t source) { w->source[w->sources++] = (uint16_t)source; }

/* A single, or the two words of a double, indices modulo 32. */
static void reads_register(struct write *w, int wide, uint32_t n)
{
    if (!wide) {
        reads(w, n % 32);
        return;
    }
    reads(w, 2 * n % 32);
    reads(w, (2 * n + 1) % 32);
}

static void reads_all(struct write *w, const struct write *others)
{
    for (uint32_t i = 0; i < others->sources; i++)
        reads(w, others->source[i]);
}

static void copies(struct step *s, uint32_t target, uint32_t source) { reads(writes(s, target), source); }

/* A register takes a result: of a double each word is made of all operands. */
static void result_of(struct step *s, int wide, uint32_t d, const struct write *operands)
{
    reads_all(writes(s, wide ? 2 * d % 32 : d % 32), operands);
    if (wide)
        reads_all(writes(s, (2 * d + 1) % 32), operands);
}

/* Every number operation ORs into place 52, which is then made of itself and the operands. */
static void raises(struct step *s, const struct write *operands)
{
    struct write *w = writes(s, EXCEPTIONS);
    reads(w, EXCEPTIONS);
    reads_all(w, operands);
}

/* ---- data processing */

/* One iteration of a word that steps: a formula (0 to 8), or else a move, a sign change or a root. */
static void iteration(struct steps *s, int wide, uint32_t d, uint32_t n, uint32_t m)
{
    struct step *step = new_step(s);
    struct write operands = {0};
    switch (s->kind) {
    case MOVE:
    case SIGN:
        for (uint32_t half = 0; half < (wide ? 2u : 1u); half++)
            copies(step, wide ? (2 * d + half) % 32 : d, wide ? (2 * m + half) % 32 : m);
        return;
    case ROOT:
        reads_register(&operands, wide, m);
        break;
    default:
        reads_register(&operands, wide, n);
        reads_register(&operands, wide, m);
        if (s->kind == ACCUMULATE)
            reads_register(&operands, wide, d);
    }
    result_of(step, wide, d, &operands);
    raises(step, &operands);
}

/* A register of iteration i: it stays in its bank. */
static uint32_t stepped(uint32_t n, uint32_t bank, uint32_t i, uint32_t stride) { return n / bank * bank + (n + i * stride) % bank; }

static void vector(struct steps *s, int wide, uint32_t word, uint32_t control)
{
    uint32_t bank = wide ? 4 : 8, stride = field(control, 20, 21) == 3 ? 2 : 1;
    uint32_t d = reg(wide, field(word, 12, 15), field(word, 22, 22));
    uint32_t n = reg(wide, field(word, 16, 19), field(word, 7, 7));
    uint32_t m = reg(wide, field(word, 0, 3), field(word, 5, 5));
    uint32_t iterations = d < bank ? 1 : field(control, 16, 18) + 1;
    for (uint32_t i = 0; i < iterations; i++)
        iteration(s, wide, stepped(d, bank, i, stride), stepped(n, bank, i, stride), m < bank ? m : stepped(m, bank, i, stride));
}

static void compare(struct steps *s, int wide, uint32_t word)
{
    struct step *step = new_step(s);
    struct write operands = {0};
    reads_register(&operands, wide, reg(wide, field(word, 12, 15), field(word, 22, 22)));
    if (s->kind == COMPARE)
        reads_register(&operands, wide, reg(wide, field(word, 0, 3), field(word, 5, 5)));
    reads_all(writes(step, FLAGS), &operands);
    raises(step, &operands);
}

/* The integer and the other width's register are numbered in their own way. Place 49 is a source of a narrowed and a widened value, of a single made from
 * an integer, and of an integer by mode; of place 52 it is one in narrowing and in an integer by mode. */
static void conversion(struct steps *s, int wide, uint32_t word)
{
    int from_wide = s->kind == FROM_INTEGER || s->kind == WIDEN ? 0 : s->kind == NARROW ? 1 : wide;
    int to_wide = s->kind == TO_INTEGER || s->kind == TRUNCATE || s->kind == NARROW ? 0 : s->kind == WIDEN ? 1 : wide;
    int by_mode = s->kind == NARROW || s->kind == TO_INTEGER;
    int by_control = by_mode || s->kind == WIDEN || (s->kind == FROM_INTEGER && !wide);
    struct step *step = new_step(s);
    struct write value = {0}, raised = {0};
    if (by_control)
        reads(&value, CONTROL);
    if (by_mode)
        reads(&raised, CONTROL);
    uint32_t m = reg(from_wide, field(word, 0, 3), field(word, 5, 5));
    reads_register(&value, from_wide, m);
    reads_register(&raised, from_wide, m);
    result_of(step, to_wide, reg(to_wide, field(word, 12, 15), field(word, 22, 22)), &value);
    raises(step, &raised);
}

/* The kind of a data-processing word, or KINDS where it is Undefined: by bits 23, 21, 20 and 6, and where these are 1111 by bits 19:16 and 7. */
static enum kind data_kind(uint32_t word)
{
    uint32_t formula = field(word, 23, 23) << 3 | field(word, 20, 21) << 1 | field(word, 6, 6), seventh = field(word, 7, 7);
    if (formula <= 8)
        return formula < 4 ? ACCUMULATE : ARITHMETIC;
    if (formula != 15)
        return KINDS;
    switch (field(word, 16, 19)) {
    case 0: return seventh ? SIGN : MOVE;
    case 1: return seventh ? ROOT : SIGN;
    case 4: return COMPARE;
    case 5: return COMPARE_ZERO;
    case 7: return !seventh ? KINDS : field(word, 8, 11) == 11 ? NARROW : WIDEN;
    case 8: return FROM_INTEGER;
    case 12:
    case 13: return seventh ? TRUNCATE : TO_INTEGER;
    default: return KINDS;
    }
}

static void data_steps(struct steps *s, int wide, uint32_t word, uint32_t control)
{
    s->kind = data_kind(word);
    if (s->kind <= ROOT)
        vector(s, wide, word, control);
    else if (s->kind == COMPARE || s->kind == COMPARE_ZERO)
        compare(s, wide, word);
    else if (s->kind != KINDS)
        conversion(s, wide, word);
}

/* ---- transfers */

static void system_steps(struct steps *s, uint32_t word)
{
    uint32_t system = field(word, 16, 19), t = field(word, 12, 15);
    struct step *step = new_step(s);
    if (!field(word, 20, 20)) {
        s->kind = SYSTEM_WRITE;
        if (system == 1) {
            copies(step, FLAGS, CORE + t);
            copies(step, CONTROL, CORE + t);
            copies(step, EXCEPTIONS, CORE + t);
        } else if (system == 8) {
            copies(step, EXC, CORE + t);
        }
        return;
    }
    s->kind = t == 15 ? SYSTEM_READ_FLAGS : SYSTEM_READ;
    struct write *w = writes(step, t == 15 ? NZCV : CORE + t);
    if (system == 8)
        reads(w, EXC);
    if (system != 1)
        return;
    reads(w, FLAGS);
    if (t != 15) {
        reads(w, CONTROL);
        reads(w, EXCEPTIONS);
    }
}

static void transfer_steps(struct steps *s, uint32_t word)
{
    uint32_t opc1 = field(word, 21, 23), n = field(word, 16, 19), t = field(word, 12, 15), single;
    if (opc1 == 7) {
        system_steps(s, word);
        return;
    }
    s->kind = opc1 == 0 ? SINGLE_TRANSFER : opc1 == 1 && s->wide ? HIGH_TRANSFER : NO_TRANSFER;
    if (s->kind == NO_TRANSFER)
        return;
    single = s->kind == SINGLE_TRANSFER ? sreg(n, field(word, 7, 7)) : 2 * n + 1;
    if (field(word, 20, 20))
        copies(new_step(s), CORE + t, single);
    else
        copies(new_step(s), single, CORE + t);
}

/* ---- loads and stores */

/* The place of an address, or 0 outside the window: s0 is none. */
static uint32_t place_at(uint32_t address, uint32_t base, uint32_t window_words)
{
    uint32_t aligned = address & ~(uint32_t)3;
    return aligned >= base && (aligned - base) / 4 < window_words ? WINDOW + (aligned - base) / 4 : 0;
}

/* Outside the window what is loaded is known, and nothing is stored. */
static void access_word(struct step *step, int load, uint32_t single, uint32_t place)
{
    if (load && place != 0)
        copies(step, single, place);
    else if (load)
        writes(step, single);
    else if (place != 0)
        copies(step, place, single);
}

static void pair_step(struct steps *s, uint32_t word)
{
    uint32_t v = field(word, 0, 3), extra = field(word, 5, 5);
    uint32_t low = s->wide ? 2 * dreg(v, extra) % 32 : sreg(v, extra), high = (low + 1) % 32;
    uint32_t t = CORE + field(word, 12, 15), u = CORE + field(word, 16, 19);
    int load = (int)field(word, 20, 20);
    struct step *step = new_step(s);
    s->kind = PAIR;
    copies(step, load ? t : low, load ? low : t);
    copies(step, load ? u : high, load ? high : u);
}

static void memory_steps(struct steps *s, uint32_t word, const uint32_t *state, uint32_t base, uint32_t window_words)
{
    if (field(word, 21, 27) == 0x62) {
        pair_step(s, word);
        return;
    }
    uint32_t p = field(word, 24, 24), up = field(word, 23, 23), back = field(word, 21, 21), load = field(word, 20, 20);
    uint32_t imm8 = field(word, 0, 7), from = CORE + field(word, 16, 19), one = p && !back;
    uint32_t count = one ? 1 : s->wide ? imm8 / 2 : imm8;
    uint32_t start = !up ? state[from] - imm8 * 4 : one ? state[from] + imm8 * 4 : state[from];
    uint32_t first = reg(s->wide, field(word, 12, 15), field(word, 22, 22));
    s->kind = load ? LOAD : STORE;
    for (uint32_t i = 0; i == 0 || i < count; i++) {
        struct step *step = new_step(s);
        for (uint32_t half = 0; half < (s->wide ? 2u : 1u); half++) {
            uint32_t address = start + (s->wide ? 8 * i + 4 * half : 4 * i);
            uint32_t single = s->wide ? (2 * (first + i) + half) % 32 : (first + i) % 32;
            access_word(step, (int)load, single, place_at(address, base, window_words));
        }
    }
    if (back)
        copies(new_step(s), from, from);
}

/* The steps of a word of coprocessor 10 or 11 that is run, neither stopping the run nor skipped, in a state and over a window. */
static void steps_of(struct steps *s, uint32_t word, const uint32_t *state, uint32_t base, uint32_t window_words)
{
    s->count = 0;
    s->wide = field(word, 8, 11) == 11;
    if (field(word, 25, 27) == 6)
        memory_steps(s, word, state, base, window_words);
    else if (field(word, 4, 4))
        transfer_steps(s, word);
    else
        data_steps(s, s->wide, word, state[CONTROL]);
}

/* Whether a word's condition holds, by the manual's table. */
static int condition_holds(uint32_t word, uint32_t nzcv)
{
    uint32_t n = nzcv >> 31, z = nzcv >> 30 & 1, c = nzcv >> 29 & 1, v = nzcv >> 28 & 1, held;
    switch (word >> 29) {
    case 0: held = z; break;
    case 1: held = c; break;
    case 2: held = n; break;
    case 3: held = v; break;
    case 4: held = c && !z; break;
    case 5: held = n == v; break;
    case 6: held = n == v && !z; break;
    default: return 1;
    }
    return held != (word >> 28 & 1);
}

/* ---- marks */

/* The last write of a place in a step, or a null pointer. */
static const struct write *last_write(const struct step *s, uint32_t place)
{
    for (uint32_t i = s->writes; i-- > 0;)
        if (s->write[i].target == place)
            return &s->write[i];
    return NULL;
}

static int is_source(const struct write *w, uint32_t place)
{
    for (uint32_t i = 0; i < w->sources; i++)
        if (w->source[i] == place)
            return 1;
    return 0;
}

/* The map, a byte for each place, after a step: all sources are looked at before a target is marked. */
static void mark_step(const struct step *s, uint8_t *known)
{
    uint8_t made[MOST_WRITES];
    for (uint32_t i = 0; i < s->writes; i++) {
        made[i] = 1;
        for (uint32_t k = 0; k < s->write[i].sources; k++)
            made[i] &= known[s->write[i].source[k]];
    }
    for (uint32_t i = 0; i < s->writes; i++)
        known[s->write[i].target] = made[i];
}

#endif
