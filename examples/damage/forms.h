/* The forms of what fpurun prints, for tests, as README.md shows them: what stands here is passed over, or it does not fit. A report is one of the
 * list_words and window_words that were read. */
#ifndef FORMS_H
#define FORMS_H

#include "reading.h"

static const char *here;
static int fits;
static uint8_t is_unknown[PLACES + MOST_WINDOW]; /* the places that the last report calls so */

static int passed(const char *s)
{
    size_t n = strlen(s);
    if (strncmp(here, s, n) != 0)
        return 0;
    here += n;
    return 1;
}
static void must(const char *s) { fits &= passed(s); }

/* Some characters of a set, as a word. */
static struct word span(const char *set)
{
    struct word w = {here, strspn(here, set)};
    here += w.n;
    return w;
}

/* A number without zeros in front; `is` looks whether it is this one. */
static int64_t decimal(void)
{
    struct word w = span("0123456789");
    fits &= w.n > 0 && (w.n == 1 || *w.at != '0');
    return number_of(w, 10);
}
static void is(int64_t n) { fits &= decimal() == n; }

static uint32_t eight_digits(void)
{
    struct word w = span("0123456789ABCDEF");
    fits &= w.n == 8;
    return (uint32_t)number_of(w, 16);
}

static void value(void)
{
    if (!passed("unknown"))
        eight_digits();
}

/* A word in the manual's spelling: the rest of the line, in printable characters. */
static void spelling(void)
{
    const char *start = here;
    while (*here >= ' ' && *here <= '~')
        here++;
    fits &= here > start;
    must("\n");
}

/* A place by its name, within the map. */
static int64_t place(void)
{
    struct word w = span("abcdefghijklmnopqrstuvwxyz0123456789");
    int64_t p = place_of(w);
    fits &= w.n > 0 && *w.at >= 'a' && p >= 0 && p < PLACES + window_words;
    return p;
}

static int64_t named_place(const char *before)
{
    int64_t p = place();
    must(before);
    is(p);
    must(")");
    return p;
}

/* A chain to a place: four items on a line, and the words' numbers do not fall. */
static void chain(int64_t to)
{
    int64_t p = place(), last = 1, n;
    must(" unknown at power-up");
    for (int items = 1; passed(items % 4 == 0 ? ";\n  " : "; "); items++, last = n) {
        must("word ");
        n = decimal();
        fits &= n >= last && n <= list_words;
        must(" ");
        fits &= span("ABCDEFGHIJKLMNOPQRSTUVWXYZ").n > 0;
        must(": ");
        p = place();
    }
    must("\n");
    fits &= p == to;
}

/* The word at which a run stopped, by its number. */
static int64_t at_word(void)
{
    int64_t n;
    must(" at word ");
    n = decimal();
    fits &= n >= 1 && n <= list_words;
    must(" of ");
    is(list_words);
    must(": ");
    eight_digits();
    return n;
}

/* The stop, with the word's spelling and the chain of a hang; how many words were run by it. */
static int64_t stop(void)
{
    enum { FINISHED, FOREIGN, UNDEFINED, BRANCHED, HANGS } kind;
    int64_t p = 0, n;
    kind = passed("finished") ? FINISHED : passed("foreign") ? FOREIGN : passed("undefined") ? UNDEFINED : passed("branched") ? BRANCHED : HANGS;
    if (kind == HANGS) {
        must("hangs on ");
        p = named_place(" (place ");
    }
    n = kind == FINISHED ? list_words : kind == BRANCHED ? at_word() : at_word() - 1;
    must(kind == UNDEFINED ? ", address " : ", r15 ");
    if (kind == UNDEFINED)
        eight_digits();
    else
        value();
    must("\n");
    if (kind > FOREIGN) {
        must("  ");
        spelling();
    }
    if (kind == HANGS)
        chain(p);
    return n;
}

/* The exceptions that are set, in their order, where they are told. */
static void exceptions(void)
{
    static const char *const names[] = {"invalid", "division by zero", "overflow", "underflow", "inexact"};
    int count = 0;
    if (!passed("exceptions:") || passed(" none\n"))
        return;
    for (size_t i = 0; i < SIZE(names); i++) {
        const char *start = here;
        if (passed(count > 0 ? ", " : " ") && passed(names[i]))
            count++;
        else
            here = start;
    }
    fits &= count > 0;
    must("\n");
}

static void unknown_places(int64_t count)
{
    memset(is_unknown, 0, sizeof is_unknown);
    for (int64_t p, last = -1; fits && count > 0; count--, last = p) {
        must(last < 0 ? " " : ", ");
        p = named_place(" (");
        fits &= p > last;
        is_unknown[fits ? p : 0] = 1;
    }
    must(here[0] == '\n' ? "\n" : " none\n");
}

static void changes(void)
{
    int64_t p, last = -1;
    if (passed(" none\n"))
        return;
    must("\n");
    for (; fits && passed("  "); last = p) {
        p = named_place(" (");
        fits &= p > last;
        must(" ");
        value();
        must(" -> ");
        value();
        must("\n");
    }
    fits &= last >= 0;
}

static void report(void)
{
    int64_t ran = stop(), known;
    must("ran ");
    is(ran);
    must(" of ");
    is(list_words);
    must(" words, ");
    is(list_words - ran);
    must(" left\n");
    known = decimal();
    must(" of ");
    is(PLACES + window_words);
    must(" places known\nunknown:");
    unknown_places(PLACES + window_words - known);
    must("changed:");
    changes();
    exceptions();
}

static void sheet(void)
{
    must("sheet:\n");
    for (int d = 0; d < 16; d++) {
        fits &= number_of(span("0123456789"), 10) == d;
        must(" ");
        eight_digits();
        must(" ");
        eight_digits();
        must(" ");
        fits &= span("KU").n == 2;
        must("                 \n");
    }
}

/* Of the places that the report before it calls unknown. */
static void origin(int64_t p)
{
    if (p >= PLACES + window_words) {
        must("place ");
        is(p);
        must(" is beyond the map, which has ");
        is(PLACES + window_words);
        must(" places\n");
    } else if (is_unknown[p]) {
        chain(p);
    } else {
        fits &= named_place(" (") == p;
        must(" is known\n");
    }
}

/* The words of a list, one after the other. */
static void list(void)
{
    uint32_t address = 0, stands;
    int is_address = here[0] != '?';
    for (int64_t i = 0; fits && i < list_words; i++, address = stands) {
        stands = is_address ? eight_digits() : address + 4;
        fits &= i == 0 || stands == address + 4;
        must(is_address ? ": " : "????????: ");
        eight_digits();
        must(" ");
        spelling();
    }
}

#endif
