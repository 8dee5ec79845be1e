/* What a text and a record come to, for tests: the line that fpurun answers a mistake or a refusal with. Written from README.md and documents 01 and
 * 02 alone. */
#ifndef READING_H
#define READING_H

#include <stdint.h>
#include <stdio.h>
#include <string.h>

#define SIZE(array) (sizeof(array) / sizeof *(array))
enum { ROOM = 1 << 20, TOO_MANY = 524288, PLACES = 53, MOST_WINDOW = 16384, MOST_WORDS = 4096 };

struct bytes {
    size_t n;
    char at[ROOM + 1]; /* a 0 after them */
};

/* Of the last text or record that has no mistake and is not refused. */
static int64_t list_words, window_words;

/* ---- words, numbers and places */

struct word {
    const char *at;
    size_t n;
};

static int same(struct word w, const char *s) { return strlen(s) == w.n && memcmp(w.at, s, w.n) == 0; }

static int is_gap(char c) { return c == ' ' || c == '\t'; }

/* The next word of a line, which is empty at its end. */
static struct word next_word(struct word *line)
{
    struct word w;
    for (; line->n > 0 && is_gap(*line->at); line->n--)
        line->at++;
    for (w = (struct word){line->at, 0}; line->n > 0 && !is_gap(*line->at); line->n--, w.n++)
        line->at++;
    return w;
}

static int digit_of(char c)
{
    return c >= '0' && c <= '9' ? c - '0' : c >= 'A' && c <= 'F' ? c - 'A' + 10 : c >= 'a' && c <= 'f' ? c - 'a' + 10 : 16;
}

/* A number below 2^32 of at least one digit, or -1. */
static int64_t number_of(struct word w, int base)
{
    int64_t x = 0;
    for (size_t i = 0; i < w.n; i++) {
        x = x * base + digit_of(w.at[i]);
        if (digit_of(w.at[i]) >= base || x >> 32 != 0)
            return -1;
    }
    return w.n == 0 ? -1 : x;
}

static int64_t hexadecimal(struct word w)
{
    if (w.n >= 2 && w.at[0] == '0' && w.at[1] == 'x')
        w = (struct word){w.at + 2, w.n - 2};
    return w.n > 8 ? -1 : number_of(w, 16);
}

static int64_t place_of(struct word w)
{
    static const char *const names[] = {"flags", "control", "fpexc", "nzcv", "exceptions"};
    static const struct {
        char letter;
        int64_t first, count;
    } sorts[] = {{'s', 0, 32}, {'r', 32, 16}, {'w', PLACES, MOST_WINDOW}};
    int64_t n;
    for (size_t i = 0; i < SIZE(names); i++)
        if (same(w, names[i]))
            return 48 + (int64_t)i;
    for (size_t i = 0; i < SIZE(sorts); i++)
        if (w.n > 0 && *w.at == sorts[i].letter) {
            n = number_of((struct word){w.at + 1, w.n - 1}, 10);
            return n < 0 || n >= sorts[i].count ? -1 : sorts[i].first + n;
        }
    n = number_of(w, 10);
    return n >= PLACES + MOST_WINDOW ? -1 : n;
}

/* ---- a text: what is expected where a line has a mistake, or a null pointer */

static const char A_PLACE[] = "a place: s0 to s31, r0 to r15, flags, control, fpexc, nzcv, exceptions, w0 on, or its number";

static const char *in_map(int64_t p)
{
    static char text[100];
    snprintf(text, sizeof text, "a place of the machine or of the window, which has %ld words", (long)window_words);
    return p < PLACES + window_words ? NULL : text;
}

static const char *set_line(struct word line)
{
    int64_t p = place_of(next_word(&line)), x;
    if (p < 0)
        return A_PLACE;
    if ((x = hexadecimal(next_word(&line))) < 0)
        return "a value of 1 to 8 hexadecimal digits";
    if ((p == 48 || p == 51) && x > 0xF)
        return "a value of four bits, 0 to F";
    if (p == 49 && (x % 0x20 != 0 || x > 0xFFFFFE0))
        return "a value of bits 27 to 5, a multiple of 20 up to FFFFFE0";
    if (p == 52 && x > 0x1F)
        return "a value of five bits, 0 to 1F";
    return next_word(&line).n > 0 ? "the line's end" : in_map(p);
}

static const char *unknown_line(struct word line)
{
    struct word w = next_word(&line);
    const char *mistake = w.n == 0 ? A_PLACE : NULL;
    for (; w.n > 0 && mistake == NULL; w = next_word(&line))
        mistake = place_of(w) < 0 ? A_PLACE : in_map(place_of(w));
    return mistake;
}

static const char *window_line(struct word line, int *is_window)
{
    int64_t base = hexadecimal(next_word(&line)), count;
    if (base < 0)
        return "a base of 1 to 8 hexadecimal digits";
    if ((count = number_of(next_word(&line), 10)) < 0)
        return "a count of words in decimal";
    if (next_word(&line).n > 0)
        return "the line's end";
    if (*is_window)
        return "one window only";
    if (count > MOST_WINDOW)
        return "a window of at most 16384 words";
    if (base % 4 != 0)
        return "a base that is a multiple of 4";
    if (base + 4 * count > (int64_t)1 << 32)
        return "a window that ends within memory, base + 4 * count at most 2^32";
    *is_window = 1;
    window_words = count;
    return NULL;
}

/* What counts of a line stands before its comment, or before the CR at its end. */
static const char *read_line(struct word line, int *is_window)
{
    struct word w;
    const char *comment = memchr(line.at, '#', line.n);
    if (comment != NULL)
        line.n = (size_t)(comment - line.at);
    else if (line.n > 0 && line.at[line.n - 1] == '\r')
        line.n--;
    w = next_word(&line);
    if (w.n == 0)
        return NULL;
    if (same(w, "set"))
        return set_line(line);
    if (same(w, "unknown"))
        return unknown_line(line);
    if (same(w, "window"))
        return window_line(line, is_window);
    if (w.n != 8 || number_of(w, 16) < 0)
        return "an instruction word of eight hexadecimal digits, set, unknown or window";
    if (next_word(&line).n > 0)
        return "the line's end";
    return ++list_words > MOST_WORDS ? "at most 4096 instruction words" : NULL;
}

/* The line that answers the first mistake, or an empty one. */
static const char *mistake_in(const struct bytes *text)
{
    static char answer[200];
    const char *mistake = text->n < TOO_MANY ? NULL : "a text of at most 524287 bytes";
    unsigned long line = mistake == NULL ? 0 : 1;
    int is_window = 0;
    list_words = window_words = 0;
    for (size_t i = 0; mistake != NULL && i < TOO_MANY; i++)
        line += text->at[i] == '\n';
    for (size_t i = 0, n; mistake == NULL && i < text->n; i += n + 1, line++) {
        const char *end = memchr(text->at + i, '\n', text->n - i);
        n = end == NULL ? text->n - i : (size_t)(end - (text->at + i));
        mistake = read_line((struct word){text->at + i, n}, &is_window);
    }
    snprintf(answer, sizeof answer, mistake == NULL ? "" : "line %lu: expected %s\n", line, mistake);
    return answer;
}

/* ---- a record */

static uint64_t number_at(const struct bytes *r, uint64_t i)
{
    const uint8_t *at = (const uint8_t *)r->at + 4 * i;
    return at[0] | (uint32_t)at[1] << 8 | (uint32_t)at[2] << 16 | (uint32_t)at[3] << 24;
}

static int is_no_mark(const struct bytes *r, uint64_t from, uint64_t to)
{
    for (uint64_t p = from; p < to; p++)
        if (number_at(r, 2 + number_at(r, 1) + p) > 1)
            return 1;
    return 0;
}

/* The line that answers a record which is refused, or an empty one. */
static const char *refusal_of(const struct bytes *r)
{
    static const uint64_t outside[] = {0x0FFFFFFF, 0xF000001F, 0, 0x0FFFFFFF, 0xFFFFFFE0};
    uint64_t words = number_at(r, 1), list = number_at(r, 0) & 0x7FFFFFFF, window = words - PLACES, base;
    int is_outside = 0;
    if (r->n >= TOO_MANY)
        return "expected a record of at most 524287 bytes\n";
    if (r->n < 8 || number_at(r, 0) >> 31 == 0 || r->n != 4 * (3 + 2 * words + list) || words < PLACES)
        return "refused: 109, bit 31 of the first number clear, not as many bytes as the counts call for, or fewer than 53 state words\n";
    for (uint64_t p = 48; p < PLACES; p++)
        is_outside |= (number_at(r, 2 + p) & outside[p - 48]) != 0;
    if (is_outside || is_no_mark(r, 0, PLACES))
        return "refused: 110, a bit outside a place's own, or a mark before the window that is neither 0 nor 1\n";
    if (list > MOST_WORDS)
        return "refused: 101, more than 4096 instruction words\n";
    if (window > MOST_WINDOW)
        return "refused: 102, a window of more than 16384 words\n";
    base = number_at(r, 2 + 2 * words);
    if (base % 4 != 0)
        return "refused: 103, a base that is no multiple of 4\n";
    if (base + 4 * window > (uint64_t)1 << 32)
        return "refused: 104, a window that ends beyond memory, base + 4 * count above 2^32\n";
    if (is_no_mark(r, PLACES, words))
        return "refused: 107, a mark of a window word that is neither 0 nor 1\n";
    list_words = (int64_t)list;
    window_words = (int64_t)window;
    return "";
}

#endif
