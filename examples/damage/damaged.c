/* damaged FOLDER EVERY FILE.. -- COMMAND..: gives fpurun, by the words of COMMAND, the texts and records of the files, damaged byte by byte, line by
 * line and number by number, every EVERYth of them. Each run has to end by itself within a time, with status 0 and nothing on standard error. A
 * mistake and a refusal have to be answered as reading.h has it, and else a report has to have the form of forms.h. The other ways to ask have to
 * agree: with --sheet, --list and --origin, on standard input, and as the record that --write makes, which it must not where there is a mistake. Its
 * files are in FOLDER. It prints a line for what is wrong, and 'damaged: N texts and M records, R runs, W wrong'. */
#define _DEFAULT_SOURCE
#include "forms.h"

#include <fcntl.h>
#include <signal.h>
#include <spawn.h>
#include <stdlib.h>
#include <sys/wait.h>
#include <unistd.h>

enum { SECONDS = 60, SHOWN = 20, PATH = 4096 };

static unsigned long texts, records, runs, wrongs, number, every;
static const char *folder, *doing;
static char *command[32], input[PATH], output[PATH], errors[PATH], made[PATH];
static size_t words_of_command;
static struct bytes whole, given, plain, other, said; /* a file, what is made of it, what is printed, and that on standard error */

/* ---- files and runs */

static int read_file(const char *path, struct bytes *b)
{
    int fd = open(path, O_RDONLY);
    ssize_t got = fd < 0 ? -1 : 0;
    b->n = 0;
    while (got >= 0 && b->n < ROOM && (got = read(fd, b->at + b->n, ROOM - b->n)) > 0)
        b->n += (size_t)got;
    b->at[b->n] = 0;
    if (fd >= 0)
        close(fd);
    return got >= 0;
}

static void write_file(const char *path, const char *at, size_t n)
{
    int fd = open(path, O_CREAT | O_TRUNC | O_WRONLY, 0600);
    if (fd < 0 || write(fd, at, n) != (ssize_t)n || close(fd) != 0) {
        printf("damaged: %s cannot be written\n", path);
        exit(1);
    }
}

static void check(int is, const char *what)
{
    char kept[PATH];
    if (is || ++wrongs > SHOWN)
        return;
    snprintf(kept, sizeof kept, "%.4000s/wrong.%lu", folder, wrongs);
    write_file(kept, given.at, given.n);
    printf("wrong: %s, damage %lu, which is %s: %s\n", doing, number, kept, what);
}

static pid_t running;
static void out_of_time(int signal)
{
    (void)signal;
    kill(running, SIGKILL);
}

/* Runs the program with up to four arguments, standard input being a file; what it prints. */
static void run(struct bytes *printed, const char *standard_input, const char *a, const char *b, const char *c, const char *d)
{
    extern char **environ;
    const char *arguments[] = {a, b, c, d};
    posix_spawn_file_actions_t files;
    int status = -1;
    for (size_t i = 0; i < SIZE(arguments); i++)
        command[words_of_command + i] = (char *)arguments[i];
    posix_spawn_file_actions_init(&files);
    posix_spawn_file_actions_addopen(&files, 0, standard_input, O_RDONLY, 0);
    posix_spawn_file_actions_addopen(&files, 1, output, O_CREAT | O_TRUNC | O_WRONLY, 0600);
    posix_spawn_file_actions_addopen(&files, 2, errors, O_CREAT | O_TRUNC | O_WRONLY, 0600);
    if (posix_spawnp(&running, command[0], &files, NULL, command, environ) != 0) {
        printf("damaged: %s cannot be run\n", command[0]);
        exit(1);
    }
    alarm(SECONDS);
    while (waitpid(running, &status, 0) < 0)
        ;
    alarm(0);
    posix_spawn_file_actions_destroy(&files);
    runs++;
    check(!WIFSIGNALED(status), "ended by a signal, or out of time");
    check(WIFSIGNALED(status) || WEXITSTATUS(status) == 0, "its status is not 0");
    check(read_file(output, printed) && read_file(errors, &said), "its output cannot be read");
}

static void run_quietly(struct bytes *printed, const char *standard_input, const char *a, const char *b, const char *c, const char *d)
{
    run(printed, standard_input, a, b, c, d);
    check(said.n == 0, "standard error is not empty");
}

/* ---- one damaged text or record */

static const char NONE[] = "/dev/null", *const asked[] = {"s0", "flags", "w0", "60", "s12", "r15", "exceptions", "16436"};

static int equal(const struct bytes *a, const struct bytes *b) { return a->n == b->n && memcmp(a->at, b->at, a->n) == 0; }
static int is_line(const struct bytes *a, const char *line) { return a->n == strlen(line) && memcmp(a->at, line, a->n) == 0; }

/* Begins to look at the forms of what was printed, after what is passed over already. */
static void look(const struct bytes *printed, size_t from)
{
    here = printed->at + from;
    fits = 1;
}
static int is_at_end(const struct bytes *printed) { return fits && here == printed->at + printed->n; }

/* What was printed is the answer, or where there is none a report. */
static void told(const char *answer, const char *what)
{
    look(&plain, 0);
    if (answer[0] == 0)
        report();
    check(answer[0] == 0 ? is_at_end(&plain) : is_line(&plain, answer), what);
}

/* What was printed then is the same answer, or the report with the sheet or, of a place, its origin below it. */
static void told_below(const char *answer, const char *asked_for, const char *what)
{
    int is_below = other.n > plain.n && memcmp(other.at, plain.at, plain.n) == 0;
    look(&other, is_below ? plain.n : 0);
    if (answer[0] == 0 && asked_for == NULL)
        sheet();
    else if (answer[0] == 0)
        origin(place_of((struct word){asked_for, strlen(asked_for)}));
    check(answer[0] == 0 ? is_below && is_at_end(&other) : equal(&other, &plain), what);
}

/* The record of a text: as many bytes as it says, and its replay tells what the text tells. Where there is a mistake none is made, and one stays. */
static void written(const char *mistake, int was_there)
{
    static struct bytes left;
    size_t n = 4 * (size_t)(3 + 2 * (PLACES + window_words) + list_words);
    char line[60];
    if (mistake[0] != 0) {
        check(is_line(&other, mistake), "--write answers a mistake otherwise");
        check(was_there ? read_file(made, &left) && is_line(&left, "as it was") : access(made, F_OK) != 0, "--write writes in spite of a mistake");
        return;
    }
    snprintf(line, sizeof line, "wrote %zu bytes\n", n);
    check(is_line(&other, line), "--write does not say how many bytes it wrote");
    check(read_file(made, &left) && left.n == n, "--write wrote another number of bytes");
    run_quietly(&other, NONE, "--record", made, NULL, NULL);
    check(equal(&other, &plain), "the record of a text is told otherwise");
}

static void text(void)
{
    const char *mistake, *place_asked = asked[number % SIZE(asked)];
    int is_there = number % 16 < 8;
    if (number++ % every != 0)
        return;
    texts++;
    write_file(input, given.at, given.n);
    mistake = mistake_in(&given);
    run_quietly(&plain, NONE, input, NULL, NULL, NULL);
    told(mistake, "a text is told otherwise");
    run_quietly(&other, input, NULL, NULL, NULL, NULL);
    check(equal(&other, &plain), "a text is told otherwise on standard input");
    run_quietly(&other, NONE, "--sheet", input, NULL, NULL);
    told_below(mistake, NULL, "--sheet tells otherwise");
    run_quietly(&other, NONE, "--origin", place_asked, input, NULL);
    told_below(mistake, place_asked, "--origin tells otherwise");
    run_quietly(&other, NONE, "--list", input, NULL, NULL);
    look(&other, 0);
    if (mistake[0] == 0)
        list();
    check(mistake[0] == 0 ? is_at_end(&other) : equal(&other, &plain), "--list tells otherwise");
    unlink(made);
    if (is_there)
        write_file(made, "as it was", 9);
    run_quietly(&other, NONE, "--write", input, made, NULL);
    written(mistake, is_there);
    if (texts % 8 == 0) {
        run_quietly(&plain, NONE, "--record", input, NULL, NULL);
        told(refusal_of(&given), "a text as a record is told otherwise");
    }
}

static void record(void)
{
    const char *refusal, *place_asked = asked[number % SIZE(asked)];
    if (number++ % every != 0)
        return;
    records++;
    write_file(input, given.at, given.n);
    refusal = refusal_of(&given);
    run_quietly(&plain, NONE, "--record", input, NULL, NULL);
    told(refusal, "a record is told otherwise");
    run_quietly(&other, input, "--record", NULL, NULL, NULL);
    check(equal(&other, &plain), "a record is told otherwise on standard input");
    run_quietly(&other, NONE, "--origin", place_asked, "--record", input);
    told_below(refusal, place_asked, "--origin with --record tells otherwise");
    if (records % 8 == 0) {
        run_quietly(&plain, NONE, input, NULL, NULL, NULL);
        told(mistake_in(&given), "a record as a text is told otherwise");
    }
}

/* ---- the damages */

/* What is whole, with so many bytes from one on left out and others in their stead. */
static void replaced(size_t from, size_t out, const char *by, size_t n)
{
    memcpy(given.at, whole.at, from);
    memcpy(given.at + from, by, n);
    memcpy(given.at + from + n, whole.at + from + out, whole.n - from - out);
    given.n = whole.n - out + n;
    given.at[given.n] = 0;
}

/* Drawn out to so many bytes, of one kind. */
static void drawn_out(size_t n, char by)
{
    given = whole;
    memset(given.at + given.n, by, n - given.n);
    given.n = n;
    given.at[n] = 0;
}

/* How many bytes the line from one on has, its line feed among them. */
static size_t line_from(size_t i)
{
    const char *end = i < whole.n ? memchr(whole.at + i, '\n', whole.n - i) : NULL;
    return end == NULL ? whole.n - i : (size_t)(end + 1 - (whole.at + i));
}

/* Each line left out, doubled, swapped with the next, and with 10,000 bytes more at its end. */
static void damaged_lines(void)
{
    static char swapped[ROOM], longer[10000];
    for (size_t i = 0, n, m; i < whole.n; i += n) {
        n = line_from(i);
        m = line_from(i + n);
        replaced(i, n, "", 0);
        text();
        replaced(i, 0, whole.at + i, n);
        text();
        memcpy(swapped, whole.at + i + n, m);
        memcpy(swapped + m, whole.at + i, n);
        replaced(i, n + m, swapped, n + m);
        text();
        for (size_t k = 0; k < 4; k++) {
            memset(longer, " 0#\0"[k], sizeof longer);
            replaced(i + n - (whole.at[i + n - 1] == '\n'), 0, longer, sizeof longer);
            text();
        }
    }
}

/* Each byte left out, each in the stead of which another stands, and the text cut before each; its lines; and texts that are too long, or nearly. */
static void damaged_text(void)
{
    static const char by[] = {0, (char)0x80, (char)0xFF, '\n', ' ', '#', '7', 'x'};
    given = whole;
    text();
    for (size_t i = 0; i < whole.n; i++) {
        replaced(i, 1, "", 0);
        text();
        replaced(i, whole.n - i, "", 0);
        text();
        for (size_t k = 0; k < SIZE(by); k++)
            if (whole.at[i] != by[k]) {
                replaced(i, 1, by + k, 1);
                text();
            }
    }
    damaged_lines();
    for (size_t k = 0; k < 3 * SIZE(by); k++) {
        drawn_out(k < SIZE(by) ? TOO_MANY - 1 : k < 2 * SIZE(by) ? TOO_MANY : TOO_MANY + 1000, by[k % SIZE(by)]);
        text();
    }
}

/* Each bit changed; cut before each byte, and each left out; each number left out, doubled, and others in its stead; drawn out. */
static void damaged_record(void)
{
    static const uint32_t by[] = {0, 1, 2, 52, 53, 54, 0x20000035, 0x7FFFFFFF, 0x80000000, 0xFFFFFFFF};
    given = whole;
    record();
    for (size_t bit = 0; bit < 8 * whole.n; bit++) {
        char flipped = (char)(whole.at[bit / 8] ^ 1 << bit % 8);
        replaced(bit / 8, 1, &flipped, 1);
        record();
    }
    for (size_t i = 0; i < whole.n; i++) {
        replaced(i, whole.n - i, "", 0);
        record();
        replaced(i, 1, "", 0);
        record();
    }
    for (size_t i = 0; i + 4 <= whole.n; i += 4) {
        replaced(i, 4, "", 0);
        record();
        replaced(i, 0, whole.at + i, 4);
        record();
        for (size_t k = 0; k < SIZE(by); k++) {
            char bytes[] = {(char)by[k], (char)(by[k] >> 8), (char)(by[k] >> 16), (char)(by[k] >> 24)};
            replaced(i, 4, bytes, 4);
            record();
        }
    }
    for (size_t more = 1; more < 22; more++) {
        drawn_out(more < 20 ? whole.n + more : TOO_MANY - 21 + more, (char)(more % 2));
        record();
    }
}

/* No file, and a folder, in each mode; and what is no place. */
static void paths_and_places(void)
{
    static const char *const modes[] = {NULL, "--list", "--sheet", "--record", "--write"};
    static const char *const places[] = {"", " ", "s", "s32", "s-1", "S0", "r16", "w", "w16384", "16437", "4294967296", "0x10", "flag", "flagss",
                                         "\xFF\x80", "s0 ", "s0", "w16383", "16436", "s00000000000000000000000000000031"};
    char line[PATH + 100];
    given.n = 0;
    doing = "a path";
    for (size_t i = 0; i < 2 * SIZE(modes); i++) {
        const char *mode = modes[i / 2], *path = i % 2 ? folder : made;
        unlink(made);
        run(&plain, NONE, mode == NULL ? path : mode, mode == NULL ? NULL : path, i / 2 == 4 ? made : NULL, NULL);
        snprintf(line, sizeof line, "%s: %s\n", path, i % 2 ? "Is a directory" : "No such file or directory");
        check(plain.n == 0 && is_line(&said, line), "what cannot be read is answered otherwise");
        check(access(made, F_OK) != 0, "a file is made");
    }
    doing = "a place";
    write_file(input, "", 0);
    run_quietly(&plain, NONE, input, NULL, NULL, NULL);
    told(mistake_in(&given), "no bytes are told otherwise");
    snprintf(line, sizeof line, "expected %s\n", A_PLACE);
    for (size_t i = 0; i < SIZE(places); i++) {
        run_quietly(&other, NONE, "--origin", places[i], input, NULL);
        if (place_of((struct word){places[i], strlen(places[i])}) < 0)
            check(is_line(&other, line), "what is no place is answered otherwise");
        else
            told_below("", places[i], "--origin tells otherwise");
    }
}

int main(int arguments, char **argument)
{
    int files = 3;
    every = arguments < 4 ? 0 : strtoul(argument[2], NULL, 10);
    while (files < arguments && strcmp(argument[files], "--") != 0)
        files++;
    for (int k = files + 1; k < arguments && words_of_command < SIZE(command) - 5; k++)
        command[words_of_command++] = argument[k];
    if (every == 0 || words_of_command == 0) {
        printf("usage: damaged FOLDER EVERY FILE.. -- COMMAND..\n");
        return 2;
    }
    folder = argument[1];
    snprintf(input, sizeof input, "%s/input", folder);
    snprintf(output, sizeof output, "%s/output", folder);
    snprintf(errors, sizeof errors, "%s/errors", folder);
    snprintf(made, sizeof made, "%s/made", folder);
    signal(SIGALRM, out_of_time);
    for (int k = 3; k < files; k++) {
        doing = argument[k];
        if (!read_file(doing, &whole)) {
            printf("damaged: %s cannot be read\n", doing);
            return 1;
        }
        if (strstr(doing, ".record") != NULL)
            damaged_record();
        else
            damaged_text();
    }
    paths_and_places();
    printf("damaged: %lu texts and %lu records, %lu runs, %lu wrong\n", texts, records, runs, wrongs);
    return wrongs != 0 || texts == 0 || records == 0;
}
