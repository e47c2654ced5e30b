/* Runs one call again and again, for bench/run.
 *
 *     bench COLUMN ROW COUNT FILE.. [ARGUMENT..]
 *
 * COLUMN is ours, ncurses or unibilium; ROW is expand (with numbers), expand-texts (an ARGUMENT that
 * begins with = is a text, which stands behind it), open, list, compile (the text's first description
 * in the second edition; compile1 in the first, compile-named by its first name, compile-all of every
 * text in the file), merge (merge512 in an edition of 512 strings) or write. The other rows are of the
 * first edition. COUNT is how often the row is run; with COUNT 0 the program prints nanoseconds of
 * processor time per run, the least of several tries. Buffers and variables are not cleared between
 * runs.
 *
 *     bench compare expand-texts 0 FILE [ARGUMENT..]
 *
 * prints for how many strings of the file the peers' output is not ours. */
#define _POSIX_C_SOURCE 200809L
#define NCURSES_INTERNALS 1
#include <stdio.h>
#include <stdlib.h>
#include <string.h>
#include <time.h>
#ifdef WITH_NCURSES
#include <curses.h>
#include <term.h>
#include <term_entry.h>
#endif
#ifdef WITH_UNIBILIUM
#include <unibilium.h>
#endif
#include "terminfo_c.h"

enum {
    BOOLEANS = TERMINFO_FIRST_BOOLEANS,
    NUMBERS = TERMINFO_FIRST_NUMBERS,
    STRINGS = TERMINFO_FIRST_STRINGS,
    LARGEST_INPUT = 1 << 22,
    LARGEST = 1 << 16,
    MOST = 4096
};
enum { AM_PLACE = TERMINFO_AM, COLS_PLACE = TERMINFO_COLS, CUP_PLACE = TERMINFO_CUP };

static uint8_t files[2][LARGEST_INPUT];
static size_t lengths[2];
static const char *strings[MOST];
static size_t string_lengths[MOST], string_count;
static int32_t arguments[9], lasting[26];
static uint8_t kinds[9], texts[LARGEST]; /* each text has a NUL behind it for the peers */
static size_t text_starts[9], text_lengths[9], texts_length;
static uint8_t output[LARGEST];
static volatile uint64_t kept;

static void fail(const char *what) {
    fprintf(stderr, "bench: %s\n", what);
    exit(1);
}

static void load(int which, const char *path) {
    FILE *file = fopen(path, "rb");
    if (!file) fail(path);
    lengths[which] = fread(files[which], 1, LARGEST_INPUT, file);
    fclose(file);
}

/* Finds the strings or texts of the first file, each of which has a NUL behind it. */
static void split(void) {
    const char *at = (const char *)files[0], *end = at + lengths[0];
    while (at < end && string_count < MOST) {
        strings[string_count] = at;
        string_lengths[string_count] = strlen(at);
        at += string_lengths[string_count++] + 1;
    }
}

static void expand_ours(void) {
    for (size_t i = 0; i < string_count; i++)
        kept = terminfo_expand((const uint8_t *)strings[i], string_lengths[i], arguments, lasting,
                               output, sizeof output, 0);
}

static void expand_texts_ours(void) {
    for (size_t i = 0; i < string_count; i++)
        kept = terminfo_expand_texts((const uint8_t *)strings[i], string_lengths[i], kinds, arguments,
                                     text_starts, text_lengths, texts, texts_length, lasting, output,
                                     sizeof output, 0);
}

static void open_ours(void) {
    static const uint8_t asked[8] = {TERMINFO_BOOLEAN, TERMINFO_NUMBER, TERMINFO_STRING};
    static const size_t places[8] = {AM_PLACE, COLS_PLACE, CUP_PLACE};
    uint64_t answers[8];
    if (terminfo_ask(files[0], lengths[0], BOOLEANS, NUMBERS, STRINGS, asked, places, answers))
        fail("the entry is refused");
    kept = terminfo_kind(answers[0]) + terminfo_value(answers[1]) + terminfo_start(answers[2]);
}

/* Opens an entry that may be refused. */
static void check_ours(void) {
    uint64_t tables[10];
    kept = terminfo_open(files[0], lengths[0], BOOLEANS, NUMBERS, STRINGS, tables);
}

static void list_ours(void) {
    static uint8_t booleans[BOOLEANS], numbers[NUMBERS], present[STRINGS];
    static uint32_t values[NUMBERS];
    static size_t starts[STRINGS], sizes[STRINGS];
    if (terminfo_list(files[0], lengths[0], BOOLEANS, NUMBERS, STRINGS, booleans, BOOLEANS, numbers,
                      NUMBERS, values, NUMBERS, present, STRINGS, starts, STRINGS, sizes, STRINGS))
        fail("the entry is refused");
    kept = booleans[AM_PLACE] + values[COLS_PLACE] + starts[CUP_PLACE];
}

static void compile_in_first(void) {
    kept = terminfo_compile_first(files[0], lengths[0], TERMINFO_FIRST_EDITION, output,
                                  sizeof output);
}

static void compile_in_second(void) {
    kept = terminfo_compile_first(files[0], lengths[0], TERMINFO_SECOND_EDITION, output,
                                  sizeof output);
}

/* By the name before the first bar, which the text begins with. */
static void compile_named(void) {
    const uint8_t *bar = memchr(files[0], '|', lengths[0]);
    if (!bar) fail("the text has no names");
    kept = terminfo_compile(files[0], lengths[0], files[0], (size_t)(bar - files[0]),
                            TERMINFO_SECOND_EDITION, output, sizeof output);
}

static void compile_all(void) {
    for (size_t i = 0; i < string_count; i++) {
        kept = terminfo_compile_first((const uint8_t *)strings[i], string_lengths[i],
                                      TERMINFO_SECOND_EDITION, output, sizeof output);
        if (terminfo_refusal(kept)) fail("a text is refused");
    }
}

static void merge_in(size_t strings_known) {
    kept = terminfo_merge(files[0], lengths[0], files[1], lengths[1], BOOLEANS, NUMBERS,
                          strings_known, output, sizeof output);
}

static void merge_ours(void) { merge_in(STRINGS); }

static void merge_512_strings(void) { merge_in(512); }

/* Writes half as many strings as the file has bytes, each of them the whole file. */
static void write_shared(void) {
    static uint8_t present[MOST];
    static size_t starts[MOST], whole[MOST];
    static const uint32_t values[1];
    size_t count = lengths[0] / 2;
    for (size_t i = 0; i < count; i++) {
        present[i] = TERMINFO_PRESENT;
        whole[i] = lengths[0];
    }
    kept = terminfo_write(0, 0, count, (const uint8_t *)"a", 1, present, 0, present, 0, values, 0,
                          present, count, starts, count, whole, count, files[0], lengths[0], output,
                          sizeof output);
}

#ifdef WITH_NCURSES
static void expand_ncurses(void) {
    const int32_t *a = arguments;
    for (size_t i = 0; i < string_count; i++)
        kept = (uintptr_t)tiparm(strings[i], (long)a[0], (long)a[1], (long)a[2], (long)a[3],
                                 (long)a[4], (long)a[5], (long)a[6], (long)a[7], (long)a[8]);
}

static long words[9]; /* a number, or the address of a text: x86-64 passes both alike */

static const char *with_words(const char *string) {
    const long *w = words;
    return tiparm(string, w[0], w[1], w[2], w[3], w[4], w[5], w[6], w[7], w[8]);
}

static void expand_texts_ncurses(void) {
    for (size_t i = 0; i < string_count; i++) kept = (uintptr_t)with_words(strings[i]);
}

static void open_ncurses(void) {
    TERMTYPE2 entry;
    if (_nc_read_termtype(&entry, (char *)files[0], (int)lengths[0]) != 1) fail("not read");
    kept = (uint64_t)(entry.Booleans[AM_PLACE] + entry.Numbers[COLS_PLACE])
           + (uintptr_t)entry.Strings[CUP_PLACE];
    _nc_free_termtype2(&entry);
}
#endif

#ifdef WITH_NCURSES
/* The peers' states, stored like ours: by kind, and strings by where they start. */
static void list_ncurses(void) {
    static char booleans[BOOLEANS];
    static int numbers[NUMBERS];
    static char *present[STRINGS];
    TERMTYPE2 entry;
    if (_nc_read_termtype(&entry, (char *)files[0], (int)lengths[0]) != 1) fail("not read");
    for (int i = 0; i < BOOLEANS; i++) booleans[i] = entry.Booleans[i];
    for (int i = 0; i < NUMBERS; i++) numbers[i] = entry.Numbers[i];
    for (int i = 0; i < STRINGS; i++) present[i] = entry.Strings[i];
    kept = (uint64_t)(booleans[AM_PLACE] + numbers[COLS_PLACE]) + (uintptr_t)present[CUP_PLACE];
    _nc_free_termtype2(&entry);
}
#endif

#ifdef WITH_UNIBILIUM
static unibi_var_t variables[9];

static void expand_unibilium(void) {
    unibi_var_t copy[9];
    for (size_t i = 0; i < string_count; i++) {
        memcpy(copy, variables, sizeof copy);
        kept = unibi_run(strings[i], copy, (char *)output, sizeof output);
    }
}

static void open_unibilium(void) {
    unibi_term *entry = unibi_from_mem((const char *)files[0], lengths[0]);
    if (!entry) fail("not read");
    kept = (uint64_t)(unibi_get_bool(entry, unibi_auto_right_margin)
                      + unibi_get_num(entry, unibi_columns))
           + (uintptr_t)unibi_get_str(entry, unibi_cursor_address);
    unibi_destroy(entry);
}

static void list_unibilium(void) {
    static char booleans[BOOLEANS];
    static int numbers[NUMBERS];
    static const char *present[STRINGS];
    unibi_term *entry = unibi_from_mem((const char *)files[0], lengths[0]);
    if (!entry) fail("not read");
    for (int i = 0; i < BOOLEANS; i++)
        booleans[i] = (char)unibi_get_bool(entry, (enum unibi_boolean)(unibi_boolean_begin_ + 1 + i));
    for (int i = 0; i < NUMBERS; i++)
        numbers[i] = unibi_get_num(entry, (enum unibi_numeric)(unibi_numeric_begin_ + 1 + i));
    for (int i = 0; i < STRINGS; i++)
        present[i] = unibi_get_str(entry, (enum unibi_string)(unibi_string_begin_ + 1 + i));
    kept = (uint64_t)(booleans[AM_PLACE] + numbers[COLS_PLACE]) + (uintptr_t)present[CUP_PLACE];
    unibi_destroy(entry);
}
#endif

/* For how many strings a peer's output is not ours. */
static void compare(void) {
    size_t ncurses = 0, unibilium = 0;
    for (size_t i = 0; i < string_count; i++) {
        static uint8_t ours[LARGEST];
        uint64_t answer = terminfo_expand_texts((const uint8_t *)strings[i], string_lengths[i], kinds,
                                                arguments, text_starts, text_lengths, texts,
                                                texts_length, lasting, ours, sizeof ours - 1, 0);
        if (terminfo_refusal(answer)) fail("a string is refused");
        ours[terminfo_length(answer)] = 0;
#ifdef WITH_NCURSES
        ncurses += strcmp((const char *)ours, with_words(strings[i])) != 0;
#endif
#ifdef WITH_UNIBILIUM
        unibi_var_t copy[9];
        memcpy(copy, variables, sizeof copy);
        output[unibi_run(strings[i], copy, (char *)output, sizeof output - 1)] = 0;
        unibilium += strcmp((const char *)ours, (const char *)output) != 0;
#endif
    }
#ifdef WITH_NCURSES
    printf("ncurses gives other bytes for %zu of %zu strings; ", ncurses, string_count);
#endif
#ifdef WITH_UNIBILIUM
    printf("unibilium gives other bytes for %zu of %zu strings; ", unibilium, string_count);
#endif
    (void)ncurses, (void)unibilium;
    printf("\n");
}

typedef struct {
    const char *column, *row;
    void (*run)(void);
} Row;

static const Row rows[] = {
    {"ours", "expand", expand_ours},
    {"ours", "expand-texts", expand_texts_ours},
    {"ours", "open", open_ours},
    {"ours", "list", list_ours},
    {"ours", "compile", compile_in_second},
    {"ours", "compile1", compile_in_first},
    {"ours", "compile-named", compile_named},
    {"ours", "compile-all", compile_all},
    {"ours", "check", check_ours},
    {"ours", "merge", merge_ours},
    {"ours", "merge512", merge_512_strings},
    {"ours", "write", write_shared},
#ifdef WITH_NCURSES
    {"ncurses", "expand", expand_ncurses},
    {"ncurses", "expand-texts", expand_texts_ncurses},
    {"ncurses", "open", open_ncurses},
    {"ncurses", "list", list_ncurses},
#endif
#ifdef WITH_UNIBILIUM
    {"unibilium", "expand", expand_unibilium},
    {"unibilium", "expand-texts", expand_unibilium},
    {"unibilium", "open", open_unibilium},
    {"unibilium", "list", list_unibilium},
#endif
};

static double seconds(void) {
    struct timespec now;
    clock_gettime(CLOCK_PROCESS_CPUTIME_ID, &now);
    return (double)now.tv_sec + 1e-9 * (double)now.tv_nsec;
}

/* The least nanoseconds per run of 15 tries of about 5 milliseconds each. */
static double nanoseconds(void (*run)(void)) {
    long count = 1;
    double least = 1e9;
    for (int tries = 0; tries < 15;) {
        double start = seconds();
        for (long i = 0; i < count; i++) run();
        double taken = seconds() - start;
        if (taken < 0.005) {
            count *= 2;
            continue;
        }
        if (taken / (double)count < least) least = taken / (double)count;
        tries++;
    }
    return 1e9 * least;
}

/* Takes an argument of the strings: a number, or a text behind =. */
static void take_argument(int i, const char *word) {
    if (*word != '=') {
        arguments[i] = atoi(word);
    } else {
        kinds[i] = 1;
        text_starts[i] = texts_length;
        text_lengths[i] = strlen(word + 1);
        if (text_lengths[i] + 1 > sizeof texts - texts_length) fail("long texts");
        memcpy(texts + texts_length, word + 1, text_lengths[i] + 1);
        texts_length += text_lengths[i] + 1;
    }
}

/* Puts the arguments as the peers take them. */
static void take_for_peers(void) {
    for (int i = 0; i < 9; i++) {
        char *text = (char *)texts + text_starts[i];
#ifdef WITH_NCURSES
        words[i] = kinds[i] ? (long)text : arguments[i];
#endif
#ifdef WITH_UNIBILIUM
        variables[i] = kinds[i] ? unibi_var_from_str(text) : unibi_var_from_num(arguments[i]);
#endif
        (void)text;
    }
}

int main(int argc, char **argv) {
    if (argc < 5) fail("COLUMN ROW COUNT FILE.. [ARGUMENT..]");
    int merging = strncmp(argv[2], "merge", 5) == 0;
    load(0, argv[4]);
    load(1, argv[merging && argc > 5 ? 5 : 4]);
    if (strncmp(argv[2], "expand", 6) == 0 || strcmp(argv[2], "compile-all") == 0) split();
    for (int i = 0; i < 9 && 5 + i < argc && !merging; i++) take_argument(i, argv[5 + i]);
    take_for_peers();
    if (strcmp(argv[1], "compare") == 0) {
        compare();
        return 0;
    }
    for (size_t i = 0; i < sizeof rows / sizeof rows[0]; i++) {
        if (strcmp(rows[i].column, argv[1]) != 0 || strcmp(rows[i].row, argv[2]) != 0) continue;
        long count = atol(argv[3]);
        if (count == 0) printf("%.1f\n", nanoseconds(rows[i].run));
        for (; count > 0; count--) rows[i].run();
        return 0;
    }
    fail("no such column and row");
}
