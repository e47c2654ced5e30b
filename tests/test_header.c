/* The header in C and in C++: text is compiled, entries are written, opened, asked and merged, and
 * strings expanded, by its functions. */
#include <assert.h>
#include <stdio.h>
#include <string.h>

#include "terminfo_c.h"

/* Writes an entry with am present, cols#80, it cancelled, and bel=^G, and reads it again. */
static void example(void) {
    const uint8_t booleans[] = {TERMINFO_ABSENT, TERMINFO_PRESENT};
    const uint8_t numbers[] = {TERMINFO_PRESENT, TERMINFO_CANCELLED};
    const uint8_t strings[] = {TERMINFO_ABSENT, TERMINFO_PRESENT};
    const uint32_t values[] = {80, 0};
    const size_t starts[] = {0, 0}, lengths[] = {0, 1};
    const uint8_t kinds[8] = {TERMINFO_BOOLEAN, TERMINFO_BOOLEAN, TERMINFO_NUMBER, TERMINFO_NUMBER,
                              TERMINFO_STRING, TERMINFO_STRING, TERMINFO_STRING, 3};
    const size_t places[8] = {0, 1, 0, 1, 0, 1, 2, 0};
    uint64_t answer, tables[10], answers[8];
    uint8_t file[64];

    answer = terminfo_write(2, 2, 2, (const uint8_t *)"d|demo", 6, booleans, 2, numbers, 2, values,
                            2, strings, 2, starts, 2, lengths, 2, (const uint8_t *)"\a", 1, file,
                            sizeof file);
    assert(terminfo_refusal(answer) == 0 && terminfo_value(answer) == 32);
    assert(terminfo_open(file, 32, 1, 2, 2, tables) == 0);
    assert(tables[0] == 2 && tables[3] == 19 && tables[6] == 30 && tables[7] == 1);

    answer = terminfo_names(file, 32, 2, 2, 2);
    assert(terminfo_length(answer) == 6 && !memcmp(file + terminfo_start(answer), "d|demo", 6));
    answer = terminfo_boolean(file, 32, 2, 2, 2, 1);
    assert(terminfo_refusal(answer) == 0 && terminfo_kind(answer) == TERMINFO_PRESENT);
    answer = terminfo_number(file, 32, 2, 2, 2, 0);
    assert(terminfo_kind(answer) == TERMINFO_PRESENT && terminfo_value(answer) == 80);
    answer = terminfo_string(file, 32, 2, 2, 2, 1);
    assert(terminfo_kind(answer) == TERMINFO_PRESENT && terminfo_length(answer) == 1);
    assert(file[terminfo_start(answer)] == 7);

    assert(terminfo_ask(file, 32, 2, 2, 2, kinds, places, answers) == 0);
    assert(terminfo_kind(answers[0]) == TERMINFO_ABSENT);
    assert(terminfo_kind(answers[3]) == TERMINFO_CANCELLED && answers[5] == answer);
    assert(terminfo_refusal(answers[6]) == TERMINFO_REFUSED_PLACE);
    assert(terminfo_kind(answers[6]) == TERMINFO_REFUSED && answers[7] == answers[6]);
}

/* Lists every state of an entry of the first edition, writes what is listed, and gets the entry
 * again. */
static void listing(void) {
    const char *text = "l|listed,\n\tam, cols#80, it@, bel=^G, cr@,\n";
    uint8_t file[400], again[400], booleans[22], numbers[8], strings[138];
    uint32_t values[8];
    size_t starts[138], lengths[138], length;
    uint64_t answer;

    length = (size_t)terminfo_compile_first((const uint8_t *)text, strlen(text),
                                            TERMINFO_FIRST_EDITION, file, sizeof file);
    assert(length < sizeof file);
    memset(booleans, 9, sizeof booleans);
    answer = terminfo_list(file, length, 21, 8, 138, booleans, 22, numbers, 8, values, 8, strings,
                           138, starts, 138, lengths, 138);
    assert(answer == 0 && booleans[0] == TERMINFO_ABSENT && booleans[1] == TERMINFO_PRESENT);
    assert(booleans[20] == TERMINFO_ABSENT && booleans[21] == 9);
    assert(numbers[0] == TERMINFO_PRESENT && values[0] == 80);
    assert(numbers[1] == TERMINFO_CANCELLED && values[1] == 0 && numbers[7] == TERMINFO_ABSENT);
    assert(strings[0] == TERMINFO_ABSENT && starts[0] == 0 && lengths[0] == 0);
    assert(strings[1] == TERMINFO_PRESENT && lengths[1] == 1 && file[starts[1]] == 7);
    assert(strings[2] == TERMINFO_CANCELLED && lengths[2] == 0);
    answer = terminfo_write(21, 8, 138, (const uint8_t *)"l|listed", 8, booleans, 21, numbers, 8,
                            values, 8, strings, 138, starts, 138, lengths, 138, file, length, again,
                            sizeof again);
    assert(answer == length && !memcmp(again, file, length));

    booleans[0] = 9;
    answer = terminfo_list(file, length, 21, 8, 138, booleans, 22, numbers, 8, values, 7, strings,
                           138, starts, 138, lengths, 138);
    assert(terminfo_refusal(answer) == 8 && terminfo_value(answer) == 8 && booleans[0] == 9);
    answer = terminfo_list(file, length - 1, 21, 8, 138, booleans, 22, numbers, 8, values, 8, strings,
                           138, starts, 138, lengths, 138);
    assert(terminfo_refusal(answer) == 1 && booleans[0] == 9);
}

/* Writes an entry with one number, one state of it and no other capability; gives its length. */
static size_t one_number(uint8_t file[32], const char *names, uint8_t kind, uint32_t value) {
    const uint8_t none[1] = {0};
    const size_t no_size[1] = {0};
    return (size_t)terminfo_write(0, 1, 0, (const uint8_t *)names, strlen(names), none, 0, &kind, 1,
                                  &value, 1, none, 0, no_size, 0, no_size, 0, none, 0, file, 32);
}

/* Merges entries of one number: a cancelled state stays, an absent one gives way. */
static void merging(void) {
    uint8_t present[32], cancelled[32], absent[32], merged[32];
    size_t present_length = one_number(present, "p", TERMINFO_PRESENT, 80);
    size_t cancelled_length = one_number(cancelled, "c|d", TERMINFO_CANCELLED, 0);
    size_t absent_length = one_number(absent, "a", TERMINFO_ABSENT, 0);
    uint64_t answer;

    answer = terminfo_merge(cancelled, cancelled_length, present, present_length, 0, 1, 0, merged,
                            sizeof merged);
    assert(answer == cancelled_length && !memcmp(merged, cancelled, cancelled_length));
    answer = terminfo_merge(present, present_length, cancelled, cancelled_length, 0, 1, 0, merged,
                            sizeof merged);
    assert(answer == present_length && !memcmp(merged, present, present_length));
    answer = terminfo_merge(absent, absent_length, present, present_length, 0, 1, 0, merged,
                            sizeof merged);
    assert(answer == absent_length && merged[12] == 'a');
    answer = terminfo_number(merged, absent_length, 0, 1, 0, 0);
    assert(terminfo_kind(answer) == TERMINFO_PRESENT && terminfo_value(answer) == 80);
    answer = terminfo_merge(absent, absent_length, cancelled, cancelled_length, 0, 1, 0, merged,
                            sizeof merged);
    answer = terminfo_number(merged, (size_t)terminfo_value(answer), 0, 1, 0, 0);
    assert(terminfo_refusal(answer) == 0 && terminfo_kind(answer) == TERMINFO_CANCELLED);

    answer = terminfo_merge(absent, absent_length, present, present_length, 0, 1, 0, merged, 15);
    assert(terminfo_refusal(answer) == 8 && terminfo_value(answer) == 16);
    answer = terminfo_merge(absent, absent_length, present, present_length - 1, 0, 1, 0, merged,
                            sizeof merged);
    assert(terminfo_refusal(answer) == 1);
}

/* An entry of two capabilities of each kind: names at 12, booleans at 15, the pad byte at 17,
 * numbers at 18, string slots at 22, the string table at 26. */
static const uint8_t sound[28] = {26, 1, 3, 0, 2, 0, 2, 0, 2, 0, 2, 0,
                                  'a', 'b', 0, 0, 1, 0, 80, 0, 255, 255, 0, 0, 254, 255, 7, 0};

/* Takes the entry with one byte changed. */
static void damage(uint8_t file[28], size_t at, uint8_t byte) {
    memcpy(file, sound, 28);
    file[at] = byte;
}

/* Merges two files of that length in their edition. */
static uint64_t merge(const uint8_t *first, const uint8_t *second) {
    uint8_t merged[28];
    return terminfo_merge(first, 28, second, 28, 2, 2, 2, merged, sizeof merged);
}

/* Whether an answer gives this refusal, and with it this position and this file of a merge. */
static int says(uint64_t answer, unsigned refusal, size_t position, unsigned which) {
    return terminfo_refusal(answer) == refusal && terminfo_position(answer) == position &&
           terminfo_which(answer) == which;
}

/* Where a file is bad, and which of two files: 4 to 7 give the first offending byte or slot,
 * merging says which file it was for 1 to 7. */
static void positions(void) {
    static const struct {
        uint8_t at, byte, refusal, position;
    } cases[] = {
        {10, 3, TERMINFO_REFUSED_LENGTH, 0},
        {0, 0, TERMINFO_REFUSED_MAGIC, 0},
        {2, 1, TERMINFO_REFUSED_COUNTS, 0},
        {13, 0, TERMINFO_REFUSED_NAMES, 13},
        {14, 'c', TERMINFO_REFUSED_NAMES, 14},
        {15, 255, TERMINFO_REFUSED_BOOLEAN, 15},
        {16, 2, TERMINFO_REFUSED_BOOLEAN, 16},
        {17, 1, TERMINFO_REFUSED_BOOLEAN, 17},
        {19, 128, TERMINFO_REFUSED_NUMBER, 18},
        {20, 253, TERMINFO_REFUSED_NUMBER, 20},
        {22, 2, TERMINFO_REFUSED_STRING, 22},
        {25, 0, TERMINFO_REFUSED_STRING, 24},
        {27, 7, TERMINFO_REFUSED_STRING, 22},
    };
    uint8_t file[28], other[28], booleans[2], numbers[2], strings[2];
    uint32_t values[2];
    size_t starts[2], lengths[2];
    uint64_t answer, tables[10];

    damage(other, 12, 0);
    for (size_t i = 0; i < sizeof cases / sizeof cases[0]; i++) {
        unsigned refusal = cases[i].refusal;
        size_t position = cases[i].position;

        damage(file, cases[i].at, cases[i].byte);
        answer = terminfo_open(file, 28, 2, 2, 2, tables);
        assert(says(answer, refusal, position, 0));
        assert(terminfo_open(file, 28, 0, 0, 0, tables) == answer);
        assert(terminfo_list(file, 28, 2, 2, 2, booleans, 2, numbers, 2, values, 2, strings, 2,
                             starts, 2, lengths, 2) == answer);
        assert(says(merge(file, sound), refusal, position, 1));
        assert(says(merge(sound, file), refusal, position, 2));
        assert(says(merge(file, other), refusal, position, 1));
        assert(says(merge(other, file), TERMINFO_REFUSED_NAMES, 12, 1));
        assert(says(merge(file, file), refusal, position, 1));
        answer = terminfo_names(file, 28, 2, 2, 2);
        assert(says(answer, TERMINFO_REFUSED_PLACE, 0, 0) && terminfo_value(answer) == 0);
        answer = terminfo_boolean(file, 28, 2, 2, 2, 0);
        assert(terminfo_refusal(answer) == TERMINFO_REFUSED_PLACE && terminfo_value(answer) == 0);
    }
}

/* Expands a string of C with the arguments 0, 0, -5 and six more. */
static uint64_t expand(const char *string, int32_t lasting[26], uint8_t buffer[16], size_t at) {
    const int32_t arguments[9] = {0, 0, -5, 0, 0, 0, 0, 0, 0};
    return terminfo_expand((const uint8_t *)string, strlen(string), arguments, lasting, buffer, 16,
                           at);
}

/* Expands strings: steps and length, the bytes around the output, the lasting variables; a refusal
 * changes nothing. */
static void expanding(void) {
    int32_t lasting[26] = {0};
    uint8_t buffer[16];
    uint64_t answer;

    memset(buffer, '.', sizeof buffer);
    answer = expand("\033[%i%p1%d;%p2%dH", lasting, buffer, 2);
    assert(terminfo_refusal(answer) == 0);
    assert(terminfo_steps(answer) == 9 && terminfo_length(answer) == 6);
    assert(!memcmp(buffer, "..\033[1;1H........", sizeof buffer));
    answer = expand("%p3%PB%gB%03d", lasting, buffer, 0);
    assert(terminfo_steps(answer) == 4 && terminfo_length(answer) == 3);
    assert(!memcmp(buffer, "-05[1;1H........", sizeof buffer) && lasting[1] == -5);
    answer = expand("%p1%c%p3%c%{256}%c%'A'%c", lasting, buffer, 8);
    assert(terminfo_steps(answer) == 8 && terminfo_length(answer) == 4);
    assert(!memcmp(buffer, "-05[1;1H\200\373\200A....", sizeof buffer));
    memset(buffer + 8, '.', 4);

    answer = expand("a%p1%PB%+", lasting, buffer, 0);
    assert(terminfo_refusal(answer) == 15 && terminfo_value(answer) == 7);
    answer = expand("%p1%PB%p3%4d", lasting, buffer, 13);
    assert(terminfo_refusal(answer) == 8 && terminfo_value(answer) == 4);
    answer = expand("%?", lasting, buffer, 16);
    assert(terminfo_refusal(answer) == 14 && terminfo_value(answer) == 2);
    answer = expand("a%p1%s", lasting, buffer, 0);
    assert(terminfo_refusal(answer) == TERMINFO_REFUSED_KIND && terminfo_value(answer) == 4);
    answer = expand("a%l", lasting, buffer, 0);
    assert(terminfo_refusal(answer) == TERMINFO_REFUSED_STACK_EMPTY && terminfo_value(answer) == 1);
    answer = expand("%?%p1%t%s%l%;", lasting, buffer, 16);
    assert(terminfo_refusal(answer) == 0 && terminfo_steps(answer) == 3);
    assert(terminfo_refusal(expand("", lasting, buffer, 17)) == 17);
    assert(!memcmp(buffer, "-05[1;1H........", sizeof buffer) && lasting[1] == -5);
}

/* The room that every output fits into, as the size of an array, with a string that prints 99 bytes
 * for every seven of its own; from a later place on; and with one byte less than it prints. */
static void expanding_room(void) {
    enum { TIMES = 142, LENGTH = 7 * TIMES, PRINTED = 99 * TIMES };
    static uint8_t buffer[TERMINFO_EXPAND_ROOM(LENGTH)];
    const int32_t arguments[9] = {1, 0, 0, 0, 0, 0, 0, 0, 0};
    int32_t lasting[26] = {0};
    uint8_t string[LENGTH];
    uint64_t answer;
    size_t i;

    assert(TERMINFO_EXPAND_ROOM(0) == 0 && TERMINFO_EXPAND_ROOM(1) == 25);
    assert(TERMINFO_EXPAND_ROOM(999 + 1) == 25000 && 2 * TERMINFO_EXPAND_ROOM(2) == 100);
    assert(sizeof buffer == 24850 && sizeof TERMINFO_EXPAND_ROOM(1) == sizeof(size_t));
    for (i = 0; i < TIMES; i++)
        memcpy(string + 7 * i, "%p1%99d", 7);

    memset(buffer, '.', sizeof buffer);
    answer = terminfo_expand(string, LENGTH, arguments, lasting, buffer, PRINTED - 1, 0);
    assert(terminfo_refusal(answer) == TERMINFO_REFUSED_ROOM && terminfo_value(answer) == PRINTED);
    assert(buffer[0] == '.');
    answer = terminfo_expand(string, LENGTH, arguments, lasting, buffer, sizeof buffer, 0);
    assert(terminfo_refusal(answer) == 0);
    assert(terminfo_steps(answer) == 2 * TIMES && terminfo_length(answer) == PRINTED);
    for (i = 0; i < sizeof buffer; i++)
        assert(buffer[i] == (i >= PRINTED ? '.' : i % 99 == 98 ? '1' : ' '));
    answer = terminfo_expand(string, LENGTH - 7, arguments, lasting, buffer, sizeof buffer,
                             TERMINFO_EXPAND_ROOM(7));
    assert(terminfo_refusal(answer) == 0 && terminfo_length(answer) == PRINTED - 99);
}

/* Nine arguments of an expansion, numbers and texts, and the bytes that hold the texts. */
typedef struct {
    uint8_t kinds[9];
    int32_t numbers[9];
    size_t starts[9], lengths[9];
    const uint8_t *texts;
    size_t texts_length;
} Arguments;

/* Numbers, all 0. What belongs to a text must not be looked at. */
static void no_texts(Arguments *a, const char *texts) {
    for (int i = 0; i < 9; i++) {
        a->kinds[i] = 0;
        a->numbers[i] = 0;
        a->starts[i] = a->lengths[i] = SIZE_MAX;
    }
    a->texts = (const uint8_t *)texts;
    a->texts_length = strlen(texts);
}

/* Makes an argument a text. What belongs to a number must not be looked at. */
static void give_text(Arguments *a, int i, uint8_t kind, size_t start, size_t length) {
    a->kinds[i] = kind;
    a->numbers[i] = 77;
    a->starts[i] = start;
    a->lengths[i] = length;
}

static uint64_t expand_texts(const char *string, const Arguments *a, int32_t lasting[26],
                             uint8_t *buffer, size_t room, size_t at) {
    return terminfo_expand_texts((const uint8_t *)string, strlen(string), a->kinds, a->numbers,
                                 a->starts, a->lengths, a->texts, a->texts_length, lasting, buffer,
                                 room, at);
}

/* Expands strings with arguments of both kinds: a function key's, texts at the end of what is lent,
 * empty ones, the same bytes twice, a NUL; numbers as terminfo_expand does. */
static void expanding_texts(void) {
    int32_t lasting[26] = {0};
    uint8_t buffer[32], again[32];
    uint64_t answer;
    Arguments a;

    no_texts(&a, "label:ls -l\r");
    a.numbers[0] = 4;
    give_text(&a, 1, 1, 6, 6);
    memset(buffer, '.', sizeof buffer);
    answer = expand_texts("\033&f%p1%dk%p2%l%dL%p2%s", &a, lasting, buffer, sizeof buffer, 3);
    assert(terminfo_refusal(answer) == 0);
    assert(terminfo_steps(answer) == 12 && terminfo_length(answer) == 13);
    assert(!memcmp(buffer, "...\033&f4k6Lls -l\r................", sizeof buffer));

    give_text(&a, 0, 255, 0, 5);
    give_text(&a, 8, 2, 12, 0);
    answer = expand_texts("%i%p1%p1%l%d%s%p9%l%d%p9%s%p3%d", &a, lasting, buffer, 8, 0);
    assert(terminfo_refusal(answer) == 0);
    assert(terminfo_steps(answer) == 13 && terminfo_length(answer) == 8);
    assert(!memcmp(buffer, "5label00", 8));
    answer = expand_texts("%p2%l%PB", &a, lasting, buffer, 0, 0);
    assert(terminfo_steps(answer) == 3 && lasting[1] == 6);

    a.texts = (const uint8_t *)"a\0b";
    a.texts_length = 3;
    give_text(&a, 0, 1, 0, 3);
    give_text(&a, 1, 1, 2, 1);
    give_text(&a, 8, 1, 3, 0);
    answer = expand_texts("%p1%s%p2%s", &a, lasting, buffer, sizeof buffer, 1);
    assert(terminfo_length(answer) == 4 && !memcmp(buffer, "5a\0bbl00", 8));

    no_texts(&a, "");
    a.numbers[2] = -5;
    lasting[1] = 0;
    memset(again, '.', sizeof again);
    memset(buffer, '.', sizeof buffer);
    answer = terminfo_expand((const uint8_t *)"%i%p1%d%p3%03d%PB", 17, a.numbers, lasting, buffer,
                             sizeof buffer, 1);
    assert(terminfo_refusal(answer) == TERMINFO_REFUSED_STACK_EMPTY);
    assert(expand_texts("%i%p1%d%p3%03d%PB", &a, lasting, again, sizeof again, 1) == answer);
    answer = terminfo_expand((const uint8_t *)"%i%p1%d%p3%03d", 14, a.numbers, lasting, buffer,
                             sizeof buffer, 1);
    assert(terminfo_refusal(answer) == 0);
    assert(expand_texts("%i%p1%d%p3%03d", &a, lasting, again, sizeof again, 1) == answer);
    assert(!memcmp(buffer, ".1-05.", 6) && !memcmp(again, buffer, sizeof again));
}

/* Each refusal of an expansion with texts, in order, and what is lent as it was. */
static void refused_texts(void) {
    static const struct {
        const char *string;
        unsigned refusal;
        size_t place;
    } items[] = {
        {"ab%", TERMINFO_REFUSED_MALFORMED_STRING, 2},
        {"%p1%5s", TERMINFO_REFUSED_MALFORMED_STRING, 3},
        {"%s", TERMINFO_REFUSED_STACK_EMPTY, 0},
        {"%p1%+", TERMINFO_REFUSED_STACK_EMPTY, 3},
        {"%p1%d", TERMINFO_REFUSED_KIND, 3},
        {"%p1%c", TERMINFO_REFUSED_KIND, 3},
        {"%p1%PB", TERMINFO_REFUSED_KIND, 3},
        {"%p1%Pb", TERMINFO_REFUSED_KIND, 3},
        {"%p1%!", TERMINFO_REFUSED_KIND, 3},
        {"%?%p1%tx%;", TERMINFO_REFUSED_KIND, 5},
        {"%p1%p2%+", TERMINFO_REFUSED_KIND, 6},
        {"%p2%p1%+", TERMINFO_REFUSED_KIND, 6},
        {"%p1%p1%=", TERMINFO_REFUSED_KIND, 6},
        {"%p2%s", TERMINFO_REFUSED_KIND, 3},
        {"%p2%l", TERMINFO_REFUSED_KIND, 3},
        {"%p2%PB%p1%p1%p1%p1%p1%p1%p1%p1%p1%p1%p1%p1%p1%p1%p1%p1%p1%p1%p1%p1%p1",
         TERMINFO_REFUSED_STACK_FULL, 66},
    };
    static const size_t outside[][2] = {{4, 0}, {3, 1}, {0, 4}, {2, 2}, {SIZE_MAX, 0},
                                        {SIZE_MAX, 1}, {1, SIZE_MAX}, {SIZE_MAX, SIZE_MAX}};
    static uint8_t long_string[1001], long_text[1001];
    int32_t lasting[26] = {0};
    uint8_t buffer[8];
    uint64_t answer;
    Arguments a;

    memset(buffer, '.', sizeof buffer);
    memset(long_string, '%', sizeof long_string);
    no_texts(&a, "abc");
    a.numbers[1] = 9;
    give_text(&a, 0, 1, 0, 3);
    for (size_t i = 0; i < sizeof items / sizeof items[0]; i++) {
        answer = expand_texts(items[i].string, &a, lasting, buffer, 0, 0);
        assert(terminfo_refusal(answer) == items[i].refusal);
        assert(terminfo_value(answer) == items[i].place);
    }
    answer = expand_texts("%p2%PB%p1%sxy", &a, lasting, buffer, sizeof buffer, 4);
    assert(terminfo_refusal(answer) == TERMINFO_REFUSED_ROOM && terminfo_value(answer) == 5);
    for (int i = 2; i < 9; i++) /* whichever it is, and although the string does not use it */
        for (size_t j = 0; j < sizeof outside / sizeof outside[0]; j++) {
            give_text(&a, i, 1, outside[j][0], outside[j][1]);
            answer = terminfo_expand_texts(long_string, 1001, a.kinds, a.numbers, a.starts, a.lengths,
                                           a.texts, 3, lasting, buffer, 8, 8);
            assert(answer == (uint64_t)TERMINFO_REFUSED_PLACE << 56);
            a.kinds[i] = 0;
        }
    a.texts = long_text;
    a.texts_length = sizeof long_text;
    give_text(&a, 8, 1, 0, 1001);
    assert(expand_texts("%", &a, lasting, buffer, 8, 9) == (uint64_t)TERMINFO_REFUSED_PLACE << 56);
    assert(expand_texts("%", &a, lasting, buffer, 8, 8) == (uint64_t)TERMINFO_REFUSED_LENGTH << 56);
    give_text(&a, 8, 1, 1, 1000);
    answer = terminfo_expand_texts(long_string, 1001, a.kinds, a.numbers, a.starts, a.lengths, a.texts,
                                   1001, lasting, buffer, 8, 8);
    assert(answer == (uint64_t)TERMINFO_REFUSED_LENGTH << 56);
    answer = expand_texts("%p9%l%d", &a, lasting, buffer, 8, 4);
    assert(terminfo_length(answer) == 4 && !memcmp(buffer, "....1000", 8) && lasting[1] == 0);
}

/* The room that every output with texts fits into: 25 bytes for each of the string's and 1,000 for
 * each %s item; and the most that there is. */
static void expanding_texts_room(void) {
    enum { TIMES = 200, LENGTH = 5 * TIMES, PRINTED = 1000 * TIMES };
    static uint8_t buffer[TERMINFO_EXPAND_TEXTS_ROOM(LENGTH, TIMES)];
    static uint8_t most[TERMINFO_EXPAND_MOST], text[1000];
    char string[LENGTH + 1];
    int32_t lasting[26] = {0};
    uint64_t answer;
    Arguments a;
    size_t i;

    assert(TERMINFO_EXPAND_TEXTS_ROOM(0, 0) == 0 && TERMINFO_EXPAND_TEXTS_ROOM(1, 0) == 25);
    assert(TERMINFO_EXPAND_TEXTS_ROOM(2, 1) == 1050);
    assert(2 * TERMINFO_EXPAND_TEXTS_ROOM(1 + 1, 1 + 1) == 4100);
    assert(TERMINFO_EXPAND_TEXTS_ROOM(1000, 500) == TERMINFO_EXPAND_MOST);
    assert(TERMINFO_EXPAND_TEXTS_ROOM_ANY(1000) == TERMINFO_EXPAND_MOST);
    assert(2 * TERMINFO_EXPAND_TEXTS_ROOM_ANY(1 + 1) == 2100);
    for (i = 0; i <= 1000; i++)
        assert(TERMINFO_EXPAND_TEXTS_ROOM(i, i / 2) <= TERMINFO_EXPAND_TEXTS_ROOM_ANY(i));
    assert(sizeof buffer == 225000 && sizeof most == 525000);
    assert(sizeof TERMINFO_EXPAND_TEXTS_ROOM(1, 1) == sizeof(size_t));
    assert(sizeof TERMINFO_EXPAND_TEXTS_ROOM_ANY(1) == sizeof(size_t));
    for (i = 0; i < sizeof text; i++)
        text[i] = (uint8_t)(i % 251);
    for (i = 0; i < TIMES; i++)
        memcpy(string + 5 * i, "%p1%s", 5);
    string[LENGTH] = 0;
    no_texts(&a, "");
    a.texts = text;
    a.texts_length = sizeof text;
    give_text(&a, 0, 1, 0, 1000);

    memset(buffer, '.', sizeof buffer);
    answer = expand_texts(string, &a, lasting, buffer, PRINTED - 1, 0);
    assert(terminfo_refusal(answer) == TERMINFO_REFUSED_ROOM && terminfo_value(answer) == PRINTED);
    assert(buffer[0] == '.');
    answer = expand_texts(string, &a, lasting, buffer, sizeof buffer, 0);
    assert(terminfo_refusal(answer) == 0);
    assert(terminfo_steps(answer) == 2 * TIMES && terminfo_length(answer) == PRINTED);
    for (i = 0; i < sizeof buffer; i++)
        assert(buffer[i] == (i >= PRINTED ? '.' : text[i % 1000]));
    answer = expand_texts(string, &a, lasting, most, sizeof most, TERMINFO_EXPAND_MOST - PRINTED);
    assert(terminfo_refusal(answer) == 0 && most[sizeof most - 1] == text[999]);
    for (i = 0; i < LENGTH / 2; i++)
        memcpy(string + 2 * i, "%s", 2);
    answer = expand_texts(string, &a, lasting, most, sizeof most, 0);
    assert(terminfo_refusal(answer) == TERMINFO_REFUSED_STACK_EMPTY && terminfo_value(answer) == 0);
}

/* The state of a capability by its name, in the second edition. */
static uint64_t named(const uint8_t *file, size_t length, const char *name) {
    return terminfo_state(file, length, TERMINFO_SECOND_EDITION, (const uint8_t *)name,
                          strlen(name));
}

/* Compiles the first description of a text of C in an edition. */
static uint64_t compile(const char *text, size_t booleans, size_t numbers, size_t strings,
                        uint8_t *buffer, size_t room) {
    return terminfo_compile_first((const uint8_t *)text, strlen(text), booleans, numbers, strings,
                                  buffer, room);
}

/* Answers that give no position and no file: the edition's 3, 9, 8, success, and other calls'. */
static void no_positions(void) {
    static uint8_t sharing[14 + 1000 + 10] = {26, 1, 2, 0, 0, 0, 0, 0, 244, 1, 10, 0, 'a', 0};
    static uint8_t merged[4096];
    uint8_t bad[28], file[32];
    uint64_t answer, tables[10];

    damage(bad, 12, 0);
    assert(says(terminfo_open(bad, 28, 65, 2, 2, tables), TERMINFO_REFUSED_COUNTS, 0, 0));
    answer = terminfo_merge(bad, 28, bad, 28, 2, 2, 513, merged, sizeof merged);
    assert(says(answer, TERMINFO_REFUSED_COUNTS, 0, 0) && terminfo_value(answer) == 0);
    memset(sharing + sizeof sharing - 10, 'x', 9); /* 500 slots of one string */
    answer = terminfo_merge(sound, 28, sharing, sizeof sharing, 2, 2, 500, merged, sizeof merged);
    assert(says(answer, TERMINFO_REFUSED_SIZE, 0, 0) && terminfo_value(answer) == 0);
    answer = terminfo_merge(sound, 28, sound, 28, 2, 2, 2, merged, 27);
    assert(says(answer, TERMINFO_REFUSED_ROOM, 0, 0) && terminfo_value(answer) == 28);
    assert(says(merge(sound, sound), 0, 0, 0));
    assert(says(terminfo_open(sound, 28, 2, 2, 2, tables), 0, 0, 0));
    assert(says(one_number(file, "", TERMINFO_ABSENT, 0), TERMINFO_REFUSED_NAMES, 0, 0));
    answer = compile("a|b,\n am, cols,\n", 64, 64, 512, merged, sizeof merged);
    assert(says(answer, TERMINFO_REFUSED_UNKNOWN, 0, 0));
}

/* A text compiled and read back, and a field that is refused with its place. */
static void compiling(void) {
    const char *text = "a|console a,\n\tam, cols#0x50, bel@, cr=^M,\n";
    const char *wrong = "a|console a,\n\tam, colums#80,\n";
    uint8_t buffer[480];
    uint64_t answer;
    size_t length;

    memset(buffer, '.', sizeof buffer);
    answer = compile(wrong, TERMINFO_SECOND_EDITION, buffer, sizeof buffer);
    assert(terminfo_refusal(answer) == 11 && terminfo_value(answer) == 18);
    assert(buffer[0] == '.');
    answer = compile(text, TERMINFO_SECOND_EDITION, buffer, sizeof buffer);
    assert(terminfo_refusal(answer) == 0);
    length = (size_t)terminfo_value(answer);
    assert(length < sizeof buffer && buffer[length] == '.');
    answer = terminfo_boolean(buffer, length, TERMINFO_FIRST_EDITION, TERMINFO_AM);
    assert(terminfo_kind(answer) == TERMINFO_PRESENT);
    answer = terminfo_number(buffer, length, TERMINFO_FIRST_EDITION, TERMINFO_COLS);
    assert(terminfo_kind(answer) == TERMINFO_PRESENT && terminfo_value(answer) == 80);
    answer = terminfo_string(buffer, length, TERMINFO_FIRST_EDITION, TERMINFO_BEL);
    assert(terminfo_refusal(answer) == 0 && terminfo_kind(answer) == TERMINFO_CANCELLED);
    answer = terminfo_string(buffer, length, TERMINFO_FIRST_EDITION, TERMINFO_CR);
    assert(terminfo_length(answer) == 1 && buffer[terminfo_start(answer)] == 13);
    assert(named(buffer, length, "cr") == answer);
    assert(terminfo_value(named(buffer, length, "cols")) == 80);
    assert(terminfo_kind(named(buffer, length, "am")) == TERMINFO_PRESENT);
    assert(terminfo_kind(named(buffer, length, "bw")) == TERMINFO_ABSENT);
    answer = compile(text, TERMINFO_SECOND_EDITION, buffer, 14);
    assert(terminfo_refusal(answer) == 8 && terminfo_value(answer) == length);
}

/* The counts of both editions, a text that one of them does not know, its file read by the other,
 * and editions without a name for each place, without any place, and too large. */
static void editions(void) {
    static const size_t first[3] = {TERMINFO_FIRST_EDITION}, second[3] = {TERMINFO_SECOND_EDITION};
    static uint8_t buffer[4096], spaces[16385];
    const char *text = "a|console a,\n\tam, bce, colors#8, cr=^M, acsc=``aa,\n";
    const char *older = "a|console a,\n\tam, cr=^M,\n";
    uint64_t answer, tables[10];
    size_t length;

    assert(first[0] == 21 && first[1] == 8 && first[2] == 138);
    assert(first[0] == TERMINFO_FIRST_BOOLEANS && first[0] == TERMINFO_XON + 1);
    assert(first[1] == TERMINFO_FIRST_NUMBERS && first[1] == TERMINFO_WSL + 1);
    assert(first[2] == TERMINFO_FIRST_STRINGS && first[2] == TERMINFO_HU + 1);
    assert(second[0] == 37 && second[1] == 16 && second[2] == 158);
    assert(second[0] == TERMINFO_SECOND_BOOLEANS && second[0] == TERMINFO_LPIX + 1);
    assert(second[1] == TERMINFO_SECOND_NUMBERS && second[1] == TERMINFO_NCV + 1);
    assert(second[2] == TERMINFO_SECOND_STRINGS && second[2] == TERMINFO_RMLN + 1);

    answer = compile(text, TERMINFO_FIRST_EDITION, buffer, sizeof buffer);
    assert(terminfo_refusal(answer) == TERMINFO_REFUSED_UNKNOWN && terminfo_value(answer) == 18);
    length = (size_t)compile(text, TERMINFO_SECOND_EDITION, buffer, sizeof buffer);
    assert(terminfo_kind(named(buffer, length, "bce")) == TERMINFO_PRESENT);
    assert(terminfo_value(named(buffer, length, "colors")) == 8);
    answer = terminfo_string(buffer, length, TERMINFO_SECOND_EDITION, TERMINFO_ACSC);
    assert(terminfo_length(answer) == 4 && !memcmp(buffer + terminfo_start(answer), "``aa", 4));
    assert(terminfo_open(buffer, length, TERMINFO_FIRST_EDITION, tables) == 0);
    assert(tables[7] == 16 && tables[8] == 8 && tables[9] == 20);
    answer = terminfo_string(buffer, length, TERMINFO_FIRST_EDITION, TERMINFO_CR);
    assert(terminfo_kind(answer) == TERMINFO_PRESENT && buffer[terminfo_start(answer)] == 13);
    answer = terminfo_number(buffer, length, TERMINFO_FIRST_EDITION, TERMINFO_COLORS);
    assert(terminfo_refusal(answer) == TERMINFO_REFUSED_PLACE);

    length = (size_t)compile(older, TERMINFO_FIRST_EDITION, buffer, sizeof buffer);
    assert(terminfo_open(buffer, length, TERMINFO_SECOND_EDITION, tables) == 0);
    assert(tables[0] == 21 && tables[7] == 0 && tables[8] == 0 && tables[9] == 0);
    assert(terminfo_kind(named(buffer, length, "am")) == TERMINFO_PRESENT);
    assert(named(buffer, length, "colors") == 0 && named(buffer, length, "bce") == 0);

    length = (size_t)compile(text, 64, 64, 512, buffer, sizeof buffer);
    assert(terminfo_open(buffer, length, 64, 64, 512, tables) == 0);
    assert(tables[0] == 64 && tables[1] == 64 && tables[2] == 512);
    assert(terminfo_string(buffer, length, 64, 64, 512, 511) == 0);
    assert(compile("a|b,\n", 0, 0, 0, buffer, sizeof buffer) == 16);

    buffer[0] = '.';
    memset(spaces, ' ', sizeof spaces);
    answer = terminfo_compile_first(spaces, sizeof spaces, 65, 64, 512, buffer, 0);
    assert(terminfo_refusal(answer) == TERMINFO_REFUSED_COUNTS && terminfo_value(answer) == 0);
    assert(terminfo_refusal(compile(text, 64, 65, 512, buffer, sizeof buffer)) == 3);
    assert(terminfo_refusal(compile("", 64, 64, 513, buffer, sizeof buffer)) == 3);
    assert(terminfo_refusal(compile("", SIZE_MAX, SIZE_MAX, SIZE_MAX, buffer, 0)) == 3);
    answer = terminfo_compile_first(spaces, sizeof spaces, 64, 64, 512, buffer, 0);
    assert(terminfo_refusal(answer) == TERMINFO_REFUSED_LENGTH && buffer[0] == '.');
    answer = terminfo_compile(spaces, sizeof spaces, spaces, 1, 65, 64, 512, buffer, 0);
    assert(terminfo_refusal(answer) == TERMINFO_REFUSED_COUNTS);
    answer = terminfo_compile(spaces, sizeof spaces, spaces, 1, 64, 64, 512, buffer, 0);
    assert(terminfo_refusal(answer) == TERMINFO_REFUSED_LENGTH && buffer[0] == '.');
}

/* Compiles the description of a text of C that has a name, in the second edition. */
static uint64_t compile_named(const char *text, const char *name, uint8_t *buffer, size_t room) {
    return terminfo_compile((const uint8_t *)text, strlen(text), (const uint8_t *)name,
                            strlen(name), TERMINFO_SECOND_EDITION, buffer, room);
}

/* Descriptions that use others, by both calls: own fields first, then the leftmost use, a cancelled
 * state that stays cancelled; the first one by its name and without; 18, 19 and 20 with their
 * places. */
static void descriptions(void) {
    const char *text = "third|t|the third,\n\tuse=panel, lines#50,\n"
                       "panel|a panel,\n\tuse=base, ri@, cols#40,\n"
                       "base|the base,\n\tam, cols#80, lines#24, ri=\\EM,\n"
                       "back|comes back,\n\tam, use=back,\n";
    const char *chain = "a|1,\n use=b,\nb|2,\n use=c,\nc|3,\n use=d,\nd|4,\n use=e,\ne|5,\n use=f,\n"
                        "f|6,\n use=g,\ng|7,\n use=h,\nh|8,\n use=i,\ni|9,\n use=j,\nj|10,\n am,\n";
    uint8_t buffer[500], again[500];
    uint64_t answer;
    size_t length;

    answer = compile(text, TERMINFO_SECOND_EDITION, buffer, sizeof buffer);
    assert(terminfo_refusal(answer) == 0);
    length = (size_t)terminfo_value(answer);
    assert(compile_named(text, "third", again, sizeof again) == answer);
    assert(!memcmp(again, buffer, length));
    assert(compile_named(text, "t", again, sizeof again) == answer);
    answer = terminfo_names(buffer, length, TERMINFO_SECOND_EDITION);
    assert(terminfo_length(answer) == strlen("third|t|the third"));
    assert(terminfo_kind(named(buffer, length, "am")) == TERMINFO_PRESENT);
    assert(terminfo_value(named(buffer, length, "cols")) == 40);
    assert(terminfo_value(named(buffer, length, "lines")) == 50);
    assert(terminfo_kind(named(buffer, length, "ri")) == TERMINFO_CANCELLED);
    answer = compile_named(text, "base", buffer, sizeof buffer);
    length = (size_t)terminfo_value(answer);
    assert(terminfo_kind(named(buffer, length, "ri")) == TERMINFO_PRESENT);
    assert(terminfo_value(named(buffer, length, "lines")) == 24);

    memset(buffer, '.', sizeof buffer);
    answer = compile_named(text, "the base", buffer, sizeof buffer);
    assert(terminfo_refusal(answer) == TERMINFO_REFUSED_NOT_FOUND && terminfo_value(answer) == 0);
    answer = compile_named(text, "", buffer, sizeof buffer);
    assert(terminfo_refusal(answer) == TERMINFO_REFUSED_NOT_FOUND && terminfo_value(answer) == 0);
    answer = compile("a|b,\n am, use=c,\n", TERMINFO_SECOND_EDITION, buffer, sizeof buffer);
    assert(terminfo_refusal(answer) == TERMINFO_REFUSED_NOT_FOUND && terminfo_value(answer) == 10);
    answer = compile_named(text, "back", buffer, sizeof buffer);
    assert(terminfo_refusal(answer) == TERMINFO_REFUSED_CIRCULAR);
    assert(terminfo_value(answer) == strlen(text) - strlen("use=back,\n"));
    answer = compile(chain, TERMINFO_SECOND_EDITION, buffer, sizeof buffer);
    assert(terminfo_refusal(answer) == TERMINFO_REFUSED_NINTH_USE);
    assert(terminfo_value(answer) == (size_t)(strstr(chain, "use=j") - chain));
    answer = compile_named(text, "panel", buffer, 14);
    assert(terminfo_refusal(answer) == TERMINFO_REFUSED_ROOM && buffer[0] == '.');
    answer = compile_named(chain, "b", buffer, sizeof buffer);
    assert(terminfo_refusal(answer) == 0);
    assert(terminfo_kind(named(buffer, (size_t)answer, "am")) == TERMINFO_PRESENT);
}

/* Refusals, and the name of a capability, both ways. */
static void refusals(void) {
    const uint8_t file[14] = {26, 1, 2, 0, 0, 0, 0, 0, 0, 0, 0, 0, 'a', 0};
    uint8_t buffer[13];
    uint64_t answer, tables[10];
    const uint8_t none[1] = {0};
    const uint32_t no_value[1] = {0};
    const size_t no_size[1] = {0};
    char name[8];

    assert(terminfo_open(file, 14, TERMINFO_SECOND_EDITION, tables) == 0);
    answer = terminfo_open(file, 13, TERMINFO_SECOND_EDITION, tables);
    assert(terminfo_refusal(answer) == TERMINFO_REFUSED_LENGTH);
    answer = terminfo_number(file, 14, TERMINFO_SECOND_EDITION, TERMINFO_SECOND_NUMBERS);
    assert(terminfo_refusal(answer) == TERMINFO_REFUSED_PLACE);
    assert(terminfo_kind(answer) == TERMINFO_REFUSED);
    answer = named(file, 13, "cols");
    assert(terminfo_refusal(answer) == TERMINFO_REFUSED_PLACE);
    assert(terminfo_kind(answer) == TERMINFO_REFUSED);
    answer = named(file, 13, "colums");
    assert(terminfo_refusal(answer) == TERMINFO_REFUSED_UNKNOWN);
    assert(terminfo_kind(answer) == TERMINFO_REFUSED);
    answer = terminfo_write(0, 0, 0, (const uint8_t *)"a", 1, none, 0, none, 0, no_value, 0, none,
                            0, no_size, 0, no_size, 0, none, 0, buffer, sizeof buffer);
    assert(terminfo_refusal(answer) == 8 && terminfo_value(answer) == 14);

    answer = terminfo_capability(TERMINFO_STRING, TERMINFO_KF10);
    memcpy(name, &answer, sizeof name);
    assert(!strcmp(name, "kf10"));
    answer = terminfo_find((const uint8_t *)name, 4, TERMINFO_FIRST_EDITION);
    assert(terminfo_refusal(answer) == 0 && terminfo_kind(answer) == TERMINFO_STRING);
    assert(terminfo_value(answer) == TERMINFO_KF10);
    answer = terminfo_find((const uint8_t *)name, 4, 21, 8, TERMINFO_KF10);
    assert(terminfo_refusal(answer) == TERMINFO_REFUSED_UNKNOWN);
    assert(terminfo_kind(answer) == TERMINFO_REFUSED);
    answer = terminfo_capability(TERMINFO_NUMBER, TERMINFO_COLORS);
    memcpy(name, &answer, sizeof name);
    assert(!strcmp(name, "colors"));
    answer = terminfo_find((const uint8_t *)name, 6, TERMINFO_SECOND_EDITION);
    assert(terminfo_kind(answer) == TERMINFO_NUMBER && terminfo_value(answer) == TERMINFO_COLORS);
    answer = terminfo_find((const uint8_t *)name, 6, TERMINFO_FIRST_EDITION);
    assert(terminfo_refusal(answer) == TERMINFO_REFUSED_UNKNOWN);
    assert(terminfo_refusal(terminfo_capability(TERMINFO_NUMBER, TERMINFO_SECOND_NUMBERS)) == 17);
}

int main(void) {
    example();
    listing();
    merging();
    positions();
    no_positions();
    expanding();
    expanding_room();
    expanding_texts();
    refused_texts();
    expanding_texts_room();
    compiling();
    editions();
    descriptions();
    refusals();
#ifdef __cplusplus
    puts("the example works in C++");
#else
    puts("the example works in C");
#endif
    return 0;
}
