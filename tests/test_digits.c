/* Decimals that terminfo_expand prints, beside those of snprintf: the steps and the length, or
 * refusal 8, and every byte of the buffer. */
#include <stdio.h>
#include <stdlib.h>
#include <string.h>

#include "terminfo_c.h"

/* A string is run twice where its output is longer than this. */
#if SHORT_OUTPUT + 0 < 16
#error "SHORT_OUTPUT is the constant of crates/expand/src/lib.rt (see tests/run)"
#endif

enum {
    AT = 8,           /* where outputs start */
    SIZE = 768,       /* of the buffer */
    UNTOUCHED = 0xA5, /* a byte that no output has */
    OF_EACH = 100000, /* values */
    LONG_STRINGS = 2000
};

static unsigned long expansions; /* how many were as expected */

/* Prints bytes between quotes, those that are not of ASCII in hex. */
static void show(const uint8_t *bytes, size_t length) {
    putchar('"');
    for (size_t i = 0; i < length; i++)
        printf(bytes[i] < 32 || bytes[i] > 126 ? "\\x%02x" : "%c", bytes[i]);
    putchar('"');
}

/* Expands a string and compares; the program ends at the first difference. The buffer that is lent
 * ends behind the room; the bytes there must stay as well. */
static void check(const char *string, const int32_t arguments[9], size_t steps, const char *text,
                  size_t length, size_t room) {
    static uint8_t buffer[SIZE], expected[SIZE];
    static int32_t lasting[26];
    size_t used = AT + room + AT, printed, changed = 0;
    uint64_t found, answer = (uint64_t)steps << 24 | length;

    if (used > SIZE) {
        printf("no buffer for a room of %zu\n", room);
        exit(1);
    }
    memset(buffer, UNTOUCHED, used);
    memset(expected, UNTOUCHED, used);
    if (length <= room)
        memcpy(expected + AT, text, length);
    else
        answer = (uint64_t)TERMINFO_REFUSED_ROOM << 56 | length;
    found = terminfo_expand((const uint8_t *)string, strlen(string), arguments, lasting, buffer,
                            AT + room, AT);
    if (found == answer && !memcmp(buffer, expected, used)) {
        expansions++;
        return;
    }
    printed = terminfo_length(found);
    printf("value %d by %s in a room of %zu:\nrefusal %u, %zu steps, length %zu, ",
           (int)arguments[0], string, room, terminfo_refusal(found), terminfo_steps(found), printed);
    show(buffer + AT, printed < room ? printed : room);
    printf(" instead of\nrefusal %u, %zu steps, length %zu, ", terminfo_refusal(answer),
           terminfo_steps(answer), length);
    show((const uint8_t *)text, length);
    while (changed < used && buffer[changed] == expected[changed]) changed++;
    if (changed < used)
        printf("\nbyte %zu of the buffer, whose output starts at byte %d, is %u instead of %u",
               changed, AT, buffer[changed], expected[changed]);
    putchar('\n');
    exit(1);
}

/* Prints a value by an item such as %03d, with room to spare. */
static void print(const char *item, int32_t value) {
    int32_t arguments[9] = {0};
    char string[16], text[128];
    size_t length = (size_t)snprintf(text, sizeof text, item, (int)value);
    arguments[0] = value;
    memcpy(string, "%p1", 3);
    memcpy(string + 3, item, strlen(item) + 1);
    check(string, arguments, 2, text, length, length + AT);
}

/* The least value of so many digits, and the greatest of 32 bits. */
static int64_t least(int digits) {
    int64_t power = 1;
    for (int i = 1; i < digits; i++) power *= 10;
    return digits == 1 ? 0 : power;
}

static int64_t greatest(int digits) { return digits == 10 ? INT32_MAX : least(digits + 1) - 1; }

/* The values of so many digits, not in order. The factor is a prime, so that none comes twice
 * before all have come. */
static int32_t value_of(int digits, int64_t number, int minus) {
    int64_t count = greatest(digits) - least(digits) + 1;
    int64_t value = least(digits) + number * 2654435761 % count;
    return (int32_t)(minus ? -value : value);
}

/* A value, one less and one more, with both signs, those of 32 bits. */
static void around(int64_t value) {
    for (int64_t near = value - 1; near <= value + 1; near++) {
        if (near <= INT32_MAX) print("%d", (int32_t)near);
        if (-near >= INT32_MIN) print("%d", (int32_t)-near);
    }
}

/* %d: every value of up to five digits, and OF_EACH values for each of six to ten digits and each
 * sign; the values around each pair of digits that has zeros behind it, powers of ten among them, and
 * around the bounds. */
static void plain(void) {
    for (int32_t value = -99999; value <= 99999; value++) print("%d", value);
    for (int digits = 6; digits <= 10; digits++)
        for (int64_t number = 0; number < OF_EACH; number++) {
            print("%d", value_of(digits, number, 0));
            print("%d", value_of(digits, number, 1));
        }
    for (int64_t power = 1; power <= 100000000; power *= 100)
        for (int64_t pair = 1; pair <= 99; pair++) around(pair * power);
    around(2147483648);
}

/* Widths and zeros: OF_EACH values by each of several items, as many of each length and sign, and
 * some by every width. */
static void filled(void) {
    static const char *const items[] = {"%12d", "%012d", "%11d", "%011d",
                                        "%2d",  "%03d",  "%6d",  "%07d"};
    char item[8];

    for (size_t i = 0; i < sizeof items / sizeof items[0]; i++)
        for (int64_t number = 0; number < OF_EACH; number++) {
            int digits = 1 + (int)(number / 2 % 10);
            print(items[i], value_of(digits, number, (int)(number % 2)));
        }
    for (int width = 1; width <= 99; width++)
        for (int zeros = 0; zeros < 2; zeros++) {
            snprintf(item, sizeof item, zeros ? "%%0%dd" : "%%%dd", width);
            print(item, INT32_MAX);
            print(item, INT32_MIN);
            for (int number = 0; number < 40; number++)
                print(item, value_of(1 + number / 2 % 10, number, number % 2));
        }
}

/* Text of so many bytes, then a value, in a room of a byte more than that, of as much and of a byte
 * less. */
static void behind_text(size_t before, const char *item, int32_t value) {
    int32_t arguments[9] = {0};
    char string[SHORT_OUTPUT + 32], text[SHORT_OUTPUT + 32];
    size_t length = before + (size_t)snprintf(text + before, 16, item, (int)value);
    arguments[0] = value;
    memset(string, 'a', before);
    memset(text, 'a', before);
    memcpy(string + before, "%p1", 3);
    memcpy(string + before + 3, item, strlen(item) + 1);
    for (size_t less = 0; less < 3; less++)
        check(string, arguments, before + 2, text, length, length + 1 - less);
}

/* The exact room: values of each length and sign, alone and behind as much text as makes the output
 * end around SHORT_OUTPUT. As many of the buffer's bytes are kept, and put back where there is too
 * little room; a longer output is run again. */
static void rooms(void) {
    for (int digits = 1; digits <= 10; digits++)
        for (int number = 0; number < 8; number++) {
            int32_t value = value_of(digits, number, 0);
            if (number < 2) value = (int32_t)least(digits);
            if (number >= 6) value = (int32_t)greatest(digits);
            if (number % 2) value = -value;
            behind_text(0, "%d", value);
            for (size_t before = SHORT_OUTPUT - 14; before <= SHORT_OUTPUT + 2; before++) {
                behind_text(before, "%d", value);
                behind_text(before, "%012d", value);
            }
        }
    behind_text(0, "%d", INT32_MIN);
    behind_text(SHORT_OUTPUT, "%d", INT32_MIN);
}

/* Strings of 54 values, whose outputs are longer than SHORT_OUTPUT; every fourth has a byte too
 * little room. */
static void many(void) {
    for (int64_t number = 0; number < LONG_STRINGS; number++) {
        int32_t arguments[9];
        char string[54 * 6 + 1], text[54 * 12 + 1];
        size_t length = 0;
        for (int i = 0; i < 9; i++)
            arguments[i] = value_of(1 + (int)((number + 7 * i) % 10), 9 * number + i, i % 2);
        for (int i = 0; i < 54; i++) {
            snprintf(string + 6 * i, 7, "%%p%d%%d;", 1 + i % 9);
            length += (size_t)snprintf(text + length, 13, "%d;", (int)arguments[i % 9]);
        }
        check(string, arguments, 54 * 3, text, length, length + (size_t)(number % 4) - 1);
    }
}

int main(void) {
    unsigned long values;
    plain();
    values = expansions;
    filled();
    rooms();
    many();
    printf("%lu values by %%d and %lu other expansions are as snprintf prints them\n", values,
           expansions - values);
    return 0;
}
