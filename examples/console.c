/* Writes the entry of a track console, 24 x 80 in eight colors, in the second edition, and reads it back in both. */
#include <stdio.h>
#include <string.h>
#include "terminfo_c.h"

enum { BOOLEANS = TERMINFO_SECOND_BOOLEANS, NUMBERS = TERMINFO_SECOND_NUMBERS, STRINGS = TERMINFO_SECOND_STRINGS };

typedef struct {
    const char *name;
    size_t booleans, numbers, strings;
} Edition;

/* Prints the state of a capability that is asked for by its name, as an edition reads it. */
static void show(const uint8_t *file, size_t length, const Edition *e, const char *name) {
    static const char *const kinds[] = {"absent", "present", "cancelled", "refused"};
    const uint8_t *bytes = (const uint8_t *)name;
    uint64_t found = terminfo_find(bytes, strlen(name), e->booleans, e->numbers, e->strings);
    uint64_t answer = terminfo_state(file, length, e->booleans, e->numbers, e->strings, bytes, strlen(name));
    printf("  %-6s %s", name, kinds[terminfo_kind(answer)]);
    if (terminfo_kind(answer) == TERMINFO_REFUSED)
        printf(" %u", terminfo_refusal(answer));
    if (terminfo_kind(answer) == TERMINFO_PRESENT && terminfo_kind(found) == TERMINFO_NUMBER)
        printf(" %u", (unsigned)terminfo_value(answer));
    if (terminfo_kind(answer) == TERMINFO_PRESENT && terminfo_kind(found) == TERMINFO_STRING)
        for (size_t i = 0; i < terminfo_length(answer); i++) {
            uint8_t byte = file[terminfo_start(answer) + i];
            printf(byte == 27 ? "%s\\E" : byte < 33 || byte > 126 ? "%s\\%03o" : "%s%c", i == 0 ? " " : "", byte);
        }
    printf("\n");
}

int main(void) {
    static const Edition editions[] = {{"second", TERMINFO_SECOND_EDITION}, {"first", TERMINFO_FIRST_EDITION}};
    static const char *const shown[] = {"am", "bw", "cols", "lines", "colors", "clear", "cup", "ri"};
    const char *names = "console|track console, 24 x 80";
    const char *lent = "\033[H\033[J" "\033[%i%p1%d;%p2%dH"; /* clear, cup */
    uint8_t boolean_kinds[BOOLEANS] = {0}, number_kinds[NUMBERS] = {0}, string_kinds[STRINGS] = {0};
    uint32_t number_values[NUMBERS] = {0};
    size_t starts[STRINGS] = {0}, lengths[STRINGS] = {0};
    boolean_kinds[TERMINFO_AM] = TERMINFO_PRESENT;
    number_kinds[TERMINFO_COLS] = TERMINFO_PRESENT, number_values[TERMINFO_COLS] = 80;
    number_kinds[TERMINFO_LINES] = TERMINFO_PRESENT, number_values[TERMINFO_LINES] = 24;
    number_kinds[TERMINFO_COLORS] = TERMINFO_PRESENT, number_values[TERMINFO_COLORS] = 8;
    string_kinds[TERMINFO_CLEAR] = TERMINFO_PRESENT, lengths[TERMINFO_CLEAR] = 6;
    string_kinds[TERMINFO_CUP] = TERMINFO_PRESENT, starts[TERMINFO_CUP] = 6, lengths[TERMINFO_CUP] = 16;
    string_kinds[TERMINFO_RI] = TERMINFO_CANCELLED;

    uint8_t file[4096];
    uint64_t written = terminfo_write(BOOLEANS, NUMBERS, STRINGS, (const uint8_t *)names, strlen(names), boolean_kinds, BOOLEANS,
                                      number_kinds, NUMBERS, number_values, NUMBERS, string_kinds, STRINGS, starts, STRINGS, lengths,
                                      STRINGS, (const uint8_t *)lent, strlen(lent), file, sizeof file);
    if (terminfo_refusal(written) != 0) {
        printf("refused %u\n", terminfo_refusal(written));
        return 1;
    }
    size_t length = terminfo_value(written);
    printf("written: %zu bytes\n", length);
    for (const Edition *e = editions; e < editions + 2; e++) {
        uint64_t tables[10];
        terminfo_open(file, length, e->booleans, e->numbers, e->strings, tables);
        printf("the %s edition, beyond it %u booleans, %u numbers, %u strings:\n", e->name, (unsigned)tables[7],
               (unsigned)tables[8], (unsigned)tables[9]);
        for (size_t i = 0; i < sizeof shown / sizeof shown[0]; i++)
            show(file, length, e, shown[i]);
    }
    return 0;
}
