/* Reads a compiled file from standard input in the first edition, and in ones of fewer and fewer strings. */
#include <stdio.h>
#include "terminfo_c.h"

static void show(const char *name, const uint8_t *file, size_t length, size_t strings, size_t place)
{
    uint64_t state = terminfo_string(file, length, TERMINFO_FIRST_BOOLEANS, TERMINFO_FIRST_NUMBERS, strings, place);
    static const char *const kinds[] = {"absent", "present", "cancelled"};
    if (terminfo_kind(state) == TERMINFO_REFUSED)
        printf("  %-3s refused %u\n", name, terminfo_refusal(state));
    else
        printf("  %-3s %s\n", name, kinds[terminfo_kind(state)]);
}

int main(void)
{
    static const size_t editions[] = {TERMINFO_FIRST_STRINGS, TERMINFO_RI + 1, 100};
    uint8_t file[4097];
    size_t length = fread(file, 1, sizeof file, stdin);
    for (size_t i = 0; i < 3; i++) {
        uint64_t tables[10];
        uint64_t opened = terminfo_open(file, length, TERMINFO_FIRST_BOOLEANS, TERMINFO_FIRST_NUMBERS, editions[i],
                                        tables);
        if (terminfo_refusal(opened)) {
            printf("refused %u", terminfo_refusal(opened));
            if (terminfo_position(opened))
                printf(", byte %zu", terminfo_position(opened));
            printf("\n");
            return 1;
        }
        printf("an edition of %zu strings, %d slots beyond it:\n", editions[i], (int)tables[9]);
        show("cup", file, length, editions[i], TERMINFO_CUP);
        show("ri", file, length, editions[i], TERMINFO_RI);
        show("hu", file, length, editions[i], TERMINFO_HU);
    }
    return 0;
}
