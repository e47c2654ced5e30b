/* Expands sgr, cup, a string that finds the stack empty and one that programs a function key with a text, and prints
 * what comes out, with the steps. */
#include <stdio.h>
#include <string.h>
#include "terminfo_c.h"

static void show_answer(uint64_t answer, const uint8_t *buffer) {
    if (terminfo_refusal(answer) != 0) {
        printf("refused %u at %u\n", terminfo_refusal(answer), (unsigned)terminfo_value(answer));
        return;
    }
    for (size_t i = 0; i < terminfo_length(answer); i++)
        printf(buffer[i] == 27 ? "\\E" : buffer[i] < 33 || buffer[i] > 126 ? "\\%03o" : "%c", buffer[i]);
    printf(" in %zu steps\n", terminfo_steps(answer));
}

static void show(const char *name, const char *string, int all) {
    int32_t arguments[9], lasting[26] = {0};
    uint8_t buffer[200];
    for (int i = 0; i < 9; i++)
        arguments[i] = all;
    uint64_t answer = terminfo_expand((const uint8_t *)string, strlen(string), arguments, lasting, buffer, sizeof buffer, 0);
    printf("%s at %d: ", name, all);
    show_answer(answer, buffer);
}

/* The first argument is a number, the second a text. */
static void show_key(const char *name, const char *string, int key, const char *text) {
    const uint8_t kinds[9] = {0, 1};
    const int32_t numbers[9] = {key};
    const size_t starts[9] = {0}, lengths[9] = {0, strlen(text)};
    int32_t lasting[26] = {0};
    uint8_t buffer[200];
    uint64_t answer = terminfo_expand_texts((const uint8_t *)string, strlen(string), kinds, numbers, starts, lengths,
                                            (const uint8_t *)text, strlen(text), lasting, buffer, sizeof buffer, 0);
    printf("%s at %d and a text: ", name, key);
    show_answer(answer, buffer);
}

int main(void) {
    /* the ncurses manual's sgr; \016 and \017 are ^N and ^O */
    const char *sgr = "\033[0%?%p1%p6%|%t;1%;%?%p2%t;4%;%?%p4%t;5%;%?%p1%p3%|%t;7%;%?%p7%t;8%;m%?%p9%t\016%e\017%;";
    show("sgr", sgr, 1);
    show("sgr", sgr, 0);
    show("cup", "\033[%i%p1%d;%p2%dH", 0);
    show("or without a value", "%?%p2%|%t;4%;", 0);
    /* hpterm's pfkey: the key, the length of the text, the text */
    const char *pfkey = "\033&f%p1%dk%p2%l%dL%p2%s";
    show_key("pfkey", pfkey, 1, "make all\r");
    show("pfkey", pfkey, 1);
    return 0;
}
