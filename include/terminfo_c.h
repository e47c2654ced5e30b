/* The terminfo library for C and C++: source text is compiled, compiled entries are opened, asked,
 * written and merged, and parameterized strings are expanded.
 *
 * An edition is three counts, of booleans (at most 64), numbers (at most 64) and strings (at most
 * 512); it knows the places below its counts in the three ordered lists of capabilities. The first
 * edition is 21, 8, 138 (TERMINFO_FIRST_EDITION), the second one, which knows all capabilities that
 * have a name, is 37, 16, 158 (TERMINFO_SECOND_EDITION). Every call that reads or writes takes the
 * edition from its caller, these or any other. terminfo_names.h has a constant for each place that
 * has a name: TERMINFO_COLS is the place of cols in the list of numbers.
 *
 * Every call returns 64 bits. Bits 56 to 63 hold the number of the refusal, 0 for success; the
 * bits below hold what the call or the refusal gives, and are 0 where it gives nothing. Calls that
 * give a kind in bits 48 to 55 have TERMINFO_REFUSED there where they are refused, so that a refused
 * state is not taken for an absent one.
 *
 *     1   the file is shorter than 12 bytes, longer than 4,096 or not as long as its header says,
 *         the text is longer than 16,384 bytes, or the string to be expanded, or a text among its
 *         arguments, longer than 1,000
 *     2   the file does not begin with the magic number 282
 *     3   a header short is above 32,767, the names size is outside 2 to 128, the edition is too
 *         large, or the writer is given fewer states than the edition counts
 *     4   the names hold a NUL, a file's names lack the closing one, or the writer's names are not
 *         1 to 127 bytes long; for a file's 4 to 7 bits 0 to 47 give the position of its first
 *         offending byte or slot: here the first NUL before the last names byte, else that byte
 *     5   a boolean byte is none of 0, 1 and 254, or the pad byte is not 0; gives that byte's position
 *     6   a number slot is above 32,767 and neither 65,535 nor 65,534; gives its first byte's position
 *     7   a string slot is no offset of a string in the table and neither 65,535 nor 65,534; gives its
 *         first byte's position; or a string given to the writer is not in the bytes that were lent,
 *         and then bits 0 to 47 are 0
 *     8   the buffer is shorter than the file to be written, or has too little room for the output
 *         of an expansion; bits 0 to 47 give the length of the file or output; or an array is too
 *         short for the edition's states, and bits 0 to 47 give their count
 *     9   the file to be written is longer than 4,096 bytes
 *     10  the text is malformed; for 10, 11 and 13 bits 0 to 47 give the first byte of the field, 0
 *         for the text's first header and where it has none, and its own for a later line that starts
 *         in column 1
 *     11  the edition does not know the name, or a field's name is of another kind
 *     13  an alias of the text is longer than 14 bytes, a number above 32,767 or of more than 99
 *         digits, a string longer than 1,000 bytes, all names of a header together longer than 127,
 *         or the text has a 65th header; or the writer is given a state of no kind, a number above
 *         32,767, or a string that is longer than 1,000 bytes or holds a NUL, and then bits 0 to 47
 *         are 0
 *     14  the string to be expanded is malformed; bits 0 to 47 give the place of the first wrong
 *         item, or the string's length where a conditional is not closed
 *     15  an item finds too few values on the stack; bits 0 to 47 give the item's place
 *     16  an item finds no room on the stack of 20 values; bits 0 to 47 give the item's place
 *     17  the place is beyond the edition, the list or the buffer's length, there is no such kind
 *         of capability, opening refuses the file, or a text among an expansion's arguments is not
 *         in the bytes that were lent
 *     18  no description of the text has the name; for 18 to 20 bits 0 to 47 give the first byte of
 *         the use= field, 0 for the wanted name
 *     19  a chain of uses comes back to a description that is being worked on
 *     20  the ninth use of a chain
 *     21  an item takes a value of the other kind from the stack: %s or %l a number, any other item
 *         a text; bits 0 to 47 give the item's place
 *
 * 12, once the number for use=, is given no more.
 *
 * In a merge's refusal of a file, 1 to 7, bits 48 to 55 give which file it was: 1 or 2.
 *
 * A refused call changes nothing that was lent to it.
 *
 * The caller lends all memory and the calls keep none of it. Every pointer is aligned for its type
 * and not null, also where its length is 0; its length counts elements, all of which can be read;
 * what a call may write overlaps no other argument. There is no other condition on any argument.
 *
 * No call uses the heap or keeps anything from one call to the next. What each says of its stack is
 * counted in the disassembly of the library on x86-64 (bench/stack.py): frames, return addresses and
 * arguments along the longest chain of calls, whatever the input. What memcpy, memset and strlen of
 * the C library use comes on top, and once what the dynamic linker uses to find them.
 */
#ifndef TERMINFO_C_H
#define TERMINFO_C_H

#include <stddef.h>
#include <stdint.h>

#include "terminfo_names.h"

#ifdef __cplusplus
extern "C" {
#endif

/* The kinds of capability. */
enum { TERMINFO_BOOLEAN = 0, TERMINFO_NUMBER = 1, TERMINFO_STRING = 2 };

/* The kinds of state that a capability has in an entry; and the kind of a refused answer. */
enum { TERMINFO_ABSENT = 0, TERMINFO_PRESENT = 1, TERMINFO_CANCELLED = 2, TERMINFO_REFUSED = 3 };

/* The numbers of refusal. */
enum {
    TERMINFO_REFUSED_LENGTH = 1,
    TERMINFO_REFUSED_MAGIC = 2,
    TERMINFO_REFUSED_COUNTS = 3,
    TERMINFO_REFUSED_NAMES = 4,
    TERMINFO_REFUSED_BOOLEAN = 5,
    TERMINFO_REFUSED_NUMBER = 6,
    TERMINFO_REFUSED_STRING = 7,
    TERMINFO_REFUSED_ROOM = 8,
    TERMINFO_REFUSED_SIZE = 9,
    TERMINFO_REFUSED_MALFORMED_TEXT = 10,
    TERMINFO_REFUSED_UNKNOWN = 11,
    TERMINFO_REFUSED_LIMIT = 13,
    TERMINFO_REFUSED_MALFORMED_STRING = 14,
    TERMINFO_REFUSED_STACK_EMPTY = 15,
    TERMINFO_REFUSED_STACK_FULL = 16,
    TERMINFO_REFUSED_PLACE = 17,
    TERMINFO_REFUSED_NOT_FOUND = 18,
    TERMINFO_REFUSED_CIRCULAR = 19,
    TERMINFO_REFUSED_NINTH_USE = 20,
    TERMINFO_REFUSED_KIND = 21
};

/* The number of the refusal in an answer; 0 for success. */
static inline unsigned terminfo_refusal(uint64_t answer) { return (unsigned)(answer >> 56); }

/* The kind of state in the answer of terminfo_boolean, terminfo_number, terminfo_string or
 * terminfo_state or in one that terminfo_ask stores; or the kind of capability in the answer of
 * terminfo_find. TERMINFO_REFUSED where the answer is a refusal. */
static inline unsigned terminfo_kind(uint64_t answer) { return (unsigned)(answer >> 48) & 255u; }

/* Bits 0 to 47: the number's value in the answer of terminfo_number or terminfo_state, the place in
 * that of terminfo_find, the file's length in that of terminfo_write, terminfo_merge,
 * terminfo_compile or terminfo_compile_first (success, or refusal 8), the count in that of
 * terminfo_list (refusal 8), the field's first byte in that of terminfo_compile or
 * terminfo_compile_first (refusals 10, 11, 13 and 18 to 20), or what a refusal of terminfo_expand
 * or terminfo_expand_texts gives: the output's length (8) or an item's place (14, 15, 16, 21). */
static inline uint64_t terminfo_value(uint64_t answer) { return answer & 0xFFFFFFFFFFFFu; }

/* The position in the file of the first offending byte or slot, in the answer of terminfo_open,
 * terminfo_list or terminfo_merge: refusals 4 to 7 of a file. It is never below 12; 0 in every other
 * answer. */
static inline size_t terminfo_position(uint64_t answer)
{
    unsigned refusal = terminfo_refusal(answer);
    return refusal >= TERMINFO_REFUSED_NAMES && refusal <= TERMINFO_REFUSED_STRING
               ? (size_t)terminfo_value(answer)
               : 0;
}

/* Which of its two files terminfo_merge refuses, in its answer: 1 or 2; 0 where it refuses neither. */
static inline unsigned terminfo_which(uint64_t answer) { return (unsigned)(answer >> 48) & 255u; }

/* Where the part of the file starts that terminfo_names, terminfo_string or terminfo_state gives. */
static inline size_t terminfo_start(uint64_t answer) { return (size_t)(answer >> 24) & 0xFFFFFFu; }

/* How many bytes the part of the file has that terminfo_names, terminfo_string or terminfo_state
 * gives, or the output of terminfo_expand or terminfo_expand_texts. */
static inline size_t terminfo_length(uint64_t answer) { return (size_t)answer & 0xFFFFFFu; }

/* How many items terminfo_expand or terminfo_expand_texts took. */
static inline size_t terminfo_steps(uint64_t answer) { return (size_t)(answer >> 24) & 0xFFFFFFu; }

/* Opens a file: checks all of it and tells where its tables are.
 *
 * file, file_length           the bytes of the file.
 * booleans, numbers, strings  the edition of the reader.
 * tables                      on success, filled in this order:
 *     tables[0], [1], [2]       how many boolean, number and string slots the file has;
 *     tables[3], [4], [5], [6]  where in the file the booleans, the numbers, the string slots and
 *                               the string table start;
 *     tables[7], [8], [9]       how many boolean, number and string slots lie beyond the edition.
 *
 * Success gives 0. Refusals, the first that applies: 3 (edition), 1 (below 12 bytes or above
 * 4,096), 2, 3 (header), 1 (size), 4, 5, 6, 7 (4 to 7 give the position of the first offending byte
 * or slot: terminfo_position; the theorem is Positions of file_positions).
 *
 * Uses at most 168 bytes of stack. */
uint64_t terminfo_open(const uint8_t *file, size_t file_length, size_t booleans, size_t numbers,
                       size_t strings, uint64_t tables[10]);

/* Finds the names in a file.
 *
 * file, file_length           the bytes of the file.
 * booleans, numbers, strings  the edition of the reader.
 *
 * Success gives the start of the names times 2^24 plus their length without the closing NUL
 * (terminfo_start, terminfo_length). Refusal 17: terminfo_open refuses the file.
 *
 * Uses at most 136 bytes of stack. */
uint64_t terminfo_names(const uint8_t *file, size_t file_length, size_t booleans, size_t numbers,
                        size_t strings);

/* Asks for the state of one boolean.
 *
 * file, file_length           the bytes of the file.
 * booleans, numbers, strings  the edition of the reader.
 * place                       the place in the list of booleans, counted from 0.
 *
 * Success gives the kind of the state in bits 48 to 55 (terminfo_kind); a place that the edition
 * knows and the file does not have is absent. Refusal 17, with TERMINFO_REFUSED in bits 48 to 55:
 * the place is beyond the edition, or terminfo_open refuses the file.
 *
 * Uses at most 168 bytes of stack. */
uint64_t terminfo_boolean(const uint8_t *file, size_t file_length, size_t booleans, size_t numbers,
                          size_t strings, size_t place);

/* Asks for the state of one number.
 *
 * The arguments are those of terminfo_boolean, with a place in the list of numbers.
 *
 * Success gives the kind of the state in bits 48 to 55 (terminfo_kind) and, where it is present,
 * the number's value, 0 to 32,767, in the bits below (terminfo_value). Refusal 17: as for
 * terminfo_boolean.
 *
 * Uses at most 168 bytes of stack. */
uint64_t terminfo_number(const uint8_t *file, size_t file_length, size_t booleans, size_t numbers,
                         size_t strings, size_t place);

/* Asks for the state of one string.
 *
 * The arguments are those of terminfo_boolean, with a place in the list of strings.
 *
 * Success gives the kind of the state in bits 48 to 55 (terminfo_kind) and, where it is present, in
 * the bits below the start of the string in the file times 2^24 plus its length without the NUL
 * (terminfo_start, terminfo_length). Refusal 17: as for terminfo_boolean.
 *
 * Uses at most 168 bytes of stack. */
uint64_t terminfo_string(const uint8_t *file, size_t file_length, size_t booleans, size_t numbers,
                         size_t strings, size_t place);

/* Asks for the states of eight capabilities and opens the file only once.
 *
 * file, file_length           the bytes of the file.
 * booleans, numbers, strings  the edition of the reader.
 * kinds                       the kind of each capability: 0 boolean, 1 number, 2 string.
 * places                      the place of each capability in the list of its kind.
 * answers                     on success, answers[i] is what terminfo_boolean, terminfo_number or
 *                             terminfo_string returns for places[i], its refusal 17 included; for
 *                             any other kinds[i] it is that refusal.
 *
 * Success gives 0. Refusal 17: terminfo_open refuses the file.
 *
 * Uses at most 344 bytes of stack. */
uint64_t terminfo_ask(const uint8_t *file, size_t file_length, size_t booleans, size_t numbers,
                      size_t strings, const uint8_t kinds[8], const size_t places[8],
                      uint64_t answers[8]);

/* Gives the state of every capability that the edition knows and opens the file only once. The
 * arrays hold after it what terminfo_write takes, with the file as the lent bytes.
 *
 * file, file_length           the bytes of the file.
 * booleans, numbers, strings  the edition of the reader.
 * boolean_kinds               takes the kind of state of each boolean: 0 absent, 1 present, 2
 *                             cancelled.
 * number_kinds                takes the kind of state of each number.
 * number_values               takes the value of each number, 0 where it is not present.
 * string_kinds                takes the kind of state of each string.
 * string_starts               takes where in the file each string starts, 0 where it is not present.
 * string_lengths              takes how many bytes each string has, 0 where it is not present.
 *
 * Each array may be longer than the edition counts; what lies beyond stays.
 *
 * Success gives 0. Refusals, the first that applies: 3 (edition), 1 to 7 as terminfo_open gives them,
 * 8 (an array is shorter than the edition counts, the booleans' first, then one of the numbers', then
 * one of the strings'; gives the count: terminfo_value).
 *
 * Uses at most 360 bytes of stack. */
uint64_t terminfo_list(const uint8_t *file, size_t file_length, size_t booleans, size_t numbers,
                       size_t strings,
                       uint8_t *boolean_kinds, size_t boolean_kinds_length,
                       uint8_t *number_kinds, size_t number_kinds_length,
                       uint32_t *number_values, size_t number_values_length,
                       uint8_t *string_kinds, size_t string_kinds_length,
                       size_t *string_starts, size_t string_starts_length,
                       size_t *string_lengths, size_t string_lengths_length);

/* Writes a file that has exactly the edition's slots, from the buffer's first byte on.
 *
 * booleans, numbers, strings  the edition of the file.
 * names                       the names, 1 to 127 bytes, with bars between them and without NUL.
 * boolean_kinds               the kind of state of each boolean: 0 absent, 1 present, 2 cancelled.
 * number_kinds                the kind of state of each number.
 * number_values               the value of each number, read where it is present: at most 32,767.
 * string_kinds                the kind of state of each string.
 * string_starts               where in lent each string starts, read where it is present.
 * string_lengths              how many bytes each string has, read where it is present: at most
 *                             1,000, none of them NUL.
 * lent                        the bytes that hold the contents of the strings.
 * buffer                      takes the file; its bytes past the file stay.
 *
 * Each list of states may be longer than the edition counts; what lies beyond is not read.
 *
 * Success gives the file's length (terminfo_value). Refusals, the first that applies: 3 (edition
 * too large, or any of the six arrays of states shorter than the edition counts), 4, 7, 13, 9,
 * 8 (gives the file's length: terminfo_value).
 *
 * Uses at most 784 bytes of stack. */
uint64_t terminfo_write(size_t booleans, size_t numbers, size_t strings,
                        const uint8_t *names, size_t names_length,
                        const uint8_t *boolean_kinds, size_t boolean_kinds_length,
                        const uint8_t *number_kinds, size_t number_kinds_length,
                        const uint32_t *number_values, size_t number_values_length,
                        const uint8_t *string_kinds, size_t string_kinds_length,
                        const size_t *string_starts, size_t string_starts_length,
                        const size_t *string_lengths, size_t string_lengths_length,
                        const uint8_t *lent, size_t lent_length,
                        uint8_t *buffer, size_t buffer_length);

/* Compiles the description of a source text that has a name, and writes the file, which has exactly
 * the edition's slots, from the buffer's first byte on.
 *
 * text, text_length           the bytes of the text.
 * wanted, wanted_length       the name of the description, any but its last. It may lie in the text.
 * booleans, numbers, strings  the edition of the file. The names that fields may have are those of
 *                             its places; a place that has no name is absent in the file.
 * buffer                      takes the file; its bytes past the file stay.
 *
 * Lines end in byte 10, white space is space and tab. Blank lines and lines whose first nonblank is
 * # are skipped before a header and where a field may begin. A text holds 1 to 64 descriptions, each
 * a header and its fields. A header starts in column 1: at least two names parted by |, a comma,
 * then only white space to the line's end. The last name has 1 or more bytes of codes 32 to 126
 * other than comma and |; each name before it 1 to 14 of codes 33 to 126 other than comma, slash and
 * |. Fields follow, indented on each new line, each with a comma behind it; the name of a field has
 * 1 or more bytes of codes 33 to 126 other than , = # @:
 *
 *     am,                       a boolean;
 *     cols#80,                  a number: decimal, octal with a leading 0, or hex with 0x or 0X, of
 *                               at most 99 digits;
 *     bel=^G,                   a string: codes 32 to 126, and \E \e 27, \n \l 10, \r 13, \t 9,
 *                               \b 8, \f 12, \s 32, \^ \\ \, \: themselves, \ and one to three octal
 *                               digits, ^ and a letter or one of @[\]^_ the code mod 32, ^? 127. Any
 *                               other \ or ^ is malformed, \400 to \777 too. A result of 0 is
 *                               stored as 128. A line end and the white space after it, of which
 *                               there must be some, are left out;
 *     bel@,                     a cancelled capability of any kind;
 *     use=console,              what another description of the text comes to, wherever it stands
 *                               there; the string, escapes taken, is a name of it, any but the last;
 *     .bel=^G,                  a field that is dropped: its form must be right, its name and its
 *                               limits are not judged.
 *
 * The first field for a capability stands; later ones are checked and ignored. A description's own
 * fields override what its uses bring, wherever they stand; of several uses the leftmost wins. A use
 * brings what the used description comes to by its own fields and uses. A cancelled state is a state
 * as any other: where it wins, nothing else brings the capability back, and it is cancelled in the
 * file. Of two descriptions with one name the earlier counts. A chain has at most eight uses.
 *
 * Success gives the file's length (terminfo_value). Refusals, the first that applies: 3 (edition);
 * 1; then the first bad header or field of the whole text, by 10, 11, 13, with the first byte of the
 * field or of a later header, 0 for the first header (terminfo_value), where a 65th header is 13; 13 for
 * all names of a header together, the earliest first, with the same place; 18 for the wanted name,
 * with 0; then along the uses of the wanted description, from left to right and each followed down
 * before the next, 18, 19, 20, with the first byte of the use= field; 9; 8 (gives the file's length:
 * terminfo_value). Descriptions that the wanted one does not lead to give no 18 to 20; 9 and 8 are
 * judged on the file alone.
 *
 * Uses at most 22,224 bytes of stack. */
uint64_t terminfo_compile(const uint8_t *text, size_t text_length, const uint8_t *wanted,
                          size_t wanted_length, size_t booleans, size_t numbers, size_t strings,
                          uint8_t *buffer, size_t buffer_length);

/* Compiles the first description of a source text, as terminfo_compile does by its name.
 *
 * Uses at most 22,192 bytes of stack. */
uint64_t terminfo_compile_first(const uint8_t *text, size_t text_length, size_t booleans,
                                size_t numbers, size_t strings, uint8_t *buffer,
                                size_t buffer_length);

/* Merges a first file over a second one and writes the result, from the buffer's first byte on.
 *
 * first, first_length         the bytes of the first file.
 * second, second_length       the bytes of the second file; the two may be the same memory.
 * booleans, numbers, strings  the edition in which both files are read and the result is written.
 * buffer                      takes the merged file; its bytes past the file stay.
 *
 * The merged file has the first file's names and exactly the edition's slots. The state of each
 * capability is the first file's; where that is absent, it is the second file's. A cancelled state
 * is not absent, so that a state cancelled in the first file stays cancelled. Slots of either file
 * past the edition are dropped. Contents of strings are kept whatever their length, above 1,000
 * bytes too. Strings that share bytes in a file are written apart, each with its own NUL, so that
 * the merged file can be longer than 4,096 bytes (refusal 9) where both files are accepted.
 *
 * Success gives the merged file's length (terminfo_value). Refusals, the first that applies: 3
 * (edition), 1 to 7 as terminfo_open gives them for the first file, 1 to 7 as it gives them for the
 * second file (both with which file it was: terminfo_which, terminfo_position), 9, 8 (gives the merged
 * file's length: terminfo_value). The edition's 3, 9 and 8 name no file.
 *
 * Uses at most 10,064 bytes of stack. */
uint64_t terminfo_merge(const uint8_t *first, size_t first_length, const uint8_t *second,
                        size_t second_length, size_t booleans, size_t numbers, size_t strings,
                        uint8_t *buffer, size_t buffer_length);

/* Gives the name of a capability, whichever edition knows it.
 *
 * kind   the kind of capability: 0 boolean, 1 number, 2 string.
 * place  the place in the list of that kind, counted from 0.
 *
 * Success gives the bytes of the name in bits 0 to 55, the first byte lowest, and zero bytes after
 * the last one. Refusal 17: the place has no name (it is beyond the second edition), or there is no
 * such kind.
 *
 * Uses at most 1,736 bytes of stack. */
uint64_t terminfo_capability(uint8_t kind, size_t place);

/* How many bytes the output of terminfo_expand has at most, for a string of this length. With a
 * constant length it can be the size of an array. */
#define TERMINFO_EXPAND_ROOM(length) ((size_t)25 * (length))

/* Expands a parameterized string with nine numbers and writes the output into the buffer from a
 * place on; terminfo_expand_texts does so where an argument is a text.
 *
 * string, string_length  the string, at most 1,000 bytes. A delay such as $<5> in it is sent as it
 *                        stands.
 * arguments              the nine arguments %p1 to %p9; those that the string does not use may have
 *                        any value. %i changes them within the call only.
 * lasting                the variables A to Z, lasting[0] is A; on success changed in place. The
 *                        variables a to z start at 0 in each call.
 * buffer, buffer_length  takes the output; its bytes before the place and past the output stay.
 * at                     the place of the output's first byte, at most buffer_length.
 *
 * The items are bytes other than NUL and percent sign, which stand for themselves, and
 *     %%                        a percent sign;
 *     %p1 to %p9                pushes an argument, a number or a text;
 *     %d %o %x %X               pops a value and prints it, octal and hex mod 2^32, with a width of
 *                               1 to 99, and a 0 before the width to fill with zeros, which stand
 *                               after the sign: %3d, %02x;
 *     %c                        pops a value and prints it mod 256 as one byte, 0 as 128;
 *     %s                        pops a text and prints its bytes;
 *     %l                        pops a text and pushes its length;
 *     %'b' %{digits}            pushes a byte other than NUL, or a number of at most 2,147,483,647;
 *     %Pa %ga, %PA %gA          pops into a variable, pushes a variable;
 *     %+ %- %* %/ %m            pop two values and push the result in 32 bits, the value popped
 *                               last on the left; a zero divisor gives 0;
 *     %& %| %^ %~               the same for the bits of two values, or of one;
 *     %= %> %< %A %O %!         the same for comparisons, and, or, not; they give 1 or 0;
 *     %i                        adds 1 to those of the first two arguments that are numbers;
 *     %? .. %t .. %e .. %;      a conditional: %t pops a value and on 0 goes past the next %e of
 *                               this level, or past its %; if there is none; a reached %e goes
 *                               past the %;. After %e may come another condition with its %t. At
 *                               most 16 stand within each other.
 *
 * Every value on the stack is a number here, so that %s and %l are refused where they are reached: 15
 * on an empty stack, else 21. In a part that is passed over they are not.
 *
 * Success gives the steps, which are the items taken, times 2^24 plus the output's length
 * (terminfo_steps, terminfo_length). The output holds no NUL, whatever the string, the arguments and
 * the variables (the theorem numbers_no_nul of output_laws).
 *
 * The steps are at most string_length, and the output has at most 25 times string_length bytes,
 * also where 8 gives its length. So 8 is not given where buffer_length is at least
 * at + TERMINFO_EXPAND_ROOM(string_length) (the theorem numbers_bounded of room_laws).
 *
 * While the call runs it writes into the buffer from at on and into lasting; where it is refused, both
 * are put back before it returns.
 *
 * Refusals, the first that applies: 17 (at is above buffer_length), 1 (above 1,000 bytes), 14 (gives
 * the place of the first wrong item, or the string's length for an open conditional), 15, 21 and 16
 * (give the place of the item at which the expansion stops; of one item in this order), 8 (gives the
 * output's length: terminfo_value).
 *
 * Uses at most 1,784 bytes of stack. */
uint64_t terminfo_expand(const uint8_t *string, size_t string_length, const int32_t arguments[9],
                         int32_t lasting[26], uint8_t *buffer, size_t buffer_length, size_t at);

/* How many bytes the output of terminfo_expand_texts has at most, for a string of this length that
 * has so many %s items, those that are passed over included. With constants it can be the size of an
 * array. */
#define TERMINFO_EXPAND_TEXTS_ROOM(length, texts) ((size_t)25 * (length) + (size_t)1000 * (texts))

/* The same where the %s items are not counted: each takes two bytes of the string, so that there are
 * at most length / 2 (the theorem texts_half of expansion_laws). */
#define TERMINFO_EXPAND_TEXTS_ROOM_ANY(length) ((size_t)525 * (length))

/* More bytes the output never has, whatever the string: TERMINFO_EXPAND_TEXTS_ROOM_ANY(1000). */
#define TERMINFO_EXPAND_MOST ((size_t)525000)

/* Expands a parameterized string with nine arguments, each a number or a text, and writes the output
 * into the buffer from a place on. The items are those of terminfo_expand. This call stands in a
 * library of its own, libterminfo_texts_c.a, all others in libterminfo_c.a.
 *
 * string, string_length  the string, at most 1,000 bytes.
 * kinds                  the kind of each argument: 0 a number, any other a text.
 * numbers                the value of each argument that is a number.
 * starts, lengths        where in texts each argument that is a text starts, and how many bytes it
 *                        has: at most 1,000.
 * texts, texts_length    the bytes that hold the texts, which may share them; any byte, NUL too.
 * lasting                the variables A to Z, as for terminfo_expand; they never hold texts.
 * buffer, buffer_length  takes the output; its bytes before the place and past the output stay.
 * at                     the place of the output's first byte, at most buffer_length.
 *
 * numbers[i] is not looked at where argument i + 1 is a text, starts[i] and lengths[i] are not where it
 * is a number. Each text is judged, whether the string uses it or not.
 *
 * Success gives the steps times 2^24 plus the output's length, as terminfo_expand does (terminfo_steps,
 * terminfo_length). Where no text among the arguments holds a NUL, the output holds none (the theorem
 * expanding_no_nul of output_laws). Where all arguments are numbers, the call does what terminfo_expand
 * does with them.
 *
 * The steps are at most string_length, and the output has at most 25 times string_length bytes plus,
 * for each %s item of the string, as many as the longest text has: at most 1,000. So 8 is not given
 * where buffer_length is at least at + TERMINFO_EXPAND_TEXTS_ROOM(string_length, count) with the count
 * of %s items, at + TERMINFO_EXPAND_TEXTS_ROOM_ANY(string_length), or at + TERMINFO_EXPAND_MOST (the
 * theorem bounded of room_laws, and texts_half and room_most of expansion_laws).
 *
 * While the call runs it writes into the buffer from at on and into lasting; where it is refused, both
 * are put back before it returns.
 *
 * Refusals, the first that applies: 17 (at is above buffer_length), 17 (a text is not in texts: its
 * start plus its length is above texts_length; an empty one may start at the end), 1 (the string is
 * above 1,000 bytes), 1 (a text is above 1,000 bytes), 14 (gives the place of the first wrong item, or
 * the string's length for an open conditional), 15, 21 and 16 (give the place of the item at which the
 * expansion stops; of one item in this order: too few values, a value of the other kind, no room on the
 * stack), 8 (gives the output's length: terminfo_value).
 *
 * Uses at most 1,512 bytes of stack. */
uint64_t terminfo_expand_texts(const uint8_t *string, size_t string_length, const uint8_t kinds[9],
                               const int32_t numbers[9], const size_t starts[9],
                               const size_t lengths[9], const uint8_t *texts, size_t texts_length,
                               int32_t lasting[26], uint8_t *buffer, size_t buffer_length,
                               size_t at);

/* Finds the capability that a name means in an edition.
 *
 * name, name_length           the bytes of the name, such as cols.
 * booleans, numbers, strings  the edition.
 *
 * Success gives the kind of capability in bits 48 to 55 (terminfo_kind) and its place in the list of
 * that kind in the bits below (terminfo_value). Refusal 11, with TERMINFO_REFUSED in bits 48 to 55:
 * the edition does not know the name.
 *
 * Uses at most 72 bytes of stack. */
uint64_t terminfo_find(const uint8_t *name, size_t name_length, size_t booleans, size_t numbers,
                       size_t strings);

/* Asks for the state of the capability that a name means.
 *
 * file, file_length           the bytes of the file.
 * booleans, numbers, strings  the edition of the reader.
 * name, name_length           the bytes of the name, such as cols.
 *
 * Success gives what terminfo_boolean, terminfo_number or terminfo_string gives at the capability's
 * place; terminfo_find tells which of them. Refusals, the first that applies, with TERMINFO_REFUSED
 * in bits 48 to 55: 11 (the edition does not know the name), 17 (terminfo_open refuses the file).
 *
 * Uses at most 200 bytes of stack. */
uint64_t terminfo_state(const uint8_t *file, size_t file_length, size_t booleans, size_t numbers,
                        size_t strings, const uint8_t *name, size_t name_length);

#ifdef __cplusplus
}
#endif

#endif
