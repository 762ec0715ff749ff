/* The text form of lists, one operation a line: `name arguments = answer` (tests/vectors/README.md). Lines, numbers,
 * bytes and checksums; what the operations do is in script_operations.h. */
#ifndef BILZHAAN_TESTS_SCRIPT_H
#define BILZHAAN_TESTS_SCRIPT_H

#include <stdbool.h>
#include <stddef.h>
#include <stdint.h>

/* A line taken apart. The texts are parts of the line and last as long as it does. */
struct line {
    char *name;
    char **arguments;
    size_t count;
    char *answer; /* what follows the `= `; "" where nothing does */
};

/* Takes a line apart in place; `line` holds no newline. False where it isn't of the form. */
bool take_apart(char *line, struct line *parts);
void put_away(struct line *parts);

/* A decimal number in the form's only spelling: no plus, no leading zeros, no minus zero. */
bool read_word(const char *text, int32_t *value);

/* Pairs of hexadecimal digits, or `-` for no bytes at all. The bytes are the caller's to free. */
bool read_bytes(const char *text, uint8_t **bytes, size_t *length);

/* CRC-32 of words as bytes, four each, most significant byte first. Starts from CHECKSUM_START; the parts of a longer
 * run are given in turn. */
enum { CHECKSUM_START = 0 };
uint32_t checksum(uint32_t before, const int32_t *words, size_t count);

/* CRC-32 of bytes, for the known answer of `123456789`. */
uint32_t checksum_of_bytes(uint32_t before, const uint8_t *bytes, size_t count);

#endif
