/* Lines of the text form taken apart, and its numbers, bytes and checksums. */
#include "script.h"

#include <stdio.h>
#include <stdlib.h>
#include <string.h>

static void *held(void *memory)
{
    if (!memory) {
        fprintf(stderr, "no memory for a line\n");
        exit(2);
    }
    return memory;
}

bool take_apart(char *line, struct line *parts)
{
    memset(parts, 0, sizeof *parts);
    if (strpbrk(line, "\t\r"))
        return false;
    char *at = strstr(line, " =");
    if (!at || at == line || (at[2] != '\0' && (at[2] != ' ' || at[3] == '\0')))
        return false;
    parts->answer = at[2] == '\0' ? at + 2 : at + 3;
    *at = '\0';
    size_t spaces = 0;
    for (const char *c = line; *c; c++)
        spaces += *c == ' ';
    parts->arguments = held(malloc((spaces + 1) * sizeof parts->arguments[0]));
    parts->name = line;
    for (char *c = line; (c = strchr(c, ' ')) != NULL;) {
        *c++ = '\0';
        if (*c == '\0' || *c == ' ')
            return false;
        parts->arguments[parts->count++] = c;
    }
    return parts->name[0] != '\0';
}

void put_away(struct line *parts)
{
    free(parts->arguments);
    memset(parts, 0, sizeof *parts);
}

bool read_word(const char *text, int32_t *value)
{
    bool is_negative = text[0] == '-';
    const char *digits = text + is_negative;
    size_t length = strlen(digits);
    if (length == 0 || length > 10 || strspn(digits, "0123456789") != length)
        return false;
    if (digits[0] == '0' && (length > 1 || is_negative))
        return false;
    int64_t n = strtoll(text, NULL, 10);
    if (n < INT32_MIN || n > INT32_MAX)
        return false;
    *value = (int32_t)n;
    return true;
}

static int digit_of(char c)
{
    return c >= '0' && c <= '9' ? c - '0' : c >= 'a' && c <= 'f' ? c - 'a' + 10 : -1;
}

bool read_bytes(const char *text, uint8_t **bytes, size_t *length)
{
    size_t digits = strcmp(text, "-") == 0 ? 0 : strlen(text);
    *length = digits / 2;
    *bytes = held(malloc(*length + 1));
    (*bytes)[*length] = 0xFF; /* a test for zeros that reads one byte too many finds it */
    bool is_right = digits % 2 == 0;
    for (size_t i = 0; is_right && i < *length; i++) {
        int high = digit_of(text[2 * i]), low = digit_of(text[2 * i + 1]);
        is_right = high >= 0 && low >= 0;
        (*bytes)[i] = (uint8_t)(is_right ? 16 * high + low : 0);
    }
    if (!is_right)
        free(*bytes);
    return is_right;
}

static const uint32_t *remainders(void)
{
    static uint32_t table[256];
    if (table[1] == 0)
        for (uint32_t i = 0; i < 256; i++) {
            uint32_t bits = i;
            for (int k = 0; k < 8; k++)
                bits = bits & 1 ? bits >> 1 ^ UINT32_C(0xEDB88320) : bits >> 1; /* 0x04C11DB7 reflected */
            table[i] = bits;
        }
    return table;
}

uint32_t checksum_of_bytes(uint32_t before, const uint8_t *bytes, size_t count)
{
    const uint32_t *table = remainders();
    uint32_t bits = ~before;
    for (size_t i = 0; i < count; i++)
        bits = bits >> 8 ^ table[(bits ^ bytes[i]) & 255];
    return ~bits;
}

uint32_t checksum(uint32_t before, const int32_t *words, size_t count)
{
    const uint32_t *table = remainders();
    uint32_t bits = ~before;
    for (size_t i = 0; i < count; i++) {
        uint32_t word = (uint32_t)words[i];
        for (int shift = 24; shift >= 0; shift -= 8)
            bits = bits >> 8 ^ table[(bits ^ word >> shift) & 255];
    }
    return ~bits;
}
