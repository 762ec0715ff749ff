/* The opening's number and words, and then the words of each accepted call, oldest first; quotations are from
 * documents 01 and 02. */
#include "listed_words.h"

#include <stdbool.h>
#include <string.h>

static int32_t word_at(const uint8_t *r, int at)
{
    return (int32_t)((uint32_t)r[at] << 24 | (uint32_t)r[at + 1] << 16 | (uint32_t)r[at + 2] << 8 | r[at + 3]);
}

/* 20 "opening: F, S wrong, words too few, a limit beyond ±10,000,000, or not lowest ≤ 0 ≤ highest; 0 ≤ highest for
 * services 1–4" */
int listed_opening_number(size_t count, int32_t facilities, int32_t services, const int32_t limits[6])
{
    if (facilities < 1 || facilities > 64 || (services != 1 && services != 5))
        return 20;
    int64_t needed = 64 + INT64_C(32) * facilities + INT64_C(16128) * facilities * services;
    if ((int64_t)count < needed)
        return 20;
    for (int i = 0; i < 6; i++)
        if (limits[i] < -10000000 || limits[i] > 10000000)
            return 20;
    if (!(limits[0] <= 0 && 0 <= limits[1]))
        return 20;
    for (int s = 1; s <= 4; s++)
        if (!(0 <= limits[1 + s]))
            return 20;
    return 0;
}

/* "Opening writes words 0 to N − 1: mark, version, F and S as above, clock 0, all windows 1 to 0 (empty), given limits,
 * else zero." */
void listed_opening(const struct list_machine *m, int32_t *words)
{
    memset(words, 0, BILZHAAN_BOOK_WORDS(m->facilities, m->services) * sizeof words[0]);
    words[0] = 0x534F42;
    words[1] = 2; /* "The book's version, head word 1, becomes 2." */
    words[2] = m->facilities;
    words[3] = m->services;
    for (int i = 5; i < 11; i += 2)
        words[i] = 1;
    for (int i = 0; i < 6; i++)
        words[11 + i] = m->limits[i];
    for (int f = 0; f < m->facilities; f++)
        words[64 + 32 * f + 17] = 1;
}

/* The offer has a quantity. */
static bool offers_any(const uint8_t *r)
{
    for (int i = 0; i < 10; i++)
        if (word_at(r, 36 + 8 * i) != 0)
            return true;
    return false;
}

/* "cells of 24 words, numbered ((f·S + s)·2 + h)·336 + slot": "0 stamp ..., 1 proportion", "word 2 becomes ramp up times
 * 10,000 plus ramp down, word 3 the minute", "4–23 pairs" */
static void put_offer(const struct list_machine *m, int32_t *words, const uint8_t *r)
{
    int32_t period = word_at(r, 8);
    size_t h = r[5] == 4 ? 1 : 0;
    size_t number = (((size_t)r[6] * (size_t)m->services + r[7]) * 2 + h) * 336 + (size_t)(period % 336);
    int32_t *cell = words + 64 + 32 * (size_t)m->facilities + 24 * number;
    if (h && !offers_any(r)) { /* "Its cell becomes 24 zeros." */
        memset(cell, 0, 24 * sizeof cell[0]);
        return;
    }
    cell[0] = h ? period + 1 : 1;
    cell[1] = r[14] * 256 + r[15];
    cell[2] = word_at(r, 16) * 10000 + word_at(r, 20);
    cell[3] = words[4]; /* the clock that the older calls left */
    for (int i = 0; i < 20; i++)
        cell[4 + i] = word_at(r, 32 + 4 * i);
}

void listed_call(const struct list_machine *m, int32_t *words, const uint8_t *r)
{
    int32_t *block = words + 64 + 32 * (size_t)r[6];
    switch (r[5]) {
    case 1: /* "A, the new minute" */
        words[4] = word_at(r, 24);
        break;
    case 2: /* "0 kind ..; 1–16 W1 to W16" */
        for (int i = 0; i < 17; i++)
            block[i] = word_at(r, 32 + 4 * i);
        break;
    case 3:
    case 4:
        put_offer(m, words, r);
        break;
    case 5: /* "Its window is m div 30 + 1 to m div 30 + n." */
        block[17] = word_at(r, 24) / 30 + 1;
        block[18] = word_at(r, 24) / 30 + word_at(r, 28);
        break;
    case 6: /* "5–10 first and last of notices 3, 4, 5" */
        words[5 + 2 * (r[12] - 3)] = word_at(r, 24);
        words[6 + 2 * (r[12] - 3)] = word_at(r, 28);
        break;
    case 7: /* "sets its window to 1 to 0" */
        words[9] = 1;
        words[10] = 0;
        break;
    }
}

void listed_words(const struct list_machine *m, int32_t *words)
{
    listed_opening(m, words);
    for (size_t i = 0; i < m->count; i++)
        listed_call(m, words, m->accepted[i]);
}
