/* Counted checks, stray touches and books for the tests of the library. */
#define _DEFAULT_SOURCE
#include "check.h"

#include <inttypes.h>
#include <signal.h>
#include <stdio.h>
#include <stdlib.h>
#include <string.h>
#include <unistd.h>

long passed, failed;
uint32_t numbers_drawn;

void check_at(bool ok, const char *what, const char *file, int line)
{
    if (ok) {
        passed++;
    } else if (failed++ < 50) {
        printf("%s:%d: not so: %s\n", file, line, what);
    }
}

void equal_at(int64_t got, int64_t expected, const char *what, const char *file, int line)
{
    if (got == expected) {
        passed++;
    } else if (failed++ < 50) {
        printf("%s:%d: %s is %" PRId64 ", expected %" PRId64 "\n", file, line, what, got, expected);
    }
}

/* ---- stray touches ---- */

static void stray_touch(int signal_number)
{
    static const char message[] = "a call touched memory that it was not lent, or wrote where it stores nothing\n0 passed, 1 failed\n";
    (void)signal_number;
    if (write(STDOUT_FILENO, message, sizeof message - 1) < 0)
        _exit(3);
    _exit(1);
}

void name_stray_touches(void)
{
    signal(SIGSEGV, stray_touch);
    signal(SIGBUS, stray_touch);
}

/* ---- books ---- */

const int32_t usual_limits[6] = {ENERGY_LOWEST, ENERGY_HIGHEST, SERVICE_HIGHEST,
                                 SERVICE_HIGHEST + 1, SERVICE_HIGHEST + 2, SERVICE_HIGHEST + 3};
const int32_t usual_generation[17] = {1, 1300, 800, 300, 310, 320, 200, 50, 40, 500, 600, 700, 1, 1, 1, 1, 1};
const int32_t usual_load[17] = {2, 0, 0, 300, 310, 320, 0, 0, 0, 0, 0, 0, 0, 1, 1, 1, 0};
const int32_t usual_link[17] = {3, 900, 800, 300, 310, 320, 200, 50, 40, 500, 600, 700, 1, 0, 0, 0, 0};

struct book book_for(int32_t facilities, int32_t services)
{
    struct book b;
    b.facilities = facilities;
    b.services = services;
    b.count = BILZHAAN_BOOK_WORDS(facilities, services);
    b.words = (int32_t *)(void *)lent_to_the_end(b.count * sizeof b.words[0]);
    b.before = malloc(b.count * sizeof b.before[0]);
    if (!b.before) {
        perror("malloc");
        exit(2);
    }
    EQUAL(bilzhaan_open(b.words, b.count, facilities, services, usual_limits), 0);
    return b;
}

void open_usual(struct book *b, int32_t now)
{
    EQUAL(bilzhaan_open(b->words, b->count, b->facilities, b->services, usual_limits), 0);
    EQUAL(number_of(b, capability_of(0, usual_generation)), 0);
    EQUAL(number_of(b, capability_of(1, usual_load)), 0);
    EQUAL(number_of(b, clock_at(now)), 0);
}

void shut_gate(struct book *b)
{
    for (int kind = 3; kind <= 5; kind++)
        EQUAL(number_of(b, notice_of(kind, 100, 100)), 0);
    EQUAL(number_of(b, clock_at(2950)), 0);
    EQUAL(number_of(b, outage_of(0, 2950, 2)), 0);
}

struct book usual_book(int32_t now)
{
    struct book b = book_for(2, 5);
    open_usual(&b, now);
    return b;
}

struct record offered(int which, int service, int32_t period, int reason, int32_t quantity)
{
    struct record r = offer_for(which, 0, service, period, reason);
    if (quantity != 0)
        set_pair(&r, 0, 4000, quantity);
    if (service >= 1 && service <= 3)
        set_proportion(&r, 1);
    return r;
}

size_t cell_at(const struct book *b, int f, int s, int h, int slot)
{
    size_t number = (size_t)(((f * b->services + s) * 2 + h) * BILZHAAN_WEEK_SLOTS + slot);
    return 64 + 32 * (size_t)b->facilities + 24 * number;
}

void put_quantities(struct book *b, int h, int32_t first, int32_t others)
{
    int32_t *cell = b->words + cell_at(b, 0, 0, h, 100);
    cell[0] = h == 1 ? 101 : 1;
    for (int i = 0; i < 10; i++) {
        cell[4 + 2 * i] = i == 0 ? 4000 : 5000;
        cell[5 + 2 * i] = i == 0 ? first : others;
    }
}

static bool all_zero(const struct bilzhaan_answer *a)
{
    bool zero = a->sum == 0;
    for (int i = 0; i < BILZHAAN_ANSWER_WORDS; i++)
        zero &= a->words[i] == 0;
    return zero;
}

static bool same_outside(const struct book *b, size_t from, size_t end)
{
    return memcmp(b->words, b->before, from * sizeof b->words[0]) == 0
        && memcmp(b->words + end, b->before + end, (b->count - end) * sizeof b->words[0]) == 0;
}

static bool same_answers(const struct bilzhaan_answer *a, const struct bilzhaan_answer *b)
{
    return a->number == b->number && memcmp(a->words, b->words, sizeof a->words) == 0 && a->sum == b->sum;
}

/* A call that stores nothing answers the same again, from words that can't be written. */
static void call_read_only(struct book *b, const uint8_t *bytes, size_t length, const struct bilzhaan_answer *first)
{
    size_t lent = b->count * sizeof b->words[0];
    allow_writes(b->words, lent, false);
    struct bilzhaan_answer again = bilzhaan_call(b->words, b->count, bytes, length);
    allow_writes(b->words, lent, true);
    CHECK(same_answers(&again, first));
}

struct bilzhaan_answer call_bytes(struct book *b, const uint8_t *bytes, size_t length)
{
    memcpy(b->before, b->words, b->count * sizeof b->words[0]);
    struct bilzhaan_answer a = bilzhaan_call(b->words, b->count, bytes, length);
    numbers_drawn |= a.number < 32 ? UINT32_C(1) << a.number : 0;
    int which = length > BILZHAAN_AT_CALL ? bytes[BILZHAAN_AT_CALL] : 0;
    if (a.number != 0 || which <= BILZHAAN_CALL_WITHDRAWAL)
        CHECK(all_zero(&a));
    if (a.number != 0 || which >= BILZHAAN_CALL_LOOK_UP) {
        CHECK(same_outside(b, b->count, b->count));
        call_read_only(b, bytes, length, &a);
    } else if (which == BILZHAAN_CALL_STANDING || which == BILZHAAN_CALL_VARIATION) {
        int f = bytes[BILZHAAN_AT_FACILITY], s = bytes[BILZHAAN_AT_SERVICE];
        int64_t period = bytes[8] * INT64_C(16777216) + bytes[9] * 65536 + bytes[10] * 256 + bytes[11];
        size_t cell = cell_at(b, f, s, which == BILZHAAN_CALL_VARIATION, (int)(period % BILZHAAN_WEEK_SLOTS));
        CHECK(f < b->facilities && s < b->services && same_outside(b, cell, cell + 24));
    }
    return a;
}

struct bilzhaan_answer call(struct book *b, struct record r)
{
    return call_bytes(b, r.bytes, sizeof r.bytes);
}

uint32_t number_of(struct book *b, struct record r)
{
    return call(b, r).number;
}

struct bilzhaan_answer looked_up_at(struct book *b, int f, int s, int32_t period, uint32_t number, int32_t first,
                                    int64_t sum, const char *file, int line)
{
    struct bilzhaan_answer a = call(b, look_up_of(f, s, period));
    equal_at(a.number, number, "a look-up's number", file, line);
    equal_at(a.words[0], first, "a look-up's word 0", file, line);
    equal_at(a.sum, sum, "a look-up's sum", file, line);
    return a;
}
