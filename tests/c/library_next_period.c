/* A slot's next period: "For every slot 0 to 335 and minute 0 to 1,000,000,000 it gives the least period of that slot not
 * yet begun, at slot boundaries as well, and no call's answer changes." The function for C, and number 17 of the calls
 * that go by it, against a search that tries one period after another. */
#include "library_test.h"

#include <inttypes.h>
#include <stdio.h>

enum { SLOTS = 336, LAST_MINUTE = 1000000000, LAST_BEGUN = 33333333 }; /* 30 * LAST_BEGUN is 999,999,990 */

/* Period P "starts at minute 30·P"; `begun` is one that has begun, or 0. */
static uint32_t searched(uint64_t minute, uint32_t slot, uint64_t begun)
{
    uint64_t period = begun;
    while (30 * period <= minute || period % SLOTS != slot)
        period++;
    return (uint32_t)period;
}

static void next_is(uint32_t minute, uint32_t slot, uint32_t expected)
{
    char what[64];
    snprintf(what, sizeof what, "bilzhaan_next_period(%" PRIu32 ", %" PRIu32 ")", minute, slot);
    equal_at(bilzhaan_next_period(minute, slot), expected, what, __FILE__, __LINE__);
}

static void by_hand(void)
{
    next_is(119, 4, 4);
    next_is(120, 4, 340);
    next_is(0, 0, 336); /* period 0 has begun */
    next_is(10049, 335, 335);
    next_is(10050, 335, 671);
}

/* What the header says of slots that no offer has: they are taken mod 336. And of minutes that no clock has. */
static void past_the_ranges(void)
{
    static const struct {
        uint32_t minute, begun;
    } at[] = {{0, 0}, {119, 0}, {120, 0}, {10049, 0}, {10050, 0}, {LAST_MINUTE, LAST_BEGUN}, {UINT32_MAX, 143165576}};
    for (size_t i = 0; i < sizeof at / sizeof at[0]; i++) {
        uint32_t minute = at[i].minute, begun = at[i].begun;
        for (uint32_t slot = 0; slot < SLOTS; slot++)
            next_is(minute, slot, searched(minute, slot, begun));
        next_is(minute, 336, searched(minute, 0, begun));
        next_is(minute, 671, searched(minute, 335, begun));
        next_is(minute, 672, searched(minute, 0, begun));
        next_is(minute, UINT32_MAX, searched(minute, 255, begun)); /* 336 * 12,782,640 + 255 */
    }
}

/* One check for a minute: at the first slot where the function and the search part, or else at the last. */
static void function_at(uint32_t minute, const uint32_t next[SLOTS])
{
    uint32_t slot = 0;
    while (slot < SLOTS - 1 && bilzhaan_next_period(minute, slot) == next[slot])
        slot++;
    next_is(minute, slot, next[slot]);
}

/* The same of calls without a reason: "refused inside 65 minutes of the slot's next period not yet begun". Every slot holds an offer, and
 * the one that is filed is another, so that 18 isn't drawn. */
static void calls_at(struct book *b, int32_t held[SLOTS], uint32_t minute, const uint32_t next[SLOTS])
{
    struct record clock = clock_at((int32_t)minute);
    EQUAL(bilzhaan_call(b->words, b->count, clock.bytes, sizeof clock.bytes).number, 0);
    uint32_t slot = 0, number = 0, expected = 0;
    for (; slot < SLOTS && number == expected; slot++) {
        struct record r = offered(BILZHAAN_CALL_STANDING, 0, (int32_t)slot, 0, 3 - held[slot]);
        number = bilzhaan_call(b->words, b->count, r.bytes, sizeof r.bytes).number;
        expected = 30 * next[slot] - minute < 65 ? BILZHAAN_GATE_CLOSED : 0;
        if (number == 0)
            held[slot] = 3 - held[slot];
    }
    char what[64];
    snprintf(what, sizeof what, "a standing offer for slot %" PRIu32 " at minute %" PRIu32, slot - 1, minute);
    equal_at(number, expected, what, __FILE__, __LINE__);
}

static void at_minute(struct book *b, int32_t held[SLOTS], uint32_t minute, uint32_t begun)
{
    uint32_t next[SLOTS];
    for (uint32_t slot = 0; slot < SLOTS; slot++)
        next[slot] = searched(minute, slot, begun);
    function_at(minute, next);
    calls_at(b, held, minute, next);
}

/* The minute before each period of a week, its first and its second, and 65 and 64 minutes before the third after it: of
 * the first week, one in the middle of the range and the last that begins in it; then the last minute. */
static void boundaries(void)
{
    static const uint32_t weeks[] = {0, 500000000 / 30, LAST_BEGUN - SLOTS + 1};
    static const int32_t minutes[] = {-1, 0, 1, 90 - 65, 90 - 64};
    struct book b = usual_book(0);
    int32_t held[SLOTS];
    for (int32_t slot = 0; slot < SLOTS; slot++) {
        held[slot] = 1;
        EQUAL(number_of(&b, offered(BILZHAAN_CALL_STANDING, 0, slot, 0, held[slot])), 0);
    }
    for (size_t i = 0; i < sizeof weeks / sizeof weeks[0]; i++)
        for (uint32_t period = weeks[i]; period < weeks[i] + SLOTS; period++)
            for (size_t k = 0; k < sizeof minutes / sizeof minutes[0]; k++) {
                int64_t minute = 30 * (int64_t)period + minutes[k];
                if (minute >= 0 && minute < LAST_MINUTE)
                    at_minute(&b, held, (uint32_t)minute, period == 0 ? 0 : period - 1);
            }
    at_minute(&b, held, LAST_MINUTE, LAST_BEGUN);
    for (int32_t slot = 0; slot < SLOTS; slot++)
        EQUAL(b.words[cell_at(&b, 0, 0, 0, slot) + 5], held[slot]); /* the quantity of its only pair */
}

/* The function at every minute of two weeks. */
static void each_minute(uint32_t from, uint32_t begun)
{
    uint32_t next[SLOTS];
    for (uint32_t slot = 0; slot < SLOTS; slot++)
        next[slot] = searched(from, slot, begun);
    for (uint32_t minute = from; minute <= from + 2 * 30 * SLOTS; minute++) {
        for (uint32_t slot = 0; slot < SLOTS; slot++)
            if (30 * next[slot] <= minute)
                next[slot] = searched(minute, slot, next[slot]);
        function_at(minute, next);
    }
}

void test_next_period(void)
{
    by_hand();
    past_the_ranges();
    each_minute(0, 0);
    each_minute(LAST_MINUTE - 2 * 30 * SLOTS, LAST_BEGUN - 2 * SLOTS);
    boundaries();
}
