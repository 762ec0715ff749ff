/* Times each kind of call on the library and on the plain book and calendar, F 64 and S 5: a benchmark, not a test.
 * Prints tab-separated lines: kind, where, who, calls, nanoseconds a call with the loop around it. Argument: rounds
 * (default 15), or 'instructions' for one short round, of which callgrind counts measured_calls.
 * The plain ones are linked once for each way in which they are compiled, under names of their own: see run.sh. */
#define _DEFAULT_SOURCE
#include "bilzhaan.h"
#include "../tests/c/records.h"

#include <inttypes.h>
#include <stdbool.h>
#include <stdio.h>
#include <stdlib.h>
#include <string.h>
#include <time.h>

enum {
    F = 64, S = 5, NOW = 100019, /* the last minute of period 3333: three are inside gate closure */
    EARLIER = NOW - BILZHAAN_SCHEDULE_CUTOFF_MINUTES, /* what is filed then isn't fresh */
    FIRST_PERIOD = NOW / 30 + 1, LAST_GATE_PERIOD = FIRST_PERIOD + 2, OPEN_PERIOD = FIRST_PERIOD + 3,
    HORIZON = 48 * (NOW / 1440 + 7),
    READ_PERIOD = OPEN_PERIOD + 240, TOTAL_KEYS = 64, MOST_KEYS = 2048,
    FIRST_YEAR = 2024, YEARS = 76, DATED_PERIODS = 48 * 27759
};

_Static_assert(READ_PERIOD + TOTAL_KEYS <= HORIZON, "every period that is read is inside the horizon");
_Static_assert(30 * LAST_GATE_PERIOD - NOW < BILZHAAN_GATE_MINUTES && 30 * OPEN_PERIOD - NOW >= BILZHAAN_GATE_MINUTES,
               "which periods are inside gate closure");

static const int32_t limits[6] = {-450000, 450000, 450000, 450000, 450000, 450000};

/* ---- who is measured ---- */

typedef __typeof__(bilzhaan_record_test) record_test_function;
typedef __typeof__(bilzhaan_open) open_function;
typedef __typeof__(bilzhaan_call) call_function;
typedef __typeof__(bilzhaan_next_period) next_period_function;
typedef __typeof__(bilzhaan_period_of) period_of_function;
typedef __typeof__(bilzhaan_date_of) date_of_function;

record_test_function gcc_o2_record_test, gcc_o3_record_test, clang_o2_record_test;
open_function gcc_o2_open, gcc_o3_open, clang_o2_open;
call_function gcc_o2_call, gcc_o3_call, clang_o2_call;
next_period_function gcc_o2_next_period, gcc_o3_next_period, clang_o2_next_period;
period_of_function gcc_o2_period_of, gcc_o3_period_of, clang_o2_period_of;
date_of_function gcc_o2_date_of, gcc_o3_date_of, clang_o2_date_of;

struct subject {
    const char *name;
    record_test_function *record_test;
    open_function *open;
    call_function *call;
    next_period_function *next_period;
    period_of_function *period_of;
    date_of_function *date_of;
    int32_t *words;
    int32_t *links; /* a book of as many facilities, all of them links */
    double best; /* nanoseconds a call */
};

/* What is left when a call does nothing: the loop, and reading an answer. */
static struct bilzhaan_answer no_call(int32_t *words, size_t count, const uint8_t *bytes, size_t length)
{
    struct bilzhaan_answer a;
    (void)words, (void)count, (void)length;
    a.number = bytes[0] == 'S' ? 0 : 2;
    a.words[0] = 0;
    a.sum = 0;
    return a;
}

static uint32_t no_record_test(const uint8_t *bytes, size_t count, int32_t facilities, int32_t services)
{
    (void)count, (void)facilities, (void)services;
    return bytes[0] == 'S' ? 0 : 2;
}

static uint32_t no_open(int32_t *words, size_t count, int32_t facilities, int32_t services, const int32_t *given)
{
    (void)words, (void)count, (void)facilities, (void)services, (void)given;
    return 0;
}

static uint32_t no_next_period(uint32_t minute, uint32_t slot)
{
    (void)slot;
    return minute;
}

static struct bilzhaan_period no_period_of(int32_t year, int32_t month, int32_t day, int32_t period)
{
    struct bilzhaan_period p;
    (void)year, (void)month, (void)day, (void)period;
    memset(&p, 0, sizeof p); /* assigned field by field it would wait for its stores, see plain_calendar.c */
    return p;
}

static struct bilzhaan_date no_date_of(int32_t period)
{
    (void)period;
    return (struct bilzhaan_date){0, 0, 0, 0, 0, 0};
}

#define SUBJECT(name, its) \
    {name, its##_record_test, its##_open, its##_call, its##_next_period, its##_period_of, its##_date_of, NULL, NULL, 0}

static struct subject subjects[] = {
    SUBJECT("library", bilzhaan),
    SUBJECT("gcc -O2", gcc_o2),
    SUBJECT("gcc -O3", gcc_o3),
#ifdef WITH_CLANG
    SUBJECT("clang -O2", clang_o2),
#endif
    SUBJECT("loop", no),
};
enum { SUBJECTS = sizeof subjects / sizeof *subjects, BOOKS = SUBJECTS - 1 };

/* ---- kinds of calls ---- */

enum measured { CALL, RECORD_TEST, OPENING, NEXT_PERIOD, PERIOD_OF, DATE_OF };

struct kind {
    const char *name;
    enum measured what;
    uint32_t expected;
    struct record *hot, *scattered; /* filed in turn, over and over */
    size_t hot_count, scattered_count, length;
    int32_t facilities, services; /* for the opening */
    bool of_links; /* on the book of links */
    int32_t first; /* of a look-up: word 0 */
};

static struct kind kinds[96];
static int kind_count;
static size_t keys = MOST_KEYS; /* fewer where instructions are counted */
static size_t in_gate, links_in_gate, few_links_in_gate; /* of these, those inside gate closure */

static struct record *records_of(size_t count)
{
    struct record *r = malloc(count * sizeof *r);
    if (!r) {
        perror("malloc");
        exit(2);
    }
    return r;
}

static uint64_t random_state = 1;

static int below(int n)
{
    random_state = random_state * UINT64_C(6364136223846793005) + UINT64_C(1442695040888963407);
    return (int)((random_state >> 33) % (uint64_t)n);
}

/* No two scattered offers are for one cell. Variations are taken back at keys of their own, and at others stay as EARLIER
 * left them. Offers of two pairs have keys of their own (few), inside gate closure those of its last period. */
static struct key {
    int f, s;
    int32_t period;
} *energy_keys, *reserve_keys, *gate_keys, *back_keys, *earlier_keys, *back_gate_keys, *link_gate_keys;
static struct key *few_keys, *few_gate_keys, *few_link_gate_keys;
static struct key total_keys[TOTAL_KEYS], read_keys[TOTAL_KEYS * F]; /* standing offers of every facility, of EARLIER */

static void swap_keys(struct key *of, size_t i, size_t j)
{
    struct key swapped = of[i];
    of[i] = of[j];
    of[j] = swapped;
}

static struct key *distinct_keys(size_t count, int service, int services, int first, int periods)
{
    size_t all = (size_t)F * (size_t)services * (size_t)periods;
    struct key *every = malloc(all * sizeof *every);
    if (!every || count > all)
        exit(2);
    for (size_t i = 0; i < all; i++) {
        every[i].f = (int)(i % F);
        every[i].s = service + (int)(i / F % (size_t)services);
        every[i].period = first + (int)(i / F / (size_t)services);
    }
    for (size_t i = 0; i < count; i++)
        swap_keys(every, i, i + (size_t)below((int)(all - i)));
    return every;
}

/* Hot runs keep to the first key: of the same service, so that two rows can be held together. */
static void start_with_service(int service, struct key *of, size_t count)
{
    size_t i = 0;
    while (i < count - 1 && of[i].s != service)
        i++;
    swap_keys(of, 0, i);
}

static int pairs_of(struct key k) { return k.s == 0 ? BILZHAAN_PAIRS_ENERGY : BILZHAAN_PAIRS_OTHER; }

/* An offer with all its pairs filled; `step` tells apart offers for one key. */
static struct record full_offer(int call, struct key k, int reason, int step)
{
    int32_t period = call == BILZHAAN_CALL_STANDING ? k.period % BILZHAAN_WEEK_SLOTS : k.period;
    struct record r = offer_for(call, k.f, k.s, period, reason);
    for (int i = 0; i < pairs_of(k); i++)
        set_pair(&r, i, 1000 * (i + 1), 20 + step);
    if (k.s == 0)
        set_ramps(&r, 50, 40);
    else if (k.s <= 3)
        set_proportion(&r, 500);
    return r;
}

/* Two pairs, and blanks after them. One tenth more in the first step, as in each full offer inside gate closure. */
static struct record few_pairs(int call, struct key k, int reason, int step)
{
    struct record r = full_offer(call, k, reason, 0);
    set_pair(&r, 1, 2000, step == 0 ? 21 : 20);
    for (int i = 2; i < pairs_of(k); i++)
        set_pair(&r, i, 0, 0);
    return r;
}

static struct kind *add_kind(const char *name, uint32_t expected)
{
    if (kind_count == sizeof kinds / sizeof *kinds)
        exit(2);
    struct kind *k = &kinds[kind_count++];
    k->name = name;
    k->expected = expected;
    k->length = BILZHAAN_RECORD_BYTES;
    return k;
}

typedef struct record (*made)(struct key key, int step);

/* Each key once, in `steps` passes that differ; a hot run keeps to the first key. */
static struct kind *add_calls(const char *name, uint32_t expected, const struct key *from, size_t count, int steps,
                              made make)
{
    struct kind *k = add_kind(name, expected);
    k->hot_count = (size_t)steps;
    k->scattered_count = count * (size_t)steps;
    k->hot = records_of(k->hot_count);
    k->scattered = records_of(k->scattered_count);
    for (int step = 0; step < steps; step++) {
        k->hot[step] = make(from[0], step);
        for (size_t i = 0; i < count; i++)
            k->scattered[(size_t)step * count + i] = make(from[i], step);
    }
    return k;
}

static struct kind *add_one(const char *name, uint32_t expected, struct record r)
{
    struct kind *k = add_kind(name, expected);
    k->hot_count = 1;
    k->hot = records_of(1);
    k->hot[0] = r;
    return k;
}

static struct record capability_for(struct key k, int step)
{
    int32_t w[17] = {1, 9000, 8000 + step, 3000, 3000, 3000, 2000, 50, 40, 500, 500, 500, 1, 1, 1, 1, 1};
    return capability_of(k.f, w);
}
static struct record link_for(struct key k, int step)
{
    int32_t w[17] = {3, 9000, 8000 + step, 3000, 3000, 3000, 2000, 50, 40, 500, 500, 500, 1, 0, 0, 0, 0};
    return capability_of(k.f, w);
}
static struct record outage_for(struct key k, int step) { return outage_of(k.f, NOW - 60 * step, 3); }
static struct record standing_for(struct key k, int step) { return full_offer(BILZHAAN_CALL_STANDING, k, 0, step); }
static struct record variation_for(struct key k, int step) { return full_offer(BILZHAAN_CALL_VARIATION, k, 0, step); }
static struct record look_up_for(struct key k, int step) { (void)step; return look_up_of(k.f, k.s, k.period); }
static struct record total_for(struct key k, int step) { (void)step; return total_of(k.s, k.period); }

static struct record falling_for(struct key k, int step)
{
    struct record r = standing_for(k, step);
    set_pair(&r, pairs_of(k) - 1, 1000, 20);
    return r;
}

static struct record blank_before_filled_for(struct key k, int step)
{
    struct record r = standing_for(k, step);
    set_pair(&r, pairs_of(k) - 2, 0, 0);
    return r;
}

static struct record above_for(struct key k, int step)
{
    struct record r = standing_for(k, step);
    set_pair(&r, pairs_of(k) - 1, 99000, 9000);
    return r;
}

static struct record no_kind_for(struct key k, int step)
{
    struct record r = capability_for(k, step);
    set_w(&r, 0, 4);
    return r;
}

static struct record last_mark_for(struct key k, int step)
{
    struct record r = capability_for(k, step);
    set_w(&r, 16, 2);
    return r;
}

static struct record first_price_for(struct key k, int step)
{
    struct record r = variation_for(k, step);
    set_pair(&r, 0, 20000000, 20);
    return r;
}

static struct record long_outage_for(struct key k, int step) { (void)step; return outage_of(k.f, NOW, 49); }
static struct record begun_look_up_for(struct key k, int step) { k.period = FIRST_PERIOD - 1; return look_up_for(k, step); }
static struct record begun_total_for(struct key k, int step) { k.period = FIRST_PERIOD - 1; return total_for(k, step); }

static struct record no_facility_for(struct key k, int step)
{
    k.f = F;
    return variation_for(k, step);
}

static struct record no_slot_for(struct key k, int step)
{
    struct record r = standing_for(k, step);
    set_word(&r, BILZHAAN_AT_PERIOD, BILZHAAN_WEEK_SLOTS);
    return r;
}

static struct record begun_for(struct key k, int step)
{
    k.period = FIRST_PERIOD - 1;
    return variation_for(k, step);
}

static struct record inside_gate_for(struct key k, int step)
{
    (void)step;
    return full_offer(BILZHAAN_CALL_VARIATION, k, BILZHAAN_REASON_SYNCHRONISATION, 0);
}

/* From the second time on nothing is left to take back, which takes the same steps. */
static struct record taken_back_for(struct key k, int step)
{
    struct record r = variation_for(k, step);
    for (int i = 0; i < pairs_of(k); i++)
        set_pair(&r, i, 0, 0);
    return r;
}

static struct record taken_back_inside_for(struct key k, int step)
{
    struct record r = taken_back_for(k, step);
    r.bytes[BILZHAAN_AT_REASON] = BILZHAAN_REASON_FORCED_OUTAGE;
    return r;
}

static struct record last_tenths_differ_for(struct key k, int step)
{
    struct record r = inside_gate_for(k, step);
    set_pair(&r, pairs_of(k) - 1, 99000, 20);
    return r;
}

/* One tenth more for a shortfall, then one less for a surplus, and so by turns. */
static int reason_of_a_link(int step) { return step == 0 ? BILZHAAN_REASON_SHORTFALL : BILZHAAN_REASON_ENERGY_SURPLUS; }

static struct record link_inside_gate_for(struct key k, int step)
{
    struct record r = full_offer(BILZHAAN_CALL_VARIATION, k, reason_of_a_link(step), 0);
    set_pair(&r, 9, 10000, step == 0 ? 21 : 20);
    return r;
}

/* One tenth more and then one less, so that none is a duplicate. */
static struct record standing_inside_gate_for(struct key k, int step)
{
    struct record r = full_offer(BILZHAAN_CALL_STANDING, k, BILZHAAN_REASON_SYNCHRONISATION, 0);
    set_pair(&r, pairs_of(k) - 1, 1000 * pairs_of(k), step == 0 ? 21 : 20);
    return r;
}

static struct record standing_reason_fails_for(struct key k, int step)
{
    struct record r = standing_inside_gate_for(k, step);
    r.bytes[BILZHAAN_AT_REASON] = BILZHAAN_REASON_SYSTEM_STATUS; /* no such notice is given */
    return r;
}

static struct record standing_last_tenths_differ_for(struct key k, int step)
{
    struct record r = last_tenths_differ_for(k, step);
    r.bytes[BILZHAAN_AT_CALL] = BILZHAAN_CALL_STANDING;
    set_word(&r, BILZHAAN_AT_PERIOD, k.period % BILZHAAN_WEEK_SLOTS);
    return r;
}

static struct record link_standing_inside_gate_for(struct key k, int step)
{
    struct record r = standing_inside_gate_for(k, step);
    r.bytes[BILZHAAN_AT_REASON] = (uint8_t)reason_of_a_link(step);
    return r;
}

static struct record few_standing_for(struct key k, int step) { return few_pairs(BILZHAAN_CALL_STANDING, k, 0, step); }
static struct record few_variation_for(struct key k, int step) { return few_pairs(BILZHAAN_CALL_VARIATION, k, 0, step); }

static struct record few_standing_inside_gate_for(struct key k, int step)
{
    return few_pairs(BILZHAAN_CALL_STANDING, k, BILZHAAN_REASON_SYNCHRONISATION, step);
}

static struct record few_inside_gate_for(struct key k, int step)
{
    return few_pairs(BILZHAAN_CALL_VARIATION, k, BILZHAAN_REASON_SYNCHRONISATION, step);
}

static struct record few_link_standing_inside_gate_for(struct key k, int step)
{
    return few_pairs(BILZHAAN_CALL_STANDING, k, reason_of_a_link(step), step);
}

static struct record few_link_inside_gate_for(struct key k, int step)
{
    return few_pairs(BILZHAAN_CALL_VARIATION, k, reason_of_a_link(step), step);
}

static struct record nothing_for(struct key k, int step)
{
    k.s = BILZHAAN_REGULATION;
    return look_up_for(k, step);
}

static struct record last_byte_for(struct key k, int step)
{
    struct record r = look_up_for(k, step);
    r.bytes[BILZHAAN_RECORD_BYTES - 1] = 1;
    return r;
}

/* No record: numbers in its first bytes, for the functions that take these. */
static struct record numbers_of(int32_t first, int32_t second, int32_t third, int32_t fourth)
{
    int32_t numbers[4] = {first, second, third, fourth};
    struct record r = {{0}};
    memcpy(r.bytes, numbers, sizeof numbers);
    return r;
}

static inline int32_t number_at(const uint8_t *bytes, int i)
{
    int32_t number;
    memcpy(&number, bytes + 4 * i, sizeof number);
    return number;
}

static struct record next_period_for(struct key k, int step)
{
    (void)k, (void)step;
    return numbers_of(below(BILZHAAN_CLOCK_LAST + 1), below(BILZHAAN_WEEK_SLOTS), 0, 0);
}

static struct record period_for(struct key k, int step)
{
    (void)k, (void)step;
    return numbers_of(below(DATED_PERIODS), 0, 0, 0);
}

static struct record past_period_for(struct key k, int step)
{
    (void)k, (void)step;
    return numbers_of(DATED_PERIODS + below(DATED_PERIODS), 0, 0, 0);
}

static struct record date_for(struct key k, int step)
{
    (void)k, (void)step;
    struct bilzhaan_date d = gcc_o2_date_of(below(DATED_PERIODS));
    return numbers_of(d.year, d.month, d.day, d.period);
}

static struct record no_date_for(struct key k, int step)
{
    (void)k, (void)step;
    return numbers_of(FIRST_YEAR + below(YEARS), 2, 30, 1 + below(48));
}

static void make_kinds(void)
{
    in_gate = keys < 256 ? keys : 256;
    links_in_gate = keys < 128 ? keys : 128; /* two periods of 64 links */
    few_links_in_gate = keys < 64 ? keys : 64; /* and the third */
    energy_keys = distinct_keys(4 * keys, 0, 1, OPEN_PERIOD, 240);
    back_keys = energy_keys + keys;
    earlier_keys = back_keys + keys;
    few_keys = earlier_keys + keys;
    reserve_keys = distinct_keys(keys, 1, 3, OPEN_PERIOD, 240);
    gate_keys = distinct_keys(2 * in_gate, 0, 4, FIRST_PERIOD, 2);
    back_gate_keys = gate_keys + in_gate;
    for (int i = 0; i < TOTAL_KEYS; i++) {
        total_keys[i] = (struct key){0, below(4), READ_PERIOD + i};
        for (int f = 0; f < F; f++)
            read_keys[TOTAL_KEYS * f + i] = (struct key){f, total_keys[i].s, total_keys[i].period};
    }
    for (size_t i = 0; i < TOTAL_KEYS * F; i++)
        swap_keys(read_keys, i, (size_t)below(TOTAL_KEYS * F));
    link_gate_keys = distinct_keys(links_in_gate, 0, 1, FIRST_PERIOD, 2);
    few_gate_keys = distinct_keys(in_gate, 0, 4, LAST_GATE_PERIOD, 1);
    start_with_service(gate_keys[0].s, few_gate_keys, in_gate);
    few_link_gate_keys = distinct_keys(few_links_in_gate, 0, 1, LAST_GATE_PERIOD, 1);

    add_one("1 clock", 0, clock_at(NOW));
    add_one("1 clock, backwards", 6, clock_at(NOW - 1));
    add_calls("2 capability", 0, energy_keys, keys, 1, capability_for);
    add_calls("2 capability, of a link", 0, energy_keys, keys, 1, link_for)->of_links = true;
    add_calls("2 capability, no such kind", 8, energy_keys, keys, 1, no_kind_for);
    add_calls("2 capability, last word wrong", 8, energy_keys, keys, 1, last_mark_for);
    add_calls("3 standing, energy", 0, energy_keys, keys, 2, standing_for);
    add_calls("3 standing, energy, two pairs", 0, few_keys, keys, 2, few_standing_for);
    add_calls("3 standing, reserve", 0, reserve_keys, keys, 2, standing_for);
    add_calls("3 standing, energy of a link", 0, energy_keys, keys, 2, standing_for)->of_links = true;
    add_calls("3 standing, reserve of a link", 9, reserve_keys, keys, 1, standing_for)->of_links = true;
    add_calls("3 standing, no such slot", 10, energy_keys, keys, 1, no_slot_for);
    add_calls("3 standing, blank before a filled pair", 12, energy_keys, keys, 1, blank_before_filled_for);
    add_calls("3 standing, prices don't rise", 13, energy_keys, keys, 1, falling_for);
    add_calls("3 standing, above capacity", 16, energy_keys, keys, 1, above_for);
    add_calls("3 standing, inside gate closure", 0, gate_keys, in_gate, 2, standing_inside_gate_for);
    add_calls("3 standing, inside gate closure, two pairs", 0, few_gate_keys, in_gate, 2, few_standing_inside_gate_for);
    add_calls("3 standing, inside gate closure, energy of a link", 0, link_gate_keys, links_in_gate, 2,
              link_standing_inside_gate_for)->of_links = true;
    add_calls("3 standing, inside gate closure, energy of a link, two pairs", 0, few_link_gate_keys, few_links_in_gate, 2,
              few_link_standing_inside_gate_for)->of_links = true;
    add_calls("3 standing, inside gate closure without a reason", 17, back_gate_keys, in_gate, 1, standing_for);
    add_calls("3 standing, reason doesn't hold", 17, gate_keys, in_gate, 1, standing_reason_fails_for);
    add_calls("3 standing, reason not open to a link", 17, link_gate_keys, links_in_gate, 1,
              standing_inside_gate_for)->of_links = true;
    add_calls("3 standing, last tenths differ", 17, gate_keys, in_gate, 1, standing_last_tenths_differ_for);
    add_calls("3 standing, duplicate", 18, read_keys, keys, 1, standing_for);
    add_calls("4 variation, gate open, energy", 0, energy_keys, keys, 2, variation_for);
    add_calls("4 variation, gate open, energy, two pairs", 0, few_keys, keys, 2, few_variation_for);
    add_calls("4 variation, gate open, reserve", 0, reserve_keys, keys, 2, variation_for);
    add_calls("4 variation, gate open, energy of a link", 0, energy_keys, keys, 2, variation_for)->of_links = true;
    add_calls("4 variation, inside gate closure", 0, gate_keys, in_gate, 1, inside_gate_for);
    add_calls("4 variation, inside gate closure, two pairs", 0, few_gate_keys, in_gate, 1, few_inside_gate_for);
    add_calls("4 variation, inside gate closure, energy of a link", 0, link_gate_keys, links_in_gate, 2,
              link_inside_gate_for)->of_links = true;
    add_calls("4 variation, inside gate closure, energy of a link, two pairs", 0, few_link_gate_keys, few_links_in_gate, 2,
              few_link_inside_gate_for)->of_links = true;
    add_calls("4 variation, reason not open to a link", 17, link_gate_keys, links_in_gate, 1,
              inside_gate_for)->of_links = true;
    add_calls("4 variation taken back, gate open", 0, back_keys, keys, 1, taken_back_for);
    add_calls("4 variation taken back, inside gate closure", 0, back_gate_keys, in_gate, 1, taken_back_inside_for);
    add_calls("4 variation, last tenths differ", 17, gate_keys, in_gate, 1, last_tenths_differ_for);
    add_calls("4 variation, no such facility", 3, energy_keys, keys, 1, no_facility_for);
    add_calls("4 variation, period begun", 10, energy_keys, keys, 1, begun_for);
    add_calls("4 variation, first price too high", 11, energy_keys, keys, 1, first_price_for);
    add_calls("5 outage", 0, energy_keys, keys, 2, outage_for);
    add_calls("5 outage, too long", 7, energy_keys, keys, 1, long_outage_for);
    add_calls("5 outage, of a link", 7, energy_keys, keys, 1, outage_for)->of_links = true;
    add_one("6 notice", 0, notice_of(BILZHAAN_NOTICE_SHORTFALL, FIRST_PERIOD, FIRST_PERIOD + 4));
    add_one("6 notice, empty", 7, notice_of(BILZHAAN_NOTICE_SHORTFALL, FIRST_PERIOD + 4, FIRST_PERIOD));
    add_one("7 withdrawal", 0, withdrawal_of(BILZHAAN_NOTICE_SYSTEM_STATUS));
    add_one("7 withdrawal, another kind", 7, withdrawal_of(BILZHAAN_NOTICE_SHORTFALL));
    add_calls("8 look-up, variation", 0, earlier_keys, keys, 1, look_up_for)->first = BILZHAAN_VARIATION_IN_FORCE;
    add_calls("8 look-up, variation, fresh", 0, energy_keys, keys, 1, look_up_for)->first = BILZHAAN_FRESH_VARIATION_IN_FORCE;
    add_calls("8 look-up, standing", 0, read_keys, keys, 1, look_up_for)->first = BILZHAAN_STANDING_IN_FORCE;
    add_calls("8 look-up, standing, fresh", 0, back_keys, keys, 1, look_up_for)->first
        = BILZHAAN_FRESH_STANDING_IN_FORCE; /* its variation was taken back above */
    add_calls("8 look-up, nothing in force", 19, energy_keys, keys, 1, nothing_for);
    add_calls("8 look-up, period begun", 10, energy_keys, keys, 1, begun_look_up_for);
    add_calls("9 total, 64 facilities", 0, total_keys, TOTAL_KEYS, 1, total_for);
    add_calls("9 total, period begun", 10, total_keys, TOTAL_KEYS, 1, begun_total_for);
    add_calls("unused byte not zero", 4, energy_keys, keys, 1, last_byte_for);
    add_one("record of 111 bytes", 2, clock_at(NOW))->length = 111;
    add_calls("record test, energy offer", 0, energy_keys, keys, 1, variation_for)->what = RECORD_TEST;
    add_calls("record test, reserve offer", 0, reserve_keys, keys, 1, variation_for)->what = RECORD_TEST;
    add_calls("record test, look-up", 0, energy_keys, keys, 1, look_up_for)->what = RECORD_TEST;
    add_calls("record test, unused byte", 4, energy_keys, keys, 1, last_byte_for)->what = RECORD_TEST;
    add_calls("next period", 0, energy_keys, keys, 1, next_period_for)->what = NEXT_PERIOD;
    add_calls("date and period to P", 0, energy_keys, keys, 1, date_for)->what = PERIOD_OF;
    add_calls("date and period to P, no such date", 21, energy_keys, keys, 1, no_date_for)->what = PERIOD_OF;
    add_calls("P to date and period", 0, energy_keys, keys, 1, period_for)->what = DATE_OF;
    add_calls("P to date and period, P past the last date", 21, energy_keys, keys, 1, past_period_for)->what = DATE_OF;
}

/* ---- measuring ---- */

struct run {
    const struct subject *subject;
    const struct kind *kind;
    const struct record *records;
    size_t count, at, calls; /* `at` goes on from run to run, so that offers differ from the held ones */
};

static inline uint64_t spoiled(uint32_t number, const struct kind *kind)
{
    return (uint64_t)(number != kind->expected) << 40;
}

/* Calls that are counted or timed. Returns a sum over the answers; a number that isn't expected spoils it. */
__attribute__((noinline)) uint64_t measured_calls(struct run *run)
{
    const struct subject *who = run->subject;
    const struct kind *kind = run->kind;
    uint64_t seen = 0;
    size_t at = run->at, words = BILZHAAN_BOOK_WORDS(F, S);
    int32_t *book = kind->of_links ? who->links : who->words;
    for (size_t i = 0; i < run->calls; i++) {
        const uint8_t *bytes = run->records[at].bytes;
        if (kind->what == CALL) {
            struct bilzhaan_answer a = who->call(book, words, bytes, kind->length);
            seen += (uint64_t)a.sum + (uint64_t)a.words[0] + spoiled(a.number, kind);
        } else if (kind->what == RECORD_TEST) {
            seen += spoiled(who->record_test(bytes, kind->length, F, S), kind);
        } else if (kind->what == NEXT_PERIOD) {
            seen += who->next_period((uint32_t)number_at(bytes, 0), (uint32_t)number_at(bytes, 1));
        } else if (kind->what == PERIOD_OF) {
            struct bilzhaan_period p
                = who->period_of(number_at(bytes, 0), number_at(bytes, 1), number_at(bytes, 2), number_at(bytes, 3));
            seen += (uint64_t)p.period + (uint64_t)p.weekday + spoiled(p.number, kind);
        } else if (kind->what == DATE_OF) {
            struct bilzhaan_date d = who->date_of(number_at(bytes, 0));
            seen += (uint64_t)d.year + (uint64_t)d.month + (uint64_t)d.day + (uint64_t)d.period + (uint64_t)d.weekday
                + spoiled(d.number, kind);
        } else {
            seen += (uint64_t)who->open(book, words, kind->facilities, kind->services, limits) << 40;
        }
        if (++at == run->count)
            at = 0;
    }
    run->at = at;
    return seen;
}

static double nanoseconds(void)
{
    struct timespec t;
    clock_gettime(CLOCK_MONOTONIC, &t);
    return (double)t.tv_sec * 1e9 + (double)t.tv_nsec;
}

static void file_in(const struct subject *who, int32_t *book, struct record r)
{
    uint32_t number = who->call(book, BILZHAAN_BOOK_WORDS(F, S), r.bytes, sizeof r.bytes).number;
    if (number != 0) {
        fprintf(stderr, "%s refused a call of the setting with %" PRIu32 "\n", who->name, number);
        exit(1);
    }
}

static void file(const struct subject *who, struct record r) { file_in(who, who->words, r); }

/* The book that every kind starts from: capabilities, the clock, outages, and the offers that are varied, taken back,
 * repeated or read. */
static void set_up(const struct subject *who)
{
    struct key k = {0, 0, 0};
    if (who->open(who->words, BILZHAAN_BOOK_WORDS(F, S), F, S, limits) != 0)
        exit(1);
    for (k.f = 0; k.f < F; k.f++)
        file(who, capability_for(k, 0));
    file(who, clock_at(EARLIER));
    for (int i = 0; i < TOTAL_KEYS * F; i++)
        file(who, standing_for(read_keys[i], 0));
    for (size_t i = 0; i < keys; i++)
        file(who, variation_for(earlier_keys[i], 0));
    file(who, clock_at(NOW));
    for (k.f = 0; k.f < F; k.f++)
        file(who, outage_for(k, 0));
    for (size_t i = 0; i < keys; i++) {
        file(who, standing_for(energy_keys[i], 1));
        file(who, standing_for(reserve_keys[i], 1));
        file(who, standing_for(back_keys[i], 1));
        file(who, few_standing_for(few_keys[i], 1));
        file(who, few_variation_for(few_keys[i], 1));
        file(who, variation_for(energy_keys[i], 1));
        file(who, variation_for(reserve_keys[i], 1));
        file(who, variation_for(back_keys[i], 0));
    }
    for (size_t i = 0; i < in_gate; i++) {
        file(who, inside_gate_for(gate_keys[i], 0));
        file(who, standing_for(gate_keys[i], 0)); /* hidden by the variation */
        file(who, standing_for(back_gate_keys[i], 0));
        file(who, inside_gate_for(back_gate_keys[i], 0));
        file(who, few_inside_gate_for(few_gate_keys[i], 0));
        file(who, few_standing_for(few_gate_keys[i], 1)); /* hidden too */
    }
}

/* The book of links: capabilities, the clock, notices, and the offers that are varied or repeated. */
static void set_up_links(const struct subject *who)
{
    struct key k = {0, 0, 0};
    if (who->open(who->links, BILZHAAN_BOOK_WORDS(F, S), F, S, limits) != 0)
        exit(1);
    file_in(who, who->links, clock_at(NOW));
    for (k.f = 0; k.f < F; k.f++)
        file_in(who, who->links, link_for(k, 0));
    file_in(who, who->links, notice_of(BILZHAAN_NOTICE_ENERGY_SURPLUS, FIRST_PERIOD, LAST_GATE_PERIOD));
    file_in(who, who->links, notice_of(BILZHAAN_NOTICE_SHORTFALL, FIRST_PERIOD, LAST_GATE_PERIOD));
    for (size_t i = 0; i < keys; i++) {
        file_in(who, who->links, standing_for(energy_keys[i], 1));
        file_in(who, who->links, variation_for(energy_keys[i], 1));
    }
    for (size_t i = 0; i < links_in_gate; i++)
        file_in(who, who->links, standing_for(link_gate_keys[i], 0));
    for (size_t i = 0; i < few_links_in_gate; i++)
        file_in(who, who->links, few_standing_for(few_link_gate_keys[i], 1));
}

static void unexpected(const struct kind *kind, const struct subject *who)
{
    fprintf(stderr, "%s, %s: the answers are not the expected ones\n", kind->name, who->name);
    exit(1);
}

/* Word 0 of each look-up on each book, outside the loop that is measured: look-ups store nothing. */
static void check_first_words(const struct kind *kind, const struct record *records, size_t count)
{
    size_t words = BILZHAAN_BOOK_WORDS(F, S);
    for (const struct subject *who = subjects; who < subjects + BOOKS; who++)
        for (size_t i = 0; i < count; i++)
            if (who->call(who->words, words, records[i].bytes, kind->length).words[0] != kind->first)
                unexpected(kind, who);
}

/* One kind on every subject, `rounds` times; the least time counts. Each round begins with another subject, so that
 * between two turns of any of them all the others have had theirs. */
static void measure(const struct kind *kind, const char *where, const struct record *records, size_t count, size_t calls,
                    int rounds)
{
    size_t at[SUBJECTS] = {0};
    if (kind->first != 0)
        check_first_words(kind, records, count);
    for (int round = 0; round < rounds; round++) {
        uint64_t seen[SUBJECTS];
        for (int turn = 0; turn < SUBJECTS; turn++) {
            int i = (round + turn) % SUBJECTS;
            struct run run = {&subjects[i], kind, records, count, at[i], calls};
            double start = nanoseconds();
            seen[i] = measured_calls(&run);
            double each = (nanoseconds() - start) / (double)calls;
            at[i] = run.at;
            if (round == 0 || each < subjects[i].best)
                subjects[i].best = each;
        }
        for (int i = 0; i < BOOKS; i++)
            if (seen[i] >> 40 != 0 || seen[i] != seen[0])
                unexpected(kind, &subjects[i]);
    }
    for (int i = 0; i < SUBJECTS; i++)
        printf("%s\t%s\t%s\t%zu\t%.3f\n", kind->name, where, subjects[i].name, calls, subjects[i].best);
}

int main(int argc, char **argv)
{
    bool instructions = argc > 1 && strcmp(argv[1], "instructions") == 0;
    int rounds = instructions ? 1 : argc > 1 ? atoi(argv[1]) : 15;
    if (rounds < 1)
        return 2;
    if (instructions)
        keys = 64;
    make_kinds();
    for (int i = 0; i < BOOKS; i++) {
        subjects[i].words = calloc(BILZHAAN_BOOK_WORDS(F, S), 4);
        subjects[i].links = calloc(BILZHAAN_BOOK_WORDS(F, S), 4);
        if (!subjects[i].words || !subjects[i].links)
            return 2;
        set_up(&subjects[i]);
        set_up_links(&subjects[i]);
    }
    for (int i = 0; i < kind_count; i++) {
        const struct kind *k = &kinds[i];
        size_t hot = instructions ? 64 : 4096, scattered = instructions ? k->scattered_count : 4096;
        measure(k, "hot", k->hot, k->hot_count, hot, rounds);
        if (k->scattered)
            measure(k, "scattered", k->scattered, k->scattered_count, scattered, rounds);
    }
    static const int32_t sizes[2][2] = {{1, 1}, {F, S}};
    static const char *const names[2] = {"opening, 16,224 words", "opening, 5,163,072 words"};
    for (int i = 0; i < 2; i++) {
        struct record unused = clock_at(0);
        struct kind k = {names[i], OPENING, 0, &unused, NULL, 1, 0, 0, sizes[i][0], sizes[i][1], false, 0};
        measure(&k, "hot", &unused, 1, instructions ? 1 : i == 0 ? 256 : 4, rounds);
    }
    return 0;
}
