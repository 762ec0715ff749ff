/* Refusals 1 and 5 to 16, 18 and 19 by the calls, each at its edges with the accepted neighbour, and their order.
 * 2, 3 and 4 are in library_record.c, 17 in library_gate.c, 20 in library_opening.c. */
#include "library_test.h"

#include <limits.h>

/* A passing energy offer of the usual generation. */
static struct record energy(int which, int32_t period)
{
    struct record r = offer_for(which, 0, BILZHAAN_ENERGY, period, 0);
    set_ramps(&r, 50, 40);
    set_pair(&r, 0, 4000, 500);
    set_pair(&r, 1, 5000, 200);
    return r;
}

static struct record reserve(int which, int facility, int service, int32_t period, int proportion)
{
    struct record r = offer_for(which, facility, service, period, 0);
    set_proportion(&r, proportion);
    set_pair(&r, 0, 100, 50);
    set_pair(&r, 1, 200, 60);
    return r;
}

static void kind_missing(void)
{
    struct book b = book_for(2, 5);
    EQUAL(number_of(&b, energy(BILZHAAN_CALL_STANDING, 4)), BILZHAAN_NO_KIND);
    EQUAL(number_of(&b, energy(BILZHAAN_CALL_VARIATION, 4)), BILZHAAN_NO_KIND);
    EQUAL(number_of(&b, outage_of(0, 0, 1)), BILZHAAN_NO_KIND);
    EQUAL(number_of(&b, look_up_of(0, 0, 4)), BILZHAAN_NO_KIND);
    EQUAL(number_of(&b, total_of(0, 4)), 0);
    EQUAL(number_of(&b, capability_of(0, usual_generation)), 0);
    EQUAL(number_of(&b, energy(BILZHAAN_CALL_STANDING, 4)), 0);
    EQUAL(number_of(&b, look_up_of(1, 0, 4)), BILZHAAN_NO_KIND);
}

static void clock(void)
{
    struct book b = usual_book(1000);
    EQUAL(number_of(&b, clock_at(999)), BILZHAAN_CLOCK_REFUSED);
    EQUAL(number_of(&b, clock_at(-1)), BILZHAAN_CLOCK_REFUSED);
    EQUAL(number_of(&b, clock_at(INT32_MIN)), BILZHAAN_CLOCK_REFUSED);
    EQUAL(number_of(&b, clock_at(1000000001)), BILZHAAN_CLOCK_REFUSED);
    EQUAL(number_of(&b, clock_at(INT32_MAX)), BILZHAAN_CLOCK_REFUSED);
    EQUAL(number_of(&b, clock_at(1000)), 0);
    EQUAL(number_of(&b, clock_at(1000000000)), 0);
    EQUAL(b.words[4], 1000000000);
    EQUAL(number_of(&b, clock_at(999999999)), BILZHAAN_CLOCK_REFUSED);
    EQUAL(number_of(&b, clock_at(1000000000)), 0);
}

static void operators_calls(void)
{
    struct book b = usual_book(1000);
    static const int32_t outages[][4] = {
        {0, 0, 1, 0}, {0, 1000, 3, 0}, {0, -1, 1, 7}, {0, 1001, 1, 7}, {0, 10, 0, 7}, {0, 10, 4, 7}, {0, 10, 48, 7},
        {0, 10, -1, 7}, {1, 10, 48, 0}, {1, 10, 49, 7}, {1, 10, 0, 7}, {1, INT32_MIN, 1, 7}, {1, 10, INT32_MAX, 7},
    };
    for (size_t i = 0; i < sizeof outages / sizeof outages[0]; i++)
        EQUAL(number_of(&b, outage_of(outages[i][0], outages[i][1], outages[i][2])), outages[i][3]);
    /* "Its window is m div 30 + 1 to m div 30 + n." */
    EQUAL(number_of(&b, outage_of(0, 89, 3)), 0);
    EQUAL(b.words[64 + 17], 3);
    EQUAL(b.words[64 + 18], 5);
    EQUAL(number_of(&b, outage_of(1, 90, 48)), 0);
    EQUAL(b.words[64 + 32 + 17], 4);
    EQUAL(b.words[64 + 32 + 18], 51);

    static const int32_t notices[][4] = {
        {3, 0, 0, 0}, {4, 5, 5, 0}, {5, 0, 40000000, 0}, {3, 40000000, 40000000, 0}, {2, 0, 0, 7}, {6, 0, 0, 7},
        {0, 0, 0, 7}, {255, 0, 0, 7}, {3, -1, 0, 7}, {4, 6, 5, 7}, {5, 0, 40000001, 7}, {5, INT32_MIN, INT32_MAX, 7},
    };
    for (size_t i = 0; i < sizeof notices / sizeof notices[0]; i++)
        EQUAL(number_of(&b, notice_of(notices[i][0], notices[i][1], notices[i][2])), notices[i][3]);
    for (int kind = 3; kind <= 5; kind++)
        EQUAL(number_of(&b, notice_of(kind, 10 * kind, 10 * kind + 1)), 0);
    for (int reason = 0; reason < 256; reason++)
        if (reason != BILZHAAN_NOTICE_SYSTEM_STATUS)
            EQUAL(number_of(&b, withdrawal_of(reason)), BILZHAAN_NOTICE_REFUSED);
    EQUAL(number_of(&b, withdrawal_of(BILZHAAN_NOTICE_SYSTEM_STATUS)), 0);
    static const int32_t after[6] = {30, 31, 40, 41, 1, 0}; /* the others stay */
    for (int i = 0; i < 6; i++)
        EQUAL(b.words[5 + i], after[i]);
    EQUAL(number_of(&b, withdrawal_of(BILZHAAN_NOTICE_SYSTEM_STATUS)), 0);
}

static uint32_t with_w(struct book *b, int facility, const int32_t from[17], int i, int32_t value)
{
    int32_t w[17];
    for (int k = 0; k < 17; k++)
        w[k] = from[k];
    w[i] = value;
    return number_of(b, capability_of(facility, w));
}

static void capabilities(void)
{
    struct book b = usual_book(0);
    static const int32_t highest[17] = {0, 99999, 99999, 99999, 99999, 99999, 99999, 9999, 9999,
                                        1000, 1000, 1000, 1, 1, 1, 1, 1};
    for (int i = 1; i < 17; i++) {
        EQUAL(with_w(&b, 0, usual_generation, i, -1), BILZHAAN_CAPABILITY_REFUSED);
        EQUAL(with_w(&b, 0, usual_generation, i, highest[i] + 1), BILZHAAN_CAPABILITY_REFUSED);
        EQUAL(with_w(&b, 0, usual_generation, i, INT32_MIN), BILZHAAN_CAPABILITY_REFUSED);
        EQUAL(with_w(&b, 0, usual_generation, i, 0), 0);
        EQUAL(b.words[64 + i], 0);
        EQUAL(with_w(&b, 0, usual_generation, i, highest[i]), 0);
        EQUAL(b.words[64 + i], highest[i]);
        uint32_t for_load = i == 12 || i == 16 ? BILZHAAN_CAPABILITY_REFUSED : 0;
        EQUAL(with_w(&b, 1, usual_load, i, highest[i]), for_load);
    }
    /* "kind not 1 or 2 or unlike a held 1 or 2", and 3 likewise */
    EQUAL(with_w(&b, 0, usual_generation, 0, 0), BILZHAAN_CAPABILITY_REFUSED);
    EQUAL(with_w(&b, 0, usual_generation, 0, 4), BILZHAAN_CAPABILITY_REFUSED);
    EQUAL(number_of(&b, capability_of(0, usual_link)), BILZHAAN_CAPABILITY_REFUSED);
    EQUAL(number_of(&b, capability_of(0, usual_load)), BILZHAAN_CAPABILITY_REFUSED);
    EQUAL(number_of(&b, capability_of(1, usual_generation)), BILZHAAN_CAPABILITY_REFUSED);
    /* a capability leaves the outage window and the offers of its facility */
    EQUAL(number_of(&b, capability_of(0, usual_generation)), 0);
    EQUAL(number_of(&b, outage_of(0, 0, 2)), 0);
    EQUAL(number_of(&b, energy(BILZHAAN_CALL_STANDING, 20)), 0);
    EQUAL(with_w(&b, 0, usual_generation, 12, 0), 0);
    EQUAL(b.words[64 + 17], 1);
    EQUAL(b.words[64 + 18], 2);
    EQUAL(call(&b, look_up_of(0, 0, 20)).sum, 700);
    EQUAL(number_of(&b, energy(BILZHAAN_CALL_STANDING, 21)), BILZHAAN_NOT_REGISTERED);
    EQUAL(number_of(&b, energy(BILZHAAN_CALL_VARIATION, 21)), BILZHAAN_NOT_REGISTERED);
}

static void registration(void)
{
    struct book b = usual_book(0);
    for (int s = 0; s < 5; s++) {
        EQUAL(with_w(&b, 0, usual_generation, BILZHAAN_W_REGISTERED + s, 0), 0);
        for (int other = 0; other < 5; other++) {
            struct record r = other == 0 ? energy(BILZHAAN_CALL_VARIATION, 100)
                                         : reserve(BILZHAAN_CALL_VARIATION, 0, other, 100, other == 4 ? 0 : 1);
            EQUAL(number_of(&b, r), s == other ? BILZHAAN_NOT_REGISTERED : 0);
        }
    }
    EQUAL(number_of(&b, reserve(BILZHAAN_CALL_STANDING, 1, BILZHAAN_REGULATION, 100, 0)), BILZHAAN_NOT_REGISTERED);
    EQUAL(number_of(&b, reserve(BILZHAAN_CALL_STANDING, 1, BILZHAAN_PRIMARY_RESERVE, 100, 0)), 0);
}

static void periods(void)
{
    struct book b = usual_book(0);
    static const int32_t slots[][2] = {{0, 0}, {335, 0}, {-1, 10}, {336, 10}, {INT32_MIN, 10}, {INT32_MAX, 10}};
    for (size_t i = 0; i < sizeof slots / sizeof slots[0]; i++)
        EQUAL(number_of(&b, energy(BILZHAAN_CALL_STANDING, slots[i][0])), slots[i][1]);
    /* day 0's horizon ends at 336, day 1's at 384; period P has begun from minute 30 P */
    static const int32_t tries[][3] = {
        {0, 0, 10}, {0, -1, 10}, {0, INT32_MIN, 10}, {0, INT32_MAX, 10}, {0, 71582789, 10}, {0, 335, 0}, {0, 336, 10},
        {1439, 335, 0}, {1439, 336, 10}, {1440, 383, 0}, {1440, 384, 10}, {1440, 48, 10}, {1440, 51, 0},
        {999999999, 33333333, 10}, {1000000000, 33333333, 10}, {1000000000, 33333334, 17}, {1000000000, 33333336, 0},
        {1000000000, 33333647, 0}, {1000000000, 33333648, 10},
    };
    for (size_t i = 0; i < sizeof tries / sizeof tries[0]; i++) {
        open_usual(&b, tries[i][0]);
        EQUAL(number_of(&b, energy(BILZHAAN_CALL_VARIATION, tries[i][1])), tries[i][2]);
        uint32_t read = tries[i][2] == 10 ? 10 : 0;
        EQUAL(number_of(&b, total_of(0, tries[i][1])), read);
        EQUAL(number_of(&b, look_up_of(0, 0, tries[i][1])), read ? read : tries[i][2] == 0 ? 0 : 19);
    }
}

static void ranges(void)
{
    struct book b = usual_book(0);
    int32_t w[17];
    for (int i = 0; i < 17; i++)
        w[i] = i == 0 ? 1 : i <= 6 ? 99999 : i <= 8 ? 9999 : i <= 11 ? 1000 : 1;
    EQUAL(number_of(&b, capability_of(0, w)), 0);
    for (int s = 0; s < 5; s++) {
        int32_t low = s == 0 ? usual_limits[0] : 0, high = usual_limits[s + 1];
        for (int pair = 0; pair < (s == 0 ? 10 : 5); pair++) {
            const int32_t tries[][3] = { /* after as many pairs of one tenth, from the lowest price on */
                {high, 99999 - pair, 0}, {high, 99999, pair == 0 ? 0 : 16}, {low + pair, 1, 0}, {high + 1, 1, 11},
                {low - 1, 1, 11}, {0, 100000, 11}, {0, -1, 11}, {0, INT32_MIN, 11}, {0, INT32_MAX, 11}, {INT32_MAX, 1, 11},
                {INT32_MIN, 1, 11}, {high + 1, 0, 11}, {low - 1, 0, 11}, {high, 0, 12}, {low, 0, low == 0 ? 0 : 12},
            };
            for (size_t i = 0; i < sizeof tries / sizeof tries[0]; i++) {
                struct record r = offer_for(BILZHAAN_CALL_VARIATION, 0, s, 100, 0);
                for (int before = 0; before < pair; before++)
                    set_pair(&r, before, low + before, 1);
                set_pair(&r, pair, tries[i][0], tries[i][1]);
                if (s >= 1 && s <= 3)
                    set_proportion(&r, 1);
                EQUAL(number_of(&b, r), tries[i][2]);
            }
        }
    }
    for (int reason = 0; reason < 256; reason++) {
        struct record r = energy(BILZHAAN_CALL_VARIATION, 100);
        r.bytes[BILZHAAN_AT_REASON] = (uint8_t)reason;
        EQUAL(number_of(&b, r), reason <= 6 ? 0 : BILZHAAN_OUT_OF_RANGE);
    }
}

static void blanks_and_prices(void)
{
    struct book b = usual_book(0);
    struct record r = energy(BILZHAAN_CALL_VARIATION, 100);
    set_pair(&r, 2, 1, 0);
    EQUAL(number_of(&b, r), BILZHAAN_BLANK_REFUSED);
    set_pair(&r, 2, -1, 0);
    EQUAL(number_of(&b, r), BILZHAAN_BLANK_REFUSED);
    /* each pair's price is above the one before; the price 0 of the blanks after them is no fall */
    for (int filled = 2; filled <= 10; filled++)
        for (int pair = 1; pair < filled; pair++)
            for (int32_t lowest = -4000; lowest <= 4000; lowest += 4000) {
                r = offer_for(BILZHAAN_CALL_VARIATION, 0, 0, 100, 0);
                for (int i = 0; i < filled; i++)
                    set_pair(&r, i, lowest + 500 * i, 5);
                EQUAL(number_of(&b, r), 0);
                set_pair(&r, pair, lowest + 500 * (pair - 1) + 1, 7);
                EQUAL(number_of(&b, r), 0);
                set_pair(&r, pair, lowest + 500 * (pair - 1), 7);
                EQUAL(number_of(&b, r), BILZHAAN_PRICES_DONT_RISE);
                set_pair(&r, pair, lowest - 500, 7);
                EQUAL(number_of(&b, r), BILZHAAN_PRICES_DONT_RISE);
            }
    EQUAL(number_of(&b, offer_for(BILZHAAN_CALL_STANDING, 0, 0, 101, 0)), 0); /* an all-blank standing offer is an offer */
    struct bilzhaan_answer a = call(&b, look_up_of(0, 0, 101));
    EQUAL(a.number, 0);
    EQUAL(a.words[0], BILZHAAN_FRESH_STANDING_IN_FORCE);
    EQUAL(a.sum, 0);
    EQUAL(call(&b, total_of(0, 101)).words[0], 1);
}

static void ramps_proportions_and_totals(void)
{
    struct book b = usual_book(0);
    static const int32_t ramps[][3] = {{0, 0, 0}, {50, 40, 0}, {51, 40, 14}, {50, 41, 14}, {-1, 0, 14}, {0, -1, 14},
                                       {INT32_MAX, 0, 14}, {0, INT32_MIN, 14}, {40, 50, 14}};
    for (size_t i = 0; i < sizeof ramps / sizeof ramps[0]; i++) {
        struct record r = energy(BILZHAAN_CALL_VARIATION, 100);
        set_ramps(&r, ramps[i][0], ramps[i][1]);
        EQUAL(number_of(&b, r), ramps[i][2]);
    }
    for (int s = 1; s <= 3; s++) {
        int highest = usual_generation[8 + s];
        EQUAL(number_of(&b, reserve(BILZHAAN_CALL_VARIATION, 0, s, 100, 0)), BILZHAAN_PROPORTION_REFUSED);
        EQUAL(number_of(&b, reserve(BILZHAAN_CALL_VARIATION, 0, s, 100, 1)), 0);
        EQUAL(number_of(&b, reserve(BILZHAAN_CALL_VARIATION, 0, s, 100, highest)), 0);
        EQUAL(number_of(&b, reserve(BILZHAAN_CALL_VARIATION, 0, s, 100, highest + 1)), BILZHAAN_PROPORTION_REFUSED);
        EQUAL(number_of(&b, reserve(BILZHAAN_CALL_VARIATION, 0, s, 100, 65535)), BILZHAAN_PROPORTION_REFUSED);
        EQUAL(number_of(&b, reserve(BILZHAAN_CALL_VARIATION, 1, s, 100, 0)), 0); /* "load isn't tested" */
        EQUAL(number_of(&b, reserve(BILZHAAN_CALL_VARIATION, 1, s, 100, 65535)), 0);
        EQUAL(call(&b, look_up_of(1, s, 100)).words[1], 65535);
    }
    for (int s = 0; s < 5; s++) {
        int32_t highest = s == 0 ? 800 : usual_generation[2 + s];
        for (int32_t total = highest - 1; total <= highest + 1; total++) {
            struct record r = offer_for(BILZHAAN_CALL_VARIATION, 0, s, 100, 0);
            set_pair(&r, 0, 10, total - 30);
            set_pair(&r, 1, 11, 30);
            if (s >= 1 && s <= 3)
                set_proportion(&r, 1);
            EQUAL(number_of(&b, r), total <= highest ? 0 : BILZHAAN_ABOVE_CAPACITY);
        }
    }
    EQUAL(with_w(&b, 0, usual_generation, BILZHAAN_W_MAX_GENERATION, 699), 0);
    EQUAL(number_of(&b, energy(BILZHAAN_CALL_VARIATION, 100)), BILZHAAN_ABOVE_CAPACITY);
    EQUAL(with_w(&b, 0, usual_generation, BILZHAAN_W_MAX_GENERATION, 700), 0);
    EQUAL(number_of(&b, energy(BILZHAAN_CALL_VARIATION, 100)), 0);
}

/* 18 for standing offers alone, at the proportion, each ramp and each word of the pairs; 19 where nothing is in force. */
static void duplicates_and_nothing(void)
{
    struct book b = usual_book(0);
    EQUAL(number_of(&b, look_up_of(0, 0, 100)), BILZHAAN_NOTHING_IN_FORCE);
    struct record r = offer_for(BILZHAAN_CALL_STANDING, 0, 0, 100, 0);
    for (int pair = 0; pair < 10; pair++)
        set_pair(&r, pair, 100 * pair, 10);
    EQUAL(number_of(&b, r), 0);
    EQUAL(number_of(&b, r), BILZHAAN_DUPLICATE);
    for (int i = 0; i < 22; i++) {
        struct record other = r;
        if (i < 2)
            set_word(&other, BILZHAAN_AT_RAMP_UP + 4 * i, 1);
        else
            set_w(&other, i - 2, i % 2 == 0 ? 100 * ((i - 2) / 2) + 1 : 11);
        EQUAL(number_of(&b, other), 0);
        EQUAL(number_of(&b, other), BILZHAAN_DUPLICATE);
        EQUAL(number_of(&b, r), 0);
    }
    struct record with_proportion = reserve(BILZHAAN_CALL_STANDING, 0, 1, 100, 256);
    EQUAL(number_of(&b, with_proportion), 0);
    EQUAL(number_of(&b, with_proportion), BILZHAAN_DUPLICATE);
    EQUAL(number_of(&b, reserve(BILZHAAN_CALL_STANDING, 0, 1, 100, 257)), 0);
    EQUAL(number_of(&b, with_proportion), 0);
    /* a variation may repeat itself or the standing offer */
    r.bytes[BILZHAAN_AT_CALL] = BILZHAAN_CALL_VARIATION;
    EQUAL(number_of(&b, r), 0);
    EQUAL(number_of(&b, r), 0);
    EQUAL(number_of(&b, look_up_of(1, 1, 100)), BILZHAAN_NOTHING_IN_FORCE);
    EQUAL(number_of(&b, look_up_of(0, 0, 101)), BILZHAAN_NOTHING_IN_FORCE);
    EQUAL(number_of(&b, look_up_of(0, 2, 100)), BILZHAAN_NOTHING_IN_FORCE);
}

/* An offer with every fault; each is mended in turn, and the next number shows. */
static void order(void)
{
    struct book b = book_for(1, 5);
    struct record r = record_of(BILZHAAN_CALL_VARIATION);
    for (int i = 6; i < BILZHAAN_RECORD_BYTES; i++)
        r.bytes[i] = 0xFF;
    r.bytes[0] = 'T';
    b.words[0]++;
    EQUAL(number_of(&b, r), BILZHAAN_BOOK_UNUSABLE);
    b.words[0]--;
    EQUAL(number_of(&b, r), BILZHAAN_NOT_A_RECORD);
    r.bytes[0] = 'S';
    EQUAL(number_of(&b, r), BILZHAAN_NOT_IN_BOOK);
    r.bytes[BILZHAAN_AT_FACILITY] = 0;
    EQUAL(number_of(&b, r), BILZHAAN_NOT_IN_BOOK);
    r.bytes[BILZHAAN_AT_SERVICE] = 0;
    EQUAL(number_of(&b, r), BILZHAAN_UNUSED_BYTE);
    r.bytes[13] = r.bytes[14] = r.bytes[15] = 0;
    set_word(&r, BILZHAAN_AT_A, 0);
    EQUAL(number_of(&b, r), BILZHAAN_UNUSED_BYTE);
    set_word(&r, BILZHAAN_AT_B, 0);
    EQUAL(number_of(&b, r), BILZHAAN_NO_KIND);
    int32_t w[17] = {1, 30, 20, 30, 0, 0, 0, 0, 0, 7, 0, 0, 0, 0, 0, 0, 0};
    EQUAL(number_of(&b, capability_of(0, w)), 0);
    EQUAL(number_of(&b, r), BILZHAAN_NOT_REGISTERED);
    w[12] = w[13] = 1;
    EQUAL(number_of(&b, capability_of(0, w)), 0);
    EQUAL(number_of(&b, r), BILZHAAN_PERIOD_REFUSED);
    set_word(&r, BILZHAAN_AT_PERIOD, 1);
    EQUAL(number_of(&b, r), BILZHAAN_OUT_OF_RANGE);
    r.bytes[BILZHAAN_AT_REASON] = 0;
    EQUAL(number_of(&b, r), BILZHAAN_OUT_OF_RANGE);
    for (int pair = 0; pair < 10; pair++)
        set_pair(&r, pair, 5, pair == 3 ? 0 : 20);
    EQUAL(number_of(&b, r), BILZHAAN_BLANK_REFUSED);
    set_pair(&r, 3, 0, 0);
    EQUAL(number_of(&b, r), BILZHAAN_BLANK_REFUSED);
    set_pair(&r, 3, 5, 20);
    EQUAL(number_of(&b, r), BILZHAAN_PRICES_DONT_RISE);
    for (int pair = 3; pair < 10; pair++)
        set_pair(&r, pair, 0, 0);
    set_pair(&r, 0, 3, 11);
    set_pair(&r, 1, 4, 10);
    EQUAL(number_of(&b, r), BILZHAAN_RAMP_REFUSED);
    set_ramps(&r, 0, 0);
    EQUAL(number_of(&b, r), BILZHAAN_ABOVE_CAPACITY);
    set_pair(&r, 2, 0, 0);
    EQUAL(number_of(&b, r), BILZHAAN_ABOVE_CAPACITY);
    set_pair(&r, 0, 3, 10);
    EQUAL(number_of(&b, r), BILZHAAN_GATE_CLOSED);
    r.bytes[BILZHAAN_AT_REASON] = BILZHAAN_REASON_SYNCHRONISATION;
    EQUAL(number_of(&b, r), 0);

    /* 15 before 16 before 17 before 18: a held standing offer of primary reserve whose next period is 1 */
    struct record held = reserve(BILZHAAN_CALL_STANDING, 0, 1, 1, 7);
    set_pair(&held, 0, 100, 10);
    set_pair(&held, 1, 200, 20);
    EQUAL(number_of(&b, held), 0);
    struct record same = held;
    set_proportion(&same, 8);
    set_pair(&same, 2, 300, 1);
    EQUAL(number_of(&b, same), BILZHAAN_PROPORTION_REFUSED);
    set_proportion(&same, 7);
    EQUAL(number_of(&b, same), BILZHAAN_ABOVE_CAPACITY);
    set_pair(&same, 2, 0, 0);
    EQUAL(number_of(&b, same), BILZHAAN_GATE_CLOSED);
    EQUAL(number_of(&b, clock_at(30)), 0);
    EQUAL(number_of(&b, same), BILZHAAN_DUPLICATE);
}

void test_refusals(void)
{
    kind_missing();
    clock();
    operators_calls();
    capabilities();
    registration();
    periods();
    ranges();
    blanks_and_prices();
    ramps_proportions_and_totals();
    duplicates_and_nothing();
    order();
}
