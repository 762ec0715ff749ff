/* Gate closure (17): minutes, reasons, windows and prices tenth by tenth; and which offer is in force. */
#include "library_test.h"

/* An offer of one or two energy pairs of the usual generation. */
static struct record energy(int which, int32_t period, int reason, int32_t price1, int32_t q1, int32_t price2, int32_t q2)
{
    struct record r = offer_for(which, 0, BILZHAAN_ENERGY, period, reason);
    set_pair(&r, 0, price1, q1);
    if (q2 != 0)
        set_pair(&r, 1, price2, q2);
    return r;
}

static struct record varied(int32_t period, int reason, int32_t q1, int32_t q2)
{
    return energy(BILZHAAN_CALL_VARIATION, period, reason, 4000, q1, 5000, q2);
}

static struct record stood(int32_t slot, int32_t q1, int32_t q2)
{
    return energy(BILZHAAN_CALL_STANDING, slot, 0, 4000, q1, 5000, q2);
}

static void minutes(void)
{
    struct book b = usual_book(55);
    EQUAL(number_of(&b, varied(4, 0, 500, 200)), 0); /* 65 left, open */
    EQUAL(number_of(&b, clock_at(56)), 0);
    EQUAL(number_of(&b, varied(4, 0, 500, 200)), BILZHAAN_GATE_CLOSED);
    EQUAL(number_of(&b, varied(4, 1, 500, 200)), 0);
    EQUAL(number_of(&b, varied(5, 0, 500, 200)), 0);
    EQUAL(number_of(&b, clock_at(119)), 0);
    EQUAL(number_of(&b, varied(4, 1, 500, 100)), 0);
    EQUAL(number_of(&b, clock_at(120)), 0);
    EQUAL(number_of(&b, varied(4, 1, 500, 200)), BILZHAAN_PERIOD_REFUSED);
}

/* "A standing offer over a held one (stamp 1) is refused inside 65 minutes of the slot's next period not yet begun ..
 * A first one always passes the gate." Here without reasons. */
static void standing_offers(void)
{
    struct book b = usual_book(0);
    EQUAL(number_of(&b, stood(2, 500, 200)), 0); /* 60 minutes left, but a first one */
    EQUAL(number_of(&b, stood(2, 500, 100)), BILZHAAN_GATE_CLOSED);
    EQUAL(number_of(&b, stood(2, 500, 200)), BILZHAAN_GATE_CLOSED);
    EQUAL(number_of(&b, stood(0, 500, 200)), 0);
    EQUAL(number_of(&b, stood(0, 500, 100)), 0); /* slot 0's next period is 336 */
    EQUAL(number_of(&b, clock_at(59)), 0);
    EQUAL(number_of(&b, stood(2, 500, 100)), BILZHAAN_GATE_CLOSED);
    EQUAL(number_of(&b, clock_at(60)), 0); /* begun: the next is 338 */
    EQUAL(number_of(&b, stood(2, 500, 100)), 0);
    EQUAL(number_of(&b, clock_at(30 * 338 - 65)), 0);
    EQUAL(number_of(&b, stood(2, 500, 200)), 0);
    EQUAL(number_of(&b, clock_at(30 * 338 - 64)), 0);
    EQUAL(number_of(&b, stood(2, 500, 100)), BILZHAAN_GATE_CLOSED);
    /* a slot with a variation alone counts as first; a held one is gated though a variation hides it */
    EQUAL(number_of(&b, varied(337, 1, 500, 0)), 0);
    EQUAL(number_of(&b, stood(1, 500, 100)), 0);
    EQUAL(number_of(&b, stood(1, 500, 0)), BILZHAAN_GATE_CLOSED);
    EQUAL(call(&b, look_up_of(0, 0, 337)).words[0], BILZHAAN_FRESH_VARIATION_IN_FORCE);
}

/* Each reason inside gate closure, with what it asks: generation facility 0, energy, period 4 at minute 56. */
static void reasons(void)
{
    struct book b = usual_book(56);
    for (int reason = 0; reason <= 6; reason++) {
        open_usual(&b, 56);
        EQUAL(number_of(&b, stood(4, 500, 200)), 0);
        EQUAL(number_of(&b, varied(4, reason, 500, 100)), reason == 1 ? 0 : BILZHAAN_GATE_CLOSED);
        open_usual(&b, 56);
        EQUAL(number_of(&b, stood(4, 500, 200)), 0);
        EQUAL(number_of(&b, outage_of(0, 56, 3)), 0); /* periods 2 to 4 */
        EQUAL(number_of(&b, varied(4, reason, 500, 100)), reason == 1 || reason == 2 ? 0 : BILZHAAN_GATE_CLOSED);
        for (int kind = 3; kind <= 5; kind++)
            for (int rise = -1; rise <= 1; rise++) {
                open_usual(&b, 56);
                EQUAL(number_of(&b, stood(4, 500, 200)), 0);
                EQUAL(number_of(&b, notice_of(kind, 4, 4)), 0);
                bool passes = reason == 1 || (reason == kind && (kind == 3 ? rise < 0 : rise > 0));
                EQUAL(number_of(&b, varied(4, reason, 500, 200 + rise)), passes ? 0 : BILZHAAN_GATE_CLOSED);
            }
    }
}

static void reasons_of_a_load(void)
{
    struct book b = usual_book(56);
    for (int reason = 0; reason <= 6; reason++)
        for (int outage = 0; outage <= 1; outage++) {
            open_usual(&b, 56);
            if (outage)
                EQUAL(number_of(&b, outage_of(1, 29, 4)), 0); /* periods 1 to 4 */
            struct record r = offer_for(BILZHAAN_CALL_VARIATION, 1, BILZHAAN_PRIMARY_RESERVE, 4, reason);
            set_pair(&r, 0, 100, 10);
            EQUAL(number_of(&b, r), reason == 6 && outage ? 0 : BILZHAAN_GATE_CLOSED);
        }
    /* an energy surplus is for service 0; a shortfall for any */
    for (int reason = 3; reason <= 4; reason++) {
        open_usual(&b, 30 * 10 - 65);
        struct record r = offer_for(BILZHAAN_CALL_VARIATION, 0, BILZHAAN_REGULATION, 10, 0);
        set_pair(&r, 0, 100, 10);
        EQUAL(number_of(&b, r), 0);
        EQUAL(number_of(&b, clock_at(30 * 10 - 64)), 0);
        EQUAL(number_of(&b, notice_of(3, 0, 40)), 0);
        EQUAL(number_of(&b, notice_of(4, 0, 40)), 0);
        r.bytes[BILZHAAN_AT_REASON] = (uint8_t)reason;
        set_pair(&r, 0, 100, reason == 3 ? 9 : 11);
        EQUAL(number_of(&b, r), reason == 3 ? BILZHAAN_GATE_CLOSED : 0);
    }
}

static void windows(void)
{
    struct book b = usual_book(299);
    for (int32_t period = 10; period <= 12; period++) {
        open_usual(&b, 299);
        EQUAL(number_of(&b, notice_of(5, 11, 11)), 0);
        EQUAL(number_of(&b, varied(period, 5, 1, 1)), period == 11 ? 0 : BILZHAAN_GATE_CLOSED);
        open_usual(&b, 299);
        EQUAL(number_of(&b, outage_of(0, 299, 2)), 0); /* 10 and 11: not the period of the trip, 9 */
        EQUAL(number_of(&b, varied(period, 2, 1, 1)), period <= 11 ? 0 : BILZHAAN_GATE_CLOSED);
    }
    /* a newer notice replaces its kind's; a withdrawal empties kind 5 alone */
    open_usual(&b, 299);
    for (int kind = 3; kind <= 5; kind++)
        EQUAL(number_of(&b, notice_of(kind, 10, 11)), 0);
    EQUAL(number_of(&b, withdrawal_of(5)), 0);
    EQUAL(number_of(&b, varied(10, 5, 1, 1)), BILZHAAN_GATE_CLOSED);
    EQUAL(number_of(&b, varied(10, 4, 1, 1)), 0);
    EQUAL(number_of(&b, varied(10, 3, 1, 0)), 0);
    EQUAL(number_of(&b, notice_of(4, 12, 12)), 0);
    EQUAL(number_of(&b, varied(10, 4, 1, 1)), BILZHAAN_GATE_CLOSED);
    EQUAL(number_of(&b, notice_of(5, 10, 10)), 0);
    EQUAL(number_of(&b, varied(10, 5, 1, 1)), 0);
}

/* "for every n from 1 to the smaller total, the n-th tenth of a MW .. has the same price in old and new" */
static void tenth_by_tenth(void)
{
    static const struct {
        int32_t pairs[3][2]; /* price, quantity */
        uint32_t number;
    } tries[] = {
        {{{4000, 500}, {5000, 200}}, 0},
        {{{4000, 500}, {5000, 300}}, 0},
        {{{4000, 450}, {5000, 300}}, 17}, /* "the 451st tenth differs" */
        {{{4000, 501}, {5000, 199}}, 17},
        {{{4000, 500}, {5000, 199}, {6000, 1}}, 17},
        {{{4000, 500}, {5000, 200}, {6000, 1}}, 0},
        {{{4000, 499}}, 0},
        {{{4000, 501}}, 17},
        {{{4001, 1}}, 17},
        {{{0, 0}}, 0},
        {{{3999, 1}, {4000, 499}, {5000, 200}}, 17},
    };
    struct book b = usual_book(55);
    for (size_t i = 0; i < sizeof tries / sizeof tries[0]; i++) {
        open_usual(&b, 56);
        EQUAL(number_of(&b, stood(4, 500, 200)), 0);
        struct record r = offer_for(BILZHAAN_CALL_VARIATION, 0, 0, 4, BILZHAAN_REASON_SYNCHRONISATION);
        for (int k = 0; k < 3; k++)
            set_pair(&r, k, tries[i].pairs[k][0], tries[i].pairs[k][1]);
        EQUAL(number_of(&b, r), tries[i].number);
    }
    /* old is the offer in force: here the variation before, of one tenth */
    open_usual(&b, 56);
    EQUAL(number_of(&b, stood(4, 500, 200)), 0);
    EQUAL(number_of(&b, varied(4, 1, 500, 100)), 0);
    EQUAL(number_of(&b, varied(4, 1, 1, 0)), 0);
    EQUAL(number_of(&b, energy(BILZHAAN_CALL_VARIATION, 4, 1, 4000, 1, 8000, 1)), 0);
    EQUAL(number_of(&b, varied(4, 1, 500, 200)), BILZHAAN_GATE_CLOSED);
}

/* A variation is for its period whole: the slot a week later has the standing offer again. */
static void in_force(void)
{
    struct book b = usual_book(0);
    EQUAL(number_of(&b, stood(4, 500, 200)), 0);
    EQUAL(number_of(&b, varied(4, 0, 300, 0)), 0);
    struct bilzhaan_answer a = call(&b, look_up_of(0, 0, 4));
    EQUAL(a.words[0], BILZHAAN_FRESH_VARIATION_IN_FORCE);
    EQUAL(a.words[4], 4000);
    EQUAL(a.words[5], 300);
    EQUAL(a.sum, 300);
    EQUAL(number_of(&b, look_up_of(0, 0, 340)), BILZHAAN_PERIOD_REFUSED);
    EQUAL(number_of(&b, clock_at(1440)), 0);
    a = call(&b, look_up_of(0, 0, 340));
    EQUAL(a.words[0], BILZHAAN_STANDING_IN_FORCE);
    EQUAL(a.words[7], 200);
    EQUAL(a.sum, 700);
    EQUAL(number_of(&b, varied(340, 0, 10, 0)), 0);
    EQUAL(call(&b, look_up_of(0, 0, 340)).sum, 10);
    EQUAL(b.words[cell_at(&b, 0, 0, 1, 4)], 341);
    EQUAL(b.words[cell_at(&b, 0, 0, 0, 4)], 1);
    /* a total counts facilities with an offer in force */
    for (int f = 0; f < 2; f++) {
        struct record r = offer_for(BILZHAAN_CALL_STANDING, f, BILZHAAN_CONTINGENCY_RESERVE, 100, 0);
        set_proportion(&r, 1);
        set_pair(&r, 0, 100, 40 + f);
        EQUAL(number_of(&b, r), 0);
        a = call(&b, total_of(BILZHAAN_CONTINGENCY_RESERVE, 100));
        EQUAL(a.words[0], f + 1);
        EQUAL(a.sum, f == 0 ? 40 : 81);
        for (int i = 1; i < 24; i++)
            EQUAL(a.words[i], 0);
    }
    EQUAL(call(&b, total_of(BILZHAAN_ENERGY, 100)).words[0], 0);
}

void test_gate(void)
{
    minutes();
    standing_offers();
    reasons();
    reasons_of_a_load();
    windows();
    tenth_by_tenth();
    in_force();
}
