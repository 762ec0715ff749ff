/* Variations taken back: "An accepted variation whose pairs are all blank now means: no variation. Its cell becomes 24
 * zeros. The gate compares old with the offer that will stand afterwards." */
#include "library_test.h"

static struct record energy(int which, int32_t period, int reason, int32_t price, int32_t quantity)
{
    struct record r = offer_for(which, 0, BILZHAAN_ENERGY, period, reason);
    set_pair(&r, 0, price, quantity);
    return r;
}

static struct record varied(int32_t price, int32_t quantity) { return energy(BILZHAAN_CALL_VARIATION, 100, 0, price, quantity); }
static struct record stood(int32_t price, int32_t quantity) { return energy(BILZHAAN_CALL_STANDING, 100, 0, price, quantity); }
static struct record taken_back(int reason) { return energy(BILZHAAN_CALL_VARIATION, 100, reason, 0, 0); }

static bool is_emptied(const struct book *b, int f, int s, int slot)
{
    for (int i = 0; i < 24; i++)
        if (b->words[cell_at(b, f, s, 1, slot) + (size_t)i] != 0)
            return false;
    return true;
}

/* ---- the gate open ---- */

static void each_service(void)
{
    struct book b = usual_book(0);
    for (int f = 0; f < 2; f++)
        for (int s = f == 0 ? 0 : 1; s <= (f == 0 ? 4 : 3); s++)
            for (int held = 0; held <= 1; held++) {
                struct record r = offer_for(BILZHAAN_CALL_STANDING, f, s, 100, 0);
                if (s >= 1 && s <= 3)
                    set_proportion(&r, 7);
                set_pair(&r, 0, 10, 50);
                if (held)
                    EQUAL(number_of(&b, r), 0);
                r.bytes[BILZHAAN_AT_CALL] = BILZHAAN_CALL_VARIATION;
                set_pair(&r, 0, 11, 60);
                EQUAL(number_of(&b, r), 0);
                LOOK_UP_GIVES(&b, f, s, 100, 0, BILZHAAN_FRESH_VARIATION_IN_FORCE, 60);
                set_pair(&r, 0, 0, 0);
                for (int again = 0; again <= 1; again++) { /* the second time there is nothing to take back */
                    EQUAL(number_of(&b, r), 0);
                    CHECK(is_emptied(&b, f, s, 100));
                    if (held)
                        LOOK_UP_GIVES(&b, f, s, 100, 0, BILZHAAN_FRESH_STANDING_IN_FORCE, 50);
                    else
                        LOOK_UP_GIVES(&b, f, s, 100, BILZHAAN_NOTHING_IN_FORCE, 0, 0);
                }
            }
    EQUAL(call(&b, total_of(BILZHAAN_ENERGY, 100)).words[0], 1);
    EQUAL(call(&b, total_of(BILZHAAN_PRIMARY_RESERVE, 100)).sum, 100);
}

/* A tenth of a MW is a variation, and nothing of it stays; after blanks it is refused, and takes nothing back. */
static void least_of_all(void)
{
    struct book b = usual_book(0);
    for (int pair = 0; pair < 10; pair++) {
        struct record r = taken_back(0);
        EQUAL(number_of(&b, varied(5, 1)), 0);
        set_pair(&r, pair, 5, 2);
        EQUAL(number_of(&b, r), pair == 0 ? 0 : BILZHAAN_BLANK_REFUSED);
        LOOK_UP_GIVES(&b, 0, 0, 100, 0, BILZHAAN_FRESH_VARIATION_IN_FORCE, pair == 0 ? 2 : 1);
        EQUAL(number_of(&b, taken_back(0)), 0);
        CHECK(is_emptied(&b, 0, 0, 100));
    }
}

/* The cell may hold the slot's variation of another week, and an earlier one of the period doesn't come back. */
static void whatever_the_cell_held(void)
{
    struct book b = usual_book(0);
    EQUAL(number_of(&b, energy(BILZHAAN_CALL_VARIATION, 4, 0, 4000, 7)), 0);
    EQUAL(number_of(&b, clock_at(1440)), 0);
    EQUAL(b.words[cell_at(&b, 0, 0, 1, 4)], 5);
    EQUAL(number_of(&b, energy(BILZHAAN_CALL_VARIATION, 340, 0, 0, 0)), 0);
    CHECK(is_emptied(&b, 0, 0, 4));
    EQUAL(number_of(&b, varied(4000, 7)), 0);
    EQUAL(number_of(&b, varied(4000, 8)), 0);
    EQUAL(number_of(&b, taken_back(0)), 0);
    LOOK_UP_GIVES(&b, 0, 0, 100, BILZHAAN_NOTHING_IN_FORCE, 0, 0);
    EQUAL(number_of(&b, varied(4000, 9)), 0);
    LOOK_UP_GIVES(&b, 0, 0, 100, 0, BILZHAAN_FRESH_VARIATION_IN_FORCE, 9);
    /* "A blank standing offer still means zero MW." */
    EQUAL(number_of(&b, stood(0, 0)), 0);
    EQUAL(number_of(&b, taken_back(0)), 0);
    LOOK_UP_GIVES(&b, 0, 0, 100, 0, BILZHAAN_FRESH_STANDING_IN_FORCE, 0);
    EQUAL(call(&b, total_of(0, 100)).words[0], 1);
    EQUAL(number_of(&b, stood(0, 0)), BILZHAAN_DUPLICATE);
}

static void refused(void)
{
    struct book b = usual_book(100);
    EQUAL(number_of(&b, varied(4000, 60)), 0);
    EQUAL(number_of(&b, energy(BILZHAAN_CALL_VARIATION, 3, 0, 0, 0)), BILZHAAN_PERIOD_REFUSED);
    EQUAL(number_of(&b, energy(BILZHAAN_CALL_VARIATION, 336, 0, 0, 0)), BILZHAAN_PERIOD_REFUSED);
    EQUAL(number_of(&b, taken_back(7)), BILZHAAN_OUT_OF_RANGE);
    EQUAL(number_of(&b, varied(1, 0)), BILZHAAN_BLANK_REFUSED);
    struct record r = taken_back(0);
    set_ramps(&r, 51, 0);
    EQUAL(number_of(&b, r), BILZHAAN_RAMP_REFUSED);
    set_ramps(&r, 0, -1);
    EQUAL(number_of(&b, r), BILZHAAN_RAMP_REFUSED);
    for (int s = 1; s <= 3; s++) {
        r = offer_for(BILZHAAN_CALL_VARIATION, 0, s, 100, 0);
        EQUAL(number_of(&b, r), BILZHAAN_PROPORTION_REFUSED);
        set_proportion(&r, usual_generation[8 + s] + 1);
        EQUAL(number_of(&b, r), BILZHAAN_PROPORTION_REFUSED);
        EQUAL(number_of(&b, offer_for(BILZHAAN_CALL_VARIATION, 1, s, 100, 0)), 0); /* a load's isn't tested */
    }
    int32_t w[BILZHAAN_CAPABILITY_WORDS];
    for (int i = 0; i < BILZHAAN_CAPABILITY_WORDS; i++)
        w[i] = i == BILZHAAN_W_REGISTERED ? 0 : usual_generation[i];
    EQUAL(number_of(&b, capability_of(0, w)), 0);
    EQUAL(number_of(&b, taken_back(0)), BILZHAAN_NOT_REGISTERED);
    LOOK_UP_GIVES(&b, 0, 0, 100, 0, BILZHAAN_FRESH_VARIATION_IN_FORCE, 60);
}

/* ---- inside the gate ---- */

/* 60 tenths varied over `held` standing (below 0: none), inside the gate. */
static void shut_over(struct book *b, int32_t held)
{
    open_usual(b, 0);
    if (held >= 0)
        EQUAL(number_of(b, stood(held == 0 ? 0 : 4000, held)), 0);
    EQUAL(number_of(b, varied(4000, 60)), 0);
    shut_gate(b);
}

static void reasons(void)
{
    static const int32_t standing[] = {-1, 0, 59, 60, 61};
    struct book b = usual_book(0);
    for (int i = 0; i < 5; i++)
        for (int reason = 0; reason <= 6; reason++) {
            shut_over(&b, standing[i]);
            int32_t after = standing[i] < 0 ? 0 : standing[i];
            bool passes = reason == 1 || reason == 2 || (reason == 3 && after < 60) || ((reason == 4 || reason == 5) && after > 60);
            EQUAL(number_of(&b, taken_back(reason)), passes ? 0 : BILZHAAN_GATE_CLOSED);
            CHECK(is_emptied(&b, 0, 0, 100) == passes);
            if (!passes)
                LOOK_UP_GIVES(&b, 0, 0, 100, 0, BILZHAAN_VARIATION_IN_FORCE, 60);
            else if (standing[i] < 0)
                LOOK_UP_GIVES(&b, 0, 0, 100, BILZHAAN_NOTHING_IN_FORCE, 0, 0);
            else
                LOOK_UP_GIVES(&b, 0, 0, 100, 0, BILZHAAN_STANDING_IN_FORCE, standing[i]);
            /* nothing is left to take back: 1 and 2 pass again, no other does */
            if (passes)
                EQUAL(number_of(&b, taken_back(reason)), reason <= 2 ? 0 : BILZHAAN_GATE_CLOSED);
        }
}

static void prices(void)
{
    struct book b = usual_book(0);
    shut_over(&b, 500);
    EQUAL(number_of(&b, energy(BILZHAAN_CALL_VARIATION, 100, 1, 3999, 1)), BILZHAAN_GATE_CLOSED);
    EQUAL(number_of(&b, taken_back(1)), 0);
    /* old is the standing offer now */
    EQUAL(number_of(&b, energy(BILZHAAN_CALL_VARIATION, 100, 1, 3999, 1)), BILZHAAN_GATE_CLOSED);
    struct record r = energy(BILZHAAN_CALL_VARIATION, 100, 1, 4000, 1);
    EQUAL(number_of(&b, r), 0);
    set_pair(&r, 1, 9000, 600);
    EQUAL(number_of(&b, r), 0);
    EQUAL(number_of(&b, taken_back(1)), BILZHAAN_GATE_CLOSED); /* the second tenth: 90.00 varied, 40.00 standing */
    /* with no standing offer a take-back leaves no price to keep */
    shut_over(&b, -1);
    EQUAL(number_of(&b, energy(BILZHAAN_CALL_VARIATION, 100, 1, 9000, 1)), BILZHAAN_GATE_CLOSED);
    EQUAL(number_of(&b, taken_back(1)), 0);
    EQUAL(number_of(&b, energy(BILZHAAN_CALL_VARIATION, 100, 1, 9000, 1)), 0);
}

/* ---- damaged books ---- */

static void damaged(void)
{
    struct book b = usual_book(0);
    shut_over(&b, 70);
    /* quantities below 0 count as 0 in old and in new */
    put_quantities(&b, 0, 61, -50);
    put_quantities(&b, 1, 60, INT32_MIN);
    EQUAL(number_of(&b, taken_back(3)), BILZHAAN_GATE_CLOSED);
    EQUAL(number_of(&b, taken_back(4)), 0);
    LOOK_UP_GIVES(&b, 0, 0, 100, 0, BILZHAAN_STANDING_IN_FORCE, 61 - 450);
    put_quantities(&b, 0, -1, INT32_MIN);
    put_quantities(&b, 1, 1, 0);
    EQUAL(number_of(&b, taken_back(4)), BILZHAAN_GATE_CLOSED);
    EQUAL(number_of(&b, taken_back(3)), 0);
    /* two totals past 32 bits, one tenth apart, and the last tenths at other prices */
    put_quantities(&b, 0, INT32_MAX, INT32_MAX);
    put_quantities(&b, 1, INT32_MAX, INT32_MAX);
    b.words[cell_at(&b, 0, 0, 1, 100) + 23]--;
    EQUAL(number_of(&b, taken_back(3)), BILZHAAN_GATE_CLOSED);
    b.words[cell_at(&b, 0, 0, 1, 100) + 22] = 5001;
    EQUAL(number_of(&b, taken_back(4)), BILZHAAN_GATE_CLOSED);
    b.words[cell_at(&b, 0, 0, 1, 100) + 22] = 5000;
    EQUAL(number_of(&b, taken_back(4)), 0);
    LOOK_UP_GIVES(&b, 0, 0, 100, 0, BILZHAAN_STANDING_IN_FORCE, INT64_C(10) * INT32_MAX);
    /* a stamped cell of blanks, which no call leaves, is in force until it is taken back */
    put_quantities(&b, 1, 0, 0);
    LOOK_UP_GIVES(&b, 0, 0, 100, 0, BILZHAAN_VARIATION_IN_FORCE, 0);
    EQUAL(call(&b, total_of(0, 100)).words[0], 1);
    EQUAL(number_of(&b, taken_back(0)), BILZHAAN_GATE_CLOSED);
    EQUAL(number_of(&b, taken_back(5)), 0);
    CHECK(is_emptied(&b, 0, 0, 100));
    /* a standing cell with another stamp holds nothing to go back to */
    put_quantities(&b, 1, 60, 0);
    b.words[cell_at(&b, 0, 0, 0, 100)] = 101;
    EQUAL(number_of(&b, taken_back(4)), BILZHAAN_GATE_CLOSED);
    EQUAL(number_of(&b, taken_back(3)), 0);
    LOOK_UP_GIVES(&b, 0, 0, 100, BILZHAAN_NOTHING_IN_FORCE, 0, 0);
}

void test_taken_back(void)
{
    each_service();
    least_of_all();
    whatever_the_cell_held();
    refused();
    reasons();
    prices();
    damaged();
}
