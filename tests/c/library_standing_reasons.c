/* Reasons of standing offers: "Inside the gate, P is the slot's next period not yet begun; old is the held standing offer, new
 * the one filed. The reasons and the tenth-by-tenth price condition are those of a variation." */
#include "library_test.h"

#include <limits.h>
#include <stdlib.h>
#include <string.h>

enum { STANDING = BILZHAAN_CALL_STANDING, VARIATION = BILZHAAN_CALL_VARIATION, BLOCK = 64 };

/* Two energy pairs, at 40.00 and 50.00. */
static struct record energy(int which, int32_t period, int reason, int32_t q1, int32_t q2)
{
    struct record r = offered(which, BILZHAAN_ENERGY, period, reason, q1);
    if (q2 != 0)
        set_pair(&r, 1, 5000, q2);
    return r;
}

static struct record stood(int reason, int32_t quantity) { return offered(STANDING, BILZHAAN_ENERGY, 100, reason, quantity); }

/* Inside the gate of period 100 over `held` tenths. */
static void shut_over(struct book *b, int32_t held)
{
    open_usual(b, 0);
    EQUAL(number_of(b, stood(0, held)), 0);
    shut_gate(b);
}

static void minutes(void)
{
    struct book b = usual_book(55);
    EQUAL(number_of(&b, energy(STANDING, 4, 0, 500, 200)), 0);
    EQUAL(number_of(&b, energy(STANDING, 4, 0, 500, 100)), 0); /* 65 left, open */
    EQUAL(number_of(&b, clock_at(56)), 0);
    EQUAL(number_of(&b, outage_of(0, 56, 3)), 0); /* periods 2 to 4 */
    EQUAL(number_of(&b, energy(STANDING, 4, 0, 400, 0)), BILZHAAN_GATE_CLOSED);
    EQUAL(number_of(&b, energy(STANDING, 4, 7, 400, 0)), BILZHAAN_OUT_OF_RANGE);
    EQUAL(number_of(&b, energy(STANDING, 4, 2, 450, 300)), BILZHAAN_GATE_CLOSED); /* "the 451st tenth differs" */
    EQUAL(number_of(&b, energy(STANDING, 4, 2, 400, 0)), 0);
    LOOK_UP_GIVES(&b, 0, 0, 4, 0, BILZHAAN_FRESH_STANDING_IN_FORCE, 400);
    EQUAL(number_of(&b, clock_at(119)), 0);
    EQUAL(number_of(&b, energy(STANDING, 4, 0, 300, 0)), BILZHAAN_GATE_CLOSED);
    EQUAL(number_of(&b, energy(STANDING, 4, 2, 300, 0)), 0);
    EQUAL(number_of(&b, clock_at(120)), 0); /* begun: the next is 340 */
    EQUAL(number_of(&b, energy(STANDING, 4, 0, 200, 0)), 0);
    EQUAL(number_of(&b, energy(STANDING, 4, 7, 300, 0)), BILZHAAN_OUT_OF_RANGE);
}

/* "A first one always passes the gate." An open one's reason isn't tested beyond 11. */
static void reasons_not_asked_for(void)
{
    struct book b = usual_book(2990);
    for (int reason = 0; reason <= 255; reason++) {
        uint32_t number = reason <= 6 ? 0 : BILZHAAN_OUT_OF_RANGE;
        open_usual(&b, 2990);
        EQUAL(number_of(&b, stood(reason, 50)), number);
        EQUAL(number_of(&b, offered(STANDING, BILZHAAN_ENERGY, 200, 0, 50)), 0);
        struct record r = offered(STANDING, BILZHAAN_ENERGY, 200, reason, 60);
        set_pair(&r, 0, 1, 60);
        EQUAL(number_of(&b, r), number);
    }
}

static void reasons_by_kind(void)
{
    static const int32_t *const kinds[] = {usual_generation, usual_load, usual_link};
    struct book b = book_for(1, 5);
    for (int32_t kind = 1; kind <= 3; kind++)
        for (int s = kind == 2 ? 1 : 0; s <= (kind == 3 ? 0 : kind == 2 ? 3 : 4); s++)
            for (int reason = 0; reason <= 6; reason++)
                for (int32_t quantity = 0; quantity <= 60; quantity += quantity == 0 ? 40 : 10) {
                    EQUAL(bilzhaan_open(b.words, b.count, 1, 5, usual_limits), 0);
                    EQUAL(number_of(&b, capability_of(0, kinds[kind - 1])), 0);
                    EQUAL(number_of(&b, offered(STANDING, s, 100, 0, 50)), 0);
                    for (int notice = 3; notice <= 5; notice++)
                        EQUAL(number_of(&b, notice_of(notice, 100, 100)), 0);
                    EQUAL(number_of(&b, clock_at(2980)), 0);
                    EQUAL(number_of(&b, outage_of(0, 2980, 1)), kind == 3 ? BILZHAAN_NOTICE_REFUSED : 0);
                    bool passes = (kind == 1 && (reason == 1 || reason == 2)) || (kind == 2 && reason == 6)
                        || (reason == 3 && s == 0 && quantity < 50) || ((reason == 4 || reason == 5) && quantity > 50);
                    EQUAL(number_of(&b, offered(STANDING, s, 100, reason, quantity)),
                          !passes ? BILZHAAN_GATE_CLOSED : quantity == 50 ? BILZHAAN_DUPLICATE : 0);
                    EQUAL(call(&b, look_up_of(0, s, 100)).sum, passes ? quantity : 50);
                }
}

/* The slot's one next period is asked about, whatever other weeks' windows are. */
static void windows(void)
{
    static const int32_t aside[] = {-336, -1, 0, 1, 336};
    struct book b = usual_book(0);
    for (int32_t next = 436; next <= 772; next += 336)
        for (int i = 0; i < 5; i++) {
            open_usual(&b, 0);
            EQUAL(number_of(&b, stood(0, 50)), 0);
            EQUAL(number_of(&b, clock_at(30 * next - 64)), 0);
            EQUAL(number_of(&b, notice_of(4, next + aside[i], next + aside[i])), 0);
            EQUAL(number_of(&b, stood(4, 60)), aside[i] == 0 ? 0 : BILZHAAN_GATE_CLOSED);
            EQUAL(number_of(&b, stood(2, 40)), BILZHAAN_GATE_CLOSED);
            EQUAL(number_of(&b, outage_of(0, 30 * next - 64, 3)), 0); /* it ends with that period */
            EQUAL(number_of(&b, stood(2, 40)), 0);
        }
    /* slots 0 and 1 late on a Sunday look to 336 and 337; slot 335 to this week's last period */
    static const int32_t slots[] = {335, 0, 1};
    for (int32_t first = 0; first <= 336; first += 336)
        for (int i = 0; i < 3; i++) {
            open_usual(&b, 0);
            EQUAL(number_of(&b, offered(STANDING, 0, slots[i], 0, 50)), 0);
            EQUAL(number_of(&b, clock_at(10049)), 0);
            EQUAL(number_of(&b, notice_of(5, first, first + 1)), 0);
            bool passes = first == 336 && slots[i] != 335;
            EQUAL(number_of(&b, offered(STANDING, 0, slots[i], 5, 60)), passes ? 0 : BILZHAAN_GATE_CLOSED);
            EQUAL(number_of(&b, outage_of(0, 10049, 1)), 0); /* 335 */
            EQUAL(number_of(&b, offered(STANDING, 0, slots[i], 2, 40)), slots[i] == 335 ? 0 : BILZHAAN_GATE_CLOSED);
        }
}

/* Where no variation hides the held offer, a filing that isn't blank is judged as a variation for the next period is. */
static void as_a_variation(void)
{
    static const int32_t offers[][2] = {{50, 0}, {50, 20}, {50, 21}, {49, 20}, {49, 0}, {51, 0}, {1, 0}, {20, 50}};
    enum { OFFERS = sizeof offers / sizeof offers[0] };
    struct book b = usual_book(0);
    int32_t *before = malloc(b.count * sizeof before[0]);
    CHECK(before != NULL);
    for (int held = 0; before && held < OFFERS; held++)
        for (int filed = 0; filed < OFFERS; filed++)
            for (int given = 0; given < 16; given++) { /* an outage and each notice, there or not */
                open_usual(&b, 0);
                EQUAL(number_of(&b, energy(STANDING, 100, 0, offers[held][0], offers[held][1])), 0);
                EQUAL(number_of(&b, clock_at(2950)), 0);
                if (given & 1)
                    EQUAL(number_of(&b, outage_of(0, 2950, 2)), 0);
                for (int kind = 3; kind <= 5; kind++)
                    if (given & 1 << (kind - 2))
                        EQUAL(number_of(&b, notice_of(kind, 100, 100)), 0);
                memcpy(before, b.words, b.count * sizeof before[0]);
                for (int reason = 0; reason <= 7; reason++) {
                    struct record r = energy(VARIATION, 100, reason, offers[filed][0], offers[filed][1]);
                    uint32_t number = bilzhaan_call(b.words, b.count, r.bytes, sizeof r.bytes).number;
                    memcpy(b.words, before, b.count * sizeof before[0]);
                    r.bytes[BILZHAAN_AT_CALL] = STANDING;
                    EQUAL(bilzhaan_call(b.words, b.count, r.bytes, sizeof r.bytes).number,
                          number == 0 && held == filed ? BILZHAAN_DUPLICATE : number);
                    memcpy(b.words, before, b.count * sizeof before[0]);
                }
            }
    free(before);
}

/* Old is the held standing offer though a variation hides it, and the variation stays in force. */
static void behind_a_variation(void)
{
    struct book b = usual_book(0);
    open_usual(&b, 0);
    EQUAL(number_of(&b, stood(0, 50)), 0);
    struct record r = offered(VARIATION, BILZHAAN_ENERGY, 100, 0, 60);
    set_pair(&r, 0, 9000, 60);
    EQUAL(number_of(&b, r), 0);
    for (int kind = 3; kind <= 4; kind++)
        EQUAL(number_of(&b, notice_of(kind, 100, 100)), 0);
    EQUAL(number_of(&b, clock_at(2950)), 0);
    EQUAL(number_of(&b, stood(3, 55)), BILZHAAN_GATE_CLOSED); /* less than the variation, more than the held one */
    r.bytes[BILZHAAN_AT_CALL] = STANDING;
    r.bytes[BILZHAAN_AT_REASON] = BILZHAAN_REASON_SYNCHRONISATION;
    EQUAL(number_of(&b, r), BILZHAAN_GATE_CLOSED); /* the variation's price */
    EQUAL(number_of(&b, stood(4, 55)), 0);
    LOOK_UP_GIVES(&b, 0, 0, 100, 0, BILZHAAN_VARIATION_IN_FORCE, 60);
    EQUAL(b.words[cell_at(&b, 0, 0, 0, 100) + 5], 55);
    EQUAL(number_of(&b, clock_at(4320)), 0);
    LOOK_UP_GIVES(&b, 0, 0, 436, 0, BILZHAAN_STANDING_IN_FORCE, 55);
}

/* A blank standing offer has total 0 and means 0.0 MW; a variation is taken back to it with the reason. */
static void blanks(void)
{
    struct book b = usual_book(0);
    for (int reason = 0; reason <= 6; reason++) {
        shut_over(&b, 50);
        bool passes = reason >= 1 && reason <= 3;
        EQUAL(number_of(&b, stood(reason, 0)), passes ? 0 : BILZHAAN_GATE_CLOSED);
        LOOK_UP_GIVES(&b, 0, 0, 100, 0, passes ? BILZHAAN_FRESH_STANDING_IN_FORCE : BILZHAAN_STANDING_IN_FORCE, passes ? 0 : 50);
        EQUAL(call(&b, total_of(0, 100)).words[0], 1);
        /* over blanks no price is left to keep */
        if (passes) {
            struct record r = stood(reason, 1);
            set_pair(&r, 0, 9000, 700);
            EQUAL(number_of(&b, r), reason == 3 ? BILZHAAN_GATE_CLOSED : 0);
        }
    }
    shut_over(&b, 50);
    EQUAL(number_of(&b, offered(VARIATION, 0, 100, 1, 30)), 0);
    EQUAL(number_of(&b, stood(2, 0)), 0);
    LOOK_UP_GIVES(&b, 0, 0, 100, 0, BILZHAAN_FRESH_VARIATION_IN_FORCE, 30);
    EQUAL(number_of(&b, offered(VARIATION, 0, 100, 2, 0)), 0);
    LOOK_UP_GIVES(&b, 0, 0, 100, 0, BILZHAAN_FRESH_STANDING_IN_FORCE, 0);
    EQUAL(number_of(&b, clock_at(4320)), 0);
    LOOK_UP_GIVES(&b, 0, 0, 436, 0, BILZHAAN_STANDING_IN_FORCE, 0);
}

/* 17 comes before 18, which ignores the reason; the reason isn't kept. */
static void duplicates(void)
{
    struct book b = usual_book(0);
    for (int reason = 0; reason <= 6; reason++) {
        shut_over(&b, 50);
        EQUAL(number_of(&b, stood(reason, 50)), reason == 1 || reason == 2 ? BILZHAAN_DUPLICATE : BILZHAAN_GATE_CLOSED);
        open_usual(&b, 0);
        EQUAL(number_of(&b, stood(6, 50)), 0);
        EQUAL(number_of(&b, stood(reason, 50)), BILZHAAN_DUPLICATE);
    }
    shut_over(&b, 50);
    EQUAL(number_of(&b, stood(1, 60)), 0);
    int32_t cell[24];
    memcpy(cell, b.words + cell_at(&b, 0, 0, 0, 100), sizeof cell);
    shut_over(&b, 50);
    EQUAL(number_of(&b, stood(4, 60)), 0);
    CHECK(memcmp(cell, b.words + cell_at(&b, 0, 0, 0, 100), sizeof cell) == 0);
}

/* ---- damaged books ---- */

static void damaged(void)
{
    struct book b = usual_book(0);
    shut_over(&b, 50);
    /* a held quantity below 0 counts as 0 */
    put_quantities(&b, 0, 60, INT32_MIN);
    EQUAL(number_of(&b, stood(3, 60)), BILZHAAN_GATE_CLOSED);
    EQUAL(number_of(&b, stood(4, 60)), BILZHAAN_GATE_CLOSED);
    EQUAL(number_of(&b, stood(4, 61)), 0);
    put_quantities(&b, 0, -1, -1);
    EQUAL(number_of(&b, stood(3, 0)), BILZHAAN_GATE_CLOSED);
    EQUAL(number_of(&b, stood(4, 1)), 0);
    /* a held total past 32 bits */
    put_quantities(&b, 0, INT32_MAX, INT32_MAX);
    EQUAL(number_of(&b, stood(4, 800)), BILZHAAN_GATE_CLOSED);
    EQUAL(number_of(&b, stood(3, 800)), 0);
    /* "(stamp 1)": with another stamp none is held */
    static const int32_t stamps[] = {0, 2, 101, -1, INT32_MIN, 257};
    for (int i = 0; i < 6; i++) {
        shut_over(&b, 50);
        b.words[cell_at(&b, 0, 0, 0, 100)] = stamps[i];
        EQUAL(number_of(&b, stood(7, 70)), BILZHAAN_OUT_OF_RANGE);
        EQUAL(number_of(&b, stood(6, 70)), 0);
        EQUAL(number_of(&b, stood(6, 71)), BILZHAAN_GATE_CLOSED);
    }
    /* a link's outage window, which no call leaves, opens nothing to it */
    for (int reason = 0; reason <= 6; reason++) {
        shut_over(&b, 50);
        b.words[BLOCK] = BILZHAAN_LINK;
        EQUAL(number_of(&b, stood(reason, 60)), reason == 4 || reason == 5 ? 0 : BILZHAAN_GATE_CLOSED);
    }
}

void test_standing_reasons(void)
{
    minutes();
    reasons_not_asked_for();
    reasons_by_kind();
    windows();
    as_a_variation();
    behind_a_variation();
    blanks();
    duplicates();
    damaged();
}
