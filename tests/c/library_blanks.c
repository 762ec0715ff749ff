/* Blank pairs: "Refusal 12 also applies where a blank pair stands before a non-blank one." "A held offer, which may be older, is
 * still walked to its last pair." Such offers are written into the words here, as the host may leave them. */
#include "library_test.h"

#include <string.h>

enum { STANDING = BILZHAAN_CALL_STANDING, VARIATION = BILZHAAN_CALL_VARIATION, AT_LIMITS = 11, PERIOD = 100 };

static int pairs_of(int s) { return s == BILZHAAN_ENERGY ? BILZHAAN_PAIRS_ENERGY : BILZHAAN_PAIRS_OTHER; }

/* Ten pairs, price and quantity in turn. */
struct pairs {
    int32_t words[20];
};

static struct pairs blanks(void)
{
    struct pairs p;
    memset(&p, 0, sizeof p);
    return p;
}

static struct pairs with(struct pairs p, int place, int32_t price, int32_t quantity)
{
    p.words[2 * place] = price;
    p.words[2 * place + 1] = quantity;
    return p;
}

/* Ten tenths a pair at 1.00, 2.00 and so on, but for a blank place; -1 is none. */
static struct pairs tens(int count, int blank)
{
    struct pairs p = blanks();
    for (int i = 0; i < count; i++)
        if (i != blank)
            p = with(p, i, 100 * (i + 1), 10);
    return p;
}

/* The filled ones first, in their order. */
static struct pairs closed_up(struct pairs p)
{
    struct pairs up = blanks();
    int filled = 0;
    for (int i = 0; i < 10; i++)
        if (p.words[2 * i + 1] != 0)
            up = with(up, filled++, p.words[2 * i], p.words[2 * i + 1]);
    return up;
}

/* Facility 0's offer, with the least proportion that passes. */
static struct record filed(int which, int s, int reason, struct pairs p)
{
    struct record r = offered(which, s, PERIOD, reason, 0);
    for (int i = 0; i < 20; i++)
        set_w(&r, i, p.words[i]);
    return r;
}

/* ---- what is filed, the gate open ---- */

/* Every set of filled places: those that come first, and no others, pass. */
static void each_set_of_places(struct book *b, int f, int s)
{
    for (int set = 0; set < 1 << pairs_of(s); set++) {
        struct pairs p = blanks();
        int64_t sum = 0;
        for (int i = 0; i < pairs_of(s); i++)
            if (set >> i & 1) {
                p = with(p, i, 100 * i, 1 + i);
                sum += 1 + i;
            }
        bool come_first = (set & (set + 1)) == 0;
        for (int which = STANDING; which <= VARIATION; which++) {
            struct record r = filed(which, s, 0, p);
            r.bytes[BILZHAAN_AT_FACILITY] = (uint8_t)f;
            EQUAL(number_of(b, r), come_first ? 0 : BILZHAAN_BLANK_REFUSED);
        }
        if (come_first)
            LOOK_UP_GIVES(b, f, s, PERIOD, 0,
                          set == 0 ? BILZHAAN_FRESH_STANDING_IN_FORCE : BILZHAAN_FRESH_VARIATION_IN_FORCE, sum);
    }
}

static void places(void)
{
    struct book b = book_for(1, 1);
    EQUAL(number_of(&b, capability_of(0, usual_generation)), 0);
    each_set_of_places(&b, 0, BILZHAAN_ENERGY);
    EQUAL(bilzhaan_open(b.words, b.count, 1, 1, usual_limits), 0);
    EQUAL(number_of(&b, capability_of(0, usual_link)), 0);
    each_set_of_places(&b, 0, BILZHAAN_ENERGY);
    b = usual_book(0);
    for (int s = BILZHAAN_PRIMARY_RESERVE; s <= BILZHAAN_REGULATION; s++)
        each_set_of_places(&b, 0, s);
    for (int s = BILZHAAN_PRIMARY_RESERVE; s <= BILZHAAN_CONTINGENCY_RESERVE; s++)
        each_set_of_places(&b, 1, s);
}

/* 11 anywhere comes before a blank before a filled pair, this before 13 and all above it. */
static void beside_other_numbers(struct book *b, int s, int blank)
{
    int last = pairs_of(s) - 1;
    struct pairs p = tens(last + 1, blank);
    EQUAL(number_of(b, filed(VARIATION, s, 0, p)), BILZHAAN_BLANK_REFUSED);
    EQUAL(number_of(b, filed(VARIATION, s, 7, p)), BILZHAAN_OUT_OF_RANGE);
    for (int i = 0; i <= last; i++) {
        int32_t low = s == 0 ? usual_limits[0] : 0, high = usual_limits[1 + s];
        EQUAL(number_of(b, filed(VARIATION, s, 0, with(p, i, high + 1, i == blank ? 0 : 1))), BILZHAAN_OUT_OF_RANGE);
        EQUAL(number_of(b, filed(VARIATION, s, 0, with(p, i, low - 1, i == blank ? 0 : 1))), BILZHAAN_OUT_OF_RANGE);
        EQUAL(number_of(b, filed(VARIATION, s, 0, with(p, i, 100, -1))), BILZHAAN_OUT_OF_RANGE);
        EQUAL(number_of(b, filed(VARIATION, s, 0, with(p, i, 100, 100000))), BILZHAAN_OUT_OF_RANGE);
        EQUAL(number_of(b, filed(VARIATION, s, 0, with(p, i, high, i == blank ? 0 : 99999))), BILZHAAN_BLANK_REFUSED);
        if (i != blank)
            for (int32_t price = 0; price <= 1000; price += 500) /* below, among and above the others */
                EQUAL(number_of(b, filed(VARIATION, s, 0, with(p, i, price, 10))), BILZHAAN_BLANK_REFUSED);
    }
    struct record r = filed(VARIATION, s, 0, p);
    if (s == BILZHAAN_ENERGY)
        set_ramps(&r, 51, 0);
    else if (s <= BILZHAAN_CONTINGENCY_RESERVE)
        set_proportion(&r, 0);
    EQUAL(number_of(b, r), BILZHAAN_BLANK_REFUSED);
}

/* Blanks last: one with a price draws 12 in every place, and a fall before them 13. */
static void after_filled_pairs(struct book *b, int s, int filled)
{
    struct pairs p = tens(filled, -1);
    EQUAL(number_of(b, filed(VARIATION, s, 0, p)), 0);
    for (int i = filled; i < pairs_of(s); i++) {
        EQUAL(number_of(b, filed(VARIATION, s, 0, with(p, i, 1, 0))), BILZHAAN_BLANK_REFUSED);
        EQUAL(number_of(b, filed(VARIATION, s, 0, with(p, i, usual_limits[1 + s], 0))), BILZHAAN_BLANK_REFUSED);
        EQUAL(number_of(b, filed(VARIATION, s, 0, with(p, i, usual_limits[1 + s] + 1, 0))), BILZHAAN_OUT_OF_RANGE);
    }
    for (int i = 1; i < filled; i++)
        EQUAL(number_of(b, filed(VARIATION, s, 0, with(p, i, 100 * i, 10))), BILZHAAN_PRICES_DONT_RISE);
}

/* The last filled pair counts in the total, however many there are. */
static void totals(struct book *b, int s, int filled)
{
    int32_t most = s == BILZHAAN_ENERGY ? usual_generation[2] : usual_generation[2 + s], rest = most - 10 * (filled - 1);
    struct pairs p = tens(filled, -1);
    EQUAL(number_of(b, filed(VARIATION, s, 0, with(p, filled - 1, 9000, rest))), 0);
    LOOK_UP_GIVES(b, 0, s, PERIOD, 0, BILZHAAN_FRESH_VARIATION_IN_FORCE, most);
    EQUAL(number_of(b, filed(VARIATION, s, 0, with(p, filled - 1, 9000, rest + 1))), BILZHAAN_ABOVE_CAPACITY);
}

static void each_service(void)
{
    struct book b = usual_book(0);
    for (int s = 0; s < 5; s++) {
        for (int blank = 0; blank < pairs_of(s) - 1; blank++)
            beside_other_numbers(&b, s, blank);
        for (int filled = 0; filled <= pairs_of(s); filled++)
            after_filled_pairs(&b, s, filled);
        for (int filled = 1; filled <= pairs_of(s); filled++)
            totals(&b, s, filled);
    }
    /* "50.00, blank, 40.00" */
    struct pairs p = with(with(blanks(), 0, 5000, 10), 2, 4000, 10);
    EQUAL(number_of(&b, filed(STANDING, 0, 0, p)), BILZHAAN_BLANK_REFUSED);
    EQUAL(number_of(&b, filed(STANDING, 0, 0, closed_up(p))), BILZHAAN_PRICES_DONT_RISE);
}

/* Limits that exclude the price 0 make an empty pair draw 11, wherever it stands; without one the offer passes. */
static void damaged_limits(void)
{
    static const int32_t limits[][2] = {{1, 1000}, {-1000, -1}};
    struct book b = usual_book(0);
    for (int i = 0; i < 2; i++) {
        b.words[AT_LIMITS] = limits[i][0];
        b.words[AT_LIMITS + 1] = limits[i][1];
        struct pairs p = blanks();
        EQUAL(number_of(&b, filed(VARIATION, 0, 0, p)), BILZHAAN_OUT_OF_RANGE);
        for (int filled = 1; filled <= 10; filled++) {
            p = with(p, filled - 1, limits[i][0] + filled - 1, 10);
            EQUAL(number_of(&b, filed(VARIATION, 0, 0, p)), filled == 10 ? 0 : BILZHAAN_OUT_OF_RANGE);
        }
        EQUAL(number_of(&b, filed(VARIATION, 0, 0, with(p, 4, 0, 0))), BILZHAAN_OUT_OF_RANGE);
        EQUAL(number_of(&b, filed(VARIATION, 0, 0, with(p, 4, limits[i][0], 0))), BILZHAAN_BLANK_REFUSED);
    }
    b.words[AT_LIMITS] = b.words[AT_LIMITS + 1] = 0;
    EQUAL(number_of(&b, filed(VARIATION, 0, 0, with(blanks(), 0, 0, 10))), 0);
    EQUAL(number_of(&b, filed(VARIATION, 0, 0, with(blanks(), 1, 0, 10))), BILZHAAN_BLANK_REFUSED);
    for (int s = 1; s < 5; s++) {
        b.words[AT_LIMITS + 1 + s] = -1;
        EQUAL(number_of(&b, filed(VARIATION, s, 0, blanks())), BILZHAAN_OUT_OF_RANGE);
        EQUAL(number_of(&b, filed(VARIATION, s, 0, tens(5, 2))), BILZHAAN_OUT_OF_RANGE);
    }
}

/* ---- what is held ---- */

static int32_t *cell_of(struct book *b, int s, int h) { return b->words + cell_at(b, 0, s, h, PERIOD); }

static void host_empties(struct book *b, int s, int h) { memset(cell_of(b, s, h), 0, 24 * sizeof b->words[0]); }

static void host_holds(struct book *b, int s, int h, struct pairs p)
{
    int32_t *cell = cell_of(b, s, h);
    host_empties(b, s, h);
    cell[0] = h == 0 ? 1 : PERIOD + 1;
    cell[1] = s >= 1 && s <= 3 ? 1 : 0;
    memcpy(cell + 4, p.words, sizeof p.words);
}

static struct book shut_book(void)
{
    struct book b = usual_book(0);
    shut_gate(&b);
    return b;
}

/* A look-up answers each pair where it is held, and a total adds them all. */
static void looked_up(struct book *b, int s, int h, struct pairs held)
{
    int64_t sum = 0;
    for (int i = 0; i < 10; i++)
        sum += held.words[2 * i + 1];
    host_empties(b, s, 1 - h);
    host_holds(b, s, h, held);
    struct bilzhaan_answer a
        = LOOK_UP_GIVES(b, 0, s, PERIOD, 0, h ? BILZHAAN_VARIATION_IN_FORCE : BILZHAAN_STANDING_IN_FORCE, sum);
    CHECK(memcmp(a.words + BILZHAAN_ANSWER_PAIRS, held.words, sizeof held.words) == 0);
    EQUAL(call(b, total_of(s, PERIOD)).sum, sum);
}

/* The number of an offer filed over the one held in cell h. */
static uint32_t over(struct book *b, int h, struct pairs held, int which, int s, int reason, struct pairs p)
{
    host_empties(b, s, 1 - h);
    host_holds(b, s, h, held);
    return number_of(b, filed(which, s, reason, p));
}

/* Old is walked whole: its tenths after the blank keep their prices, and count in its total. */
static void as_old(struct book *b, int which, int h, int s, struct pairs held)
{
    struct pairs same = closed_up(held);
    int last = 9;
    while (same.words[2 * last + 1] == 0)
        last--;
    int32_t price = same.words[2 * last], quantity = same.words[2 * last + 1];
    struct pairs less = with(same, last, price, quantity - 1), more = with(same, last, price, quantity + 1);
    EQUAL(over(b, h, held, which, s, 1, same), 0); /* and no duplicate */
    EQUAL(over(b, h, held, which, s, 1, more), 0);
    EQUAL(over(b, h, held, which, s, 1, with(same, last, price + 1, 1)), BILZHAAN_GATE_CLOSED);
    for (int i = 0; i <= last; i++) {
        int32_t dearer = same.words[2 * i] + 1;
        EQUAL(over(b, h, held, which, s, 2, with(same, i, dearer, same.words[2 * i + 1])), BILZHAAN_GATE_CLOSED);
    }
    EQUAL(over(b, h, held, which, s, 3, less), s == 0 ? 0 : BILZHAAN_GATE_CLOSED);
    EQUAL(over(b, h, held, which, s, 3, same), BILZHAAN_GATE_CLOSED);
    for (int reason = 4; reason <= 5; reason++) {
        EQUAL(over(b, h, held, which, s, reason, less), BILZHAAN_GATE_CLOSED);
        EQUAL(over(b, h, held, which, s, reason, same), BILZHAAN_GATE_CLOSED);
        EQUAL(over(b, h, held, which, s, reason, more), 0);
    }
}

/* The number of a take-back of one held offer to another. */
static uint32_t back(struct book *b, int s, struct pairs varied, struct pairs held, int reason)
{
    host_holds(b, s, 0, held);
    host_holds(b, s, 1, varied);
    return number_of(b, filed(VARIATION, s, reason, blanks()));
}

/* Old and new are walked whole where a variation is taken back: the one has a blank before filled pairs, or the other. */
static void taken_back_between(struct book *b, int s, struct pairs varied, struct pairs held, int last)
{
    int32_t price = held.words[2 * last];
    struct pairs less = with(held, last, price, 9), more = with(held, last, price, 11);
    EQUAL(back(b, s, varied, held, 1), 0);
    LOOK_UP_GIVES(b, 0, s, PERIOD, 0, BILZHAAN_STANDING_IN_FORCE, 10 * (pairs_of(s) - 1));
    EQUAL(back(b, s, varied, with(held, last, price + 1, 1), 1), BILZHAAN_GATE_CLOSED);
    for (int reason = 3; reason <= 5; reason++)
        EQUAL(back(b, s, varied, held, reason), BILZHAAN_GATE_CLOSED);
    EQUAL(back(b, s, varied, less, 3), s == 0 ? 0 : BILZHAAN_GATE_CLOSED);
    EQUAL(back(b, s, varied, less, 4), BILZHAAN_GATE_CLOSED);
    EQUAL(back(b, s, varied, more, 3), BILZHAAN_GATE_CLOSED);
    EQUAL(back(b, s, varied, more, 4), 0);
    EQUAL(back(b, s, varied, more, 5), 0);
}

static void walked_whole(void)
{
    struct book b = shut_book();
    for (int s = 0; s < 5; s++)
        for (int blank = 0; blank < pairs_of(s) - 1; blank++) {
            struct pairs held = tens(pairs_of(s), blank);
            int last = pairs_of(s) - 1;
            for (int h = 0; h <= 1; h++) {
                looked_up(&b, s, h, held);
                as_old(&b, VARIATION, h, s, held);
            }
            as_old(&b, STANDING, 0, s, held);
            taken_back_between(&b, s, closed_up(held), held, last);
            taken_back_between(&b, s, held, closed_up(held), last - 1);
            taken_back_between(&b, s, held, held, last);
        }
}

/* Blanks with a price, quantities below 0 and pairs that the service doesn't use, which only damage leaves, stop no walk either. */
static void damaged(void)
{
    struct book b = shut_book();
    for (int s = 0; s < 5; s++) {
        struct pairs apart = with(with(blanks(), 0, 100, 10), 9, 200, 10);
        looked_up(&b, s, 0, apart);
        as_old(&b, STANDING, 0, s, apart);
        as_old(&b, VARIATION, 1, s, apart);
        as_old(&b, STANDING, 0, s, with(blanks(), 9, 100, 20));
        EQUAL(back(&b, s, apart, with(apart, 9, 201, 10), 1), BILZHAAN_GATE_CLOSED);
        EQUAL(back(&b, s, apart, with(apart, 9, 200, 11), 4), 0);
        for (int i = 1; i < 9; i++) {
            struct pairs held = with(apart, i, 700, i % 2 ? 0 : -5);
            looked_up(&b, s, 0, held);
            EQUAL(over(&b, 0, held, STANDING, s, 4, with(closed_up(apart), 1, 200, 11)), 0);
            EQUAL(over(&b, 0, held, STANDING, s, 4, closed_up(apart)), BILZHAAN_GATE_CLOSED);
            EQUAL(over(&b, 0, held, STANDING, s, 1, with(closed_up(apart), 1, 199, 1)), BILZHAAN_GATE_CLOSED);
            EQUAL(back(&b, s, closed_up(apart), held, 1), 0);
            EQUAL(back(&b, s, with(closed_up(apart), 1, 199, 1), held, 1), BILZHAAN_GATE_CLOSED);
        }
    }
}

/* 18: no offer that passes 12 is equal to a held one with a blank before a filled pair. */
static void never_equal(void)
{
    struct book b = usual_book(0);
    for (int s = 0; s < 5; s++)
        for (int blank = 0; blank < pairs_of(s) - 1; blank++) {
            struct pairs held = tens(pairs_of(s), blank);
            host_holds(&b, s, 0, held);
            EQUAL(number_of(&b, filed(STANDING, s, 0, held)), BILZHAAN_BLANK_REFUSED);
            EQUAL(number_of(&b, filed(STANDING, s, 0, closed_up(held))), 0);
            CHECK(memcmp(cell_of(&b, s, 0) + 4, closed_up(held).words, sizeof held.words) == 0);
            EQUAL(number_of(&b, filed(STANDING, s, 0, closed_up(held))), BILZHAAN_DUPLICATE);
            EQUAL(number_of(&b, filed(STANDING, s, 0, held)), BILZHAAN_BLANK_REFUSED);
            host_holds(&b, s, 0, held); /* the pairs before the blank aren't all of it */
            EQUAL(number_of(&b, filed(STANDING, s, 0, tens(blank, -1))), 0);
        }
}

void test_blanks(void)
{
    places();
    each_service();
    damaged_limits();
    walked_whole();
    damaged();
    never_equal();
}
