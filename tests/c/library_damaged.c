/* Books whose words no list of calls could have left: refusal 1, and what the other calls answer from such words. */
#include "library_test.h"

#include <limits.h>

enum { AT_MARK = 0, AT_VERSION = 1, AT_F = 2, AT_S = 3, AT_CLOCK = 4, AT_NOTICE_5 = 9, AT_LIMITS = 11, AT_BLOCKS = 64 };

static struct record energy(int which, int32_t period, int reason, int32_t quantity)
{
    struct record r = offer_for(which, 0, BILZHAAN_ENERGY, period, reason);
    set_pair(&r, 0, 4000, quantity);
    return r;
}

/* A good record, a damaged one and none at all: 1 comes before 2. */
static void unusable(struct book *b)
{
    struct record r = clock_at(1000000000);
    EQUAL(number_of(b, r), BILZHAAN_BOOK_UNUSABLE);
    EQUAL(number_of(b, look_up_of(0, 0, 100)), BILZHAAN_BOOK_UNUSABLE);
    EQUAL(call_bytes(b, r.bytes, 0).number, BILZHAAN_BOOK_UNUSABLE);
    r.bytes[BILZHAAN_AT_CALL] = 0;
    EQUAL(number_of(b, r), BILZHAAN_BOOK_UNUSABLE);
}

static void head(void)
{
    static const int32_t wrong[][2] = {
        {AT_MARK, 0}, {AT_MARK, 0x534F43}, {AT_MARK, 0x424F53}, {AT_MARK, INT32_MIN}, {AT_VERSION, 0}, {AT_VERSION, 1},
        {AT_VERSION, 3}, {AT_VERSION, -1}, {AT_VERSION, 2 << 16},
        {AT_F, 0}, {AT_F, 3}, {AT_F, 65}, {AT_F, -2}, {AT_F, INT32_MIN}, {AT_F, INT32_MAX},
        {AT_S, 0}, {AT_S, 2}, {AT_S, 4}, {AT_S, 6}, {AT_S, -5}, {AT_S, INT32_MAX},
        {AT_CLOCK, -1}, {AT_CLOCK, 1000000001}, {AT_CLOCK, INT32_MIN}, {AT_CLOCK, INT32_MAX},
    };
    struct book b = usual_book(7);
    for (size_t i = 0; i < sizeof wrong / sizeof wrong[0]; i++) {
        int32_t held = b.words[wrong[i][0]];
        b.words[wrong[i][0]] = wrong[i][1];
        unusable(&b);
        b.words[wrong[i][0]] = held;
        EQUAL(number_of(&b, clock_at(7)), 0);
    }
    size_t whole = b.count;
    static const size_t fewer[] = {1, 2, 1000, 161408 - 65, 161408 - 64, 161408 - 63, 161408 - 1, 161408};
    for (size_t i = 0; i < sizeof fewer / sizeof fewer[0]; i++) {
        b.count = whole - fewer[i];
        unusable(&b);
    }
    b.count = whole;
    /* fewer facilities, or one service, need fewer words: such a head is usable */
    b.words[AT_F] = 1;
    EQUAL(number_of(&b, look_up_of(1, 0, 100)), BILZHAAN_NOT_IN_BOOK);
    EQUAL(number_of(&b, look_up_of(0, 4, 100)), BILZHAAN_NOTHING_IN_FORCE);
    b.words[AT_F] = 2;
    b.words[AT_S] = 1;
    EQUAL(number_of(&b, look_up_of(0, 1, 100)), BILZHAAN_NOT_IN_BOOK);
    b.words[AT_CLOCK] = 0;
    EQUAL(number_of(&b, clock_at(0)), 0);
}

static void kinds(void)
{
    static const int32_t none[] = {0, 4, 7, -1, INT32_MIN, INT32_MAX};
    struct book b = usual_book(0);
    EQUAL(number_of(&b, energy(BILZHAAN_CALL_STANDING, 100, 0, 70)), 0);
    for (size_t i = 0; i < sizeof none / sizeof none[0]; i++) {
        b.words[AT_BLOCKS] = none[i];
        EQUAL(number_of(&b, look_up_of(0, 0, 100)), BILZHAAN_NO_KIND);
        EQUAL(number_of(&b, outage_of(0, 0, 1)), BILZHAAN_NO_KIND);
        EQUAL(number_of(&b, energy(BILZHAAN_CALL_STANDING, 100, 0, 70)), BILZHAAN_NO_KIND);
        /* a total asks for no kind */
        EQUAL(call(&b, total_of(0, 100)).words[0], 1);
        EQUAL(call(&b, total_of(0, 100)).sum, 70);
        /* such a kind isn't held, so a capability of any kind is accepted */
        EQUAL(number_of(&b, capability_of(0, i % 2 ? usual_load : usual_generation)), 0);
        EQUAL(number_of(&b, look_up_of(0, 0, 100)), 0);
    }
    b.words[AT_BLOCKS] = BILZHAAN_GENERATION;
    static const int32_t marks[] = {0, 2, -1, 257};
    for (int i = 0; i < 4; i++) {
        b.words[AT_BLOCKS + 12] = marks[i];
        EQUAL(number_of(&b, energy(BILZHAAN_CALL_STANDING, 100, 0, 71)), BILZHAAN_NOT_REGISTERED);
    }
}

static void stamps(void)
{
    struct book b = usual_book(0);
    int32_t *standing = b.words + cell_at(&b, 0, 0, 0, 100), *variation = b.words + cell_at(&b, 0, 0, 1, 100);
    EQUAL(number_of(&b, energy(BILZHAAN_CALL_STANDING, 100, 0, 70)), 0);
    EQUAL(number_of(&b, energy(BILZHAAN_CALL_VARIATION, 100, 0, 80)), 0);
    static const int32_t others[] = {0, 1, 2, 100, 102, 437, -101, INT32_MIN, INT32_MAX};
    for (size_t i = 0; i < sizeof others / sizeof others[0]; i++) {
        variation[0] = others[i];
        EQUAL(call(&b, look_up_of(0, 0, 100)).sum, 70);
        EQUAL(call(&b, look_up_of(0, 0, 100)).words[0], BILZHAAN_FRESH_STANDING_IN_FORCE);
        EQUAL(call(&b, total_of(0, 100)).sum, 70);
    }
    for (size_t i = 0; i < sizeof others / sizeof others[0]; i++) {
        if (others[i] == 1)
            continue;
        standing[0] = others[i];
        EQUAL(number_of(&b, look_up_of(0, 0, 100)), BILZHAAN_NOTHING_IN_FORCE);
        EQUAL(call(&b, total_of(0, 100)).words[0], 0);
        /* not held, so neither 17 nor 18 */
        b.words[AT_CLOCK] = 30 * 100 - 1;
        EQUAL(number_of(&b, energy(BILZHAAN_CALL_STANDING, 100, 0, 70)), 0);
        EQUAL(number_of(&b, energy(BILZHAAN_CALL_STANDING, 100, 0, 70)), BILZHAAN_GATE_CLOSED);
        b.words[AT_CLOCK] = 0;
    }
}

/* "In the gate a quantity below 0, which only a damaged book holds, counts as 0"; sums add what is there. */
static void quantities(void)
{
    struct book b = usual_book(30 * 100 - 10);
    int32_t *cell = b.words + cell_at(&b, 0, 0, 0, 100);
    EQUAL(number_of(&b, energy(BILZHAAN_CALL_STANDING, 100, 0, 70)), 0);
    EQUAL(number_of(&b, notice_of(BILZHAAN_NOTICE_SHORTFALL, 100, 100)), 0);
    EQUAL(number_of(&b, notice_of(BILZHAAN_NOTICE_ENERGY_SURPLUS, 100, 100)), 0);
    cell[6] = 1;
    cell[7] = -50;
    EQUAL(call(&b, look_up_of(0, 0, 100)).sum, 20);
    EQUAL(number_of(&b, energy(BILZHAAN_CALL_VARIATION, 100, 4, 70)), BILZHAAN_GATE_CLOSED);
    EQUAL(number_of(&b, energy(BILZHAAN_CALL_VARIATION, 100, 3, 70)), BILZHAAN_GATE_CLOSED);
    EQUAL(number_of(&b, energy(BILZHAAN_CALL_VARIATION, 100, 4, 71)), 0);
    b.words[cell_at(&b, 0, 0, 1, 100)] = 0;
    EQUAL(number_of(&b, energy(BILZHAAN_CALL_VARIATION, 100, 3, 69)), 0);
    b.words[cell_at(&b, 0, 0, 1, 100)] = 0;
    for (int i = 0; i < 10; i++) {
        cell[4 + 2 * i] = 4000;
        cell[5 + 2 * i] = INT32_MAX;
    }
    EQUAL(call(&b, look_up_of(0, 0, 100)).sum, INT64_C(10) * INT32_MAX);
    EQUAL(call(&b, total_of(0, 100)).sum, INT64_C(10) * INT32_MAX);
    EQUAL(number_of(&b, energy(BILZHAAN_CALL_VARIATION, 100, 4, 800)), BILZHAAN_GATE_CLOSED);
    EQUAL(number_of(&b, energy(BILZHAAN_CALL_VARIATION, 100, 3, 800)), 0);
    b.words[cell_at(&b, 0, 0, 1, 100)] = 0;
    for (int i = 0; i < 10; i++)
        cell[5 + 2 * i] = INT32_MIN;
    EQUAL(call(&b, look_up_of(0, 0, 100)).sum, INT64_C(10) * INT32_MIN);
    EQUAL(number_of(&b, energy(BILZHAAN_CALL_VARIATION, 100, 4, 1)), 0); /* old counts as 0 */
    EQUAL(call(&b, total_of(0, 100)).sum, 1);
    /* pairs are taken in their order even where prices fall */
    b.words[cell_at(&b, 0, 0, 1, 100)] = 0;
    static const int32_t falling[][2] = {{4000, 5}, {3000, -9}, {3000, 5}, {9000, 0}};
    for (int i = 0; i < 10; i++) {
        cell[4 + 2 * i] = i < 4 ? falling[i][0] : 0;
        cell[5 + 2 * i] = i < 4 ? falling[i][1] : 0;
    }
    EQUAL(number_of(&b, energy(BILZHAAN_CALL_VARIATION, 100, 1, 6)), BILZHAAN_GATE_CLOSED);
    EQUAL(number_of(&b, energy(BILZHAAN_CALL_VARIATION, 100, 1, 5)), 0);
}

static void windows_and_limits(void)
{
    struct book b = usual_book(30 * 100 - 10);
    static const int32_t windows[][3] = {{INT32_MIN, INT32_MAX, 0}, {100, 100, 0}, {101, 100, 17}, {101, INT32_MAX, 17},
                                         {INT32_MIN, 99, 17}, {INT32_MAX, INT32_MIN, 17}, {-5, 100, 0}};
    for (size_t i = 0; i < sizeof windows / sizeof windows[0]; i++) {
        open_usual(&b, 30 * 100 - 10);
        b.words[AT_NOTICE_5] = windows[i][0];
        b.words[AT_NOTICE_5 + 1] = windows[i][1];
        EQUAL(number_of(&b, energy(BILZHAAN_CALL_VARIATION, 100, 5, 7)), windows[i][2]);
        open_usual(&b, 30 * 100 - 10);
        b.words[AT_BLOCKS + 17] = windows[i][0];
        b.words[AT_BLOCKS + 18] = windows[i][1];
        EQUAL(number_of(&b, energy(BILZHAAN_CALL_VARIATION, 100, 2, 7)), windows[i][2]);
    }
    /* limits that exclude 0 make every blank draw 11 */
    open_usual(&b, 0);
    b.words[AT_LIMITS] = 1;
    EQUAL(number_of(&b, energy(BILZHAAN_CALL_VARIATION, 100, 0, 7)), BILZHAAN_OUT_OF_RANGE);
    b.words[AT_LIMITS] = INT32_MIN;
    b.words[AT_LIMITS + 1] = INT32_MAX;
    struct record r = energy(BILZHAAN_CALL_VARIATION, 100, 0, 7);
    set_pair(&r, 0, INT32_MIN, 7);
    set_pair(&r, 1, INT32_MAX, 7);
    EQUAL(number_of(&b, r), 0);
    b.words[AT_LIMITS + 5] = -1;
    EQUAL(number_of(&b, offer_for(BILZHAAN_CALL_VARIATION, 0, 4, 100, 0)), BILZHAAN_OUT_OF_RANGE);
    /* maxima below 0 or past any total */
    open_usual(&b, 0);
    b.words[AT_BLOCKS + 7] = -1;
    EQUAL(number_of(&b, energy(BILZHAAN_CALL_VARIATION, 100, 0, 7)), BILZHAAN_RAMP_REFUSED);
    b.words[AT_BLOCKS + 7] = INT32_MAX;
    b.words[AT_BLOCKS + 1] = -1;
    EQUAL(number_of(&b, offer_for(BILZHAAN_CALL_VARIATION, 0, 0, 100, 0)), BILZHAAN_ABOVE_CAPACITY);
    b.words[AT_BLOCKS + 1] = b.words[AT_BLOCKS + 2] = INT32_MAX;
    r = offer_for(BILZHAAN_CALL_VARIATION, 0, 0, 100, 0);
    set_ramps(&r, 9999, 0);
    for (int pair = 0; pair < 10; pair++)
        set_pair(&r, pair, pair, 99999);
    EQUAL(number_of(&b, r), 0);
    EQUAL(call(&b, look_up_of(0, 0, 100)).sum, 999990);
    /* reserved words are never tested */
    for (int i = 17; i < 64; i++)
        b.words[i] = -i;
    for (int i = 19; i < 32; i++)
        b.words[AT_BLOCKS + i] = -i;
    EQUAL(call(&b, look_up_of(0, 0, 100)).sum, 999990);
}

void test_damaged(void)
{
    head();
    kinds();
    stamps();
    quantities();
    windows_and_limits();
}
