/* Offers too fresh for the schedule: "Each cell keeps the minute of its acceptance and stays 24 words: word 2 becomes ramp
 * up times 10,000 plus ramp down, word 3 the minute. Look-up words 2 and 3 are the ramps as before. Word 0 is 3 for standing
 * and 4 for variation while now minus that minute is below 5. Refusal 14 also covers a ramp above 9,999. On a damaged word 2
 * the ramps are quotient and remainder rounded toward zero. .. The duplicate test ignores the minute." */
#include "library_test.h"

#include <limits.h>

enum { STANDING = BILZHAAN_CALL_STANDING, VARIATION = BILZHAAN_CALL_VARIATION, AT_VERSION = 1, AT_CLOCK = 4, BLOCK = 64 };

/* Word 0 of a look-up of an offer so old. */
static int32_t first_word(int which, int64_t age)
{
    return (which == STANDING ? 1 : 2) + (age < 5 ? 2 : 0);
}

static void at_minute(struct book *b, int32_t minute)
{
    EQUAL(number_of(b, clock_at(minute)), 0);
}

static struct record with_ramps(struct record r, int32_t up, int32_t down)
{
    set_ramps(&r, up, down);
    return r;
}

static void ramps_are(const struct bilzhaan_answer *a, int32_t up, int32_t down)
{
    EQUAL(a->words[BILZHAAN_ANSWER_RAMP_UP], up);
    EQUAL(a->words[BILZHAAN_ANSWER_RAMP_DOWN], down);
}

/* ---- ages ---- */

static void each_age(void)
{
    static const int32_t ages[] = {0, 1, 2, 3, 4, 5, 6, 7, 100, 1999};
    struct book b = usual_book(1000);
    for (int s = 0; s < 5; s++) {
        EQUAL(number_of(&b, offered(STANDING, s, 100, 0, 70)), 0);
        EQUAL(number_of(&b, offered(VARIATION, s, 101, 0, 80)), 0);
    }
    for (size_t i = 0; i < sizeof ages / sizeof ages[0]; i++) {
        at_minute(&b, 1000 + ages[i]);
        for (int s = 0; s < 5; s++) {
            LOOK_UP_GIVES(&b, 0, s, 100, 0, first_word(STANDING, ages[i]), 70);
            LOOK_UP_GIVES(&b, 0, s, 101, 0, first_word(VARIATION, ages[i]), 80);
            EQUAL(call(&b, total_of(s, 100)).words[0], 1); /* a total counts, fresh or not */
        }
    }
}

/* The first and the last minute that a clock may have. */
static void ends_of_time(void)
{
    struct book b = book_for(1, 1);
    EQUAL(number_of(&b, capability_of(0, usual_generation)), 0);
    EQUAL(number_of(&b, offered(STANDING, 0, 100, 0, 70)), 0); /* before any clock */
    LOOK_UP_GIVES(&b, 0, 0, 100, 0, BILZHAAN_FRESH_STANDING_IN_FORCE, 70);
    at_minute(&b, 4);
    LOOK_UP_GIVES(&b, 0, 0, 100, 0, BILZHAAN_FRESH_STANDING_IN_FORCE, 70);
    at_minute(&b, 5);
    LOOK_UP_GIVES(&b, 0, 0, 100, 0, BILZHAAN_STANDING_IN_FORCE, 70);
    for (int32_t minute = BILZHAAN_CLOCK_LAST - 5; minute <= BILZHAAN_CLOCK_LAST; minute++) {
        at_minute(&b, minute);
        EQUAL(number_of(&b, offered(VARIATION, 0, 33333640 + BILZHAAN_CLOCK_LAST - minute, 0, 60)), 0);
    }
    for (int32_t age = 0; age <= 5; age++)
        LOOK_UP_GIVES(&b, 0, 0, 33333640 + age, 0, first_word(VARIATION, age), 60);
}

/* ---- which minute counts ---- */

static void filed_again(void)
{
    struct book b = usual_book(1000);
    EQUAL(number_of(&b, offered(STANDING, 0, 100, 0, 70)), 0);
    EQUAL(number_of(&b, offered(VARIATION, 0, 101, 0, 80)), 0);
    for (int32_t age = 1; age <= 6; age++) {
        at_minute(&b, 1000 + age);
        EQUAL(number_of(&b, offered(STANDING, 0, 100, 0, 70)), BILZHAAN_DUPLICATE);
        LOOK_UP_GIVES(&b, 0, 0, 100, 0, first_word(STANDING, age), 70);
        LOOK_UP_GIVES(&b, 0, 0, 101, 0, first_word(VARIATION, age), 80);
    }
    EQUAL(number_of(&b, offered(VARIATION, 0, 101, 0, 80)), 0);
    EQUAL(number_of(&b, offered(STANDING, 0, 100, 0, 71)), 0);
    for (int32_t age = 0; age <= 6; age++) {
        at_minute(&b, 1006 + age);
        LOOK_UP_GIVES(&b, 0, 0, 100, 0, first_word(STANDING, age), 71);
        LOOK_UP_GIVES(&b, 0, 0, 101, 0, first_word(VARIATION, age), 80);
    }
}

/* Filings refused with 10 to 14 and 16 to 18, each of which leaves the held offer's minute. */
static void refused_filings(void)
{
    struct book b = usual_book(1000);
    EQUAL(number_of(&b, offered(STANDING, 0, 100, 0, 70)), 0);
    EQUAL(number_of(&b, offered(VARIATION, 0, 101, 0, 80)), 0);
    for (int32_t age = 4; age <= 5; age++) {
        at_minute(&b, 1000 + age);
        struct record priced_blank = offered(VARIATION, 0, 101, 0, 0), falling = offered(VARIATION, 0, 101, 0, 80);
        struct record blank_first = offered(VARIATION, 0, 101, 0, 0);
        set_pair(&priced_blank, 3, 1, 0);
        set_pair(&blank_first, 1, 4000, 80);
        set_pair(&falling, 1, 3999, 1);
        struct {
            struct record filed;
            uint32_t number;
        } tries[] = {
            {offered(VARIATION, 0, 33, 0, 80), BILZHAAN_PERIOD_REFUSED},
            {offered(VARIATION, 0, 101, 7, 80), BILZHAAN_OUT_OF_RANGE},
            {priced_blank, BILZHAAN_BLANK_REFUSED},
            {blank_first, BILZHAAN_BLANK_REFUSED},
            {falling, BILZHAAN_PRICES_DONT_RISE},
            {with_ramps(offered(VARIATION, 0, 101, 0, 80), 51, 0), BILZHAAN_RAMP_REFUSED},
            {offered(STANDING, 0, 100, 0, 801), BILZHAAN_ABOVE_CAPACITY},
            {offered(STANDING, 0, 100, 0, 70), BILZHAAN_DUPLICATE},
        };
        for (size_t i = 0; i < sizeof tries / sizeof tries[0]; i++) {
            EQUAL(number_of(&b, tries[i].filed), tries[i].number);
            LOOK_UP_GIVES(&b, 0, 0, 100, 0, first_word(STANDING, age), 70);
            LOOK_UP_GIVES(&b, 0, 0, 101, 0, first_word(VARIATION, age), 80);
        }
    }
    at_minute(&b, 2990); /* inside the gate for both */
    EQUAL(number_of(&b, offered(STANDING, 0, 100, 0, 71)), BILZHAAN_GATE_CLOSED);
    EQUAL(number_of(&b, offered(VARIATION, 0, 101, 0, 81)), BILZHAAN_GATE_CLOSED);
    LOOK_UP_GIVES(&b, 0, 0, 100, 0, BILZHAAN_STANDING_IN_FORCE, 70);
    LOOK_UP_GIVES(&b, 0, 0, 101, 0, BILZHAAN_VARIATION_IN_FORCE, 80);
}

/* After a take-back the standing offer's own minute counts, and the cell that held the variation's is zeros. */
static void taken_back(void)
{
    struct book b = usual_book(0);
    for (int32_t age = 3; age <= 6; age++) {
        open_usual(&b, 1000);
        EQUAL(number_of(&b, offered(STANDING, 0, 100, 0, 70)), 0);
        at_minute(&b, 1000 + age);
        EQUAL(number_of(&b, offered(VARIATION, 0, 100, 0, 60)), 0);
        LOOK_UP_GIVES(&b, 0, 0, 100, 0, BILZHAAN_FRESH_VARIATION_IN_FORCE, 60);
        EQUAL(b.words[cell_at(&b, 0, 0, 1, 100) + 3], 1000 + age);
        EQUAL(number_of(&b, offered(VARIATION, 0, 100, 0, 0)), 0);
        LOOK_UP_GIVES(&b, 0, 0, 100, 0, first_word(STANDING, age), 70);
        EQUAL(b.words[cell_at(&b, 0, 0, 1, 100) + 3], 0);
    }
}

/* A slot's variation of one week and of the next: the standing offer between them by its own minute. */
static void another_week(void)
{
    struct book b = usual_book(0);
    EQUAL(number_of(&b, offered(STANDING, 0, 4, 0, 70)), 0);
    EQUAL(number_of(&b, offered(VARIATION, 0, 4, 0, 60)), 0);
    LOOK_UP_GIVES(&b, 0, 0, 4, 0, BILZHAAN_FRESH_VARIATION_IN_FORCE, 60);
    at_minute(&b, 1440);
    LOOK_UP_GIVES(&b, 0, 0, 340, 0, BILZHAAN_STANDING_IN_FORCE, 70);
    EQUAL(number_of(&b, offered(VARIATION, 0, 340, 0, 50)), 0);
    LOOK_UP_GIVES(&b, 0, 0, 340, 0, BILZHAAN_FRESH_VARIATION_IN_FORCE, 50);
    at_minute(&b, 1445);
    LOOK_UP_GIVES(&b, 0, 0, 340, 0, BILZHAAN_VARIATION_IN_FORCE, 50);
}

/* ---- the cell's words ---- */

static void open_with_large_ramps(struct book *b, int32_t now)
{
    int32_t w[17];
    for (int i = 0; i < 17; i++)
        w[i] = i == BILZHAAN_W_MAX_RAMP_UP || i == BILZHAAN_W_MAX_RAMP_DOWN ? 9999 : usual_generation[i];
    open_usual(b, now);
    EQUAL(number_of(b, capability_of(0, w)), 0);
}

static void ramps_and_minute(void)
{
    static const int32_t ramps[][2] = {{0, 0}, {1, 2}, {2, 1}, {0, 9999}, {9999, 0}, {9999, 9999}, {1, 9999}, {9998, 1}};
    struct book b = usual_book(0);
    open_with_large_ramps(&b, 1234);
    for (int which = STANDING; which <= VARIATION; which++)
        for (int i = 0; i < 8; i++) {
            int32_t up = ramps[i][0], down = ramps[i][1];
            const int32_t *cell = b.words + cell_at(&b, 0, 0, which == VARIATION, 100);
            EQUAL(number_of(&b, with_ramps(offered(which, 0, 100, 0, 70), up, down)), 0);
            EQUAL(cell[2], up * 10000 + down);
            EQUAL(cell[3], 1234);
            struct bilzhaan_answer a = LOOK_UP_GIVES(&b, 0, 0, 100, 0, first_word(which, 0), 70);
            ramps_are(&a, up, down);
            if (which == STANDING)
                EQUAL(number_of(&b, with_ramps(offered(which, 0, 100, 0, 70), up, down)), BILZHAAN_DUPLICATE);
        }
    for (int s = 1; s < 5; s++) {
        const int32_t *cell = b.words + cell_at(&b, 0, s, 1, 100);
        EQUAL(number_of(&b, offered(VARIATION, s, 100, 0, 70)), 0);
        EQUAL(cell[2], 0);
        EQUAL(cell[3], 1234);
        struct bilzhaan_answer a = LOOK_UP_GIVES(&b, 0, s, 100, 0, BILZHAAN_FRESH_VARIATION_IN_FORCE, 70);
        ramps_are(&a, 0, 0);
    }
}

/* ---- damaged books ---- */

static void damaged_ramps(void)
{
    static const int32_t values[][3] = {
        {-12345, -1, -2345}, {-1, 0, -1}, {-9999, 0, -9999}, {-10000, -1, 0}, {-10001, -1, -1}, {INT32_MIN, -214748, -3648},
        {INT32_MAX, 214748, 3647}, {99999999, 9999, 9999}, {100000000, 10000, 0}, {10000, 1, 0}, {9999, 0, 9999},
    };
    struct book b = usual_book(0);
    for (int s = 0; s < 5; s++) {
        int32_t *cell = b.words + cell_at(&b, 0, s, 0, 100);
        for (size_t i = 0; i < sizeof values / sizeof values[0]; i++) {
            EQUAL(number_of(&b, offered(STANDING, s, 100, 0, 70)), 0); /* another than the damaged one */
            EQUAL(number_of(&b, offered(STANDING, s, 100, 0, 70)), BILZHAAN_DUPLICATE);
            cell[2] = values[i][0];
            struct bilzhaan_answer a = LOOK_UP_GIVES(&b, 0, s, 100, 0, BILZHAAN_FRESH_STANDING_IN_FORCE, 70);
            ramps_are(&a, values[i][1], values[i][2]);
        }
    }
}

/* Now less the minute is taken in 64 bits; the test for a duplicate passes the minute over. */
static void damaged_minutes(void)
{
    static const int32_t clocks[] = {0, 4, 1000, BILZHAAN_CLOCK_LAST};
    struct book b = usual_book(0);
    for (int i = 0; i < 4; i++) {
        int32_t now = clocks[i], period = now / 30 + 60;
        open_usual(&b, now);
        for (int s = 0; s < 5; s++) {
            EQUAL(number_of(&b, offered(STANDING, s, period % 336, 0, 70)), 0);
            EQUAL(number_of(&b, offered(VARIATION, s, period + 1, 0, 80)), 0);
            int32_t *standing = b.words + cell_at(&b, 0, s, 0, period % 336);
            int32_t *variation = b.words + cell_at(&b, 0, s, 1, (period + 1) % 336);
            const int32_t minutes[] = {now, now - 4, now - 5, now + 1, -1, -5, INT32_MIN, INT32_MIN + 4, INT32_MAX,
                                       INT32_MAX - 4};
            for (int k = 0; k < 10; k++) {
                standing[3] = variation[3] = minutes[k];
                LOOK_UP_GIVES(&b, 0, s, period, 0, first_word(STANDING, (int64_t)now - minutes[k]), 70);
                LOOK_UP_GIVES(&b, 0, s, period + 1, 0, first_word(VARIATION, (int64_t)now - minutes[k]), 80);
                EQUAL(number_of(&b, offered(STANDING, s, period % 336, 0, 70)), BILZHAAN_DUPLICATE);
                EQUAL(standing[3], minutes[k]);
            }
        }
    }
    open_usual(&b, 1000); /* the host puts the clock back */
    EQUAL(number_of(&b, offered(STANDING, 0, 100, 0, 70)), 0);
    b.words[AT_CLOCK] = 10;
    LOOK_UP_GIVES(&b, 0, 0, 100, 0, BILZHAAN_FRESH_STANDING_IN_FORCE, 70);
}

/* Maxima that no capability leaves: a ramp is held to 9,999 all the same, so that the two fit one word. */
static void damaged_maxima(void)
{
    static const int32_t maxima[] = {9998, 9999, 10000, 10001, INT32_MAX, 0, -1, INT32_MIN};
    static const int32_t rates[] = {0, 9998, 9999, 10000, 10001, INT32_MAX, -1, INT32_MIN};
    struct book b = usual_book(0);
    for (int down = 0; down <= 1; down++)
        for (int i = 0; i < 8; i++)
            for (int k = 0; k < 8; k++) {
                open_with_large_ramps(&b, 7);
                b.words[BLOCK + BILZHAAN_W_MAX_RAMP_UP + down] = maxima[i];
                bool passes = 0 <= rates[k] && rates[k] <= maxima[i] && rates[k] <= 9999;
                int32_t up_rate = down ? 5 : rates[k], down_rate = down ? rates[k] : 5;
                for (int which = STANDING; which <= VARIATION; which++) {
                    struct record r = with_ramps(offered(which, 0, 100, 0, 70), up_rate, down_rate);
                    EQUAL(number_of(&b, r), passes ? 0 : BILZHAAN_RAMP_REFUSED);
                }
                if (passes) {
                    struct bilzhaan_answer a = LOOK_UP_GIVES(&b, 0, 0, 100, 0, BILZHAAN_FRESH_VARIATION_IN_FORCE, 70);
                    ramps_are(&a, up_rate, down_rate);
                }
            }
}

/* A book of version 1, whose cells hold other words, isn't read. */
static void versions(void)
{
    struct book b = usual_book(1000);
    EQUAL(b.words[AT_VERSION], 2);
    EQUAL(number_of(&b, offered(STANDING, 0, 100, 0, 70)), 0);
    for (int32_t version = 0; version <= 4; version++) {
        b.words[AT_VERSION] = version;
        EQUAL(number_of(&b, look_up_of(0, 0, 100)), version == 2 ? 0 : BILZHAAN_BOOK_UNUSABLE);
        EQUAL(number_of(&b, offered(STANDING, 0, 100, 0, 70)), version == 2 ? BILZHAAN_DUPLICATE : BILZHAAN_BOOK_UNUSABLE);
    }
}

void test_fresh(void)
{
    each_age();
    ends_of_time();
    filed_again();
    refused_filings();
    taken_back();
    another_week();
    ramps_and_minute();
    damaged_ramps();
    damaged_minutes();
    damaged_maxima();
    versions();
}
