/* Every constant of include/bilzhaan.h against the library: each stands where the library's answer depends on it.
 * tests/header_mutants.sh adds 1 to each in turn and asks that this test notices. Prints 'N passed, M failed'. */
#include "records.h"

#include <inttypes.h>
#include <stdio.h>
#include <string.h>

static long passed, failed;

static void equal_at(int64_t got, int64_t expected, const char *what, int line)
{
    if (got == expected) {
        passed++;
    } else if (failed++ < 20) {
        printf("header_test.c:%d: %s is %" PRId64 ", expected %" PRId64 "\n", line, what, got, expected);
    }
}

#define EQUAL(got, expected) equal_at((int64_t)(got), (int64_t)(expected), #got, __LINE__)

/* Room for the largest book by document 01's own sum, so that a wrong BILZHAAN_BOOK_WORDS shows as a number. */
static int32_t words[64 + 32 * 64 + 16128 * 64 * 5 + 64];
static const size_t room = sizeof words / sizeof words[0];
static const int32_t usual_limits[8] = {-450000, 450000, 400000, 400001, 400002, 400003};

static struct bilzhaan_answer call(struct record r)
{
    return bilzhaan_call(words, room, r.bytes, sizeof r.bytes);
}

static uint32_t number_of(struct record r)
{
    return call(r).number;
}

static uint32_t test_of(struct record r, int32_t facilities, int32_t services)
{
    return bilzhaan_record_test(r.bytes, sizeof r.bytes, facilities, services);
}

static struct record with_byte(struct record r, int at, int value)
{
    r.bytes[at] = (uint8_t)value;
    return r;
}

/* ---- books of two facilities and five services: 0 generation, 1 load, every maximum another value ---- */

static void usual_words(int32_t w[20])
{
    memset(w, 0, 20 * sizeof w[0]);
    w[BILZHAAN_W_KIND] = BILZHAAN_GENERATION;
    w[BILZHAAN_W_MAX_GENERATION] = 700;
    w[BILZHAAN_W_MAX_COMBINED] = 800;
    for (int class = 0; class < 3; class++)
        w[BILZHAAN_W_MAX_RESERVE + class] = 300 + 10 * class;
    w[BILZHAAN_W_MAX_REGULATION] = 200;
    w[BILZHAAN_W_MAX_RAMP_UP] = 50;
    w[BILZHAAN_W_MAX_RAMP_DOWN] = 40;
    for (int class = 0; class < 3; class++)
        w[BILZHAAN_W_MAX_PROPORTION + class] = 500 + 100 * class;
    for (int service = 0; service < 5; service++)
        w[BILZHAAN_W_REGISTERED + service] = 1;
}

static void open_usual(int32_t now)
{
    int32_t w[20];
    EQUAL(bilzhaan_open(words, room, 2, 5, usual_limits), BILZHAAN_ACCEPTED);
    usual_words(w);
    EQUAL(number_of(capability_of(0, w)), BILZHAAN_ACCEPTED);
    w[BILZHAAN_W_KIND] = BILZHAAN_LOAD;
    EQUAL(number_of(capability_of(1, w)), BILZHAAN_CAPABILITY_REFUSED); /* "load with mark 0 or 4 set" */
    w[BILZHAAN_W_REGISTERED + BILZHAAN_ENERGY] = w[BILZHAAN_W_REGISTERED + BILZHAAN_REGULATION] = 0;
    EQUAL(number_of(capability_of(1, w)), BILZHAAN_ACCEPTED);
    EQUAL(number_of(clock_at(now)), BILZHAAN_ACCEPTED);
}

/* The one kind that may have a mark for energy and no outage. */
static void links(void)
{
    int32_t w[20];
    EQUAL(bilzhaan_open(words, room, 1, 5, usual_limits), BILZHAAN_ACCEPTED);
    usual_words(w);
    w[BILZHAAN_W_KIND] = BILZHAAN_LINK;
    EQUAL(number_of(capability_of(0, w)), BILZHAAN_CAPABILITY_REFUSED); /* "mark 0 only" */
    for (int service = BILZHAAN_PRIMARY_RESERVE; service <= BILZHAAN_REGULATION; service++)
        w[BILZHAAN_W_REGISTERED + service] = 0;
    EQUAL(number_of(capability_of(0, w)), BILZHAAN_ACCEPTED);
    EQUAL(number_of(outage_of(0, 0, 1)), BILZHAAN_NOTICE_REFUSED);
    EQUAL(number_of(look_up_of(0, BILZHAAN_ENERGY, 100)), BILZHAAN_NOTHING_IN_FORCE);
}

/* A variation of facility 0 for period 100, of one pair. */
static struct record varied(int service, int reason, int32_t price, int32_t quantity)
{
    struct record r = offer_for(BILZHAAN_CALL_VARIATION, 0, service, 100, reason);
    set_pair(&r, 0, price, quantity);
    if (service != BILZHAAN_ENERGY && service != BILZHAAN_REGULATION)
        set_proportion(&r, 1);
    return r;
}

/* ---- versions and sizes ---- */

static void versions(void)
{
    EQUAL(bilzhaan_version(), BILZHAAN_VERSION);
    EQUAL(bilzhaan_book_version(), BILZHAAN_BOOK_VERSION);
    open_usual(0);
    EQUAL(words[1], BILZHAAN_BOOK_VERSION);
    words[1]++;
    EQUAL(number_of(clock_at(0)), BILZHAAN_BOOK_UNUSABLE);
}

static void sizes(void)
{
    uint8_t bytes[256] = {0};
    struct record clock = clock_at(0);
    memcpy(bytes, clock.bytes, sizeof clock.bytes);
    for (size_t length = 0; length < sizeof bytes; length++)
        EQUAL(bilzhaan_record_test(bytes, length, 1, 1),
              length == BILZHAAN_RECORD_BYTES ? BILZHAAN_ACCEPTED : BILZHAAN_NOT_A_RECORD);
    for (int32_t f = 0; f <= 100; f++)
        EQUAL(test_of(clock, f, 1),
              1 <= f && f <= BILZHAAN_FACILITIES_MOST ? BILZHAAN_ACCEPTED : BILZHAAN_OPENING_REFUSED);
    for (int32_t s = 0; s <= 100; s++)
        EQUAL(test_of(clock, 1, s),
              s == BILZHAAN_SERVICES_ONE || s == BILZHAAN_SERVICES_ALL ? BILZHAAN_ACCEPTED : BILZHAAN_OPENING_REFUSED);
    static const int32_t books[][2] = {{1, 1}, {2, 1}, {1, 5}, {2, 5}, {64, 5}};
    for (int i = 0; i < 5; i++) {
        int32_t f = books[i][0], s = books[i][1];
        size_t needed = BILZHAAN_BOOK_WORDS(f, s);
        EQUAL(bilzhaan_open(words, needed - 1, f, s, usual_limits), BILZHAAN_OPENING_REFUSED);
        EQUAL(bilzhaan_open(words, needed, f, s, usual_limits), BILZHAAN_ACCEPTED);
    }
}

static void limits(void)
{
    for (int i = 0; i <= BILZHAAN_LIMITS; i++) {
        int32_t given[8] = {0};
        int32_t outward = i == 0 ? -1 : 1;
        given[i] = outward * BILZHAAN_LIMIT_LARGEST;
        EQUAL(bilzhaan_open(words, room, 1, 1, given), BILZHAAN_ACCEPTED);
        given[i] += outward; /* the opening reads BILZHAAN_LIMITS of them */
        EQUAL(bilzhaan_open(words, room, 1, 1, given), i < BILZHAAN_LIMITS ? BILZHAAN_OPENING_REFUSED : BILZHAAN_ACCEPTED);
    }
}

static void times(void)
{
    open_usual(3000 - BILZHAAN_GATE_MINUTES); /* period 100 starts at minute 3000 */
    EQUAL(number_of(varied(BILZHAAN_ENERGY, BILZHAAN_REASON_NONE, 1, 1)), BILZHAAN_ACCEPTED);
    EQUAL(number_of(clock_at(3000 - BILZHAAN_GATE_MINUTES + 1)), BILZHAAN_ACCEPTED);
    EQUAL(number_of(varied(BILZHAAN_ENERGY, BILZHAAN_REASON_NONE, 1, 1)), BILZHAAN_GATE_CLOSED);
    EQUAL(number_of(clock_at(BILZHAAN_PERIOD_MINUTES * 100 - 1)), BILZHAAN_ACCEPTED);
    EQUAL(number_of(look_up_of(0, 0, 100)), BILZHAAN_ACCEPTED);
    EQUAL(number_of(clock_at(BILZHAAN_PERIOD_MINUTES * 100)), BILZHAAN_ACCEPTED);
    EQUAL(number_of(look_up_of(0, 0, 100)), BILZHAAN_PERIOD_REFUSED);
    EQUAL(number_of(clock_at(BILZHAAN_CLOCK_LAST + 1)), BILZHAAN_CLOCK_REFUSED);
    EQUAL(number_of(clock_at(BILZHAAN_CLOCK_LAST)), BILZHAAN_ACCEPTED);
    EQUAL(number_of(offer_for(BILZHAAN_CALL_STANDING, 0, 0, BILZHAAN_WEEK_SLOTS - 1, 0)), BILZHAAN_ACCEPTED);
    EQUAL(number_of(offer_for(BILZHAAN_CALL_STANDING, 0, 0, BILZHAAN_WEEK_SLOTS, 0)), BILZHAAN_PERIOD_REFUSED);
    EQUAL(bilzhaan_next_period(BILZHAAN_PERIOD_MINUTES * 100 - 1, 100), 100);
    EQUAL(bilzhaan_next_period(BILZHAAN_PERIOD_MINUTES * 100, 100), 100 + BILZHAAN_WEEK_SLOTS);
    EQUAL(bilzhaan_next_period(0, BILZHAAN_WEEK_SLOTS + 100), 100); /* "taken mod 336" */
    EQUAL(bilzhaan_next_period(BILZHAAN_CLOCK_LAST, 118), 33333334);
    EQUAL(number_of(notice_of(BILZHAAN_NOTICE_SHORTFALL, 0, BILZHAAN_NOTICE_PERIOD_LAST)), BILZHAAN_ACCEPTED);
    EQUAL(number_of(notice_of(BILZHAAN_NOTICE_SHORTFALL, 0, BILZHAAN_NOTICE_PERIOD_LAST + 1)), BILZHAAN_NOTICE_REFUSED);
}

/* ---- dates: both ends of the calendar, and what lies beyond them ---- */

static uint32_t dated(int32_t year, int32_t month, int32_t day, int32_t period)
{
    return bilzhaan_period_of(year, month, day, period).number;
}

static void dates(void)
{
    struct bilzhaan_period p = bilzhaan_period_of(BILZHAAN_YEAR_FIRST, 1, 2, 1);
    EQUAL(p.number, BILZHAAN_ACCEPTED);
    EQUAL(p.period, BILZHAAN_DAY_PERIODS);
    EQUAL(p.weekday, 1);
    EQUAL(dated(BILZHAAN_YEAR_FIRST - 1, 12, 31, BILZHAAN_DAY_PERIODS), BILZHAAN_DATE_REFUSED);
    EQUAL(dated(BILZHAAN_YEAR_FIRST, 1, 1, BILZHAAN_DAY_PERIODS), BILZHAAN_ACCEPTED);
    EQUAL(dated(BILZHAAN_YEAR_FIRST, 1, 1, BILZHAAN_DAY_PERIODS + 1), BILZHAAN_DATE_REFUSED);
    EQUAL(bilzhaan_period_of(BILZHAAN_YEAR_LAST, 12, 31, BILZHAAN_DAY_PERIODS).period, BILZHAAN_DATED_PERIOD_LAST);
    EQUAL(dated(BILZHAAN_YEAR_LAST + 1, 1, 1, 1), BILZHAAN_DATE_REFUSED);
    struct bilzhaan_date d = bilzhaan_date_of(BILZHAAN_DATED_PERIOD_LAST);
    EQUAL(d.number, BILZHAAN_ACCEPTED);
    EQUAL(d.year, BILZHAAN_YEAR_LAST);
    EQUAL(d.month, 12);
    EQUAL(d.day, 31);
    EQUAL(d.period, BILZHAAN_DAY_PERIODS);
    EQUAL(d.weekday, 3);
    EQUAL(bilzhaan_date_of(BILZHAAN_DATED_PERIOD_LAST + 1).number, BILZHAAN_DATE_REFUSED);
    EQUAL(bilzhaan_date_of(0).year, BILZHAAN_YEAR_FIRST);
}

/* ---- where each field of a record starts ---- */

static void places(void)
{
    struct record r;
    memset(&r, 0, sizeof r);
    memcpy(r.bytes + BILZHAAN_AT_MARK, "SOB", 3);
    r.bytes[BILZHAAN_AT_VERSION + 1] = 1;
    r.bytes[BILZHAAN_AT_CALL] = BILZHAAN_CALL_CLOCK;
    EQUAL(test_of(r, 1, 1), BILZHAAN_ACCEPTED);
    r = total_of(0, 100);
    EQUAL(test_of(with_byte(r, BILZHAAN_AT_SERVICE, 4), 2, 5), BILZHAAN_ACCEPTED);
    EQUAL(test_of(with_byte(r, BILZHAAN_AT_SERVICE, 5), 2, 5), BILZHAAN_NOT_IN_BOOK);
    r = outage_of(0, 0, 1);
    EQUAL(test_of(with_byte(r, BILZHAAN_AT_FACILITY, 1), 2, 5), BILZHAAN_ACCEPTED);
    EQUAL(test_of(with_byte(r, BILZHAAN_AT_FACILITY, 2), 2, 5), BILZHAAN_NOT_IN_BOOK);
    EQUAL(test_of(with_byte(r, BILZHAAN_AT_REASON, 1), 2, 5), BILZHAAN_UNUSED_BYTE);
    open_usual(1000);
    EQUAL(number_of(with_byte(withdrawal_of(0), BILZHAAN_AT_REASON, BILZHAAN_NOTICE_SYSTEM_STATUS)), BILZHAAN_ACCEPTED);
    r = total_of(0, 0);
    set_word(&r, BILZHAAN_AT_PERIOD, 335);
    EQUAL(number_of(r), BILZHAAN_ACCEPTED);
    set_word(&r, BILZHAAN_AT_PERIOD, 336);
    EQUAL(number_of(r), BILZHAAN_PERIOD_REFUSED);
    r = outage_of(0, 0, 0); /* "m div 30 + 1 to m div 30 + n" */
    set_word(&r, BILZHAAN_AT_A, 300);
    set_word(&r, BILZHAAN_AT_B, 3);
    EQUAL(number_of(r), BILZHAAN_ACCEPTED);
    EQUAL(words[64 + 17], 11);
    EQUAL(words[64 + 18], 13);
}

/* ---- capabilities and services: each maximum refuses the next value in its own service ---- */

static void maxima(void)
{
    static const struct {
        int service;
        int32_t highest; /* a total */
        int32_t price;
    } tries[] = {
        {BILZHAAN_ENERGY, 700, 450000}, {BILZHAAN_PRIMARY_RESERVE, 300, 400000}, {BILZHAAN_SECONDARY_RESERVE, 310, 400001},
        {BILZHAAN_CONTINGENCY_RESERVE, 320, 400002}, {BILZHAAN_REGULATION, 200, 400003},
    };
    open_usual(0);
    for (int i = 0; i < 5; i++) {
        int service = tries[i].service;
        EQUAL(number_of(varied(service, 0, tries[i].price, tries[i].highest)), BILZHAAN_ACCEPTED);
        EQUAL(number_of(varied(service, 0, tries[i].price, tries[i].highest + 1)), BILZHAAN_ABOVE_CAPACITY);
        EQUAL(number_of(varied(service, 0, tries[i].price + 1, 1)), BILZHAAN_OUT_OF_RANGE);
    }
    for (int class = 0; class < 3; class++) {
        struct record r = varied(BILZHAAN_PRIMARY_RESERVE + class, 0, 1, 1);
        set_proportion(&r, 500 + 100 * class);
        EQUAL(number_of(r), BILZHAAN_ACCEPTED);
        set_proportion(&r, 500 + 100 * class + 1);
        EQUAL(number_of(r), BILZHAAN_PROPORTION_REFUSED);
    }
    for (int down = 0; down <= 1; down++) {
        struct record r = varied(BILZHAAN_ENERGY, 0, 1, 1);
        set_word(&r, down ? BILZHAAN_AT_RAMP_DOWN : BILZHAAN_AT_RAMP_UP, down ? 40 : 50);
        EQUAL(number_of(r), BILZHAAN_ACCEPTED);
        set_word(&r, down ? BILZHAAN_AT_RAMP_DOWN : BILZHAAN_AT_RAMP_UP, down ? 41 : 51);
        EQUAL(number_of(r), BILZHAAN_RAMP_REFUSED);
    }
    int32_t w[20];
    usual_words(w);
    w[BILZHAAN_W_MAX_GENERATION] = 900; /* the combined maximum is the lower one */
    EQUAL(number_of(capability_of(0, w)), BILZHAAN_ACCEPTED);
    EQUAL(number_of(varied(BILZHAAN_ENERGY, 0, 1, 800)), BILZHAAN_ACCEPTED);
    EQUAL(number_of(varied(BILZHAAN_ENERGY, 0, 1, 801)), BILZHAAN_ABOVE_CAPACITY);
    w[BILZHAAN_CAPABILITY_WORDS - 1] = 0; /* the last is the mark for service 4, and no word after it is used */
    EQUAL(number_of(capability_of(0, w)), BILZHAAN_ACCEPTED);
    EQUAL(number_of(varied(BILZHAAN_REGULATION, 0, 1, 1)), BILZHAAN_NOT_REGISTERED);
    EQUAL(number_of(varied(BILZHAAN_CONTINGENCY_RESERVE, 0, 1, 1)), BILZHAAN_ACCEPTED);
    struct record r = capability_of(0, w);
    set_w(&r, BILZHAAN_CAPABILITY_WORDS, 1);
    EQUAL(number_of(r), BILZHAAN_UNUSED_BYTE);
}

/* ---- gate closure: each reason passes with what it asks and not with what its neighbours ask ---- */

static void reasons(void)
{
    static const struct {
        int reason, notice; /* a notice of that kind covers period 100, if any */
        int outage;
        int32_t quantity; /* the standing offer's is 100 */
        uint32_t number;
    } tries[] = {
        {BILZHAAN_REASON_NONE, 0, 0, 100, BILZHAAN_GATE_CLOSED},
        {BILZHAAN_REASON_SYNCHRONISATION, 0, 0, 100, BILZHAAN_ACCEPTED},
        {BILZHAAN_REASON_FORCED_OUTAGE, 0, 1, 100, BILZHAAN_ACCEPTED},
        {BILZHAAN_REASON_FORCED_OUTAGE, 0, 0, 100, BILZHAAN_GATE_CLOSED},
        {BILZHAAN_REASON_ENERGY_SURPLUS, BILZHAAN_NOTICE_ENERGY_SURPLUS, 0, 99, BILZHAAN_ACCEPTED},
        {BILZHAAN_REASON_ENERGY_SURPLUS, BILZHAAN_NOTICE_ENERGY_SURPLUS, 0, 101, BILZHAAN_GATE_CLOSED},
        {BILZHAAN_REASON_SHORTFALL, BILZHAAN_NOTICE_SHORTFALL, 0, 101, BILZHAAN_ACCEPTED},
        {BILZHAAN_REASON_SHORTFALL, BILZHAAN_NOTICE_ENERGY_SURPLUS, 0, 101, BILZHAAN_GATE_CLOSED},
        {BILZHAAN_REASON_SYSTEM_STATUS, BILZHAAN_NOTICE_SYSTEM_STATUS, 0, 101, BILZHAAN_ACCEPTED},
        {BILZHAAN_REASON_SYSTEM_STATUS, BILZHAAN_NOTICE_SHORTFALL, 0, 101, BILZHAAN_GATE_CLOSED},
        {BILZHAAN_REASON_LOAD_OUTAGE, 0, 1, 100, BILZHAAN_GATE_CLOSED},
    };
    for (size_t i = 0; i < sizeof tries / sizeof tries[0]; i++) {
        open_usual(2990);
        struct record standing = varied(BILZHAAN_ENERGY, 0, 5, 100);
        standing.bytes[BILZHAAN_AT_CALL] = BILZHAAN_CALL_STANDING;
        EQUAL(number_of(standing), BILZHAAN_ACCEPTED);
        EQUAL(number_of(standing), BILZHAAN_GATE_CLOSED);
        if (tries[i].notice)
            EQUAL(number_of(notice_of(tries[i].notice, 100, 100)), BILZHAAN_ACCEPTED);
        if (tries[i].outage)
            EQUAL(number_of(outage_of(0, 2990, 1)), BILZHAAN_ACCEPTED);
        struct record r = varied(BILZHAAN_ENERGY, tries[i].reason, 5, tries[i].quantity);
        EQUAL(number_of(r), tries[i].number);
        /* the standing offer itself by the same reason: the one that is held is a duplicate */
        int is_held = tries[i].number == BILZHAAN_ACCEPTED && tries[i].quantity == 100;
        EQUAL(number_of(with_byte(r, BILZHAAN_AT_CALL, BILZHAAN_CALL_STANDING)), is_held ? BILZHAAN_DUPLICATE : tries[i].number);
    }
    /* a load's outage; reason 7 is out of range */
    open_usual(2990);
    EQUAL(number_of(outage_of(1, 2990, 48)), BILZHAAN_ACCEPTED);
    struct record r = varied(BILZHAAN_PRIMARY_RESERVE, BILZHAAN_REASON_LOAD_OUTAGE, 5, 100);
    EQUAL(number_of(with_byte(r, BILZHAAN_AT_FACILITY, 1)), BILZHAAN_ACCEPTED);
    EQUAL(number_of(with_byte(r, BILZHAAN_AT_REASON, BILZHAAN_REASON_LOAD_OUTAGE + 1)), BILZHAAN_OUT_OF_RANGE);
    /* a withdrawal is of the system status notice */
    EQUAL(number_of(notice_of(BILZHAAN_NOTICE_SYSTEM_STATUS, 100, 100)), BILZHAAN_ACCEPTED);
    EQUAL(number_of(withdrawal_of(BILZHAAN_NOTICE_SYSTEM_STATUS)), BILZHAAN_ACCEPTED);
    EQUAL(number_of(varied(BILZHAAN_ENERGY, BILZHAAN_REASON_SYSTEM_STATUS, 5, 101)), BILZHAAN_GATE_CLOSED);
    EQUAL(number_of(withdrawal_of(BILZHAAN_NOTICE_SHORTFALL)), BILZHAAN_NOTICE_REFUSED);
}

/* ---- offers and answers: pairs, the calls that file and read them, and the names of an answer's words ---- */

static void answers(void)
{
    open_usual(0);
    EQUAL(number_of(look_up_of(0, BILZHAAN_ENERGY, 100)), BILZHAAN_NOTHING_IN_FORCE);
    struct record r = offer_for(BILZHAAN_CALL_STANDING, 0, BILZHAAN_ENERGY, 100, 0);
    set_ramps(&r, 21, 22);
    for (int pair = 0; pair < 10; pair++)
        set_pair(&r, pair, 1000 + pair, 10 + pair);
    EQUAL(number_of(r), BILZHAAN_ACCEPTED);
    EQUAL(number_of(r), BILZHAAN_DUPLICATE);
    struct bilzhaan_answer a = call(look_up_of(0, BILZHAAN_ENERGY, 100));
    EQUAL(a.number, BILZHAAN_ACCEPTED);
    EQUAL(a.words[BILZHAAN_ANSWER_IN_FORCE], BILZHAAN_FRESH_STANDING_IN_FORCE);
    EQUAL(a.words[BILZHAAN_ANSWER_RAMP_UP], 21);
    EQUAL(a.words[BILZHAAN_ANSWER_RAMP_DOWN], 22);
    EQUAL(a.words[BILZHAAN_ANSWER_PAIRS], 1000);
    EQUAL(a.words[BILZHAAN_ANSWER_PAIRS + 1], 10);
    EQUAL(a.words[BILZHAAN_ANSWER_WORDS - 2], 1009);
    EQUAL(a.words[BILZHAAN_ANSWER_WORDS - 1], 19);
    EQUAL(sizeof a.words / sizeof a.words[0], BILZHAAN_ANSWER_WORDS);
    EQUAL(a.sum, 145);
    /* the ten pairs fill the record and the answer */
    EQUAL(BILZHAAN_AT_W0 + 8 * BILZHAAN_PAIRS_ENERGY, BILZHAAN_RECORD_BYTES);
    EQUAL(BILZHAAN_ANSWER_PAIRS + 2 * BILZHAAN_PAIRS_ENERGY, BILZHAAN_ANSWER_WORDS);

    for (int f = 0; f < 2; f++) {
        r = offer_for(BILZHAAN_CALL_VARIATION, f, BILZHAAN_PRIMARY_RESERVE, 100, 0);
        set_proportion(&r, 300 + f);
        for (int pair = 0; pair < BILZHAAN_PAIRS_OTHER; pair++)
            set_pair(&r, pair, 3 + pair, 6);
        EQUAL(number_of(r), BILZHAAN_ACCEPTED);
        set_pair(&r, BILZHAAN_PAIRS_OTHER, 8, 1);
        EQUAL(number_of(r), BILZHAAN_UNUSED_BYTE);
    }
    a = call(look_up_of(1, BILZHAAN_PRIMARY_RESERVE, 100));
    EQUAL(a.words[BILZHAAN_ANSWER_IN_FORCE], BILZHAAN_FRESH_VARIATION_IN_FORCE);
    EQUAL(a.words[BILZHAAN_ANSWER_PROPORTION], 301);
    EQUAL(a.words[BILZHAAN_ANSWER_PAIRS + 2 * (BILZHAAN_PAIRS_OTHER - 1)], 7);
    a = call(total_of(BILZHAAN_PRIMARY_RESERVE, 100));
    EQUAL(a.number, BILZHAAN_ACCEPTED);
    EQUAL(a.words[BILZHAAN_ANSWER_COUNT], 2);
    EQUAL(a.sum, 60);

    EQUAL(number_of(varied(BILZHAAN_ENERGY, 0, 5, 0)), BILZHAAN_BLANK_REFUSED);
    r = varied(BILZHAAN_ENERGY, 0, 0, 0);
    set_pair(&r, 1, 5, 1);
    EQUAL(number_of(r), BILZHAAN_BLANK_REFUSED);
    EQUAL(BILZHAAN_PRICED_BLANK, BILZHAAN_BLANK_REFUSED);
    r = varied(BILZHAAN_ENERGY, 0, 5, 1);
    set_pair(&r, 1, 5, 1);
    EQUAL(number_of(r), BILZHAAN_PRICES_DONT_RISE);
    EQUAL(bilzhaan_open(words, room, 1, 1, usual_limits), BILZHAAN_ACCEPTED);
    EQUAL(number_of(look_up_of(0, 0, 100)), BILZHAAN_NO_KIND);
}

/* ---- fresh: a standing offer and a variation up to the cutoff, and from it on ---- */

static int32_t in_force(int service)
{
    return call(look_up_of(0, service, 100)).words[BILZHAAN_ANSWER_IN_FORCE];
}

static void fresh(void)
{
    open_usual(1000);
    struct record standing = varied(BILZHAAN_ENERGY, 0, 5, 100);
    EQUAL(number_of(with_byte(standing, BILZHAAN_AT_CALL, BILZHAAN_CALL_STANDING)), BILZHAAN_ACCEPTED);
    EQUAL(number_of(varied(BILZHAAN_REGULATION, 0, 5, 100)), BILZHAAN_ACCEPTED);
    EQUAL(number_of(clock_at(1000 + BILZHAAN_SCHEDULE_CUTOFF_MINUTES - 1)), BILZHAAN_ACCEPTED);
    EQUAL(in_force(BILZHAAN_ENERGY), BILZHAAN_FRESH_STANDING_IN_FORCE);
    EQUAL(in_force(BILZHAAN_REGULATION), BILZHAAN_FRESH_VARIATION_IN_FORCE);
    EQUAL(number_of(clock_at(1000 + BILZHAAN_SCHEDULE_CUTOFF_MINUTES)), BILZHAAN_ACCEPTED);
    EQUAL(in_force(BILZHAAN_ENERGY), BILZHAAN_STANDING_IN_FORCE);
    EQUAL(in_force(BILZHAAN_REGULATION), BILZHAAN_VARIATION_IN_FORCE);
}

int main(void)
{
    versions();
    sizes();
    limits();
    times();
    dates();
    places();
    maxima();
    links();
    reasons();
    answers();
    fresh();
    printf("%ld passed, %ld failed\n", passed, failed);
    return failed != 0;
}
