/* The inline functions of include/bilzhaan_record.h: the bytes of the worked run, every field of the nine calls, values that
 * no byte holds, and an answer read back. Argument: samples/worked-run.records. Prints 'N passed, M failed'.
 * With the argument --texts it prints each number and its text instead, parted by a tab. */
#include "bilzhaan_record.h"
#include "records.h"

#include <inttypes.h>
#include <stdio.h>
#include <string.h>

static long passed, failed;

static void equal_at(int64_t got, int64_t expected, const char *what, int line)
{
    if (got == expected) {
        passed++;
    } else if (failed++ < 20) {
        printf("record_header_test.c:%d: %s is %" PRId64 ", expected %" PRId64 "\n", line, what, got, expected);
    }
}

#define EQUAL(got, expected) equal_at((int64_t)(got), (int64_t)(expected), #got, __LINE__)

/* The written record, with room after it that must stay as it was. */
static uint8_t written[BILZHAAN_RECORD_BYTES + 16];

static void same_at(struct record expected, int line)
{
    static const uint8_t untouched[16] = {0xA5, 0xA5, 0xA5, 0xA5, 0xA5, 0xA5, 0xA5, 0xA5,
                                          0xA5, 0xA5, 0xA5, 0xA5, 0xA5, 0xA5, 0xA5, 0xA5};
    equal_at(memcmp(written, expected.bytes, sizeof expected.bytes), 0, "the difference from the record", line);
    equal_at(memcmp(written + BILZHAAN_RECORD_BYTES, untouched, sizeof untouched), 0, "the difference after it", line);
    memset(written, 0xA5, sizeof written);
}

#define WRITES(expected) same_at((expected), __LINE__)

/* ---- the worked run of document 01, as its bytes are stored ---- */

static void worked_run(const char *path)
{
    uint8_t records[10][BILZHAAN_RECORD_BYTES];
    FILE *file = fopen(path, "rb");
    EQUAL(file != NULL, 1);
    if (!file)
        return;
    EQUAL(fread(records, 1, sizeof records, file), 9 * BILZHAAN_RECORD_BYTES);
    fclose(file);
    const struct bilzhaan_capability capability = {.kind = BILZHAAN_GENERATION, .max_generation = 1300, .max_combined = 800,
                                                   .registered = {1}};
    const struct bilzhaan_offer standing = {.period = 4, .pairs = {{4000, 500}, {5000, 200}}};
    const struct bilzhaan_offer variation = {.period = 4, .pairs = {{4000, 300}}};
    for (int i = 0; i < 9; i++) {
        switch (i) {
        case 0: bilzhaan_write_capability(written, &capability); break;
        case 1: bilzhaan_write_standing(written, &standing); break;
        case 3: bilzhaan_write_variation(written, &variation); break;
        case 5: bilzhaan_write_total(written, BILZHAAN_ENERGY, 4); break;
        case 7: bilzhaan_write_clock(written, 1440); break;
        default: bilzhaan_write_look_up(written, 0, BILZHAAN_ENERGY, i < 5 ? 4 : 340);
        }
        EQUAL(memcmp(written, records[i], BILZHAAN_RECORD_BYTES), 0);
    }
    memset(written, 0xA5, sizeof written);
}

/* ---- every field, at values whose four bytes differ ---- */

enum { FIRST = 0x01020304, SECOND = -0x01020304 };

static void short_calls(void)
{
    static const int32_t values[] = {0, 1, 255, 256, FIRST, SECOND, INT32_MIN, INT32_MAX};
    for (int i = 0; i < 8; i++) {
        int32_t value = values[i];
        bilzhaan_write_clock(written, value);
        WRITES(clock_at(value));
        bilzhaan_write_outage(written, 63, value, FIRST);
        WRITES(outage_of(63, value, FIRST));
        bilzhaan_write_notice(written, BILZHAAN_NOTICE_SHORTFALL, SECOND, value);
        WRITES(notice_of(BILZHAAN_NOTICE_SHORTFALL, SECOND, value));
        bilzhaan_write_look_up(written, 63, 4, value);
        WRITES(look_up_of(63, 4, value));
        bilzhaan_write_total(written, 3, value);
        WRITES(total_of(3, value));
    }
    bilzhaan_write_withdrawal(written);
    WRITES(withdrawal_of(BILZHAAN_NOTICE_SYSTEM_STATUS));
}

static void capabilities(void)
{
    const struct bilzhaan_capability c = {
        .facility = 17, .kind = 100, .max_generation = 101, .max_combined = 102, .max_reserve = {103, 104, 105},
        .max_regulation = 106, .max_ramp_up = 107, .max_ramp_down = 108, .max_proportion = {109, 110, 111},
        .registered = {112, 113, 114, 115, 116}};
    int32_t w[BILZHAAN_CAPABILITY_WORDS];
    for (int i = 0; i < BILZHAAN_CAPABILITY_WORDS; i++)
        w[i] = 100 + i; /* W0 to W16 as document 01 has them */
    bilzhaan_write_capability(written, &c);
    WRITES(capability_of(17, w));
}

static void offers(void)
{
    struct bilzhaan_offer o = {.facility = 63, .service = 4, .period = FIRST, .reason = 6, .proportion = 0xFEDC,
                               .ramp_up = SECOND, .ramp_down = FIRST};
    for (int variation = 0; variation <= 1; variation++) {
        struct record r = offer_for(variation ? BILZHAAN_CALL_VARIATION : BILZHAAN_CALL_STANDING, 63, 4, FIRST, 6);
        set_proportion(&r, 0xFEDC);
        set_ramps(&r, SECOND, FIRST);
        for (int pair = 0; pair < 10; pair++) {
            o.pairs[pair].price = SECOND + pair;
            o.pairs[pair].quantity = FIRST + pair;
            set_pair(&r, pair, SECOND + pair, FIRST + pair);
        }
        if (variation)
            bilzhaan_write_variation(written, &o);
        else
            bilzhaan_write_standing(written, &o);
        WRITES(r);
    }
}

/* ---- values that no byte holds: none is cut to one that a byte holds ---- */

static int32_t words[BILZHAAN_BOOK_WORDS(2, 5)];
static const int32_t limits[BILZHAAN_LIMITS] = {-450000, 450000, 450000, 450000, 450000, 450000};

static uint32_t filed(void)
{
    return bilzhaan_call(words, sizeof words / sizeof words[0], written, BILZHAAN_RECORD_BYTES).number;
}

static void open_with_a_load(void)
{
    const struct bilzhaan_capability generation = {
        .kind = BILZHAAN_GENERATION, .max_generation = 500, .max_combined = 500, .max_ramp_up = 50, .max_ramp_down = 40,
        .registered = {1}};
    const struct bilzhaan_capability load = {.facility = 1, .kind = BILZHAAN_LOAD, .max_reserve = {100, 100, 100},
                                             .registered = {0, 1, 1, 1, 0}};
    EQUAL(bilzhaan_open(words, sizeof words / sizeof words[0], 2, 5, limits), BILZHAAN_ACCEPTED);
    bilzhaan_write_capability(written, &generation);
    EQUAL(filed(), BILZHAAN_ACCEPTED);
    bilzhaan_write_capability(written, &load);
    EQUAL(filed(), BILZHAAN_ACCEPTED);
}

static void out_of_range(void)
{
    static const int32_t values[] = {-1, -256, 256, 257, 65536, INT32_MIN, INT32_MAX};
    open_with_a_load();
    for (int i = 0; i < 7; i++) {
        int32_t value = values[i];
        bilzhaan_write_look_up(written, value, 0, 100);
        EQUAL(filed(), BILZHAAN_NOT_IN_BOOK);
        bilzhaan_write_look_up(written, 0, value, 100);
        EQUAL(filed(), BILZHAAN_NOT_IN_BOOK);
        bilzhaan_write_total(written, value, 100);
        EQUAL(filed(), BILZHAAN_NOT_IN_BOOK);
        bilzhaan_write_outage(written, value, 0, 1);
        EQUAL(filed(), BILZHAAN_NOT_IN_BOOK);
        bilzhaan_write_notice(written, value, 0, 1);
        EQUAL(filed(), BILZHAAN_NOTICE_REFUSED);
        struct bilzhaan_offer o = {.facility = 1, .service = 1, .period = 100, .reason = value, .pairs = {{1, 1}}};
        bilzhaan_write_variation(written, &o);
        EQUAL(filed(), BILZHAAN_OUT_OF_RANGE);
        bilzhaan_write_standing(written, &o);
        EQUAL(filed(), BILZHAAN_OUT_OF_RANGE);
        o.reason = 0;
        o.facility = value;
        bilzhaan_write_variation(written, &o);
        EQUAL(filed(), BILZHAAN_NOT_IN_BOOK);
        o.facility = 1;
        o.service = value;
        bilzhaan_write_standing(written, &o);
        EQUAL(filed(), BILZHAAN_NOT_IN_BOOK);
        const struct bilzhaan_capability c = {.facility = value, .kind = BILZHAAN_LOAD};
        bilzhaan_write_capability(written, &c);
        EQUAL(filed(), BILZHAAN_NOT_IN_BOOK);
        if (value >= 0 && value <= 65535)
            continue;
        o.service = 1; /* a load's proportion isn't tested otherwise */
        o.proportion = value;
        bilzhaan_write_variation(written, &o);
        EQUAL(filed(), BILZHAAN_UNUSED_BYTE);
    }
}

/* ---- texts; those of 1 to 21 are compared with docs/REFUSALS.md ---- */

static void texts(void)
{
    EQUAL(strcmp(bilzhaan_number_text(0), "Accepted."), 0);
    for (uint32_t number = 0; number <= 21; number++)
        EQUAL(strcmp(bilzhaan_number_text(number), bilzhaan_number_text(22)) != 0, 1);
    EQUAL(strcmp(bilzhaan_number_text(UINT32_MAX), bilzhaan_number_text(22)), 0);
}

/* ---- an offer that is filed, answered and filed again ---- */

/* For period 100. */
static struct bilzhaan_answer look_up(int32_t facility, int32_t service)
{
    bilzhaan_write_look_up(written, facility, service, 100);
    return bilzhaan_call(words, sizeof words / sizeof words[0], written, BILZHAAN_RECORD_BYTES);
}

static void answered(void)
{
    struct bilzhaan_offer o = {.facility = 0, .service = BILZHAAN_ENERGY, .period = 100, .ramp_up = 50, .ramp_down = 40};
    for (int pair = 0; pair < 10; pair++) {
        o.pairs[pair].price = 100 * pair;
        o.pairs[pair].quantity = 10 + pair;
    }
    open_with_a_load();
    bilzhaan_write_standing(written, &o);
    EQUAL(filed(), BILZHAAN_ACCEPTED);
    struct bilzhaan_answer a = look_up(0, BILZHAAN_ENERGY);
    EQUAL(a.sum, 145);
    struct bilzhaan_offer again = bilzhaan_answered_offer(&a);
    EQUAL(again.facility | again.service | again.period | again.reason, 0);
    again.period = 100;
    EQUAL(memcmp(&again, &o, sizeof o), 0);
    bilzhaan_write_standing(written, &again);
    EQUAL(filed(), BILZHAAN_DUPLICATE);
    struct bilzhaan_offer reserve = {.facility = 1, .service = 2, .period = 100, .proportion = 65535, .pairs = {{1, 1}}};
    bilzhaan_write_variation(written, &reserve);
    EQUAL(filed(), BILZHAAN_ACCEPTED);
    a = look_up(1, 2);
    EQUAL(bilzhaan_answered_offer(&a).proportion, 65535);
}

/* A held offer with a blank before its second pair, as libraries older than 1.7.0 took it: it draws 12 until the blank is last. */
static void answered_with_a_blank(void)
{
    struct bilzhaan_offer o = {.period = 100, .pairs = {{1, 5}, {2, 6}}};
    open_with_a_load();
    bilzhaan_write_standing(written, &o);
    EQUAL(filed(), BILZHAAN_ACCEPTED);
    int32_t *pairs = words + 64 + 32 * 2 + 24 * 100 + 4;
    for (int i = 2; i < 4; i++) {
        pairs[i + 2] = pairs[i];
        pairs[i] = 0;
    }
    struct bilzhaan_answer a = look_up(0, BILZHAAN_ENERGY);
    EQUAL(a.sum, 11);
    o = bilzhaan_answered_offer(&a);
    o.period = 100;
    EQUAL(o.pairs[1].quantity, 0);
    EQUAL(o.pairs[2].quantity, 6);
    bilzhaan_write_standing(written, &o);
    EQUAL(filed(), BILZHAAN_BLANK_REFUSED);
    const struct bilzhaan_pair blank = o.pairs[1];
    o.pairs[1] = o.pairs[2];
    o.pairs[2] = blank;
    bilzhaan_write_standing(written, &o);
    EQUAL(filed(), BILZHAAN_ACCEPTED);
    EQUAL(filed(), BILZHAAN_DUPLICATE);
}

/* A set trips inside gate closure: its standing offer, field by name, without the reason and with it. */
static void standing_in_an_outage(void)
{
    struct bilzhaan_offer o = {.period = 100, .pairs = {{1, 9}}};
    open_with_a_load();
    bilzhaan_write_standing(written, &o);
    EQUAL(filed(), BILZHAAN_ACCEPTED);
    bilzhaan_write_clock(written, 2970);
    EQUAL(filed(), BILZHAAN_ACCEPTED);
    bilzhaan_write_outage(written, 0, 2970, 3);
    EQUAL(filed(), BILZHAAN_ACCEPTED);
    o.pairs[0].quantity = 5;
    bilzhaan_write_standing(written, &o);
    EQUAL(filed(), BILZHAAN_GATE_CLOSED);
    o.reason = BILZHAAN_REASON_FORCED_OUTAGE;
    bilzhaan_write_standing(written, &o);
    EQUAL(filed(), BILZHAAN_ACCEPTED);
    struct bilzhaan_answer a = look_up(0, BILZHAAN_ENERGY);
    EQUAL(bilzhaan_is_variation(&a), 0);
    EQUAL(a.sum, 5);
    EQUAL(bilzhaan_answered_offer(&a).reason, BILZHAAN_REASON_NONE);
}

/* A variation without pairs is the record that takes one back. */
static void taken_back(void)
{
    const struct bilzhaan_offer standing = {.period = 100, .pairs = {{1, 9}}}, variation = {.period = 100, .pairs = {{1, 5}}};
    const struct bilzhaan_offer none = {.period = 100, .reason = BILZHAAN_REASON_FORCED_OUTAGE};
    struct record r = offer_for(BILZHAAN_CALL_VARIATION, 0, BILZHAAN_ENERGY, 100, 2);
    open_with_a_load();
    bilzhaan_write_standing(written, &standing);
    EQUAL(filed(), BILZHAAN_ACCEPTED);
    bilzhaan_write_variation(written, &variation);
    EQUAL(filed(), BILZHAAN_ACCEPTED);
    bilzhaan_write_variation(written, &none);
    EQUAL(memcmp(written, r.bytes, BILZHAAN_RECORD_BYTES), 0);
    EQUAL(filed(), BILZHAAN_ACCEPTED);
    struct bilzhaan_answer a = look_up(0, BILZHAAN_ENERGY);
    EQUAL(a.words[BILZHAAN_ANSWER_IN_FORCE], BILZHAAN_FRESH_STANDING_IN_FORCE);
    EQUAL(a.sum, 9);
}

/* Word 0 of a look-up by its two questions: a standing offer and then a variation, each fresh and five minutes later. */
static void variation_and_fresh(void)
{
    const struct bilzhaan_offer offer = {.period = 100, .pairs = {{1, 9}}};
    open_with_a_load();
    struct bilzhaan_answer a = look_up(0, BILZHAAN_ENERGY); /* nothing in force */
    EQUAL(bilzhaan_is_variation(&a) || bilzhaan_is_fresh(&a), 0);
    for (int step = 0; step < 4; step++) {
        if (step == 0)
            bilzhaan_write_standing(written, &offer);
        else if (step == 2)
            bilzhaan_write_variation(written, &offer);
        else
            bilzhaan_write_clock(written, 10 * step);
        EQUAL(filed(), BILZHAAN_ACCEPTED);
        a = look_up(0, BILZHAAN_ENERGY);
        EQUAL(bilzhaan_is_variation(&a), step >= 2);
        EQUAL(bilzhaan_is_fresh(&a), step == 0 || step == 2);
    }
}

/* A link's capability, field by name, and its energy. */
static void import_link(void)
{
    const struct bilzhaan_capability link = {.facility = 1, .kind = BILZHAAN_LINK, .max_generation = 90, .max_combined = 80,
                                             .registered = {1}};
    const struct bilzhaan_offer energy = {.facility = 1, .period = 100, .pairs = {{1, 80}}};
    const struct bilzhaan_offer reserve = {.facility = 1, .service = 1, .period = 100, .pairs = {{1, 80}}};
    EQUAL(bilzhaan_open(words, sizeof words / sizeof words[0], 2, 5, limits), BILZHAAN_ACCEPTED);
    bilzhaan_write_capability(written, &link);
    EQUAL(filed(), BILZHAAN_ACCEPTED);
    bilzhaan_write_standing(written, &energy);
    EQUAL(filed(), BILZHAAN_ACCEPTED);
    bilzhaan_write_standing(written, &reserve);
    EQUAL(filed(), BILZHAAN_NOT_REGISTERED);
    bilzhaan_write_outage(written, 1, 0, 1);
    EQUAL(filed(), BILZHAAN_NOTICE_REFUSED);
}

int main(int count, char **arguments)
{
    if (count == 2 && strcmp(arguments[1], "--texts") == 0) {
        for (uint32_t number = 0; number <= 22; number++)
            printf("%" PRIu32 "\t%s\n", number, bilzhaan_number_text(number));
        return 0;
    }
    if (count != 2) {
        fprintf(stderr, "usage: record_header_test RECORDS | --texts\n");
        return 2;
    }
    memset(written, 0xA5, sizeof written);
    worked_run(arguments[1]);
    short_calls();
    capabilities();
    offers();
    out_of_range();
    answered();
    answered_with_a_blank();
    standing_in_an_outage();
    taken_back();
    variation_and_fresh();
    import_link();
    texts();
    printf("%ld passed, %ld failed\n", passed, failed);
    return failed != 0;
}
