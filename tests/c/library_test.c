/* Tests of the library from C by hand: records, the opening, every refusal from 1 to 20, gate closure, a slot's
 * next period, variations taken back, reasons of standing offers, import links, fresh offers, blank pairs, damaged books,
 * what the header says of lent words, document 01's cases and its worked run. Prints 'N passed, M failed'. */
#include "library_test.h"

#include <inttypes.h>
#include <stdio.h>
#include <string.h>

/* Document 01's program: a book of 16,224 words, "all zero before opening, F 1, S 1, energy −4,500.00 to 4,500.00,
 * others to 4,500.00". */
static int32_t program_words[16224];
static const int32_t program_limits[6] = {-450000, 450000, 450000, 450000, 450000, 450000};

static struct record capability(int32_t generation, int32_t combined)
{
    int32_t w[17] = {BILZHAAN_GENERATION, generation, combined, 0, 0, 0, 0, 0, 0, 0, 0, 0, 1, 0, 0, 0, 0};
    return capability_of(0, w);
}

static struct record offer(int which, int32_t period, int reason, int32_t q1, int32_t price1, int32_t q2, int32_t price2)
{
    struct record r = offer_for(which, 0, BILZHAAN_ENERGY, period, reason);
    set_pair(&r, 0, price1, q1);
    set_pair(&r, 1, price2, q2);
    return r;
}

static void worked_run(void)
{
    static const char expected[] = "0 0 0\n0 0 0\n0 3 700\n0 0 0\n0 4 300\n0 1 300\n10 0 0\n0 0 0\n0 1 700\n";
    struct record input[9];
    input[0] = capability(1300, 800);
    input[1] = offer(BILZHAAN_CALL_STANDING, 4, 0, 500, 4000, 200, 5000);
    input[2] = look_up_of(0, 0, 4);
    input[3] = offer(BILZHAAN_CALL_VARIATION, 4, 0, 300, 4000, 0, 0);
    input[4] = look_up_of(0, 0, 4);
    input[5] = total_of(0, 4);
    input[6] = look_up_of(0, 0, 340);
    input[7] = clock_at(1440);
    input[8] = look_up_of(0, 0, 340);
    char printed[512];
    int n = 0;
    EQUAL(bilzhaan_open(program_words, 16224, 1, 1, program_limits), 0);
    for (int i = 0; i < 9; i++) {
        struct bilzhaan_answer a = bilzhaan_call(program_words, 16224, input[i].bytes, sizeof input[i].bytes);
        n += snprintf(printed + n, sizeof printed - (size_t)n, "%" PRIu32 " %" PRId32 " %" PRId64 "\n", a.number,
                      a.words[0], a.sum);
    }
    CHECK(strcmp(printed, expected) == 0);
}

/* The number of the last record after a capability, the clock and a standing offer for slot 4 if there is one. */
static uint32_t case_number(int32_t combined, int32_t now, bool held, const struct record *notice, struct record last)
{
    struct book b = book_for(1, 1);
    EQUAL(number_of(&b, capability(1300, combined)), 0);
    EQUAL(number_of(&b, clock_at(now)), 0);
    if (held)
        EQUAL(number_of(&b, offer(BILZHAAN_CALL_STANDING, 4, 0, 500, 4000, 200, 5000)), 0);
    if (notice)
        EQUAL(number_of(&b, *notice), 0);
    return number_of(&b, last);
}

/* "Cases" */
static void cases(void)
{
    int v = BILZHAAN_CALL_VARIATION;
    EQUAL(case_number(800, 0, false, NULL, offer(v, 4, 0, 1300, 4000, 0, 0)), 16);
    EQUAL(case_number(800, 0, false, NULL, offer(v, 4, 0, 700, 4000, 0, 0)), 0);
    EQUAL(case_number(800, 0, false, NULL, offer(v, 4, 0, 100, 5000, 100, 4000)), 13);
    EQUAL(case_number(800, 0, false, NULL, offer(v, 4, 0, 100, 4000, 100, 5000)), 0);
    EQUAL(case_number(800, 0, false, NULL, offer(v, 4, 0, 500, 10000, 0, 0)), 0);
    EQUAL(case_number(800, 0, false, NULL, offer(v, 4, 0, 500, 10000, 0, 5000)), 12);
    EQUAL(case_number(800, 0, false, NULL, offer(v, 4, 0, 0, 5000, 0, 0)), 12);
    EQUAL(case_number(800, 55, false, NULL, offer(v, 4, 0, 100, 4000, 0, 0)), 0);
    EQUAL(case_number(800, 56, false, NULL, offer(v, 4, 0, 100, 4000, 0, 0)), 17);
    EQUAL(case_number(800, 120, false, NULL, offer(v, 4, 0, 100, 4000, 0, 0)), 10);
    struct record notice = notice_of(BILZHAAN_NOTICE_SHORTFALL, 4, 4);
    EQUAL(case_number(800, 56, true, &notice, offer(v, 4, 4, 500, 4000, 300, 5000)), 0);
    EQUAL(case_number(800, 56, true, &notice, offer(v, 4, 4, 450, 4000, 300, 5000)), 17);
}

/* Two books side by side: neither call leaves anything behind for the other. */
static void two_books(void)
{
    struct book a = usual_book(0), b = usual_book(1440);
    struct record r = offer(BILZHAAN_CALL_STANDING, 100, 0, 10, 1, 20, 2);
    EQUAL(number_of(&a, r), 0);
    EQUAL(number_of(&b, look_up_of(0, 0, 100)), BILZHAAN_NOTHING_IN_FORCE);
    EQUAL(number_of(&b, r), 0);
    EQUAL(number_of(&a, r), BILZHAAN_DUPLICATE);
    EQUAL(call(&a, look_up_of(0, 0, 40)).number, BILZHAAN_NOTHING_IN_FORCE);
    EQUAL(call(&b, look_up_of(0, 0, 40)).number, BILZHAAN_PERIOD_REFUSED);
}

int main(void)
{
    name_stray_touches();
    worked_run();
    cases();
    two_books();
    test_records();
    test_opening();
    test_refusals();
    test_gate();
    test_next_period();
    test_taken_back();
    test_standing_reasons();
    test_links();
    test_fresh();
    test_blanks();
    test_damaged();
    test_lent();
    EQUAL(numbers_drawn, 0xFFFFF); /* 0 to 19; 20 is the opening's and the record test's */
    printf("%ld passed, %ld failed\n", passed, failed);
    return failed != 0;
}
