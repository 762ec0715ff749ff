/* Random lists of calls: the library's answers against the list machine's, call by call at number, 24 words and sum, and every
 * word of the book; then striking out, and damaged books against the plain book. Arguments: seconds (20), seed (1); or --every-size,
 * calls, seed (1): lists of every F and S in turn. A third: that list alone. Ends with 'N passed, M failed'. */
#define _DEFAULT_SOURCE
#include "counted_calls.h"
#include "random_lists.h"
#include "struck_out.h"

#include <inttypes.h>
#include <limits.h>
#include <stdio.h>
#include <stdlib.h>
#include <string.h>
#include <time.h>

static long lists, calls_made;

/* ---- sizes ---- */

/* By F and by S, 1 (0) or 5 (1). */
static long calls_of_size[BILZHAAN_FACILITIES_MOST + 1][2];

struct size {
    int32_t facilities, services;
};

/* Mostly small, as a list's time goes by its book's. */
static struct size some_size(struct random *r)
{
    int32_t most = one_in(r, 2) ? 3 : one_in(r, 2) ? 8 : 64;
    struct size size = {one_in(r, 30) ? 64 : (int32_t)between(r, 1, most), one_in(r, 2) ? 1 : 5};
    return size;
}

/* Each in its turn, over and over. */
static struct size size_in_turn(long number)
{
    struct size size = {(int32_t)((number - 1) / 2 % 64 + 1), number % 2 ? 1 : 5};
    return size;
}

/* ---- what must have been tried ---- */

static void tried(const char *what, int which, long times)
{
    if (times > 0) {
        passed++;
    } else {
        failed++;
        printf("never tried: %s %d\n", what, which);
    }
}

static void print_sizes(void)
{
    long least = LONG_MAX, most = 0, calls = 0;
    for (int i = 0; i < 2 * BILZHAAN_FACILITIES_MOST; i++) {
        long of_size = calls_of_size[i / 2 + 1][i % 2];
        least = of_size < least ? of_size : least;
        most = of_size > most ? of_size : most;
        calls += of_size;
    }
    printf("%ld calls, %ld of them on damaged books; of each F 1 to 64 with S 1 and 5 %ld to %ld; pages written: %ld\n", calls,
           damaged_calls, least, most, pages_written);
}

static void tried_sizes(void)
{
    for (int i = 0; i < 2 * BILZHAAN_FACILITIES_MOST; i++)
        tried(i % 2 ? "S 5 with F" : "S 1 with F", i / 2 + 1, calls_of_size[i / 2 + 1][i % 2]);
}

/* What came of the minutes and the ramps. */
static void print_minutes(void)
{
    printf("\nlook-ups by word 0:");
    for (int i = 1; i <= 4; i++)
        printf(" %d:%ld", i, shown[i]);
    for (int h = 0; h <= 1; h++) {
        printf("; of a %s by age:", h ? "variation" : "standing offer");
        for (int i = 0; i < AGES; i++)
            printf(" %d:%ld", i, at_age[h][i]);
    }
    printf("\nduplicates of an earlier minute: %ld; variations filed again: %ld; taken back to a standing offer, not fresh %ld,"
           " fresh %ld", duplicated_later, varied_again, uncovered[0], uncovered[1]);
    printf("\non damaged books: look-ups of ramps below 0 %ld, of minutes to come %ld, of minutes below 0 %ld, of ages past 32 bits"
           " %ld; duplicates of such minutes %ld; ramps past 9,999 within their maxima %ld; calls on version 1: %ld", ramps_below_0,
           minutes_to_come, minutes_below_0, ages_past_32_bits, duplicated_damaged, ramps_past_9999, of_version_1);
}

static void tried_minutes(void)
{
    for (int i = 1; i <= 4; i++)
        tried("word 0 of a look-up", i, shown[i]);
    for (int i = 0; i < 2 * AGES; i++)
        tried(i < AGES ? "standing offer looked up at age" : "variation looked up at age", i % AGES, at_age[i / AGES][i % AGES]);
    tried("duplicate of an earlier minute", 18, duplicated_later);
    tried("variation filed again", 0, varied_again);
    tried("variation taken back to a standing offer that isn't fresh", 0, uncovered[0]);
    tried("variation taken back to a fresh standing offer", 0, uncovered[1]);
    tried("ramp below 0 looked up", 0, ramps_below_0);
    tried("minute to come looked up", 0, minutes_to_come);
    tried("minute below 0 looked up", 0, minutes_below_0);
    tried("age past 32 bits looked up", 0, ages_past_32_bits);
    tried("duplicate of a damaged minute", 18, duplicated_damaged);
    tried("ramp past 9,999 within its maximum", 14, ramps_past_9999);
    tried("book of version 1", 1, of_version_1);
}

/* What came of blanks before filled pairs, and of blanks after them. */
static void print_blanks(void)
{
    const struct blanks *v = &blanks;
    printf("\n12 by a blank's price %ld, by its place %ld, where prices fall as well %ld; 11 beside such a blank %ld; accepted with blanks"
           " last %ld, without one %ld", v->by_price, v->by_place, v->falling, v->out_of_range, v->last, v->none);
    printf("; held on damaged books: looked up %ld, filed again %ld, with blanks last %ld; inside gate closure as old, accepted %ld, 17 by"
           " prices alone %ld, as what a take-back leaves %ld, %ld", v->looked_up, v->filed_again, v->closed_up, v->old[0], v->old[1],
           v->back_to[0], v->back_to[1]);
}

static void tried_blanks(void)
{
    const struct blanks *v = &blanks;
    tried("blank with a price", 12, v->by_price);
    tried("blank before a filled pair", 12, v->by_place);
    tried("blank before a filled pair where prices fall", 12, v->falling);
    tried("blank before a filled pair, out of range", 11, v->out_of_range);
    tried("blanks after filled pairs", 0, v->last);
    tried("offer without a blank", 0, v->none);
    tried("held blank before a filled pair looked up", 0, v->looked_up);
    tried("held blank before a filled pair filed again", 12, v->filed_again);
    tried("held blank before a filled pair filed with its blanks last", 0, v->closed_up);
    for (int i = 0; i <= 1; i++) {
        tried("held blank before a filled pair as old", i ? 17 : 0, v->old[i]);
        tried("held blank before a filled pair as what a take-back leaves", i ? 17 : 0, v->back_to[i]);
    }
}

/* What came of standing offers and the gate. */
static void print_revisions(void)
{
    const struct revisions *v = &revisions;
    printf("\nstanding offers over a held one, accepted inside gate closure by reason:");
    for (int i = 1; i <= 6; i++)
        printf(" %d:%ld", i, v->accepted[i]);
    printf("; of links 3:%ld 4:%ld 5:%ld; of blanks %ld, behind a variation %ld, for a period of the next week %ld", v->of_links[3],
           v->of_links[4], v->of_links[5], v->to_blank, v->behind_variation, v->for_next_week);
    printf("; 17 without a reason %ld, with one %ld, by prices alone %ld; 18 inside it %ld", v->refused[0], v->refused[1], v->repriced,
           v->duplicates);
    printf("; reasons that aren't asked for: of first ones inside it %ld, of open ones %ld; 11 by the reason %ld; on damaged books inside"
           " it: %ld", v->first_with_reason, v->open_with_reason, v->past_6, v->damaged);
}

static void tried_revisions(void)
{
    const struct revisions *v = &revisions;
    for (int i = 1; i <= 6; i++)
        tried("standing offer inside gate closure, reason", i, v->accepted[i]);
    for (int i = 3; i <= 5; i++)
        tried("standing offer of a link inside gate closure, reason", i, v->of_links[i]);
    tried("standing offer of blanks inside gate closure", 0, v->to_blank);
    tried("standing offer behind a variation inside gate closure", 0, v->behind_variation);
    tried("standing offer inside gate closure for a period of the next week", 0, v->for_next_week);
    for (int i = 0; i <= 1; i++)
        tried(i ? "standing offer refused with a reason" : "standing offer refused without a reason", 17, v->refused[i]);
    tried("standing offer refused by its prices alone", 17, v->repriced);
    tried("duplicate inside gate closure", 18, v->duplicates);
    tried("first standing offer inside gate closure with a reason", 0, v->first_with_reason);
    tried("open standing offer with a reason", 0, v->open_with_reason);
    tried("standing offer's reason above 6", 11, v->past_6);
    tried("standing offer inside gate closure on a damaged book", 0, v->damaged);
}

static void print_struck(void)
{
    long after = 0;
    for (int i = 0; i < 20; i++)
        after += struck.after[i];
    printf("\nstruck out, in each list for one facility: refused calls %ld, filings of other facilities %ld; calls kept %ld; look-ups"
           " compared inside %ld, after both lists %ld, by number", struck.refused, struck.filings, struck.kept, struck.inside, after);
    for (int i = 0; i < 20; i++)
        if (struck.after[i] > 0)
            printf(" %d:%ld", i, struck.after[i]);
    printf("; answered by a link's offer %ld", struck.of_links);
}

static void tried_struck(void)
{
    static const int numbers[] = {0, 3, 5, 10, 19};
    tried("refused call struck out", 0, struck.refused);
    tried("filing struck out", 0, struck.filings);
    tried("look-up inside the shorter list", 0, struck.inside);
    for (int i = 0; i < 5; i++)
        tried("look-up after the shorter list", numbers[i], struck.after[numbers[i]]);
    tried("look-up of a link after the shorter list", 0, struck.of_links);
}

static void print_counts(bool is_every_size)
{
    printf("%ld lists, %ld of them damaged at the end\n", lists, damaged_lists);
    print_sizes();
    printf("numbers drawn:");
    for (int i = 0; i < 20; i++)
        printf(" %d:%ld", i, drawn[i]);
    printf("\naccepted calls:");
    for (int i = 1; i <= 9; i++)
        printf(" %d:%ld", i, accepted[i]);
    printf("\nvariations accepted inside gate closure by reason:");
    for (int i = 1; i <= 6; i++)
        printf(" %d:%ld", i, inside_gate[i]);
    printf("\nvariations taken back, without a standing offer and with one: gate open %ld, %ld; inside gate closure %ld, %ld;",
           taken_back[0][0], taken_back[0][1], taken_back[1][0], taken_back[1][1]);
    printf(" by reason");
    for (int i = 1; i <= 6; i++)
        printf(" %d:%ld", i, taken_back_inside[i]);
    printf("; refused with 17: %ld; on damaged books inside it: %ld", not_taken_back, taken_back_damaged);
    printf("\nlook-ups past a variation of another period of the slot: %ld", past_another_period);
    print_minutes();
    print_revisions();
    print_blanks();
    print_struck();
    printf("\nlinks, numbers drawn:");
    for (int i = 0; i < 20; i++)
        if (of_links[i] > 0)
            printf(" %d:%ld", i, of_links[i]);
    printf("; accepted calls 2:%ld 3:%ld 4:%ld 8:%ld", accepted_of_links[2], accepted_of_links[3], accepted_of_links[4],
           accepted_of_links[8]);
    printf("; inside gate closure by reason 3:%ld 4:%ld 5:%ld; 9 by kind on damaged books: %ld\n", links_inside_gate[3],
           links_inside_gate[4], links_inside_gate[5], links_marked);
    for (int i = 0; i < 20; i++)
        tried("number", i, drawn[i]);
    for (int i = 1; i <= 9; i++)
        tried("accepted call", i, accepted[i]);
    for (int i = 1; i <= 6; i++)
        tried("reason inside gate closure", i, inside_gate[i]);
    tried("another period of the slot", 0, past_another_period);
    for (int i = 0; i < 4; i++)
        tried("variation taken back", i, taken_back[i / 2][i % 2]);
    for (int i = 1; i <= 6; i++)
        tried("variation taken back inside gate closure, reason", i, taken_back_inside[i]);
    tried("variation not taken back", 17, not_taken_back);
    tried("variation taken back on a damaged book", 0, taken_back_damaged);
    static const int numbers_of_links[] = {0, 7, 8, 9, 10, 11, 12, 13, 14, 16, 17, 18, 19};
    for (size_t i = 0; i < sizeof numbers_of_links / sizeof numbers_of_links[0]; i++)
        tried("number of a link", numbers_of_links[i], of_links[numbers_of_links[i]]);
    for (int i = 1; i <= 9; i++)
        if (i == 2 || i == 3 || i == 4 || i == 8)
            tried("accepted call of a link", i, accepted_of_links[i]);
    for (int i = 3; i <= 5; i++)
        tried("reason of a link inside gate closure", i, links_inside_gate[i]);
    tried("mark that a link may not have", 9, links_marked);
    tried_minutes();
    tried_revisions();
    tried_blanks();
    tried_struck();
    if (is_every_size)
        tried_sizes();
}

/* ---- the lists ---- */

static struct list list;

static void one_list(uint64_t seed, long number, bool is_every_size)
{
    struct random r = random_of_list(seed, number);
    struct size size = is_every_size ? size_in_turn(number) : some_size(&r);
    list.seed = seed;
    list.number = number;
    lists++;
    random_list(&list, &r, size.facilities, size.services);
    calls_of_size[size.facilities][size.services == 5] += list.call;
    calls_made += list.call;
}

static double seconds_now(void)
{
    struct timespec t;
    clock_gettime(CLOCK_MONOTONIC, &t);
    return (double)t.tv_sec + (double)t.tv_nsec / 1e9;
}

static void for_seconds(double seconds, uint64_t seed)
{
    double end = seconds_now() + seconds;
    do {
        one_list(seed, lists + 1, false);
    } while (seconds_now() < end && failed < FAILURES_SHOWN);
}

/* Whole rounds of the sizes. */
static void for_calls(long calls, uint64_t seed)
{
    do {
        one_list(seed, lists + 1, true);
    } while ((calls_made < calls || lists % (2 * BILZHAAN_FACILITIES_MOST) != 0) && failed < FAILURES_SHOWN);
}

static int usage(void)
{
    fprintf(stderr, "usage: differential_test [SECONDS] [SEED] [LIST], or differential_test --every-size CALLS [SEED] [LIST]\n");
    return 2;
}

/* The argument as a whole number from 1 on, else 0: "10,000,000" is none, and not 10. */
static long counting_number(const char *argument)
{
    char *end;
    long n = strtol(argument, &end, 10);
    return *end == '\0' && n > 0 ? n : 0;
}

int main(int argc, char **argv)
{
    bool is_every_size = argc > 1 && strcmp(argv[1], "--every-size") == 0;
    argc -= is_every_size;
    argv += is_every_size;
    char *after_seconds = "", *after_seed = "";
    double seconds = argc > 1 ? strtod(argv[1], &after_seconds) : 20;
    long calls = is_every_size && argc > 1 ? counting_number(argv[1]) : 0, alone = argc > 3 ? counting_number(argv[3]) : 0;
    uint64_t seed = argc > 2 ? strtoull(argv[2], &after_seed, 10) : 1;
    if (argc > 4 || *after_seconds || *after_seed || (is_every_size && calls == 0) || (argc > 3 && alone == 0))
        return usage();
    setvbuf(stdout, NULL, _IOLBF, 0); /* a long run shows a failure at once */
    room_for_lists(&list);
    if (alone > 0) {
        printf("seed %" PRIu64 ", list %ld alone\n", seed, alone);
        one_list(seed, alone, is_every_size);
    } else if (is_every_size) {
        printf("seed %" PRIu64 ", %ld calls\n", seed, calls);
        for_calls(calls, seed);
    } else {
        printf("seed %" PRIu64 ", %g seconds\n", seed, seconds);
        for_seconds(seconds, seed);
    }
    if (alone == 0)
        print_counts(is_every_size);
    printf("%ld passed, %ld failed\n", passed, failed);
    return failed != 0;
}
