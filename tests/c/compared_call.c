/* One call of a random list, compared at number, 24 words and sum, at the book's words and at the record test. */
#include "compared_call.h"
#include "counted_calls.h"
#include "listed_words.h"
#include "../../bench/plain_book.h"

#include <inttypes.h>
#include <stdio.h>
#include <string.h>

long passed, failed, pages_written;

/* ---- reports ---- */

static void print_answer(const char *who, const struct bilzhaan_answer *a)
{
    printf("  %-12s %" PRIu32, who, a->number);
    for (int i = 0; i < BILZHAAN_ANSWER_WORDS; i++)
        printf(" %" PRId32, a->words[i]);
    printf(" sum %" PRId64 "\n", a->sum);
}

bool check(struct list *l, bool ok, const char *what)
{
    if (ok) {
        passed++;
        return true;
    }
    l->is_wrong = true;
    if (failed++ < FAILURES_SHOWN) {
        printf("seed %" PRIu64 ", list %ld (F %" PRId32 ", S %" PRId32 "), call %ld, %s book: %s\n", l->seed, l->number,
               l->facilities, l->services, l->call, l->is_damaged ? "damaged" : "sound", what);
        printf("  record of %zu bytes ", l->length);
        for (size_t i = 0; i < l->length; i++)
            printf("%02x", l->bytes[i]);
        printf("\n");
    }
    return false;
}

void check_answers(struct list *l, const char *who, const struct bilzhaan_answer *a, const char *model,
                   const struct bilzhaan_answer *expected)
{
    bool same = a->number == expected->number && memcmp(a->words, expected->words, sizeof a->words) == 0
        && a->sum == expected->sum;
    char what[100] = "";
    if (!same)
        snprintf(what, sizeof what, "the answer of the %s, against that of the %s", who, model);
    if (!check(l, same, what) && failed <= FAILURES_SHOWN) {
        print_answer(who, a);
        print_answer(model, expected);
    }
}

static bool is_zero(const struct bilzhaan_answer *a)
{
    static const int32_t zeros[BILZHAAN_ANSWER_WORDS];
    return memcmp(a->words, zeros, sizeof zeros) == 0 && a->sum == 0;
}

/* ---- what is lent ---- */

void room_for_lists(struct list *l)
{
    struct watched *books[] = {&l->by_library, &l->by_plain, &l->by_list, &l->by_shorter};
    for (int i = 0; i < 4; i++)
        watched_room(books[i], BILZHAAN_BOOK_WORDS(BILZHAAN_FACILITIES_MOST, BILZHAAN_SERVICES_ALL) + PAST_MOST);
    l->records = room_for_copies(LONGEST_RECORD);
    l->few = room_for_copies(FEW_WORDS * sizeof l->library[0]);
}

/* One call of the library's, whichever: what it is lent, and its number or its answer. */
struct lent {
    struct list *list;
    int32_t *words;
    size_t count;
    const uint8_t *bytes;
    int32_t facilities, services;
    uint32_t number;
    struct bilzhaan_answer answer;
};

static void open_lent(void *with)
{
    struct lent *lent = with;
    lent->number = bilzhaan_open(lent->words, lent->count, lent->list->facilities, lent->list->services,
                                 (const int32_t *)(const void *)lent->bytes);
}

static void call_lent(void *with)
{
    struct lent *lent = with;
    lent->answer = bilzhaan_call(lent->words, lent->count, lent->bytes, lent->list->length);
}

static void test_lent(void *with)
{
    struct lent *lent = with;
    lent->number = bilzhaan_record_test(lent->bytes, lent->list->length, lent->facilities, lent->services);
}

void lend_bytes(struct list *l, const uint8_t *bytes, size_t length)
{
    memcpy(l->bytes, bytes, length);
    l->length = length;
    l->record = lend_copy(&l->records, bytes, length);
}

uint32_t library_opening(struct list *l, int32_t *words, size_t count)
{
    struct lent lent = {.list = l, .words = words, .count = count, .bytes = lend_copy(&l->records, l->limits, sizeof l->limits)};
    return touches_lent_alone(open_lent, &lent) ? lent.number : TOUCHED_MORE;
}

struct bilzhaan_answer library_call(struct list *l, int32_t *words, size_t count)
{
    struct lent lent = {.list = l, .words = words, .count = count, .bytes = l->record};
    if (count <= FEW_WORDS)
        lent.words = (int32_t *)(void *)lend_copy(&l->few, words, count * sizeof words[0]);
    if (!check(l, touches_lent_alone(call_lent, &lent), "memory that was not lent was touched"))
        lent.answer.number = TOUCHED_MORE;
    return lent.answer;
}

/* ---- the record test ---- */

static void compare_record_test(struct list *l, struct random *r)
{
    static const int32_t sizes[] = {1, 1, 5, 5, 64, 2, 0, -1, 65, 6, INT32_MIN, INT32_MAX};
    int32_t f = one_in(r, 3) ? sizes[random_bits(r) % 12] : l->facilities;
    int32_t s = one_in(r, 3) ? sizes[random_bits(r) % 12] : l->services;
    bool good_sizes = f >= 1 && f <= 64 && (s == 1 || s == 5);
    uint32_t expected = good_sizes ? (uint32_t)list_machine_record_number(l->bytes, l->length, f, s) : 20;
    struct lent lent = {.list = l, .bytes = l->record, .facilities = f, .services = s};
    check(l, touches_lent_alone(test_lent, &lent) && lent.number == expected, "the record test");
    check(l, plain_record_test(l->bytes, l->length, f, s) == expected, "the plain book's record test");
}

/* ---- words ---- */

int64_t period_of(const uint8_t *bytes)
{
    return (uint32_t)word_of(bytes, BILZHAAN_AT_PERIOD);
}

bool usable_sizes(const struct list *l)
{
    int32_t f = l->plain[2], s = l->plain[3];
    return f >= 1 && f <= 64 && (s == 1 || s == 5) && BILZHAAN_BOOK_WORDS(f, s) <= l->needed;
}

/* The words that the call may change if it is accepted: those that its fields are kept in, and for an offer its cell's. */
static void carried_words(const struct list *l, size_t *from, size_t *end)
{
    const uint8_t *b = l->bytes;
    int which = b[BILZHAAN_AT_CALL];
    size_t block = 64 + 32 * (size_t)b[BILZHAAN_AT_FACILITY], count = 0;
    *from = 0;
    switch (which) {
    case BILZHAAN_CALL_CLOCK: *from = 4, count = 1; break;
    case BILZHAAN_CALL_CAPABILITY: *from = block, count = 17; break;
    case BILZHAAN_CALL_STANDING:
    case BILZHAAN_CALL_VARIATION: /* a damaged head may have smaller sizes than the opening's */
        *from = place_of_cell(l->plain[2], l->plain[3], b[BILZHAAN_AT_FACILITY], b[BILZHAAN_AT_SERVICE],
                              which == BILZHAAN_CALL_VARIATION, period_of(b) % 336);
        count = 24;
        break;
    case BILZHAAN_CALL_OUTAGE: *from = block + 17, count = 2; break;
    case BILZHAAN_CALL_NOTICE: *from = 5 + 2 * (size_t)(b[BILZHAAN_AT_REASON] - 3), count = 2; break;
    case BILZHAAN_CALL_WITHDRAWAL: *from = 9, count = 2; break;
    }
    *end = *from + count;
}

/* After a call on each: as no page but the noted ones was written, all words are compared. */
static void compare_words(struct list *l, uint32_t number)
{
    size_t from = 0, end = 0;
    if (number == 0)
        carried_words(l, &from, &end);
    pages_written += (long)l->by_library.noted;
    check(l, wrote_only(&l->by_library, from, end), number != 0 ? "a refused call wrote"
                                                    : from == end ? "a look-up or a total wrote"
                                                                  : "an accepted call wrote words that it doesn't carry");
    check(l, same_noted(&l->by_library, &l->by_plain), "words differ from the plain book's");
    if (!l->is_damaged)
        check(l, same_noted(&l->by_library, &l->by_list), "words differ from those of the list machine's calls");
}

/* ---- one call ---- */

static void keep_accepted(struct list *l, const struct bilzhaan_answer *a)
{
    struct accepted_call *kept = &l->accepted[l->accepted_count++];
    kept->call = l->call;
    memcpy(kept->record.bytes, l->bytes, sizeof kept->record.bytes);
    kept->answer = *a;
}

/* The list machine's answer, and the words that its accepted calls make; the plain book's on a damaged book. */
static struct bilzhaan_answer expected_answer(struct list *l, const struct bilzhaan_answer *plain)
{
    if (l->is_damaged)
        return *plain;
    struct bilzhaan_answer expected = list_machine_call(&l->machine, l->bytes, l->length);
    check_answers(l, "plain book", plain, "list machine", &expected);
    if (expected.number == 0)
        listed_call(&l->machine, l->by_list.words, l->bytes);
    return expected;
}

void compared_call(struct list *l, struct random *r, const uint8_t *bytes, size_t length)
{
    lend_bytes(l, bytes, length);
    l->call++;
    struct before before = before_call(l);
    forget_writes(&l->by_library);
    forget_writes(&l->by_plain);
    forget_writes(&l->by_list);

    struct bilzhaan_answer plain = plain_call(l->plain, l->lent, l->bytes, l->length);
    struct bilzhaan_answer expected = expected_answer(l, &plain);
    struct bilzhaan_answer a = library_call(l, l->library, l->lent);
    check_answers(l, "library", &a, l->is_damaged ? "plain book" : "list machine", &expected);
    if (a.number != 0)
        check(l, is_zero(&a), "a refusal without zeros");
    compare_words(l, expected.number);
    compare_record_test(l, r);
    if (l->is_wrong)
        return;
    if (a.number == 0 && !l->is_damaged)
        keep_accepted(l, &a);
    count_answer(l, &before, &a);
}
