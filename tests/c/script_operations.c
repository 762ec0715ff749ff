/* The operations of the text form, each a function and a row of the table: it reads its arguments, runs the three books
 * and prints an answer for each. */
#include "script_operations.h"

#include "../../bench/plain_book.h"
#include "../../bench/plain_calendar.h"
#include "counted_calendar.h"
#include "listed_words.h"

#include <inttypes.h>
#include <stdarg.h>
#include <stdio.h>
#include <stdlib.h>
#include <string.h>

enum { WORDS_MOST = 8000000 };

typedef const char *operation(struct books *b, const struct line *l, struct answers *a);

static void say(struct answers *a, int book, const char *format, ...)
{
    va_list arguments;
    va_start(arguments, format);
    size_t room = ANSWER_ROOM - a->by[book].length;
    int n = vsnprintf(a->by[book].text + a->by[book].length, room, format, arguments);
    va_end(arguments);
    if (n < 0 || (size_t)n >= room) {
        fprintf(stderr, "an answer is too long\n");
        exit(2);
    }
    a->by[book].length += (size_t)n;
    a->by[book].is_given = true;
}

/* ---- lent words ---- */

static int32_t *lend(size_t count)
{
    int32_t *all = malloc((count + 2 * GUARD) * sizeof all[0]);
    if (!all) {
        fprintf(stderr, "no memory for a book\n");
        exit(2);
    }
    for (size_t i = 0; i < count + 2 * GUARD; i++)
        all[i] = i < GUARD || i >= GUARD + count ? CANARY : (int32_t)(i - GUARD);
    return all + GUARD;
}

void give_back(struct books *b)
{
    if (!b->is_lent)
        return;
    free(b->library - GUARD);
    free(b->plain - GUARD);
    free(b->listed - GUARD);
    list_machine_close(&b->machine);
    memset(b, 0, sizeof *b);
}

/* ---- the operations ---- */

static const char not_a_word[] = "an argument is no number of 32 bits";

/* All the line's arguments. */
static bool read_words(const struct line *l, int32_t *words)
{
    for (size_t i = 0; i < l->count; i++)
        if (!read_word(l->arguments[i], &words[i]))
            return false;
    return true;
}

/* open level F S l0 l1 l2 l3 l4 l5 past = number. Where F or S is no size of a book, N counts as 0. */
static const char *open_books(struct books *b, const struct line *l, struct answers *a)
{
    int32_t n[10];
    if (!read_words(l, n))
        return not_a_word;
    if (n[0] < FIRST_LEVEL || n[0] > LEVEL)
        return "answers of that level don't hold of this library";
    bool good_sizes = n[1] >= 1 && n[1] <= 64 && (n[2] == 1 || n[2] == 5);
    int64_t lent = (good_sizes ? (int64_t)BILZHAAN_BOOK_WORDS(n[1], n[2]) : 0) + n[9];
    if (lent < 0 || lent > WORDS_MOST)
        return "so many words can't be lent";
    int32_t limits[7] = {n[3], n[4], n[5], n[6], n[7], n[8], CANARY}; /* a test of a seventh limit would refuse */
    give_back(b);
    b->is_lent = true;
    b->lent = (size_t)lent;
    b->library = lend(b->lent);
    b->plain = lend(b->lent);
    b->listed = lend(b->lent);
    uint32_t numbers[BOOKS] = {bilzhaan_open(b->library, b->lent, n[1], n[2], limits),
                               plain_open(b->plain, b->lent, n[1], n[2], limits),
                               (uint32_t)listed_opening_number(b->lent, n[1], n[2], limits)};
    for (int i = 0; i < BOOKS; i++)
        say(a, i, "%" PRIu32, numbers[i]);
    a->number = numbers[LIBRARY];
    b->machine_follows = numbers[LIST_MACHINE] == 0;
    if (b->machine_follows)
        list_machine_open(&b->machine, n[1], n[2], limits);
    return NULL;
}

static void say_answer(struct answers *a, int book, const struct bilzhaan_answer *answer)
{
    say(a, book, "%" PRIu32, answer->number);
    for (int i = 0; i < BILZHAAN_ANSWER_WORDS; i++)
        say(a, book, " %" PRId32, answer->words[i]);
    say(a, book, " %" PRId64, answer->sum);
}

/* call RECORD = number w0 .. w23 sum */
static const char *call_books(struct books *b, const struct line *l, struct answers *a)
{
    uint8_t *bytes;
    size_t length;
    if (!read_bytes(l->arguments[0], &bytes, &length))
        return "the record isn't hexadecimal";
    struct bilzhaan_answer answer = bilzhaan_call(b->library, b->lent, bytes, length);
    say_answer(a, LIBRARY, &answer);
    a->number = answer.number;
    answer = plain_call(b->plain, b->lent, bytes, length);
    say_answer(a, PLAIN_BOOK, &answer);
    if (b->machine_follows) {
        answer = list_machine_call(&b->machine, bytes, length);
        say_answer(a, LIST_MACHINE, &answer);
    }
    free(bytes);
    return NULL;
}

/* test RECORD F S = number: the record test, which no book has a part in */
static const char *test_record(struct books *b, const struct line *l, struct answers *a)
{
    (void)b;
    uint8_t *bytes;
    size_t length;
    int32_t f, s;
    if (!read_word(l->arguments[1], &f) || !read_word(l->arguments[2], &s))
        return not_a_word;
    if (!read_bytes(l->arguments[0], &bytes, &length))
        return "the record isn't hexadecimal";
    bool good_sizes = f >= 1 && f <= 64 && (s == 1 || s == 5);
    int64_t numbers[BOOKS] = {bilzhaan_record_test(bytes, length, f, s), plain_record_test(bytes, length, f, s),
                              good_sizes ? list_machine_record_number(bytes, length, f, s) : 20};
    for (int i = 0; i < BOOKS; i++)
        say(a, i, "%" PRId64, numbers[i]);
    a->number = numbers[LIBRARY];
    free(bytes);
    return NULL;
}

/* next minute slot = period: a slot's next period, which no book has a part in */
static const char *next_period(struct books *b, const struct line *l, struct answers *a)
{
    (void)b;
    int32_t n[2];
    if (!read_words(l, n))
        return not_a_word;
    int32_t minute = n[0], slot = n[1];
    if (minute < 0 || minute > BILZHAAN_CLOCK_LAST || slot < 0 || slot >= BILZHAAN_WEEK_SLOTS)
        return "no such minute or slot";
    int64_t periods[BOOKS] = {bilzhaan_next_period((uint32_t)minute, (uint32_t)slot),
                              plain_next_period((uint32_t)minute, (uint32_t)slot), list_machine_next_period(minute, slot)};
    for (int i = 0; i < BOOKS; i++)
        say(a, i, "%" PRId64, periods[i]);
    return NULL;
}

/* date year month day period = number P weekday */
static const char *period_of_date(struct books *b, const struct line *l, struct answers *a)
{
    (void)b;
    int32_t n[4];
    if (!read_words(l, n))
        return not_a_word;
    struct bilzhaan_period periods[BOOKS] = {bilzhaan_period_of(n[0], n[1], n[2], n[3]), plain_period_of(n[0], n[1], n[2], n[3]),
                                             counted_period_of(n[0], n[1], n[2], n[3])};
    for (int i = 0; i < BOOKS; i++)
        say(a, i, "%" PRIu32 " %" PRId32 " %" PRId32, periods[i].number, periods[i].period, periods[i].weekday);
    a->number = periods[LIBRARY].number;
    return NULL;
}

/* period P = number year month day period weekday */
static const char *date_of_period(struct books *b, const struct line *l, struct answers *a)
{
    (void)b;
    int32_t p;
    if (!read_words(l, &p))
        return not_a_word;
    struct bilzhaan_date dates[BOOKS] = {bilzhaan_date_of(p), plain_date_of(p), counted_date_of(p)};
    for (int i = 0; i < BOOKS; i++)
        say(a, i, "%" PRIu32 " %" PRId32 " %" PRId32 " %" PRId32 " %" PRId32 " %" PRId32, dates[i].number, dates[i].year,
            dates[i].month, dates[i].day, dates[i].period, dates[i].weekday);
    a->number = dates[LIBRARY].number;
    return NULL;
}

/* write i v i v .. = : the host writes; the list machine, which is fed records alone, doesn't follow from here on */
static const char *write_words(struct books *b, const struct line *l, struct answers *a)
{
    if (l->count % 2 != 0)
        return "a word without its value";
    for (size_t i = 0; i < l->count; i += 2) {
        int32_t at, value;
        if (!read_word(l->arguments[i], &at) || !read_word(l->arguments[i + 1], &value))
            return not_a_word;
        if (at < 0 || (size_t)at >= b->lent)
            return "no such word is lent";
        b->library[at] = b->plain[at] = value;
    }
    b->machine_follows = false;
    say(a, LIBRARY, "%s", "");
    return NULL;
}

/* words = checksum */
static const char *sum_words(struct books *b, const struct line *l, struct answers *a)
{
    (void)l;
    say(a, LIBRARY, "%" PRIu32, checksum(CHECKSUM_START, b->library, b->lent));
    say(a, PLAIN_BOOK, "%" PRIu32, checksum(CHECKSUM_START, b->plain, b->lent));
    if (b->machine_follows) {
        listed_words(&b->machine, b->listed);
        say(a, LIST_MACHINE, "%" PRIu32, checksum(CHECKSUM_START, b->listed, b->lent));
    }
    return NULL;
}

static const struct {
    const char *name;
    size_t fewest, most; /* arguments */
    operation *run;
} operations[] = {
    {"open", 10, 10, open_books},
    {"call", 1, 1, call_books},
    {"test", 3, 3, test_record},
    {"next", 2, 2, next_period},
    {"date", 4, 4, period_of_date},
    {"period", 1, 1, date_of_period},
    {"write", 2, SIZE_MAX, write_words},
    {"words", 0, 0, sum_words},
};

const char *run_operation(struct books *b, const struct line *l, struct answers *a)
{
    for (size_t i = 0; i < sizeof operations / sizeof operations[0]; i++) {
        if (strcmp(l->name, operations[i].name) != 0)
            continue;
        if (l->count < operations[i].fewest || l->count > operations[i].most)
            return "another number of arguments than the operation takes";
        if (!b->is_lent && operations[i].run != open_books)
            return "no book has been opened";
        return operations[i].run(b, l, a);
    }
    return "no such operation";
}
