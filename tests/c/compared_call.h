/* One call of a random list on the library, the plain book and the list machine, compared at everything.
 * Used by random_lists.c, which makes the lists. */
#ifndef BILZHAAN_TESTS_COMPARED_CALL_H
#define BILZHAAN_TESTS_COMPARED_CALL_H

#include "list_machine.h"
#include "random_calls.h"
#include "watched_words.h"

enum {
    FAILURES_SHOWN = 5,
    LONGEST_LIST = 2600, /* calls before the damaged part */
    PAST_MOST = 8,       /* words lent past a book's */
    FEW_WORDS = 65       /* too few for any book */
};

extern long passed, failed;
extern long pages_written; /* of the library's books, each call's counted */

struct accepted_call {
    long call; /* its place in the list, from 1 on */
    struct record record;
    struct bilzhaan_answer answer;
};

/* One list: books of the same words, the library's, the plain book's and, until words are damaged, those of the list machine's
 * calls; and the library's book of the shorter list that striking out leaves. */
struct list {
    uint64_t seed;
    long number, call;
    int32_t facilities, services, limits[6];
    size_t needed, placed, lent; /* placed: the words that end or start the book's room; lent is as many, but for damaged books */
    struct watched by_library, by_plain, by_list, by_shorter;
    int32_t *library, *plain;    /* their first words */
    struct copies records, few;  /* to lend a record, and words too few for a book */
    struct list_machine machine;
    uint8_t bytes[LONGEST_RECORD];
    size_t length;
    const uint8_t *record;       /* the bytes as they are lent */
    struct accepted_call accepted[LONGEST_LIST]; /* by the library's own number, before the damaged part */
    size_t accepted_count;
    bool is_damaged, is_wrong;
};

/* Room for lists of every size. */
void room_for_lists(struct list *l);

/* Counts a check and returns it; a failure is printed with its place in the list. */
bool check(struct list *l, bool ok, const char *what);
void check_answers(struct list *l, const char *who, const struct bilzhaan_answer *a, const char *model,
                   const struct bilzhaan_answer *expected);

/* Its period word, never below 0, so that its slot is a place in any case. */
int64_t period_of(const uint8_t *bytes);

/* The head's F and S, which may be damaged, fit the words. */
bool usable_sizes(const struct list *l);

/* The bytes of the next call, lent read-only. */
void lend_bytes(struct list *l, const uint8_t *bytes, size_t length);

/* The library's opening, with the list's sizes and limits, and its call, with the bytes that are lent. Where it touches anything
 * that is not lent, the number is none of its own, and a call's check fails. */
enum { TOUCHED_MORE = 1000 };
uint32_t library_opening(struct list *l, int32_t *words, size_t count);
struct bilzhaan_answer library_call(struct list *l, int32_t *words, size_t count);

/* Calls with these bytes and compares: answers with the list machine's, or on a damaged book with the plain book's; every word
 * of the book afterwards; and the record test. Only an accepted call 1 to 7 may write, and only the words that it carries. */
void compared_call(struct list *l, struct random *r, const uint8_t *bytes, size_t length);

#endif
