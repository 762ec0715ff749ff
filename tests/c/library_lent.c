/* What the header says of what is lent: null pointers where the count is 0, words that are only read, readers side by
 * side, and the padding of an answer. Every refusal, look-up and total from read-only words is in check.c. */
#include "library_test.h"

#include <pthread.h>
#include <stddef.h>
#include <stdlib.h>
#include <string.h>

static void nothing_lent(void)
{
    struct book b = usual_book(0);
    struct record r = clock_at(0);
    EQUAL(bilzhaan_record_test(NULL, 0, 1, 1), BILZHAAN_NOT_A_RECORD);
    EQUAL(bilzhaan_record_test(NULL, 0, 0, 1), BILZHAAN_OPENING_REFUSED);
    EQUAL(bilzhaan_open(NULL, 0, 1, 1, usual_limits), BILZHAAN_OPENING_REFUSED);
    EQUAL(bilzhaan_open(NULL, 0, 64, 5, usual_limits), BILZHAAN_OPENING_REFUSED);
    EQUAL(bilzhaan_call(NULL, 0, r.bytes, sizeof r.bytes).number, BILZHAAN_BOOK_UNUSABLE);
    EQUAL(bilzhaan_call(NULL, 0, NULL, 0).number, BILZHAAN_BOOK_UNUSABLE);
    EQUAL(call_bytes(&b, NULL, 0).number, BILZHAAN_NOT_A_RECORD);
}

static void refused_openings(void)
{
    static const int32_t high[6] = {0, 0, 0, 0, 0, BILZHAAN_LIMIT_LARGEST + 1};
    size_t count = BILZHAAN_BOOK_WORDS(2, 5);
    int32_t *words = (int32_t *)(void *)lent_to_the_end(count * sizeof words[0]);
    allow_writes(words, count * sizeof words[0], false);
    EQUAL(bilzhaan_open(words, count - 1, 2, 5, usual_limits), BILZHAAN_OPENING_REFUSED);
    EQUAL(bilzhaan_open(words, count, 3, 5, usual_limits), BILZHAAN_OPENING_REFUSED);
    EQUAL(bilzhaan_open(words, count, 0, 5, usual_limits), BILZHAAN_OPENING_REFUSED);
    EQUAL(bilzhaan_open(words, count, 2, 4, usual_limits), BILZHAAN_OPENING_REFUSED);
    EQUAL(bilzhaan_open(words, count, 2, 5, high), BILZHAAN_OPENING_REFUSED);
}

static void padding(void)
{
    EQUAL(sizeof(struct bilzhaan_answer), 112);
    EQUAL(offsetof(struct bilzhaan_answer, number), 0);
    EQUAL(offsetof(struct bilzhaan_answer, words), 4);
    EQUAL(sizeof((struct bilzhaan_answer *)0)->words, 96); /* to byte 99 */
    EQUAL(offsetof(struct bilzhaan_answer, sum), 104);
}

/* ---- readers side by side ---- */

enum { READERS = 2, ROUNDS = 200 };

struct reader {
    struct book *book;
    long wrong;
};

/* Facility 0 offers 100 + slot tenths of a MW of energy in every slot. */
static void *read_slots(void *argument)
{
    struct reader *reader = argument;
    const struct book *b = reader->book;
    for (int round = 0; round < ROUNDS; round++)
        for (int32_t slot = 1; slot < BILZHAAN_WEEK_SLOTS; slot++) {
            struct record r = round % 2 ? total_of(0, slot) : look_up_of(0, 0, slot);
            struct bilzhaan_answer a = bilzhaan_call(b->words, b->count, r.bytes, sizeof r.bytes);
            int32_t first = round % 2 ? 1 : BILZHAAN_FRESH_STANDING_IN_FORCE; /* one facility, or its offer */
            reader->wrong += a.number != 0 || a.words[0] != first || a.sum != 100 + slot;
        }
    return NULL;
}

static void readers(void)
{
    struct book b = usual_book(0);
    for (int32_t slot = 1; slot < BILZHAAN_WEEK_SLOTS; slot++) {
        struct record r = offer_for(BILZHAAN_CALL_STANDING, 0, 0, slot, 0);
        set_pair(&r, 0, 5, 100 + slot);
        EQUAL(number_of(&b, r), 0);
    }
    allow_writes(b.words, b.count * sizeof b.words[0], false);
    pthread_t threads[READERS];
    struct reader all[READERS];
    for (int i = 0; i < READERS; i++) {
        all[i].book = &b;
        all[i].wrong = 0;
        if (pthread_create(&threads[i], NULL, read_slots, &all[i]) != 0)
            exit(2);
    }
    for (int i = 0; i < READERS; i++) {
        pthread_join(threads[i], NULL);
        EQUAL(all[i].wrong, 0);
    }
}

void test_lent(void)
{
    nothing_lent();
    refused_openings();
    padding();
    readers();
}
