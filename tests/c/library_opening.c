/* The opening: sizes, limits, and every word that it writes; words before and after the book are not touched. */
#include "library_test.h"

#include <stdlib.h>
#include <string.h>

enum { CANARY = 0x5A5A5A5A, ROOM = 40 };

/* "Opening writes words 0 to N − 1: mark, version, F and S as above, clock 0, all windows 1 to 0 (empty), given limits,
 * else zero." "The book's version, head word 1, becomes 2." */
static int32_t opened_word(size_t i, int32_t facilities, int32_t services, const int32_t limits[6])
{
    if (i < 64) {
        static const int32_t windows[6] = {1, 0, 1, 0, 1, 0};
        int32_t fixed[5] = {0x534F42, 2, facilities, services, 0};
        return i < 5 ? fixed[i] : i < 11 ? windows[i - 5] : i < 17 ? limits[i - 11] : 0;
    }
    return i < 64 + 32 * (size_t)facilities && (i - 64) % 32 == 17 ? 1 : 0;
}

static bool all_are(const int32_t *words, size_t count, int32_t value)
{
    for (size_t i = 0; i < count; i++)
        if (words[i] != value)
            return false;
    return true;
}

static void fill(int32_t *words, size_t count, int32_t value)
{
    for (size_t i = 0; i < count; i++)
        words[i] = value;
}

/* N − 1, N and more words, with canaries around. */
static void book_of(int32_t facilities, int32_t services)
{
    size_t needed = BILZHAAN_BOOK_WORDS(facilities, services);
    int32_t *all = malloc((needed + 2 * ROOM) * sizeof all[0]);
    if (!all)
        exit(2);
    int32_t *words = all + ROOM;
    fill(all, needed + 2 * ROOM, CANARY);
    for (size_t count = needed - 3; count < needed; count++) {
        EQUAL(bilzhaan_open(words, count, facilities, services, usual_limits), BILZHAAN_OPENING_REFUSED);
        CHECK(all_are(all, needed + 2 * ROOM, CANARY));
    }
    for (size_t more = 0; more < ROOM; more += 13) {
        fill(all, needed + 2 * ROOM, CANARY);
        EQUAL(bilzhaan_open(words, needed + more, facilities, services, usual_limits), 0);
        bool as_written = true;
        for (size_t i = 0; i < needed; i++)
            as_written &= words[i] == opened_word(i, facilities, services, usual_limits);
        CHECK(as_written);
        CHECK(all_are(all, ROOM, CANARY));
        CHECK(all_are(words + needed, ROOM, CANARY));
    }
    /* a call of a book with words to spare leaves those too */
    struct record clock = clock_at(7);
    EQUAL(bilzhaan_call(words, needed + ROOM, clock.bytes, sizeof clock.bytes).number, 0);
    EQUAL(words[4], 7);
    CHECK(all_are(all, ROOM, CANARY));
    CHECK(all_are(words + needed, ROOM, CANARY));
    free(all);
}

/* The words end, or start, at memory that may not be touched. */
static void between_guards(void)
{
    static const int32_t sizes[][2] = {{1, 1}, {3, 1}, {2, 5}};
    for (int i = 0; i < 3; i++) {
        int32_t f = sizes[i][0], s = sizes[i][1];
        size_t needed = BILZHAAN_BOOK_WORDS(f, s);
        int32_t *at_end = (int32_t *)(void *)lent_to_the_end(needed * 4);
        int32_t *at_start = (int32_t *)(void *)lent_from_the_start(needed * 4);
        EQUAL(bilzhaan_open(at_end, needed, f, s, usual_limits), 0);
        EQUAL(bilzhaan_open(at_start, needed, f, s, usual_limits), 0);
        CHECK(memcmp(at_end, at_start, needed * 4) == 0);
        struct record look = look_up_of(f - 1, s - 1, 335), total = total_of(s - 1, 335);
        EQUAL(bilzhaan_call(at_end, needed, look.bytes, sizeof look.bytes).number, BILZHAAN_NO_KIND);
        EQUAL(bilzhaan_call(at_end, needed, total.bytes, sizeof total.bytes).number, 0);
        EQUAL(bilzhaan_call(at_start, needed, total.bytes, sizeof total.bytes).number, 0);
    }
}

static void sizes_out_of_range(void)
{
    static const int32_t wrong[][2] = {
        {0, 1}, {65, 1}, {66, 5}, {-1, 1}, {-1, 5}, {INT32_MIN, 1}, {INT32_MAX, 5}, {0, 0}, {1 << 16, 1},
        {1, 0}, {1, 2}, {1, 3}, {1, 4}, {1, 6}, {1, -1}, {1, -5}, {1, INT32_MIN}, {1, INT32_MAX}, {64, 257},
    };
    size_t count = BILZHAAN_BOOK_WORDS(64, 5);
    int32_t *words = malloc(count * sizeof words[0]);
    if (!words)
        exit(2);
    fill(words, count, CANARY);
    for (size_t i = 0; i < sizeof wrong / sizeof wrong[0]; i++)
        EQUAL(bilzhaan_open(words, count, wrong[i][0], wrong[i][1], usual_limits), BILZHAAN_OPENING_REFUSED);
    CHECK(all_are(words, count, CANARY));
    for (size_t few = 0; few < 16224; few += few < 70 ? 1 : 997)
        EQUAL(bilzhaan_open(words, few, 1, 1, usual_limits), BILZHAAN_OPENING_REFUSED);
    CHECK(all_are(words, count, CANARY));
    free(words);
}

static void limits(void)
{
    static const struct {
        int32_t limits[6];
        uint32_t number;
    } tries[] = {
        {{0, 0, 0, 0, 0, 0}, 0},
        {{-10000000, 10000000, 10000000, 10000000, 10000000, 10000000}, 0},
        {{-10000001, 0, 0, 0, 0, 0}, 20}, {{1, 1, 0, 0, 0, 0}, 20}, {{INT32_MIN, 0, 0, 0, 0, 0}, 20},
        {{0, -1, 0, 0, 0, 0}, 20}, {{-5, -1, 0, 0, 0, 0}, 20}, {{0, 10000001, 0, 0, 0, 0}, 20},
        {{0, 0, -1, 0, 0, 0}, 20}, {{0, 0, 10000001, 0, 0, 0}, 20}, {{0, 0, 0, -1, 0, 0}, 20},
        {{0, 0, 0, 10000001, 0, 0}, 20}, {{0, 0, 0, 0, -1, 0}, 20}, {{0, 0, 0, 0, INT32_MAX, 0}, 20},
        {{0, 0, 0, 0, 0, -1}, 20}, {{0, 0, 0, 0, 0, 10000001}, 20}, {{0, 0, 0, 0, 0, INT32_MIN}, 20},
    };
    size_t count = BILZHAAN_BOOK_WORDS(1, 1);
    int32_t *words = malloc(count * sizeof words[0]);
    int32_t *given = (int32_t *)(void *)lent_to_the_end(6 * sizeof given[0]);
    if (!words)
        exit(2);
    for (size_t i = 0; i < sizeof tries / sizeof tries[0]; i++) {
        fill(words, count, CANARY);
        memcpy(given, tries[i].limits, sizeof tries[i].limits);
        EQUAL(bilzhaan_open(words, count, 1, 1, given), tries[i].number);
        if (tries[i].number != 0)
            CHECK(all_are(words, count, CANARY));
        else
            CHECK(memcmp(words + 11, tries[i].limits, sizeof tries[i].limits) == 0);
    }
    free(words);
}

void test_opening(void)
{
    EQUAL(BILZHAAN_BOOK_WORDS(1, 1), 16224);
    EQUAL(BILZHAAN_BOOK_WORDS(64, 5), 5163072);
    EQUAL(sizeof(struct bilzhaan_answer), 112);
    book_of(1, 1);
    book_of(1, 5);
    book_of(7, 1);
    book_of(64, 1);
    book_of(64, 5);
    between_guards();
    sizes_out_of_range();
    limits();
}
