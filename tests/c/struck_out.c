/* The shorter list from the library's own numbers, its run, and every look-up after it that an offer could answer. */
#include "struck_out.h"

#include <string.h>

struct struck struck;

/* ---- the shorter list ---- */

/* "Filings are calls 2 to 5, each for the facility in byte 6" */
static bool is_struck(const struct record *record, int f)
{
    int which = record->bytes[BILZHAAN_AT_CALL];
    return which >= BILZHAAN_CALL_CAPABILITY && which <= BILZHAAN_CALL_OUTAGE && record->bytes[BILZHAAN_AT_FACILITY] != f;
}

static bool is_look_up(const struct record *record) { return record->bytes[BILZHAAN_AT_CALL] == BILZHAAN_CALL_LOOK_UP; }

/* On words filled on their own, before they are opened, and without words past them. */
static void open_shorter(struct list *l)
{
    place_words(&l->by_shorter, l->needed, l->number % 2 == 0, (uint8_t)(l->number % 255 + 1));
    check(l, library_opening(l, l->by_shorter.words, l->needed) == 0, "the opening for the shorter list");
}

static void call_kept(struct list *l, const struct accepted_call *kept, int f)
{
    l->call = kept->call;
    lend_bytes(l, kept->record.bytes, sizeof kept->record.bytes);
    struct bilzhaan_answer a = library_call(l, l->by_shorter.words, l->needed);
    struck.kept++;
    if (!is_look_up(&kept->record)) {
        check(l, a.number == 0, "a call of the shorter list was refused");
    } else if (kept->record.bytes[BILZHAAN_AT_FACILITY] == f) { /* what others offer is struck out */
        struck.inside++;
        check_answers(l, "look-up in the shorter list", &a, "one in the whole list", &kept->answer);
    }
}

static void call_shorter(struct list *l, int f)
{
    long calls = l->call;
    struck.refused += calls - (long)l->accepted_count;
    for (size_t i = 0; i < l->accepted_count && !l->is_wrong; i++) {
        if (is_struck(&l->accepted[i].record, f))
            struck.filings++;
        else
            call_kept(l, &l->accepted[i], f);
    }
    l->call = calls;
}

/* ---- look-ups after both ---- */

enum { ASKED_MOST = (BILZHAAN_SERVICES_ALL + 1) * 400 };

static struct record asked[ASKED_MOST];
static size_t asked_count;

/* A run of them: the words to ask and the answers. */
struct answered {
    int32_t *words;
    size_t lent;
    struct bilzhaan_answer answers[ASKED_MOST];
};
static struct answered after_whole, after_shorter;

/* Every period that 10 lets through, and others at both ends; every service, and the first that the book doesn't have. */
static void choose_look_ups(const struct list *l, int f)
{
    static const int32_t far[] = {INT32_MIN, -336, -1, 0, 1, 335, 336, 33333334, INT32_MAX - 1, INT32_MAX};
    int32_t now = l->plain[4], horizon = 48 * (now / 1440 + 7);
    asked_count = 0;
    for (int s = 0; s <= l->services; s++) {
        for (int32_t period = now / 30 - 3; period < horizon + 3; period++)
            asked[asked_count++] = look_up_of(f, s, period);
        for (size_t i = 0; i < sizeof far / sizeof far[0]; i++)
            asked[asked_count++] = look_up_of(f, s, far[i]);
    }
}

static void answer_all(void *with)
{
    struct answered *after = with;
    for (size_t i = 0; i < asked_count; i++)
        after->answers[i] = bilzhaan_call(after->words, after->lent, asked[i].bytes, sizeof asked[i].bytes);
}

static void look_up_after(struct list *l, struct watched *book, size_t lent, struct answered *after)
{
    after->words = book->words;
    after->lent = lent;
    check(l, touches_lent_alone(answer_all, after), "look-ups after a list touched memory that was not lent");
    check(l, wrote_only(book, 0, 0), "look-ups after a list wrote");
}

static void compare_look_ups(struct list *l, int f)
{
    bool is_link = l->plain[64 + 32 * f] == BILZHAAN_LINK;
    for (size_t i = 0; i < asked_count && !l->is_wrong; i++) {
        const struct bilzhaan_answer *whole = &after_whole.answers[i];
        l->length = sizeof asked[i].bytes;
        memcpy(l->bytes, asked[i].bytes, l->length);
        check_answers(l, "look-up after the shorter list", &after_shorter.answers[i], "one after the whole list", whole);
        if (whole->number < 20)
            struck.after[whole->number]++;
        struck.of_links += whole->number == 0 && is_link;
    }
}

/* What the look-ups of later weeks will be answered from: the head, and the facility's block and cells. */
static bool same_of_facility(const struct list *l, int f)
{
    size_t word = sizeof l->library[0], block = 64 + 32 * (size_t)f;
    size_t cells = place_of_cell(l->facilities, l->services, f, 0, 0, 0);
    size_t end = place_of_cell(l->facilities, l->services, f + 1, 0, 0, 0);
    const int32_t *whole = l->library, *shorter = l->by_shorter.words;
    return memcmp(whole, shorter, 64 * word) == 0 && memcmp(whole + block, shorter + block, 32 * word) == 0
        && memcmp(whole + cells, shorter + cells, (end - cells) * word) == 0;
}

void strike_out(struct list *l, int f)
{
    choose_look_ups(l, f);
    forget_writes(&l->by_library);
    look_up_after(l, &l->by_library, l->lent, &after_whole);
    open_shorter(l);
    call_shorter(l, f);
    if (l->is_wrong)
        return;
    watch_writes(&l->by_shorter);
    look_up_after(l, &l->by_shorter, l->needed, &after_shorter);
    compare_look_ups(l, f);
    check(l, same_of_facility(l, f), "the facility's words differ after the shorter list");
}
