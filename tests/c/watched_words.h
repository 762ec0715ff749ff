/* Words on pages of their own that are read-only until they are written. A page that is written is noted, with what it held before; every
 * other page can't have changed, so a call's words are compared by the noted pages alone. */
#ifndef BILZHAAN_TESTS_WATCHED_WORDS_H
#define BILZHAAN_TESTS_WATCHED_WORDS_H

#include "lent_memory.h"

enum { PAGE_BYTES = 4096, NOTED_MOST = 16 };

struct watched {
    uint8_t *room;              /* whole pages between two that can't be touched */
    size_t room_bytes;
    int32_t *words;             /* lent from here on, at the room's start or up to its end */
    uint8_t *pages;             /* those that the words lie on */
    size_t page_count;
    size_t noted, unnoted;      /* pages written since the last `forget_writes`, and those past NOTED_MOST */
    size_t page[NOTED_MOST];
    uint8_t before[NOTED_MOST][PAGE_BYTES];
};

/* Room for this many words, kept until the test ends. */
void watched_room(struct watched *w, size_t words);

/* Puts `count` words at the start or the end of the room. Every byte of their pages is `fill`, and may be written unnoted; the
 * room's other pages can't be touched. */
void place_words(struct watched *w, size_t count, bool is_to_the_end, uint8_t fill);

/* From here on a write is noted. */
void watch_writes(struct watched *w);

/* The noted pages are read-only again, and no longer noted. */
void forget_writes(struct watched *w);

/* Every word of the noted pages is as it was, but for those from `from` to before `end`; and each such page has one of these.
 * Where `end` is `from` nothing may be noted. */
bool wrote_only(const struct watched *w, size_t from, size_t end);

/* Equal words on all pages, and on the pages that are noted of either. Both lie alike in their rooms. */
bool same_pages(const struct watched *a, const struct watched *b);
bool same_noted(const struct watched *a, const struct watched *b);

/* Runs it; false where it touched memory that it was not lent, which ends it. */
bool touches_lent_alone(void (*run)(void *), void *with);

#endif
