/* What the calls of random lists came to: counts that show what was tried. */
#ifndef BILZHAAN_TESTS_COUNTED_CALLS_H
#define BILZHAAN_TESTS_COUNTED_CALLS_H

#include "compared_call.h"

extern long drawn[20];           /* calls by the number that they drew */
extern long damaged_calls;       /* those on damaged books */
extern long accepted[10];        /* accepted calls by byte 5 */
extern long inside_gate[7];      /* variations accepted inside gate closure, by reason */
extern long past_another_period; /* look-ups where the variation cell held another period of the slot */
/* Variations of blanks alone, where the period had a variation: accepted with the gate open (0) and inside it (1), each without
 * a standing offer and with one to go back to; inside it by reason; refused with 17; accepted inside it on a damaged book. */
extern long taken_back[2][2], taken_back_inside[7], not_taken_back, taken_back_damaged;
/* Standing offers and the gate closure of their slot's next period. */
extern struct revisions {
    long accepted[7], of_links[7];  /* over a held one inside it, by reason; of these: */
    long to_blank, behind_variation, for_next_week; /* blanks alone; a variation in force; a period of the week after now's */
    long refused[2];                /* with 17, without a reason and with one; of these: */
    long repriced;                  /* by prices alone: generation with reason 1 */
    long duplicates;                /* 18 inside it */
    long first_with_reason, open_with_reason; /* accepted with a reason that isn't asked for */
    long past_6;                    /* with 11, by the reason */
    long damaged;                   /* accepted inside it on a damaged book */
} revisions;
/* Blanks before a filled pair. Of filed offers on sound books: */
extern struct blanks {
    long by_price, by_place; /* 12 by the price of a blank alone, and by its place alone; of the second: */
    long falling;            /* filled pairs whose prices don't rise */
    long out_of_range;       /* 11 beside such a blank */
    long last, none;         /* accepted with blanks after filled pairs, and without a blank */
    /* and of held offers, on damaged books: */
    long looked_up;
    long filed_again;        /* 12 of a standing offer with the held one's pairs */
    long closed_up;          /* one that differs from the held one in the places of its blanks alone, accepted */
    long old[2], back_to[2]; /* inside gate closure, as old and as what a take-back leaves: accepted; 17 by prices alone */
} blanks;
/* Offers and their minutes. On sound books: look-ups by word 0 (1 to 4), and by age up to 7 minutes, of a standing offer (0) and a
 * variation (1); duplicates of an offer of an earlier minute; variations filed again at a later minute; take-backs to a standing
 * offer that isn't fresh (0) and to one that is (1). On damaged books: look-ups of a ramp below 0, of a minute later than the clock,
 * of one below 0 and of one so low that its age is past 32 bits; duplicates of such; ramps past 9,999 that the maximum lets pass;
 * calls on a book of version 1. */
enum { AGES = 8 };
extern long shown[5], at_age[2][AGES], duplicated_later, varied_again, uncovered[2];
extern long ramps_below_0, minutes_to_come, minutes_below_0, ages_past_32_bits, duplicated_damaged, ramps_past_9999, of_version_1;
/* Calls for a link: by number; accepted by byte 5; variations accepted inside gate closure, by reason. On damaged books: offers
 * refused with 9 though the mark is 1. */
extern long of_links[20], accepted_of_links[10], links_inside_gate[7], links_marked;

/* How a standing offer stands to the words. */
struct revision {
    bool is_one, is_held, is_inside, is_hidden, is_next_week;
};

/* An offer's pairs, and which held offers with such a blank its call compares it with. */
struct gaps {
    bool is_offer, in_same, in_closed_up, in_old, in_back_to;
    int32_t pairs[20];
};

/* What the counts need of the plain book's words before a call with the list's bytes. */
struct before {
    int64_t now;
    bool is_take_back;
    struct revision revision;
    struct gaps gaps;
    const int32_t *varied; /* the cell of a variation on a sound book, else null; and its words */
    int32_t cell[24];
};

struct before before_call(const struct list *l);

/* By the plain book's words after the call. */
void count_answer(const struct list *l, const struct before *before, const struct bilzhaan_answer *a);

#endif
