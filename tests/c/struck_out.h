/* Striking out (document 00, demand 3) at run time: the list without its refused calls and other facilities' filings, called
 * on a book of its own, and the facility's look-ups after both lists. */
#ifndef BILZHAAN_TESTS_STRUCK_OUT_H
#define BILZHAAN_TESTS_STRUCK_OUT_H

#include "compared_call.h"

extern struct struck {
    long refused, filings; /* calls struck out: refused ones, and accepted filings for other facilities */
    long kept;
    long inside;           /* look-ups for the facility among those kept */
    long after[20];        /* look-ups after both lists, by number */
    long of_links;         /* of these, answered by a link's offer */
} struck;

/* Of the list's calls so far, for facility f. */
void strike_out(struct list *l, int f);

#endif
