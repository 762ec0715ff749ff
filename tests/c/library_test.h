/* The groups of the library's test; each is in the file that it is named after. */
#ifndef BILZHAAN_TESTS_LIBRARY_TEST_H
#define BILZHAAN_TESTS_LIBRARY_TEST_H

#include "check.h"

void test_records(void);          /* library_record.c */
void test_opening(void);          /* library_opening.c */
void test_refusals(void);         /* library_refusals.c */
void test_gate(void);             /* library_gate.c */
void test_next_period(void);      /* library_next_period.c */
void test_taken_back(void);       /* library_taken_back.c */
void test_standing_reasons(void); /* library_standing_reasons.c */
void test_links(void);            /* library_links.c */
void test_fresh(void);            /* library_fresh.c */
void test_blanks(void);           /* library_blanks.c */
void test_damaged(void);          /* library_damaged.c */
void test_lent(void);             /* library_lent.c */

#endif
