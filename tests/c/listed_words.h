/* The book's words that a list of accepted calls makes (document 01, "The book's words"; document 02), from the list machine's list,
 * and the opening's number, which the list machine has no part in. It shares no code with either book. */
#ifndef BILZHAAN_TESTS_LISTED_WORDS_H
#define BILZHAAN_TESTS_LISTED_WORDS_H

#include "list_machine.h"

/* Refusal 20 of an opening over `count` words, else 0. */
int listed_opening_number(size_t count, int32_t facilities, int32_t services, const int32_t limits[6]);

/* Writes words 0 to N - 1 for the machine's F and S. */
void listed_words(const struct list_machine *m, int32_t *words);

/* The same a step at a time: after the opening alone; and by one more accepted call, on the words that the ones before made. */
void listed_opening(const struct list_machine *m, int32_t *words);
void listed_call(const struct list_machine *m, int32_t *words, const uint8_t *record);

#endif
