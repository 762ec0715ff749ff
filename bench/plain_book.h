/* The offer book in plain C, to measure the library against and to compare damaged books with.
 * The results of include/bilzhaan.h under names of its own; nothing about it is proved. */
#ifndef BILZHAAN_BENCH_PLAIN_BOOK_H
#define BILZHAAN_BENCH_PLAIN_BOOK_H

#include "bilzhaan.h"

uint32_t plain_record_test(const uint8_t *bytes, size_t count, int32_t facilities, int32_t services);
uint32_t plain_open(int32_t *words, size_t count, int32_t facilities, int32_t services, const int32_t limits[6]);
struct bilzhaan_answer plain_call(int32_t *words, size_t count, const uint8_t *bytes, size_t length);
uint32_t plain_next_period(uint32_t minute, uint32_t slot); /* slots 0 to 335 */

#endif
