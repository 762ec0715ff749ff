/* Counted checks and books for the tests of the library, whose words end at a page that can't be touched.
 * A call that reads or writes past what it was lent stops the test with a message. */
#ifndef BILZHAAN_TESTS_CHECK_H
#define BILZHAAN_TESTS_CHECK_H

#include "lent_memory.h"
#include "records.h"

#include <stdbool.h>

extern long passed, failed;
extern uint32_t numbers_drawn; /* bit n: some call here returned n */

void check_at(bool ok, const char *what, const char *file, int line);
void equal_at(int64_t got, int64_t expected, const char *what, const char *file, int line);

#define CHECK(condition) check_at((condition), #condition, __FILE__, __LINE__)
#define EQUAL(got, expected) equal_at((int64_t)(got), (int64_t)(expected), #got, __FILE__, __LINE__)

/* A touch of memory that isn't lent, or a write to what is read-only, ends the test. */
void name_stray_touches(void);

/* A book of its own with generous limits, opened. */
struct book {
    int32_t *words;
    int32_t *before; /* as many words, for comparison */
    size_t count;
    int32_t facilities, services;
};

enum { ENERGY_LOWEST = -450000, ENERGY_HIGHEST = 450000, SERVICE_HIGHEST = 400000 };
extern const int32_t usual_limits[6];
extern const int32_t usual_generation[BILZHAAN_CAPABILITY_WORDS];
extern const int32_t usual_load[BILZHAAN_CAPABILITY_WORDS];
extern const int32_t usual_link[BILZHAAN_CAPABILITY_WORDS];

struct book book_for(int32_t facilities, int32_t services);

/* A book of two facilities and five services: 0 the usual generation, 1 the usual load, the clock at `now`. */
struct book usual_book(int32_t now);
void open_usual(struct book *b, int32_t now);

/* Inside the gate of period 100: every notice over it, and facility 0's outage window, which ends with it. */
void shut_gate(struct book *b);

/* Facility 0's offer of one pair at 40.00, or of blanks where the quantity is 0, with the least proportion that passes. */
struct record offered(int which, int service, int32_t period, int reason, int32_t quantity);

/* Calls, and checks what holds of every call: zeros beside a refusal and beside calls 1 to 7, no word but one cell's changed
 * by an accepted offer, every word as it was after a refusal, a look-up and a total, and these again from read-only words. */
struct bilzhaan_answer call_bytes(struct book *b, const uint8_t *bytes, size_t length);
struct bilzhaan_answer call(struct book *b, struct record r);
uint32_t number_of(struct book *b, struct record r);

/* A look-up that is to give this number, word 0 and sum. */
struct bilzhaan_answer looked_up_at(struct book *b, int f, int s, int32_t period, uint32_t number, int32_t first,
                                    int64_t sum, const char *file, int line);
#define LOOK_UP_GIVES(b, f, s, period, number, first, sum) \
    looked_up_at((b), (f), (s), (period), (number), (first), (sum), __FILE__, __LINE__)

/* Where the cell of (f, s, standing 0 or variation 1, slot) starts in a book's words. */
size_t cell_at(const struct book *b, int f, int s, int h, int slot);

/* Facility 0's energy for period 100, as no call leaves it: the first pair at 40.00, the other nine at 50.00. */
void put_quantities(struct book *b, int h, int32_t first, int32_t others);

#endif
