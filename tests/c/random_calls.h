/* Random calls for the differential test: most would be accepted or lie at an edge of a rule, some are damaged.
 * What makes a call likely to be accepted is read from a book's words; a wrong hint costs only variety. */
#ifndef BILZHAAN_TESTS_RANDOM_CALLS_H
#define BILZHAAN_TESTS_RANDOM_CALLS_H

#include "records.h"

#include <stdbool.h>

enum { LONGEST_RECORD = 224, SCENE_FACILITIES = 4, SCENE_KEYS = 16 };

struct random {
    uint64_t state;
};

uint64_t random_bits(struct random *r);
int64_t between(struct random *r, int64_t low, int64_t high);
bool one_in(struct random *r, int n);

/* What a list of calls turns around: a few facilities, and the last keys that offers were filed for. */
struct scene {
    const int32_t *words;
    int32_t facilities, services;
    int active[SCENE_FACILITIES];
    struct {
        int facility, service;
        int64_t period;
    } keys[SCENE_KEYS];
    unsigned filed;
};

void scene_of(struct scene *scene, struct random *r, const int32_t *words, int32_t facilities, int32_t services);

/* Of a cell's words: ramp up times 10,000 plus ramp down, and the minute of acceptance. */
enum { CELL_RAMPS = 2, CELL_MINUTE = 3 };

/* The cell of (f, s, standing 0 or variation 1, slot), as a place in the words. */
size_t place_of_cell(int32_t facilities, int32_t services, int f, int s, int h, int64_t slot);

/* Writes a call into the bytes and returns its length, 0 to 224. */
size_t random_call(struct random *r, struct scene *scene, uint8_t bytes[LONGEST_RECORD]);

/* A capability's kind, and w without the marks that a facility of its kind may not have. */
int32_t random_kind(struct random *r, int32_t services);
void clear_marks(int32_t w[17]);

/* The standing offer that the slot's cell holds, filed again as it is or with its blanks last. */
struct record held_again(const struct scene *scene, int f, int s, int64_t slot, bool is_closed_up);

/* A variation of this facility and service for this period, mostly near to the offer that stands, or of blanks alone. */
struct record random_variation(struct random *r, struct scene *scene, int f, int s, int64_t period);

/* A standing offer for this period's slot, mostly near to the one that is held, with a reason for most. */
struct record random_standing(struct random *r, struct scene *scene, int f, int s, int64_t period);

#endif
