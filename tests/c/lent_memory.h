/* Memory to lend, between two pages that can't be touched, and its pages read-only or writable. */
#ifndef BILZHAAN_TESTS_LENT_MEMORY_H
#define BILZHAAN_TESTS_LENT_MEMORY_H

#include <stdbool.h>
#include <stddef.h>
#include <stdint.h>

/* The bytes end at the page that can't be touched, or start after it. Kept until the test ends. */
uint8_t *lent_to_the_end(size_t bytes);
uint8_t *lent_from_the_start(size_t bytes);

/* Makes the pages of lent bytes read-only, or writable again. */
void allow_writes(const void *lent, size_t bytes, bool allowed);

/* Their pages can't be touched until one of the above. */
void forbid_touches(const void *lent, size_t bytes);

/* Room for copies of up to `most` bytes. Each is read-only and ends at the page that can't be touched, so that of a short copy no
 * byte more can be read; it stands until the next. */
struct copies {
    uint8_t *end;
    size_t most;
};

struct copies room_for_copies(size_t most);
uint8_t *lend_copy(const struct copies *c, const void *from, size_t bytes);

#endif
