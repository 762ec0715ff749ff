/* Random lists: an opening, a prologue that makes later calls worth while, and calls. */
#include "random_lists.h"
#include "damaged_part.h"
#include "listed_words.h"
#include "struck_out.h"
#include "../../bench/plain_book.h"

#include <string.h>

long damaged_lists;

struct random random_of_list(uint64_t seed, long number)
{
    struct random r = {seed};
    r.state = random_bits(&r) + (uint64_t)number;
    r.state = random_bits(&r);
    return r;
}

static void some_limits(struct random *r, int32_t limits[6])
{
    for (int i = 0; i < 6; i++) {
        int64_t most = one_in(r, 4) ? 10000000 : one_in(r, 6) ? between(r, 0, 12) : 450000;
        limits[i] = (int32_t)(i == 0 ? -most : most);
    }
}

/* Three books of the same words, of which those past the book's are to stay as they are. */
static void place_books(struct list *l, struct random *r)
{
    struct watched *books[] = {&l->by_library, &l->by_plain, &l->by_list};
    uint8_t fill = (uint8_t)between(r, 1, 255);
    bool is_to_the_end = one_in(r, 2);
    for (int i = 0; i < 3; i++)
        place_words(books[i], l->placed, is_to_the_end, fill);
    l->library = l->by_library.words;
    l->plain = l->by_plain.words;
}

static void open_list(struct list *l, struct random *r)
{
    place_books(l, r);
    some_limits(r, l->limits);
    watch_writes(&l->by_library);
    check(l, library_opening(l, l->library, l->needed - 1) == 20 && wrote_only(&l->by_library, 0, 0),
          "an opening with too few words");
    allow_writes(l->library, l->placed * sizeof l->library[0], true);
    check(l, library_opening(l, l->library, l->lent) == 0
              && plain_open(l->plain, l->lent, l->facilities, l->services, l->limits) == 0, "the opening");
    list_machine_open(&l->machine, l->facilities, l->services, l->limits);
    listed_opening(&l->machine, l->by_list.words);
    check(l, same_pages(&l->by_library, &l->by_plain) && same_pages(&l->by_library, &l->by_list), "words after the opening");
    watch_writes(&l->by_library);
    watch_writes(&l->by_plain);
    watch_writes(&l->by_list);
}

/* Capabilities for the scene's facilities and a first minute; some lists go without. */
static void prologue(struct list *l, struct random *r, struct scene *scene)
{
    if (one_in(r, 12))
        return;
    int64_t minute = one_in(r, 3) ? 0 : one_in(r, 6) ? 1000000000 - between(r, 0, 12000) : between(r, 0, 30000);
    struct record clock = clock_at((int32_t)minute);
    for (int i = 0; i <= SCENE_FACILITIES; i++) {
        int32_t w[17] = {1, 1300, 800, 300, 300, 300, 200, 50, 40, 500, 600, 700, 1, 1, 1, 1, 1};
        w[0] = random_kind(r, l->services);
        clear_marks(w);
        struct record record = i < SCENE_FACILITIES ? capability_of(scene->active[i], w) : clock;
        compared_call(l, r, record.bytes, sizeof record.bytes);
    }
}

/* A large book takes long to open, so its lists are longer. */
static int64_t some_length(const struct list *l, struct random *r)
{
    int64_t largest = BILZHAAN_BOOK_WORDS(BILZHAAN_FACILITIES_MOST, BILZHAAN_SERVICES_ALL);
    return between(r, 20, 260 + (LONGEST_LIST - SCENE_FACILITIES - 1 - 260) * (int64_t)l->needed / largest);
}

static void sound_part(struct list *l, struct random *r, struct scene *scene)
{
    prologue(l, r, scene);
    for (int64_t calls = some_length(l, r); calls > 0 && !l->is_wrong; calls--) {
        uint8_t bytes[LONGEST_RECORD];
        size_t length = random_call(r, scene, bytes);
        compared_call(l, r, bytes, length);
    }
    check(l, same_pages(&l->by_library, &l->by_list), "words differ at the end of the list");
}

void random_list(struct list *l, struct random *r, int32_t facilities, int32_t services)
{
    struct scene scene;
    l->facilities = facilities;
    l->services = services;
    l->needed = BILZHAAN_BOOK_WORDS(facilities, services);
    l->lent = l->placed = l->needed + (size_t)between(r, 0, PAST_MOST);
    l->call = 0;
    l->length = l->accepted_count = 0;
    l->is_damaged = l->is_wrong = false;
    open_list(l, r);
    scene_of(&scene, r, l->plain, l->facilities, l->services);
    sound_part(l, r, &scene);
    if (!l->is_wrong)
        strike_out(l, one_in(r, 8) ? (int)between(r, 0, facilities - 1) : scene.active[random_bits(r) % SCENE_FACILITIES]);
    if (one_in(r, 2) && !l->is_wrong) {
        damaged_lists++;
        damaged_part(l, r, &scene);
        check(l, same_pages(&l->by_library, &l->by_plain), "words differ at the end of the damaged part");
    }
    list_machine_close(&l->machine);
}
