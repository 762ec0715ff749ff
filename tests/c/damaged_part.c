/* Damage in rounds: a few words of both books, then calls that meet them. */
#include "damaged_part.h"

#include <string.h>

static void set_both(struct list *l, size_t place, int32_t value)
{
    l->library[place] = l->plain[place] = value;
}

static int32_t odd_value(struct random *r)
{
    static const int32_t values[] = {0, 1, 2, 3, 5, 7, 64, -1, -2, 100, 99999, 1000000000, 1000000001, INT32_MAX, INT32_MIN};
    return one_in(r, 3) ? (int32_t)(uint32_t)random_bits(r) : values[random_bits(r) % 15];
}

/* A cell's word 2 that no ramps make, or that the largest do. */
static int32_t odd_ramps(struct random *r)
{
    static const int32_t values[] = {-12345, -1, -9999, -10000, -10001, 9999, 10000, 99999999, 100000000};
    return one_in(r, 3) ? odd_value(r) : values[random_bits(r) % 9];
}

/* A minute near the clock, at an end of 32 bits, or any. */
static int32_t odd_minute(struct random *r, int64_t now)
{
    switch (random_bits(r) % 6) {
    case 0: return odd_value(r);
    case 1:
    case 2: return one_in(r, 4) ? INT32_MAX : INT32_MIN; /* the least has an age past 32 bits */
    default: return (int32_t)(now + between(r, -7, 7));
    }
}

/* Changes one word of both books, but for the first four. */
static void damage_word(struct list *l, struct random *r, const struct scene *scene)
{
    int i = (int)(random_bits(r) % SCENE_KEYS);
    int f = scene->keys[i].facility % l->facilities, s = scene->keys[i].service % l->services;
    int64_t period = scene->keys[i].period < 0 ? 0 : scene->keys[i].period;
    size_t cell = place_of_cell(l->facilities, l->services, f, s, (int)between(r, 0, 1), period % 336);
    switch (random_bits(r) % 15) {
    case 0: set_both(l, (size_t)between(r, 5, 16), odd_value(r)); break;
    case 1: set_both(l, 64 + 32 * (size_t)f + (size_t)between(r, 0, 18), odd_value(r)); break;
    case 2: set_both(l, (size_t)between(r, 5, (int64_t)l->needed - 1), odd_value(r)); break;
    case 3: set_both(l, cell, one_in(r, 2) ? odd_value(r) : (int32_t)(period + 1 + 336 * between(r, -1, 1))); break;
    case 4: set_both(l, 4, (int32_t)between(r, 0, one_in(r, 4) ? 1000000000 : 30 * period % 1000000000)); break;
    case 5: set_both(l, cell + CELL_RAMPS, odd_ramps(r)); break;
    case 6: set_both(l, cell + CELL_MINUTE, odd_minute(r, l->plain[4])); break;
    case 7: set_both(l, 64 + 32 * (size_t)f + (size_t)between(r, 7, 8), (int32_t)between(r, 9998, 10002)); break;
    default: set_both(l, cell + (size_t)between(r, 1, 23), odd_value(r)); break;
    }
}

/* An offer with quantities, and ramps and minutes for some, that only a damaged book holds. */
static void damaged_offer(struct list *l, struct random *r, size_t cell, int32_t stamp)
{
    bool is_huge = one_in(r, 4);
    set_both(l, cell, stamp);
    if (one_in(r, 2))
        set_both(l, cell + CELL_RAMPS, odd_ramps(r));
    if (one_in(r, 2))
        set_both(l, cell + CELL_MINUTE, odd_minute(r, l->plain[4]));
    for (int i = 0; i < 10; i++) {
        int32_t quantity = one_in(r, 3) ? (int32_t)between(r, -60, 60) : one_in(r, 4) ? odd_value(r) : 0;
        set_both(l, cell + 4 + 2 * (size_t)i, 100 * i + (int32_t)between(r, -60, 60));
        set_both(l, cell + 5 + 2 * (size_t)i, is_huge ? (int32_t)between(r, INT32_MAX - 9, INT32_MAX) : quantity);
    }
}

/* A sound offer but for blanks that may stand anywhere, as an older book holds it. */
static void older_offer(struct list *l, struct random *r, size_t cell, int32_t stamp)
{
    set_both(l, cell, stamp);
    for (int i = 0; i < 10; i++) {
        bool is_blank = one_in(r, 2);
        set_both(l, cell + 4 + 2 * (size_t)i, is_blank ? 0 : 100 * i + (int32_t)between(r, -40, 40));
        set_both(l, cell + 5 + 2 * (size_t)i, is_blank ? 0 : (int32_t)between(r, 1, 40));
    }
}

/* The other cell's offer, or nearly. */
static void copied_offer(struct list *l, struct random *r, size_t cell, int32_t stamp, size_t from)
{
    set_both(l, cell, stamp);
    for (size_t i = 1; i < 24; i++)
        set_both(l, cell + i, l->plain[from + i]);
    for (int64_t changes = between(r, 0, 2); changes > 0; changes--) {
        size_t pair = cell + 5 + 2 * (size_t)between(r, 0, 9);
        set_both(l, pair, one_in(r, 3) ? odd_value(r) : (int32_t)between(r, -60, 60));
    }
}

/* Damaged or older offers near gate closure, in one of the two cells or in both; then offers and readings. */
static void damaged_near_gate(struct list *l, struct random *r, struct scene *scene)
{
    int64_t now = l->plain[4];
    if (now < 0 || now > 1000000000 || !usable_sizes(l))
        return;
    int f = scene->active[random_bits(r) % SCENE_FACILITIES] % scene->facilities;
    int s = (int)between(r, 0, scene->services - 1);
    int64_t period = now / 30 + between(r, 1, 2);
    size_t block = 64 + 32 * (size_t)f;
    size_t standing = place_of_cell(scene->facilities, scene->services, f, s, 0, period % 336);
    size_t variation = place_of_cell(scene->facilities, scene->services, f, s, 1, period % 336);
    set_both(l, block, one_in(r, 6) ? odd_value(r) : (int32_t)between(r, 1, 3));
    set_both(l, block + 12 + (size_t)s, 1);
    if (one_in(r, 3))
        set_both(l, block + (size_t)between(r, 7, 8), one_in(r, 2) ? odd_value(r) : (int32_t)between(r, 9998, 10002));
    if (one_in(r, 4)) { /* a link has no outage window by calls */
        set_both(l, block + 17, (int32_t)period - 1);
        set_both(l, block + 18, (int32_t)period + 1);
    }
    int which = (int)between(r, 0, 3);
    void (*held_offer)(struct list *, struct random *, size_t, int32_t) = one_in(r, 2) ? older_offer : damaged_offer;
    if (which != 1)
        held_offer(l, r, standing, one_in(r, 8) ? odd_value(r) : 1);
    if (which == 1)
        held_offer(l, r, variation, (int32_t)period + 1);
    if (which >= 2)
        copied_offer(l, r, variation, (int32_t)period + 1, standing);
    for (int i = 0; i < 8 && !l->is_wrong; i++) {
        struct record record = i == 0 ? look_up_of(f, s, (int32_t)period) : i == 1 ? total_of(s, (int32_t)period)
                             : one_in(r, 3)                                        ? random_standing(r, scene, f, s, period)
                                                                                   : random_variation(r, scene, f, s, period);
        compared_call(l, r, record.bytes, sizeof record.bytes);
    }
}

/* A blank put before some pair of the cell's, as an older book may hold it; the last pair makes room. */
static void open_gap(struct list *l, struct random *r, size_t cell, int s)
{
    size_t last = s == 0 ? 9 : 4, blank = (size_t)between(r, 0, (int64_t)last - 1);
    for (size_t i = last; i > blank; i--)
        for (size_t word = 4; word <= 5; word++)
            set_both(l, cell + word + 2 * i, l->plain[cell + word + 2 * (i - 1)]);
    set_both(l, cell + 4 + 2 * blank, 0);
    set_both(l, cell + 5 + 2 * blank, 0);
}

/* Standing offers filed again over their own cells, whose minute, and ramps or blanks for some, were damaged. */
static void damaged_duplicates(struct list *l, struct random *r, struct scene *scene)
{
    for (int i = 0; i < SCENE_KEYS && usable_sizes(l) && !l->is_wrong; i++) {
        int f = scene->keys[i].facility, s = scene->keys[i].service;
        int64_t slot = scene->keys[i].period < 0 ? 0 : scene->keys[i].period % 336;
        if (f >= scene->facilities || s >= scene->services)
            continue;
        size_t cell = place_of_cell(scene->facilities, scene->services, f, s, 0, slot);
        if (l->plain[cell] != 1)
            continue;
        set_both(l, cell + CELL_MINUTE, odd_minute(r, l->plain[4]));
        if (one_in(r, 4))
            set_both(l, cell + CELL_RAMPS, odd_ramps(r));
        if (one_in(r, 3))
            open_gap(l, r, cell, s);
        for (int closes_up = 0; closes_up <= 1 && !l->is_wrong; closes_up++) {
            struct record record = held_again(scene, f, s, slot, closes_up);
            compared_call(l, r, record.bytes, sizeof record.bytes);
        }
    }
}

static void damaged_round(struct list *l, struct random *r, struct scene *scene)
{
    int32_t head[4];
    memcpy(head, l->plain, sizeof head);
    l->lent = one_in(r, 4) ? l->needed + (size_t)between(r, 0, (int64_t)(l->placed - l->needed)) : l->placed;
    if (one_in(r, 12)) {
        static const size_t few[] = {0, 1, 63, 64, FEW_WORDS};
        l->lent = one_in(r, 2) ? few[random_bits(r) % 5] : l->needed - 1;
    } else if (one_in(r, 6)) {
        set_both(l, (size_t)between(r, 0, 3), odd_value(r));
    } else if (one_in(r, 20)) {
        set_both(l, 1, (int32_t)between(r, 0, 3));
    }
    for (int64_t i = between(r, 1, 6); i > 0; i--)
        damage_word(l, r, scene);
    if (usable_sizes(l)) {
        scene->facilities = l->plain[2];
        scene->services = l->plain[3];
    }
    if (one_in(r, 2))
        damaged_near_gate(l, r, scene);
    if (one_in(r, 4))
        damaged_duplicates(l, r, scene);
    for (int64_t i = between(r, 4, 20); i > 0 && !l->is_wrong; i--) {
        uint8_t bytes[LONGEST_RECORD];
        size_t length = random_call(r, scene, bytes);
        compared_call(l, r, bytes, length);
    }
    /* the head's first words are mended, so that later rounds aren't all refused with 1 */
    for (size_t i = 0; i < 4; i++)
        set_both(l, i, head[i]);
    scene->facilities = l->facilities;
    scene->services = l->services;
}

void damaged_part(struct list *l, struct random *r, struct scene *scene)
{
    l->is_damaged = true;
    for (int64_t rounds = between(r, 1, 4 + (int64_t)l->needed / 500000); rounds > 0 && !l->is_wrong; rounds--)
        damaged_round(l, r, scene);
}
