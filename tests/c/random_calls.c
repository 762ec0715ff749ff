/* Random calls: each of the nine from a few kinds of choices, then a fault or damage for some. */
#include "random_calls.h"

#include <string.h>

/* splitmix64 */
uint64_t random_bits(struct random *r)
{
    uint64_t z = r->state += UINT64_C(0x9E3779B97F4A7C15);
    z = (z ^ z >> 30) * UINT64_C(0xBF58476D1CE4E5B9);
    z = (z ^ z >> 27) * UINT64_C(0x94D049BB133111EB);
    return z ^ z >> 31;
}

int64_t between(struct random *r, int64_t low, int64_t high)
{
    if (low >= high)
        return low;
    return low + (int64_t)(random_bits(r) % ((uint64_t)(high - low) + 1));
}

bool one_in(struct random *r, int n)
{
    return random_bits(r) % (uint64_t)n == 0;
}

static int64_t clamp(int64_t n, int64_t low, int64_t high)
{
    return n < low ? low : n > high ? high : n;
}

static int32_t any_word(struct random *r)
{
    static const int32_t edges[] = {INT32_MIN, INT32_MAX, -1, 0, 1, 99999, 100000, 1000000000, 1000000001};
    return one_in(r, 3) ? edges[random_bits(r) % 9] : (int32_t)(uint32_t)random_bits(r);
}

/* ---- hints from the words ---- */

static int64_t now_of(const struct scene *scene) { return clamp(scene->words[4], 0, 1000000000); }

static const int32_t *block_of(const struct scene *scene, int f) { return scene->words + 64 + 32 * f; }

size_t place_of_cell(int32_t facilities, int32_t services, int f, int s, int h, int64_t slot)
{
    return 64 + 32 * (size_t)facilities + 24 * (size_t)(((f * services + s) * 2 + h) * 336 + slot);
}

static const int32_t *cell_of(const struct scene *scene, int f, int s, int h, int64_t slot)
{
    return scene->words + place_of_cell(scene->facilities, scene->services, f, s, h, slot);
}

static const int32_t *held_for(const struct scene *scene, int f, int s, int64_t period)
{
    if (period < 0)
        return NULL;
    const int32_t *variation = cell_of(scene, f, s, 1, period % 336);
    const int32_t *standing = cell_of(scene, f, s, 0, period % 336);
    return variation[0] == period + 1 ? variation : standing[0] == 1 ? standing : NULL;
}

void scene_of(struct scene *scene, struct random *r, const int32_t *words, int32_t facilities, int32_t services)
{
    memset(scene, 0, sizeof *scene);
    scene->words = words;
    scene->facilities = facilities;
    scene->services = services;
    for (int i = 0; i < SCENE_FACILITIES; i++)
        scene->active[i] = (int)between(r, 0, facilities - 1);
    if (one_in(r, 2))
        scene->active[0] = facilities - 1; /* its cells end the book */
}

static void remember(struct scene *scene, int f, int s, int64_t period)
{
    unsigned i = scene->filed++ % SCENE_KEYS;
    scene->keys[i].facility = f;
    scene->keys[i].service = s;
    scene->keys[i].period = period;
}

/* ---- choices ---- */

static int some_facility(struct random *r, const struct scene *scene)
{
    if (one_in(r, 20))
        return (int)between(r, 0, scene->facilities - 1);
    int f = scene->active[random_bits(r) % SCENE_FACILITIES];
    return f < scene->facilities ? f : 0;
}

static int some_service(struct random *r, const struct scene *scene, int f)
{
    int s = 0;
    for (int tries = 0; tries < 4; tries++) {
        s = (int)between(r, 0, scene->services - 1);
        if (block_of(scene, f)[12 + s] == 1)
            break;
    }
    return s;
}

/* The period, or where it has begun the next one of its slot. */
static int64_t not_begun(const struct scene *scene, int64_t period)
{
    int64_t behind = now_of(scene) / 30 + 1 - period;
    return behind > 0 ? period + (behind + 335) / 336 * 336 : period;
}

/* Near gate closure, near the horizon, weeks from a period filed for, at an end of the week's slots, or anywhere. */
static int64_t some_period(struct random *r, const struct scene *scene)
{
    int64_t now = now_of(scene), first = now / 30 + 1, horizon = 48 * (now / 1440 + 7);
    int64_t filed = not_begun(scene, scene->keys[random_bits(r) % SCENE_KEYS].period);
    switch (random_bits(r) % 20) {
    case 0: return between(r, horizon - 3, horizon + 1);
    case 1: return one_in(r, 2) ? horizon - 1 : horizon;
    case 2: return between(r, first - 4, first);
    case 3: return one_in(r, 4) ? any_word(r) : between(r, -1, 1);
    case 4:
    case 5: return between(r, first, horizon - 1);
    case 6: return filed + (one_in(r, 2) ? 336 : -336);
    case 7:
    case 8:
    case 9:
    case 10: return filed;
    case 11: return not_begun(scene, one_in(r, 2) ? 335 : 0);
    default: return between(r, first, first + 3);
    }
}

/* ---- offers ---- */

struct draft {
    int64_t prices[10], quantities[10];
    int count; /* non-blank pairs, in rising order where the draft is sound */
};

static void limits_of(const struct scene *scene, int s, int64_t *low, int64_t *high)
{
    *low = s == 0 ? clamp(scene->words[11], -10000000, 10000000) : 0;
    *high = clamp(scene->words[12 + s], *low, 10000000);
}

static int64_t capacity_of(const struct scene *scene, int f, int s)
{
    const int32_t *block = block_of(scene, f);
    int64_t most = s == 0 ? (block[1] < block[2] ? block[1] : block[2]) : block[2 + s];
    return clamp(most, 0, 999990);
}

static void fresh_draft(struct random *r, const struct scene *scene, int f, int s, struct draft *d)
{
    int64_t low, high, most = capacity_of(scene, f, s);
    limits_of(scene, s, &low, &high);
    int64_t left = one_in(r, 5) ? most + between(r, 0, 1) : between(r, 0, most);
    d->count = one_in(r, 12) ? 0 : (int)between(r, 1, s == 0 ? 10 : 5);
    int64_t step = (high - low) / (d->count + 1);
    bool on_a_grid = one_in(r, 2) && step > 0; /* so that offers share prices */
    int64_t price = low;
    for (int i = 0; i < d->count; i++) {
        price += on_a_grid ? step : between(r, i == 0 ? 0 : 1, step);
        d->prices[i] = i == 0 && one_in(r, 8) ? low : i == d->count - 1 && one_in(r, 8) ? high : price;
        int64_t share = i == d->count - 1 ? left : between(r, left > 0 ? 1 : 0, left / 2);
        d->quantities[i] = clamp(share, 0, 99999);
        left -= d->quantities[i];
    }
}

/* The held offer with its curve kept, lengthened (5 to 9), shortened (1 to 4) or bent (10, 11). */
static void draft_from(struct random *r, const int32_t *held, int s, int reason, struct draft *d)
{
    int most = s == 0 ? 10 : 5;
    d->count = 0;
    for (int i = 0; i < 10; i++)
        if (held[5 + 2 * i] > 0 && d->count < most) {
            d->prices[d->count] = held[4 + 2 * i];
            d->quantities[d->count++] = held[5 + 2 * i];
        }
    if (d->count == 0)
        return;
    int last = d->count - 1, any = (int)between(r, 0, last), change = (int)between(r, 0, 11);
    if (reason == BILZHAAN_REASON_ENERGY_SURPLUS && !one_in(r, 3))
        change = (int)between(r, 1, 4);
    if ((reason == BILZHAAN_REASON_SHORTFALL || reason == BILZHAAN_REASON_SYSTEM_STATUS) && !one_in(r, 3))
        change = (int)between(r, 5, 9);
    switch (change) {
    case 0: break;
    case 1:
    case 2:
    case 3: d->quantities[last] -= between(r, 1, d->quantities[last]); break;
    case 4: d->count = any; break;
    case 5:
    case 6:
    case 7: d->quantities[last] += between(r, 1, 40); break;
    case 10: d->prices[any] += one_in(r, 2) ? 1 : -1; break;
    case 11:
        if (any < last) {
            d->quantities[any]--;
            d->quantities[any + 1]++;
        }
        break;
    default:
        if (d->count < most) {
            d->prices[d->count] = d->prices[last] + between(r, 1, 500);
            d->quantities[d->count++] = between(r, 1, 40);
        }
    }
}

/* Blanks come last; of some drafts they stand anywhere. */
static void place_draft(struct random *r, const struct draft *d, int s, struct record *record)
{
    int left = s == 0 ? 10 : 5, pending = d->count;
    bool is_scattered = one_in(r, 8);
    for (int pair = 0; left > 0; pair++, left--) {
        if (pending == 0 || (is_scattered && pending < left && one_in(r, 3)))
            continue; /* blank */
        int i = d->count - pending--;
        int64_t quantity = d->quantities[i];
        set_pair(record, pair, quantity == 0 ? 0 : (int32_t)d->prices[i], (int32_t)quantity);
    }
}

static int32_t some_rate(struct random *r, int32_t most)
{
    if (most > 9999 && one_in(r, 3)) /* on a damaged book */
        return (int32_t)between(r, 9999, 10001);
    int64_t high = clamp(most, 0, 9999);
    return (int32_t)(one_in(r, 4) ? high : one_in(r, 6) ? 0 : between(r, 0, high));
}

static void rates(struct random *r, const struct scene *scene, int f, int s, struct record *record)
{
    const int32_t *block = block_of(scene, f);
    if (s == 0) {
        int32_t up = some_rate(r, block[7]);
        set_ramps(record, up, some_rate(r, block[8]));
    } else if (s <= 3) {
        int64_t most = block[0] == 2 ? 65535 : clamp(block[8 + s], 1, 65535);
        set_proportion(record, (int)(one_in(r, 4) ? most : between(r, 1, most)));
    }
}

static bool is_blank(const struct record *record, int pair)
{
    static const uint8_t none[4];
    return memcmp(record->bytes + BILZHAAN_AT_W0 + 8 * pair + 4, none, sizeof none) == 0;
}

/* A filled pair or the first blank one; for some, any. */
static int some_pair(struct random *r, int s, const struct record *record)
{
    int last = s == 0 ? 9 : 4, first_blank = 0;
    while (first_blank < last && !is_blank(record, first_blank))
        first_blank++;
    return (int)between(r, 0, one_in(r, 4) ? last : first_blank);
}

/* One step past an edge of refusals 11 to 16. */
static void fault(struct random *r, const struct scene *scene, int f, int s, struct record *record)
{
    const int32_t *block = block_of(scene, f);
    int64_t low, high;
    limits_of(scene, s, &low, &high);
    int pair = some_pair(r, s, record);
    switch (random_bits(r) % 10) {
    case 0: set_pair(record, pair, (int32_t)(high + 1), 1); break;
    case 1: set_pair(record, pair, (int32_t)(low - 1), (int32_t)between(r, 0, 1)); break;
    case 2: set_pair(record, pair, 0, one_in(r, 2) ? -1 : 100000); break;
    case 3: set_pair(record, pair, one_in(r, 2) ? 0 : (int32_t)between(r, low, high), 0); break;
    case 4: set_pair(record, pair, (int32_t)between(r, low, high), 1); break;
    case 5: set_w(record, 2 * pair + (int)between(r, 0, 1), any_word(r)); break;
    case 6: set_pair(record, pair, (int32_t)high, 99999); break;
    default:
        if (s == 0) {
            bool up = one_in(r, 2);
            int32_t most = (int32_t)clamp(up ? block[7] : block[8], -1, INT32_MAX - 1);
            int32_t past = one_in(r, 2) ? most + 1 : 10000; /* the second is past any maximum of a sound book */
            set_word(record, up ? BILZHAAN_AT_RAMP_UP : BILZHAAN_AT_RAMP_DOWN, one_in(r, 3) ? -1 : past);
        } else if (s <= 3) {
            set_proportion(record, one_in(r, 2) ? 0 : (int)clamp(block[8 + s] + INT64_C(1), 0, 65535));
        }
    }
}

static void copy_cell(const int32_t *cell, int s, struct record *record)
{
    if (s == 0)
        set_ramps(record, cell[CELL_RAMPS] / 10000, cell[CELL_RAMPS] % 10000);
    else if (s <= 3)
        set_proportion(record, cell[1]);
    for (int i = 0; i < (s == 0 ? 20 : 10); i++)
        set_w(record, i, cell[4 + i]);
}

/* The filled pairs first, where a held offer's are not. */
static void close_up(int s, struct record *record)
{
    int filled = 0;
    for (int i = 0; i < (s == 0 ? 10 : 5); i++) {
        uint8_t pair[8];
        if (is_blank(record, i))
            continue;
        memcpy(pair, record->bytes + BILZHAAN_AT_W0 + 8 * i, sizeof pair);
        set_pair(record, i, 0, 0);
        memcpy(record->bytes + BILZHAAN_AT_W0 + 8 * filled++, pair, sizeof pair);
    }
}

struct record held_again(const struct scene *scene, int f, int s, int64_t slot, bool is_closed_up)
{
    struct record record = offer_for(BILZHAAN_CALL_STANDING, f, s, (int32_t)slot, 0);
    copy_cell(cell_of(scene, f, s, 0, slot), s, &record);
    if (is_closed_up)
        close_up(s, &record);
    return record;
}

/* A reason that the hints say holds, or any. */
static int some_reason(struct random *r, const struct scene *scene, int f, int s, int64_t period)
{
    const int32_t *block = block_of(scene, f), *notices = scene->words + 5;
    int holding[6], count = 0;
    if (block[0] == 1)
        holding[count++] = 1;
    if (block[17] <= period && period <= block[18])
        holding[count++] = block[0] == 1 || (block[0] == 3 && one_in(r, 2)) ? 2 : 6;
    for (int i = 0; i < 3; i++)
        if (notices[2 * i] <= period && period <= notices[2 * i + 1] && (i > 0 || s == 0))
            holding[count++] = 3 + i;
    if (s == 0 && notices[0] <= period && period <= notices[1] && one_in(r, 3))
        return BILZHAAN_REASON_ENERGY_SURPLUS; /* it asks the most, so it would seldom hold */
    if (count > 0 && !one_in(r, 3))
        return holding[random_bits(r) % (unsigned)count];
    if (one_in(r, 12))
        return one_in(r, 2) ? 7 : (int)between(r, 0, 255);
    return one_in(r, 3) ? 0 : (int)between(r, 1, 6);
}

/* A standing offer for the period's slot, or a variation for the period. */
static struct record offer_at(struct random *r, struct scene *scene, int which, int f, int s, int64_t period)
{
    int64_t filed_for = period;
    if (which == BILZHAAN_CALL_STANDING && !one_in(r, 20)) {
        period = ((period % 336) + 336) % 336;
    } else if (which == BILZHAAN_CALL_STANDING) {
        period = one_in(r, 2) ? 336 : -1;
    }
    bool varies = which == BILZHAAN_CALL_VARIATION;
    int64_t judged_for = varies ? period : not_begun(scene, period);
    int reason = varies || !one_in(r, 4) ? some_reason(r, scene, f, s, judged_for) : 0;
    struct record record = offer_for(which, f, s, (int32_t)period, reason);
    const int32_t *held = held_for(scene, f, s, filed_for);
    if (held && varies && one_in(r, 3) && cell_of(scene, f, s, 0, period % 336)[0] == 1)
        held = cell_of(scene, f, s, 0, period % 336);
    if (!varies && period >= 0 && period < 336 && cell_of(scene, f, s, 0, period)[0] == 1)
        held = cell_of(scene, f, s, 0, period);
    if (held && one_in(r, varies ? 8 : 3)) {
        copy_cell(held, s, &record);
        if (one_in(r, 2))
            close_up(s, &record);
    } else {
        struct draft d;
        if (held && !one_in(r, 3))
            draft_from(r, held, s, reason, &d);
        else
            fresh_draft(r, scene, f, s, &d);
        place_draft(r, &d, s, &record);
        rates(r, scene, f, s, &record);
    }
    if (one_in(r, 7))
        fault(r, scene, f, s, &record);
    remember(scene, f, s, filed_for);
    return record;
}

static struct record some_offer(struct random *r, struct scene *scene, int which)
{
    unsigned key = (unsigned)(random_bits(r) % SCENE_KEYS);
    int key_f = scene->keys[key].facility, key_s = scene->keys[key].service;
    if (one_in(r, 4) && key_f < scene->facilities && key_s < scene->services) /* where an offer was filed before */
        return offer_at(r, scene, which, key_f, key_s, not_begun(scene, scene->keys[key].period));
    int f = some_facility(r, scene), s = some_service(r, scene, f);
    return offer_at(r, scene, which, f, s, some_period(r, scene));
}

struct record random_standing(struct random *r, struct scene *scene, int f, int s, int64_t period)
{
    return offer_at(r, scene, BILZHAAN_CALL_STANDING, f, s, period);
}

/* Mostly over an offer held for a slot whose next period is inside the gate, the first such key from a random one on. */
static struct record some_revision(struct random *r, struct scene *scene)
{
    unsigned from = (unsigned)(random_bits(r) % SCENE_KEYS);
    for (unsigned i = 0; i < SCENE_KEYS && !one_in(r, 20); i++) {
        unsigned key = (from + i) % SCENE_KEYS;
        int f = scene->keys[key].facility, s = scene->keys[key].service;
        int64_t period = scene->keys[key].period < 0 ? 0 : not_begun(scene, scene->keys[key].period % 336);
        if (f < scene->facilities && s < scene->services && 30 * period - now_of(scene) < BILZHAAN_GATE_MINUTES
            && cell_of(scene, f, s, 0, period % 336)[0] == 1)
            return random_standing(r, scene, f, s, period);
    }
    return some_offer(r, scene, BILZHAAN_CALL_STANDING);
}

/* ---- variations taken back ---- */

static int64_t counted_in_gate(const int32_t *cell)
{
    int64_t total = 0;
    for (int i = 0; i < 10; i++)
        total += cell[5 + 2 * i] > 0 ? cell[5 + 2 * i] : 0;
    return total;
}

/* A notice that covers the period and that the two totals allow; else as for any variation. */
static int reason_to_go_back(struct random *r, const struct scene *scene, int f, int s, int64_t period)
{
    if (period < 0 || one_in(r, 3))
        return some_reason(r, scene, f, s, period);
    const int32_t *variation = cell_of(scene, f, s, 1, period % 336), *standing = cell_of(scene, f, s, 0, period % 336);
    int64_t before = counted_in_gate(variation), after = standing[0] == 1 ? counted_in_gate(standing) : 0;
    int kind = after < before ? 3 : (int)between(r, 4, 5);
    const int32_t *notice = scene->words + 5 + 2 * (kind - 3);
    bool holds = notice[0] <= period && period <= notice[1] && after != before;
    return holds ? kind : some_reason(r, scene, f, s, period);
}

static struct record take_back_at(struct random *r, struct scene *scene, int f, int s, int64_t period)
{
    struct record record = offer_for(BILZHAAN_CALL_VARIATION, f, s, (int32_t)period,
                                     reason_to_go_back(r, scene, f, s, period));
    rates(r, scene, f, s, &record);
    if (one_in(r, 12))
        fault(r, scene, f, s, &record);
    remember(scene, f, s, period);
    return record;
}

/* Mostly of a period that has a variation, the first such key from a random one on; half of the time only where the gate
 * is shut and there is a standing offer to go back to. */
static struct record some_take_back(struct random *r, struct scene *scene)
{
    unsigned from = (unsigned)(random_bits(r) % SCENE_KEYS);
    bool anywhere = one_in(r, 2);
    for (unsigned i = 0; i < SCENE_KEYS && !one_in(r, 20); i++) {
        unsigned key = (from + i) % SCENE_KEYS;
        int f = scene->keys[key].facility, s = scene->keys[key].service;
        int64_t period = scene->keys[key].period;
        if (f < scene->facilities && s < scene->services && period > now_of(scene) / 30
            && cell_of(scene, f, s, 1, period % 336)[0] == period + 1
            && (anywhere || (30 * period - now_of(scene) < BILZHAAN_GATE_MINUTES && cell_of(scene, f, s, 0, period % 336)[0] == 1)))
            return take_back_at(r, scene, f, s, period);
    }
    int f = some_facility(r, scene), s = some_service(r, scene, f);
    return take_back_at(r, scene, f, s, some_period(r, scene));
}

struct record random_variation(struct random *r, struct scene *scene, int f, int s, int64_t period)
{
    return one_in(r, 3) ? take_back_at(r, scene, f, s, period) : offer_at(r, scene, BILZHAAN_CALL_VARIATION, f, s, period);
}

/* ---- the other calls ---- */

/* Four or five minutes after some held offer was accepted, or a few minutes from now. */
static int64_t near_cutoff(struct random *r, const struct scene *scene)
{
    unsigned key = (unsigned)(random_bits(r) % SCENE_KEYS);
    int f = scene->keys[key].facility, s = scene->keys[key].service;
    bool is_there = f < scene->facilities && s < scene->services;
    const int32_t *held = is_there ? held_for(scene, f, s, not_begun(scene, scene->keys[key].period)) : NULL;
    int64_t now = now_of(scene), to = held ? held[CELL_MINUTE] + between(r, 4, 5) : now;
    return to > now ? to : now + between(r, 0, 7);
}

static struct record some_clock(struct random *r, const struct scene *scene)
{
    int64_t now = now_of(scene), key = not_begun(scene, scene->keys[random_bits(r) % SCENE_KEYS].period);
    int64_t period = one_in(r, 8) ? key : now / 30 + between(r, 1, 4);
    int64_t to;
    switch (random_bits(r) % 24) {
    case 0: to = now - between(r, 1, 100); break;
    case 1: to = one_in(r, 8) ? any_word(r) : now; break;
    case 2: to = 1440 * (now / 1440 + 1) + between(r, -1, 1); break;
    case 3: to = now + 10080 + between(r, -70, 70); break;
    case 4:
    case 5: to = 30 * period + between(r, -1, 1); break;
    case 6:
    case 7:
    case 8: to = 30 * period - BILZHAAN_GATE_MINUTES + between(r, -1, 1); break;
    case 9: to = now + between(r, 0, 1440); break;
    case 10:
    case 11:
    case 12:
    case 13:
    case 14: to = now + between(r, 0, 31); break;
    default: to = near_cutoff(r, scene); break;
    }
    if (to < now && !one_in(r, 8))
        to = now + between(r, 0, 20);
    return clock_at((int32_t)clamp(to, INT32_MIN, INT32_MAX));
}

int32_t random_kind(struct random *r, int32_t services)
{
    return one_in(r, 4) ? 3 : one_in(r, services == 1 ? 12 : 3) ? 2 : 1;
}

void clear_marks(int32_t w[17])
{
    for (int s = 0; s < 5; s++)
        if ((w[0] == 2 && (s == 0 || s == 4)) || (w[0] == 3 && s > 0))
            w[12 + s] = 0;
}

static struct record some_capability(struct random *r, const struct scene *scene)
{
    static const int32_t highest[17] = {3, 99999, 99999, 99999, 99999, 99999, 99999, 9999, 9999,
                                        1000, 1000, 1000, 1, 1, 1, 1, 1};
    int32_t w[17];
    int f = some_facility(r, scene), held = block_of(scene, f)[0];
    w[0] = held >= 1 && held <= 3 && !one_in(r, 15) ? held : random_kind(r, scene->services);
    for (int i = 1; i < 17; i++) {
        int64_t most = i <= 6 && !one_in(r, 12) ? between(r, 20, 900) : highest[i];
        w[i] = (int32_t)(one_in(r, 4) ? most : between(r, most / 2, most));
        if (i >= 12)
            w[i] = one_in(r, 12) ? 0 : 1;
    }
    if (!one_in(r, 20))
        clear_marks(w);
    if (one_in(r, 20))
        w[between(r, 12, 16)] = 1;
    if (one_in(r, 20)) /* no kind, with marks that some kind may have */
        w[0] = one_in(r, 2) ? 4 : 0;
    if (one_in(r, 12)) {
        int i = (int)between(r, 0, 16);
        w[i] = one_in(r, 3) ? any_word(r) : one_in(r, 2) ? -1 : highest[i] + 1;
    }
    return capability_of(f, w);
}

static struct record some_outage(struct random *r, const struct scene *scene)
{
    int f = some_facility(r, scene);
    int64_t now = now_of(scene), minute = clamp(now - between(r, 0, 70), 0, now);
    int64_t most = block_of(scene, f)[0] == 2 ? 48 : 3, periods = between(r, 1, most);
    if (one_in(r, 10))
        minute = one_in(r, 2) ? now + 1 : -1;
    if (one_in(r, 10))
        periods = one_in(r, 2) ? most + 1 : 0;
    return outage_of(f, (int32_t)minute, (int32_t)periods);
}

static struct record some_notice(struct random *r, const struct scene *scene)
{
    int64_t first = clamp(now_of(scene) / 30 + between(r, -2, 4), 0, 40000000), last = first + between(r, 0, 6);
    int kind = (int)between(r, 3, 5);
    switch (random_bits(r) % 20) {
    case 0: kind = (int)between(r, 0, 7); break;
    case 1: last = first - 1; break;
    case 2: first = between(r, -1, 0); break;
    case 3: last = between(r, 39999999, 40000001); break;
    }
    return notice_of(kind, (int32_t)first, (int32_t)last);
}

static struct record some_reading(struct random *r, const struct scene *scene, int which)
{
    int i = (int)(random_bits(r) % SCENE_KEYS);
    int f = scene->keys[i].facility, s = scene->keys[i].service;
    int64_t period = scene->keys[i].period;
    if (one_in(r, 5))
        period = some_period(r, scene);
    else if (!one_in(r, 10))
        period = not_begun(scene, period);
    if (one_in(r, 6) || f >= scene->facilities)
        f = some_facility(r, scene);
    if (one_in(r, 6) || s >= scene->services)
        s = some_service(r, scene, f);
    return which == BILZHAAN_CALL_TOTAL ? total_of(s, (int32_t)period) : look_up_of(f, s, (int32_t)period);
}

/* ---- damage ---- */

static size_t damage(struct random *r, uint8_t bytes[LONGEST_RECORD])
{
    int at = (int)between(r, 0, BILZHAAN_RECORD_BYTES - 1);
    switch (random_bits(r) % 8) {
    case 0:
        for (int i = BILZHAAN_RECORD_BYTES; i < LONGEST_RECORD; i++)
            bytes[i] = one_in(r, 2) ? 0 : (uint8_t)random_bits(r);
        return (size_t)between(r, 0, LONGEST_RECORD);
    case 1:
        return (size_t)between(r, BILZHAAN_RECORD_BYTES - 1, BILZHAAN_RECORD_BYTES + 1);
    case 2:
        bytes[between(r, 0, 5)] = (uint8_t)random_bits(r);
        break;
    case 3:
        bytes[BILZHAAN_AT_CALL] = (uint8_t)between(r, 0, 10);
        break;
    case 4:
        bytes[between(r, 6, 7)] = (uint8_t)between(r, 0, one_in(r, 2) ? 5 : 255);
        break;
    case 5:
        for (int i = one_in(r, 2) ? 6 : 0; i < BILZHAAN_RECORD_BYTES; i++)
            bytes[i] = (uint8_t)random_bits(r);
        break;
    case 6:
        bytes[one_in(r, 2) ? at : between(r, 8, 31)] = (uint8_t)random_bits(r);
        break;
    default:
        at = one_in(r, 2) ? at : (int)between(r, 8, 31);
        bytes[at] ^= (uint8_t)(1 << between(r, 0, 7));
    }
    return BILZHAAN_RECORD_BYTES;
}

size_t random_call(struct random *r, struct scene *scene, uint8_t bytes[LONGEST_RECORD])
{
    struct record record;
    unsigned choice = (unsigned)(random_bits(r) % 100);
    if (choice < 12)
        record = some_clock(r, scene);
    else if (choice < 20)
        record = some_capability(r, scene);
    else if (choice < 36)
        record = one_in(r, 3) ? some_revision(r, scene) : some_offer(r, scene, BILZHAAN_CALL_STANDING);
    else if (choice < 62)
        record = one_in(r, 4) ? some_take_back(r, scene) : some_offer(r, scene, BILZHAAN_CALL_VARIATION);
    else if (choice < 68)
        record = some_outage(r, scene);
    else if (choice < 76)
        record = some_notice(r, scene);
    else if (choice < 78)
        record = withdrawal_of(one_in(r, 6) ? (int)between(r, 0, 6) : 5);
    else
        record = some_reading(r, scene, choice < 91 ? BILZHAAN_CALL_LOOK_UP : BILZHAAN_CALL_TOTAL);
    memset(bytes, 0, LONGEST_RECORD);
    memcpy(bytes, record.bytes, sizeof record.bytes);
    return one_in(r, 10) ? damage(r, bytes) : BILZHAAN_RECORD_BYTES;
}
