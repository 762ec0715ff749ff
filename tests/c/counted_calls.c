/* The counts, by what a call is about. */
#include "counted_calls.h"
#include "../../bench/plain_book.h"

#include <string.h>

long drawn[20], damaged_calls, accepted[10], inside_gate[7], past_another_period;
long taken_back[2][2], taken_back_inside[7], not_taken_back, taken_back_damaged;
struct revisions revisions;
struct blanks blanks;
long of_links[20], accepted_of_links[10], links_inside_gate[7], links_marked;
long shown[5], at_age[2][AGES], duplicated_later, varied_again, uncovered[2];
long ramps_below_0, minutes_to_come, minutes_below_0, ages_past_32_bits, duplicated_damaged, ramps_past_9999, of_version_1;

/* The cell that an offer is for, or that a look-up answers from. */
static const int32_t *cell_of_call(const struct list *l, int h)
{
    const uint8_t *b = l->bytes;
    return l->plain + place_of_cell(l->plain[2], l->plain[3], b[BILZHAAN_AT_FACILITY], b[BILZHAAN_AT_SERVICE], h,
                                    period_of(b) % 336);
}

static bool offers_nothing(const uint8_t *b)
{
    for (int i = BILZHAAN_AT_W0; i < BILZHAAN_RECORD_BYTES; i++)
        if (b[i] != 0)
            return false;
    return true;
}

/* A variation of blanks alone for a period that has one; the words are those before the call. */
static bool takes_back(const struct list *l)
{
    const uint8_t *b = l->bytes;
    int32_t f = l->plain[2], s = l->plain[3];
    if (l->length != BILZHAAN_RECORD_BYTES || b[BILZHAAN_AT_CALL] != BILZHAAN_CALL_VARIATION || !offers_nothing(b)
        || !usable_sizes(l) || b[BILZHAAN_AT_FACILITY] >= f || b[BILZHAAN_AT_SERVICE] >= s)
        return false;
    size_t cell = place_of_cell(f, s, b[BILZHAAN_AT_FACILITY], b[BILZHAAN_AT_SERVICE], 1, period_of(b) % 336);
    return l->plain[cell] == period_of(b) + 1;
}

static void count_take_back(const struct list *l, const struct bilzhaan_answer *a, int64_t now)
{
    const uint8_t *b = l->bytes;
    bool is_inside = 30 * period_of(b) - now < BILZHAAN_GATE_MINUTES;
    if (l->is_damaged) {
        taken_back_damaged += a->number == 0 && is_inside;
        return;
    }
    size_t standing = place_of_cell(l->facilities, l->services, b[BILZHAAN_AT_FACILITY], b[BILZHAAN_AT_SERVICE], 0,
                                    period_of(b) % 336);
    not_taken_back += a->number == BILZHAAN_GATE_CLOSED;
    if (a->number != 0)
        return;
    taken_back[is_inside][l->plain[standing] == 1]++;
    if (l->plain[standing] == 1)
        uncovered[now - l->plain[standing + CELL_MINUTE] < BILZHAAN_SCHEDULE_CUTOFF_MINUTES]++;
    if (is_inside)
        taken_back_inside[b[BILZHAAN_AT_REASON]]++;
}

static void count_call(const struct list *l, const struct bilzhaan_answer *a, int64_t now)
{
    drawn[a->number]++;
    damaged_calls += l->is_damaged;
    if (a->number != 0 || l->is_damaged)
        return;
    const uint8_t *b = l->bytes;
    int64_t period = period_of(b);
    accepted[b[BILZHAAN_AT_CALL]]++;
    if (b[BILZHAAN_AT_CALL] == BILZHAAN_CALL_VARIATION && 30 * period - now < BILZHAAN_GATE_MINUTES)
        inside_gate[b[BILZHAAN_AT_REASON]]++;
    if (b[BILZHAAN_AT_CALL] == BILZHAAN_CALL_LOOK_UP) {
        size_t cell = place_of_cell(l->facilities, l->services, b[BILZHAAN_AT_FACILITY], b[BILZHAAN_AT_SERVICE], 1,
                                    period % 336);
        past_another_period += l->plain[cell] != 0 && l->plain[cell] != period + 1;
    }
}

/* ---- standing offers inside gate closure ---- */

static struct revision revision_of(const struct list *l, int64_t now)
{
    struct revision v = {false, false, false, false, false};
    const uint8_t *b = l->bytes;
    int32_t f = l->plain[2], s = l->plain[3];
    if (!usable_sizes(l) || now < 0 || now > 1000000000 || list_machine_record_number(b, l->length, f, s) != 0
        || b[BILZHAAN_AT_CALL] != BILZHAAN_CALL_STANDING || period_of(b) > 335)
        return v;
    int64_t slot = period_of(b), next = plain_next_period((uint32_t)now, (uint32_t)slot);
    v.is_one = true;
    v.is_held = l->plain[place_of_cell(f, s, b[BILZHAAN_AT_FACILITY], b[BILZHAAN_AT_SERVICE], 0, slot)] == 1;
    v.is_hidden = l->plain[place_of_cell(f, s, b[BILZHAAN_AT_FACILITY], b[BILZHAAN_AT_SERVICE], 1, slot)] == next + 1;
    v.is_inside = 30 * next - now < BILZHAAN_GATE_MINUTES;
    v.is_next_week = next / 336 > now / 30 / 336;
    return v;
}

static void count_revision(const struct list *l, struct revision v, const struct bilzhaan_answer *a)
{
    const uint8_t *b = l->bytes;
    int reason = b[BILZHAAN_AT_REASON];
    int32_t kind = l->plain[64 + 32 * (size_t)b[BILZHAAN_AT_FACILITY]];
    bool is_accepted = a->number == 0;
    if (l->is_damaged) {
        revisions.damaged += is_accepted && v.is_held && v.is_inside;
        return;
    }
    revisions.past_6 += a->number == BILZHAAN_OUT_OF_RANGE && reason > 6;
    revisions.first_with_reason += is_accepted && reason != 0 && !v.is_held && v.is_inside;
    revisions.open_with_reason += is_accepted && reason != 0 && v.is_held && !v.is_inside;
    if (!v.is_held || !v.is_inside)
        return;
    if (is_accepted) {
        revisions.accepted[reason]++;
        revisions.of_links[reason] += kind == BILZHAAN_LINK;
        revisions.to_blank += offers_nothing(b);
        revisions.behind_variation += v.is_hidden;
        revisions.for_next_week += v.is_next_week;
    } else if (a->number == BILZHAAN_GATE_CLOSED) {
        revisions.refused[reason != 0]++;
        revisions.repriced += reason == BILZHAAN_REASON_SYNCHRONISATION && kind == BILZHAAN_GENERATION;
    }
    revisions.duplicates += a->number == BILZHAAN_DUPLICATE;
}

/* ---- blanks before filled pairs ---- */

/* Ten pairs, price and quantity in turn. */
static bool has_gap(const int32_t *pairs)
{
    bool is_after_blank = false;
    for (int i = 0; i < 10; i++) {
        if (is_after_blank && pairs[2 * i + 1] > 0)
            return true;
        is_after_blank |= pairs[2 * i + 1] == 0;
    }
    return false;
}

static bool has_priced_blank(const int32_t *pairs)
{
    for (int i = 0; i < 10; i++)
        if (pairs[2 * i + 1] == 0 && pairs[2 * i] != 0)
            return true;
    return false;
}

static bool falls(const int32_t *pairs)
{
    int64_t last = INT64_MIN;
    for (int i = 0; i < 10; i++) {
        if (pairs[2 * i + 1] == 0)
            continue;
        if (pairs[2 * i] <= last)
            return true;
        last = pairs[2 * i];
    }
    return false;
}

/* The same filled pairs in the same order. */
static bool differ_in_blanks_alone(const int32_t *pairs, const int32_t *others)
{
    int i = 0, j = 0;
    for (;;) {
        while (i < 10 && pairs[2 * i + 1] == 0)
            i++;
        while (j < 10 && others[2 * j + 1] == 0)
            j++;
        if (i == 10 || j == 10)
            return i == 10 && j == 10;
        if (memcmp(pairs + 2 * i++, others + 2 * j++, 2 * sizeof pairs[0]) != 0)
            return false;
    }
}

static bool has_same_rates(const int32_t *cell, const uint8_t *b)
{
    return cell[1] == b[BILZHAAN_AT_PROPORTION] * 256 + b[BILZHAAN_AT_PROPORTION + 1]
        && cell[CELL_RAMPS] == (int64_t)word_of(b, BILZHAAN_AT_RAMP_UP) * 10000 + word_of(b, BILZHAAN_AT_RAMP_DOWN);
}

static void find_held_gaps(const struct list *l, int64_t now, struct gaps *g)
{
    const uint8_t *b = l->bytes;
    bool varies = b[BILZHAAN_AT_CALL] == BILZHAAN_CALL_VARIATION;
    int64_t period = varies ? period_of(b) : plain_next_period((uint32_t)now, (uint32_t)(period_of(b) % 336));
    const int32_t *standing = cell_of_call(l, 0), *variation = cell_of_call(l, 1);
    bool is_held = standing[0] == 1 && has_gap(standing + 4), is_inside = 30 * period - now < BILZHAAN_GATE_MINUTES;
    bool is_varied = varies && variation[0] == period + 1;
    g->in_same = is_held && !varies && memcmp(g->pairs, standing + 4, sizeof g->pairs) == 0;
    g->in_closed_up = is_held && !varies && differ_in_blanks_alone(g->pairs, standing + 4) && has_same_rates(standing, b);
    g->in_old = is_inside && (is_varied ? has_gap(variation + 4) : is_held);
    g->in_back_to = is_inside && is_held && varies && offers_nothing(b);
}

static struct gaps gaps_of(const struct list *l, int64_t now)
{
    struct gaps g = {.is_offer = false};
    const uint8_t *b = l->bytes;
    if (!usable_sizes(l) || now < 0 || now > 1000000000 || list_machine_record_number(b, l->length, l->plain[2], l->plain[3]) != 0)
        return g;
    g.is_offer = b[BILZHAAN_AT_CALL] == BILZHAAN_CALL_STANDING || b[BILZHAAN_AT_CALL] == BILZHAAN_CALL_VARIATION;
    if (!g.is_offer)
        return g;
    for (int i = 0; i < 20; i++)
        g.pairs[i] = word_of(b, BILZHAAN_AT_W0 + 4 * i);
    find_held_gaps(l, now, &g);
    return g;
}

static void count_held_gaps(const struct list *l, const struct gaps *g, const struct bilzhaan_answer *a)
{
    const uint8_t *b = l->bytes;
    int32_t kind = l->plain[64 + 32 * (size_t)b[BILZHAAN_AT_FACILITY]];
    bool by_prices = a->number == BILZHAAN_GATE_CLOSED && kind == BILZHAAN_GENERATION
        && b[BILZHAAN_AT_REASON] == BILZHAAN_REASON_SYNCHRONISATION;
    blanks.filed_again += a->number == BILZHAAN_BLANK_REFUSED && g->in_same;
    blanks.closed_up += a->number == 0 && g->in_closed_up;
    if (a->number != 0 && !by_prices)
        return;
    blanks.old[by_prices] += g->in_old;
    blanks.back_to[by_prices] += g->in_back_to;
}

static void count_gaps(const struct list *l, const struct gaps *g, const struct bilzhaan_answer *a)
{
    bool has = has_gap(g->pairs), is_priced = has_priced_blank(g->pairs);
    int last = l->bytes[BILZHAAN_AT_SERVICE] == 0 ? 9 : 4;
    if (l->is_damaged) {
        count_held_gaps(l, g, a);
    } else if (a->number == BILZHAAN_BLANK_REFUSED) {
        blanks.by_price += !has;
        blanks.by_place += !is_priced;
        blanks.falling += !is_priced && falls(g->pairs);
    } else if (a->number == BILZHAAN_OUT_OF_RANGE) {
        blanks.out_of_range += has && l->bytes[BILZHAAN_AT_REASON] <= 6;
    } else if (a->number == 0 && g->pairs[1] > 0) {
        blanks.last += g->pairs[2 * last + 1] == 0;
        blanks.none += g->pairs[2 * last + 1] > 0;
    }
}

/* ---- minutes and ramps ---- */

static void count_look_up(const struct list *l, const struct bilzhaan_answer *a, int64_t now)
{
    int h = a->words[0] % 2 == 0;
    const int32_t *cell = cell_of_call(l, h);
    int64_t age = now - cell[CELL_MINUTE];
    if (l->is_damaged) {
        ramps_below_0 += cell[CELL_RAMPS] < 0;
        minutes_to_come += age < 0;
        minutes_below_0 += cell[CELL_MINUTE] < 0;
        ages_past_32_bits += age > INT32_MAX;
        blanks.looked_up += has_gap(cell + 4);
        return;
    }
    shown[a->words[0]]++;
    if (age < AGES)
        at_age[h][age]++;
}

static void count_duplicate(const struct list *l, int64_t now)
{
    int32_t minute = cell_of_call(l, 0)[CELL_MINUTE];
    if (l->is_damaged)
        duplicated_damaged += minute < 0 || minute > now;
    else
        duplicated_later += minute < now;
}

/* 14 of ramps that are within the maxima. */
static void count_ramps(const struct list *l)
{
    const int32_t *block = l->plain + 64 + 32 * (size_t)l->bytes[BILZHAAN_AT_FACILITY];
    int32_t up = word_of(l->bytes, BILZHAAN_AT_RAMP_UP), down = word_of(l->bytes, BILZHAAN_AT_RAMP_DOWN);
    ramps_past_9999 += up >= 0 && up <= block[7] && down >= 0 && down <= block[8];
}

/* The variation's cell as it was before the call, where the record is of a variation on a sound book; else null. */
static const int32_t *variation_before(const struct list *l)
{
    const uint8_t *b = l->bytes;
    if (l->is_damaged || list_machine_record_number(b, l->length, l->facilities, l->services) != 0
        || b[BILZHAAN_AT_CALL] != BILZHAAN_CALL_VARIATION || period_of(b) > INT32_MAX)
        return NULL;
    return cell_of_call(l, 1);
}

static bool differs_in_minute_alone(const int32_t before[24], const int32_t after[24])
{
    bool differs = before[CELL_MINUTE] != after[CELL_MINUTE];
    for (int i = 0; i < 24; i++)
        differs &= i == CELL_MINUTE || before[i] == after[i];
    return differs;
}

static void count_minutes(const struct list *l, const struct bilzhaan_answer *a, int64_t now)
{
    int which = a->number == 1 || a->number == 2 ? 0 : l->bytes[BILZHAAN_AT_CALL];
    if (a->number == 0 && which == BILZHAAN_CALL_LOOK_UP)
        count_look_up(l, a, now);
    if (a->number == BILZHAAN_DUPLICATE)
        count_duplicate(l, now);
    if (a->number == BILZHAAN_RAMP_REFUSED)
        count_ramps(l);
    of_version_1 += a->number == 1 && l->plain[0] == 0x534F42 && l->plain[1] == 1 && usable_sizes(l) && l->lent >= l->needed
        && now >= 0 && now <= 1000000000;
}

/* ---- links ---- */

/* By the words after the call, so that a link's first capability counts. */
static void count_link(const struct list *l, const struct bilzhaan_answer *a, int64_t now)
{
    const uint8_t *b = l->bytes;
    int which = b[BILZHAAN_AT_CALL], reason = b[BILZHAAN_AT_REASON];
    bool has_facility = which == 8 || (which >= 2 && which <= 5);
    if ((a->number >= 1 && a->number <= 4) || !has_facility)
        return;
    const int32_t *block = l->plain + 64 + 32 * (size_t)b[BILZHAAN_AT_FACILITY];
    if (block[0] != BILZHAAN_LINK)
        return;
    if (l->is_damaged) {
        links_marked += a->number == BILZHAAN_NOT_REGISTERED && block[12 + b[BILZHAAN_AT_SERVICE]] == 1;
        return;
    }
    of_links[a->number]++;
    if (a->number != 0)
        return;
    accepted_of_links[which]++;
    if (which == BILZHAAN_CALL_VARIATION && 30 * period_of(b) - now < BILZHAAN_GATE_MINUTES)
        links_inside_gate[reason]++;
}

/* ---- one call ---- */

struct before before_call(const struct list *l)
{
    struct before before = {.now = l->plain[4], .is_take_back = takes_back(l), .varied = variation_before(l)};
    before.revision = revision_of(l, before.now);
    before.gaps = gaps_of(l, before.now);
    if (before.varied)
        memcpy(before.cell, before.varied, sizeof before.cell);
    return before;
}

void count_answer(const struct list *l, const struct before *before, const struct bilzhaan_answer *a)
{
    count_call(l, a, before->now);
    count_link(l, a, before->now);
    count_minutes(l, a, before->now);
    varied_again += before->varied && differs_in_minute_alone(before->cell, before->varied);
    if (before->is_take_back)
        count_take_back(l, a, before->now);
    if (before->revision.is_one)
        count_revision(l, before->revision, a);
    if (before->gaps.is_offer)
        count_gaps(l, &before->gaps, a);
}
