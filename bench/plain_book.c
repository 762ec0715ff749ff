/* The offer book of documents 01 and 02 over lent words, as one would write it in C for speed: direct indexing and early
 * returns. It shares no code with the list machine of the tests. */
#include "plain_book.h"

#include <stdbool.h>
#include <string.h>

enum {
    HEAD_MARK = 0, HEAD_VERSION = 1, HEAD_F = 2, HEAD_S = 3, HEAD_CLOCK = 4, HEAD_NOTICES = 5, HEAD_LIMITS = 11,
    HEAD_WORDS = 64,
    BLOCK_OUTAGE = 17, BLOCK_WORDS = 32,
    CELL_PROPORTION = 1, CELL_RAMPS = 2, CELL_MINUTE = 3, CELL_PAIRS = 4, CELL_WORDS = 24,
    PAIRS = 10, /* in a cell */
    MARK = 0x534F42, BOOK_VERSION = 2,
    SLOTS = 336,
    RAMP_MOST = 9999, RAMP_UNIT = RAMP_MOST + 1, /* ramp up times RAMP_UNIT plus ramp down is one word */
    SCHEDULE_CUTOFF_MINUTES = 5
};

/* A record's offer as a cell holds it, with what the tests find on the way. Once they pass, the pairs after the filled ones
 * are empty; without a filled one the offer is of blanks alone. */
struct offer {
    int32_t words[CELL_WORDS];
    int32_t total;
    int filled; /* pairs before the first blank */
};

struct book {
    int32_t *words;
    int32_t facilities, services, now;
};

static inline int32_t load(const uint8_t *p)
{
    return (int32_t)((uint32_t)p[0] << 24 | (uint32_t)p[1] << 16 | (uint32_t)p[2] << 8 | (uint32_t)p[3]);
}

static inline bool outside(int32_t n, int32_t low, int32_t high)
{
    return n < low || n > high;
}

/* What a facility may do, by its kind. A service, a mark's and a reason are a bit each. */
static const struct kind {
    uint8_t services, marks, reasons;
    bool has_proportion; /* its reserve proportion is tested */
    int32_t outage_most; /* periods */
} kinds[] = {
    [1] = {0x1F, 0x1F, 0x3E, true, 3},   /* generation */
    [2] = {0x1F, 0x0E, 0x78, false, 48}, /* load; its marks alone say what it offers */
    [3] = {0x01, 0x01, 0x38, false, 0},  /* link */
};
enum { KIND_LAST = sizeof kinds / sizeof kinds[0] - 1 };

static inline bool is_kind(int32_t kind) { return !outside(kind, 1, KIND_LAST); }

static inline bool has_bit(uint8_t bits, int i) { return bits >> i & 1; }

static inline bool is_registered(const int32_t *block, int s)
{
    return block[12 + s] == 1 && has_bit(kinds[block[0]].services, s);
}

static inline bool sizes_ok(int32_t facilities, int32_t services)
{
    return facilities >= 1 && facilities <= 64 && (services == 1 || services == 5);
}

static inline size_t words_needed(int32_t facilities, int32_t services)
{
    return HEAD_WORDS + (size_t)facilities * (BLOCK_WORDS + (size_t)services * 2 * SLOTS * CELL_WORDS);
}

static inline int32_t *block_of(const struct book *b, int f)
{
    return b->words + HEAD_WORDS + BLOCK_WORDS * f;
}

static inline int32_t *cell_of(const struct book *b, int f, int s, int variation, int slot)
{
    size_t cell = (size_t)((f * b->services + s) * 2 + variation) * SLOTS + (size_t)slot;
    return b->words + HEAD_WORDS + BLOCK_WORDS * b->facilities + cell * CELL_WORDS;
}

/* The standing cell of a slot if it holds an offer, or null. */
static inline const int32_t *held_standing(const struct book *b, int f, int s, int slot)
{
    const int32_t *standing = cell_of(b, f, s, 0, slot);
    return standing[0] == 1 ? standing : NULL;
}

/* The cell in force for a period from 0, or null. */
static inline const int32_t *in_force(const struct book *b, int f, int s, int32_t period)
{
    const int32_t *variation = cell_of(b, f, s, 1, period % SLOTS);
    return variation[0] == period + 1 ? variation : held_standing(b, f, s, period % SLOTS);
}

/* ---- the record: 2, 3, 4 ---- */

static inline bool all_zero(const uint8_t *r, size_t first, size_t end)
{
    uint64_t any = 0;
    size_t i = first;
    for (; i + 8 <= end; i += 8) {
        uint64_t eight;
        memcpy(&eight, r + i, 8);
        any |= eight;
    }
    for (; i < end; i++)
        any |= r[i];
    return any == 0;
}

static int offer_record(const uint8_t *r)
{
    int s = r[7];
    if (r[13] != 0 || !all_zero(r, 24, 32))
        return 4;
    if (s == 0)
        return r[14] == 0 && r[15] == 0 ? 0 : 4;
    if (s == 4 && (r[14] != 0 || r[15] != 0))
        return 4;
    return all_zero(r, 16, 24) && all_zero(r, 72, 112) ? 0 : 4;
}

static int record_number(const uint8_t *r, size_t length, int32_t facilities, int32_t services)
{
    if (length != 112 || r[0] != 'S' || r[1] != 'O' || r[2] != 'B' || r[3] != 0 || r[4] != 1)
        return 2;
    bool no_facility = r[6] >= facilities;
    bool no_service = r[7] >= services;
    switch (r[5]) {
    case 1:
        return all_zero(r, 6, 24) && all_zero(r, 28, 112) ? 0 : 4;
    case 2:
        if (no_facility)
            return 3;
        return all_zero(r, 7, 32) && all_zero(r, 100, 112) ? 0 : 4;
    case 3:
    case 4:
        if (no_facility || no_service)
            return 3;
        return offer_record(r);
    case 5:
        if (no_facility)
            return 3;
        return all_zero(r, 7, 24) && all_zero(r, 32, 112) ? 0 : 4;
    case 6:
        return all_zero(r, 6, 12) && all_zero(r, 13, 24) && all_zero(r, 32, 112) ? 0 : 4;
    case 7:
        return all_zero(r, 6, 12) && all_zero(r, 13, 112) ? 0 : 4;
    case 8:
        if (no_facility || no_service)
            return 3;
        return all_zero(r, 12, 112) ? 0 : 4;
    case 9:
        if (no_service)
            return 3;
        return r[6] == 0 && all_zero(r, 12, 112) ? 0 : 4;
    }
    return 2;
}

uint32_t plain_record_test(const uint8_t *bytes, size_t count, int32_t facilities, int32_t services)
{
    return sizes_ok(facilities, services) ? (uint32_t)record_number(bytes, count, facilities, services) : 20;
}

/* ---- periods: 10 ---- */

static inline bool period_refused(int32_t now, int32_t period)
{
    /* now is 0 to 1,000,000,000, so now / 30 and the horizon fit; begun is P ≤ now div 30 */
    return period <= now / 30 || period >= 48 * (now / 1440 + 7);
}

/* Of the week that ends with `last` none has begun, and one is the slot's: as many before `last` as the remainder says. */
uint32_t plain_next_period(uint32_t minute, uint32_t slot)
{
    uint32_t last = minute / 30 + SLOTS;
    return last - (last - slot) % SLOTS;
}

/* ---- offers: 11 to 16 ---- */

static inline const uint8_t *pair_of(const uint8_t *r, int i) { return r + 32 + 8 * i; }

static inline bool is_empty(const uint8_t *pair)
{
    uint64_t both;
    memcpy(&both, pair, 8);
    return both == 0;
}

/* Of the pairs from the first blank on: none may hold anything, nor damaged limits exclude the price 0 of an empty one. */
static int blanks_number(const uint8_t *r, int first, int pairs, int32_t low, int32_t high)
{
    int i = first;
    while (i < pairs && is_empty(pair_of(r, i)))
        i++;
    if (i == pairs)
        return outside(0, low, high) ? 11 : 0;
    for (i = first; i < pairs; i++)
        if (outside(load(pair_of(r, i) + 4), 0, 99999) || outside(load(pair_of(r, i)), low, high))
            return 11;
    return 12;
}

/* Price order and total go as far as the first blank. */
static int pairs_number(const struct book *b, const uint8_t *r, struct offer *o)
{
    int s = r[7];
    int pairs = s == 0 ? PAIRS : 5, i;
    int32_t low = s == 0 ? b->words[HEAD_LIMITS] : 0;
    int32_t high = b->words[HEAD_LIMITS + 1 + s];
    int32_t last = high, total = 0; /* no price is above `high`: the first pair is no rise */
    int rises = 0;
    memset(o->words + CELL_PAIRS, 0, 2 * PAIRS * sizeof o->words[0]);
    for (i = 0; i < pairs; i++) {
        int32_t price = load(pair_of(r, i)), quantity = load(pair_of(r, i) + 4);
        if (quantity == 0)
            break;
        if (outside(quantity, 1, 99999) || outside(price, low, high))
            return 11;
        o->words[CELL_PAIRS + 2 * i] = price;
        o->words[CELL_PAIRS + 2 * i + 1] = quantity;
        rises += price > last;
        last = price;
        total += quantity;
    }
    o->total = total;
    o->filled = i;
    int number = i < pairs ? blanks_number(r, i, pairs, low, high) : 0;
    return number != 0 ? number : rises + 1 < i ? 13 : 0;
}

static inline bool is_ramp_refused(int32_t ramp, int32_t most)
{
    return outside(ramp, 0, most < RAMP_MOST ? most : RAMP_MOST);
}

static int offer_number(const struct book *b, const uint8_t *r, const int32_t *block, struct offer *o)
{
    if (r[12] > 6)
        return 11;
    o->words[CELL_PROPORTION] = r[14] << 8 | r[15];
    o->words[CELL_MINUTE] = b->now;
    int number = pairs_number(b, r, o);
    if (number != 0)
        return number;
    int s = r[7];
    if (s == 0) {
        int32_t up = load(r + 16), down = load(r + 20);
        if (is_ramp_refused(up, block[7]) || is_ramp_refused(down, block[8]))
            return 14;
        o->words[CELL_RAMPS] = up * RAMP_UNIT + down;
        return o->total > block[1] || o->total > block[2] ? 16 : 0;
    }
    o->words[CELL_RAMPS] = 0;
    int32_t proportion = o->words[CELL_PROPORTION];
    if (s <= 3 && kinds[block[0]].has_proportion && (proportion == 0 || proportion > block[8 + s]))
        return 15;
    return o->total > block[2 + s] ? 16 : 0;
}

/* ---- gate closure: 17 ---- */

static inline int64_t counted(int32_t quantity)
{
    return quantity > 0 ? quantity : 0;
}

/* Of a held offer, to its last pair, or of none. */
static int64_t gate_total(const int32_t *cell)
{
    if (!cell)
        return 0;
    int64_t total = 0;
    for (int i = 0; i < PAIRS; i++)
        total += counted(cell[CELL_PAIRS + 2 * i + 1]);
    return total;
}

/* Walks both offers at once, as far as the shorter goes, a stretch of equal price at a time: the old one, which is held, to its
 * last pair, of the new one as many pairs as are said. */
static bool same_prices(const int32_t *old, const int32_t *new, int new_pairs)
{
    int i = 0, j = 0;
    int64_t left_old = 0, left_new = 0;
    for (;;) {
        while (left_new == 0) {
            if (j == new_pairs)
                return true;
            left_new = counted(new[CELL_PAIRS + 2 * j++ + 1]);
        }
        while (left_old == 0) {
            if (i == PAIRS)
                return true;
            left_old = counted(old[CELL_PAIRS + 2 * i++ + 1]);
        }
        if (old[CELL_PAIRS + 2 * (i - 1)] != new[CELL_PAIRS + 2 * (j - 1)])
            return false;
        int64_t step = left_old < left_new ? left_old : left_new;
        left_old -= step;
        left_new -= step;
    }
}

static inline bool in_window(const int32_t *window, int32_t period)
{
    return window[0] <= period && period <= window[1];
}

/* A variation's period is its own, a standing offer's the slot's next. */
static bool gate_refuses(const struct book *b, const uint8_t *r, int32_t period, const int32_t *block,
                         const struct offer *o)
{
    if (30 * period - b->now >= 65) /* horizon and next week bound period, so 30 * period fits */
        return false;
    int s = r[7], reason = r[12];
    if (!has_bit(kinds[block[0]].reasons, reason)) /* 0 is in no kind's */
        return true;
    bool varies = r[5] == 4, takes_back = varies && o->filled == 0;
    const int32_t *old = varies ? in_force(b, r[6], s, period) : held_standing(b, r[6], s, period % SLOTS);
    /* after a take-back the standing offer stands, which is held: its blanks may stand anywhere, and it may be damaged */
    const int32_t *new = takes_back ? held_standing(b, r[6], s, period % SLOTS) : o->words;
    int new_pairs = takes_back ? PAIRS : o->filled;
    int64_t rise = 0;
    if (reason >= 3 && reason <= 5)
        rise = (takes_back ? gate_total(new) : o->total) - gate_total(old);
    const int32_t *notices = b->words + HEAD_NOTICES;
    bool holds = true;
    switch (reason) {
    case 2:
    case 6: holds = in_window(block + BLOCK_OUTAGE, period); break;
    case 3: holds = s == 0 && in_window(notices, period) && rise < 0; break;
    case 4: holds = in_window(notices + 2, period) && rise > 0; break;
    case 5: holds = in_window(notices + 4, period) && rise > 0; break;
    }
    return !holds || (old && new && !same_prices(old, new, new_pairs));
}

/* ---- the calls, each after 2, 3 and 4 ---- */

static int file_clock(const struct book *b, const uint8_t *r)
{
    int32_t minute = load(r + 24);
    if (outside(minute, b->now, 1000000000))
        return 6;
    b->words[HEAD_CLOCK] = minute;
    return 0;
}

static int file_capability(const struct book *b, const uint8_t *r)
{
    int32_t *block = block_of(b, r[6]);
    const uint8_t *w = r + 32;
    int32_t kind = load(w);
    if (!is_kind(kind) || (is_kind(block[0]) && kind != block[0]))
        return 8;
    for (int i = 1; i < 12; i++)
        if (outside(load(w + 4 * i), 0, i <= 6 ? 99999 : i <= 8 ? 9999 : 1000))
            return 8;
    for (int s = 0; s < 5; s++)
        if (outside(load(w + 4 * (12 + s)), 0, has_bit(kinds[kind].marks, s)))
            return 8;
    for (int i = 0; i < 17; i++)
        block[i] = load(w + 4 * i);
    return 0;
}

/* But for stamp and minute. */
static inline bool is_same_offer(const int32_t *cell, const int32_t *filed)
{
    return cell[CELL_PROPORTION] == filed[CELL_PROPORTION] && cell[CELL_RAMPS] == filed[CELL_RAMPS]
        && memcmp(cell + CELL_PAIRS, filed + CELL_PAIRS, (CELL_WORDS - CELL_PAIRS) * sizeof cell[0]) == 0;
}

static int file_standing(const struct book *b, const uint8_t *r)
{
    struct offer o;
    const int32_t *block = block_of(b, r[6]);
    if (!is_kind(block[0]))
        return 5;
    if (!is_registered(block, r[7]))
        return 9;
    int32_t slot = load(r + 8);
    if (outside(slot, 0, SLOTS - 1))
        return 10;
    int number = offer_number(b, r, block, &o);
    if (number != 0)
        return number;
    int32_t *cell = cell_of(b, r[6], r[7], 0, slot);
    if (cell[0] == 1) {
        int32_t next = (int32_t)plain_next_period((uint32_t)b->now, (uint32_t)slot);
        if (gate_refuses(b, r, next, block, &o))
            return 17;
        if (is_same_offer(cell, o.words))
            return 18;
    }
    o.words[0] = 1;
    memcpy(cell, o.words, sizeof o.words);
    return 0;
}

static int file_variation(const struct book *b, const uint8_t *r)
{
    struct offer o;
    const int32_t *block = block_of(b, r[6]);
    if (!is_kind(block[0]))
        return 5;
    if (!is_registered(block, r[7]))
        return 9;
    int32_t period = load(r + 8);
    if (period_refused(b->now, period))
        return 10;
    int number = offer_number(b, r, block, &o);
    if (number != 0)
        return number;
    if (gate_refuses(b, r, period, block, &o))
        return 17;
    int32_t *cell = cell_of(b, r[6], r[7], 1, period % SLOTS);
    if (o.filled == 0) {
        memset(cell, 0, sizeof o.words);
        return 0;
    }
    o.words[0] = period + 1;
    memcpy(cell, o.words, sizeof o.words);
    return 0;
}

static int file_outage(const struct book *b, const uint8_t *r)
{
    int32_t *block = block_of(b, r[6]);
    int32_t minute = load(r + 24), periods = load(r + 28);
    if (!is_kind(block[0]))
        return 5;
    if (outside(minute, 0, b->now) || outside(periods, 1, kinds[block[0]].outage_most))
        return 7;
    block[BLOCK_OUTAGE] = minute / 30 + 1;
    block[BLOCK_OUTAGE + 1] = minute / 30 + periods;
    return 0;
}

static int file_notice(const struct book *b, const uint8_t *r)
{
    int32_t first = load(r + 24), last = load(r + 28);
    if (outside(r[12], 3, 5) || first < 0 || first > last || last > 40000000)
        return 7;
    int32_t *window = b->words + HEAD_NOTICES + 2 * (r[12] - 3);
    window[0] = first;
    window[1] = last;
    return 0;
}

static int file_withdrawal(const struct book *b, const uint8_t *r)
{
    if (r[12] != 5)
        return 7;
    b->words[HEAD_NOTICES + 4] = 1;
    b->words[HEAD_NOTICES + 5] = 0;
    return 0;
}

static inline int64_t quantities(const int32_t *cell)
{
    int64_t sum = 0;
    for (int i = 0; i < PAIRS; i++)
        sum += cell[CELL_PAIRS + 2 * i + 1];
    return sum;
}

static inline struct bilzhaan_answer numbered(int number)
{
    struct bilzhaan_answer answer = {.number = (uint32_t)number};
    return answer;
}

static struct bilzhaan_answer look_up(const struct book *b, const uint8_t *r)
{
    if (!is_kind(block_of(b, r[6])[0]))
        return numbered(5);
    int32_t period = load(r + 8);
    if (period_refused(b->now, period))
        return numbered(10);
    const int32_t *cell = in_force(b, r[6], r[7], period);
    if (!cell)
        return numbered(19);
    bool is_variation = cell[0] == period + 1; /* a period not begun is 1 or more, so its stamp isn't 1 */
    bool is_fresh = (int64_t)b->now - cell[CELL_MINUTE] < SCHEDULE_CUTOFF_MINUTES;
    struct bilzhaan_answer answer;
    answer.number = 0;
    answer.words[0] = 1 + is_variation + 2 * is_fresh;
    answer.words[1] = cell[CELL_PROPORTION];
    answer.words[2] = cell[CELL_RAMPS] / RAMP_UNIT;
    answer.words[3] = cell[CELL_RAMPS] % RAMP_UNIT;
    memcpy(answer.words + 4, cell + CELL_PAIRS, (CELL_WORDS - CELL_PAIRS) * sizeof cell[0]);
    answer.sum = quantities(cell);
    return answer;
}

static struct bilzhaan_answer total(const struct book *b, const uint8_t *r)
{
    int32_t period = load(r + 8);
    if (period_refused(b->now, period))
        return numbered(10);
    int32_t count = 0;
    int64_t sum = 0;
    for (int f = 0; f < b->facilities; f++) {
        const int32_t *cell = in_force(b, f, r[7], period);
        if (cell) {
            count++;
            sum += quantities(cell);
        }
    }
    struct bilzhaan_answer answer = {.words = {count}, .sum = sum};
    return answer;
}

static bool book_usable(const int32_t *words, size_t count)
{
    return count >= HEAD_WORDS && words[HEAD_MARK] == MARK && words[HEAD_VERSION] == BOOK_VERSION
        && sizes_ok(words[HEAD_F], words[HEAD_S]) && count >= words_needed(words[HEAD_F], words[HEAD_S])
        && !outside(words[HEAD_CLOCK], 0, 1000000000);
}

struct bilzhaan_answer plain_call(int32_t *words, size_t count, const uint8_t *bytes, size_t length)
{
    if (!book_usable(words, count))
        return numbered(1);
    struct book b = {words, words[HEAD_F], words[HEAD_S], words[HEAD_CLOCK]};
    int number = record_number(bytes, length, b.facilities, b.services);
    if (number != 0)
        return numbered(number);
    switch (bytes[5]) {
    case 1: return numbered(file_clock(&b, bytes));
    case 2: return numbered(file_capability(&b, bytes));
    case 3: return numbered(file_standing(&b, bytes));
    case 4: return numbered(file_variation(&b, bytes));
    case 5: return numbered(file_outage(&b, bytes));
    case 6: return numbered(file_notice(&b, bytes));
    case 7: return numbered(file_withdrawal(&b, bytes));
    case 8: return look_up(&b, bytes);
    default: return total(&b, bytes); /* record_number leaves 1 to 9 */
    }
}

uint32_t plain_open(int32_t *words, size_t count, int32_t facilities, int32_t services, const int32_t limits[6])
{
    if (!sizes_ok(facilities, services) || count < words_needed(facilities, services))
        return 20;
    if (outside(limits[0], -10000000, 0))
        return 20;
    for (int i = 1; i < 6; i++)
        if (outside(limits[i], 0, 10000000))
            return 20;
    memset(words, 0, words_needed(facilities, services) * sizeof words[0]);
    words[HEAD_MARK] = MARK;
    words[HEAD_VERSION] = BOOK_VERSION;
    words[HEAD_F] = facilities;
    words[HEAD_S] = services;
    for (int i = 0; i < 3; i++)
        words[HEAD_NOTICES + 2 * i] = 1;
    memcpy(words + HEAD_LIMITS, limits, 6 * sizeof limits[0]);
    for (int f = 0; f < facilities; f++)
        words[HEAD_WORDS + BLOCK_WORDS * f + BLOCK_OUTAGE] = 1;
    return 0;
}
