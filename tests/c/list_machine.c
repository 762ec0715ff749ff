/* The list machine of documents 01 and 02, rule by rule in the papers' words and order; each quotation is from them.
 * Numbers stand as the papers print them, so that a slip in the header's names can't hide here. */
#include "list_machine.h"

#include <stdbool.h>
#include <stdio.h>
#include <stdlib.h>
#include <string.h>

typedef struct list_machine machine;
typedef const uint8_t *rec;

/* ---- "The record" ---- */

static int64_t word_at(rec r, int at)
{
    int64_t n = r[at] * INT64_C(16777216) + r[at + 1] * 65536 + r[at + 2] * 256 + r[at + 3];
    return n >= INT64_C(2147483648) ? n - INT64_C(4294967296) : n;
}

static int call_of(rec r) { return r[5]; }
static int facility_of(rec r) { return r[6]; }
static int service_of(rec r) { return r[7]; }
static int64_t period_of(rec r) { return word_at(r, 8); }
static int reason_of(rec r) { return r[12]; }
static int64_t proportion_of(rec r) { return r[14] * 256 + r[15]; }
static int64_t ramp_up_of(rec r) { return word_at(r, 16); }
static int64_t ramp_down_of(rec r) { return word_at(r, 20); }
static int64_t a_of(rec r) { return word_at(r, 24); }
static int64_t b_of(rec r) { return word_at(r, 28); }
static int64_t w_of(rec r, int i) { return word_at(r, 32 + 4 * i); }
static int64_t price_of(rec r, int pair) { return w_of(r, 2 * pair); }
static int64_t quantity_of(rec r, int pair) { return w_of(r, 2 * pair + 1); }

static bool is_offer(rec r) { return call_of(r) == 3 || call_of(r) == 4; }

static int64_t total_of_offer(rec r)
{
    int64_t total = 0;
    for (int i = 0; i < 10; i++)
        total += quantity_of(r, i);
    return total;
}

/* "A pair with quantity 0 is blank": all ten are */
static bool all_pairs_blank(rec r)
{
    for (int i = 0; i < 10; i++)
        if (quantity_of(r, i) != 0)
            return false;
    return true;
}

static void use(bool used[112], int first, int last)
{
    for (int i = first; i <= last; i++)
        used[i] = true;
}

/* "The nine calls and what they use" */
static void used_bytes(rec r, bool used[112])
{
    memset(used, 0, 112 * sizeof(bool));
    use(used, 0, 5);
    switch (call_of(r)) {
    case 1: /* "A, the new minute" */
        use(used, 24, 27);
        break;
    case 2: /* "facility; W0 .. W16" */
        use(used, 6, 6);
        use(used, 32, 99);
        break;
    case 3: /* "facility, service, period word (a slot), offer"; "Call 3 now uses byte 12 for a reason." */
    case 4: /* "the same with P for the slot, and reason" */
        use(used, 6, 12);
        if (service_of(r) == 0) { /* "An offer for service 0 uses both ramps and ten pairs" */
            use(used, 16, 23);
            use(used, 32, 111);
        } else { /* "for 1 to 3 the proportion and five pairs; for 4 five pairs" */
            if (service_of(r) <= 3)
                use(used, 14, 15);
            use(used, 32, 71);
        }
        break;
    case 5: /* "facility; A minute m; B count n" */
        use(used, 6, 6);
        use(used, 24, 31);
        break;
    case 6: /* "reason byte ..; A, B first and last period" */
        use(used, 12, 12);
        use(used, 24, 31);
        break;
    case 7: /* "reason byte 5" */
        use(used, 12, 12);
        break;
    case 8: /* "facility, service, P" */
        use(used, 6, 11);
        break;
    case 9: /* "service, P" */
        use(used, 7, 11);
        break;
    }
}

/* ---- "Facility kinds: 1 generation, 2 load." "A cross-border link becomes facility kind 3" ---- */

/* What each kind may do, by the digits of services and of reasons. */
static const struct facility_kind {
    int64_t number;
    const char *offers;      /* 9: where its mark decides; "It offers energy only" */
    const char *marks;       /* 8 "load with mark 0 or 4 set"; "mark 0 only" */
    const char *reasons;     /* 17 "1 generation", "2 generation", "6 load"; "Reasons 3, 4 and 5 are open to it" */
    const char *proportions; /* 15 "generation reserve" */
    int64_t longest_outage;  /* 7 "1–3 (load 1–48)"; "An outage call for it is refused with 7." */
} facility_kinds[] = {
    {1, "01234", "01234", "12345", "123", 3},
    {2, "01234", "123", "3456", "", 48},
    {3, "0", "0", "345", "", 0},
};

static bool has_digit(const char *digits, int n) { return n <= 9 && strchr(digits, '0' + n) != NULL; }

static const struct facility_kind *kind_numbered(int64_t number)
{
    for (size_t i = 0; i < sizeof facility_kinds / sizeof facility_kinds[0]; i++)
        if (facility_kinds[i].number == number)
            return &facility_kinds[i];
    return NULL;
}

/* ---- "The list machine": what the list of accepted calls shows, newest first ---- */

/* "Clock: newest call 1's minute, else 0.", of the oldest `count` calls */
static int64_t clock_of_oldest(const machine *m, size_t count)
{
    for (size_t i = count; i-- > 0;)
        if (call_of(m->accepted[i]) == 1)
            return a_of(m->accepted[i]);
    return 0;
}

static int64_t now(const machine *m) { return clock_of_oldest(m, m->count); }

/* "The list machine takes the minute from the clock at acceptance": of the calls older than the held one */
static int64_t accepted_minute(const machine *m, rec held)
{
    size_t older = 0;
    while (m->accepted[older] != held)
        older++;
    return clock_of_oldest(m, older);
}

static rec newest_for_facility(const machine *m, int call, int f)
{
    for (size_t i = m->count; i-- > 0;)
        if (call_of(m->accepted[i]) == call && facility_of(m->accepted[i]) == f)
            return m->accepted[i];
    return NULL;
}

/* "Capability .. : newest for f"; "None yet: kind 0" */
static int64_t capability(const machine *m, int f, int w)
{
    rec r = newest_for_facility(m, 2, f);
    return r ? w_of(r, w) : 0;
}

/* null where it has none */
static const struct facility_kind *kind(const machine *m, int f) { return kind_numbered(capability(m, f, 0)); }

/* "Its window is m div 30 + 1 to m div 30 + n." "None yet: .. an empty window" */
static bool in_outage(const machine *m, int f, int64_t period)
{
    rec r = newest_for_facility(m, 5, f);
    return r && a_of(r) / 30 + 1 <= period && period <= a_of(r) / 30 + b_of(r);
}

/* "Notice: newest of its kind, for kind 5 unless a withdrawal is newer." */
static bool in_notice(const machine *m, int notice, int64_t period)
{
    for (size_t i = m->count; i-- > 0;) {
        rec r = m->accepted[i];
        if (notice == 5 && call_of(r) == 7)
            return false;
        if (call_of(r) == 6 && reason_of(r) == notice)
            return a_of(r) <= period && period <= b_of(r);
    }
    return false;
}

static rec newest_offer(const machine *m, int call, int f, int s, int64_t period)
{
    for (size_t i = m->count; i-- > 0;) {
        rec r = m->accepted[i];
        if (call_of(r) == call && facility_of(r) == f && service_of(r) == s && period_of(r) == period)
            return r;
    }
    return NULL;
}

/* "Standing: newest for (f, s, slot)." */
static rec standing(const machine *m, int f, int s, int64_t slot) { return newest_offer(m, 3, f, s, slot); }

/* "Variation: newest for (f, s, P), with P whole, not its slot." "a newest variation that is blank counts as none" */
static rec variation(const machine *m, int f, int s, int64_t period)
{
    rec newest = newest_offer(m, 4, f, s, period);
    return newest && !all_pairs_blank(newest) ? newest : NULL;
}

/* "Offer in force"; asked only for periods from 0 */
static rec in_force(const machine *m, int f, int s, int64_t period)
{
    rec r = variation(m, f, s, period);
    return r ? r : standing(m, f, s, period % 336);
}

/* ---- "Gate" ---- */

/* "none has total 0" */
static int64_t gate_total(rec r) { return r ? total_of_offer(r) : 0; }

/* "the n-th tenth of a MW, counted up through the pairs" */
static int64_t price_of_tenth(rec r, int64_t n)
{
    int64_t counted = 0;
    for (int i = 0; i < 10; i++) {
        counted += quantity_of(r, i);
        if (n <= counted)
            return price_of(r, i);
    }
    fprintf(stderr, "list machine: no such tenth\n");
    abort();
}

/* "for every n from 1 to the smaller total, the n-th tenth of a MW .. has the same price in old and new" */
static bool same_prices(rec old, rec new)
{
    int64_t old_total = gate_total(old);
    int64_t new_total = gate_total(new);
    for (int64_t n = 1; n <= old_total && n <= new_total; n++)
        if (price_of_tenth(old, n) != price_of_tenth(new, n))
            return false;
    return true;
}

static bool reason_holds(const machine *m, rec r, int64_t period, rec old, rec new)
{
    int f = facility_of(r);
    int64_t old_total = gate_total(old);
    int64_t new_total = gate_total(new);
    if (!has_digit(kind(m, f)->reasons, reason_of(r)))
        return false;
    switch (reason_of(r)) {
    case 1: /* "(synchronising profile)" */
        return true;
    case 3: /* "service 0, P in notice 3, new total below old" */
        return service_of(r) == 0 && in_notice(m, 3, period) && new_total < old_total;
    case 4: /* "4, 5 P in that notice, new total above old" */
        return in_notice(m, 4, period) && new_total > old_total;
    case 5:
        return in_notice(m, 5, period) && new_total > old_total;
    case 2: /* "P in the facility's outage window" */
    case 6: /* "P in the outage window" */
        return in_outage(m, f, period);
    }
    return false; /* "Inside that it needs a reason" */
}

/* Of either filing: "The reasons and the tenth-by-tenth price condition are those of a variation." */
static bool passes_gate(const machine *m, rec r, int64_t period, rec old, rec new)
{
    /* "A variation is open when 30·P − now is 65 or more." */
    if (30 * period - now(m) >= 65)
        return true;
    return reason_holds(m, r, period, old, new) && same_prices(old, new);
}

/* "The gate compares old with the offer that will stand afterwards." "An accepted variation whose pairs are all blank
 * now means: no variation." */
static rec stands_afterwards(const machine *m, rec r)
{
    return all_pairs_blank(r) ? standing(m, facility_of(r), service_of(r), period_of(r) % 336) : r;
}

/* "Old is the offer in force before the call" */
static bool variation_passes_gate(const machine *m, rec r)
{
    rec old = in_force(m, facility_of(r), service_of(r), period_of(r));
    return passes_gate(m, r, period_of(r), old, stands_afterwards(m, r));
}

/* "the least period of that slot not yet begun, at slot boundaries as well", where "begun (30·P ≤ now)": by counting */
int64_t list_machine_next_period(int64_t minute, int64_t slot)
{
    int64_t next = slot;
    while (30 * next <= minute)
        next += 336;
    return next;
}

/* "A first one always passes the gate." "P is the slot's next period not yet begun; old is the held standing offer, new the
 * one filed." */
static bool standing_passes_gate(const machine *m, rec r)
{
    rec old = standing(m, facility_of(r), service_of(r), period_of(r));
    return !old || passes_gate(m, r, list_machine_next_period(now(m), period_of(r)), old, r);
}

/* ---- "Who draws which number": whether each applies, where no lower one does ---- */

static bool outside(int64_t low, int64_t high, int64_t n) { return n < low || n > high; }

/* 3 "facility ≥ F or service ≥ S, where used" */
static bool refused_3(rec r, int32_t facilities, int32_t services)
{
    bool used[112];
    used_bytes(r, used);
    return (used[6] && facility_of(r) >= facilities) || (used[7] && service_of(r) >= services);
}

/* 4 "an unused byte not zero" */
static bool refused_4(rec r)
{
    bool used[112];
    used_bytes(r, used);
    for (int i = 0; i < 112; i++)
        if (!used[i] && r[i] != 0)
            return true;
    return false;
}

int list_machine_record_number(const uint8_t *bytes, size_t length, int32_t facilities, int32_t services)
{
    /* 2 "not 112 bytes, or mark, version or call wrong" */
    if (length != 112)
        return 2;
    if (bytes[0] != 'S' || bytes[1] != 'O' || bytes[2] != 'B')
        return 2;
    if (bytes[3] != 0 || bytes[4] != 1)
        return 2;
    if (outside(1, 9, call_of(bytes)))
        return 2;
    if (refused_3(bytes, facilities, services))
        return 3;
    if (refused_4(bytes))
        return 4;
    return 0;
}

/* 5 "facility has kind neither 1 nor 2 in the book (calls 3, 4, 5, 8)"; "Refusals 5 and 8 read 1, 2 or 3 for the kind." */
static bool refused_5(const machine *m, rec r)
{
    if (call_of(r) != 3 && call_of(r) != 4 && call_of(r) != 5 && call_of(r) != 8)
        return false;
    return !kind(m, facility_of(r));
}

/* 6 "A below now or above 1,000,000,000" */
static bool refused_6(const machine *m, rec r)
{
    return call_of(r) == 1 && outside(now(m), 1000000000, a_of(r));
}

/* 7 */
static bool refused_7(const machine *m, rec r)
{
    switch (call_of(r)) {
    case 5: /* "outage: not 0 ≤ m ≤ now, or n outside" what the kind has; no n is inside 1 to 0 */
        return outside(0, now(m), a_of(r)) || outside(1, kind(m, facility_of(r))->longest_outage, b_of(r));
    case 6: /* "notice: reason not 3–5, or not 0 ≤ A ≤ B ≤ 40,000,000" */
        return outside(3, 5, reason_of(r)) || !(0 <= a_of(r) && a_of(r) <= b_of(r) && b_of(r) <= 40000000);
    case 7: /* "withdrawal: reason not 5" */
        return reason_of(r) != 5;
    }
    return false;
}

/* 8 "capability: kind not 1 or 2 or unlike a held 1 or 2; W1–W6 outside 0–99,999; W7, W8 outside 0–9,999; W9–W11
 * outside 0–1,000; a mark not 0 or 1; load with mark 0 or 4 set"; a link "may have mark 0 only" */
static bool refused_8(const machine *m, rec r)
{
    if (call_of(r) != 2)
        return false;
    const struct facility_kind *filed = kind_numbered(w_of(r, 0)), *held = kind(m, facility_of(r));
    if (!filed || (held && held != filed))
        return true;
    for (int i = 1; i <= 6; i++)
        if (outside(0, 99999, w_of(r, i)))
            return true;
    for (int i = 7; i <= 8; i++)
        if (outside(0, 9999, w_of(r, i)))
            return true;
    for (int i = 9; i <= 11; i++)
        if (outside(0, 1000, w_of(r, i)))
            return true;
    for (int i = 12; i <= 16; i++)
        if (outside(0, 1, w_of(r, i)))
            return true;
    for (int s = 0; s <= 4; s++)
        if (w_of(r, 12 + s) == 1 && !has_digit(filed->marks, s))
            return true;
    return false;
}

/* 9 "mark for the service not 1"; of a link it "also covers its offers for services 1 to 4" */
static bool refused_9(const machine *m, rec r)
{
    int f = facility_of(r), s = service_of(r);
    return is_offer(r) && (capability(m, f, 12 + s) != 1 || !has_digit(kind(m, f)->offers, s));
}

/* 10 "slot outside 0–335; P begun (30·P ≤ now) or P ≥ 48·(d + 7), d the day of now. Also calls 8 and 9, for P." */
static bool refused_10(const machine *m, rec r)
{
    int64_t period = period_of(r);
    switch (call_of(r)) {
    case 3:
        return outside(0, 335, period);
    case 4:
    case 8:
    case 9:
        return 30 * period <= now(m) || period >= 48 * (now(m) / 1440 + 7);
    }
    return false;
}

/* 11 "reason above 6, quantity outside 0–99,999, price outside its limits (services 1–4 from 0)" */
static bool refused_11(const machine *m, rec r)
{
    if (!is_offer(r))
        return false;
    int s = service_of(r);
    int64_t lowest = s == 0 ? m->limits[0] : 0;
    int64_t highest = s == 0 ? m->limits[1] : m->limits[1 + s];
    if (reason_of(r) > 6)
        return true;
    for (int i = 0; i < 10; i++)
        if (outside(0, 99999, quantity_of(r, i)) || outside(lowest, highest, price_of(r, i)))
            return true;
    return false;
}

/* 12 "blank pair with a price"; it "also applies where a blank pair stands before a non-blank one" */
static bool refused_12(const machine *m, rec r)
{
    (void)m;
    for (int i = 0; is_offer(r) && i < 10; i++) {
        if (quantity_of(r, i) == 0 && price_of(r, i) != 0)
            return true;
        for (int j = i + 1; j < 10; j++)
            if (quantity_of(r, i) == 0 && quantity_of(r, j) != 0)
                return true;
    }
    return false;
}

/* 13 "prices of non-blank pairs not strictly rising": no earlier one is as high as a later one */
static bool refused_13(const machine *m, rec r)
{
    (void)m;
    for (int i = 0; is_offer(r) && i < 10; i++)
        for (int j = i + 1; j < 10; j++)
            if (quantity_of(r, i) != 0 && quantity_of(r, j) != 0 && price_of(r, i) >= price_of(r, j))
                return true;
    return false;
}

/* 14 "energy ramp outside 0 to its maximum"; "also covers a ramp above 9,999" */
static bool refused_14(const machine *m, rec r)
{
    int f = facility_of(r);
    if (!is_offer(r) || service_of(r) != 0)
        return false;
    return outside(0, capability(m, f, 7), ramp_up_of(r)) || outside(0, capability(m, f, 8), ramp_down_of(r))
        || ramp_up_of(r) > 9999 || ramp_down_of(r) > 9999;
}

/* 15 "generation reserve: proportion 0 or above its maximum; load isn't tested" */
static bool refused_15(const machine *m, rec r)
{
    int f = facility_of(r), s = service_of(r);
    return is_offer(r) && has_digit(kind(m, f)->proportions, s)
        && (proportion_of(r) == 0 || proportion_of(r) > capability(m, f, 8 + s));
}

/* 16 "total above generation or combined maximum (energy), or above the service's own" */
static bool refused_16(const machine *m, rec r)
{
    int f = facility_of(r), s = service_of(r);
    if (!is_offer(r))
        return false;
    if (s == 0)
        return total_of_offer(r) > capability(m, f, 1) || total_of_offer(r) > capability(m, f, 2);
    return total_of_offer(r) > capability(m, f, 2 + s);
}

/* 17 "gate" */
static bool refused_17(const machine *m, rec r)
{
    if (call_of(r) == 3)
        return !standing_passes_gate(m, r);
    return call_of(r) == 4 && !variation_passes_gate(m, r);
}

/* 18 "standing offer equal to the held one in cell words 1–23": proportion, ramps and pairs; "The duplicate test ignores
 * the minute." */
static bool refused_18(const machine *m, rec r)
{
    if (call_of(r) != 3)
        return false;
    rec held = standing(m, facility_of(r), service_of(r), period_of(r));
    if (!held)
        return false;
    for (int i = 0; i < 20; i++)
        if (w_of(held, i) != w_of(r, i))
            return false;
    return proportion_of(held) == proportion_of(r) && ramp_up_of(held) == ramp_up_of(r)
        && ramp_down_of(held) == ramp_down_of(r);
}

/* 19 "nothing in force (call 8)" */
static bool refused_19(const machine *m, rec r)
{
    return call_of(r) == 8 && !in_force(m, facility_of(r), service_of(r), period_of(r));
}

/* "Tests run in rising order; the lowest that applies is returned." */
static int judge(const machine *m, rec r, size_t length)
{
    static bool (*const refused[])(const machine *, rec) = {
        refused_5,  refused_6,  refused_7,  refused_8,  refused_9,  refused_10, refused_11, refused_12,
        refused_13, refused_14, refused_15, refused_16, refused_17, refused_18, refused_19,
    };
    int number = list_machine_record_number(r, length, m->facilities, m->services);
    for (int i = 0; number == 0 && i < 15; i++)
        if (refused[i](m, r))
            number = 5 + i;
    return number;
}

/* "Look-up: word 0 is 1 (standing) or 2 (variation), then cell words 1–23; sum: its ten quantities added." "Word 0 is 3
 * for standing and 4 for variation while now minus that minute is below 5." "Look-up words 2 and 3 are the ramps" */
static void answer_look_up(const machine *m, rec r, struct bilzhaan_answer *answer)
{
    int f = facility_of(r), s = service_of(r);
    rec offer = in_force(m, f, s, period_of(r));
    bool is_variation = variation(m, f, s, period_of(r)) != NULL;
    if (now(m) - accepted_minute(m, offer) < 5)
        answer->words[0] = is_variation ? 4 : 3;
    else
        answer->words[0] = is_variation ? 2 : 1;
    answer->words[1] = (int32_t)proportion_of(offer);
    answer->words[2] = (int32_t)ramp_up_of(offer);
    answer->words[3] = (int32_t)ramp_down_of(offer);
    for (int i = 0; i < 20; i++)
        answer->words[4 + i] = (int32_t)w_of(offer, i);
    answer->sum = total_of_offer(offer);
}

/* "Total: word 0 counts facilities with an offer in force, other words zero; sum over them." */
static void answer_total(const machine *m, rec r, struct bilzhaan_answer *answer)
{
    for (int f = 0; f < m->facilities; f++) {
        rec offer = in_force(m, f, service_of(r), period_of(r));
        if (offer) {
            answer->words[0]++;
            answer->sum += total_of_offer(offer);
        }
    }
}

static void join(machine *m, rec r)
{
    if (m->count == m->room) {
        m->room = m->room ? 2 * m->room : 64;
        m->accepted = realloc(m->accepted, m->room * sizeof m->accepted[0]);
        if (!m->accepted) {
            fprintf(stderr, "list machine: no memory\n");
            abort();
        }
    }
    memcpy(m->accepted[m->count++], r, 112);
}

struct bilzhaan_answer list_machine_call(struct list_machine *m, const uint8_t *bytes, size_t length)
{
    struct bilzhaan_answer answer;
    memset(&answer, 0, sizeof answer);
    answer.number = (uint32_t)judge(m, bytes, length);
    if (answer.number != 0)
        return answer;
    if (call_of(bytes) == 8)
        answer_look_up(m, bytes, &answer);
    if (call_of(bytes) == 9)
        answer_total(m, bytes, &answer);
    join(m, bytes); /* "if accepted it joins the list" */
    return answer;
}

void list_machine_open(struct list_machine *m, int32_t facilities, int32_t services, const int32_t limits[6])
{
    memset(m, 0, sizeof *m);
    m->facilities = facilities;
    m->services = services;
    memcpy(m->limits, limits, sizeof m->limits);
}

void list_machine_close(struct list_machine *m)
{
    free(m->accepted);
    memset(m, 0, sizeof *m);
}
