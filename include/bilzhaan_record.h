/* Records written, answers read and each number's text: inline functions for C99 and C++11 over bilzhaan.h.
 * Nothing is allocated or kept, and nothing is judged: the library refuses what is wrong in a record. */
#ifndef BILZHAAN_RECORD_H
#define BILZHAAN_RECORD_H

#include "bilzhaan.h"

/* ---- what a record carries; a field that isn't named in an initialiser is 0 ---- */

struct bilzhaan_pair {
    int32_t price;    /* cents per MWh */
    int32_t quantity; /* tenths of a MW; 0, and price 0, is a blank pair */
};

/* A standing offer or a variation. What the service doesn't use stays 0, else the record draws 4. Either call files with the
 * reason that is there: clear one left over from another offer.
 * A standing offer without pairs is one of 0.0 MW; a variation without pairs takes the period's variation back. */
struct bilzhaan_offer {
    int32_t facility;
    int32_t service;
    int32_t period;     /* of a standing offer: the slot */
    int32_t reason;     /* why it is filed after gate closure, else 0 */
    int32_t proportion; /* of services 1 to 3: thousandths */
    int32_t ramp_up;    /* of energy: tenths of a MW per minute */
    int32_t ramp_down;
    struct bilzhaan_pair pairs[BILZHAAN_PAIRS_ENERGY]; /* of services 1 to 4 the first five; blank pairs come last, else 12 */
};

struct bilzhaan_capability {
    int32_t facility;
    int32_t kind;              /* BILZHAAN_GENERATION, BILZHAAN_LOAD or BILZHAAN_LINK */
    int32_t max_generation;    /* tenths of a MW, to max_regulation; of a link: its import capacity */
    int32_t max_combined;      /* energy is held to both, a link's as well: left 0, every quantity draws 16 */
    int32_t max_reserve[3];    /* primary, secondary, contingency */
    int32_t max_regulation;
    int32_t max_ramp_up;       /* tenths of a MW per minute */
    int32_t max_ramp_down;
    int32_t max_proportion[3]; /* thousandths; primary, secondary, contingency */
    int32_t registered[BILZHAAN_SERVICES_ALL]; /* 1 if registered: a load for reserve alone, a link for energy */
};

/* ---- their bytes; names that end in _ are this header's own. A value that its bytes don't hold isn't cut: the record
 * becomes one that the library refuses. ---- */

static inline void bilzhaan_word_(uint8_t *record, int at, int32_t value)
{
    uint32_t bits = (uint32_t)value;
    int i;
    for (i = 0; i < 4; i++)
        record[at + i] = (uint8_t)(bits >> (24 - 8 * i) & 0xFF);
}

/* No facility, service, reason or kind is 255. */
static inline void bilzhaan_byte_(uint8_t *record, int at, int32_t value)
{
    record[at] = value < 0 || value > 255 ? 255 : (uint8_t)value;
}

static inline void bilzhaan_start_(uint8_t *record, int call)
{
    int i;
    for (i = 0; i < BILZHAAN_RECORD_BYTES; i++)
        record[i] = 0;
    record[BILZHAAN_AT_MARK] = 'S';
    record[BILZHAAN_AT_MARK + 1] = 'O';
    record[BILZHAAN_AT_MARK + 2] = 'B';
    record[BILZHAAN_AT_VERSION + 1] = 1;
    record[BILZHAAN_AT_CALL] = (uint8_t)call;
}

static inline void bilzhaan_offer_(uint8_t *record, int call, const struct bilzhaan_offer *offer)
{
    int i;
    bilzhaan_start_(record, call);
    bilzhaan_byte_(record, BILZHAAN_AT_FACILITY, offer->facility);
    bilzhaan_byte_(record, BILZHAAN_AT_SERVICE, offer->service);
    bilzhaan_word_(record, BILZHAAN_AT_PERIOD, offer->period);
    bilzhaan_byte_(record, BILZHAAN_AT_REASON, offer->reason);
    if (offer->proportion < 0 || offer->proportion > 65535) {
        record[BILZHAAN_AT_REASON + 1] = 255; /* unused in every call */
    } else {
        bilzhaan_byte_(record, BILZHAAN_AT_PROPORTION, offer->proportion / 256);
        bilzhaan_byte_(record, BILZHAAN_AT_PROPORTION + 1, offer->proportion % 256);
    }
    bilzhaan_word_(record, BILZHAAN_AT_RAMP_UP, offer->ramp_up);
    bilzhaan_word_(record, BILZHAAN_AT_RAMP_DOWN, offer->ramp_down);
    for (i = 0; i < BILZHAAN_PAIRS_ENERGY; i++) {
        bilzhaan_word_(record, BILZHAAN_AT_W0 + 8 * i, offer->pairs[i].price);
        bilzhaan_word_(record, BILZHAAN_AT_W0 + 8 * i + 4, offer->pairs[i].quantity);
    }
}

/* ---- the nine calls: each function writes all 112 bytes ---- */

static inline void bilzhaan_write_clock(uint8_t record[BILZHAAN_RECORD_BYTES], int32_t minute)
{
    bilzhaan_start_(record, BILZHAAN_CALL_CLOCK);
    bilzhaan_word_(record, BILZHAAN_AT_A, minute);
}

static inline void bilzhaan_write_capability(uint8_t record[BILZHAAN_RECORD_BYTES],
                                             const struct bilzhaan_capability *capability)
{
    const struct bilzhaan_capability *c = capability;
    int w0 = BILZHAAN_AT_W0, i;
    bilzhaan_start_(record, BILZHAAN_CALL_CAPABILITY);
    bilzhaan_byte_(record, BILZHAAN_AT_FACILITY, c->facility);
    bilzhaan_word_(record, w0 + 4 * BILZHAAN_W_KIND, c->kind);
    bilzhaan_word_(record, w0 + 4 * BILZHAAN_W_MAX_GENERATION, c->max_generation);
    bilzhaan_word_(record, w0 + 4 * BILZHAAN_W_MAX_COMBINED, c->max_combined);
    bilzhaan_word_(record, w0 + 4 * BILZHAAN_W_MAX_REGULATION, c->max_regulation);
    bilzhaan_word_(record, w0 + 4 * BILZHAAN_W_MAX_RAMP_UP, c->max_ramp_up);
    bilzhaan_word_(record, w0 + 4 * BILZHAAN_W_MAX_RAMP_DOWN, c->max_ramp_down);
    for (i = 0; i < 3; i++) {
        bilzhaan_word_(record, w0 + 4 * (BILZHAAN_W_MAX_RESERVE + i), c->max_reserve[i]);
        bilzhaan_word_(record, w0 + 4 * (BILZHAAN_W_MAX_PROPORTION + i), c->max_proportion[i]);
    }
    for (i = 0; i < BILZHAAN_SERVICES_ALL; i++)
        bilzhaan_word_(record, w0 + 4 * (BILZHAAN_W_REGISTERED + i), c->registered[i]);
}

/* Where one is held for the slot and less than 65 minutes are left before the slot's next period, the new one needs a reason
 * that holds for that period, and keeps the held one's prices, tenth by tenth. A variation for the period, where there is
 * one, stays in force. */
static inline void bilzhaan_write_standing(uint8_t record[BILZHAAN_RECORD_BYTES], const struct bilzhaan_offer *offer)
{
    bilzhaan_offer_(record, BILZHAAN_CALL_STANDING, offer);
}

/* Without pairs it takes the held variation back: the standing offer stands again, if there is one. It is tested as any
 * variation: less than 65 minutes before the period it needs a reason, and the standing offer must have the variation's
 * prices, tenth by tenth; for a generation's reserve it needs a proportion from 1. */
static inline void bilzhaan_write_variation(uint8_t record[BILZHAAN_RECORD_BYTES], const struct bilzhaan_offer *offer)
{
    bilzhaan_offer_(record, BILZHAAN_CALL_VARIATION, offer);
}

/* The window is the `periods` periods after the one that holds `minute`. A link has no outages. */
static inline void bilzhaan_write_outage(uint8_t record[BILZHAAN_RECORD_BYTES], int32_t facility, int32_t minute,
                                         int32_t periods)
{
    bilzhaan_start_(record, BILZHAAN_CALL_OUTAGE);
    bilzhaan_byte_(record, BILZHAAN_AT_FACILITY, facility);
    bilzhaan_word_(record, BILZHAAN_AT_A, minute);
    bilzhaan_word_(record, BILZHAAN_AT_B, periods);
}

static inline void bilzhaan_write_notice(uint8_t record[BILZHAAN_RECORD_BYTES], int32_t kind, int32_t first_period,
                                         int32_t last_period)
{
    bilzhaan_start_(record, BILZHAAN_CALL_NOTICE);
    bilzhaan_byte_(record, BILZHAAN_AT_REASON, kind);
    bilzhaan_word_(record, BILZHAAN_AT_A, first_period);
    bilzhaan_word_(record, BILZHAAN_AT_B, last_period);
}

/* Of the system status notice, the one kind that can be withdrawn. */
static inline void bilzhaan_write_withdrawal(uint8_t record[BILZHAAN_RECORD_BYTES])
{
    bilzhaan_start_(record, BILZHAAN_CALL_WITHDRAWAL);
    bilzhaan_byte_(record, BILZHAAN_AT_REASON, BILZHAAN_NOTICE_SYSTEM_STATUS);
}

static inline void bilzhaan_write_look_up(uint8_t record[BILZHAAN_RECORD_BYTES], int32_t facility, int32_t service,
                                          int32_t period)
{
    bilzhaan_start_(record, BILZHAAN_CALL_LOOK_UP);
    bilzhaan_byte_(record, BILZHAAN_AT_FACILITY, facility);
    bilzhaan_byte_(record, BILZHAAN_AT_SERVICE, service);
    bilzhaan_word_(record, BILZHAAN_AT_PERIOD, period);
}

static inline void bilzhaan_write_total(uint8_t record[BILZHAAN_RECORD_BYTES], int32_t service, int32_t period)
{
    bilzhaan_start_(record, BILZHAAN_CALL_TOTAL);
    bilzhaan_byte_(record, BILZHAAN_AT_SERVICE, service);
    bilzhaan_word_(record, BILZHAAN_AT_PERIOD, period);
}

/* ---- answers ---- */

/* Of a look-up: whether a variation is in force, not the standing offer. */
static inline int bilzhaan_is_variation(const struct bilzhaan_answer *answer)
{
    int32_t in_force = answer->words[BILZHAAN_ANSWER_IN_FORCE];
    return in_force == BILZHAAN_VARIATION_IN_FORCE || in_force == BILZHAAN_FRESH_VARIATION_IN_FORCE;
}

/* Of a look-up: whether the offer in force is too fresh to be sure of the schedule. */
static inline int bilzhaan_is_fresh(const struct bilzhaan_answer *answer)
{
    int32_t in_force = answer->words[BILZHAAN_ANSWER_IN_FORCE];
    return in_force == BILZHAAN_FRESH_STANDING_IN_FORCE || in_force == BILZHAAN_FRESH_VARIATION_IN_FORCE;
}

/* The offer that a look-up answered, to read or to file changed: facility, service, period and reason are left 0. One that a
 * library older than 1.7.0 accepted may have a blank pair before one that isn't: filed as it is it draws 12. */
static inline struct bilzhaan_offer bilzhaan_answered_offer(const struct bilzhaan_answer *answer)
{
    struct bilzhaan_offer offer = {0, 0, 0, 0, 0, 0, 0, {{0, 0}}};
    int i;
    offer.proportion = answer->words[BILZHAAN_ANSWER_PROPORTION];
    offer.ramp_up = answer->words[BILZHAAN_ANSWER_RAMP_UP];
    offer.ramp_down = answer->words[BILZHAAN_ANSWER_RAMP_DOWN];
    for (i = 0; i < BILZHAAN_PAIRS_ENERGY; i++) {
        offer.pairs[i].price = answer->words[BILZHAAN_ANSWER_PAIRS + 2 * i];
        offer.pairs[i].quantity = answer->words[BILZHAAN_ANSWER_PAIRS + 2 * i + 1];
    }
    return offer;
}

/* ---- the numbers in words: those of docs/REFUSALS.md, in ASCII ---- */

static inline const char *bilzhaan_number_text(uint32_t number)
{
    switch (number) {
    case BILZHAAN_ACCEPTED:
        return "Accepted.";
    case BILZHAAN_BOOK_UNUSABLE:
        return "The words lent are no usable book: fewer than 64, mark or version wrong, F not 1 to 64, S not 1 or "
               "5, fewer words than F and S need, or a clock outside 0 to 1,000,000,000.";
    case BILZHAAN_NOT_A_RECORD:
        return "Not a record: not 112 bytes, or mark, version or call (1 to 9) wrong.";
    case BILZHAAN_NOT_IN_BOOK:
        return "Facility not below F or service not below S, where the call uses it.";
    case BILZHAAN_UNUSED_BYTE:
        return "A byte that the call, or the offer's service, does not use is not zero.";
    case BILZHAAN_NO_KIND:
        return "The facility has no kind: no capability was accepted for it (calls 3, 4, 5, 8).";
    case BILZHAAN_CLOCK_REFUSED:
        return "The minute is below the clock or above 1,000,000,000.";
    case BILZHAAN_NOTICE_REFUSED:
        return "Outage: not 0 <= minute <= clock, or n outside 1 to 3 (load 1 to 48), or any of a link. Notice: kind "
               "not 3 to 5, or not 0 <= first <= last <= 40,000,000. Withdrawal: kind not 5.";
    case BILZHAAN_CAPABILITY_REFUSED:
        return "Capability: kind not 1, 2 or 3, or not the kind held; a maximum outside 0 to 9,999.9 MW; a ramp "
               "maximum outside 0 to 999.9 MW/min; a proportion maximum outside 0 to 1.000; a mark not 0 or 1; a load "
               "marked for energy or regulation; a link marked for anything but energy.";
    case BILZHAAN_NOT_REGISTERED:
        return "The facility isn't registered for the service: its mark is not 1; or it is a link, and the service is "
               "not energy.";
    case BILZHAAN_PERIOD_REFUSED:
        return "Standing offer: slot outside 0 to 335. Variation, look-up, total: the period has begun (30*P <= "
               "clock), or P >= 48*(d + 7), d being the clock's day.";
    case BILZHAAN_OUT_OF_RANGE:
        return "Reason above 6; a quantity outside 0 to 9,999.9 MW; a price outside its limits (reserve and "
               "regulation from 0.00). Blank pairs are tested too.";
    case BILZHAAN_BLANK_REFUSED:
        return "A pair of 0.0 MW has a price, or stands before one that is not blank.";
    case BILZHAAN_PRICES_DONT_RISE:
        return "Prices of the non-blank pairs do not strictly rise.";
    case BILZHAAN_RAMP_REFUSED:
        return "An energy offer's ramp-up or ramp-down rate is below 0, above its maximum or above 999.9 MW/min.";
    case BILZHAAN_PROPORTION_REFUSED:
        return "Generation, reserve: the proportion is 0 or above the class's maximum. A load's isn't tested.";
    case BILZHAAN_ABOVE_CAPACITY:
        return "The total is above the generation or the combined maximum (energy), or above the service's own.";
    case BILZHAAN_GATE_CLOSED:
        return "Gate closure, less than 65 minutes left: a variation, or a standing offer over a held one, whose reason "
               "does not hold or that changes a price already offered.";
    case BILZHAAN_DUPLICATE:
        return "The standing offer equals the one held: proportion, ramps and every pair.";
    case BILZHAAN_NOTHING_IN_FORCE:
        return "Look-up: no variation and no standing offer is in force.";
    case BILZHAAN_OPENING_REFUSED:
        return "Opening: F not 1 to 64, S not 1 or 5, too few words, a limit beyond +/-100,000.00, not lowest <= 0 "
               "<= highest energy price, or a highest price of services 1 to 4 below 0. The record test gives it for "
               "F or S.";
    case BILZHAAN_DATE_REFUSED:
        return "No such date or period: the date does not exist, its year is outside 2024 to 2099, the period is outside "
               "1 to 48, or P is below 0 or above 1,332,431.";
    default:
        return "No number of this library.";
    }
}

#endif
