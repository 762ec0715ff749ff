/* Records of 112 bytes, written from their fields (document 01, "The record"); for tests and benchmarks.
 * A record starts as zeros but for mark, version and call. */
#ifndef BILZHAAN_TESTS_RECORDS_H
#define BILZHAAN_TESTS_RECORDS_H

#include "bilzhaan.h"

struct record {
    uint8_t bytes[BILZHAAN_RECORD_BYTES];
};

static inline void set_word(struct record *r, int at, int32_t value)
{
    uint32_t bits = (uint32_t)value;
    r->bytes[at] = (uint8_t)(bits >> 24);
    r->bytes[at + 1] = (uint8_t)(bits >> 16);
    r->bytes[at + 2] = (uint8_t)(bits >> 8);
    r->bytes[at + 3] = (uint8_t)bits;
}

static inline int32_t word_of(const uint8_t *bytes, int at)
{
    return (int32_t)((uint32_t)bytes[at] << 24 | (uint32_t)bytes[at + 1] << 16 | (uint32_t)bytes[at + 2] << 8 | bytes[at + 3]);
}

static inline void set_w(struct record *r, int i, int32_t value)
{
    set_word(r, BILZHAAN_AT_W0 + 4 * i, value);
}

static inline void set_pair(struct record *r, int pair, int32_t price, int32_t quantity)
{
    set_w(r, 2 * pair, price);
    set_w(r, 2 * pair + 1, quantity);
}

static inline void set_proportion(struct record *r, int thousandths)
{
    r->bytes[BILZHAAN_AT_PROPORTION] = (uint8_t)(thousandths >> 8);
    r->bytes[BILZHAAN_AT_PROPORTION + 1] = (uint8_t)thousandths;
}

static inline void set_ramps(struct record *r, int32_t up, int32_t down)
{
    set_word(r, BILZHAAN_AT_RAMP_UP, up);
    set_word(r, BILZHAAN_AT_RAMP_DOWN, down);
}

static inline struct record record_of(int call)
{
    struct record r = {{'S', 'O', 'B', 0, 1}};
    r.bytes[BILZHAAN_AT_CALL] = (uint8_t)call;
    return r;
}

static inline struct record clock_at(int32_t minute)
{
    struct record r = record_of(BILZHAAN_CALL_CLOCK);
    set_word(&r, BILZHAAN_AT_A, minute);
    return r;
}

static inline struct record capability_of(int facility, const int32_t w[BILZHAAN_CAPABILITY_WORDS])
{
    struct record r = record_of(BILZHAAN_CALL_CAPABILITY);
    r.bytes[BILZHAAN_AT_FACILITY] = (uint8_t)facility;
    for (int i = 0; i < BILZHAAN_CAPABILITY_WORDS; i++)
        set_w(&r, i, w[i]);
    return r;
}

/* A blank standing offer or variation; pairs, ramps and proportion are set after. */
static inline struct record offer_for(int call, int facility, int service, int32_t period, int reason)
{
    struct record r = record_of(call);
    r.bytes[BILZHAAN_AT_FACILITY] = (uint8_t)facility;
    r.bytes[BILZHAAN_AT_SERVICE] = (uint8_t)service;
    r.bytes[BILZHAAN_AT_REASON] = (uint8_t)reason;
    set_word(&r, BILZHAAN_AT_PERIOD, period);
    return r;
}

static inline struct record outage_of(int facility, int32_t minute, int32_t periods)
{
    struct record r = record_of(BILZHAAN_CALL_OUTAGE);
    r.bytes[BILZHAAN_AT_FACILITY] = (uint8_t)facility;
    set_word(&r, BILZHAAN_AT_A, minute);
    set_word(&r, BILZHAAN_AT_B, periods);
    return r;
}

static inline struct record notice_of(int kind, int32_t first, int32_t last)
{
    struct record r = record_of(BILZHAAN_CALL_NOTICE);
    r.bytes[BILZHAAN_AT_REASON] = (uint8_t)kind;
    set_word(&r, BILZHAAN_AT_A, first);
    set_word(&r, BILZHAAN_AT_B, last);
    return r;
}

static inline struct record withdrawal_of(int kind)
{
    struct record r = record_of(BILZHAAN_CALL_WITHDRAWAL);
    r.bytes[BILZHAAN_AT_REASON] = (uint8_t)kind;
    return r;
}

static inline struct record look_up_of(int facility, int service, int32_t period)
{
    return offer_for(BILZHAAN_CALL_LOOK_UP, facility, service, period, 0);
}

static inline struct record total_of(int service, int32_t period)
{
    return offer_for(BILZHAAN_CALL_TOTAL, 0, service, period, 0);
}

#endif
