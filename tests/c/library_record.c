/* The record test and refusals 2, 3 and 4: good, short, long and damaged records, and sizes out of range. */
#include "library_test.h"

#include <limits.h>
#include <string.h>

/* A good record of each call, with offers of each service; refused only by a book's state. */
enum { SAMPLES = 17 };

static struct record sample(int i)
{
    struct record r;
    switch (i) {
    case 0: return clock_at(1000000000);
    case 1: return capability_of(1, usual_generation);
    case 2: return outage_of(1, 30, 3);
    case 3: return notice_of(BILZHAAN_NOTICE_SHORTFALL, 1, 40000000);
    case 4: return withdrawal_of(BILZHAAN_NOTICE_SYSTEM_STATUS);
    case 5: return look_up_of(1, 4, 12);
    case 6: return total_of(4, 12);
    }
    int s = (i - 7) % 5;
    r = offer_for(i < 12 ? BILZHAAN_CALL_STANDING : BILZHAAN_CALL_VARIATION, 1, s, 300, 6);
    for (int pair = 0; pair < (s == 0 ? 10 : 5); pair++)
        set_pair(&r, pair, 1000 + pair, 256 + pair);
    if (s == 0)
        set_ramps(&r, -1, INT32_MAX);
    else if (s < 4)
        set_proportion(&r, 65535);
    return r;
}

/* "The nine calls and what they use", as ranges of bytes; the first six belong to every record. */
static bool uses(const struct record *r, int byte)
{
    int which = r->bytes[BILZHAAN_AT_CALL], s = r->bytes[BILZHAAN_AT_SERVICE];
    bool facility = byte == 6, service = byte == 7, period = byte >= 8 && byte < 12, reason = byte == 12;
    bool proportion = byte == 14 || byte == 15, ramps = byte >= 16 && byte < 24;
    bool a = byte >= 24 && byte < 28, b = byte >= 28 && byte < 32;
    bool offer = (byte >= 32 && byte < 72) || (s == 0 && byte >= 72) || (s == 0 && ramps)
        || (s >= 1 && s <= 3 && proportion);
    switch (which) {
    case BILZHAAN_CALL_CLOCK: return byte < 6 || a;
    case BILZHAAN_CALL_CAPABILITY: return byte < 6 || facility || (byte >= 32 && byte < 100);
    case BILZHAAN_CALL_STANDING:
    case BILZHAAN_CALL_VARIATION: return byte < 6 || facility || service || period || reason || offer;
    case BILZHAAN_CALL_OUTAGE: return byte < 6 || facility || a || b;
    case BILZHAAN_CALL_NOTICE: return byte < 6 || reason || a || b;
    case BILZHAAN_CALL_WITHDRAWAL: return byte < 6 || reason;
    case BILZHAAN_CALL_LOOK_UP: return byte < 6 || facility || service || period;
    case BILZHAAN_CALL_TOTAL: return byte < 6 || service || period;
    }
    return false;
}

static uint32_t test_of(const struct record *r, int32_t facilities, int32_t services)
{
    return bilzhaan_record_test(r->bytes, sizeof r->bytes, facilities, services);
}

static void good_and_damaged_bytes(void)
{
    for (int i = 0; i < SAMPLES; i++) {
        struct record r = sample(i);
        EQUAL(test_of(&r, 2, 5), 0);
        EQUAL(test_of(&r, 64, 5), 0);
        for (int byte = 0; byte < 6; byte++) {
            struct record damaged = r;
            damaged.bytes[byte] ^= 0x80;
            EQUAL(test_of(&damaged, 2, 5), BILZHAAN_NOT_A_RECORD);
        }
        for (int byte = 6; byte < BILZHAAN_RECORD_BYTES; byte++) {
            struct record damaged = r;
            if (!uses(&r, byte)) {
                for (int bit = 0; bit < 8; bit++) {
                    damaged.bytes[byte] = (uint8_t)(1 << bit);
                    EQUAL(test_of(&damaged, 2, 5), BILZHAAN_UNUSED_BYTE);
                }
            } else if (byte >= 8) {
                damaged.bytes[byte] ^= 0xFF;
                EQUAL(test_of(&damaged, 2, 5), 0);
            }
        }
    }
    static const uint8_t no_call[] = {0, 10, 11, 127, 128, 255};
    for (size_t i = 0; i < sizeof no_call; i++) {
        struct record r = record_of(no_call[i]);
        EQUAL(test_of(&r, 64, 5), BILZHAAN_NOT_A_RECORD);
    }
}

/* The bytes end, or start, at memory that may not be touched. */
static void every_length(void)
{
    uint8_t *end = lent_to_the_end(224) + 224;
    uint8_t *start = lent_from_the_start(224);
    struct book b = usual_book(0);
    for (size_t length = 0; length <= 224; length++) {
        struct record good = look_up_of(0, 0, 5);
        size_t kept = length < sizeof good.bytes ? length : sizeof good.bytes;
        memset(end - length, 0, length);
        memcpy(end - length, good.bytes, kept);
        memcpy(start, end - length, length);
        uint32_t expected = length == BILZHAAN_RECORD_BYTES ? 0 : BILZHAAN_NOT_A_RECORD;
        EQUAL(bilzhaan_record_test(end - length, length, 1, 1), expected);
        EQUAL(bilzhaan_record_test(start, length, 1, 1), expected);
        uint32_t number = length == BILZHAAN_RECORD_BYTES ? BILZHAAN_NOTHING_IN_FORCE : BILZHAAN_NOT_A_RECORD;
        EQUAL(call_bytes(&b, end - length, length).number, number);
        EQUAL(call_bytes(&b, start, length).number, number);
    }
    for (int i = 0; i < SAMPLES; i++) {
        struct record r = sample(i);
        for (int32_t f = 1; f <= 2; f++) {
            memcpy(end - sizeof r.bytes, r.bytes, sizeof r.bytes);
            memcpy(start, r.bytes, sizeof r.bytes);
            EQUAL(bilzhaan_record_test(end - sizeof r.bytes, sizeof r.bytes, f, 5), test_of(&r, f, 5));
            EQUAL(bilzhaan_record_test(start, sizeof r.bytes, f, 5), test_of(&r, f, 5));
        }
    }
}

static void facility_and_service(void)
{
    for (int i = 0; i < SAMPLES; i++) {
        struct record r = sample(i);
        bool facility = uses(&r, 6), service = uses(&r, 7);
        for (int f = 0; f < 256; f++) {
            struct record other = r;
            other.bytes[BILZHAAN_AT_FACILITY] = (uint8_t)f;
            int expected = !facility ? (f == 0 ? 0 : BILZHAAN_UNUSED_BYTE) : f < 3 ? 0 : BILZHAAN_NOT_IN_BOOK;
            EQUAL(test_of(&other, 3, 5), expected);
            if (facility)
                EQUAL(test_of(&other, 64, 5), f < 64 ? 0 : BILZHAAN_NOT_IN_BOOK);
        }
        if (!service)
            continue;
        EQUAL(test_of(&r, 2, 1), r.bytes[BILZHAAN_AT_SERVICE] == 0 ? 0 : BILZHAAN_NOT_IN_BOOK);
        for (int s = 5; s < 256; s++) {
            struct record other = r;
            other.bytes[BILZHAAN_AT_SERVICE] = (uint8_t)s;
            other.bytes[13] = 1; /* 3 comes before 4 */
            EQUAL(test_of(&other, 2, 5), BILZHAAN_NOT_IN_BOOK);
        }
    }
}

static void sizes(void)
{
    static const int32_t no_facilities[] = {0, 65, 66, 256, 257, -1, -63, -64, INT32_MIN, INT32_MAX};
    static const int32_t no_services[] = {0, 2, 3, 4, 6, 257, -1, -5, INT32_MIN, INT32_MAX};
    struct record good = clock_at(0), damaged = good;
    damaged.bytes[0] = 'T';
    for (size_t i = 0; i < sizeof no_facilities / sizeof no_facilities[0]; i++) {
        EQUAL(test_of(&good, no_facilities[i], 1), BILZHAAN_OPENING_REFUSED);
        EQUAL(test_of(&good, no_facilities[i], 5), BILZHAAN_OPENING_REFUSED);
        EQUAL(test_of(&damaged, no_facilities[i], 5), BILZHAAN_OPENING_REFUSED);
        EQUAL(bilzhaan_record_test(good.bytes, 0, no_facilities[i], 5), BILZHAAN_OPENING_REFUSED);
    }
    for (size_t i = 0; i < sizeof no_services / sizeof no_services[0]; i++) {
        EQUAL(test_of(&good, 1, no_services[i]), BILZHAAN_OPENING_REFUSED);
        EQUAL(test_of(&damaged, 64, no_services[i]), BILZHAAN_OPENING_REFUSED);
        EQUAL(bilzhaan_record_test(good.bytes, 0, 64, no_services[i]), BILZHAAN_OPENING_REFUSED);
    }
    for (int32_t f = 1; f <= 64; f++) {
        EQUAL(test_of(&good, f, 1), 0);
        EQUAL(test_of(&good, f, 5), 0);
    }
}

void test_records(void)
{
    good_and_damaged_bytes();
    every_length();
    facility_and_service();
    sizes();
}
