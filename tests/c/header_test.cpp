// The headers from C++, linked: a constant expression for a book's words, records written, an answer read, a slot's next period, dates.
#include "bilzhaan_record.h"

#include <cstring>

static int32_t words[BILZHAAN_BOOK_WORDS(1, 1)];
static const size_t count = sizeof words / sizeof words[0];

int main()
{
    const int32_t limits[BILZHAAN_LIMITS] = {-1, 100, 1, 1, 1, 1};
    uint8_t record[BILZHAAN_RECORD_BYTES];
    bilzhaan_write_clock(record, 7);
    if (bilzhaan_record_test(record, sizeof record, 1, BILZHAAN_SERVICES_ONE) != BILZHAAN_ACCEPTED)
        return 1;
    if (bilzhaan_open(words, count, 1, 1, limits) != BILZHAAN_ACCEPTED)
        return 2;
    if (bilzhaan_call(words, count, record, sizeof record).number != BILZHAAN_ACCEPTED || words[4] != 7)
        return 3;
    bilzhaan_capability capability = {};
    capability.kind = BILZHAAN_GENERATION;
    capability.max_generation = capability.max_combined = 500;
    capability.registered[BILZHAAN_ENERGY] = 1;
    bilzhaan_write_capability(record, &capability);
    if (bilzhaan_call(words, count, record, sizeof record).number != BILZHAAN_ACCEPTED)
        return 4;
    bilzhaan_offer offer = {};
    offer.period = 100;
    offer.pairs[1] = bilzhaan_pair{99, 500};
    bilzhaan_write_variation(record, &offer);
    if (bilzhaan_call(words, count, record, sizeof record).number != BILZHAAN_BLANK_REFUSED)
        return 5;
    offer.pairs[0] = bilzhaan_pair{98, 0};
    bilzhaan_write_variation(record, &offer);
    if (bilzhaan_call(words, count, record, sizeof record).number != BILZHAAN_PRICED_BLANK)
        return 6;
    for (int32_t i = 0; i < BILZHAAN_PAIRS_ENERGY; i++)
        offer.pairs[i] = bilzhaan_pair{90 + i, 50};
    bilzhaan_write_variation(record, &offer);
    if (bilzhaan_call(words, count, record, sizeof record).number != BILZHAAN_ACCEPTED)
        return 7;
    bilzhaan_write_look_up(record, 0, BILZHAAN_ENERGY, 100);
    const bilzhaan_answer answer = bilzhaan_call(words, count, record, sizeof record);
    if (!bilzhaan_is_variation(&answer) || !bilzhaan_is_fresh(&answer) || answer.sum != 500)
        return 8;
    if (bilzhaan_answered_offer(&answer).pairs[9].price != 99)
        return 9;
    if (bilzhaan_version() != BILZHAAN_VERSION || bilzhaan_book_version() != BILZHAAN_BOOK_VERSION)
        return 10;
    if (bilzhaan_next_period(119, 4) != 4 || bilzhaan_next_period(120, 4) != 340)
        return 11;
    const bilzhaan_period leap_day = bilzhaan_period_of(2024, 2, 29, 48);
    const bilzhaan_date again = bilzhaan_date_of(leap_day.period);
    if (leap_day.period != 2879 || leap_day.weekday != 3 || again.month != 2 || again.day != 29 || again.period != 48)
        return 12;
    return std::strcmp(bilzhaan_number_text(answer.number), "Accepted.") == 0 ? 0 : 13;
}
