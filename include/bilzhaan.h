/* Bilzhaan for C99 and C++11: a half-hour offer book kept in words that the caller lends (documents 01, 02), and its
 * periods as dates.
 * The functions, their numbers and what they ask of the caller. Link with libbilzhaan.a, which is for x86-64 Linux.
 * bilzhaan_record.h has inline functions that write records, read answers and give each number's text. */
#ifndef BILZHAAN_H
#define BILZHAAN_H

#include <stddef.h>
#include <stdint.h>

#if !defined(__x86_64__) || defined(_WIN32)
#error "libbilzhaan.a is for x86-64 Linux"
#endif

/* What every function keeps
 * - It allocates nothing, has no globals and may run in any number of threads at once, each on a book of its own.
 * - It always returns. It reads the words and bytes that it is lent and no others, and writes only the words.
 * - Its work is bounded: by the pairs of an offer for filings and look-ups, by the facilities for a total, by the
 *   112 bytes for the record test, by BILZHAAN_BOOK_WORDS for the opening; a slot's next period is a division and a
 *   remainder, a date or its period some divisions by constants. Never by megawatts, minutes, periods or years.
 * - Whatever the words and bytes hold, the answer is the one that the documents give. A refused call returns zeros
 *   beside its number and leaves every word as it was; a refused opening leaves every word as it was.
 * - Look-ups (8), totals (9) and whatever is refused store nothing: for them the words may lie in read-only memory.
 *
 * What it asks of the caller
 * - A pointer is valid for the count beside it. With a count of 0 it may be null. `limits` always points to six words.
 * - `words` and `limits` are aligned as int32_t is. `bytes` needs no alignment.
 * - The lent words overlap neither the bytes nor the limits, and no one else touches them until the call returns; but
 *   look-ups and totals of one book may run side by side while nobody writes it.
 * - Between calls the book's words are kept as the last call left them. They may be copied or moved.
 * - The book has no clock of its own: file call 1 every minute, before offers and look-ups.
 *
 * The book's words are the host's native 32-bit words, so a stored book is for hosts of the same byte order.
 * A record's words are most significant byte first on every host. */

/* ---- versions and sizes ---- */

/* This header's version, 1.7.0: 10,000 times the first number, 100 times the second, and the third. */
#define BILZHAAN_VERSION 10700

/* A book of another version than BILZHAAN_BOOK_VERSION, head word 1, is refused with 1. Nothing converts a stored book of
 * version 1, whose cells hold no minute: its host opens a new book and files again, from its own records, what was accepted,
 * in its order and with the clock records between, so that each offer has its minute. docs/REFUSALS.md says what to
 * file where only the old book is left. */
enum {
    BILZHAAN_BOOK_VERSION = 2,     /* of the books that this version opens and reads */
    BILZHAAN_RECORD_BYTES = 112,
    BILZHAAN_ANSWER_WORDS = 24,
    BILZHAAN_LIMITS = 6,
    BILZHAAN_FACILITIES_MOST = 64, /* F is 1 to 64 */
    BILZHAAN_SERVICES_ONE = 1,     /* S is 1 (energy alone) or 5 */
    BILZHAAN_SERVICES_ALL = 5,
    BILZHAAN_PAIRS_ENERGY = 10,    /* price-quantity pairs of an energy offer, and of any other */
    BILZHAAN_PAIRS_OTHER = 5,
    BILZHAAN_WEEK_SLOTS = 336,     /* the slot of period P is P mod 336 */
    BILZHAAN_PERIOD_MINUTES = 30,  /* period P starts at minute 30 * P */
    BILZHAAN_DAY_PERIODS = 48,
    BILZHAAN_GATE_MINUTES = 65,    /* an offer with 65 minutes or more to go needs no reason */
    BILZHAAN_SCHEDULE_CUTOFF_MINUTES = 5, /* an offer accepted less than 5 minutes ago is fresh */
    BILZHAAN_CLOCK_LAST = 1000000000,
    BILZHAAN_NOTICE_PERIOD_LAST = 40000000,
    BILZHAAN_YEAR_FIRST = 2024,    /* dates are of 2024 to 2099; day 0 is 1 January 2024 */
    BILZHAAN_YEAR_LAST = 2099,
    BILZHAAN_DATED_PERIOD_LAST = 1332431, /* the last of 31 December 2099 */
    BILZHAAN_LIMIT_LARGEST = 10000000 /* a price limit is within -10,000,000 to 10,000,000 */
};

/* N, the words that a book for f facilities and s services needs: 64 + 32 f + 16,128 f s. A constant expression where
 * f and s are. For f of 1 to 64 and s of 1 or 5 it is 16,224 to 5,163,072. */
#define BILZHAAN_BOOK_WORDS(f, s) ((size_t)64 + (size_t)(f) * ((size_t)32 + (size_t)16128 * (size_t)(s)))

/* ---- the record: where each field starts; words are signed 32-bit, most significant byte first ---- */

enum {
    BILZHAAN_AT_MARK = 0,        /* 'S', 'O', 'B' */
    BILZHAAN_AT_VERSION = 3,     /* two bytes, 0 and 1 */
    BILZHAAN_AT_CALL = 5,
    BILZHAAN_AT_FACILITY = 6,    /* 0 to F - 1 */
    BILZHAAN_AT_SERVICE = 7,     /* 0 to S - 1 */
    BILZHAAN_AT_PERIOD = 8,      /* a word: a slot in call 3, else a period */
    BILZHAAN_AT_REASON = 12,
    BILZHAAN_AT_PROPORTION = 14, /* two bytes, most significant first, thousandths */
    BILZHAAN_AT_RAMP_UP = 16,    /* a word, tenths of a MW per minute */
    BILZHAAN_AT_RAMP_DOWN = 20,
    BILZHAAN_AT_A = 24,
    BILZHAAN_AT_B = 28,
    BILZHAAN_AT_W0 = 32          /* W0 to W19; in offers pair i is W(2i), cents per MWh, and W(2i + 1), tenths of a MW */
};

/* Byte 5, with what each call uses. Bytes that a call doesn't use are zero.
 * A pair with quantity 0 is blank, and an offer's blank pairs come last: one before a pair that isn't blank draws 12. A library
 * older than 1.7.0 (bilzhaan_version) takes blanks anywhere, and a book keeps what was accepted so: it is looked up, totalled
 * and compared in the gate with every pair, and draws 12 where it is filed again.
 * A variation whose pairs are all blank takes the period's variation back, if there is one: the standing offer stands
 * again, or nothing does and a look-up draws 19. It doesn't mean 0.0 MW, which can't be filed for one period; the least
 * is 0.1 MW. A standing offer whose pairs are all blank does mean 0.0 MW, every week until the next. */
enum {
    BILZHAAN_CALL_CLOCK = 1,      /* A the minute */
    BILZHAAN_CALL_CAPABILITY = 2, /* facility; W0 to W16 */
    BILZHAAN_CALL_STANDING = 3,   /* facility, service, slot, reason, offer */
    BILZHAAN_CALL_VARIATION = 4,  /* facility, service, period, reason, offer */
    BILZHAAN_CALL_OUTAGE = 5,     /* facility; A the minute, B the count of periods after it */
    BILZHAAN_CALL_NOTICE = 6,     /* reason 3, 4 or 5; A, B first and last period */
    BILZHAAN_CALL_WITHDRAWAL = 7, /* reason 5 */
    BILZHAAN_CALL_LOOK_UP = 8,    /* facility, service, period */
    BILZHAAN_CALL_TOTAL = 9       /* service, period */
};

enum {
    BILZHAAN_ENERGY = 0, /* its offers use both ramps and ten pairs */
    BILZHAAN_PRIMARY_RESERVE = 1, /* 1 to 3 use the proportion and five pairs */
    BILZHAAN_SECONDARY_RESERVE = 2,
    BILZHAAN_CONTINGENCY_RESERVE = 3,
    BILZHAAN_REGULATION = 4 /* five pairs */
};

/* A facility's kind, which never changes once it is held. */
enum {
    BILZHAAN_GENERATION = 1,
    BILZHAAN_LOAD = 2, /* registered for reserve alone */
    BILZHAAN_LINK = 3  /* a cross-border link, the market's import registered facility: energy alone, and no outages */
};

/* Byte 12 of a standing offer and of a variation: why it is filed after gate closure, else 0. Above 6 it draws 11, which the
 * record test doesn't test. A standing offer needs one only where another is held for the slot, and it is judged for the slot's
 * next period alone (bilzhaan_next_period), though the offer then stands every week. The reason isn't kept. A library older
 * than 1.5.0 (bilzhaan_version) refuses a standing offer's with 4. 3, 4 and 5 are also the kinds of advisory notice. */
enum {
    BILZHAAN_REASON_NONE = 0,
    BILZHAAN_REASON_SYNCHRONISATION = 1, /* 1 and 2: generation alone */
    BILZHAAN_REASON_FORCED_OUTAGE = 2,
    BILZHAAN_REASON_ENERGY_SURPLUS = 3,
    BILZHAAN_REASON_SHORTFALL = 4,
    BILZHAAN_REASON_SYSTEM_STATUS = 5,
    BILZHAAN_REASON_LOAD_OUTAGE = 6 /* load alone */
};

enum {
    BILZHAAN_NOTICE_ENERGY_SURPLUS = 3,
    BILZHAAN_NOTICE_SHORTFALL = 4,
    BILZHAAN_NOTICE_SYSTEM_STATUS = 5
};

/* Words of a capability record: W0 + these. */
enum {
    BILZHAAN_W_KIND = 0,
    BILZHAAN_W_MAX_GENERATION = 1, /* of a link: its import capacity */
    BILZHAAN_W_MAX_COMBINED = 2,   /* energy is held to both, a link's as well */
    BILZHAAN_W_MAX_RESERVE = 3,    /* W3 to W5 by reserve class */
    BILZHAAN_W_MAX_REGULATION = 6,
    BILZHAAN_W_MAX_RAMP_UP = 7,
    BILZHAAN_W_MAX_RAMP_DOWN = 8,
    BILZHAAN_W_MAX_PROPORTION = 9, /* W9 to W11 by reserve class */
    BILZHAAN_W_REGISTERED = 12,    /* W12 to W16: 1 if registered for service 0 to 4 */
    BILZHAAN_CAPABILITY_WORDS = 17
};

/* ---- the numbers, uint32_t everywhere: 0 is accepted; of those that apply, the lowest is returned ---- */

/* Of 10: period P has begun where 30 * P <= clock, and lies past the horizon where P >= 48 * (day of the clock + 7). */

enum {
    BILZHAAN_ACCEPTED = 0,
    /* the host program */
    BILZHAAN_BOOK_UNUSABLE = 1,        /* too few words, or mark, version, F, S or clock wrong */
    BILZHAAN_NOT_A_RECORD = 2,         /* not 112 bytes, or mark, version or call wrong */
    /* any sender */
    BILZHAAN_NOT_IN_BOOK = 3,          /* facility F or above, or service S or above, where used */
    BILZHAAN_UNUSED_BYTE = 4,          /* an unused byte not zero */
    BILZHAAN_NO_KIND = 5,              /* the facility has no kind: no capability yet, or damaged words */
    /* clock and system operator */
    BILZHAAN_CLOCK_REFUSED = 6,        /* minute below the clock or above 1,000,000,000 */
    BILZHAAN_NOTICE_REFUSED = 7,       /* outage, notice or withdrawal out of range; any outage of a link */
    BILZHAAN_CAPABILITY_REFUSED = 8,   /* kind, maxima or marks out of range, or another kind than the held one */
    /* the coordinator who files an offer */
    BILZHAAN_NOT_REGISTERED = 9,       /* the facility isn't registered for the service */
    BILZHAAN_PERIOD_REFUSED = 10,      /* no such slot; period begun or past the horizon (look-up and total too) */
    BILZHAAN_OUT_OF_RANGE = 11,        /* reason, quantity or price */
    BILZHAAN_BLANK_REFUSED = 12,       /* quantity 0 with a price, or before a pair that isn't blank */
    BILZHAAN_PRICES_DONT_RISE = 13,
    BILZHAAN_RAMP_REFUSED = 14,
    BILZHAAN_PROPORTION_REFUSED = 15,
    BILZHAAN_ABOVE_CAPACITY = 16,
    BILZHAAN_GATE_CLOSED = 17,
    BILZHAAN_DUPLICATE = 18,           /* the standing offer is the one that is held */
    /* the reader */
    BILZHAAN_NOTHING_IN_FORCE = 19,
    /* the host program, from the opening and the record test */
    BILZHAAN_OPENING_REFUSED = 20,     /* F, S, words too few, or limits */
    /* the coordinator, from a date or its period alone */
    BILZHAAN_DATE_REFUSED = 21         /* no date of 2024 to 2099, no period of 1 to 48, or P outside theirs */
};

/* The name of 12 in headers older than 1.7.0, where a price alone drew it. */
#define BILZHAAN_PRICED_BLANK BILZHAAN_BLANK_REFUSED

/* An answer. Beside a refusal, and for accepted calls 1 to 7, words and sum are zero. A look-up's sum is its ten
 * quantities added, tenths of a MW; a total's is over the facilities, and its words 1 to 23 are zero.
 * Bytes 100 to 103 are padding and hold anything: compare answers by their fields. */
struct bilzhaan_answer {
    uint32_t number;
    int32_t words[BILZHAAN_ANSWER_WORDS];
    int64_t sum;
};

/* The words of an answer. */
enum {
    BILZHAAN_ANSWER_COUNT = 0,      /* of a total: the facilities with an offer in force */
    BILZHAAN_ANSWER_IN_FORCE = 0,   /* of a look-up, this and the rest: which offer, and whether it is fresh, as below */
    BILZHAAN_ANSWER_PROPORTION = 1,
    BILZHAAN_ANSWER_RAMP_UP = 2,
    BILZHAAN_ANSWER_RAMP_DOWN = 3,
    BILZHAAN_ANSWER_PAIRS = 4       /* ten pairs: pair i is word 4 + 2i, the price, and 5 + 2i, the quantity */
};

/* Two questions in one word: a variation is in force at 2 and at 4, the standing offer at 1 and at 3. A comparison with one
 * value alone takes a fresh variation for a standing offer; bilzhaan_is_variation and bilzhaan_is_fresh
 * (bilzhaan_record.h) ask each.
 * A fresh offer was accepted less than BILZHAAN_SCHEDULE_CUTOFF_MINUTES before the book's clock, and so isn't guaranteed to
 * be used in a market schedule produced at that minute. A filing that is refused makes nothing fresh, a duplicate (18)
 * neither; a variation filed again unchanged is fresh again; after a take-back the standing offer goes by its own minute.
 * Both minutes, of the acceptance and of the look-up, are the book's clock. An offer filed while the clock is three minutes
 * behind stops being fresh three minutes too soon. */
enum {
    BILZHAAN_STANDING_IN_FORCE = 1,
    BILZHAAN_VARIATION_IN_FORCE = 2,
    BILZHAAN_FRESH_STANDING_IN_FORCE = 3,
    BILZHAAN_FRESH_VARIATION_IN_FORCE = 4
};

/* A date's period, and a period's date, as below. Beside 21 every other field is 0, which elsewhere is a period or a Monday:
 * test the number first. */
struct bilzhaan_period {
    uint32_t number;
    int32_t period;  /* P */
    int32_t weekday; /* 0 Monday to 6 Sunday */
};

struct bilzhaan_date {
    uint32_t number;
    int32_t year, month, day; /* months and days from 1 */
    int32_t period;           /* 1 to 48 */
    int32_t weekday;
};

/* Another layout than the library's doesn't compile. */
typedef char bilzhaan_layout_of_x86_64[sizeof(size_t) == 8 && sizeof(struct bilzhaan_answer) == 112
                                       && offsetof(struct bilzhaan_answer, sum) == 104
                                       && sizeof(struct bilzhaan_period) == 12 && sizeof(struct bilzhaan_date) == 24 ? 1 : -1];

#ifdef __cplusplus
extern "C" {
#endif

/* The linked library's version, written as BILZHAAN_VERSION is, and that of the books that it opens and reads. */
uint32_t bilzhaan_version(void);
int32_t bilzhaan_book_version(void);

/* What a call would refuse by the record alone, for a book of these sizes: 0, 2, 3 or 4; ahead of these 20 where
 * `facilities` isn't 1 to 64 or `services` isn't 1 or 5. For a record that waits in a queue before it is filed. */
uint32_t bilzhaan_record_test(const uint8_t *bytes, size_t count, int32_t facilities, int32_t services);

/* Opens a book in the first BILZHAAN_BOOK_WORDS(facilities, services) of `count` words, whatever they held: 0, or 20.
 * Limits in order: lowest and highest energy price, highest price of services 1, 2, 3, 4, in cents per MWh;
 * the last four are given for energy alone too. Words past the book's are never written. */
uint32_t bilzhaan_open(int32_t *words, size_t count, int32_t facilities, int32_t services,
                       const int32_t limits[BILZHAAN_LIMITS]);

/* The least period of `slot` that has not begun at `minute`. The gate (17) asks about it for a standing offer over a held one:
 * how many minutes are left, and which notices and outage hold. At minute 30 * P period P has begun, so its slot's next is
 * P + 336. No book is asked and nothing refused: any minute will do, past BILZHAAN_CLOCK_LAST too, and a slot of 336 or more
 * is taken mod 336; a negative number, converted, is another minute or slot. The period, which fits an int32_t, may lie past
 * the horizon (10).
 * It is worked out by remainders alone, without a branch. */
uint32_t bilzhaan_next_period(uint32_t minute, uint32_t slot);

/* The period P of a date and of its period 1 to 48, and its weekday; and the date, period 1 to 48 and weekday of P, by the
 * Gregorian calendar. Any words may be given: 0, or 21 where the date doesn't exist, the year is outside 2024 to 2099, the
 * period outside 1 to 48, or P below 0 or above BILZHAAN_DATED_PERIOD_LAST. Each function is the other's way back. P is 48
 * times the day number plus the period less 1; day 0 is 1 January 2024, a Monday, and the weekday is the day number mod 7.
 * The slot of a standing offer is P mod 336.
 * No book is asked, so no clock and no horizon: a call may still refuse the P of a date with 10. Dates are those of the
 * plant's own clock, whatever its time zone: its clock records count their minutes from 00:00 of 1 January 2024, and where
 * they count from another Monday every date is wrong by whole weeks. The book's own periods go on past 2099, without dates. */
struct bilzhaan_period bilzhaan_period_of(int32_t year, int32_t month, int32_t day, int32_t period);
struct bilzhaan_date bilzhaan_date_of(int32_t period);

/* One of the nine calls on an opened book, `length` bytes of a record: the number, the 24 words and the sum. */
struct bilzhaan_answer bilzhaan_call(int32_t *words, size_t count, const uint8_t *bytes, size_t length);

#ifdef __cplusplus
}
#endif

#endif
