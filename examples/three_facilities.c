/* A book for three facilities and five services: two generating sets and a load. It turns a date into the book's period,
 * files offers, has some refused, prints what each number means, reads what is in force, five minutes later too, says from
 * when on a standing offer that comes too late may be filed, files another with its reason, and takes a variation back.
 *
 *     cc three_facilities.c $(pkg-config --cflags --libs bilzhaan) -o three_facilities */
#include <bilzhaan_record.h>

#include <inttypes.h>
#include <stdio.h>

enum { STEAM_SET, GAS_TURBINE, FACTORY, FACILITIES };

/* The book lives here and nowhere else. */
static int32_t words[BILZHAAN_BOOK_WORDS(FACILITIES, BILZHAAN_SERVICES_ALL)];
static const size_t count = sizeof words / sizeof words[0];

static uint8_t record[BILZHAAN_RECORD_BYTES];

/* A record may wait in a queue: the record test says beforehand whether it is one for this book. */
static uint32_t file(const char *what)
{
    uint32_t number = bilzhaan_record_test(record, sizeof record, FACILITIES, BILZHAAN_SERVICES_ALL);
    if (number == BILZHAAN_ACCEPTED)
        number = bilzhaan_call(words, count, record, sizeof record).number;
    printf("%s\n  %" PRIu32 ": %s\n", what, number, bilzhaan_number_text(number));
    return number;
}

/* A coordinator reads dates and periods 1 to 48, where the book has one number. Past 2099 there is that number alone. */
static void print_name(const char *name, int32_t period)
{
    const struct bilzhaan_date date = bilzhaan_date_of(period);
    if (date.number != BILZHAAN_ACCEPTED) {
        printf("%s, period %" PRId32 " of the book: ", name, period);
        return;
    }
    printf("%s, %" PRId32 "-%02" PRId32 "-%02" PRId32 ", period %" PRId32 ": ", name, date.year, date.month, date.day,
           date.period);
}

static void print_in_force(const char *name, int32_t facility, int32_t service, int32_t period)
{
    bilzhaan_write_look_up(record, facility, service, period);
    const struct bilzhaan_answer answer = bilzhaan_call(words, count, record, sizeof record);
    print_name(name, period);
    if (answer.number != BILZHAAN_ACCEPTED) {
        printf("%s\n", bilzhaan_number_text(answer.number));
        return;
    }
    printf("%s, %.1f MW%s\n", bilzhaan_is_variation(&answer) ? "a variation" : "the standing offer",
           (double)answer.sum / 10, bilzhaan_is_fresh(&answer) ? ", too fresh to be sure of the schedule" : "");
    const struct bilzhaan_offer offer = bilzhaan_answered_offer(&answer);
    for (int i = 0; i < BILZHAAN_PAIRS_ENERGY; i++)
        if (offer.pairs[i].quantity != 0)
            printf("  %.1f MW at %.2f a MWh\n", offer.pairs[i].quantity / 10.0, offer.pairs[i].price / 100.0);
}

static void print_total(const char *name, int32_t service, int32_t period)
{
    bilzhaan_write_total(record, service, period);
    const struct bilzhaan_answer answer = bilzhaan_call(words, count, record, sizeof record);
    print_name(name, period);
    if (answer.number != BILZHAAN_ACCEPTED) {
        printf("%s\n", bilzhaan_number_text(answer.number));
        return;
    }
    printf("%.1f MW, facilities with an offer: %" PRId32 "\n", (double)answer.sum / 10,
           answer.words[BILZHAAN_ANSWER_COUNT]);
}

int main(void)
{
    /* lowest and highest energy price, highest price of the three reserve classes and of regulation, in cents */
    static const int32_t limits[BILZHAAN_LIMITS] = {-450000, 450000, 450000, 450000, 450000, 450000};

    if (bilzhaan_version() != BILZHAAN_VERSION || bilzhaan_book_version() != BILZHAAN_BOOK_VERSION) {
        fprintf(stderr, "the header and the library are of different versions\n");
        return 1;
    }
    uint32_t number = bilzhaan_open(words, count, FACILITIES, BILZHAAN_SERVICES_ALL, limits);
    printf("A book of %zu words\n  %" PRIu32 ": %s\n", count, number, bilzhaan_number_text(number));
    if (number != BILZHAAN_ACCEPTED)
        return 1;

    bilzhaan_write_capability(record, &(struct bilzhaan_capability){
        .facility = STEAM_SET, .kind = BILZHAAN_GENERATION, .max_generation = 3000, .max_combined = 2800,
        .max_regulation = 200, .max_ramp_up = 50, .max_ramp_down = 50, .registered = {[BILZHAAN_ENERGY] = 1,
                                                                                     [BILZHAAN_REGULATION] = 1}});
    file("The steam set's capability");
    bilzhaan_write_capability(record, &(struct bilzhaan_capability){
        .facility = GAS_TURBINE, .kind = BILZHAAN_GENERATION, .max_generation = 1200, .max_combined = 1200,
        .max_ramp_up = 120, .max_ramp_down = 120, .registered = {[BILZHAAN_ENERGY] = 1}});
    file("The gas turbine's capability");
    bilzhaan_write_capability(record, &(struct bilzhaan_capability){
        .facility = FACTORY, .kind = BILZHAAN_LOAD, .max_reserve = {150, 150, 150},
        .registered = {[BILZHAAN_PRIMARY_RESERVE] = 1}});
    file("The factory's capability, a load");
    bilzhaan_write_clock(record, 600);
    file("The clock, Monday 10:00");

    /* 12:00 of a Monday is its period 25: a period of the book, and the slot of every Monday's */
    const struct bilzhaan_period monday = bilzhaan_period_of(2024, 1, 1, 25);
    const int32_t noon = monday.period, noon_slot = noon % BILZHAAN_WEEK_SLOTS;
    printf("Period 25 of 1 January 2024\n  %" PRIu32 ": %s\n", monday.number, bilzhaan_number_text(monday.number));
    if (monday.number != BILZHAAN_ACCEPTED)
        return 1;
    printf("  The book's period %" PRId32 ", weekday %" PRId32 " of 0 (Monday) to 6, slot %" PRId32 "\n", noon, monday.weekday,
           noon_slot);
    bilzhaan_write_standing(record, &(struct bilzhaan_offer){
        .facility = STEAM_SET, .service = BILZHAAN_ENERGY, .period = noon_slot, .ramp_up = 40, .ramp_down = 40,
        .pairs = {{.price = 4000, .quantity = 1500}, {.price = 6550, .quantity = 1000}}});
    file("The steam set's standing offer for Mondays at 12:00");
    bilzhaan_write_standing(record, &(struct bilzhaan_offer){
        .facility = GAS_TURBINE, .service = BILZHAAN_ENERGY, .period = noon_slot, .ramp_up = 100, .ramp_down = 100,
        .pairs = {{.price = 12000, .quantity = 400}, {.price = 9000, .quantity = 400}}});
    if (file("The gas turbine's, dearer pair first") == BILZHAAN_PRICES_DONT_RISE) {
        bilzhaan_write_standing(record, &(struct bilzhaan_offer){
            .facility = GAS_TURBINE, .service = BILZHAAN_ENERGY, .period = noon_slot, .ramp_up = 100, .ramp_down = 100,
            .pairs = {{.price = 9000, .quantity = 400}, {.price = 12000, .quantity = 400}}});
        file("The gas turbine's, in order");
    }
    bilzhaan_write_standing(record, &(struct bilzhaan_offer){
        .facility = FACTORY, .service = BILZHAAN_PRIMARY_RESERVE, .period = noon_slot, .proportion = 800,
        .pairs = {{.price = 500, .quantity = 120}}});
    file("The factory's primary reserve");
    bilzhaan_write_standing(record, &(struct bilzhaan_offer){
        .facility = FACTORY, .service = BILZHAAN_REGULATION, .period = noon_slot, .pairs = {{.price = 500, .quantity = 10}}});
    file("The factory's regulation");

    /* inside 65 minutes a variation needs a reason */
    bilzhaan_write_clock(record, 690);
    file("The clock, Monday 11:30");
    struct bilzhaan_offer tripped = {.facility = STEAM_SET, .service = BILZHAAN_ENERGY, .period = noon, .ramp_up = 40,
                                     .ramp_down = 40, .pairs = {{.price = 4000, .quantity = 900}}};
    bilzhaan_write_variation(record, &tripped);
    file("A variation of the steam set for 12:00, without a reason");
    bilzhaan_write_outage(record, STEAM_SET, 685, 3);
    file("The steam set's forced outage at 11:25");
    tripped.reason = BILZHAAN_REASON_FORCED_OUTAGE;
    bilzhaan_write_variation(record, &tripped);
    file("The same variation, for the outage");

    print_in_force("Steam set, energy", STEAM_SET, BILZHAAN_ENERGY, noon);
    print_in_force("Gas turbine, energy", GAS_TURBINE, BILZHAAN_ENERGY, noon);
    print_in_force("Steam set, energy", STEAM_SET, BILZHAAN_ENERGY, noon + 1);
    print_total("Energy", BILZHAAN_ENERGY, noon);
    print_total("Primary reserve", BILZHAAN_PRIMARY_RESERVE, noon);
    bilzhaan_write_clock(record, 690 + BILZHAAN_SCHEDULE_CUTOFF_MINUTES);
    file("The clock, Monday 11:35");
    print_in_force("Steam set, energy", STEAM_SET, BILZHAAN_ENERGY, noon);

    /* without a reason a standing offer over a held one waits until the slot's next period has begun */
    bilzhaan_write_standing(record, &(struct bilzhaan_offer){
        .facility = GAS_TURBINE, .service = BILZHAAN_ENERGY, .period = noon_slot, .ramp_up = 100, .ramp_down = 100,
        .pairs = {{.price = 9500, .quantity = 800}}});
    if (file("Another standing offer of the gas turbine for Mondays at 12:00") == BILZHAAN_GATE_CLOSED)
        printf("  It may be filed from minute %" PRIu32 " on, for the slot's period a week later\n",
               BILZHAAN_PERIOD_MINUTES * bilzhaan_next_period(690 + BILZHAAN_SCHEDULE_CUTOFF_MINUTES, (uint32_t)noon_slot));

    /* with the reason it is accepted now, and stands every Monday; the variation stays in force for this one */
    tripped.period = noon_slot;
    tripped.pairs[0].quantity = 1500;
    bilzhaan_write_standing(record, &tripped);
    file("The steam set's standing offer for Mondays at 12:00 cut down, for the outage");
    print_in_force("Steam set, energy", STEAM_SET, BILZHAAN_ENERGY, noon);

    /* a variation without pairs doesn't mean 0.0 MW: the standing offer stands again */
    bilzhaan_write_variation(record, &(struct bilzhaan_offer){
        .facility = STEAM_SET, .service = BILZHAAN_ENERGY, .period = noon, .reason = BILZHAAN_REASON_FORCED_OUTAGE});
    file("The steam set runs again in part, and its variation is taken back");
    print_in_force("Steam set, energy", STEAM_SET, BILZHAAN_ENERGY, noon);
    return 0;
}
