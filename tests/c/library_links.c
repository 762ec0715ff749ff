/* The import link, kind 3: "It offers energy only: refusal 9 also covers its offers for services 1 to 4. Reasons 3, 4 and 5
 * are open to it; 1, 2 and 6 are not. An outage call for it is refused with 7. Its capability record may have mark 0 only,
 * else 8. Refusals 5 and 8 read 1, 2 or 3 for the kind." */
#include "library_test.h"

enum { BLOCK = 64 };

/* A book of one link, the clock at `now`. */
static void open_link(struct book *b, int32_t now)
{
    EQUAL(bilzhaan_open(b->words, b->count, b->facilities, b->services, usual_limits), 0);
    EQUAL(number_of(b, capability_of(0, usual_link)), 0);
    EQUAL(number_of(b, clock_at(now)), 0);
}

static struct record varied(int reason, int32_t quantity)
{
    return offered(BILZHAAN_CALL_VARIATION, BILZHAAN_ENERGY, 100, reason, quantity);
}

/* ---- capability ---- */

static void copy_of(const int32_t from[17], int32_t to[17])
{
    for (int i = 0; i < 17; i++)
        to[i] = from[i];
}

static void marks(void)
{
    struct book b = book_for(1, 5);
    for (int set = 0; set < 32; set++) {
        int32_t w[17];
        copy_of(usual_link, w);
        for (int s = 0; s < 5; s++)
            w[BILZHAAN_W_REGISTERED + s] = set >> s & 1;
        EQUAL(number_of(&b, capability_of(0, w)), set <= 1 ? 0 : BILZHAAN_CAPABILITY_REFUSED);
    }
    for (int s = 0; s < 5; s++) {
        int32_t w[17];
        copy_of(usual_link, w);
        w[BILZHAAN_W_REGISTERED + s] = 2;
        EQUAL(number_of(&b, capability_of(0, w)), BILZHAAN_CAPABILITY_REFUSED);
    }
    /* its other fields have the ranges of any facility's */
    static const int32_t highest[12] = {0, 99999, 99999, 99999, 99999, 99999, 99999, 9999, 9999, 1000, 1000, 1000};
    for (int i = 1; i < 12; i++) {
        int32_t w[17];
        copy_of(usual_link, w);
        w[i] = highest[i];
        EQUAL(number_of(&b, capability_of(0, w)), 0);
        EQUAL(b.words[BLOCK + i], highest[i]);
        w[i] = highest[i] + 1;
        EQUAL(number_of(&b, capability_of(0, w)), BILZHAAN_CAPABILITY_REFUSED);
        w[i] = -1;
        EQUAL(number_of(&b, capability_of(0, w)), BILZHAAN_CAPABILITY_REFUSED);
    }
}

/* A held kind stays, 3 as well. */
static void kinds_held(void)
{
    struct book b = book_for(1, 5);
    for (int32_t held = 1; held <= 3; held++) {
        EQUAL(bilzhaan_open(b.words, b.count, 1, 5, usual_limits), 0);
        for (int32_t kind = -1; kind <= 5; kind++) { /* over none: no marks, and a link's */
            int32_t bare[17] = {kind}, like_a_link[17];
            copy_of(usual_link, like_a_link);
            like_a_link[BILZHAAN_W_KIND] = kind;
            if (kind < 1 || kind > 3) {
                EQUAL(number_of(&b, capability_of(0, bare)), BILZHAAN_CAPABILITY_REFUSED);
                EQUAL(number_of(&b, capability_of(0, like_a_link)), BILZHAAN_CAPABILITY_REFUSED);
            }
        }
        for (int32_t kind = -1; kind <= 5; kind++) {
            int32_t w[17] = {held};
            EQUAL(number_of(&b, capability_of(0, w)), 0);
            EQUAL(b.words[BLOCK], held);
            w[BILZHAAN_W_KIND] = kind;
            EQUAL(number_of(&b, capability_of(0, w)), kind == held ? 0 : BILZHAAN_CAPABILITY_REFUSED);
        }
    }
}

/* ---- outages ---- */

static void outages(void)
{
    static const int32_t minutes[] = {0, 999, 1000, 1001, -1, INT32_MIN, INT32_MAX};
    static const int32_t counts[] = {1, 3, 4, 48, 49, 0, -1, INT32_MIN, INT32_MAX};
    struct book b = book_for(2, 5);
    open_link(&b, 1000);
    for (int i = 0; i < 7; i++)
        for (int k = 0; k < 9; k++) {
            EQUAL(number_of(&b, outage_of(0, minutes[i], counts[k])), BILZHAAN_NOTICE_REFUSED);
            EQUAL(number_of(&b, outage_of(1, minutes[i], counts[k])), BILZHAAN_NO_KIND);
        }
    EQUAL(b.words[BLOCK + 17], 1);
    EQUAL(b.words[BLOCK + 18], 0);
}

/* ---- offers ---- */

static void services(void)
{
    struct book b = book_for(1, 5);
    EQUAL(number_of(&b, look_up_of(0, BILZHAAN_ENERGY, 100)), BILZHAAN_NO_KIND);
    open_link(&b, 0);
    for (int s = 0; s < 5; s++) {
        EQUAL(number_of(&b, look_up_of(0, s, 100)), BILZHAAN_NOTHING_IN_FORCE);
        for (int which = BILZHAAN_CALL_STANDING; which <= BILZHAAN_CALL_VARIATION; which++) {
            EQUAL(number_of(&b, offered(which, s, 100, 0, 50)), s == 0 ? 0 : BILZHAAN_NOT_REGISTERED);
            EQUAL(number_of(&b, offered(which, s, -1, 0, 50)), s == 0 ? BILZHAAN_PERIOD_REFUSED : BILZHAAN_NOT_REGISTERED);
        }
        EQUAL(number_of(&b, look_up_of(0, s, 100)), s == 0 ? 0 : BILZHAAN_NOTHING_IN_FORCE);
        EQUAL(call(&b, total_of(s, 100)).words[0], s == 0);
    }
    int32_t w[17];
    copy_of(usual_link, w);
    w[BILZHAAN_W_REGISTERED] = 0;
    EQUAL(number_of(&b, capability_of(0, w)), 0);
    EQUAL(number_of(&b, varied(0, 50)), BILZHAAN_NOT_REGISTERED);
    EQUAL(call(&b, look_up_of(0, 0, 100)).sum, 50);
}

/* Ramps and both maxima bind it as they bind a set. */
static void capacity(void)
{
    struct book b = book_for(1, 5);
    open_link(&b, 0);
    struct record r = varied(0, 800);
    set_ramps(&r, 50, 40);
    EQUAL(number_of(&b, r), 0);
    set_ramps(&r, 51, 40);
    EQUAL(number_of(&b, r), BILZHAAN_RAMP_REFUSED);
    set_ramps(&r, 50, 41);
    EQUAL(number_of(&b, r), BILZHAAN_RAMP_REFUSED);
    set_ramps(&r, -1, 0);
    EQUAL(number_of(&b, r), BILZHAAN_RAMP_REFUSED);
    EQUAL(number_of(&b, varied(0, 801)), BILZHAAN_ABOVE_CAPACITY); /* W2 is 800 */
    int32_t w[17];
    copy_of(usual_link, w);
    w[BILZHAAN_W_MAX_GENERATION] = 700;
    EQUAL(number_of(&b, capability_of(0, w)), 0);
    EQUAL(number_of(&b, varied(0, 700)), 0);
    EQUAL(number_of(&b, varied(0, 701)), BILZHAAN_ABOVE_CAPACITY);
    EQUAL(number_of(&b, varied(0, 0)), 0);
    EQUAL(number_of(&b, look_up_of(0, 0, 100)), BILZHAAN_NOTHING_IN_FORCE);
}

/* ---- the gate ---- */

static void reasons(void)
{
    struct book b = book_for(1, 5);
    for (int reason = 0; reason <= 6; reason++)
        for (int notices = 0; notices <= 1; notices++)
            for (int32_t quantity = 0; quantity <= 60; quantity += quantity == 0 ? 40 : 10) {
                open_link(&b, 0);
                EQUAL(number_of(&b, offered(BILZHAAN_CALL_STANDING, 0, 100, 0, 50)), 0);
                EQUAL(number_of(&b, varied(reason, 45)), 0); /* open: any reason will do */
                EQUAL(number_of(&b, varied(0, 0)), 0);
                for (int kind = 3; notices && kind <= 5; kind++)
                    EQUAL(number_of(&b, notice_of(kind, 100, 100)), 0);
                EQUAL(number_of(&b, clock_at(2936)), 0);
                bool less = quantity == 40, more = quantity == 60; /* blanks leave the standing offer: no less, no more */
                bool passes = notices && ((reason == 3 && less) || ((reason == 4 || reason == 5) && more));
                EQUAL(number_of(&b, varied(reason, quantity)), passes ? 0 : BILZHAAN_GATE_CLOSED);
                EQUAL(call(&b, look_up_of(0, 0, 100)).sum, passes ? quantity : 50);
            }
    /* prices are kept tenth by tenth; a variation is taken back by what the totals allow */
    open_link(&b, 0);
    EQUAL(number_of(&b, offered(BILZHAAN_CALL_STANDING, 0, 100, 0, 50)), 0);
    for (int kind = 3; kind <= 5; kind++)
        EQUAL(number_of(&b, notice_of(kind, 100, 100)), 0);
    EQUAL(number_of(&b, clock_at(2999)), 0);
    struct record r = varied(4, 49);
    set_pair(&r, 1, 4001, 20);
    EQUAL(number_of(&b, r), BILZHAAN_GATE_CLOSED);
    set_pair(&r, 0, 4000, 50);
    EQUAL(number_of(&b, r), 0);
    for (int reason = 0; reason <= 6; reason++)
        if (reason != 3)
            EQUAL(number_of(&b, varied(reason, 0)), BILZHAAN_GATE_CLOSED);
    EQUAL(number_of(&b, varied(3, 0)), 0);
    EQUAL(call(&b, look_up_of(0, 0, 100)).words[0], BILZHAAN_STANDING_IN_FORCE);
    /* a standing offer over a held one by the same reasons, a first one by any */
    for (int reason = 0; reason <= 6; reason++) {
        bool more = reason == 4 || reason == 5;
        EQUAL(number_of(&b, offered(BILZHAAN_CALL_STANDING, 0, 100, reason, 60 + reason)), more ? 0 : BILZHAAN_GATE_CLOSED);
        EQUAL(number_of(&b, offered(BILZHAAN_CALL_STANDING, 0, 101 + reason, reason, 60)), 0);
    }
    EQUAL(number_of(&b, offered(BILZHAAN_CALL_STANDING, 0, 100, 3, 64)), 0);
}

/* ---- damaged books ---- */

static void put_offer(struct book *b, int s, int h, int32_t stamp, int32_t quantity)
{
    int32_t *cell = b->words + cell_at(b, 0, s, h, 100);
    cell[0] = stamp;
    cell[4] = 4000;
    cell[5] = quantity;
}

/* 9 goes by the kind, whatever the marks; what the cells hold is read as it stands. */
static void damaged_services(void)
{
    struct book b = book_for(1, 5);
    open_link(&b, 0);
    for (int s = 1; s < 5; s++) {
        b.words[BLOCK + 12 + s] = 1;
        for (int which = BILZHAAN_CALL_STANDING; which <= BILZHAAN_CALL_VARIATION; which++)
            EQUAL(number_of(&b, offered(which, s, 100, 0, 50)), BILZHAAN_NOT_REGISTERED);
        EQUAL(number_of(&b, look_up_of(0, s, 100)), BILZHAAN_NOTHING_IN_FORCE);
        put_offer(&b, s, 0, 1, 70);
        EQUAL(call(&b, look_up_of(0, s, 100)).sum, 70);
        put_offer(&b, s, 1, 101, -80);
        EQUAL(call(&b, look_up_of(0, s, 100)).words[0], BILZHAAN_FRESH_VARIATION_IN_FORCE);
        EQUAL(call(&b, total_of(s, 100)).sum, -80);
        EQUAL(number_of(&b, offered(BILZHAAN_CALL_VARIATION, s, 100, 0, 0)), BILZHAAN_NOT_REGISTERED);
    }
    EQUAL(number_of(&b, varied(0, 50)), 0);
    static const int32_t no_marks[] = {0, 2, -1, 257};
    for (int i = 0; i < 4; i++) {
        b.words[BLOCK + 12] = no_marks[i];
        EQUAL(number_of(&b, varied(0, 50)), BILZHAAN_NOT_REGISTERED);
    }
    /* a load's marks for energy and regulation, set by the host, alone decide of it */
    b.words[BLOCK] = BILZHAAN_LOAD;
    for (int s = 0; s < 5; s++) {
        b.words[BLOCK + 12 + s] = 1;
        EQUAL(number_of(&b, offered(BILZHAAN_CALL_VARIATION, s, 101, 0, 5)), 0);
    }
}

/* An outage window that a link can't have: reasons 1, 2 and 6 are shut all the same. */
static void damaged_window(void)
{
    struct book b = book_for(1, 5);
    for (int32_t kind = 1; kind <= 3; kind++)
        for (int reason = 0; reason <= 6; reason++) {
            open_link(&b, 0);
            EQUAL(number_of(&b, offered(BILZHAAN_CALL_STANDING, 0, 100, 0, 50)), 0);
            EQUAL(number_of(&b, clock_at(2980)), 0);
            EQUAL(number_of(&b, notice_of(4, 100, 100)), 0);
            EQUAL(number_of(&b, notice_of(5, 100, 100)), 0);
            b.words[BLOCK] = kind;
            b.words[BLOCK + 17] = 100;
            b.words[BLOCK + 18] = 100;
            bool by_kind = kind == 1 ? reason == 1 || reason == 2 : kind == 2 && reason == 6;
            bool by_notice = reason == 4 || reason == 5;
            EQUAL(number_of(&b, varied(reason, 60)), by_kind || by_notice ? 0 : BILZHAAN_GATE_CLOSED);
        }
}

static void kinds_of_the_host(void)
{
    static const int32_t none[] = {0, 4, -1, 259, INT32_MIN, INT32_MAX};
    static const int32_t *const filed[3] = {usual_generation, usual_load, usual_link};
    struct book b = book_for(1, 5);
    open_link(&b, 0);
    for (int i = 0; i < 6; i++) {
        b.words[BLOCK] = none[i];
        EQUAL(number_of(&b, varied(0, 50)), BILZHAAN_NO_KIND);
        EQUAL(number_of(&b, outage_of(0, 0, 1)), BILZHAAN_NO_KIND);
        EQUAL(number_of(&b, look_up_of(0, 0, 100)), BILZHAAN_NO_KIND);
        EQUAL(number_of(&b, capability_of(0, filed[i % 3])), 0);
        EQUAL(number_of(&b, capability_of(0, filed[(i + 1) % 3])), BILZHAAN_CAPABILITY_REFUSED);
    }
    b.words[BLOCK] = BILZHAAN_LINK;
    EQUAL(number_of(&b, outage_of(0, 0, 1)), BILZHAAN_NOTICE_REFUSED);
    EQUAL(number_of(&b, capability_of(0, usual_generation)), BILZHAAN_CAPABILITY_REFUSED);
    EQUAL(number_of(&b, capability_of(0, usual_link)), 0);
}

/* A link among others: its filings leave theirs, and totals count it for energy. */
static void among_others(void)
{
    struct book b = book_for(3, 5);
    open_link(&b, 0);
    EQUAL(number_of(&b, capability_of(1, usual_generation)), 0);
    EQUAL(number_of(&b, capability_of(2, usual_load)), 0);
    for (int f = 0; f < 3; f++) {
        struct record r = offered(BILZHAAN_CALL_STANDING, f == 2 ? 1 : 0, 100, 0, 10 + f);
        r.bytes[BILZHAAN_AT_FACILITY] = (uint8_t)f;
        EQUAL(number_of(&b, r), 0);
    }
    EQUAL(call(&b, total_of(BILZHAAN_ENERGY, 100)).words[0], 2);
    EQUAL(call(&b, total_of(BILZHAAN_ENERGY, 100)).sum, 21);
    EQUAL(call(&b, total_of(BILZHAAN_PRIMARY_RESERVE, 100)).sum, 12);
    EQUAL(number_of(&b, outage_of(1, 0, 3)), 0);
    EQUAL(number_of(&b, outage_of(2, 0, 48)), 0);
    EQUAL(number_of(&b, outage_of(0, 0, 1)), BILZHAAN_NOTICE_REFUSED);
}

void test_links(void)
{
    marks();
    kinds_held();
    outages();
    services();
    capacity();
    reasons();
    damaged_services();
    damaged_window();
    kinds_of_the_host();
    among_others();
}
