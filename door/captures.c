/* Captures of several periods, and the table that keeps how many each slot has: how many periods are taken, every length next to the right one, rails and
 * values out of range in the run-in and behind it, the loudest sums, a total of periods that is no power of two, records that do not hold together, and a
 * table of periods that is short or long. After each call all that was lent is held to what it has to be. Prints what is wrong, and a last line. */
#include "meter.h"
#include <stdio.h>
#include <stdlib.h>
#include <string.h>

enum { SHORT_ORDER = 9, SHORT_P = 511, MOST_P = 65535, MOST_M = 16, TALLEST_M = 255, FEW_SLOTS = 3 };
enum { LOWEST = -8388608, HIGHEST = 8388607, TAIL = 3, CANARY = 9 };

/* A campaign, with a tail behind all that it lends. */
static uint32_t order, taps, capacity, edition = METER_HALVES_AWAY;
static size_t p, periods_len = METER_SLOTS + TAIL;
static struct memory {
    uint8_t days[METER_DAYS + TAIL], periods[METER_SLOTS + TAIL];
    uint16_t slots[METER_SLOTS + TAIL];
    int32_t store[FEW_SLOTS * MOST_P + TAIL];
    int64_t sums[MOST_P + TAIL];
} now, was;
_Static_assert(METER_SLOTS * SHORT_P <= FEW_SLOTS * MOST_P, "up to order 9 the store has room for every slot");
_Static_assert((TALLEST_M + 1) * SHORT_P <= (MOST_M + 1) * MOST_P, "up to order 9 a night has room for the most periods that a byte can ask for");

/* The night in y: its run-in and m periods. What the call on it told. */
static int32_t y[(MOST_M + 1) * MOST_P + 1];
static uint32_t m, state, period;
static size_t value;
static int64_t r[MOST_P], room[MOST_P + 1];
static int32_t mean[MOST_P];
static uint16_t tags[MOST_P];
static int made, wrong;

#define RECORD order, taps, capacity, edition, now.days, METER_DAYS + TAIL, now.slots, METER_SLOTS + TAIL, now.periods, periods_len, \
               now.store, capacity * p + TAIL, now.sums, p + TAIL
#define ROOM room, p + 1, tags, p

static void expect(int held, const char *what) {
    made++;
    if (!held) {
        wrong++;
        printf("wrong: order %u, m %u: %s\n", order, m, what);
    }
}
#define EXPECT(fact) expect((fact), #fact)

/* ---- the campaign and its nights ---- */

/* A campaign with nothing in it, each tail a canary. */
static void begin(uint32_t of_order, uint32_t slot_count) {
    order = of_order;
    capacity = slot_count;
    p = ((size_t)1 << order) - 1;
    memset(&now, CANARY, sizeof now);
    was = now;
    if (meter_default_taps(order, &taps) != METER_ACCEPTED || meter_start(RECORD, &period) != METER_ACCEPTED) {
        printf("wrong: order %u does not start\n", order);
        exit(1);
    }
    memset(was.days, METER_UNSEEN, METER_DAYS);
    memset(was.slots, 0, METER_SLOTS * sizeof *was.slots);
    memset(was.periods, 0, METER_SLOTS);
    memset(was.store, 0, capacity * p * sizeof *was.store);
    memset(was.sums, 0, p * sizeof *was.sums);
    EXPECT(memcmp(&now, &was, sizeof now) == 0);
}

/* Samples of which no two periods are alike, none at a rail, and more than 7 apart. */
static void lay(uint32_t of_m) {
    m = of_m;
    for (size_t j = 0; j < ((size_t)m + 1) * p; j++)
        y[j] = (int32_t)(j * 7919 % 20011) - 10000;
}

static size_t whole(void) { return ((size_t)m + 1) * p; }

static int64_t term(size_t j) {
    int64_t total = 0;
    for (size_t i = 1; i <= m; i++)
        total += y[i * p + j];
    return total;
}

/* ---- a call, and what it has to leave ---- */

static uint32_t capture_of(uint32_t day, uint32_t periods, size_t length) {
    was = now;
    state = CANARY;
    value = CANARY;
    return meter_capture(RECORD, day, periods, y, length, &state, &value);
}

static uint32_t capture(uint32_t day) { return capture_of(day, m, whole()); }

static uint32_t enter(uint32_t day, const int32_t *samples, size_t length) {
    was = now;
    state = CANARY;
    value = CANARY;
    return meter_enter(RECORD, day, samples, length, &state, &value);
}

static uint32_t withdraw(uint32_t day) {
    was = now;
    return meter_withdraw(RECORD, day);
}

static int untouched(void) { return memcmp(&now, &was, sizeof now) == 0; }
static int untold(void) { return state == CANARY && value == CANARY && untouched(); }

/* Whether the last call judged the day so and kept nothing. */
static int judged(uint32_t day, uint32_t as, size_t place) {
    was.days[day - 1] = (uint8_t)as;
    return state == as && value == place && untouched();
}

/* Whether the last call put the night into this slot. */
static int kept(uint32_t day, size_t slot) {
    was.days[day - 1] = METER_STANDING;
    was.slots[slot] = (uint16_t)day;
    was.periods[slot] = (uint8_t)m;
    for (size_t j = 0; j < p; j++) {
        was.store[slot * p + j] = (int32_t)term(j);
        was.sums[j] += term(j);
    }
    return state == METER_STANDING && value == slot && untouched();
}

/* Whether the last call took the night in y out of this slot. */
static int taken_out(uint32_t day, size_t slot) {
    was.days[day - 1] = METER_WITHDRAWN;
    was.slots[slot] = 0;
    was.periods[slot] = 0;
    for (size_t j = 0; j < p; j++) {
        was.store[slot * p + j] = 0;
        was.sums[j] -= term(j);
    }
    return untouched();
}

/* ---- how many periods, and how many samples ---- */

static const uint32_t taken_m[] = {1, 2, 4, 5, 16}, refused_m[] = {0, 17, 18, 32, 255, 256, 257, 272, 65537, 2147483648u, 4294967280u, 4294967295u};
enum { TAKEN = sizeof taken_m / sizeof *taken_m, REFUSED = sizeof refused_m / sizeof *refused_m };

static void taken_and_undone(void) {
    for (size_t i = 0; i < TAKEN; i++) {
        lay(taken_m[i]);
        EXPECT(capture(1) == 0 && kept(1, 0));
        EXPECT(capture(1) == 11 && untold());
        struct memory *before = malloc(sizeof now);
        *before = now;
        EXPECT(capture(2) == 0 && kept(2, 1));
        EXPECT(withdraw(2) == 0 && taken_out(2, 1));
        before->days[1] = METER_WITHDRAWN;
        EXPECT(memcmp(&now, before, sizeof now) == 0);
        EXPECT(withdraw(1) == 0 && taken_out(1, 0));
        free(before);
    }
}

/* Of a night of one period it makes no difference which call brings it. */
static void one_period(void) {
    lay(1);
    EXPECT(enter(1, y + p, p) == 0 && kept(1, 0));
    struct memory *entered = malloc(sizeof now);
    *entered = now;
    EXPECT(withdraw(1) == 0 && taken_out(1, 0));
    EXPECT(capture(1) == 0 && kept(1, 0) && memcmp(&now, entered, sizeof now) == 0);
    EXPECT(withdraw(1) == 0 && taken_out(1, 0));
    free(entered);
}

/* At each length that such an m could ask for, with 32 bits or more, 18 comes first. */
static void out_of_range(void) {
    for (size_t i = 0; i < REFUSED; i++) {
        lay(TALLEST_M < refused_m[i] || p > SHORT_P ? MOST_M : refused_m[i]);
        m = refused_m[i];
        const size_t lengths[] = {0, p, 2 * p, (MOST_M + 1) * p, (size_t)(m + 1) * p, (size_t)((m & 255) + 1) * p};
        for (size_t k = 0; k < sizeof lengths / sizeof *lengths; k++)
            if (lengths[k] <= sizeof y / sizeof *y)
                EXPECT(capture_of(1, m, lengths[k]) == 18 && untold());
        EXPECT(capture_of(0, m, p) == 10 && untold());
        EXPECT(capture_of(367, m, p) == 10 && untold());
    }
}

static void lengths(void) {
    for (size_t i = 0; i < TAKEN; i++) {
        lay(taken_m[i]);
        const size_t others[] = {0, p - 1, p, m * p, whole() - 1, whole() + 1};
        for (size_t k = 0; k < sizeof others / sizeof *others; k++)
            EXPECT(capture_of(1, m, others[k]) == 5 && untold());
        EXPECT(enter(1, y, whole()) == 5 && untold());
        y[0] = HIGHEST + 1;
        EXPECT(capture_of(1, m, whole() - 1) == 5 && untold());
        EXPECT(capture_of(366, m, whole()) == 7 && untold());
    }
}

/* ---- what a sample in the run-in does, and one behind it ---- */

static void with(size_t place, int32_t sample) {
    lay(m);
    y[place] = sample;
}

static void rails(int32_t rail) {
    for (size_t j = 0; j < p; j++)
        y[j] = rail;
    EXPECT(capture(1) == 0 && kept(1, 0));
    EXPECT(withdraw(1) == 0 && taken_out(1, 0));
    with(p - 1, rail);
    EXPECT(capture(1) == 0 && kept(1, 0));
    EXPECT(withdraw(1) == 0 && taken_out(1, 0));
    const size_t places[] = {0, 1, p - 1, m / 2 * p, (m - 1) * p, m * p - 1};
    for (size_t k = 0; k < sizeof places / sizeof *places; k++) {
        with(p + places[k], rail);
        EXPECT(capture(2) == 0 && judged(2, METER_OVERLOADED, places[k]));
        y[0] = rail;
        y[whole() - 1] = LOWEST + HIGHEST - rail;
        EXPECT(capture(2) == 0 && judged(2, METER_OVERLOADED, places[k]));
    }
}

static void out_of_the_range(int32_t beyond) {
    const size_t places[] = {0, p - 1, p, 2 * p - 1, m * p, whole() - 1};
    for (size_t k = 0; k < sizeof places / sizeof *places; k++) {
        with(places[k], beyond);
        EXPECT(capture(3) == 7 && untold());
        y[p] = places[k] == p ? beyond : HIGHEST;
        EXPECT(capture(3) == 7 && untold());
    }
}

static void samples(void) {
    const uint32_t some[] = {1, 2, 4, 16};
    for (size_t i = 0; i < sizeof some / sizeof *some; i++) {
        lay(some[i]);
        rails(HIGHEST);
        lay(some[i]);
        rails(LOWEST);
        out_of_the_range(HIGHEST + 1);
        out_of_the_range(LOWEST - 1);
    }
}

/* A full store keeps no more, and still judges. */
static void full(void) {
    lay(3);
    for (uint32_t day = 1; day <= capacity; day++)
        EXPECT(capture(day) == 0 && kept(day, day - 1));
    EXPECT(capture(10) == 12 && untold());
    with(p + 1, HIGHEST);
    EXPECT(capture(10) == 0 && judged(10, METER_OVERLOADED, 1));
    lay(3);
    memset(y + p, 0, m * p * sizeof *y);
    EXPECT(capture(10) == 0 && judged(10, METER_DEAD, 0));
}

/* ---- the response and the levels ---- */

/* To the nearest whole number, an exact half as the edition has it. */
static int32_t nearest(int64_t a, int64_t b) {
    int64_t size = llabs(a) / b, twice_rest = 2 * (llabs(a) % b);
    if (twice_rest > b || (twice_rest == b && (edition == METER_HALVES_AWAY || size % 2 == 1)))
        size++;
    return (int32_t)(a < 0 ? -size : size);
}

static void answers_in_edition(const int64_t *wanted, int64_t total) {
    uint32_t stands = CANARY;
    double highest = CANARY, lowest = CANARY, peak = CANARY, divisor = (double)((int64_t)(p + 1) * total);
    int64_t high = wanted[0], low = wanted[0], most = wanted[0];
    int means = 1;
    EXPECT(meter_response(RECORD, r, p, mean, p, ROOM) == 0 && memcmp(r, wanted, p * sizeof *r) == 0);
    for (size_t k = 0; k < p; k++) {
        means &= mean[k] == nearest(wanted[k], (int64_t)(p + 1) * total);
        high = wanted[k] > high ? wanted[k] : high;
        low = wanted[k] < low ? wanted[k] : low;
        most = llabs(wanted[k]) > llabs(most) ? wanted[k] : most;
    }
    EXPECT(means);
    EXPECT(meter_summary(RECORD, ROOM, &stands, &highest, &lowest, &peak) == 0 && stands == 1);
    EXPECT(highest == (double)high / divisor && lowest == (double)low / divisor && peak == (double)most / divisor);
}

/* Whether the response, the mean and the levels are in both editions those of a `wanted` response over so many periods. */
static void answers(const int64_t *wanted, int64_t total) {
    const uint32_t of_the_campaign = edition;
    for (edition = METER_HALVES_AWAY; edition <= METER_HALVES_TO_EVEN; edition++)
        answers_in_edition(wanted, total);
    edition = of_the_campaign;
}

static int64_t wanted[MOST_P];
static int ones[MOST_P];

/* The sequence, by stepping the register. */
static void step_register(void) {
    uint32_t window = (uint32_t)p;
    for (size_t k = 0; k < p; k++) {
        ones[k] = window & 1;
        window = window >> 1 | (uint32_t)__builtin_parity(window & taps) << (order - 1);
    }
}

/* r(k) is the sum of y(j)(x(j-k) - 1): minus two times each y(j) whose sequence bit there is 1. */
static void work_out(const int64_t *of) {
    for (size_t k = 0; k < p; k++) {
        wanted[k] = 0;
        for (size_t j = 0; j < p; j++)
            wanted[k] -= ones[(j + p - k) % p] ? 2 * of[j] : 0;
    }
}

/* Every sample is `most`, and `other` at the first place of each period: (P+1)/2 bits are 1, one of them at that place or none. */
static void loudest(int32_t most, int32_t other) {
    step_register();
    lay(MOST_M);
    for (size_t j = 0; j < whole(); j++)
        y[j] = j % p == 0 ? other : most;
    for (uint32_t day = 1; day <= capacity; day++)
        EXPECT(capture(day) == 0 && kept(day, day - 1));
    EXPECT(now.store[1] == MOST_M * most && now.store[0] == MOST_M * other && now.sums[1] == (int64_t)capacity * MOST_M * most);
    int64_t total = (int64_t)capacity * MOST_M;
    for (size_t k = 0; k < p; k++)
        wanted[k] = -total * ((int64_t)(p + 1) * most + (ones[(p - k) % p] ? 2 * ((int64_t)other - most) : 0));
    answers(wanted, total);
    EXPECT(ones[p - 1] || mean[1] == -most);
    for (uint32_t day = 1; day <= capacity; day++)
        EXPECT(withdraw(day) == 0 && taken_out(day, day - 1));
}

/* Days of 1, 2, 5 and 16 periods: their total is 1, 3, 8 and 24, a power of two or none. */
static void totals(void) {
    static int64_t of[MOST_P];
    const uint32_t periods[] = {1, 2, 5, 16};
    int64_t total = 0;
    step_register();
    memset(of, 0, sizeof of);
    for (uint32_t i = 0; i < 4; i++) {
        lay(periods[i]);
        for (size_t j = p; j < whole(); j++)
            y[j] += (int32_t)(i * j);
        EXPECT((i == 0 ? enter(9, y + p, p) : capture(9 + i)) == 0 && kept(9 + i, i));
        for (size_t j = 0; j < p; j++)
            of[j] += term(j);
        total += m;
        work_out(of);
        answers(wanted, total);
    }
    /* Day 12 has the night in y. */
    EXPECT(withdraw(12) == 0 && taken_out(12, 3));
    for (size_t j = 0; j < p; j++)
        of[j] -= term(j);
    work_out(of);
    answers(wanted, total - m);
}

/* ---- records that hold together, and others ---- */

static double levels[3] = {CANARY, CANARY, CANARY};
static uint32_t counted[5] = {CANARY, CANARY, CANARY, CANARY, CANARY}, any_stands = CANARY;

/* Each call on the campaign that changes nothing where it is accepted answers this. */
static void asked(uint32_t answer) {
    was = now;
    EXPECT(meter_counts(RECORD, &counted[0], &counted[1], &counted[2], &counted[3], &counted[4]) == answer && untouched());
    EXPECT(meter_response(RECORD, r, p, mean, p, ROOM) == answer && untouched());
    EXPECT(meter_summary(RECORD, ROOM, &any_stands, &levels[0], &levels[1], &levels[2]) == answer && untouched());
}

/* Every call on the campaign but a start refuses it with 15, whatever else is wrong, and changes nothing. */
static void broken(void) {
    asked(15);
    EXPECT(capture(2) == 15 && untold());
    EXPECT(capture_of(0, 17, 1) == 15 && untold());
    EXPECT(enter(2, y, p) == 15 && untold());
    EXPECT(withdraw(1) == 15 && untouched());
    EXPECT(withdraw(367) == 15 && untouched());
}

/* With another number in the table of periods. */
static void with_periods(size_t slot, uint8_t number, int holds) {
    uint8_t stood = now.periods[slot];
    now.periods[slot] = number;
    if (holds)
        asked(0);
    else
        broken();
    now.periods[slot] = stood;
    asked(0);
}

/* With this number at a place of the first slot, and the sum moved with it. */
static void with_sample(size_t place, int32_t sample, int holds) {
    int32_t stood = now.store[place];
    now.store[place] = sample;
    now.sums[place] += (int64_t)sample - stood;
    if (holds)
        asked(0);
    else
        broken();
    now.store[place] = stood;
    now.sums[place] -= (int64_t)sample - stood;
    asked(0);
}

/* Day 1 stands in the first slot with m periods, all others are free. */
static void damaged(uint32_t of_m) {
    lay(of_m);
    EXPECT(capture(1) == 0 && kept(1, 0));
    const uint8_t never[] = {0, 17, 18, 32, 128, 255};
    for (size_t i = 0; i < sizeof never; i++)
        with_periods(0, never[i], 0);
    const size_t free_slots[] = {1, capacity - 1, capacity, METER_SLOTS - 1};
    for (size_t i = 0; i < sizeof free_slots / sizeof *free_slots; i++) {
        with_periods(free_slots[i], 1, 0);
        with_periods(free_slots[i], (uint8_t)m, 0);
        with_periods(free_slots[i], 255, 0);
    }
    with_periods(METER_SLOTS, 1, 1);
    const size_t places[] = {0, 1, p - 1};
    for (size_t i = 0; i < sizeof places / sizeof *places; i++) {
        with_sample(places[i], (int32_t)m * (HIGHEST - 1), 1);
        with_sample(places[i], (int32_t)m * (HIGHEST - 1) + 1, 0);
        with_sample(places[i], (int32_t)m * (LOWEST + 1), 1);
        with_sample(places[i], (int32_t)m * (LOWEST + 1) - 1, 0);
    }
    EXPECT(withdraw(1) == 0 && taken_out(1, 0));
    /* What a withdrawal left behind would be seen. */
    now.periods[0] = (uint8_t)m;
    broken();
    now.periods[0] = 0;
    EXPECT(capture(1) == 0 && kept(1, 0));
    EXPECT(withdraw(1) == 0 && taken_out(1, 0));
}

/* A slot at its bound with one period fewer does not hold together; with one more it does. */
static void another_m(void) {
    lay(4);
    for (size_t i = 1; i <= m; i++)
        y[i * p] = HIGHEST - 1;
    EXPECT(capture(1) == 0 && kept(1, 0));
    with_periods(0, 3, 0);
    with_periods(0, 5, 1);
    with_periods(0, 16, 1);
    EXPECT(withdraw(1) == 0 && taken_out(1, 0));
}

/* One short is too short for every call; at a start it is refused after the slot count, and then 6. */
static void short_table(void) {
    lay(2);
    EXPECT(capture(1) == 0 && kept(1, 0));
    const size_t lengths[] = {0, 1, METER_SLOTS - 1};
    for (size_t i = 0; i < sizeof lengths / sizeof *lengths; i++) {
        periods_len = lengths[i];
        broken();
        EXPECT(meter_start(RECORD, &period) == 6 && untouched());
        capacity = METER_SLOTS + 1;
        EXPECT(meter_start(RECORD, &period) == 9 && untouched());
        capacity = FEW_SLOTS;
    }
    periods_len = METER_SLOTS;
    asked(0);
    EXPECT(withdraw(1) == 0 && taken_out(1, 0));
    periods_len = METER_SLOTS + TAIL;
}

int main(void) {
    const uint32_t orders[] = {2, 3, 4, 9, 16};
    for (size_t i = 0; i < sizeof orders / sizeof *orders; i++) {
        begin(orders[i], FEW_SLOTS);
        taken_and_undone();
        one_period();
        out_of_range();
        lengths();
        samples();
        full();
        begin(orders[i], orders[i] <= SHORT_ORDER ? METER_SLOTS : FEW_SLOTS);
        loudest(HIGHEST - 1, LOWEST + 1);
        loudest(LOWEST + 1, HIGHEST - 1);
        if (order <= SHORT_ORDER)
            totals();
    }
    begin(3, FEW_SLOTS);
    for (uint32_t k = 0; k < TAKEN; k++)
        damaged(taken_m[k]);
    another_m();
    short_table();
    printf("captures: %d expected, %d wrong\n", made, wrong);
    return wrong != 0;
}
