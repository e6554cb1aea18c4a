/* A night judged, and filed with the verdict that was shown of it, at orders 2 to 9, of one period and as a capture: judged before any campaign is begun;
 * filed with every other verdict and with pairs that are none, which is refused with 23 and changes nothing; and filed with the right one, which leaves
 * every byte and tells what entering the night does. The samples can only be read, and behind them memory begins that can not: a call which writes to
 * them or reads past them ends the program. Prints what is wrong, and a last line. */
#define _DEFAULT_SOURCE
#include "meter.h"
#include <stdio.h>
#include <stdlib.h>
#include <string.h>
#include <sys/mman.h>
#include <unistd.h>

enum { LEAST_ORDER = 2, MOST_ORDER = 9, MOST_P = 511, MOST_M = 16, SLOT_COUNT = 2, TAIL = 3, CANARY = 9 };
enum { LOWEST = -8388608, HIGHEST = 8388607, DEAD_SPREAD = 7 };
/* Of what is wrong no more than this is printed, since one mistake is met at nearly every pair. */
enum { PRINTED = 20 };

/* A campaign, with a tail behind all that it lends. */
static uint32_t order, taps, edition;
static size_t p;
static struct memory {
    uint8_t days[METER_DAYS + TAIL], periods[METER_SLOTS + TAIL];
    uint16_t slots[METER_SLOTS + TAIL];
    int32_t store[SLOT_COUNT * MOST_P + TAIL];
    int64_t sums[MOST_P + TAIL];
} now, was;

/* The state and the value of a verdict: what judging gives for the night, and what the last call told. */
static struct pair {
    uint32_t state;
    size_t value;
} right, told;
static uint32_t period;
static int made, wrong;

/* How many periods the night has behind its run-in, 0 where it is one period and has none; its samples, and how many of them are judged. */
static uint32_t m;
static const int32_t *y;
static size_t n, judged;

#define RECORD order, taps, SLOT_COUNT, edition, now.days, METER_DAYS + TAIL, now.slots, METER_SLOTS + TAIL, now.periods, METER_SLOTS + TAIL, \
               now.store, SLOT_COUNT * p + TAIL, now.sums, p + TAIL

static void expect(int held, const char *what) {
    made++;
    if (!held && wrong++ < PRINTED)
        printf("wrong: order %u, m %u, a night of %u %zu: %s\n", order, m, right.state, right.value, what);
}
#define EXPECT(fact) expect((fact), #fact)

static void must(int held, const char *what) {
    if (!held) {
        printf("wrong: %s\n", what);
        exit(1);
    }
}

/* ---- the nights ---- */

static unsigned char *guarded;
static size_t guarded_bytes;

static void allow(int what) {
    must(mprotect(guarded, guarded_bytes, what) == 0, "the samples can not be guarded");
}

static void make_guarded(void) {
    size_t page = (size_t)sysconf(_SC_PAGESIZE), most = (MOST_M + 1) * MOST_P * sizeof *y;
    guarded_bytes = (most + page - 1) / page * page;
    guarded = mmap(NULL, guarded_bytes + page, PROT_READ | PROT_WRITE, MAP_PRIVATE | MAP_ANONYMOUS, -1, 0);
    must(guarded != MAP_FAILED && mprotect(guarded + guarded_bytes, page, PROT_NONE) == 0, "no memory to guard");
}

/* A night that is judged so, its run-in at a rail; one that is overloaded is at a rail first at this place, and again at the last. */
static void lay(uint32_t of_m, uint32_t state, size_t place) {
    m = of_m;
    judged = m == 0 ? p : m * p;
    n = m == 0 ? p : judged + p;
    int32_t *samples = (int32_t *)(void *)(guarded + guarded_bytes) - n, *after = samples + (n - judged);
    allow(PROT_READ | PROT_WRITE);
    for (size_t j = 0; j < n; j++)
        samples[j] = (int32_t)(j * 7919 % 20011) - 10000;
    for (size_t j = 0; j < n - judged; j++)
        samples[j] = HIGHEST;
    if (state == METER_DEAD)
        for (size_t j = 0; j < judged; j++)
            after[j] = j % 2 == 0 ? 0 : DEAD_SPREAD;
    if (state == METER_OVERLOADED)
        after[place] = after[judged - 1] = LOWEST;
    allow(PROT_READ);
    y = samples;
    right = (struct pair){state, place};
}

/* ---- the calls ---- */

static void forget(void) {
    was = now;
    told = (struct pair){CANARY, CANARY};
    period = CANARY;
}

static uint32_t judge(void) {
    forget();
    if (m == 0)
        return meter_judge(order, taps, y, n, &told.state, &told.value, &period);
    return meter_judge_capture(order, taps, m, y, n, &told.state, &told.value, &period);
}

static uint32_t file(uint32_t day, struct pair pair) {
    forget();
    if (m == 0)
        return meter_file(RECORD, day, y, n, pair.state, pair.value, &told.state, &told.value);
    return meter_file_capture(RECORD, day, m, y, n, pair.state, pair.value, &told.state, &told.value);
}

static uint32_t enter(uint32_t day) {
    forget();
    if (m == 0)
        return meter_enter(RECORD, day, y, n, &told.state, &told.value);
    return meter_capture(RECORD, day, m, y, n, &told.state, &told.value);
}

static int same(struct pair one, struct pair other) { return one.state == other.state && one.value == other.value; }
static int untouched(void) { return memcmp(&now, &was, sizeof now) == 0; }
static int untold(void) { return same(told, (struct pair){CANARY, CANARY}) && untouched(); }

/* ---- one night ---- */

/* The day that is filed, and those that stand before it. */
enum { FILED = 7, FIRST = 5, SECOND = 366 };

static void refused(struct pair pair) {
    if (!same(pair, right))
        EXPECT(file(FILED, pair) == METER_VERDICT_DIFFERS && untold());
}

/* Each state with each place, up to one that no sample has. */
static void every_other_pair(void) {
    for (uint32_t state = METER_UNSEEN; state <= METER_WITHDRAWN + 1; state++)
        for (size_t place = 0; place <= judged; place++)
            refused((struct pair){state, place});
}

/* Numbers of which the lowest 8, 16 or 32 bits, or all but the highest, are those of the right verdict. */
static void far_pairs(void) {
    const uint32_t states[] = {right.state + 256, right.state + 65536, right.state + 2147483648u, UINT32_MAX, METER_VERDICT_DIFFERS};
    const size_t places[] = {right.value + 256, right.value + 65536, right.value + ((size_t)1 << 32), right.value + ((size_t)1 << 63), SIZE_MAX};
    for (size_t i = 0; i < sizeof states / sizeof *states; i++) {
        refused((struct pair){states[i], right.value});
        refused((struct pair){states[i], 0});
    }
    for (size_t i = 0; i < sizeof places / sizeof *places; i++)
        refused((struct pair){right.state, places[i]});
}

/* The same night, entered and filed on the same memory, which stays as it was before both. */
static void filed_as_entered(void) {
    static struct memory begun, entered;
    begun = now;
    uint32_t answer = enter(FILED);
    struct pair by_entering = told;
    entered = now;
    now = begun;
    EXPECT(file(FILED, right) == answer && same(told, by_entering) && memcmp(&now, &entered, sizeof now) == 0);
    EXPECT(answer != METER_ACCEPTED || (told.state == right.state && now.days[FILED - 1] == right.state));
    EXPECT(answer == METER_ACCEPTED || untold());
    now = begun;
}

/* ---- the nights of an order ---- */

static const uint32_t several[] = {0, 1, 2, 3, MOST_M};
enum { SEVERAL = sizeof several / sizeof *several };

/* Each kind of night in its turn: kept, dead, and overloaded at the first place, the last, and where a period ends and another begins. */
static void each_night(void (*with)(void)) {
    for (size_t i = 0; i < SEVERAL; i++) {
        lay(several[i], METER_STANDING, 0);
        with();
        lay(several[i], METER_DEAD, 0);
        with();
        const size_t places[] = {0, 1, p - 1, judged - p, judged - 1};
        for (size_t k = 0; k < sizeof places / sizeof *places; k++) {
            lay(several[i], METER_OVERLOADED, places[k]);
            with();
        }
    }
}

static void judged_alone(void) {
    EXPECT(judge() == METER_ACCEPTED && same(told, right) && period == p && untouched());
}

/* One day stands, so that the slot of a night that is kept is 1. */
static void with_a_free_slot(void) {
    every_other_pair();
    far_pairs();
    filed_as_entered();
    EXPECT(file(FIRST, right) == METER_DAY_STANDING && untold());
    EXPECT(file(FIRST, (struct pair){METER_UNSEEN, 0}) == METER_DAY_STANDING && untold());
    EXPECT(file(FILED, right) == METER_ACCEPTED && told.value == (right.state == METER_STANDING ? 1 : right.value));
    now = was;
}

/* A wrong verdict is refused before a full store is; a right one that keeps nothing is accepted. */
static void with_no_slot(void) {
    refused((struct pair){METER_STANDING, 0});
    refused((struct pair){METER_DEAD, 0});
    refused((struct pair){METER_OVERLOADED, 0});
    far_pairs();
    filed_as_entered();
    EXPECT(file(FILED, right) == (right.state == METER_STANDING ? METER_SLOTS_FULL : METER_ACCEPTED));
    now = was;
}

static void stand(uint32_t day) {
    lay(2, METER_STANDING, 0);
    must(file(day, right) == METER_ACCEPTED && told.state == METER_STANDING, "a day does not stand");
}

/* Each edition has every second order, since no filing depends on it. */
static void at_order(uint32_t of_order) {
    order = of_order;
    edition = order % 2 == 0 ? METER_HALVES_AWAY : METER_HALVES_TO_EVEN;
    p = ((size_t)1 << order) - 1;
    must(meter_default_taps(order, &taps) == METER_ACCEPTED, "an order has no taps");
    memset(&now, CANARY, sizeof now);
    each_night(judged_alone);
    must(meter_start(RECORD, &period) == METER_ACCEPTED, "an order does not start");
    stand(FIRST);
    each_night(with_a_free_slot);
    stand(SECOND);
    each_night(with_no_slot);
}

int main(void) {
    make_guarded();
    for (uint32_t of_order = LEAST_ORDER; of_order <= MOST_ORDER; of_order++)
        at_order(of_order);
    printf("judged and filed at orders %d to %d: %d expected, %d wrong\n", LEAST_ORDER, MOST_ORDER, made, wrong);
    return wrong != 0;
}
