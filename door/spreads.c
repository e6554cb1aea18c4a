/* How far apart a night's samples lie, at the edge: 0 to 9, and from one end of the range to the other, at both signs and next to both rails, at
 * short and long periods, with the two samples that are furthest apart at the first, the last and other places, in either order; and quiet nights at
 * a rail. Of a capture these two lie in different periods, behind a run-in that is at the rails or still. Dead is what is at no rail and at most 7
 * apart. Prints what is wrong, and a last line. */
#include "meter.h"
#include <stdio.h>

enum { MOST_P = 65535, MOST_M = 16, LONG_M = 2, LOWEST = -8388608, HIGHEST = 8388607, DEAD_SPREAD = 7, MOST_SPREAD = 9, FROM_END_TO_END = 16777213 };
static const uint32_t orders[] = {2, 3, 4, 5, 9, 16}, captured[] = {1, 2, 16};
enum { LONG_ORDER = 16 };

static uint32_t order, taps;
static size_t p;
static uint8_t days[METER_DAYS], periods[METER_SLOTS];
static uint16_t slots[METER_SLOTS];
static int32_t store[MOST_P];
static int64_t sums[MOST_P];
static int recordings, captures, wrong;

/* How many periods a capture has behind its run-in, 0 for a recording of one period; the night, and in it the samples that are judged. */
static uint32_t m;
static int32_t night[(MOST_M + 1) * MOST_P], *y;
static size_t judged;

#define RECORD order, taps, 1, METER_HALVES_AWAY, days, METER_DAYS, slots, METER_SLOTS, periods, METER_SLOTS, store, p, sums, p

/* The night is entered, has this verdict, and is taken out again where it was kept. */
static void expect(uint32_t expected, size_t place) {
    uint32_t state = METER_UNSEEN;
    size_t value = sizeof night;
    uint32_t answer = m == 0 ? meter_enter(RECORD, 1, y, p, &state, &value) : meter_capture(RECORD, 1, m, night, (m + 1) * p, &state, &value);
    *(m == 0 ? &recordings : &captures) += 1;
    if (answer != METER_ACCEPTED || state != expected || value != place || days[0] != expected) {
        wrong++;
        printf("wrong: order %u, m %u, samples %d, %d to %d: answer %u, state %u, value %zu\n", order, m, y[0], y[1], y[judged - 1], answer, state, value);
    }
    if (state == METER_STANDING && meter_withdraw(RECORD, 1) != METER_ACCEPTED) {
        wrong++;
        printf("wrong: order %u, m %u: a kept day is not withdrawn\n", order, m);
    }
}

/* All samples lie at `low` or a little above it, none above `low + spread`, with these two at the places given. Those of a capture lie in the middle, so
 * that no period has the spread alone. */
static void lay(int32_t low, int32_t spread, size_t lowest_at, size_t highest_at) {
    for (size_t j = 0; j < judged; j++)
        y[j] = low + (m == 0 ? (int32_t)(5 * j % ((size_t)spread + 1) % 7) : spread / 2);
    y[lowest_at] = low;
    y[highest_at] = low + spread;
}

static void spreads_at(size_t lowest_at, size_t highest_at) {
    for (int32_t spread = 0; spread <= MOST_SPREAD; spread++) {
        const int32_t lows[] = {LOWEST + 1, -1000 - spread, -spread, -spread / 2, 0, 1000, HIGHEST - 1 - spread};
        for (size_t i = 0; i < sizeof lows / sizeof *lows; i++) {
            lay(lows[i], spread, lowest_at, highest_at);
            expect(spread <= DEAD_SPREAD ? METER_DEAD : METER_STANDING, 0);
        }
        lay(LOWEST, spread, lowest_at, highest_at);
        size_t first = 0;
        while (y[first] != LOWEST)
            first++;
        expect(METER_OVERLOADED, first);
        lay(HIGHEST - spread, spread, lowest_at, highest_at);
        for (first = 0; y[first] != HIGHEST;)
            first++;
        expect(METER_OVERLOADED, first);
    }
    lay(LOWEST + 1, FROM_END_TO_END, lowest_at, highest_at);
    expect(METER_STANDING, 0);
}

static void every_place(void) {
    m = 0;
    y = night;
    judged = p;
    const size_t places[] = {0, 1, p / 2, 15, 16, 17, 18, p - 2, p - 1};
    for (size_t i = 0; i < sizeof places / sizeof *places; i++)
        for (size_t j = 0; j < sizeof places / sizeof *places; j++)
            if (places[i] < p && places[j] < p && places[i] != places[j])
                spreads_at(places[i], places[j]);
}

/* The furthest apart lie in different periods where there is more than one. */
static void far_apart(void) {
    const size_t last = judged - 1, pairs[][2] = {{0, last}, {last, 0}, {p - 1, p}, {p, p - 1}, {0, judged - p}, {judged - p, 0}};
    for (size_t i = 0; i < sizeof pairs / sizeof *pairs; i++)
        if (pairs[i][0] != pairs[i][1] && pairs[i][0] < judged && pairs[i][1] < judged)
            spreads_at(pairs[i][0], pairs[i][1]);
}

/* Behind a run-in that would be loud, and behind one that would be dead. */
static void every_capture(void) {
    for (size_t i = 0; i < sizeof captured / sizeof *captured; i++) {
        m = captured[i];
        if (order == LONG_ORDER && m > LONG_M)
            continue;
        y = night + p;
        judged = m * p;
        for (size_t j = 0; j < p; j++)
            night[j] = j % 2 == 0 ? LOWEST : HIGHEST;
        far_apart();
        for (size_t j = 0; j < p; j++)
            night[j] = 0;
        far_apart();
    }
}

int main(void) {
    for (size_t i = 0; i < sizeof orders / sizeof *orders; i++) {
        uint32_t period;
        order = orders[i];
        p = ((size_t)1 << order) - 1;
        if (meter_default_taps(order, &taps) != METER_ACCEPTED || meter_start(RECORD, &period) != METER_ACCEPTED) {
            printf("wrong: order %u does not start\n", order);
            return 1;
        }
        every_place();
        every_capture();
    }
    printf("spreads: %d recordings and %d captures, %d wrong\n", recordings, captures, wrong);
    return wrong != 0;
}
