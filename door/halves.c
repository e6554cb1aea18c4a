/* Means at an exact half, at orders 2 to 6: small campaigns of one to five nights, of one period or captures, and campaigns of up to 1,024 periods, whose
 * nights are laid so that their sums have a response given beforehand, most of it at an exact half of the divisor or next to one. Each campaign is asked
 * in both editions, and r and every mean are held to the plain arithmetic below. Prints what is wrong, and a last line; fails too where few means are at
 * an exact half. */
#include "meter.h"
#include <stdio.h>
#include <stdlib.h>
#include <string.h>

enum { LEAST_ORDER = 2, MOST_ORDER = 6, MOST_P = 63, MOST_NIGHTS = METER_SLOTS, MOST_M = 16 };
/* The most nights of a small campaign and the most periods of its captures, how many such are drawn, and how many of each large one. */
enum { SMALL_NIGHTS = 5, SMALL_M = 4, CAMPAIGNS_DRAWN = 200, LARGE_DRAWN = 20 };
/* Periods that stand, on both sides of the odd numbers up to which a mean is worked out by a product: 255 in edition 2 without a sign, 361 with one. */
static const uint32_t large[] = {255, 256, 257, 259, 301, 361, 362, 363, 510, 514, 722, 726, 1023, 1024};
/* The largest size of a mean in the sweep, and the size below which samples are drawn. */
enum { SWEPT = 6, LOUD = 100, HIGHEST = 8388607, DEAD_SPREAD = 7, PRINTED = 20 };

/* A night of m periods: one period alone, or behind a run-in. */
static struct night {
    int is_capture;
    uint32_t m;
    int32_t y[(MOST_M + 1) * MOST_P];
} nights[MOST_NIGHTS];
static size_t night_count;

/* A campaign's register with its signal, the periods that stand, twice its response over (P+1), and the total of its nights at each place. */
static uint32_t order, taps, periods_standing;
static size_t p;
static int signal[MOST_P];
static int64_t doubled[MOST_P], total[MOST_P];

static uint8_t days[METER_DAYS], periods[METER_SLOTS];
static uint16_t slots[METER_SLOTS], tags[MOST_P];
static int32_t store[MOST_NIGHTS * MOST_P], mean[MOST_P];
static int64_t sums[MOST_P], r[MOST_P], room[MOST_P + 1];
#define RECORD_IN(edition) order, taps, MOST_NIGHTS, edition, days, METER_DAYS, slots, METER_SLOTS, periods, METER_SLOTS, \
                           store, MOST_NIGHTS * p, sums, p

/* Of the means at an order: how many were at an exact half, by the sign and by whether the lower neighbour is even. */
static int campaigns, means, halves, wrong, means_here, kinds[2][2];

static void fault(const char *what, uint32_t edition, size_t k) {
    if (wrong++ < PRINTED)
        printf("wrong: order %u, edition %u, %u periods, place %zu: %s: r %lld, mean %d\n", order, edition, periods_standing, k, what,
               (long long)r[k], mean[k]);
}

static void must(int held, const char *what) {
    if (!held) {
        printf("wrong: order %u: %s\n", order, what);
        exit(1);
    }
}

static uint64_t seed = 1;
static uint32_t below(uint32_t limit) {
    seed = seed * 6364136223846793005u + 1442695040888963407u;
    return (uint32_t)(seed >> 33) % limit;
}
static int32_t between(int32_t low, int32_t high) { return low + (int32_t)below((uint32_t)(high - low + 1)); }

/* ---- the plain arithmetic ---- */

/* The largest whole number that is not above a/b. */
static int64_t lower_of(int64_t a, int64_t b) { return a >= 0 ? a / b : -((b - 1 - a) / b); }

/* The nearest whole number to a/b, at an exact half away from zero in edition 1 and to the even neighbour in edition 2. */
static int64_t rounded(int64_t a, int64_t b, uint32_t edition) {
    int64_t lower = lower_of(a, b), twice_over = 2 * (a - lower * b);
    if (twice_over != b)
        return twice_over < b ? lower : lower + 1;
    if (edition == METER_HALVES_AWAY)
        return a < 0 ? lower : lower + 1;
    return lower % 2 == 0 ? lower : lower + 1;
}

static void step_register(void) {
    uint32_t window = (uint32_t)p;
    for (size_t k = 0; k < p; k++) {
        signal[k] = window & 1 ? -1 : 1;
        window = window >> 1 | (uint32_t)__builtin_parity(window & taps) << (order - 1);
    }
}

/* r(k), by document 01's formula. */
static int64_t response_at(size_t k) {
    int64_t c = 0, all = 0;
    for (size_t j = 0; j < p; j++) {
        c += total[j] * signal[(j + p - k) % p];
        all += total[j];
    }
    return c - all;
}

/* ---- a campaign with a response given beforehand ---- */

/* Half of an odd total is no whole number, so one place gives way. A nudge of 1 or -1 at a place moves about half of r by 2, the least there is. */
static void lay_total(int nudge) {
    int64_t all = 0;
    for (size_t k = 0; k < p; k++)
        all += doubled[k];
    doubled[p - 1] += all % 2 != 0;
    for (size_t j = 0; j < p; j++) {
        total[j] = 0;
        for (size_t i = 0; i < p; i++)
            total[j] += doubled[i] * signal[(j + p - i) % p];
        total[j] /= 2;
    }
    total[below((uint32_t)p)] += nudge;
}

static int32_t *counted(struct night *night) { return night->y + (night->is_capture ? p : 0); }

/* The last period of all takes what the others leave. */
static void lay_nights(void) {
    int64_t rest[MOST_P];
    memcpy(rest, total, sizeof rest);
    for (size_t i = 0; i < night_count; i++) {
        int32_t *y = counted(&nights[i]);
        for (size_t j = 0; j < p; j++)
            nights[i].y[j] = HIGHEST;
        for (size_t j = 0; j < nights[i].m * p; j++) {
            int last = i + 1 == night_count && j + p >= nights[i].m * p;
            y[j] = last ? (int32_t)rest[j % p] : between(-LOUD, LOUD);
            rest[j % p] -= y[j];
        }
    }
}

static int none_is_dead(void) {
    for (size_t i = 0; i < night_count; i++) {
        const int32_t *y = counted(&nights[i]);
        int32_t least = y[0], most = y[0];
        for (size_t j = 0; j < nights[i].m * p; j++) {
            least = y[j] < least ? y[j] : least;
            most = y[j] > most ? y[j] : most;
        }
        if (most - least <= DEAD_SPREAD)
            return 0;
    }
    return 1;
}

static void enter_nights(uint32_t edition) {
    uint32_t period, state, answer;
    size_t value;
    must(meter_start(RECORD_IN(edition), &period) == METER_ACCEPTED, "a start");
    for (uint32_t i = 0; i < night_count; i++) {
        const struct night *night = &nights[i];
        if (night->is_capture)
            answer = meter_capture(RECORD_IN(edition), i + 1, night->m, night->y, (night->m + 1) * p, &state, &value);
        else
            answer = meter_enter(RECORD_IN(edition), i + 1, night->y, p, &state, &value);
        must(answer == METER_ACCEPTED && state == METER_STANDING, "a night");
    }
}

static void ask(uint32_t edition) {
    int64_t divisor = (int64_t)(p + 1) * periods_standing;
    must(meter_response(RECORD_IN(edition), r, p, mean, p, room, p + 1, tags, p) == METER_ACCEPTED, "a response");
    for (size_t k = 0; k < p; k++) {
        int64_t a = response_at(k);
        if (r[k] != a)
            fault("not r", edition, k);
        if (mean[k] != rounded(a, divisor, edition))
            fault("not the mean", edition, k);
    }
}

static void count_halves(void) {
    int64_t divisor = (int64_t)(p + 1) * periods_standing;
    for (size_t k = 0; k < p; k++) {
        int64_t lower = lower_of(r[k], divisor);
        means_here++;
        if (2 * (r[k] - lower * divisor) == divisor)
            kinds[r[k] < 0][lower % 2 == 0]++;
    }
}

/* Begun in one of the editions, asked in both. */
static void try_campaign(int nudge) {
    lay_total(nudge);
    for (int tries = 0; lay_nights(), !none_is_dead(); tries++) {
        /* One night of one period is all of the total. */
        if (tries == 10)
            return;
    }
    enter_nights(campaigns % 2 == 0 ? METER_HALVES_AWAY : METER_HALVES_TO_EVEN);
    ask(METER_HALVES_AWAY);
    ask(METER_HALVES_TO_EVEN);
    count_halves();
    campaigns++;
}

/* ---- which campaigns ---- */

static void draw_nights(size_t count) {
    night_count = count;
    periods_standing = 0;
    for (size_t i = 0; i < count; i++) {
        nights[i].is_capture = below(2) == 1;
        nights[i].m = nights[i].is_capture ? 1 + below(SMALL_M) : 1;
        periods_standing += nights[i].m;
    }
}

/* Captures of 16 periods, and one of those that are left. */
static void lay_periods(uint32_t count) {
    periods_standing = count;
    for (night_count = 0; count > 0; night_count++) {
        nights[night_count].is_capture = 1;
        nights[night_count].m = count < MOST_M ? count : MOST_M;
        count -= nights[night_count].m;
    }
}

/* Half of the means at an exact half, a quarter next to one, a quarter anywhere. */
static void draw_response(void) {
    int32_t n = (int32_t)periods_standing;
    for (size_t k = 0; k < p; k++) {
        int32_t at_half = n * (2 * between(-SWEPT, SWEPT) + 1);
        switch (below(4)) {
        case 0:
        case 1: doubled[k] = at_half; break;
        case 2: doubled[k] = at_half + (below(2) == 0 ? 1 : -1); break;
        default: doubled[k] = between(-2 * SWEPT * n, 2 * SWEPT * n); break;
        }
    }
}

/* Every half from -SWEPT to SWEPT, and what lies between two in equal steps, P-1 places at a time. */
static void sweep(int nudge) {
    int32_t n = (int32_t)periods_standing;
    for (int32_t from = -2 * SWEPT * n; from <= 2 * SWEPT * n; from += (int32_t)p - 1) {
        for (size_t k = 0; k + 1 < p; k++)
            doubled[k] = from + (int32_t)k;
        doubled[p - 1] = n;
        try_campaign(nudge);
    }
}

/* Few halves, or few of a kind, would try nothing. */
static void hold_halves(void) {
    int here = kinds[0][0] + kinds[0][1] + kinds[1][0] + kinds[1][1];
    if (4 * here < means_here) {
        wrong++;
        printf("wrong: order %u: only %d of %d means are at an exact half\n", order, here, means_here);
    }
    for (int i = 0; i < 4; i++)
        if (8 * kinds[i / 2][i % 2] < here) {
            wrong++;
            printf("wrong: order %u: only %d of %d halves are %s with an %s lower neighbour\n", order, kinds[i / 2][i % 2], here,
                   i / 2 ? "negative" : "positive", i % 2 ? "even" : "odd");
        }
    means += means_here;
    halves += here;
}

static void at_order(uint32_t of_order) {
    order = of_order;
    p = ((size_t)1 << order) - 1;
    must(meter_default_taps(order, &taps) == METER_ACCEPTED, "an order has no taps");
    step_register();
    means_here = 0;
    memset(kinds, 0, sizeof kinds);
    for (size_t count = 1; count <= SMALL_NIGHTS; count++) {
        draw_nights(count);
        for (int nudge = -1; nudge <= 1; nudge++)
            sweep(nudge);
        for (int i = 0; i < CAMPAIGNS_DRAWN; i++) {
            draw_nights(count);
            draw_response();
            try_campaign(i % 4 == 0 ? 1 : i % 4 == 1 ? -1 : 0);
        }
    }
    for (size_t i = 0; i < sizeof large / sizeof *large * LARGE_DRAWN; i++) {
        lay_periods(large[i / LARGE_DRAWN]);
        draw_response();
        try_campaign(i % 4 == 0 ? 1 : i % 4 == 1 ? -1 : 0);
    }
    hold_halves();
}

int main(void) {
    for (uint32_t of_order = LEAST_ORDER; of_order <= MOST_ORDER; of_order++)
        at_order(of_order);
    printf("halves at orders %d to %d: %d campaigns in both editions, %d means in each, %d of them at an exact half, %d wrong\n", LEAST_ORDER, MOST_ORDER,
           campaigns, means, halves, wrong);
    return wrong != 0;
}
