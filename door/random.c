/* random SEED COUNT: random calls of every function of meter.h, each with the line that it prints. `second door SEED COUNT` draws the same
 * calls in the same order, makes them of its own functions, and prints the same lines. */
#include "meter.h"
#include <inttypes.h>
#include <stdio.h>
#include <stdlib.h>
#include <string.h>

/* ---- the draws: splitmix64, a stream for each case ---- */

static uint64_t stream;

static uint64_t mix(uint64_t z) {
    z = (z ^ (z >> 30)) * 0xBF58476D1CE4E5B9u;
    z = (z ^ (z >> 27)) * 0x94D049BB133111EBu;
    return z ^ (z >> 31);
}

static uint64_t below(uint64_t limit) {
    stream += 0x9E3779B97F4A7C15u;
    return mix(stream) % limit;
}

static int32_t between(int64_t low, int64_t high) {
    return (int32_t)(low + (int64_t)below((uint64_t)(high - low + 1)));
}

static uint32_t any_order(void) {
    static const uint32_t outside[4] = {0, 1, 17, 33};
    uint64_t a = below(40);
    if (a == 0)
        return outside[below(4)];
    return (uint32_t)(a < 5 ? 11 + below(6) : 2 + below(9));
}

static size_t period_of(uint32_t order) {
    return order < 2 || order > 16 ? 7 : ((size_t)1 << order) - 1;
}

/* A register's first return to all ones: 1, one above 1 that divides P, one that does not, and P. Those before MAXIMAL are the short kinds. */
enum { ONE, DIVIDING, NOT_DIVIDING, MAXIMAL };
/* Stays at all ones at every order. */
enum { STILL_TAPS = 1 };

static uint64_t kind_of(uint32_t order, uint32_t taps) {
    uint32_t ones = (uint32_t)period_of(order), window = ones, steps = 0;
    do {
        window = window >> 1 | (uint32_t)__builtin_parity(window & taps) << (order - 1);
        steps++;
    } while (window != ones);
    return steps == ones ? MAXIMAL : steps == 1 ? ONE : ones % steps == 0 ? DIVIDING : NOT_DIVIDING;
}

/* The first taps of a drawn short kind from drawn ones on, going round; taps that stay at all ones where the order has none of the kind. */
static uint32_t short_taps(uint32_t order) {
    uint64_t kind = below(MAXIMAL), odd_taps = (uint64_t)1 << (order - 1), from = below(odd_taps);
    for (uint64_t i = 0; i < odd_taps; i++) {
        uint32_t taps = (uint32_t)(2 * ((from + i) % odd_taps) + 1);
        if (kind_of(order, taps) == kind)
            return taps;
    }
    return STILL_TAPS;
}

static uint32_t any_taps(uint32_t order) {
    if (order < 2 || order > 16)
        return (uint32_t)below(65536);
    uint64_t all = (uint64_t)1 << order, b = below(16);
    if (b == 0)
        return (uint32_t)(all + below(4));
    if (b == 1)
        return (uint32_t)(2 * below(all / 2));
    if (b < 4)
        return (uint32_t)below(all);
    if (b < 7)
        return short_taps(order);
    uint32_t taps = 0;
    meter_default_taps(order, &taps);
    return taps;
}

static size_t near(size_t n) {
    uint64_t c = below(12);
    return c == 0 ? n - 1 : c < 7 ? n : n + below(5);
}

/* Every fourth time twice as many as are needed, so that a call which clears all of them shows. */
static size_t near_tags(size_t p) {
    return below(4) == 0 ? 2 * p : near(p);
}

enum { LOWEST = -8388608, HIGHEST = 8388607 };

/* The smallest sample of a quiet recording: at a rail, next to one, around 0, near 0 or anywhere between the rails. */
static int32_t quiet_smallest(int32_t spread) {
    switch (below(8)) {
    case 0: return LOWEST;
    case 1: return HIGHEST - spread;
    case 2: return LOWEST + 1;
    case 3: return HIGHEST - 1 - spread;
    case 4: return -between(0, spread);
    case 5: return between(-100, 100);
    default: return between(LOWEST + 1, HIGHEST - 1 - spread);
    }
}

/* The first place, the last or any. */
static size_t end_or_any(size_t n) {
    uint64_t end = below(3);
    return end == 0 ? 0 : end == 1 ? n - 1 : below(n);
}

/* At least two samples, the largest 0 to 9 above the smallest and most often 5 to 9: 7 is the most of a dead input. The others keep to a part of the
 * spread, so that one sample alone can make it. */
static void draw_quiet(int32_t *y, size_t n) {
    int32_t spread = below(3) == 0 ? between(0, 9) : between(5, 9), smallest = quiet_smallest(spread);
    int32_t from = between(0, spread), to = between(from, spread);
    size_t at_smallest = end_or_any(n), at_largest = end_or_any(n);
    if (at_largest == at_smallest)
        at_largest = (at_smallest + 1) % n;
    for (size_t j = 0; j < n; j++)
        y[j] = between(smallest + from, smallest + to);
    y[at_smallest] = smallest;
    y[at_largest] = smallest + spread;
}

/* Quiet ones, one above the range, one at the lower rail, anything between the rails, or small ones. */
static void draw_samples(int32_t *y, size_t n) {
    uint64_t style = below(6);
    if (style < 2) {
        draw_quiet(y, n);
        return;
    }
    size_t loud = below(n);
    for (size_t j = 0; j < n; j++) {
        switch (style) {
        case 2: y[j] = j == loud ? HIGHEST + 1 : between(-100, 100); break;
        case 3: y[j] = j == loud ? LOWEST : between(-100, 100); break;
        case 4: y[j] = between(LOWEST + 1, HIGHEST - 1); break;
        default: y[j] = between(-50, 50); break;
        }
    }
}

/* ---- memory: place i holds i mod 7 at first ---- */

#define FILLED(type, name, n) \
    type *name = malloc((n) * sizeof(type)); \
    for (size_t i_ = 0; i_ < (n); i_++) \
        name[i_] = (type)(i_ % 7)

#define DIGEST(name, type) \
    static int64_t name(const type *l, size_t n) { \
        int64_t d = 0; \
        for (size_t i = 0; i < n; i++) \
            d = (131 * d + ((int64_t)l[i] % 1000003 + 1000003) % 1000003) % 1000003; \
        return d; \
    }
DIGEST(d8, uint8_t)
DIGEST(d16, uint16_t)
DIGEST(d32, int32_t)
DIGEST(d64, int64_t)
DIGEST(signs_digest, int8_t)

/* ---- the cases ---- */

static uint64_t number;

/* What the variable for a period holds before the call, so that a period which is wrongly written or not written shows. */
enum { UNWRITTEN = 99999 };

static void taps_case(void) {
    uint32_t order = any_order(), taps = any_taps(order), period = UNWRITTEN, found = 7;
    uint32_t answer = meter_taps(order, taps, &period);
    printf("%" PRIu64 " taps %u %u\n", number, answer, period);
    answer = meter_default_taps(order, &found);
    printf("%" PRIu64 " default %u %u\n", number, answer, found);
}

static void sequence_case(void) {
    uint32_t order = any_order(), taps = any_taps(order), period = UNWRITTEN;
    size_t n = near(period_of(order));
    FILLED(uint8_t, out, n);
    uint32_t answer = meter_sequence(order, taps, out, n, &period);
    printf("%" PRIu64 " sequence %u %u %" PRId64 "\n", number, answer, period, d8(out, n));
    free(out);
}

static void player_case(void) {
    uint32_t order = any_order(), taps = any_taps(order), o = 1, t = 2, window = 3, count = 4, answer;
    int32_t sign = 9;
    answer = meter_player_new(order, taps, &o, &t, &window, &count);
    printf("%" PRIu64 " new %u %u %u %u %u\n", number, answer, o, t, window, count);
    if (below(4) == 0)
        window = (uint32_t)below(131072);
    if (below(4) == 0)
        count = 4294967295u - (uint32_t)below(4);
    for (uint64_t n = below(20); n > 0; n--) {
        answer = meter_player_step(&o, &t, &window, &count, &sign);
        printf("%" PRIu64 " step %u %d %u %u %u %u\n", number, answer, sign, o, t, window, count);
    }
    size_t n = below(40);
    FILLED(int8_t, signs, n + 1);
    answer = meter_player_play(&o, &t, &window, &count, signs, n);
    printf("%" PRIu64 " play %u %" PRId64 " %u %u %u %u\n", number, answer, signs_digest(signs, n + 1), o, t, window, count);
    free(signs);
}

static void recording_case(void) {
    uint32_t order = any_order(), taps = any_taps(order), period = UNWRITTEN;
    size_t p = period_of(order), n = near(p), a = near(p), b = near(p + 1), c = near_tags(p);
    FILLED(int32_t, y, n);
    FILLED(int64_t, out, a);
    FILLED(int64_t, room, b);
    FILLED(uint16_t, tags, c);
    draw_samples(y, n);
    uint32_t answer = meter_recording(order, taps, y, n, out, a, room, b, tags, c, &period);
    printf("%" PRIu64 " recording %u %u %" PRId64 " %" PRId64 " %" PRId64 "\n", number, answer, period, d64(out, a), d64(room, b), d16(tags, c));
    free(y);
    free(out);
    free(room);
    free(tags);
}

static void predict_case(void) {
    uint32_t order = any_order(), taps = any_taps(order), period = UNWRITTEN;
    size_t p = period_of(order), n = near(p), a = near(p);
    FILLED(int32_t, h, n);
    FILLED(int32_t, out, a);
    draw_samples(h, n);
    uint32_t answer = meter_predict(order, taps, h, n, out, a, &period);
    printf("%" PRIu64 " predict %u %u %" PRId64 "\n", number, answer, period, d32(out, a));
    free(h);
    free(out);
}

/* The room holds zeros in every second case, and in all of the long orders, where another takes P * P steps. */
static void predict_in_room_case(void) {
    uint32_t order = any_order(), taps = any_taps(order), period = UNWRITTEN;
    size_t p = period_of(order), n = near(p), a = near(p), b = near(p + 1);
    FILLED(int32_t, h, n);
    FILLED(int32_t, out, a);
    FILLED(int64_t, room, b);
    if (below(2) == 0 || order > 12)
        memset(room, 0, b * sizeof *room);
    draw_samples(h, n);
    uint32_t answer = meter_predict_in_room(order, taps, h, n, out, a, room, b, &period);
    printf("%" PRIu64 " predict in a room %u %u %" PRId64 " %" PRId64 "\n", number, answer, period, d32(out, a), d64(room, b));
    free(h);
    free(out);
    free(room);
}

/* The length of one period, one in fifteen a sample too short or too long. */
static size_t about_a_period(size_t p) {
    return below(15) == 0 ? p - 1 + 2 * below(2) : p;
}

/* ---- Legendre sequences: the three calls at a drawn period ---- */

enum { SHORTEST = 7, TOO_FEW = 2 };

/* One in six is not offered: 0, another prime, the largest number, one beside an offered period, or one with higher bits. */
static uint32_t any_legendre_period(void) {
    static const uint32_t offered[15] = {SHORTEST, 11, 19, 23, 31, 43, 47, 59, 67, 71, 79, 83, 103, 107, 127};
    static const uint32_t other[6] = {0, 3, 13, 17, 131, UINT32_MAX};
    uint32_t p = offered[below(15)];
    switch (below(30)) {
    case 0: return other[below(6)];
    case 1: return p - 1;
    case 2: return p + 1;
    case 3: return p + (1u << 8);
    case 4: return p + (1u << 16);
    default: return p;
    }
}

/* Any samples; or every second time ones of a size at which some predictions stay in range and some do not. */
static void draw_response(int32_t *h, size_t n) {
    if (below(2) == 0) {
        draw_samples(h, n);
        return;
    }
    int32_t most = HIGHEST / between(2, (int64_t)n);
    for (size_t i = 0; i < n; i++)
        h[i] = between(-most, most);
}

static void legendre_sequence(uint32_t p, size_t places) {
    size_t a = near(places);
    FILLED(uint8_t, out, a);
    uint32_t answer = meter_legendre_sequence(p, out, a);
    printf("%" PRIu64 " legendre sequence %u %" PRId64 "\n", number, answer, d8(out, a));
    free(out);
}

static void legendre_recording(uint32_t p, size_t places) {
    size_t n = about_a_period(places), a = near(places);
    FILLED(int32_t, y, n);
    FILLED(int64_t, out, a);
    draw_samples(y, n);
    uint32_t answer = meter_legendre_recording(p, y, n, out, a);
    printf("%" PRIu64 " legendre recording %u %" PRId64 "\n", number, answer, d64(out, a));
    free(y);
    free(out);
}

static void legendre_predict(uint32_t p, size_t places) {
    size_t n = about_a_period(places), a = near(places);
    FILLED(int32_t, h, n);
    FILLED(int32_t, out, a);
    draw_response(h, n);
    uint32_t answer = meter_legendre_predict(p, h, n, out, a);
    printf("%" PRIu64 " legendre predict %u %" PRId64 "\n", number, answer, d32(out, a));
    free(h);
    free(out);
}

/* Lent as many places as the lowest byte of the period says, so that one who looks at no more of it finds all lengths right. */
static void legendre_case(void) {
    uint32_t p = any_legendre_period();
    size_t low = p % 256, places = low <= TOO_FEW ? SHORTEST : low;
    legendre_sequence(p, places);
    legendre_recording(p, places);
    legendre_predict(p, places);
}

/* ---- the nights of a campaign ---- */

/* ONE_TOO_MANY is more periods than any capture may have, few enough to bring all their samples. */
enum { MOST_PERIODS = 16, ONE_TOO_MANY = MOST_PERIODS + 1 };

static uint32_t any_day(void) {
    static const uint32_t odd[4] = {0, 367, 366, 400};
    return below(20) == 0 ? odd[below(4)] : (uint32_t)(1 + below(6));
}

/* Most often in range; the largest is one whose m + 1 is no 32-bit number. */
static uint32_t any_periods(void) {
    static const uint32_t all[13] = {0, 1, 1, 2, 2, 3, 4, 5, MOST_PERIODS, MOST_PERIODS, ONE_TOO_MANY, 255, UINT32_MAX};
    return all[below(13)];
}

/* Of a run-in and m periods, one in five a sample or a period too short or too long. */
static size_t drawn_length(uint32_t m, size_t p) {
    if (m > ONE_TOO_MANY)
        return p * below(3);
    size_t n = ((size_t)m + 1) * p;
    switch (below(20)) {
    case 0: return n - 1;
    case 1: return n + 1;
    case 2: return n - p;
    case 3: return n + p;
    default: return n;
    }
}

/* All at a rail, one at a rail, one above the range, or small ones. */
static void draw_run_in(int32_t *y, size_t p) {
    uint64_t style = below(8);
    size_t loud = below(p);
    int32_t rail = below(2) == 0 ? HIGHEST : LOWEST;
    for (size_t j = 0; j < p; j++) {
        if (style < 2 || (style < 4 && j == loud))
            y[j] = rail;
        else
            y[j] = style == 4 && j == loud ? HIGHEST + 1 : between(-50, 50);
    }
}

/* Any samples, now and then with a rail at the first place or at the last; or each place next to a rail in every period, which sums to a slot's
 * bounds; or each second period the one before it upside down, of which an even number sums to zeros. */
static void draw_counting(int32_t *y, size_t n, size_t p) {
    uint64_t style = below(8);
    if (style < 2) {
        for (size_t j = 0; j < n; j++)
            if (style == 0)
                y[j] = j % p % 2 == 0 ? LOWEST + 1 : HIGHEST - 1;
            else
                y[j] = j / p % 2 == 0 ? 9 : -9;
        return;
    }
    draw_samples(y, n);
    if (below(6) == 0) {
        size_t end = below(2) == 0 ? 0 : n - 1;
        y[end] = below(2) == 0 ? HIGHEST : LOWEST;
    }
}

static void draw_capture(int32_t *y, size_t n, size_t p) {
    if (n == 0)
        return;
    if (n <= p) {
        draw_samples(y, n);
        return;
    }
    draw_run_in(y, p);
    draw_counting(y + p, n - p, p);
}

/* A night of one period or a capture of m, its n samples in a list of its own. */
struct night {
    int is_capture;
    uint32_t m;
    size_t n;
    int32_t *y;
};

static struct night drawn_night(int is_capture, size_t p) {
    uint32_t m = is_capture ? any_periods() : 1;
    size_t n = is_capture ? drawn_length(m, p) : about_a_period(p);
    /* One place more, so that the list of no samples has a pointer too. */
    FILLED(int32_t, y, n + 1);
    if (is_capture)
        draw_capture(y, n, p);
    else
        draw_samples(y, n);
    return (struct night){is_capture, m, n, y};
}

static const char *kind_word(const struct night *night) {
    return night->is_capture ? " capture" : "";
}

/* The two numbers of a verdict, 9 and 9 where judging was refused. */
struct pair {
    uint32_t shown;
    size_t place;
};

static struct pair judged(uint32_t order, uint32_t taps, const struct night *night) {
    uint32_t state = 9, period = UNWRITTEN, answer;
    size_t value = 9;
    if (night->is_capture)
        answer = meter_judge_capture(order, taps, night->m, night->y, night->n, &state, &value, &period);
    else
        answer = meter_judge(order, taps, night->y, night->n, &state, &value, &period);
    printf("%" PRIu64 " judge%s %u %u %zu %u\n", number, kind_word(night), answer, state, value, period);
    return (struct pair){state, value};
}

static void judge_case(void) {
    uint32_t order = any_order(), taps = any_taps(order);
    struct night night = drawn_night(below(2) == 1, period_of(order));
    judged(order, taps, &night);
    free(night.y);
}

/* ---- a campaign: its start, and a run of calls on what that left, some on a damaged record ---- */

struct held {
    uint32_t order, taps, count, edition;
    uint8_t *days;
    uint16_t *slots;
    uint8_t *periods;
    int32_t *store;
    int64_t *sums;
    size_t days_len, slots_len, periods_len, store_len, sums_len;
};
#define RECORD_IN(edition) c->order, c->taps, c->count, edition, c->days, c->days_len, c->slots, c->slots_len, c->periods, c->periods_len, \
                           c->store, c->store_len, c->sums, c->sums_len
#define RECORD RECORD_IN(c->edition)
#define MEMORY d8(c->days, c->days_len), d16(c->slots, c->slots_len), d8(c->periods, c->periods_len), \
               d32(c->store, c->store_len), d64(c->sums, c->sums_len)
#define MEMORY_PRINTED "%" PRId64 " %" PRId64 " %" PRId64 " %" PRId64 " %" PRId64 "\n"

/* Of two editions the other one. */
static uint32_t other_edition(const struct held *c) { return METER_HALVES_AWAY + METER_HALVES_TO_EVEN - c->edition; }

/* Kinds of damage: those from TO_AN_EDGE to TO_ONE_PERIOD strike a used slot, IN_THE_FIRST_C one of the first C, which may be free. After OTHER_EDITION
 * a record holds together where it did before. KINDS is none. */
enum {
    DAY, SLOT, SAMPLE, SUM, COUNT, TO_AN_EDGE, TO_NO_PERIODS, TO_TOO_MANY, TO_ONE_PERIOD, ANY_PERIODS, IN_THE_FIRST_C, OTHER_EDITION, NO_EDITION, KINDS
};

/* Where damage strikes, and what stood there. */
struct damage {
    size_t day, slot, period, sample, sum;
    uint8_t state_was;
    uint16_t slot_was;
    uint8_t period_was;
    int32_t sample_was;
    int64_t sum_was;
    uint32_t count_was, edition_was;
};

/* The first used slot from `slot` on that the periods reach, going round; past all slots where there is none. */
static size_t used_slot(const struct held *c, size_t slot) {
    for (size_t i = 0; i < c->slots_len; i++) {
        size_t s = (slot + i) % c->slots_len;
        if (c->slots[s] != 0 && s < c->periods_len)
            return s;
    }
    return c->slots_len;
}

/* A drawn place of each list; where the kind strikes a used slot, its places. The search for one begins in the first C, so that each used slot is
 * struck. */
static struct damage drawn_places(const struct held *c, uint64_t kind) {
    size_t day = below(c->days_len), slot = below(c->slots_len), period = below(c->periods_len);
    size_t sample = below(c->store_len), sum = below(c->sums_len), first_c = c->count == 0 ? 1 : c->count;
    size_t used = used_slot(c, slot % first_c);
    if (kind >= TO_AN_EDGE && kind <= TO_ONE_PERIOD && used < c->slots_len) {
        period = used;
        if (used * period_of(c->order) + sum < c->store_len)
            sample = used * period_of(c->order) + sum;
    }
    if (kind == IN_THE_FIRST_C)
        period %= first_c;
    return (struct damage){day, slot, period, sample, sum, c->days[day], c->slots[slot], c->periods[period], c->store[sample], c->sums[sum], c->count,
                           c->edition};
}

/* A stored number moves to the lowest or the highest that its periods allow, or one beyond, and the sum of its place with it, so that only the slot
 * itself tells. */
static void move_to_edge(struct held *c, const struct damage *d, uint64_t edge) {
    int32_t m = c->periods[d->period], lowest = (LOWEST + 1) * m, highest = (HIGHEST - 1) * m;
    const int32_t edges[4] = {lowest, lowest - 1, highest, highest + 1};
    c->store[d->sample] = edges[edge];
    c->sums[d->sum] += (int64_t)edges[edge] - d->sample_was;
}

/* One call in five meets damage. */
static struct damage damaged(struct held *c) {
    static const uint32_t no_edition[4] = {0, 3, 258, UINT32_MAX};
    uint64_t kind = below(5) == 0 ? below(KINDS) : KINDS;
    struct damage d = drawn_places(c, kind);
    uint64_t edge = below(4);
    switch (kind) {
    case DAY: c->days[d.day]++; break;
    case SLOT: c->slots[d.slot] ^= 1; break;
    case SAMPLE: c->store[d.sample]++; break;
    case SUM: c->sums[d.sum]--; break;
    case COUNT: c->count++; break;
    case TO_AN_EDGE: move_to_edge(c, &d, edge); break;
    case TO_NO_PERIODS: c->periods[d.period] = 0; break;
    case TO_TOO_MANY: c->periods[d.period] = ONE_TOO_MANY; break;
    case TO_ONE_PERIOD: c->periods[d.period] = 1; break;
    case ANY_PERIODS:
    case IN_THE_FIRST_C: c->periods[d.period]++; break;
    case OTHER_EDITION: c->edition = other_edition(c); break;
    case NO_EDITION: c->edition = no_edition[edge]; break;
    }
    return d;
}

static void mend(struct held *c, const struct damage *d) {
    c->days[d->day] = d->state_was;
    c->slots[d->slot] = d->slot_was;
    c->periods[d->period] = d->period_was;
    c->store[d->sample] = d->sample_was;
    c->sums[d->sum] = d->sum_was;
    c->count = d->count_was;
    c->edition = d->edition_was;
}

static uint32_t enter_call(struct held *c) {
    uint32_t day = any_day(), state = 9;
    size_t value = 9;
    struct night night = drawn_night(0, period_of(c->order));
    uint32_t answer = meter_enter(RECORD, day, night.y, night.n, &state, &value);
    printf("%" PRIu64 " enter %u %u %zu " MEMORY_PRINTED, number, answer, state, value, MEMORY);
    free(night.y);
    return answer;
}

static uint32_t capture_call(struct held *c) {
    uint32_t day = any_day(), state = 9;
    size_t value = 9;
    struct night night = drawn_night(1, period_of(c->order));
    uint32_t answer = meter_capture(RECORD, day, night.m, night.y, night.n, &state, &value);
    printf("%" PRIu64 " capture %u %u %zu " MEMORY_PRINTED, number, answer, state, value, MEMORY);
    free(night.y);
    return answer;
}

/* Numbers of states that a pair is drawn from: the five there are, and one that is none. */
enum { STATES_DRAWN = METER_WITHDRAWN + 2 };

/* Every second pair is what judging said; of the others the state, the place or both are drawn, or the place is the next. */
static struct pair handed(struct pair said, size_t p) {
    switch (below(8)) {
    case 4: said.shown = (uint32_t)below(STATES_DRAWN); break;
    case 5: said.place++; break;
    case 6:
        said.shown = (uint32_t)below(STATES_DRAWN);
        said.place = below(p);
        break;
    case 7: said.place = below(p); break;
    }
    return said;
}

/* The night is judged, and filed with what judging said or with another pair. */
static uint32_t file_call(struct held *c, int is_capture) {
    uint32_t day = any_day(), state = 9, answer;
    size_t p = period_of(c->order), value = 9;
    struct night night = drawn_night(is_capture, p);
    struct pair pair = handed(judged(c->order, c->taps, &night), p);
    if (is_capture)
        answer = meter_file_capture(RECORD, day, night.m, night.y, night.n, pair.shown, pair.place, &state, &value);
    else
        answer = meter_file(RECORD, day, night.y, night.n, pair.shown, pair.place, &state, &value);
    printf("%" PRIu64 " file%s %u %u %zu " MEMORY_PRINTED, number, kind_word(&night), answer, state, value, MEMORY);
    free(night.y);
    return answer;
}

static uint32_t withdraw_call(struct held *c) {
    uint32_t answer = meter_withdraw(RECORD, any_day());
    printf("%" PRIu64 " withdraw %u " MEMORY_PRINTED, number, answer, MEMORY);
    return answer;
}

static uint32_t counts_call(struct held *c) {
    uint32_t u = 9, s = 9, o = 9, d = 9, w = 9;
    uint32_t answer = meter_counts(RECORD, &u, &s, &o, &d, &w);
    printf("%" PRIu64 " counts %u %u %u %u %u %u\n", number, answer, u, s, o, d, w);
    return answer;
}

#define REPORT d64(r, a), d32(mean, m), d64(room, w), d16(tags, t)
#define REPORT_PRINTED "%" PRId64 " %" PRId64 " %" PRId64 " %" PRId64 "\n"

/* A response, once more in the other edition where it is accepted, or a summary, with room drawn alike for both. */
static uint32_t asked_call(struct held *c, int summed) {
    size_t p = period_of(c->order), a = near(p), m = near(p), w = near(p + 1), t = near_tags(p);
    FILLED(int64_t, r, a);
    FILLED(int32_t, mean, m);
    FILLED(int64_t, room, w);
    FILLED(uint16_t, tags, t);
    uint32_t answer, stands = 9;
    double levels[3] = {9, 9, 9};
    if (summed) {
        uint64_t bits[3];
        answer = meter_summary(RECORD, room, w, tags, t, &stands, &levels[0], &levels[1], &levels[2]);
        memcpy(bits, levels, sizeof bits);
        printf("%" PRIu64 " summary %u %u %" PRIu64 " %" PRIu64 " %" PRIu64 " %" PRId64 " %" PRId64 "\n", number, answer,
               stands, bits[0], bits[1], bits[2], d64(room, w), d16(tags, t));
    } else {
        answer = meter_response(RECORD, r, a, mean, m, room, w, tags, t);
        printf("%" PRIu64 " response %u " REPORT_PRINTED, number, answer, REPORT);
        if (answer == METER_ACCEPTED) {
            uint32_t again = meter_response(RECORD_IN(other_edition(c)), r, a, mean, m, room, w, tags, t);
            printf("%" PRIu64 " other edition %u " REPORT_PRINTED, number, again, REPORT);
        }
    }
    free(r);
    free(mean);
    free(room);
    free(tags);
    return answer;
}

static uint32_t campaign_call(struct held *c, uint64_t what) {
    if (what < 4)
        return enter_call(c);
    if (what < 8)
        return capture_call(c);
    if (what < 10)
        return withdraw_call(c);
    if (what == 10)
        return counts_call(c);
    if (what >= 12 && what < 18)
        return file_call(c, what >= 15);
    return asked_call(c, what == 11);
}

/* From this order on a campaign has few slots and few calls. */
enum { LONG_ORDER = 12 };

/* Most often the order's own, so that most starts are accepted. */
static uint32_t campaign_taps(uint32_t order) {
    uint64_t any = below(4) == 0;
    uint32_t taps = 0;
    return !any && meter_default_taps(order, &taps) == 0 ? taps : any_taps(order);
}

/* One in three has a single slot, which is soon used. */
static uint32_t any_count(uint32_t order) {
    static const uint32_t odd[3] = {0, 65, 64};
    uint32_t few = (uint32_t)(1 + below(order >= LONG_ORDER ? 3 : 8));
    uint64_t sort = below(15);
    if (sort == 0 && order < LONG_ORDER)
        return odd[below(3)];
    return sort > 0 && sort < 6 ? 1 : few;
}

/* One in ten is none. */
static uint32_t any_edition(void) {
    static const uint32_t none[5] = {0, 3, 257, 65538, UINT32_MAX};
    uint64_t a = below(10);
    return a == 0 ? none[below(5)] : a < 5 ? METER_HALVES_AWAY : METER_HALVES_TO_EVEN;
}

/* One table in twenty is too short. */
static size_t table_length(size_t n) {
    return below(20) == 0 ? n - 1 : n + below(3);
}

static void campaign_case(void) {
    uint32_t order = any_order(), taps = campaign_taps(order), count = any_count(order), edition = any_edition(), period = UNWRITTEN;
    size_t p = period_of(order), store_len = near((count == 0 ? 1 : count) * p), sums_len = near(p);
    size_t days_len = table_length(METER_DAYS), slots_len = table_length(METER_SLOTS), periods_len = table_length(METER_SLOTS);
    FILLED(uint8_t, days, days_len);
    FILLED(uint16_t, slots, slots_len);
    FILLED(uint8_t, periods, periods_len);
    FILLED(int32_t, store, store_len);
    FILLED(int64_t, sums, sums_len);
    struct held campaign = {order, taps, count, edition, days, slots, periods, store, sums, days_len, slots_len, periods_len, store_len, sums_len};
    struct held *c = &campaign;
    uint32_t started = meter_start(RECORD, &period);
    printf("%" PRIu64 " start %u %u " MEMORY_PRINTED, number, started, period, MEMORY);
    /* Where the start was refused the record is none, and every call is refused alike. */
    for (uint64_t steps = 2 + below(started == 0 && order < LONG_ORDER ? 15 : 4); steps > 0; steps--) {
        uint64_t what = below(22);
        struct damage d = damaged(c);
        if (campaign_call(c, what) == 15)
            mend(c, &d);
    }
    free(days);
    free(slots);
    free(periods);
    free(store);
    free(sums);
}

int main(int words, char **word) {
    if (words != 3)
        return fprintf(stderr, "usage: random SEED COUNT\n"), 2;
    uint64_t seed = strtoull(word[1], NULL, 10), count = strtoull(word[2], NULL, 10);
    static void (*const cases[10])(void) = {taps_case, sequence_case, player_case, recording_case, predict_case, predict_in_room_case,
                                            campaign_case, campaign_case, campaign_case, judge_case};
    for (number = 0; number < count; number++) {
        stream = mix(seed ^ mix(number + 1));
        cases[below(10)]();
    }
    for (; number < count + count / 10; number++) {
        stream = mix(seed ^ mix(number + 1));
        legendre_case();
    }
    return 0;
}
