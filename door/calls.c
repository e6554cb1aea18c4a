/* Calls every function of meter.h on document 01's numbers and on document 001's short sequence, asks for its refusals in words, holds a night that is
 * judged and filed to the same night entered, byte by byte, a campaign in one edition of the report rules to the same in the other, and the period of each
 * function that tells one to what meter.h says, at every refusal that the function has. Prints nothing but what is wrong, and a last line. */
#include "meter.h"
#include <stdio.h>
#include <string.h>

static int wrong;
static int made;

static void expect(int held, const char *what) {
    made++;
    if (!held) {
        wrong++;
        printf("wrong: %s\n", what);
    }
}
#define EXPECT(fact) expect((fact), #fact)

enum { ORDER = 3, TAPS = 3, P = 7, SLOT_COUNT = 2 };

static uint8_t days[METER_DAYS + 1];
static uint16_t slots[METER_SLOTS + 1];
static uint8_t periods[METER_SLOTS + 1];
static int32_t store[SLOT_COUNT * P + 1];
static int64_t sums[P + 1];
static int64_t r[P + 1];
static int32_t mean[P + 1];
static int64_t room[P + 2];
static uint16_t tags[P + 1];
static uint32_t period;

#define LENT_OF(n_days, n_slots, n_periods) days, n_days, slots, n_slots, periods, n_periods, store, SLOT_COUNT * P + 1, sums, P + 1
#define RECORD_IN(edition) ORDER, TAPS, SLOT_COUNT, edition, LENT_OF(METER_DAYS + 1, METER_SLOTS + 1, METER_SLOTS + 1)
#define RECORD RECORD_IN(METER_HALVES_AWAY)
#define ROOM room, P + 2, tags, P + 1

static int says(uint32_t answer, const char *words) {
    return strcmp(meter_explain(answer), words) == 0;
}

static uint32_t judged(uint32_t order, uint32_t taps) { return meter_taps(order, taps, &period); }

static void words(void) {
    EXPECT(says(METER_ACCEPTED, "accepted") && says(19, "unknown") && says(22, "unknown") && says(25, "unknown") && says(4294967295u, "unknown"));
    EXPECT(says(judged(17, 3), "order below 2 or above 16") && says(judged(2, 4), "taps not below 2^N"));
    EXPECT(says(judged(2, 2), "tap 0 clear") && says(judged(2, 1), "register not maximal"));
    EXPECT(says(METER_WRONG_LENGTH, "recording or response not exactly P long, capture not exactly (m+1)*P") && METER_WRONG_LENGTH == 5);
    EXPECT(says(METER_BEYOND_THE_PROGRAM, "the program only: order above 9, slots above 8, or 5 to 16 periods") && METER_BEYOND_THE_PROGRAM == 17);
    EXPECT(says(METER_PERIODS_OUT_OF_RANGE, "periods not 1 to 16") && METER_PERIODS_OUT_OF_RANGE == 18);
    EXPECT(says(METER_VERDICT_DIFFERS, "verdict handed in is not what judging gives") && METER_VERDICT_DIFFERS == 23);
    EXPECT(says(METER_EDITION_UNKNOWN, "edition not 1 or 2") && METER_EDITION_UNKNOWN == 24);
    EXPECT(METER_PERIOD_NOT_OFFERED == 25);
    for (uint32_t n = 0; n < 18; n++)
        EXPECT(!says(n, "unknown") && !says(n, meter_explain(n + 1)));
}

static void registers(void) {
    uint32_t taps = 7, o = 0, t = 0, window = 9, count = 9;
    int32_t sign = 0;
    uint8_t bits[P + 1] = {9, 9, 9, 9, 9, 9, 9, 9};
    int8_t signs[4];
    EXPECT(judged(2, 3) == 0 && judged(2, 1) == 4 && judged(2, 2) == 3 && judged(2, 4) == 2);
    EXPECT(judged(4, 15) == 4 && judged(4, 5) == 4 && judged(1, 3) == 1 && judged(17, 3) == 1);
    EXPECT(meter_default_taps(17, &taps) == 1 && taps == 7);
    EXPECT(meter_default_taps(16, &taps) == 0 && taps == 45);
    EXPECT(meter_sequence(3, 3, bits, 6, &period) == 6 && bits[0] == 9);
    EXPECT(meter_sequence(3, 3, bits, 8, &period) == 0 && memcmp(bits, (uint8_t[]){1, 1, 1, 0, 0, 1, 0, 9}, 8) == 0);
    EXPECT(meter_player_new(3, 4, &o, &t, &window, &count) == 3 && window == 9);
    EXPECT(meter_player_new(3, 3, &o, &t, &window, &count) == 0 && o == 3 && t == 3 && window == 7 && count == 0);
    count = 4294967295u;
    EXPECT(meter_player_step(&o, &t, &window, &count, &sign) == 0 && sign == -1 && window == 3 && count == 0);
    EXPECT(meter_player_play(&o, &t, &window, &count, signs, 4) == 0 && count == 4);
    EXPECT(signs[0] == -1 && signs[1] == -1 && signs[2] == 1 && signs[3] == 1);
    window = 8;
    EXPECT(meter_player_step(&o, &t, &window, &count, &sign) == 16 && sign == -1 && window == 8 && count == 4);
    EXPECT(meter_player_play(&o, &t, &window, &count, signs, 4) == 16 && count == 4);
}

static void recordings(void) {
    const int32_t h[P] = {2, 0, -1, 0, 0, 0, 0}, loud[P] = {8388607, 8388607};
    int32_t y[P + 1] = {0};
    y[P] = 9;
    r[P] = 9;
    room[P + 1] = 9;
    tags[P] = 9;
    EXPECT(meter_predict(ORDER, TAPS, h, 6, y, P + 1, &period) == 5);
    EXPECT(meter_predict(ORDER, TAPS, h, P, y, P + 1, &period) == 0);
    EXPECT(memcmp(y, (int32_t[]){-1, -3, -1, 3, 3, -3, 1, 9}, sizeof y) == 0);
    y[0] = 9;
    room[0] = 9;
    EXPECT(meter_predict_in_room(ORDER, TAPS, h, P, y, P + 1, room, P, &period) == 6 && y[0] == 9 && room[0] == 9);
    EXPECT(meter_predict_in_room(ORDER, TAPS, loud, P, y, P + 1, room, P + 2, &period) == 8 && y[0] == 9 && room[0] == 9);
    EXPECT(meter_predict_in_room(ORDER, TAPS, h, P, y, P + 1, room, P + 2, &period) == 0);
    EXPECT(memcmp(y, (int32_t[]){-1, -3, -1, 3, 3, -3, 1, 9}, sizeof y) == 0 && memcmp(room, (int64_t[]){0, 0, 0, 0, 0, 0, 0, 0, 9}, sizeof room) == 0);
    y[0] = 9;
    EXPECT(meter_predict_in_room(ORDER, TAPS, loud, P, y, P + 1, room, P + 2, &period) == 8 && y[0] == 9);
    EXPECT(memcmp(room, (int64_t[]){0, 0, 0, 0, 0, 0, 0, 0, 9}, sizeof room) == 0);
    y[0] = -1;
    EXPECT(meter_recording(ORDER, TAPS, y, P, r, P + 1, room, P, tags, P, &period) == 6);
    EXPECT(meter_recording(ORDER, TAPS, y, P, r, P + 1, ROOM, &period) == 0);
    EXPECT(memcmp(r, (int64_t[]){16, 0, -8, 0, 0, 0, 0, 9}, sizeof r) == 0);
    EXPECT(room[0] == 0 && room[P] == 0 && room[P + 1] == 9 && tags[0] == 0 && tags[P] == 9);
}

/* ---- short rooms: at period 7, since P is 7 ---- */

/* What the three calls write, each byte LEFT before a call. */
enum { LEFT = 9 };
static struct written {
    uint8_t bits[P + 1];
    int64_t r[P + 1];
    int32_t y[P + 1];
} written, blank;

/* A period, by how much the input and the output are short or longer, and the first two values of an input of zeros. */
struct short_room {
    uint32_t p;
    int in, out;
    int32_t values[2];
};

/* What the sequence, one recording and a prediction answer, in this order. */
static const struct { struct short_room given; uint32_t answers[3]; } short_rooms_told[] = {
    {{.p = P}, {0, 0, 0}},
    {{.p = P, .out = 1}, {0, 0, 0}},
    {{.p = P, .values = {8388607, 0}}, {0, 0, 0}},
    {{.p = P, .values = {8388607, 8388607}}, {0, 0, 8}},
    /* Predicted, this is 0 at place 0 and out of range at place 1. */
    {{.p = P, .values = {8388607, -8388607}}, {0, 0, 8}},
    {{.p = P, .values = {-8388608, 0}}, {0, 0, 8}},
    {{.p = P, .values = {8388608, 8388607}}, {0, 7, 7}},
    {{.p = P, .values = {0, -8388609}}, {0, 7, 7}},
    {{.p = P, .out = -1, .values = {8388608, 0}}, {6, 6, 6}},
    {{.p = P, .out = -P}, {6, 6, 6}},
    {{.p = P, .in = -1, .out = -1, .values = {8388608, 0}}, {6, 5, 5}},
    {{.p = P, .in = 1, .values = {8388608, 0}}, {0, 5, 5}},
    {{.p = P, .in = -P}, {0, 5, 5}},
    {{.p = 13, .in = -1, .out = -1, .values = {8388608, 0}}, {25, 25, 25}},
    /* Among these are a register's period, primes as the offered ones are, and numbers of which the lowest bits are 7. */
    {{.p = 0}, {25, 25, 25}}, {{.p = 1}, {25, 25, 25}}, {{.p = 3}, {25, 25, 25}}, {{.p = 6}, {25, 25, 25}}, {{.p = 8}, {25, 25, 25}},
    {{.p = 13}, {25, 25, 25}}, {{.p = 15}, {25, 25, 25}}, {{.p = 131}, {25, 25, 25}}, {{.p = 263}, {25, 25, 25}}, {{.p = 65543}, {25, 25, 25}},
    {{.p = 2147483655u}, {25, 25, 25}}, {{.p = UINT32_MAX}, {25, 25, 25}},
};
enum { SHORT_ROOMS_TOLD = sizeof short_rooms_told / sizeof *short_rooms_told };

/* Whether each call answers so, those that are refused writing nothing. */
static int short_room_told(const struct short_room *g, const uint32_t *answers) {
    int32_t in[P + 1] = {g->values[0], g->values[1]};
    size_t in_len = (size_t)(P + g->in), out_len = (size_t)(P + g->out);
    memset(&written, LEFT, sizeof written);
    memset(&blank, LEFT, sizeof blank);
    int held = meter_legendre_sequence(g->p, written.bits, out_len) == answers[0];
    held &= meter_legendre_recording(g->p, in, in_len, written.r, out_len) == answers[1];
    held &= meter_legendre_predict(g->p, in, in_len, written.y, out_len) == answers[2];
    held &= (answers[0] == 0) == (memcmp(written.bits, blank.bits, sizeof blank.bits) != 0);
    held &= (answers[1] == 0) == (memcmp(written.r, blank.r, sizeof blank.r) != 0);
    held &= (answers[2] == 0) == (memcmp(written.y, blank.y, sizeof blank.y) != 0);
    return held && written.bits[P] == blank.bits[P] && written.r[P] == blank.r[P] && written.y[P] == blank.y[P];
}

/* Document 001's signs of period 7 are -1, 1, 1, -1, 1, -1, -1; y(j) is 2 x(j) - x(j-2), and r is 8 times the response. */
static void short_rooms(void) {
    const int32_t h[P] = {2, 0, -1, 0, 0, 0, 0};
    uint8_t bits[P + 1] = {9, 9, 9, 9, 9, 9, 9, 9};
    int32_t y[P + 1] = {9, 9, 9, 9, 9, 9, 9, 9};
    r[P] = 9;
    EXPECT(meter_legendre_sequence(P, bits, P + 1) == 0 && memcmp(bits, (uint8_t[]){1, 0, 0, 1, 0, 1, 1, 9}, sizeof bits) == 0);
    EXPECT(meter_legendre_predict(P, h, P, y, P + 1) == 0 && memcmp(y, (int32_t[]){-1, 3, 3, -3, 1, -1, -3, 9}, sizeof y) == 0);
    EXPECT(meter_legendre_recording(P, y, P, r, P + 1) == 0 && memcmp(r, (int64_t[]){16, 0, -8, 0, 0, 0, 0, 9}, sizeof r) == 0);
    EXPECT(meter_legendre_recording(P, (int32_t[]){0, 0, 0, 5, 0, 0, 0}, P, r, P) == 0);
    EXPECT(memcmp(r, (int64_t[]){-10, 0, 0, -10, -10, -10, 0, 9}, sizeof r) == 0);
    for (size_t i = 0; i < SHORT_ROOMS_TOLD; i++) {
        char what[80];
        snprintf(what, sizeof what, "case %zu of the short rooms, period %u", i, (unsigned)short_rooms_told[i].given.p);
        expect(short_room_told(&short_rooms_told[i].given, short_rooms_told[i].answers), what);
    }
}

static void campaigns(void) {
    const int32_t y[P] = {-4, -12, -4, 12, 12, -12, 4}, still[P] = {5, 4, 9, 5, 6, 11, 5}, loud[P] = {0, 0, 8388607, 0, 0, 0, -8388608};
    uint32_t state = 9, unseen = 9, standing = 9, overloaded = 9, dead = 9, withdrawn = 9, stands = 9;
    size_t value = 9;
    double highest = 9, lowest = 9, peak = 9;
    days[METER_DAYS] = 9;
    slots[METER_SLOTS] = 9;
    periods[METER_SLOTS] = 9;
    store[0] = 9;
    EXPECT(meter_start(ORDER, TAPS, SLOT_COUNT, METER_HALVES_AWAY, LENT_OF(METER_DAYS - 1, METER_SLOTS, METER_SLOTS), &period) == 6 && store[0] == 9);
    EXPECT(meter_start(ORDER, TAPS, SLOT_COUNT, METER_HALVES_AWAY, LENT_OF(METER_DAYS, METER_SLOTS - 1, METER_SLOTS), &period) == 6 && store[0] == 9);
    EXPECT(meter_start(ORDER, TAPS, SLOT_COUNT, METER_HALVES_AWAY, LENT_OF(METER_DAYS, METER_SLOTS, METER_SLOTS - 1), &period) == 6 && store[0] == 9);
    EXPECT(meter_start(ORDER, TAPS, 65, METER_HALVES_AWAY, LENT_OF(METER_DAYS - 1, METER_SLOTS, METER_SLOTS), &period) == 9 && store[0] == 9);
    EXPECT(meter_start(ORDER, TAPS, 65, METER_HALVES_AWAY, LENT_OF(METER_DAYS, METER_SLOTS, METER_SLOTS), &period) == 9 && store[0] == 9);
    EXPECT(meter_start(RECORD, &period) == 0 && store[0] == 0);
    EXPECT(meter_response(RECORD, r, P + 1, mean, P + 1, ROOM) == 14);
    EXPECT(meter_summary(RECORD, ROOM, &stands, &highest, &lowest, &peak) == 0 && stands == 0 && highest == 9);
    EXPECT(meter_enter(RECORD, 367, y, P, &state, &value) == 10 && state == 9 && value == 9);
    EXPECT(meter_enter(RECORD, 1, y, P, &state, &value) == 0 && state == METER_STANDING && value == 0);
    EXPECT(days[0] == METER_STANDING && slots[0] == 1 && periods[0] == 1 && store[1] == -12 && sums[1] == -12);
    EXPECT(meter_enter(RECORD, 1, y, P, &state, &value) == 11);
    EXPECT(meter_enter(RECORD, 2, still, P, &state, &value) == 0 && state == METER_DEAD && value == 0);
    EXPECT(meter_enter(RECORD, 3, loud, P, &state, &value) == 0 && state == METER_OVERLOADED && value == 2);
    EXPECT(meter_counts(RECORD, &unseen, &standing, &overloaded, &dead, &withdrawn) == 0);
    EXPECT(unseen == 363 && standing == 1 && overloaded == 1 && dead == 1 && withdrawn == 0);
    EXPECT(meter_response(RECORD, r, P + 1, mean, P + 1, ROOM) == 0);
    EXPECT(memcmp(r, (int64_t[]){64, 0, -32, 0, 0, 0, 0, 9}, sizeof r) == 0 && mean[0] == 8 && mean[2] == -4);
    EXPECT(meter_summary(RECORD, ROOM, &stands, &highest, &lowest, &peak) == 0 && stands == 1);
    EXPECT(highest == 8 && lowest == -4 && peak == 8);
    sums[0]++;
    EXPECT(meter_counts(RECORD, &unseen, &standing, &overloaded, &dead, &withdrawn) == 15 && unseen == 363);
    EXPECT(meter_withdraw(RECORD, 1) == 15);
    sums[0]--;
    EXPECT(meter_withdraw(RECORD, 2) == 13);
    EXPECT(meter_withdraw(RECORD, 1) == 0 && days[0] == METER_WITHDRAWN && slots[0] == 0 && periods[0] == 0);
    EXPECT(store[1] == 0 && sums[1] == 0 && days[METER_DAYS] == 9 && slots[METER_SLOTS] == 9 && periods[METER_SLOTS] == 9);
}

/* Two periods behind a run-in at the rails, worked by hand: the slot has their sum, r is that sum's, and 8 times 2 periods divides it. */
static void captures(void) {
    const int32_t y[3 * P] = {8388607, 8388607, 8388607, 8388607, 8388607, 8388607, 8388607,
                              -4, -12, -4, 12, 12, -12, 4, -3, -13, -2, 12, 10, -11, 3};
    uint32_t state = 9, stands = 9;
    size_t value = 9;
    double highest = 9, lowest = 9, peak = 9;
    EXPECT(meter_start(RECORD, &period) == 0);
    EXPECT(meter_capture(RECORD, 1, 17, y, 3 * P, &state, &value) == 18 && meter_capture(RECORD, 1, 3, y, 3 * P, &state, &value) == 5);
    EXPECT(state == 9 && value == 9);
    EXPECT(meter_capture(RECORD, 1, 2, y, 3 * P, &state, &value) == 0 && state == METER_STANDING && value == 0);
    EXPECT(slots[0] == 1 && periods[0] == 2 && memcmp(store, (int32_t[]){-7, -25, -6, 24, 22, -23, 7}, P * sizeof *store) == 0);
    EXPECT(meter_response(RECORD, r, P + 1, mean, P + 1, ROOM) == 0);
    EXPECT(memcmp(r, (int64_t[]){122, 0, -66, 4, 0, -2, 6}, P * sizeof *r) == 0);
    EXPECT(memcmp(mean, (int32_t[]){8, 0, -4, 0, 0, 0, 0}, P * sizeof *mean) == 0);
    EXPECT(meter_summary(RECORD, ROOM, &stands, &highest, &lowest, &peak) == 0 && highest == 7.625 && lowest == -4.125 && peak == 7.625);
    EXPECT(meter_withdraw(RECORD, 1) == 0 && periods[0] == 0);
}

/* ---- a night judged, and filed with the verdict shown ---- */

enum { RAIL = 8388607, UNTOLD = 77 };

/* What judging or a filing wrote, LEFT where it wrote nothing. */
static uint32_t state;
static size_t value;

static void forget(void) {
    state = LEFT;
    value = LEFT;
    period = UNTOLD;
}

/* Whether the last call wrote this; a filing tells no period. */
static int told_so(uint32_t as, size_t carried, uint32_t steps) { return state == as && value == carried && period == steps; }
static int told_nothing(void) { return told_so(LEFT, LEFT, UNTOLD); }

/* A night of one period, and the same as a capture behind a run-in at the rails. */
struct night {
    int32_t y[P], captured[2 * P];
};

static struct night night_of(const int32_t *y) {
    struct night night;
    memcpy(night.y, y, sizeof night.y);
    for (size_t j = 0; j < P; j++)
        night.captured[j] = RAIL;
    memcpy(night.captured + P, y, sizeof night.y);
    return night;
}

static uint32_t judge(const struct night *night) {
    forget();
    return meter_judge(ORDER, TAPS, night->y, P, &state, &value, &period);
}

static uint32_t judge_capture(const struct night *night) {
    forget();
    return meter_judge_capture(ORDER, TAPS, 1, night->captured, 2 * P, &state, &value, &period);
}

static uint32_t file(uint32_t day, const struct night *night, uint32_t shown, size_t place) {
    forget();
    return meter_file(RECORD, day, night->y, P, shown, place, &state, &value);
}

static uint32_t file_capture(uint32_t day, const struct night *night, uint32_t shown, size_t place) {
    forget();
    return meter_file_capture(RECORD, day, 1, night->captured, 2 * P, shown, place, &state, &value);
}

/* All that a campaign lends, tails included. */
struct memory {
    uint8_t days[METER_DAYS + 1], periods[METER_SLOTS + 1];
    uint16_t slots[METER_SLOTS + 1];
    int32_t store[SLOT_COUNT * P + 1];
    int64_t sums[P + 1];
};

static struct memory memory_now(void) {
    struct memory now;
    memset(&now, 0, sizeof now);
    memcpy(now.days, days, sizeof days);
    memcpy(now.periods, periods, sizeof periods);
    memcpy(now.slots, slots, sizeof slots);
    memcpy(now.store, store, sizeof store);
    memcpy(now.sums, sums, sizeof sums);
    return now;
}

static void put_back(const struct memory *was) {
    memcpy(days, was->days, sizeof days);
    memcpy(periods, was->periods, sizeof periods);
    memcpy(slots, was->slots, sizeof slots);
    memcpy(store, was->store, sizeof store);
    memcpy(sums, was->sums, sizeof sums);
}

static int memory_is(const struct memory *was) {
    struct memory now = memory_now();
    return memcmp(&now, was, sizeof now) == 0;
}

static const int32_t heard[P] = {-4, -12, -4, 12, 12, -12, 4}, quiet[P] = {5, 4, 9, 5, 6, 11, 5}, hit[P] = {0, 0, RAIL, 0, 0, 0, -RAIL - 1};
static const struct { const int32_t *y; uint32_t state; size_t value; } nights[] = {
    {heard, METER_STANDING, 0}, {quiet, METER_DEAD, 0}, {hit, METER_OVERLOADED, 2}};
enum { NIGHTS = sizeof nights / sizeof *nights };

static void judgements(void) {
    for (size_t i = 0; i < NIGHTS; i++) {
        struct night night = night_of(nights[i].y);
        EXPECT(judge(&night) == 0 && told_so(nights[i].state, nights[i].value, P));
        EXPECT(judge_capture(&night) == 0 && told_so(nights[i].state, nights[i].value, P));
    }
}

/* On the same memory: entered, then judged and filed, and every byte and both numbers are the same. */
static void filed_as_entered(uint32_t day, const struct night *night) {
    struct memory was = memory_now(), now;
    forget();
    EXPECT(meter_enter(RECORD, day, night->y, P, &state, &value) == 0);
    uint32_t entered_state = state;
    size_t entered_value = value;
    now = memory_now();
    put_back(&was);
    EXPECT(judge(night) == 0 && memory_is(&was) && file(day, night, state, value) == 0);
    EXPECT(told_so(entered_state, entered_value, UNTOLD) && memory_is(&now));
    put_back(&was);
    EXPECT(judge_capture(night) == 0 && memory_is(&was) && file_capture(day, night, state, value) == 0);
    EXPECT(told_so(entered_state, entered_value, UNTOLD) && memory_is(&now));
}

/* Each of the other verdicts, and pairs that say none. */
static void filed_with_another(uint32_t day, const struct night *night, uint32_t right, size_t right_place) {
    static const struct { uint32_t shown; size_t place; } pairs[] = {
        {METER_STANDING, 0}, {METER_STANDING, 1}, {METER_OVERLOADED, 0}, {METER_OVERLOADED, 1}, {METER_OVERLOADED, 2}, {METER_OVERLOADED, P + 2},
        {METER_DEAD, 0}, {METER_DEAD, 2}, {METER_UNSEEN, 0}, {METER_WITHDRAWN, 0}, {LEFT, LEFT}, {UINT32_MAX, SIZE_MAX}};
    struct memory was = memory_now();
    for (size_t i = 0; i < sizeof pairs / sizeof *pairs; i++) {
        uint32_t shown = pairs[i].shown;
        size_t place = pairs[i].place;
        if (shown == right && place == right_place)
            continue;
        EXPECT(file(day, night, shown, place) == METER_VERDICT_DIFFERS && told_nothing() && memory_is(&was));
        EXPECT(file_capture(day, night, shown, place) == METER_VERDICT_DIFFERS && told_nothing() && memory_is(&was));
    }
}

/* The refusals of a filing but 23, at a campaign whose slots are all used and whose day 1 stands. */
static void refused_filings(void) {
    struct night night = night_of(heard), beyond = night;
    struct memory was = memory_now();
    beyond.y[P - 1] = beyond.captured[0] = RAIL + 1;
    EXPECT(file(0, &night, METER_STANDING, 0) == 10 && file_capture(367, &night, METER_STANDING, 0) == 10 && told_nothing());
    EXPECT(file(9, &beyond, METER_STANDING, 0) == 7 && file_capture(9, &beyond, METER_STANDING, 0) == 7 && told_nothing());
    EXPECT(file(1, &night, METER_STANDING, 0) == 11 && file_capture(1, &night, METER_STANDING, 0) == 11 && told_nothing());
    EXPECT(file(9, &night, METER_STANDING, 0) == 12 && file_capture(9, &night, METER_STANDING, 0) == 12 && told_nothing());
    EXPECT(meter_file(RECORD, 9, night.y, P - 1, METER_STANDING, 0, &state, &value) == 5 && told_nothing());
    EXPECT(meter_file_capture(RECORD, 9, 2, night.captured, 2 * P, METER_STANDING, 0, &state, &value) == 5 && told_nothing());
    EXPECT(meter_file_capture(RECORD, 9, 17, night.captured, 2 * P, METER_STANDING, 0, &state, &value) == 18 && told_nothing());
    EXPECT(memory_is(&was));
    sums[0]++;
    EXPECT(file(9, &night, METER_STANDING, 0) == 15 && file_capture(9, &night, METER_STANDING, 0) == 15 && told_nothing());
    sums[0]--;
    EXPECT(memory_is(&was));
}

static void filings(void) {
    EXPECT(meter_start(RECORD, &period) == 0);
    for (uint32_t day = 1; day <= SLOT_COUNT * NIGHTS; day++) {
        size_t i = (day - 1) % NIGHTS;
        struct night night = night_of(nights[i].y);
        filed_with_another(day, &night, nights[i].state, nights[i].value);
        filed_as_entered(day, &night);
    }
    EXPECT(slots[0] == 1 && slots[1] == 1 + NIGHTS && days[1] == METER_DEAD && days[2] == METER_OVERLOADED);
    refused_filings();
}

/* ---- the editions of the report rules ---- */

/* A night whose r, over 8, is at an exact half at every place but one, and its means in each edition. */
static const int32_t at_halves[P] = {-6, 9, 0, 5, -1, -1, -8};
static const int64_t r_at_halves[P] = {-4, -12, 4, -24, 20, 20, 12};
static const int32_t away[P] = {-1, -2, 1, -3, 3, 3, 2}, to_even[P] = {0, -2, 0, -3, 2, 2, 2};
static const uint32_t no_editions[] = {0, 3, 257, 258, 65537, 2147483650u, 4294967295u};
enum { NO_EDITIONS = sizeof no_editions / sizeof *no_editions };

/* The answers of the three calls that ask, and all that they write; each byte is LEFT before. */
struct report {
    uint32_t answers[3], counts[5], stands;
    int64_t r[P], room[2][P + 1];
    int32_t mean[P];
    uint16_t tags[2][P];
    double levels[3];
};

static void ask(struct report *t, uint32_t edition) {
    memset(t, LEFT, sizeof *t);
    t->answers[0] = meter_counts(RECORD_IN(edition), &t->counts[0], &t->counts[1], &t->counts[2], &t->counts[3], &t->counts[4]);
    t->answers[1] = meter_response(RECORD_IN(edition), t->r, P, t->mean, P, t->room[0], P + 1, t->tags[0], P);
    t->answers[2] = meter_summary(RECORD_IN(edition), t->room[1], P + 1, t->tags[1], P, &t->stands, &t->levels[0], &t->levels[1], &t->levels[2]);
}

static int told(const struct report *t, const int64_t *r_wanted, const int32_t *mean_wanted) {
    return memcmp(t->answers, (uint32_t[]){0, 0, 0}, sizeof t->answers) == 0 && memcmp(t->r, r_wanted, sizeof t->r) == 0 &&
           memcmp(t->mean, mean_wanted, sizeof t->mean) == 0;
}

/* Whether the campaign tells these in each edition, and in all else the same. */
static int told_in_both(const int64_t *r_wanted, const int32_t *mean_away, const int32_t *mean_to_even) {
    struct report one, two;
    ask(&one, METER_HALVES_AWAY);
    ask(&two, METER_HALVES_TO_EVEN);
    int means = told(&one, r_wanted, mean_away) && told(&two, r_wanted, mean_to_even);
    memcpy(one.mean, two.mean, sizeof one.mean);
    return means && memcmp(&one, &two, sizeof one) == 0;
}

/* Whether every call but a start refuses the campaign with 15 in this edition, which is none, and writes nothing. */
static int refused_in(uint32_t edition) {
    struct memory was = memory_now();
    struct night night = night_of(heard);
    struct report asked, blank;
    memset(&blank, LEFT, sizeof blank);
    for (size_t i = 0; i < 3; i++)
        blank.answers[i] = METER_RECORD_BROKEN;
    ask(&asked, edition);
    forget();
    return memcmp(&asked, &blank, sizeof asked) == 0 && meter_enter(RECORD_IN(edition), 2, night.y, P, &state, &value) == 15 &&
           meter_capture(RECORD_IN(edition), 2, 1, night.captured, 2 * P, &state, &value) == 15 &&
           meter_file(RECORD_IN(edition), 2, night.y, P, METER_STANDING, 0, &state, &value) == 15 &&
           meter_file_capture(RECORD_IN(edition), 2, 1, night.captured, 2 * P, METER_STANDING, 0, &state, &value) == 15 &&
           meter_withdraw(RECORD_IN(edition), 1) == 15 && told_nothing() && memory_is(&was);
}

/* The same days entered, withdrawn and entered again in one edition; what it leaves is the same in both. */
static void run_in(uint32_t edition, struct memory *left) {
    struct night night = night_of(at_halves);
    EXPECT(meter_start(RECORD_IN(edition), &period) == 0);
    EXPECT(meter_enter(RECORD_IN(edition), 1, night.y, P, &state, &value) == 0 && state == METER_STANDING && value == 0);
    EXPECT(told_in_both(r_at_halves, away, to_even));
    EXPECT(meter_capture(RECORD_IN(edition), 2, 1, night.captured, 2 * P, &state, &value) == 0 && value == 1);
    EXPECT(meter_withdraw(RECORD_IN(edition), 1) == 0 && days[0] == METER_WITHDRAWN);
    EXPECT(told_in_both(r_at_halves, away, to_even));
    EXPECT(meter_withdraw(RECORD_IN(edition), 2) == 0);
    EXPECT(meter_file(RECORD_IN(edition), 3, night.y, P, METER_STANDING, 0, &state, &value) == 0 && value == 0);
    EXPECT(meter_withdraw(RECORD_IN(edition), 3) == 0);
    EXPECT(meter_file_capture(RECORD_IN(edition), 4, 1, night.captured, 2 * P, METER_STANDING, 0, &state, &value) == 0 && value == 0);
    EXPECT(told_in_both(r_at_halves, away, to_even));
    EXPECT(meter_enter(RECORD_IN(edition), 1, night.y, P, &state, &value) == 0 && days[0] == METER_STANDING && value == 1);
    *left = memory_now();
}

static void editions(void) {
    struct memory one, two;
    EXPECT(METER_HALVES_AWAY == 1 && METER_HALVES_TO_EVEN == 2);
    run_in(METER_HALVES_AWAY, &one);
    run_in(METER_HALVES_TO_EVEN, &two);
    EXPECT(memcmp(&one, &two, sizeof one) == 0);
    /* No mean at a half: both editions tell the same. */
    EXPECT(meter_start(RECORD_IN(METER_HALVES_TO_EVEN), &period) == 0 && meter_enter(RECORD_IN(METER_HALVES_TO_EVEN), 1, heard, P, &state, &value) == 0);
    EXPECT(told_in_both((int64_t[P]){64, 0, -32}, (int32_t[P]){8, 0, -4}, (int32_t[P]){8, 0, -4}));
    for (size_t i = 0; i < NO_EDITIONS; i++) {
        struct memory was = memory_now();
        EXPECT(refused_in(no_editions[i]));
        period = UNTOLD;
        EXPECT(meter_start(RECORD_IN(no_editions[i]), &period) == METER_EDITION_UNKNOWN && period == UNTOLD && memory_is(&was));
    }
}

/* ---- the period ---- */

enum { MOST_ORDER = 16, MOST_P = 65535 };
enum { OF_TAPS = 1, OF_SEQUENCE = 2, OF_RECORDING = 4, OF_PREDICT = 8, OF_IN_ROOM = 16, OF_START = 32, OF_JUDGE = 64, OF_JUDGE_CAPTURE = 128, ALL = 255 };
enum { PREDICTIONS = OF_PREDICT | OF_IN_ROOM, JUDGEMENTS = OF_JUDGE | OF_JUDGE_CAPTURE };
static const char *const named[] = {"taps", "sequence", "recording", "predict", "predict_in_room", "start", "judge", "judge_capture"};

/* All that is lent, for the largest order, each byte LEFT before a call. */
static struct lent {
    uint8_t bits[MOST_P], days[METER_DAYS], periods[METER_SLOTS];
    uint16_t tags[MOST_P], slots[METER_SLOTS];
    int32_t samples[MOST_P], store[MOST_P];
    int64_t wide[MOST_P], room[MOST_P + 1], sums[MOST_P];
    uint32_t state;
    size_t value;
} lent, before;

/* A register, the slots, the periods of a capture and the edition beyond the first, by how much each length is short, and the first two values of a
 * recording, a response or a capture of zeros. */
struct given {
    uint32_t order, taps, more_slots, more_periods, more_editions;
    size_t in, out, room, tags, days, slots, periods, store, sums;
    int32_t values[2];
};

static uint32_t answer_of(unsigned function, const struct given *g, uint32_t *told) {
    static int32_t in[2 * MOST_P];
    size_t p = g->order <= MOST_ORDER ? ((size_t)1 << g->order) - 1 : MOST_P;
    memcpy(in, g->values, sizeof g->values);
    switch (function) {
    case OF_TAPS: return meter_taps(g->order, g->taps, told);
    case OF_SEQUENCE: return meter_sequence(g->order, g->taps, lent.bits, p - g->out, told);
    case OF_RECORDING:
        return meter_recording(g->order, g->taps, in, p - g->in, lent.wide, p - g->out, lent.room, p + 1 - g->room, lent.tags, p - g->tags, told);
    case OF_PREDICT: return meter_predict(g->order, g->taps, in, p - g->in, lent.samples, p - g->out, told);
    case OF_IN_ROOM:
        return meter_predict_in_room(g->order, g->taps, in, p - g->in, lent.samples, p - g->out, lent.room, p + 1 - g->room, told);
    case OF_JUDGE: return meter_judge(g->order, g->taps, in, p - g->in, &lent.state, &lent.value, told);
    case OF_JUDGE_CAPTURE:
        return meter_judge_capture(g->order, g->taps, 1 + g->more_periods, in, 2 * p - g->in, &lent.state, &lent.value, told);
    default:
        return meter_start(g->order, g->taps, 1 + g->more_slots, 1 + g->more_editions, lent.days, METER_DAYS - g->days,
                           lent.slots, METER_SLOTS - g->slots, lent.periods, METER_SLOTS - g->periods,
                           lent.store, p - g->store, lent.sums, p - g->sums, told);
    }
}

/* What these functions answer to what is given, and the period after it. */
static const struct { unsigned functions; struct given given; uint32_t answer, period; } told_by[] = {
    {ALL, {.order = 2, .taps = 3}, 0, 3},
    {ALL, {.order = 3, .taps = 3}, 0, 7},
    {ALL, {.order = 4, .taps = 9}, 0, 15},
    {ALL, {.order = 16, .taps = 45}, 0, 65535},
    {ALL, {.order = 4, .taps = 15}, 4, 5},
    {ALL, {.order = 4, .taps = 5}, 4, 6},
    {ALL, {.order = 3, .taps = 7}, 4, 1},
    {ALL, {.order = 5, .taps = 3}, 4, 21},
    {ALL, {.order = 16, .taps = 65535}, 4, 17},
    {ALL, {.order = 16, .taps = 99}, 4, 64897},
    /* Whatever else is wrong, 4 comes first and has its period. */
    {ALL, {4, 15, 64, 16, 2, .in = 1, .out = 1, .room = 1, .tags = 1, .days = 1, .slots = 1, .periods = 1, .store = 1, .sums = 1, .values = {8388608, 0}}, 4, 5},
    {ALL, {.order = 1, .taps = 3}, 1, UNTOLD},
    {ALL, {.order = 17, .taps = 3}, 1, UNTOLD},
    {ALL, {.order = 4, .taps = 16}, 2, UNTOLD},
    {ALL, {.order = 4, .taps = 14}, 3, UNTOLD},
    {OF_RECORDING | PREDICTIONS | JUDGEMENTS, {3, 3, .in = 1}, 5, UNTOLD},
    {OF_SEQUENCE | OF_RECORDING | PREDICTIONS, {3, 3, .out = 1}, 6, UNTOLD},
    {OF_RECORDING | OF_IN_ROOM, {3, 3, .room = 1}, 6, UNTOLD},
    {OF_RECORDING, {3, 3, .tags = 1}, 6, UNTOLD},
    {OF_RECORDING | PREDICTIONS | JUDGEMENTS, {3, 3, .values = {8388608, 0}}, 7, UNTOLD},
    {JUDGEMENTS, {3, 3, .values = {8388607, -8388609}}, 7, UNTOLD},
    {OF_JUDGE_CAPTURE, {3, 3, .more_periods = 16}, 18, UNTOLD},
    {OF_JUDGE_CAPTURE, {3, 3, .more_periods = UINT32_MAX}, 18, UNTOLD},
    {PREDICTIONS, {3, 3, .values = {8388607, 8388607}}, 8, UNTOLD},
    {OF_START, {3, 3, .more_slots = 64}, 9, UNTOLD},
    {OF_START, {3, 3, .days = 1}, 6, UNTOLD},
    {OF_START, {3, 3, .slots = 1}, 6, UNTOLD},
    {OF_START, {3, 3, .periods = 1}, 6, UNTOLD},
    {OF_START, {3, 3, .more_slots = 64, .periods = 1}, 9, UNTOLD},
    {OF_START, {3, 3, .store = 1}, 6, UNTOLD},
    {OF_START, {3, 3, .sums = 1}, 6, UNTOLD},
    /* The second edition is the last; UINT32_MAX beyond the first is edition 0. */
    {OF_START, {3, 3, .more_editions = 1}, 0, 7},
    {OF_START, {3, 3, .more_editions = 2}, 24, UNTOLD},
    {OF_START, {3, 3, .more_editions = UINT32_MAX}, 24, UNTOLD},
    {OF_START, {3, 3, .more_editions = UINT32_MAX - 1}, 24, UNTOLD},
    {OF_START, {3, 3, .more_slots = 64, .more_editions = 2}, 9, UNTOLD},
    {OF_START, {3, 3, .more_slots = UINT32_MAX, .more_editions = UINT32_MAX}, 9, UNTOLD},
    {OF_START, {3, 3, .more_editions = 2, .days = 1}, 24, UNTOLD},
    {OF_START, {3, 3, .more_editions = 2, .slots = 1}, 24, UNTOLD},
    {OF_START, {3, 3, .more_editions = 2, .periods = 1}, 24, UNTOLD},
    {OF_START, {3, 3, .more_editions = 2, .store = 1}, 24, UNTOLD},
    {OF_START, {3, 3, .more_editions = 2, .sums = 1}, 24, UNTOLD},
    {OF_START, {3, 3, .more_editions = 1, .sums = 1}, 6, UNTOLD},
};
enum { TOLD = sizeof told_by / sizeof *told_by };

static void expect_told(unsigned f, size_t i) {
    char what[160];
    uint32_t told = UNTOLD;
    memset(&lent, LEFT, sizeof lent);
    memset(&before, LEFT, sizeof before);
    uint32_t answer = answer_of(1u << f, &told_by[i].given, &told);
    snprintf(what, sizeof what, "case %zu, meter_%s: answer %u, period %u", i, named[f], (unsigned)answer, (unsigned)told);
    expect(answer == told_by[i].answer && told == told_by[i].period, what);
    snprintf(what, sizeof what, "case %zu, meter_%s: a refused call writes what it was lent", i, named[f]);
    expect(answer == 0 || memcmp(&lent, &before, sizeof lent) == 0, what);
}

static void periods_told(void) {
    for (size_t i = 0; i < TOLD; i++)
        for (unsigned f = 0; f < sizeof named / sizeof *named; f++)
            if (told_by[i].functions >> f & 1)
                expect_told(f, i);
}

int main(void) {
    words();
    registers();
    recordings();
    short_rooms();
    campaigns();
    captures();
    judgements();
    filings();
    editions();
    periods_told();
    printf("calls from C: %d expected, %d wrong\n", made, wrong);
    return wrong != 0;
}
