/* Times the proved meter beside plain C, in one process: for each order and each piece of work the best and the median of the rounds, in
 * microseconds, one line each: order, name, best, median. Each round runs every piece of its group once, so that all see the same machine: first
 * what turns one recording, then what goes over a store of 64 slots, then what goes over one of a single slot, then what judges a night and lends no
 * store. */
#include "meter.h"
#include "plain.h"
#include "rounds.h"
#include <math.h>
#include <string.h>

enum { SLOT_COUNT = 64, MOST_P = 65535, PERIODS = 16 };

/* The orders that are measured, and for each taps that are not maximal, though their register takes nearly P steps to return. */
static const struct { uint32_t order, short_taps, steps; } registers[] = {{9, 5, 465}, {12, 39, 3937}, {16, 99, 64897}};
enum { REGISTERS = sizeof registers / sizeof *registers };

static uint32_t order, taps, short_taps, steps, period;
static size_t p;
static uint8_t days[METER_DAYS], periods[METER_SLOTS];
static uint16_t slots[METER_SLOTS];
static int32_t *store, *y, *quiet, *h, *mean, *predicted;
static int64_t *sums, *r, *room, *other;
/* A night of several periods behind a run-in. */
static int32_t *heard;
/* A campaign of one slot. */
static uint8_t one_days[METER_DAYS], one_periods[METER_SLOTS];
static uint16_t one_slots[METER_SLOTS];
static int32_t *one_store;
static int64_t *one_sums;
/* Two lists, of which the meter is lent the first and the plain C has both. */
static uint16_t *tags;
static double *doubles, *paper_room, *paper_out;
static volatile int64_t sink;

#define RECORD_IN(edition) \
    order, taps, SLOT_COUNT, edition, days, METER_DAYS, slots, METER_SLOTS, periods, METER_SLOTS, store, SLOT_COUNT *p, sums, p
#define ONE_IN(edition) \
    order, taps, 1, edition, one_days, METER_DAYS, one_slots, METER_SLOTS, one_periods, METER_SLOTS, one_store, p, one_sums, p
/* The edition of the report rules is 1 where no other is named. */
#define RECORD RECORD_IN(METER_HALVES_AWAY)
#define ONE ONE_IN(METER_HALVES_AWAY)
#define ROOM room, p + 1, tags, p

static void recording(void) { must(meter_recording(order, taps, y, p, r, p, ROOM, &period) == 0, "recording"); }
static void predict(void) { must(meter_predict(order, taps, h, p, predicted, p, &period) == 0, "predict"); }
static void enter(void) {
    uint32_t state;
    size_t value;
    must(meter_enter(RECORD, 64, y, p, &state, &value) == 0 && value == 63, "enter");
}
static void file(void) {
    uint32_t state;
    size_t value;
    must(meter_file(RECORD, 64, y, p, METER_STANDING, 0, &state, &value) == 0 && value == 63, "file");
}
/* A converter that dithers, and nothing else. */
static void dead(void) {
    uint32_t state;
    size_t value;
    must(meter_enter(RECORD, 65, quiet, p, &state, &value) == 0 && state == METER_DEAD, "dead");
}
static void withdraw(void) { must(meter_withdraw(RECORD, 64) == 0, "withdraw"); }
static void capture(void) {
    uint32_t state;
    size_t value;
    must(meter_capture(RECORD, 64, PERIODS, heard, (PERIODS + 1) * p, &state, &value) == 0 && value == 63, "capture");
}
static void enter_one(void) {
    uint32_t state;
    size_t value;
    must(meter_enter(ONE, 1, y, p, &state, &value) == 0 && state == METER_STANDING, "enter, one slot");
}
static void capture_one(void) {
    uint32_t state;
    size_t value;
    must(meter_capture(ONE, 1, PERIODS, heard, (PERIODS + 1) * p, &state, &value) == 0 && state == METER_STANDING, "capture, one slot");
}
static void judge(void) {
    uint32_t state;
    size_t value;
    must(meter_judge(order, taps, y, p, &state, &value, &period) == 0 && state == METER_STANDING, "judge");
}
static void judge_capture(void) {
    uint32_t state;
    size_t value;
    must(meter_judge_capture(order, taps, PERIODS, heard, (PERIODS + 1) * p, &state, &value, &period) == 0 && state == METER_STANDING, "judge a capture");
}
/* The least that reading a night's samples takes; done before a piece, unmeasured, it leaves the cache alike for all that read them. */
static void pass_night(void) { sink += plain_pass(y, p); }
static void pass_capture(void) { sink += plain_pass(heard, (PERIODS + 1) * p); }
static void pass_heard(void) { sink += plain_pass(heard, (PERIODS + 1) * p) + plain_pass(store, SLOT_COUNT * p); }
static void pass_heard_one(void) { sink += plain_pass(heard, (PERIODS + 1) * p) + plain_pass(one_store, p); }
/* What a piece before it has entered goes out again, unmeasured. */
static void make_room(void) {
    if (days[63] == METER_STANDING)
        withdraw();
}
static void make_one_room(void) {
    if (one_days[0] == METER_STANDING)
        must(meter_withdraw(ONE, 1) == 0, "withdraw, one slot");
}
static void response(void) { must(meter_response(RECORD, r, p, mean, p, ROOM) == 0, "response"); }
static void response_even(void) { must(meter_response(RECORD_IN(METER_HALVES_TO_EVEN), r, p, mean, p, ROOM) == 0, "response, edition 2"); }
static void response_one(void) { must(meter_response(ONE, r, p, mean, p, ROOM) == 0, "response, one slot"); }
static void response_one_even(void) { must(meter_response(ONE_IN(METER_HALVES_TO_EVEN), r, p, mean, p, ROOM) == 0, "response, one slot, edition 2"); }
static void paper(void) { paper_recording(order, doubles, tags, tags + p, paper_room, paper_out); }
static void plain(void) { plain_recording(order, taps, y, other, room, tags, tags + p); }
static void ready(void) { plain_turn(order, y, other, room, tags, tags + p); }
static void make_tags(void) { plain_tags(order, taps, tags, tags + p); }
static void prediction(void) { plain_predict(order, taps, h, predicted, room, tags, tags + p); }
static void pass(void) { sink += plain_pass(store, SLOT_COUNT * p); }
static void refused(void) { must(meter_taps(order, short_taps, &period) == METER_NOT_MAXIMAL && period == steps, "short taps"); }
static void walk(void) { must(plain_walk(order, short_taps) == steps, "walk"); }

#ifdef WITH_FFTW
static void fftw(void) { turn_fftw(y); }
static void plan(void) {
    uint8_t *bits = malloc(p);
    must(meter_sequence(order, taps, bits, p, &period) == 0, "sequence");
    plan_fftw(p, bits);
    free(bits);
}
#endif

static struct piece pieces[] = {
    {"recording", recording, NULL, {0}}, {"paper", paper, make_tags, {0}}, {"plain", plain, NULL, {0}}, {"ready", ready, make_tags, {0}},
#ifdef WITH_FFTW
    {"fftw", fftw, NULL, {0}},
#endif
    {"predict", predict, NULL, {0}}, {"plain_predict", prediction, NULL, {0}}, {"refused", refused, NULL, {0}}, {"walk", walk, NULL, {0}},
    {"enter", enter, make_room, {0}}, {"file", file, make_room, {0}}, {"dead", dead, NULL, {0}}, {"pass", pass, NULL, {0}}, {"response", response, NULL, {0}},
    {"response_even", response_even, NULL, {0}}, {"withdraw", withdraw, NULL, {0}}, {"capture", capture, NULL, {0}}, {"heard", pass_heard, NULL, {0}},
    {"enter_one", enter_one, make_one_room, {0}}, {"capture_one", capture_one, make_one_room, {0}}, {"heard_one", pass_heard_one, NULL, {0}},
    {"response_one", response_one, NULL, {0}}, {"response_one_even", response_one_even, NULL, {0}},
    {"judge", judge, pass_night, {0}}, {"night", pass_night, pass_night, {0}}, {"judge_capture", judge_capture, pass_capture, {0}},
    {"captured", pass_capture, pass_capture, {0}},
};
enum { PIECES = sizeof pieces / sizeof *pieces, NO_STORE = PIECES - 4, ONE_SLOT = NO_STORE - 5, OVER_THE_STORE = ONE_SLOT - 9 };

static void begin(int n) {
    order = registers[n].order;
    short_taps = registers[n].short_taps;
    steps = registers[n].steps;
    p = ((size_t)1 << order) - 1;
    must(meter_default_taps(order, &taps) == 0, "taps");
    must(meter_start(RECORD, &period) == 0 && meter_start(ONE, &period) == 0, "start");
    for (size_t j = 0; j < (PERIODS + 1) * p; j++)
        heard[j] = drawn(8388606);
    for (uint32_t day = 1; day < SLOT_COUNT; day++) {
        uint32_t state;
        size_t value;
        for (size_t j = 0; j < p; j++)
            y[j] = drawn(8388606);
        must(meter_enter(RECORD, day, y, p, &state, &value) == 0 && state == METER_STANDING, "a day");
    }
    for (size_t j = 0; j < p; j++) {
        doubles[j] = y[j];
        h[j] = j < 64 ? drawn(100000) : 0;
    }
    /* What is compared answers the same. */
    recording();
    plain();
    must(memcmp(r, other, p * sizeof *r) == 0, "plain C differs");
    predict();
    memcpy(mean, predicted, p * sizeof *mean);
    prediction();
    must(memcmp(mean, predicted, p * sizeof *mean) == 0, "plain C's prediction differs");
    make_tags();
    paper();
    for (size_t k = 0; k < p; k++)
        must(fabs(paper_out[k] - (double)r[k] / (double)(p + 1)) < 1e-3, "the paper's route differs");
#ifdef WITH_FFTW
    plan();
#endif
}

int main(void) {
    store = malloc(SLOT_COUNT * MOST_P * sizeof *store);
    one_store = malloc(MOST_P * sizeof *one_store);
    heard = malloc((PERIODS + 1) * MOST_P * sizeof *heard);
    y = malloc(MOST_P * sizeof *y);
    quiet = malloc(MOST_P * sizeof *quiet);
    for (size_t j = 0; j < MOST_P; j++)
        quiet[j] = (int32_t)(5 * j % 8);
    h = malloc(MOST_P * sizeof *h);
    mean = malloc(MOST_P * sizeof *mean);
    predicted = malloc(MOST_P * sizeof *predicted);
    sums = malloc(MOST_P * sizeof *sums);
    one_sums = malloc(MOST_P * sizeof *one_sums);
    r = malloc(MOST_P * sizeof *r);
    other = malloc(MOST_P * sizeof *other);
    room = malloc((MOST_P + 1) * sizeof *room);
    tags = malloc(2 * MOST_P * sizeof *tags);
    doubles = malloc(MOST_P * sizeof *doubles);
    paper_room = malloc((MOST_P + 1) * sizeof *paper_room);
    paper_out = malloc(MOST_P * sizeof *paper_out);
    for (int n = 0; n < REGISTERS; n++) {
        begin(n);
        rounds(pieces, pieces + OVER_THE_STORE);
        rounds(pieces + OVER_THE_STORE, pieces + ONE_SLOT);
        rounds(pieces + ONE_SLOT, pieces + NO_STORE);
        rounds(pieces + NO_STORE, pieces + PIECES);
        say(order, pieces, pieces + PIECES, 1, 2);
    }
    return 0;
}
