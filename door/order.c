/* Document 01's "Order of checks", with 18, 23, 24 and 25 of requests 1, 5, 9 and 10 of document 02: for each two checks that stand side by side in a
 * call's list, an input to which both apply, so that the answer tells which comes first. Default taps and counts have one check. `second order` makes the
 * same calls of its own functions and prints the same lines. */
#include "meter.h"
#include <stdio.h>

/* Order 2, taps 3: P is 3. A campaign has one slot. */
enum { ORDER = 2, TAPS = 3, P = 3, ROOM = P + 1, TAGS = P };
/* The first sample of a recording of zeros whose spread is the smallest that is kept, the rails, and the first number above the range. */
enum { KEPT = 8, LOWEST = -8388608, HIGHEST = 8388607, BEYOND = HIGHEST + 1 };
enum { MOST_PERIODS = 16 };

static uint8_t days[METER_DAYS];
static uint16_t slots[METER_SLOTS];
static uint8_t periods[METER_SLOTS];
/* One slot more than a campaign may have, since a count of 65 is lent its store in full. */
static int32_t store[(METER_SLOTS + 1) * P];
static int64_t sums[P];
static uint32_t edition = METER_HALVES_AWAY;
/* How long the tables are lent. */
static size_t days_len = METER_DAYS, slots_len = METER_SLOTS, periods_len = METER_SLOTS;
#define TABLES days, days_len, slots, slots_len, periods, periods_len
#define RECORD ORDER, TAPS, 1, edition, TABLES, store, P, sums, P

static void line(const char *call, const char *checks, uint32_t answer) {
    printf("%s: %s: %u\n", call, checks, answer);
}

/* The answer of a call that has a period, and the variable for it, which holds UNWRITTEN before the call. */
struct told {
    uint32_t answer, period;
};
enum { UNWRITTEN = 99999 };

static void told_line(const char *call, const char *checks, struct told told) {
    printf("%s: %s: %u %u\n", call, checks, told.answer, told.period);
}

/* ---- the calls that take order and taps ---- */

static struct told taps_check(uint32_t order, uint32_t taps) {
    uint32_t period = UNWRITTEN, answer = meter_taps(order, taps, &period);
    return (struct told){answer, period};
}

static struct told sequence(uint32_t order, uint32_t taps, size_t n) {
    uint8_t out[P];
    uint32_t period = UNWRITTEN, answer = meter_sequence(order, taps, out, n, &period);
    return (struct told){answer, period};
}

static struct told recording(uint32_t order, uint32_t taps, int32_t first, size_t n, size_t out_len, size_t room_len, size_t tags_len) {
    int32_t y[P] = {first};
    int64_t out[P], room[ROOM];
    uint16_t tags[TAGS];
    uint32_t period = UNWRITTEN, answer = meter_recording(order, taps, y, n, out, out_len, room, room_len, tags, tags_len, &period);
    return (struct told){answer, period};
}

static struct told predict(uint32_t order, uint32_t taps, int32_t first, size_t n, size_t out_len) {
    int32_t h[P] = {first}, out[P];
    uint32_t period = UNWRITTEN, answer = meter_predict(order, taps, h, n, out, out_len, &period);
    return (struct told){answer, period};
}

static struct told predict_in_room(uint32_t order, uint32_t taps, int32_t first, size_t n, size_t out_len, size_t room_len) {
    int32_t h[P] = {first}, out[P];
    int64_t room[ROOM] = {1};
    uint32_t period = UNWRITTEN, answer = meter_predict_in_room(order, taps, h, n, out, out_len, room, room_len, &period);
    return (struct told){answer, period};
}

static struct told start(uint32_t order, uint32_t taps, uint32_t count, uint32_t in_edition, size_t store_len, size_t sums_len) {
    uint32_t period = UNWRITTEN;
    uint32_t answer = meter_start(order, taps, count, in_edition, TABLES, store, store_len, sums, sums_len, &period);
    return (struct told){answer, period};
}

static void players(uint32_t order, uint32_t taps, uint32_t window, const char *checks) {
    uint32_t o = order, t = taps, count = 0;
    int32_t sign;
    int8_t signs[1];
    line("step", checks, meter_player_step(&o, &t, &window, &count, &sign));
    line("play", checks, meter_player_play(&o, &t, &window, &count, signs, 1));
}

static void new_player(uint32_t order, uint32_t taps, const char *checks) {
    uint32_t o, t, window, count;
    line("new player", checks, meter_player_new(order, taps, &o, &t, &window, &count));
}

/* Orders 1 and 17 have taps that are not below 2^N as well. */
static void registers(void) {
    static const struct { uint32_t order, taps; const char *checks; } shapes[] = {
        {1, 2, "1 before 2"}, {17, 131072, "1 before 2"}, {2, 4, "2 before 3"}, {2, 2, "3 before 4"}};
    for (size_t i = 0; i < 4; i++) {
        uint32_t order = shapes[i].order, taps = shapes[i].taps;
        const char *checks = shapes[i].checks;
        told_line("taps", checks, taps_check(order, taps));
        told_line("sequence", checks, sequence(order, taps, P));
        told_line("recording", checks, recording(order, taps, 1, P, P, ROOM, TAGS));
        told_line("predict", checks, predict(order, taps, 1, P, P));
        told_line("predict in a room", checks, predict_in_room(order, taps, 1, P, P, ROOM));
        told_line("start", checks, start(order, taps, 1, METER_HALVES_AWAY, P, P));
        if (i == 3)
            break;
        new_player(order, taps, checks);
        players(order, taps, 1, checks);
    }
    players(2, 2, 0, "3 before 16");
    players(2, 2, 4, "3 before 16");
    told_line("sequence", "4 before 6", sequence(2, 1, P - 1));
}

/* A response of 8388608, 0, 0 predicts 8388608 at the last place. */
static void recordings(void) {
    told_line("recording", "4 before 5", recording(2, 1, 1, P - 1, P, ROOM, TAGS));
    told_line("recording", "5 before 6", recording(2, 3, 1, P - 1, P - 1, ROOM, TAGS));
    told_line("recording", "5 before 6", recording(2, 3, 1, P - 1, P, ROOM - 1, TAGS));
    told_line("recording", "5 before 6", recording(2, 3, 1, P - 1, P, ROOM, TAGS - 1));
    told_line("recording", "6 before 7", recording(2, 3, 8388608, P, P - 1, ROOM, TAGS));
    told_line("recording", "6 before 7", recording(2, 3, 8388608, P, P, ROOM - 1, TAGS));
    told_line("recording", "6 before 7", recording(2, 3, 8388608, P, P, ROOM, TAGS - 1));
    told_line("predict", "4 before 5", predict(2, 1, 1, P - 1, P));
    told_line("predict", "5 before 6", predict(2, 3, 1, P - 1, P - 1));
    told_line("predict", "6 before 7", predict(2, 3, 8388608, P, P - 1));
    told_line("predict", "7 before 8", predict(2, 3, 8388608, P, P));
    told_line("predict in a room", "4 before 5", predict_in_room(2, 1, 1, P - 1, P, ROOM));
    told_line("predict in a room", "5 before 6", predict_in_room(2, 3, 1, P - 1, P - 1, ROOM));
    told_line("predict in a room", "5 before 6", predict_in_room(2, 3, 1, P - 1, P, ROOM - 1));
    told_line("predict in a room", "6 before 7", predict_in_room(2, 3, 8388608, P, P - 1, ROOM));
    told_line("predict in a room", "6 before 7", predict_in_room(2, 3, 8388608, P, P, ROOM - 1));
    told_line("predict in a room", "7 before 8", predict_in_room(2, 3, 8388608, P, P, ROOM));
    told_line("start", "4 before 9", start(2, 1, 0, METER_HALVES_AWAY, P, P));
    told_line("start", "9 before 6", start(2, 3, 65, METER_HALVES_AWAY, 64 * P, P));
    told_line("start", "9 before 6", start(2, 3, 0, METER_HALVES_AWAY, P, P - 1));
}

/* Editions that are none: those next to the two that are, and alone also some of which the lowest 8 or 16 bits are one that is. */
static void edition_starts(void) {
    static const uint32_t beside[] = {0, 3}, alone[] = {0, 3, 257, 258, 65537, UINT32_MAX};
    for (size_t i = 0; i < sizeof beside / sizeof *beside; i++) {
        told_line("start", "9 before 24", start(ORDER, TAPS, 0, beside[i], P, P));
        told_line("start", "9 before 24", start(ORDER, TAPS, METER_SLOTS + 1, beside[i], (METER_SLOTS + 1) * P, P));
    }
    for (size_t i = 0; i < sizeof beside / sizeof *beside; i++) {
        told_line("start", "24 before 6", start(ORDER, TAPS, 1, beside[i], P - 1, P));
        told_line("start", "24 before 6", start(ORDER, TAPS, 1, beside[i], P, P - 1));
    }
    for (size_t i = 0; i < sizeof alone / sizeof *alone; i++)
        told_line("start", "24 alone", start(ORDER, TAPS, 1, alone[i], P, P));
}

/* ---- a campaign ---- */

/* What is wrong with a record that does not hold together. Those from NO_PERIODS to BEYOND_ITS_PERIODS are of a used slot, and that of
 * NO_PERIODS_OF_ZEROS holds zeros, as a free one does. */
enum damage {
    WHOLE, SUM, FREE_PERIODS, PAST_C_PERIODS, NO_PERIODS, NO_PERIODS_OF_ZEROS, MANY_PERIODS, BEYOND_ITS_PERIODS,
    SHORT_DAYS, SHORT_SLOTS, SHORT_PERIODS, EDITION_BELOW, EDITION_ABOVE, DAMAGES
};

static void strike(enum damage damage) {
    switch (damage) {
    case SUM: sums[0]++; break;
    case FREE_PERIODS: periods[0] = 1; break;
    case PAST_C_PERIODS: periods[METER_SLOTS - 1] = 1; break;
    case NO_PERIODS:
    case NO_PERIODS_OF_ZEROS: periods[0] = 0; break;
    case MANY_PERIODS: periods[0] = MOST_PERIODS + 1; break;
    case BEYOND_ITS_PERIODS:
        store[0] = HIGHEST;
        sums[0] = HIGHEST;
        break;
    case SHORT_DAYS: days_len = METER_DAYS - 1; break;
    case SHORT_SLOTS: slots_len = METER_SLOTS - 1; break;
    case SHORT_PERIODS: periods_len = METER_SLOTS - 1; break;
    case EDITION_BELOW: edition = METER_HALVES_AWAY - 1; break;
    case EDITION_ABOVE: edition = METER_HALVES_TO_EVEN + 1; break;
    default: break;
    }
}

static void mend_tables(void) {
    days_len = METER_DAYS;
    slots_len = METER_SLOTS;
    periods_len = METER_SLOTS;
}

static int stands(enum damage damage) {
    return damage >= NO_PERIODS && damage <= BEYOND_ITS_PERIODS;
}

/* A start; day 1 stands where asked, which uses the only slot; then the damage. */
static void begin(enum damage damage, int standing) {
    const int32_t y[P] = {KEPT, 0, 0}, sums_to_zeros[3 * P] = {0, 0, 0, KEPT, 0, 0, -KEPT, 0, 0};
    uint32_t state;
    size_t value;
    mend_tables();
    edition = METER_HALVES_AWAY;
    start(ORDER, TAPS, 1, edition, P, P);
    if (standing && damage == NO_PERIODS_OF_ZEROS)
        meter_capture(RECORD, 1, 2, sums_to_zeros, 3 * P, &state, &value);
    else if (standing)
        meter_enter(RECORD, 1, y, P, &state, &value);
    strike(damage);
}

/* Each table too short, at a slot count that is none, at an edition that is none, and at ones that are. */
static void starts(void) {
    static const struct { const char *checks; uint32_t count, edition; } shapes[] = {
        {"9 before 6", 0, METER_HALVES_AWAY},
        {"24 before 6", 1, METER_HALVES_AWAY - 1},
        {"24 before 6", 1, METER_HALVES_TO_EVEN + 1},
        {"6 alone", 1, METER_HALVES_AWAY},
    };
    for (size_t i = 0; i < sizeof shapes / sizeof *shapes; i++)
        for (enum damage damage = SHORT_DAYS; damage <= SHORT_PERIODS; damage++) {
            strike(damage);
            told_line("start", shapes[i].checks, start(ORDER, TAPS, shapes[i].count, shapes[i].edition, P, P));
            mend_tables();
        }
}

/* The answer of an entry, and its two variables, which hold 9 before the call. */
struct entry {
    uint32_t answer, state;
    size_t value;
};

static void entry_line(const char *call, const char *checks, struct entry e) {
    printf("%s: %s: %u %u %zu\n", call, checks, e.answer, e.state, e.value);
}

static struct entry entered(uint32_t day, const int32_t *y, size_t n) {
    struct entry e = {0, 9, 9};
    e.answer = meter_enter(RECORD, day, y, n, &e.state, &e.value);
    return e;
}

static struct entry captured(uint32_t day, uint32_t m, const int32_t *y, size_t n) {
    struct entry e = {0, 9, 9};
    e.answer = meter_capture(RECORD, day, m, y, n, &e.state, &e.value);
    return e;
}

static void enter(const char *checks, int standing, uint32_t day, int32_t first, int32_t other, size_t n) {
    const int32_t y[P] = {first, other, other};
    begin(WHOLE, standing);
    entry_line("enter", checks, entered(day, y, n));
}

/* A dead input is still or dithers by a spread of 7; one that does so at a rail is overloaded. */
static void enters(void) {
    enter("10 before 5", 0, 0, KEPT, 0, P - 1);
    enter("5 before 7", 0, 2, BEYOND, 0, P - 1);
    enter("7 before 11", 1, 1, BEYOND, 0, P);
    enter("11 before the verdict", 1, 1, HIGHEST, 0, P);
    enter("11 before the verdict", 1, 1, 5, 5, P);
    enter("11 before the verdict", 1, 1, 5, -2, P);
    enter("11 before 12", 1, 1, KEPT, 0, P);
    enter("overloaded before dead", 0, 2, HIGHEST, HIGHEST, P);
    enter("overloaded before dead", 0, 2, HIGHEST, HIGHEST - 7, P);
    enter("overloaded before dead", 0, 2, LOWEST + 7, LOWEST, P);
    enter("the verdict before 12", 1, 2, HIGHEST, 0, P);
    enter("the verdict before 12", 1, 2, HIGHEST, HIGHEST - 7, P);
    enter("the verdict before 12", 1, 2, 5, 5, P);
    enter("the verdict before 12", 1, 2, 5, -2, P);
}

/* A capture's samples: the run-in is P of `run_in`, and behind it stand `first`, as many `other` as it takes, and `last`. */
enum { MOST = 3 * P };
struct shape {
    size_t n;
    int32_t run_in, first, other, last;
};

static void shaped(int32_t y[MOST], struct shape s) {
    for (size_t j = 0; j < s.n; j++)
        y[j] = j < P ? s.run_in : j == P ? s.first : j + 1 == s.n ? s.last : s.other;
}

static void capture(const char *checks, int standing, uint32_t day, uint32_t m, struct shape shape) {
    int32_t y[MOST];
    shaped(y, shape);
    begin(WHOLE, standing);
    entry_line("capture", checks, captured(day, m, y, shape.n));
}

/* A capture that would be kept, of n samples, and one whose run-in is beyond the range. */
static struct shape plain(size_t n) {
    return (struct shape){n, 0, KEPT, 0, 0};
}

static struct shape beyond(size_t n) {
    return (struct shape){n, BEYOND, KEPT, 0, 0};
}

/* Those that are refused before the day's state is looked at. */
static void refused_captures(void) {
    capture("10 before 18", 0, 0, 0, plain(P));
    capture("10 before 18", 0, 367, 17, plain(2 * P));
    capture("10 before 18", 0, 0, UINT32_MAX, plain(2 * P));
    capture("18 before 5", 0, 2, 0, plain(2 * P));
    capture("18 before 5", 0, 2, 17, plain(2 * P));
    capture("18 before 5", 0, 2, 255, plain(2 * P));
    capture("18 before 5", 0, 2, 256, plain(P));
    capture("18 before 5", 0, 2, UINT32_MAX, plain(2 * P));
    capture("5 before 7", 0, 2, 1, beyond(P));
    capture("5 before 7", 0, 2, 1, beyond(2 * P - 1));
    capture("5 before 7", 0, 2, 1, beyond(2 * P + 1));
    capture("5 before 7", 0, 2, 2, beyond(2 * P));
    capture("7 before 11", 1, 1, 1, beyond(2 * P));
    capture("7 before 11", 1, 1, 1, (struct shape){2 * P, 0, KEPT, 0, BEYOND});
}

/* One period behind a run-in at a rail, and two: one who judges the run-in finds an overload. */
static struct shape one(int32_t first, int32_t other, int32_t last) {
    return (struct shape){2 * P, HIGHEST, first, other, last};
}

static struct shape two(int32_t first, int32_t other, int32_t last) {
    return (struct shape){3 * P, HIGHEST, first, other, last};
}

/* Those that are judged, or would be but for 11. */
static void judged_captures(void) {
    capture("11 before the verdict", 1, 1, 1, one(LOWEST, 0, 0));
    capture("11 before the verdict", 1, 1, 1, one(5, 5, 5));
    capture("11 before the verdict", 1, 1, 1, one(5, -2, -2));
    capture("11 before 12", 1, 1, 1, one(KEPT, 0, 0));
    capture("overloaded before dead", 0, 2, 1, one(HIGHEST - 7, HIGHEST - 7, HIGHEST));
    capture("overloaded before dead", 0, 2, 2, two(HIGHEST - 7, HIGHEST - 7, HIGHEST));
    capture("the run-in is not judged", 0, 2, 1, one(KEPT, 0, 0));
    capture("the run-in is not judged", 0, 2, 1, one(5, 5, 5));
    capture("the run-in is not judged", 0, 2, 2, two(5, -2, -2));
    capture("the run-in is not counted", 0, 2, 1, one(LOWEST, 0, 0));
    capture("the run-in is not counted", 0, 2, 1, one(0, 0, HIGHEST));
    capture("the run-in is not counted", 0, 2, 2, two(0, 0, HIGHEST));
    capture("the verdict before 12", 1, 2, 1, one(LOWEST, 0, 0));
    capture("the verdict before 12", 1, 2, 2, two(0, 0, HIGHEST));
    capture("the verdict before 12", 1, 2, 1, one(5, 5, 5));
    capture("the verdict before 12", 1, 2, 2, two(5, -2, -2));
    capture("12 alone", 1, 2, 1, one(KEPT, 0, 0));
    capture("12 alone", 1, 2, 2, two(KEPT, 0, 0));
}

/* ---- a night judged, with no record ---- */

/* The answer of a judgement, its two variables of an entry, and that for the period, which holds UNWRITTEN before the call. */
struct judgement {
    struct entry said;
    uint32_t period;
};

static void judgement_line(const char *call, const char *checks, struct judgement j) {
    printf("%s: %s: %u %u %zu %u\n", call, checks, j.said.answer, j.said.state, j.said.value, j.period);
}

/* The samples of a night of one period, whole or one too short. */
struct samples {
    size_t n;
    int32_t y[P];
};

static struct samples whole(int32_t first, int32_t second, int32_t third) {
    return (struct samples){P, {first, second, third}};
}

static struct samples cut(int32_t first, int32_t second) {
    return (struct samples){P - 1, {first, second}};
}

static void judge(const char *checks, uint32_t order, uint32_t taps, struct samples night) {
    struct judgement j = {{0, 9, 9}, UNWRITTEN};
    j.said.answer = meter_judge(order, taps, night.y, night.n, &j.said.state, &j.said.value, &j.period);
    judgement_line("judge", checks, j);
}

static void judge_capture(const char *checks, uint32_t order, uint32_t taps, uint32_t m, struct shape shape) {
    struct judgement j = {{0, 9, 9}, UNWRITTEN};
    int32_t y[MOST];
    shaped(y, shape);
    j.said.answer = meter_judge_capture(order, taps, m, y, shape.n, &j.said.state, &j.said.value, &j.period);
    judgement_line("judge capture", checks, j);
}

static void judges(void) {
    judge("1 before 2", 1, 2, whole(KEPT, 0, 0));
    judge("2 before 3", 2, 4, whole(KEPT, 0, 0));
    judge("3 before 4", 2, 2, whole(KEPT, 0, 0));
    judge("4 before 5", 2, 1, cut(KEPT, 0));
    judge("5 before 7", ORDER, TAPS, cut(BEYOND, 0));
    judge("7 before the verdict", ORDER, TAPS, whole(BEYOND, HIGHEST, HIGHEST));
    judge("overloaded before dead", ORDER, TAPS, whole(HIGHEST, HIGHEST, HIGHEST));
    judge("overloaded before dead", ORDER, TAPS, whole(LOWEST + 7, LOWEST, LOWEST));
    judge("overloaded", ORDER, TAPS, whole(0, 0, HIGHEST));
    judge("dead", ORDER, TAPS, whole(5, 5, 5));
    judge("dead", ORDER, TAPS, whole(5, -2, -2));
    judge("kept", ORDER, TAPS, whole(KEPT, 0, 0));
    judge_capture("1 before 2", 1, 2, 1, plain(2 * P));
    judge_capture("4 before 18", 2, 1, 0, plain(P));
    judge_capture("4 before 18", 2, 1, MOST_PERIODS + 1, plain(2 * P));
    judge_capture("18 before 5", ORDER, TAPS, 0, plain(2 * P));
    judge_capture("18 before 5", ORDER, TAPS, MOST_PERIODS + 1, plain(2 * P));
    judge_capture("18 before 5", ORDER, TAPS, UINT32_MAX, plain(2 * P));
    judge_capture("5 before 7", ORDER, TAPS, 1, beyond(P));
    judge_capture("5 before 7", ORDER, TAPS, 2, beyond(2 * P));
    judge_capture("7 before the verdict", ORDER, TAPS, 1, (struct shape){2 * P, BEYOND, HIGHEST, HIGHEST, HIGHEST});
    judge_capture("the run-in is not judged", ORDER, TAPS, 1, one(KEPT, 0, 0));
    judge_capture("the run-in is not counted", ORDER, TAPS, 2, two(0, 0, HIGHEST));
    judge_capture("dead", ORDER, TAPS, 1, one(5, -2, -2));
}

/* ---- a night filed with the verdict that is handed in ---- */

/* The two numbers of a verdict. */
struct pair {
    uint32_t shown;
    size_t place;
};
static const struct pair kept = {METER_STANDING, 0}, dead = {METER_DEAD, 0};

static struct pair overloaded(size_t place) {
    return (struct pair){METER_OVERLOADED, place};
}

static struct entry filed(uint32_t day, const int32_t *y, size_t n, struct pair pair) {
    struct entry e = {0, 9, 9};
    e.answer = meter_file(RECORD, day, y, n, pair.shown, pair.place, &e.state, &e.value);
    return e;
}

static struct entry filed_capture(uint32_t day, uint32_t m, const int32_t *y, size_t n, struct pair pair) {
    struct entry e = {0, 9, 9};
    e.answer = meter_file_capture(RECORD, day, m, y, n, pair.shown, pair.place, &e.state, &e.value);
    return e;
}

static void file(const char *checks, int standing, uint32_t day, struct samples night, struct pair pair) {
    begin(WHOLE, standing);
    entry_line("file", checks, filed(day, night.y, night.n, pair));
}

static void file_capture(const char *checks, int standing, uint32_t day, uint32_t m, struct shape shape, struct pair pair) {
    int32_t y[MOST];
    shaped(y, shape);
    begin(WHOLE, standing);
    entry_line("file capture", checks, filed_capture(day, m, y, shape.n, pair));
}

/* Verdicts that judging gives for other nights, and pairs that say none. */
static void wrong_verdicts(void) {
    static const struct { int32_t y[P]; struct pair pair; } wrong[] = {
        {{5, 5, 5}, {METER_STANDING, 0}},
        {{HIGHEST, 0, 0}, {METER_STANDING, 0}},
        {{KEPT, 0, 0}, {METER_DEAD, 0}},
        {{HIGHEST, 0, 0}, {METER_DEAD, 0}},
        {{KEPT, 0, 0}, {METER_OVERLOADED, 0}},
        {{5, 5, 5}, {METER_OVERLOADED, 0}},
        {{0, 0, HIGHEST}, {METER_OVERLOADED, P - 2}},
        {{0, 0, HIGHEST}, {METER_OVERLOADED, P}},
        {{5, 5, 5}, {METER_DEAD, 1}},
        {{KEPT, 0, 0}, {METER_STANDING, 1}},
        {{KEPT, 0, 0}, {METER_UNSEEN, 0}},
        {{KEPT, 0, 0}, {METER_WITHDRAWN, 0}},
        {{KEPT, 0, 0}, {METER_WITHDRAWN + 1, 0}},
        {{KEPT, 0, 0}, {METER_VERDICT_DIFFERS, 0}},
        {{KEPT, 0, 0}, {9, 9}},
        {{KEPT, 0, 0}, {UINT32_MAX, 0}},
    };
    for (size_t i = 0; i < sizeof wrong / sizeof *wrong; i++)
        file("23 before the verdict", 0, 2, whole(wrong[i].y[0], wrong[i].y[1], wrong[i].y[2]), wrong[i].pair);
}

static void files(void) {
    file("10 before 5", 0, 0, cut(KEPT, 0), kept);
    file("5 before 7", 0, 2, cut(BEYOND, 0), kept);
    file("7 before 11", 1, 1, whole(BEYOND, 0, 0), kept);
    file("11 before 23", 1, 1, whole(KEPT, 0, 0), dead);
    file("11 before 23", 1, 1, whole(5, 5, 5), kept);
    file("23 before 12", 1, 2, whole(KEPT, 0, 0), dead);
    file("23 before 12", 1, 2, whole(KEPT, 0, 0), (struct pair){METER_STANDING, 1});
    wrong_verdicts();
    file("12 alone", 1, 2, whole(KEPT, 0, 0), kept);
    file("the verdict before 12", 1, 2, whole(HIGHEST, 0, 0), overloaded(0));
    file("the verdict before 12", 1, 2, whole(5, 5, 5), dead);
    file("shown", 0, 2, whole(KEPT, 0, 0), kept);
    file("shown", 0, 2, whole(0, 0, HIGHEST), overloaded(P - 1));
    file("shown", 0, 2, whole(5, -2, -2), dead);
}

/* Of two periods the last place is 2 * P - 1; one who counts the run-in says 3 * P - 1. */
static void file_captures(void) {
    file_capture("10 before 18", 0, 0, 0, plain(P), kept);
    file_capture("18 before 5", 0, 2, MOST_PERIODS + 1, plain(2 * P), kept);
    file_capture("5 before 7", 0, 2, 1, beyond(P), kept);
    file_capture("7 before 11", 1, 1, 1, beyond(2 * P), kept);
    file_capture("11 before 23", 1, 1, 1, one(KEPT, 0, 0), dead);
    file_capture("23 before 12", 1, 2, 2, two(KEPT, 0, 0), dead);
    file_capture("23 before the verdict", 0, 2, 2, two(0, 0, HIGHEST), overloaded(3 * P - 1));
    file_capture("23 before the verdict", 0, 2, 1, one(KEPT, 0, 0), overloaded(0));
    file_capture("12 alone", 1, 2, 1, one(KEPT, 0, 0), kept);
    file_capture("shown", 0, 2, 2, two(0, 0, HIGHEST), overloaded(2 * P - 1));
    file_capture("shown", 0, 2, 1, one(KEPT, 0, 0), kept);
    file_capture("shown", 0, 2, 1, one(5, -2, -2), dead);
}

/* ---- a record that does not hold together, and what is asked of one that does ---- */

/* Every call that names a day, on day 0; the verdicts handed in are wrong too. */
static void before_10(enum damage damage) {
    const int32_t y[P] = {KEPT, 0, 0};
    int32_t several[MOST];
    shaped(several, plain(2 * P));
    begin(damage, stands(damage));
    entry_line("enter", "15 before 10", entered(0, y, P));
    entry_line("capture", "15 before 10", captured(0, 1, several, 2 * P));
    entry_line("file", "15 before 10", filed(0, y, P, dead));
    entry_line("file capture", "15 before 10", filed_capture(0, 1, several, 2 * P, dead));
    line("withdraw", "15 before 10", meter_withdraw(RECORD, 0));
}

/* Each of the lent lengths is one too short in its turn; a summary has no outputs but the room. */
static void asks(enum damage damage, const char *response_checks, const char *summary_checks) {
    int64_t r[P], room[ROOM];
    int32_t mean[P];
    uint16_t tags[TAGS];
    uint32_t told;
    double levels[3];
    begin(damage, stands(damage));
    for (int i = 0; i < 4; i++)
        line("response", response_checks, meter_response(RECORD, r, P - (i == 0), mean, P - (i == 1), room, ROOM - (i == 2), tags, TAGS - (i == 3)));
    for (int i = 2; i < 4; i++)
        line("summary", summary_checks,
             meter_summary(RECORD, room, ROOM - (i == 2), tags, TAGS - (i == 3), &told, &levels[0], &levels[1], &levels[2]));
}

/* ---- Legendre sequences ---- */

/* The shortest period that is offered, and more places than any call here is lent. */
enum { SHORTEST = 7, MOST_PLACES = 16 };

static uint32_t legendre_recording(uint32_t p, int32_t first, size_t n, size_t out_len) {
    int32_t y[MOST_PLACES] = {first};
    int64_t out[MOST_PLACES];
    return meter_legendre_recording(p, y, n, out, out_len);
}

static uint32_t legendre_predict(uint32_t p, int32_t first, size_t n, size_t out_len) {
    int32_t h[MOST_PLACES] = {first}, out[MOST_PLACES];
    return meter_legendre_predict(p, h, n, out, out_len);
}

/* A prime of the form 4m - 1, one of the form 4m + 1, and the number behind the shortest: none is offered. */
static void not_offered(void) {
    static const uint32_t periods_tried[] = {3, 13, SHORTEST + 1};
    uint8_t out[MOST_PLACES];
    for (size_t i = 0; i < sizeof periods_tried / sizeof *periods_tried; i++) {
        uint32_t p = periods_tried[i];
        line("legendre sequence", "25 before 6", meter_legendre_sequence(p, out, p - 1));
        line("legendre recording", "25 before 5", legendre_recording(p, 1, p - 1, p));
        line("legendre predict", "25 before 5", legendre_predict(p, 1, p - 1, p));
    }
}

/* A response of 8388608 and zeros predicts 8388608 at place 1. */
static void legendres(void) {
    not_offered();
    for (size_t n = SHORTEST - 1; n <= SHORTEST + 1; n += 2) {
        line("legendre recording", "5 before 6", legendre_recording(SHORTEST, 1, n, SHORTEST - 1));
        line("legendre predict", "5 before 6", legendre_predict(SHORTEST, 1, n, SHORTEST - 1));
    }
    line("legendre recording", "6 before 7", legendre_recording(SHORTEST, BEYOND, SHORTEST, SHORTEST - 1));
    line("legendre predict", "6 before 7", legendre_predict(SHORTEST, BEYOND, SHORTEST, SHORTEST - 1));
    line("legendre predict", "7 before 8", legendre_predict(SHORTEST, BEYOND, SHORTEST, SHORTEST));
}

int main(void) {
    registers();
    recordings();
    edition_starts();
    starts();
    enters();
    refused_captures();
    judged_captures();
    judges();
    files();
    file_captures();
    for (enum damage damage = SUM; damage < DAMAGES; damage++) {
        before_10(damage);
        asks(damage, "15 before 6", "15 before 6");
    }
    begin(WHOLE, 0);
    line("withdraw", "10 before 13", meter_withdraw(RECORD, 0));
    asks(WHOLE, "6 before 14", "6 before nothing stands");
    legendres();
    return 0;
}
