/* The stack that a prediction, a judgement and the calls of a short room take, held to what meter.h says, and that of each call on a campaign, held to
 * what docs/TRUST.md says. Each call is made on a stack of its own that was painted before, and what is no longer paint was used. Prints the most that
 * each kind of call took, and fails where that is more than was said. */
#define _XOPEN_SOURCE 700
#include "meter.h"
#include <stdio.h>
#include <stdlib.h>
#include <string.h>
#include <ucontext.h>

enum { PAINT = 0xa5, STACK = 1 << 20, SHORT_ORDERS = 12, ORDERS = 16, MOST_P = 65535, MOST_M = 16 };

/* What meter.h says of a prediction, a judgement and a short room and docs/TRUST.md of a campaign, in bytes. */
enum { REFUSED = 1024, SHORT = 40 * 1024, LONG = 520 * 1024, IN_ROOM = 2048, JUDGED = 1024, SHORT_ROOM = 2 * 1024, CAMPAIGN = 16 * 1024 };

static unsigned char stack[STACK];
static ucontext_t here, there;
static int32_t h[MOST_P], out[MOST_P];
static int64_t room[MOST_P + 1];
static int wrong;

/* What the call that is made on the painted stack is given, and its answer with the period. */
static struct { uint32_t order, taps; size_t h_len, out_len, room_len; int lent; } call;
static uint32_t answer, period;
static uint32_t (*work)(void);

static uint32_t nothing(void) { return 0; }

static uint32_t predict(void) {
    if (call.lent)
        return meter_predict_in_room(call.order, call.taps, h, call.h_len, out, call.out_len, room, call.room_len, &period);
    return meter_predict(call.order, call.taps, h, call.h_len, out, call.out_len, &period);
}

static void make(void) { answer = work(); }

static size_t used(void) {
    memset(stack, PAINT, STACK);
    getcontext(&there);
    there.uc_stack.ss_sp = stack;
    there.uc_stack.ss_size = STACK;
    there.uc_link = &here;
    makecontext(&there, make, 0);
    swapcontext(&here, &there);
    size_t paint = 0;
    while (paint < STACK && stack[paint] == PAINT)
        paint++;
    return STACK - paint;
}

/* Less what a call of nothing takes. */
static size_t taken(uint32_t (*by)(void), uint32_t expected) {
    work = nothing;
    size_t none = used();
    work = by;
    size_t bytes = used() - none;
    if (answer != expected) {
        printf("wrong: order or period %u answers %u, not %u\n", call.order, answer, expected);
        wrong = 1;
    }
    return bytes;
}

static void set(uint32_t order, int lent) {
    size_t p = ((size_t)1 << order) - 1;
    call.order = order;
    call.h_len = call.out_len = p;
    call.room_len = p + 1;
    call.lent = lent;
    meter_default_taps(order, &call.taps);
    memset(h, 0, sizeof h);
    h[0] = 2;
}

static size_t larger(size_t a, size_t b) { return a < b ? b : a; }

/* The most of the refusals 1 to 7 at an order. */
static size_t refused(uint32_t order, int lent) {
    size_t most = 0;
    for (uint32_t number = 1; number <= 7; number++) {
        set(order, lent);
        switch (number) {
        case 1: call.order = 17; break;
        case 2: call.taps = 1u << order; break;
        case 3: call.taps = 2; break;
        case 4: call.taps = 1; break;
        case 5: call.h_len--; break;
        case 6: *(lent ? &call.room_len : &call.out_len) -= 1; break;
        default: h[1] = 8388608; break;
        }
        most = larger(most, taken(predict, number));
    }
    return most;
}

/* The most of a prediction that is accepted, and of one that is refused with 8, with this number at the lent room's first place. */
static size_t worked(uint32_t order, int lent, int64_t first) {
    set(order, lent);
    room[0] = first;
    h[1] = h[0] = 8388607;
    size_t most = taken(predict, 8);
    set(order, lent);
    return larger(most, taken(predict, 0));
}

static void hold(const char *what, size_t bytes, size_t most) {
    printf("stack: %s: %zu bytes\n", what, bytes);
    if (bytes > most) {
        printf("wrong: at most %zu were said\n", most);
        wrong = 1;
    }
}

/* ---- a night, of one period or a capture of m, and what is told of it ---- */

static int32_t night[(MOST_M + 1) * MOST_P];
static uint32_t m, state;
static size_t p, value;

static void lay(uint32_t of_m, int dead) {
    m = of_m;
    for (size_t j = 0; j < (MOST_M + 1) * p; j++)
        night[j] = dead ? 0 : (int32_t)(j * 7919 % 20011) - 10000;
}

static uint32_t judge(void) { return meter_judge(call.order, call.taps, night, p, &state, &value, &period); }
static uint32_t judge_capture(void) { return meter_judge_capture(call.order, call.taps, m, night, (m + 1) * p, &state, &value, &period); }

/* The most at every order, of nights that are dead or kept, and of taps that are refused with 4. */
static size_t judged(uint32_t (*by)(void)) {
    size_t most = 0;
    for (uint32_t order = 2; order <= ORDERS; order++) {
        set(order, 0);
        p = call.h_len;
        for (int dead = 0; dead < 2; dead++) {
            lay(MOST_M, dead);
            most = larger(most, taken(by, METER_ACCEPTED));
        }
        call.taps = 1;
        most = larger(most, taken(by, METER_NOT_MAXIMAL));
    }
    return most;
}

/* ---- a short room, its period in the order's place ---- */

enum { LEAST_SHORT = 7, MOST_SHORT = 127 };
/* Each is added to those before it, and its check comes before theirs. */
enum { SOUND, TOO_LOUD, BEYOND, SHORT_OUTPUT, SHORT_INPUT, NOT_OFFERED, FAULTS };

static uint8_t bits[MOST_SHORT];

static uint32_t legendre_sequence(void) { return meter_legendre_sequence(call.order, bits, call.out_len); }
static uint32_t legendre_recording(void) { return meter_legendre_recording(call.order, h, call.h_len, room, call.out_len); }
static uint32_t legendre_predict(void) { return meter_legendre_predict(call.order, h, call.h_len, out, call.out_len); }

/* The calls, and what each answers with each fault. */
static const struct short_call { const char *name; uint32_t (*by)(void); uint32_t answers[FAULTS]; } short_calls[] = {
    {"meter_legendre_sequence", legendre_sequence, {0, 0, 0, 6, 6, 25}},
    {"meter_legendre_recording", legendre_recording, {0, 0, 7, 6, 5, 25}},
    {"meter_legendre_predict", legendre_predict, {0, 8, 7, 6, 5, 25}},
};
enum { SHORT_CALLS = sizeof short_calls / sizeof *short_calls };

/* The most of a call at this period, accepted and refused. */
static size_t short_room(const struct short_call *of, uint32_t at) {
    size_t most = 0;
    call.order = at;
    call.h_len = call.out_len = at;
    memset(h, 0, sizeof h);
    h[0] = 2;
    for (int fault = SOUND; fault < FAULTS; fault++) {
        switch (fault) {
        case SOUND: break;
        case TOO_LOUD: h[0] = h[1] = 8388607; break;
        case BEYOND: h[1] = 8388608; break;
        case SHORT_OUTPUT: call.out_len--; break;
        case SHORT_INPUT: call.h_len--; break;
        default: call.order++; break;
        }
        most = larger(most, taken(of->by, of->answers[fault]));
    }
    return most;
}

static void short_rooms(void) {
    for (size_t i = 0; i < SHORT_CALLS; i++) {
        const struct short_call *of = &short_calls[i];
        /* What the loader finds at a first call it finds on the caller's stack, so one room goes before. */
        short_room(of, LEAST_SHORT);
        hold(of->name, larger(short_room(of, LEAST_SHORT), short_room(of, MOST_SHORT)), SHORT_ROOM);
    }
}

/* ---- a campaign of one slot ---- */

static uint8_t days[METER_DAYS], periods[METER_SLOTS];
static uint16_t slots[METER_SLOTS], tags[MOST_P];
static int32_t store[MOST_P], mean[MOST_P];
static int64_t sums[MOST_P], r[MOST_P];
static uint32_t shown, numbers[5];
static double levels[3];

#define RECORD_IN(edition) call.order, call.taps, 1, edition, days, METER_DAYS, slots, METER_SLOTS, periods, METER_SLOTS, store, p, sums, p
#define RECORD RECORD_IN(METER_HALVES_AWAY)
#define ROOM room, p + 1, tags, p

static uint32_t start(void) { return meter_start(RECORD, &period); }
static uint32_t enter(void) { return meter_enter(RECORD, 1, night, p, &state, &value); }
static uint32_t capture(void) { return meter_capture(RECORD, 1, m, night, (m + 1) * p, &state, &value); }
static uint32_t file(void) { return meter_file(RECORD, 1, night, p, shown, 0, &state, &value); }
static uint32_t file_capture(void) { return meter_file_capture(RECORD, 1, m, night, (m + 1) * p, shown, 0, &state, &value); }
static uint32_t withdraw(void) { return meter_withdraw(RECORD, 1); }
static uint32_t counts(void) { return meter_counts(RECORD, &numbers[0], &numbers[1], &numbers[2], &numbers[3], &numbers[4]); }
static uint32_t response(void) { return meter_response(RECORD, r, p, mean, p, ROOM); }
static uint32_t response_to_even(void) { return meter_response(RECORD_IN(METER_HALVES_TO_EVEN), r, p, mean, p, ROOM); }
static uint32_t summary(void) { return meter_summary(RECORD, ROOM, &numbers[0], &levels[0], &levels[1], &levels[2]); }

/* The calls, in an order in which each is accepted, each with the m that a capture has then, and whether the night is dead. */
static const struct { const char *name; uint32_t (*by)(void); uint32_t m; int dead; } calls[] = {
    {"meter_start", start, 0, 0}, {"meter_enter", enter, 0, 1}, {"meter_enter", enter, 0, 0},
    {"meter_counts", counts, 0, 0}, {"meter_response", response, 0, 0}, {"meter_response", response_to_even, 0, 0},
    {"meter_summary", summary, 0, 0}, {"meter_withdraw", withdraw, 0, 0},
    {"meter_capture", capture, MOST_M, 1}, {"meter_capture", capture, 1, 0}, {"meter_withdraw", withdraw, 0, 0}, {"meter_capture", capture, MOST_M, 0},
    {"meter_counts", counts, 0, 0}, {"meter_response", response, 0, 0}, {"meter_response", response_to_even, 0, 0},
    {"meter_summary", summary, 0, 0}, {"meter_withdraw", withdraw, 0, 0},
    {"meter_file", file, 0, 1}, {"meter_file", file, 0, 0}, {"meter_withdraw", withdraw, 0, 0},
    {"meter_file_capture", file_capture, MOST_M, 1}, {"meter_file_capture", file_capture, 1, 0}, {"meter_withdraw", withdraw, 0, 0},
    {"meter_file_capture", file_capture, MOST_M, 0},
};
enum { CALLS = sizeof calls / sizeof *calls };

/* The most that each of the calls took, at every order. */
static size_t took[CALLS];

static void campaign(uint32_t order) {
    set(order, 0);
    p = call.h_len;
    for (size_t i = 0; i < CALLS; i++) {
        lay(calls[i].m, calls[i].dead);
        shown = calls[i].dead ? METER_DEAD : METER_STANDING;
        took[i] = larger(took[i], taken(calls[i].by, METER_ACCEPTED));
    }
}

static void campaigns(void) {
    /* The loader finds memcpy at its first call, on the caller's stack, so one campaign goes before. */
    campaign(2);
    memset(took, 0, sizeof took);
    for (uint32_t order = 2; order <= ORDERS; order++)
        campaign(order);
    for (size_t i = 0; i < CALLS; i++) {
        size_t most = 0, first = i;
        for (size_t k = 0; k < CALLS; k++)
            if (strcmp(calls[k].name, calls[i].name) == 0) {
                most = larger(most, took[k]);
                first = k < first ? k : first;
            }
        if (first == i)
            hold(calls[i].name, most, CAMPAIGN);
    }
}

int main(void) {
    size_t no = 0, few = 0, many = 0, lent = 0;
    for (uint32_t order = 2; order <= ORDERS; order++) {
        no = larger(no, refused(order, 0));
        if (order <= SHORT_ORDERS)
            few = larger(few, worked(order, 0, 0));
        else
            many = larger(many, worked(order, 0, 0));
        lent = larger(lent, larger(refused(order, 1), worked(order, 1, 0)));
    }
    /* A room that does not hold zeros, at an order whose P * P steps do not take long. */
    lent = larger(lent, worked(10, 1, 1));
    hold("meter_predict refused with 1 to 7", no, REFUSED);
    hold("meter_predict up to order 12", few, SHORT);
    hold("meter_predict from order 13", many, LONG);
    hold("meter_predict_in_room", lent, IN_ROOM);
    hold("meter_judge", judged(judge), JUDGED);
    hold("meter_judge_capture", judged(judge_capture), JUDGED);
    short_rooms();
    campaigns();
    return wrong;
}
