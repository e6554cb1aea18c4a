/* The working room of one recording, a response in either edition and a summary at every order, 2 to 16: what is lent short is refused with 6 and left as
 * it was, what is enough is accepted, and nothing behind P+1 wide numbers and P tags is touched. Prints what is wrong, and a last line. */
#include "meter.h"
#include <stdio.h>

enum { LEAST_ORDER = 2, MOST_ORDER = 16, MOST_P = 65535, CANARY = 9 };
enum { RECORDING, RESPONSE, RESPONSE_TO_EVEN, SUMMARY, USERS };
static const char *const users[USERS] = {"recording", "response", "response in edition 2", "summary"};

/* A campaign of one slot, its night, the outputs, and a room with canaries behind what is lent. */
static uint32_t order, taps;
static size_t p;
static uint8_t days[METER_DAYS];
static uint16_t slots[METER_SLOTS];
static uint8_t periods[METER_SLOTS];
static int32_t y[MOST_P], store[MOST_P], mean[MOST_P];
static int64_t sums[MOST_P], r[MOST_P], wide[2 * MOST_P + 1];
static uint16_t tags[2 * MOST_P + 1];
static uint32_t stands;
static int made, wrong;

#define RECORD_IN(edition) order, taps, 1, edition, days, METER_DAYS, slots, METER_SLOTS, periods, METER_SLOTS, store, p, sums, p
#define RECORD RECORD_IN(METER_HALVES_AWAY)

static uint32_t answer_of(int user, size_t wide_len, size_t tags_len) {
    uint32_t period;
    double levels[3];
    switch (user) {
    case RECORDING: return meter_recording(order, taps, y, p, r, p, wide, wide_len, tags, tags_len, &period);
    case RESPONSE: return meter_response(RECORD, r, p, mean, p, wide, wide_len, tags, tags_len);
    case RESPONSE_TO_EVEN: return meter_response(RECORD_IN(METER_HALVES_TO_EVEN), r, p, mean, p, wide, wide_len, tags, tags_len);
    default: return meter_summary(RECORD, wide, wide_len, tags, tags_len, &stands, &levels[0], &levels[1], &levels[2]);
    }
}

/* Whether the first places are zero and all others canaries. */
static int room_is(size_t wide_zeros, size_t tag_zeros) {
    for (size_t i = 0; i < 2 * p + 1; i++)
        if (wide[i] != (i < wide_zeros ? 0 : CANARY) || tags[i] != (i < tag_zeros ? 0 : CANARY))
            return 0;
    return 1;
}

static void must(int held, const char *what) {
    made++;
    if (!held) {
        wrong++;
        printf("wrong: order %u: %s\n", order, what);
    }
}

/* A call with so much room answers this and leaves zeros in the room that it used. */
static void expect(int user, size_t wide_len, size_t tags_len, uint32_t expected, int used) {
    for (size_t i = 0; i < 2 * p + 1; i++) {
        wide[i] = CANARY;
        tags[i] = CANARY;
    }
    uint32_t answer = answer_of(user, wide_len, tags_len);
    made++;
    if (answer == expected && room_is(used ? p + 1 : 0, used ? p : 0))
        return;
    wrong++;
    printf("wrong: %s, order %u, %zu wide numbers, %zu tags: answer %u\n", users[user], order, wide_len, tags_len, answer);
}

static void begin(uint32_t of_order) {
    uint32_t period, state;
    size_t value;
    order = of_order;
    p = ((size_t)1 << order) - 1;
    for (size_t j = 0; j < p; j++)
        y[j] = (int32_t)(j * 7919 % 20001) - 10000;
    must(meter_default_taps(order, &taps) == 0 && meter_start(RECORD, &period) == 0, "a start");
    for (int user = RESPONSE; user <= RESPONSE_TO_EVEN; user++) {
        expect(user, p + 1, p - 1, 6, 0);
        expect(user, p + 1, p, 14, 0);
    }
    expect(SUMMARY, p + 1, p - 1, 6, 0);
    stands = CANARY;
    expect(SUMMARY, p + 1, p, 0, 0);
    must(stands == 0, "a summary of nothing");
    must(meter_enter(RECORD, 1, y, p, &state, &value) == 0 && state == METER_STANDING, "a night");
}

static void every_length(int user) {
    expect(user, p + 1, p - 1, 6, 0);
    expect(user, p + 1, p, 0, 1);
    expect(user, p + 1, p + 1, 0, 1);
    expect(user, p + 1, 2 * p, 0, 1);
    expect(user, p, p, 6, 0);
    expect(user, p + 2, p, 0, 1);
    expect(user, 2 * p, p, 0, 1);
}

int main(void) {
    for (uint32_t n = LEAST_ORDER; n <= MOST_ORDER; n++) {
        begin(n);
        for (int user = 0; user < USERS; user++)
            every_length(user);
    }
    printf("the working room at orders %d to %d: %d expected, %d wrong\n", LEAST_ORDER, MOST_ORDER, made, wrong);
    return wrong != 0;
}
