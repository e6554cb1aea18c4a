/* A campaign of order 3 with 2 slots, from C: its taps are mistyped once, four nights are judged, shown and then filed, one of them a capture of two
 * periods, and the mean of those that stand is printed. */
#include "meter.h"
#include <inttypes.h>
#include <stdio.h>

enum { ORDER = 3, TAPS = 3, MISTYPED = 7, P = 7, SLOT_COUNT = 2, EDITION = METER_HALVES_AWAY, PERIODS = 2 };

static uint8_t days[METER_DAYS];
static uint16_t slots[METER_SLOTS];
static uint8_t periods[METER_SLOTS];
static int32_t store[SLOT_COUNT * P];
static int64_t sums[P];

#define MEMORY days, METER_DAYS, slots, METER_SLOTS, periods, METER_SLOTS, store, SLOT_COUNT * P, sums, P
#define CAMPAIGN ORDER, TAPS, SLOT_COUNT, EDITION, MEMORY

static uint32_t start(uint32_t taps) {
    uint32_t period = 0;
    uint32_t answer = meter_start(ORDER, taps, SLOT_COUNT, EDITION, MEMORY, &period);
    printf("taps %" PRIu32 ": %s", taps, meter_explain(answer));
    if (answer == METER_NOT_MAXIMAL)
        printf(", back after %" PRIu32 " of %d steps", period, P);
    printf("\n");
    return answer;
}

/* The operator sees the verdict here, before anything is kept. */
static void show(uint32_t day, uint32_t answer, uint32_t shown) {
    static const char *const verdicts[] = {"", "kept", "overloaded", "dead"};
    printf("day %" PRIu32 " judged: %s\n", day, answer != METER_ACCEPTED ? meter_explain(answer) : verdicts[shown]);
}

static void tell(uint32_t day, uint32_t answer) {
    printf("day %" PRIu32 " filed: %s\n", day, meter_explain(answer));
}

static void night(uint32_t day, const int32_t *y) {
    uint32_t shown = METER_UNSEEN, state = METER_UNSEEN, period = 0;
    size_t place = 0, value = 0;
    uint32_t answer = meter_judge(ORDER, TAPS, y, P, &shown, &place, &period);
    show(day, answer, shown);
    if (answer == METER_ACCEPTED)
        tell(day, meter_file(CAMPAIGN, day, y, P, shown, place, &state, &value));
}

static void capture(uint32_t day, const int32_t *y) {
    uint32_t shown = METER_UNSEEN, state = METER_UNSEEN, period = 0;
    size_t place = 0, value = 0, n = (PERIODS + 1) * P;
    uint32_t answer = meter_judge_capture(ORDER, TAPS, PERIODS, y, n, &shown, &place, &period);
    show(day, answer, shown);
    if (answer == METER_ACCEPTED)
        tell(day, meter_file_capture(CAMPAIGN, day, PERIODS, y, n, shown, place, &state, &value));
}

int main(void) {
    const int32_t heard[P] = {-4, -12, -4, 12, 12, -12, 4}, unplugged[P] = {5, 4, 7, 5, 6, 5, 3};
    /* The first row is the run-in: it is dropped, so that its clicks do no harm. */
    const int32_t thrice[(PERIODS + 1) * P] = {
        0, 8388607, -8388608, 0, 9, -9, 3,
        -4, -12, -4, 12, 12, -12, 4,
        -3, -13, -2, 12, 10, -11, 3,
    };
    int64_t r[P], room[P + 1];
    int32_t mean[P];
    uint16_t tags[P];
    start(MISTYPED);
    uint32_t answer = start(TAPS);
    if (answer == METER_ACCEPTED) {
        night(1, heard);
        night(2, unplugged);
        capture(3, thrice);
        night(367, heard);
        answer = meter_response(CAMPAIGN, r, P, mean, P, room, P + 1, tags, P);
    }
    if (answer != METER_ACCEPTED) {
        printf("refused: %s\n", meter_explain(answer));
        return 1;
    }
    for (int k = 0; k < P; k++)
        printf("%d %" PRId64 " %" PRId32 "\n", k, r[k], mean[k]);
    return 0;
}
