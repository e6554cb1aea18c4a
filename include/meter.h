/* The response meter, from C. Link libmeter.a, which `door/archive` writes.
 *
 * Each function but meter_explain answers 0 or a refusal's number, and its comment has the numbers in the order of its checks. A refused call leaves
 * all that it was lent as it was. docs/MANUAL.md explains every call.
 * A function that can refuse with 4 has a last parameter `period`, the number of steps after which the register first returns to all ones. Accepted,
 * the call writes P there; refused with 4, the number, which is below P; at any other refusal it leaves it as it was. The period is part of the answer
 * and not of what is lent: refused with 4, a call writes it and nothing else. Only that refusal counts the steps, fewer than P of them.
 * A slice is a pointer and a length in elements. A pointer is never NULL, is aligned for its element, and what two
 * pointers of one call point to does not overlap, unless both are const. Nothing is kept after the call.
 * P is 2^order - 1; of a short room, the words of a refusal mean its period p by it. Samples are -8388608 to 8388607. What is lent beyond the lengths
 * named here is never changed.
 */
#ifndef METER_H
#define METER_H

#include <stddef.h>
#include <stdint.h>

#ifdef __cplusplus
extern "C" {
#endif

enum { METER_DAYS = 366, METER_SLOTS = 64 };

/* A day's state, in the table of days and as the state that a verdict gives. */
enum { METER_UNSEEN, METER_STANDING, METER_OVERLOADED, METER_DEAD, METER_WITHDRAWN };

/* The editions of the report rules: where a mean is at an exact half, 1 rounds it away from zero and 2 to the even neighbour. */
enum { METER_HALVES_AWAY = 1, METER_HALVES_TO_EVEN = 2 };

/* ---- refusals ---- */

enum {
    METER_ACCEPTED = 0,
    METER_ORDER_OUT_OF_RANGE = 1,
    METER_TAPS_TOO_LARGE = 2,
    METER_TAP_0_CLEAR = 3,
    METER_NOT_MAXIMAL = 4,
    METER_WRONG_LENGTH = 5,
    METER_ROOM_TOO_SHORT = 6,
    METER_VALUE_OUT_OF_RANGE = 7,
    METER_PREDICTED_OUT_OF_RANGE = 8,
    METER_SLOT_COUNT_OUT_OF_RANGE = 9,
    METER_DAY_OUT_OF_RANGE = 10,
    METER_DAY_STANDING = 11,
    METER_SLOTS_FULL = 12,
    METER_DAY_NOT_STANDING = 13,
    METER_NOTHING_STANDING = 14,
    METER_RECORD_BROKEN = 15,
    METER_WINDOW_OUT_OF_RANGE = 16,
    METER_BEYOND_THE_PROGRAM = 17,
    METER_PERIODS_OUT_OF_RANGE = 18,
    METER_VERDICT_DIFFERS = 23,
    METER_EDITION_UNKNOWN = 24,
    METER_PERIOD_NOT_OFFERED = 25
};

/* An answer in words. It is made of this header alone: the library has no such function. */
static inline const char *meter_explain(uint32_t n) {
    switch (n) {
    case METER_ACCEPTED: return "accepted";
    case METER_ORDER_OUT_OF_RANGE: return "order below 2 or above 16";
    case METER_TAPS_TOO_LARGE: return "taps not below 2^N";
    case METER_TAP_0_CLEAR: return "tap 0 clear";
    case METER_NOT_MAXIMAL: return "register not maximal";
    case METER_WRONG_LENGTH: return "recording or response not exactly P long, capture not exactly (m+1)*P";
    case METER_ROOM_TOO_SHORT: return "output or working room too short";
    case METER_VALUE_OUT_OF_RANGE: return "a value outside the sample range";
    case METER_PREDICTED_OUT_OF_RANGE: return "a predicted sample outside the sample range";
    case METER_SLOT_COUNT_OUT_OF_RANGE: return "slot count not 1 to 64";
    case METER_DAY_OUT_OF_RANGE: return "day not 1 to 366";
    case METER_DAY_STANDING: return "day already standing";
    case METER_SLOTS_FULL: return "verdict kept and C days stand";
    case METER_DAY_NOT_STANDING: return "day not standing";
    case METER_NOTHING_STANDING: return "nothing standing";
    case METER_RECORD_BROKEN: return "record does not hold together";
    case METER_WINDOW_OUT_OF_RANGE: return "player's window zero or not below 2^N";
    case METER_BEYOND_THE_PROGRAM: return "the program only: order above 9, slots above 8, or 5 to 16 periods";
    case METER_PERIODS_OUT_OF_RANGE: return "periods not 1 to 16";
    case METER_VERDICT_DIFFERS: return "verdict handed in is not what judging gives";
    case METER_EDITION_UNKNOWN: return "edition not 1 or 2";
    default: return "unknown";
    }
}

/* ---- the register ---- */

/* Whether the taps are maximal for the order, and the period: 1, 2, 3, 4. */
uint32_t meter_taps(uint32_t order, uint32_t taps, uint32_t *period);

/* The order's default taps: 1. */
uint32_t meter_default_taps(uint32_t order, uint32_t *taps);

/* The bits s(0) to s(P-1): 1, 2, 3, 4, 6. */
uint32_t meter_sequence(uint32_t order, uint32_t taps, uint8_t *out, size_t out_len, uint32_t *period);

/* A player of this order and these taps, as its four numbers: 1, 2, 3. */
uint32_t meter_player_new(uint32_t order, uint32_t taps,
                          uint32_t *player_order, uint32_t *player_taps, uint32_t *window, uint32_t *count);

/* The player's next sign, +1 or -1, and the player one step on: 1, 2, 3, 16. */
uint32_t meter_player_step(uint32_t *order, uint32_t *taps, uint32_t *window, uint32_t *count, int32_t *sign);

/* The next signs, one to each place, and the player after them: 1, 2, 3, 16. */
uint32_t meter_player_play(uint32_t *order, uint32_t *taps, uint32_t *window, uint32_t *count,
                           int8_t *signs, size_t signs_len);

/* ---- one recording ---- */

/* The response r(0) to r(P-1) of a recording of P samples. The room is P+1 wide numbers and P tags, which hold zeros after it; 6 exactly where the
 * output or the room is shorter: 1 to 7. */
uint32_t meter_recording(uint32_t order, uint32_t taps, const int32_t *y, size_t y_len, int64_t *out, size_t out_len,
                         int64_t *room, size_t room_len, uint16_t *tags, size_t tags_len, uint32_t *period);

/* The recording predicted from a response of P samples: 1 to 8. Its room is on the stack: it takes at most 40 KB up to order 12 and 520 KB from
 * order 13, and refused with 1 to 7 at most 1 KB. */
uint32_t meter_predict(uint32_t order, uint32_t taps, const int32_t *h, size_t h_len, int32_t *out, size_t out_len,
                       uint32_t *period);

/* The same in a lent room of P+1 wide numbers, 6 also where that is short, with at most 2 KB of stack at every order. The room holds zeros after it.
 * Lend a room of zeros, which every call then leaves so: of any other, which a refusal has to leave as it was, 8 is found without it where the sizes
 * of h add up to more than 8388607, in P * P steps. On a PC these took 0.07 seconds at order 12 and 19 at order 16. */
uint32_t meter_predict_in_room(uint32_t order, uint32_t taps, const int32_t *h, size_t h_len, int32_t *out, size_t out_len,
                               int64_t *room, size_t room_len, uint32_t *period);

/* ---- short rooms: Legendre sequences. Offered are exactly the periods p = 7, 11, 19, 23, 31, 43, 47, 59, 67, 71, 79, 83, 103, 107 and 127; any other is
 * 25. There are no taps, so none of these calls refuses with 4 or tells a period, and no room is lent: each takes at most 2 KB of stack ---- */

/* The bits s(0) to s(p-1): s(0) is 1, and of the others s(n) is 0 where n is a square modulo p, and else 1: 25, 6. */
uint32_t meter_legendre_sequence(uint32_t p, uint8_t *out, size_t out_len);

/* The response r(0) to r(p-1) of a recording of p samples: 25, 5, 6, 7. Of a recording that was predicted it is p+1 times the response. */
uint32_t meter_legendre_recording(uint32_t p, const int32_t *y, size_t y_len, int64_t *out, size_t out_len);

/* The recording predicted from a response of p samples: 25, 5, 6, 7, 8. */
uint32_t meter_legendre_predict(uint32_t p, const int32_t *h, size_t h_len, int32_t *out, size_t out_len);

/* ---- a night judged: no record, no day, nothing is written but the answer, and at most 1 KB of stack is taken ---- */

/* The verdict on a night of one period, P samples, before anything is kept: 1, 2, 3, 4, 5, 7. Overloaded: some sample is -8388608 or 8388607, the rails.
 * Otherwise dead: its largest sample minus its smallest is 7 or less. Otherwise it is kept. `state` is the state that the verdict would give a day,
 * METER_STANDING of one that is kept, and `value` the first place at a rail of one that is overloaded, 0 of the other two: which slot a night takes is
 * known only when it is filed. Refused, both stay as they were. */
uint32_t meter_judge(uint32_t order, uint32_t taps, const int32_t *y, size_t y_len,
                     uint32_t *state, size_t *value, uint32_t *period);

/* The same of a capture of m+1 periods, (m+1) * P samples, m from 1 to 16: 1, 2, 3, 4, 18, 5, 7. The first period is the run-in and is dropped; the other
 * m are judged as one recording, whose places count from 0. */
uint32_t meter_judge_capture(uint32_t order, uint32_t taps, uint32_t m, const int32_t *y, size_t y_len,
                             uint32_t *state, size_t *value, uint32_t *period);

/* ---- a campaign: the record is order, taps, capacity and edition, which no call changes, and the three tables `days` (366), `slots` (64) and `periods`
 * (64). Hand every call the edition that the campaign was started with: only the mean depends on it. A used slot's entry of `periods` is how many periods
 * its night had, 1 to 16; every other entry is 0. At a start a shorter table is room too short, 6 in its place, and an edition other than 1 or 2 is 24;
 * every other call refuses both with 15 before all else. The store is capacity * P samples, the sums P wide numbers. ---- */

/* Every day unseen, every slot free, zeros in the store and the sums: 1, 2, 3, 4, 9, 24, 6. */
uint32_t meter_start(uint32_t order, uint32_t taps, uint32_t capacity, uint32_t edition, uint8_t *days, size_t days_len,
                     uint16_t *slots, size_t slots_len, uint8_t *periods, size_t periods_len,
                     int32_t *store, size_t store_len, int64_t *sums, size_t sums_len,
                     uint32_t *period);

/* A day's night of one period, P samples, judged and filed in one call, which is a filing with the verdict that judging gives: 15, 10, 5, 7, 11, and 12
 * after the verdict. `state` is the state that the verdict gives the day, and `value` the slot of one that stands, the first place at a rail of one that
 * is overloaded, 0 of one that is dead. */
uint32_t meter_enter(uint32_t order, uint32_t taps, uint32_t capacity, uint32_t edition, uint8_t *days, size_t days_len,
                     uint16_t *slots, size_t slots_len, uint8_t *periods, size_t periods_len,
                     int32_t *store, size_t store_len, int64_t *sums, size_t sums_len,
                     uint32_t day, const int32_t *y, size_t y_len, uint32_t *state, size_t *value);

/* The same of a day's capture of m+1 periods, (m+1) * P samples, m from 1 to 16, which is a filing with the verdict that judging gives too: 15, 10, 18, 5,
 * 7, 11, and 12 after the verdict. The run-in is dropped; the other m periods, where they are kept, are summed place by place. */
uint32_t meter_capture(uint32_t order, uint32_t taps, uint32_t capacity, uint32_t edition, uint8_t *days, size_t days_len,
                       uint16_t *slots, size_t slots_len, uint8_t *periods, size_t periods_len,
                       int32_t *store, size_t store_len, int64_t *sums, size_t sums_len,
                       uint32_t day, uint32_t m, const int32_t *y, size_t y_len, uint32_t *state, size_t *value);

/* A day's night of one period filed with the verdict that was shown of it: 15, 10, 5, 7, 11, 23, and 12 after the verdict. `shown` and `place` are the
 * `state` and the `value` that meter_judge wrote: METER_STANDING and 0, METER_OVERLOADED and a place, or METER_DEAD and 0. Where judging gives another
 * pair for this night, or the pair is none of these, it is 23. Accepted, it does all that meter_enter does. */
uint32_t meter_file(uint32_t order, uint32_t taps, uint32_t capacity, uint32_t edition, uint8_t *days, size_t days_len,
                    uint16_t *slots, size_t slots_len, uint8_t *periods, size_t periods_len,
                    int32_t *store, size_t store_len, int64_t *sums, size_t sums_len,
                    uint32_t day, const int32_t *y, size_t y_len, uint32_t shown, size_t place, uint32_t *state, size_t *value);

/* The same of a day's capture, with the verdict that meter_judge_capture gave: 15, 10, 18, 5, 7, 11, 23, and 12 after the verdict. Accepted, it does all
 * that meter_capture does. */
uint32_t meter_file_capture(uint32_t order, uint32_t taps, uint32_t capacity, uint32_t edition, uint8_t *days, size_t days_len,
                            uint16_t *slots, size_t slots_len, uint8_t *periods, size_t periods_len,
                            int32_t *store, size_t store_len, int64_t *sums, size_t sums_len,
                            uint32_t day, uint32_t m, const int32_t *y, size_t y_len, uint32_t shown, size_t place,
                            uint32_t *state, size_t *value);

/* A standing day withdrawn: 15, 10, 13. */
uint32_t meter_withdraw(uint32_t order, uint32_t taps, uint32_t capacity, uint32_t edition, uint8_t *days, size_t days_len,
                        uint16_t *slots, size_t slots_len, uint8_t *periods, size_t periods_len,
                        int32_t *store, size_t store_len, int64_t *sums, size_t sums_len,
                        uint32_t day);

/* The days in each of the five states: 15. */
uint32_t meter_counts(uint32_t order, uint32_t taps, uint32_t capacity, uint32_t edition, const uint8_t *days, size_t days_len,
                      const uint16_t *slots, size_t slots_len, const uint8_t *periods, size_t periods_len,
                      const int32_t *store, size_t store_len,
                      const int64_t *sums, size_t sums_len,
                      uint32_t *unseen, uint32_t *standing, uint32_t *overloaded, uint32_t *dead, uint32_t *withdrawn);

/* r worked from the sums, and the mean over the periods standing, P places each: 15, 6, 14. The mean is rounded to the nearest whole number, an exact
 * half as the edition has it; r is not rounded. The room as for one recording. */
uint32_t meter_response(uint32_t order, uint32_t taps, uint32_t capacity, uint32_t edition, const uint8_t *days, size_t days_len,
                        const uint16_t *slots, size_t slots_len, const uint8_t *periods, size_t periods_len,
                        const int32_t *store, size_t store_len,
                        const int64_t *sums, size_t sums_len, int64_t *r, size_t r_len, int32_t *mean, size_t mean_len,
                        int64_t *room, size_t room_len, uint16_t *tags, size_t tags_len);

/* The highest r, the lowest r and r at the peak, each over (P+1) times the periods standing: 15, 6. Where no day stands, `stands` becomes 0 and the
 * levels and the room stay as they were; where one does, `stands` becomes 1. */
uint32_t meter_summary(uint32_t order, uint32_t taps, uint32_t capacity, uint32_t edition, const uint8_t *days, size_t days_len,
                       const uint16_t *slots, size_t slots_len, const uint8_t *periods, size_t periods_len,
                       const int32_t *store, size_t store_len,
                       const int64_t *sums, size_t sums_len, int64_t *room, size_t room_len, uint16_t *tags, size_t tags_len,
                       uint32_t *stands, double *highest, double *lowest, double *peak);

#ifdef __cplusplus
}
#endif

#endif
