/* The three calls of a short room at each of the fifteen periods, held to plain sums: recordings at the rails and of one sample, predictions that reach an
 * end of the sample range and go one beyond it, and each refusal. What a call reads can only be read, and what it is lent begins where memory begins that
 * can be neither read nor written, or ends where such memory begins: a call that writes to its input, or reads or writes past what it is lent, ends the
 * program. Prints what is wrong, and a last line. */
#define _DEFAULT_SOURCE
#include "meter.h"
#include <stdio.h>
#include <stdlib.h>
#include <string.h>
#include <sys/mman.h>
#include <unistd.h>

enum { LOWEST = -8388608, HIGHEST = 8388607, MOST_P = 127, TAIL = 3, CANARY = 9 };
/* Of what is wrong no more than this is printed, since one mistake is met at nearly every period. */
enum { PRINTED = 20 };

static const uint32_t offered[] = {7, 11, 19, 23, 31, 43, 47, 59, 67, 71, 79, 83, 103, 107, 127};
enum { OFFERED = sizeof offered / sizeof *offered };

enum { SEQUENCE, RECORDING, PREDICTION, CALLS };
static const size_t element[CALLS] = {sizeof(uint8_t), sizeof(int64_t), sizeof(int32_t)};

static uint32_t p;
static int made, wrong;

static void expect(int held, const char *what) {
    made++;
    if (!held && wrong++ < PRINTED)
        printf("wrong: period %u: %s\n", p, what);
}
#define EXPECT(fact) expect((fact), #fact)

/* ---- guarded memory ---- */

/* The page of the input, that of the output, and what the latter has to hold. */
static unsigned char *input, *output, *wanted;
static size_t page;
/* Whether what is lent ends where its page ends; otherwise it begins where its page begins. */
static int at_end;

static void must(int held, const char *what) {
    if (!held) {
        printf("wrong: %s\n", what);
        exit(1);
    }
}

static void allow(unsigned char *at, int what) { must(mprotect(at, page, what) == 0, "a page can not be guarded"); }

static unsigned char *guarded(void) {
    unsigned char *pages = mmap(NULL, 3 * page, PROT_NONE, MAP_PRIVATE | MAP_ANONYMOUS, -1, 0);
    must(pages != MAP_FAILED, "no memory to guard");
    allow(pages + page, PROT_READ | PROT_WRITE);
    return pages + page;
}

static void *placed(unsigned char *in, size_t bytes) { return at_end ? in + page - bytes : in; }

static const int32_t *lay(const int32_t *values, size_t n) {
    int32_t *at = placed(input, n * sizeof *at);
    allow(input, PROT_READ | PROT_WRITE);
    memcpy(at, values, n * sizeof *at);
    allow(input, PROT_READ);
    return at;
}

/* ---- the calls ---- */

/* The answer of a call that is given n values and lent so many places. */
static uint32_t answer_of(int call, uint32_t period, const int32_t *values, size_t n, size_t places) {
    const int32_t *in = lay(values, n);
    void *out = placed(output, places * element[call]);
    memset(output, CANARY, page);
    switch (call) {
    case SEQUENCE: return meter_legendre_sequence(period, out, places);
    case RECORDING: return meter_legendre_recording(period, in, n, out, places);
    default: return meter_legendre_predict(period, in, n, out, places);
    }
}

/* Whether these are the first of the places that were lent, and all else on the page is as it was. */
static int wrote(int call, size_t places, const void *expected, size_t n) {
    memset(wanted, CANARY, page);
    memcpy(placed(wanted, places * element[call]), expected, n * element[call]);
    return memcmp(output, wanted, page) == 0;
}

static void accepted(int call, const int32_t *values, const void *expected) {
    for (size_t places = p; places <= p + TAIL; places += TAIL)
        EXPECT(answer_of(call, p, values, p, places) == METER_ACCEPTED && wrote(call, places, expected, p));
}

static void refused(int call, uint32_t period, const int32_t *values, size_t n, size_t places, uint32_t number) {
    EXPECT(answer_of(call, period, values, n, places) == number && wrote(call, places, values, 0));
}

/* ---- document 001's signs, and the formulas of document 01 ---- */

static int32_t x[MOST_P];

static void lay_signs(void) {
    for (uint32_t n = 0; n < p; n++)
        x[n] = -1;
    for (uint32_t k = 1; k < p; k++)
        x[k * k % p] = 1;
}

/* x at i - j, modulo p. */
static int32_t sign(uint32_t i, uint32_t j) { return x[(i + p - j) % p]; }

static void sequence(void) {
    const int32_t none[1] = {0};
    uint8_t bits[MOST_P];
    for (uint32_t n = 0; n < p; n++)
        bits[n] = x[n] == -1;
    for (size_t places = p; places <= p + TAIL; places += TAIL)
        EXPECT(answer_of(SEQUENCE, p, none, 0, places) == METER_ACCEPTED && wrote(SEQUENCE, places, bits, p));
    refused(SEQUENCE, p, none, 0, p - 1, METER_ROOM_TOO_SHORT);
}

static void record(const int32_t *y) {
    int64_t r[MOST_P], sum = 0;
    for (uint32_t j = 0; j < p; j++)
        sum += y[j];
    for (uint32_t k = 0; k < p; k++) {
        r[k] = -sum;
        for (uint32_t j = 0; j < p; j++)
            r[k] += (int64_t)y[j] * sign(j, k);
    }
    accepted(RECORDING, y, r);
}

/* Whether the response has a prediction, which is turned back where it has one. */
static int predict(const int32_t *h) {
    int32_t y[MOST_P];
    int64_t back[MOST_P];
    for (uint32_t j = 0; j < p; j++) {
        int64_t sum = 0;
        for (uint32_t i = 0; i < p; i++)
            sum += (int64_t)h[i] * sign(j, i);
        if (sum < LOWEST || sum > HIGHEST) {
            refused(PREDICTION, p, h, p, p, METER_PREDICTED_OUT_OF_RANGE);
            return 0;
        }
        y[j] = (int32_t)sum;
        back[j] = (int64_t)(p + 1) * h[j];
    }
    accepted(PREDICTION, h, y);
    accepted(RECORDING, y, back);
    return 1;
}

/* ---- what is handed in ---- */

static void loudest_recordings(void) {
    int32_t y[MOST_P];
    for (uint32_t k = 0; k < p; k++) {
        for (uint32_t j = 0; j < p; j++)
            y[j] = sign(j, k) == 1 ? HIGHEST : LOWEST;
        record(y);
        for (uint32_t j = 0; j < p; j++)
            y[j] = sign(j, k) == 1 ? LOWEST : HIGHEST;
        record(y);
    }
    for (uint32_t j = 0; j < p; j++)
        y[j] = LOWEST;
    record(y);
    for (uint32_t j = 0; j < p; j++)
        y[j] = HIGHEST;
    record(y);
}

static void one_sample(void) {
    for (uint32_t i = 0; i < p; i++) {
        int32_t only[MOST_P] = {0};
        only[i] = HIGHEST;
        record(only);
        EXPECT(predict(only));
        only[i] = LOWEST;
        record(only);
        EXPECT(!predict(only));
    }
}

/* A response whose prediction is this value at place t, and small elsewhere: c times the signs turned back from t, which gives c * p there and -c
 * elsewhere, and d at every place, which takes d away. */
static int reaches(uint32_t t, int32_t value) {
    int32_t h[MOST_P], c = value / (int32_t)p, d = c * (int32_t)p - value;
    for (uint32_t i = 0; i < p; i++)
        h[i] = c * sign(t, i) + d;
    return predict(h);
}

static void ends_of_the_range(void) {
    for (uint32_t t = 0; t < p; t++) {
        EXPECT(reaches(t, LOWEST) && !reaches(t, LOWEST - 1));
        EXPECT(reaches(t, HIGHEST) && !reaches(t, HIGHEST + 1));
    }
}

/* Each refusal of a recording and a prediction with all that come after it, at every length and place where it can be. */
static void refusals(void) {
    int32_t beyond[MOST_P + 1];
    for (uint32_t j = 0; j <= p; j++)
        beyond[j] = j % 2 == 0 ? HIGHEST + 1 : INT32_MIN;
    for (int call = RECORDING; call < CALLS; call++) {
        for (size_t n = 0; n <= p + 1; n++)
            if (n != p)
                refused(call, p, beyond, n, p - 1, METER_WRONG_LENGTH);
        for (size_t places = 0; places < p; places++)
            refused(call, p, beyond, p, places, METER_ROOM_TOO_SHORT);
        for (uint32_t j = 0; j < p; j++) {
            int32_t loud[MOST_P];
            for (uint32_t i = 0; i < p; i++)
                loud[i] = HIGHEST;
            loud[j] = HIGHEST + 1;
            refused(call, p, loud, p, p, METER_VALUE_OUT_OF_RANGE);
            loud[j] = LOWEST - 1;
            refused(call, p, loud, p, p, METER_VALUE_OUT_OF_RANGE);
        }
    }
}

/* What is lent begins where memory ends, so that nothing of it can be read or written. */
static void not_offered(void) {
    const int32_t none[1] = {0};
    at_end = 1;
    for (int call = 0; call < CALLS; call++)
        refused(call, p, none, 0, 0, METER_PERIOD_NOT_OFFERED);
}

static void at_period(uint32_t of) {
    p = of;
    lay_signs();
    for (at_end = 0; at_end < 2; at_end++) {
        sequence();
        loudest_recordings();
        one_sample();
        ends_of_the_range();
        refusals();
    }
}

static int is_offered(uint32_t of) {
    for (size_t i = 0; i < OFFERED; i++)
        if (offered[i] == of)
            return 1;
    return 0;
}

/* Every number below 2^16, and those of which the lowest 8, 16 or 31 bits are an offered period. */
static void other_periods(void) {
    for (p = 0; p < 65536; p++)
        if (!is_offered(p))
            not_offered();
    for (size_t i = 0; i < OFFERED; i++) {
        const uint32_t far[] = {offered[i] + 65536, offered[i] + 2147483648u, UINT32_MAX - offered[i], UINT32_MAX - offered[i] + 1};
        for (size_t k = 0; k < sizeof far / sizeof *far; k++) {
            p = far[k];
            not_offered();
        }
    }
}

int main(void) {
    page = (size_t)sysconf(_SC_PAGESIZE);
    input = guarded();
    output = guarded();
    wanted = malloc(page);
    must(wanted != NULL, "no memory");
    for (size_t i = 0; i < OFFERED; i++)
        at_period(offered[i]);
    other_periods();
    printf("short rooms at %d periods: %d expected, %d wrong\n", OFFERED, made, wrong);
    return wrong != 0;
}
