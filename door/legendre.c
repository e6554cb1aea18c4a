/* Legendre sequences: the three calls at every period up to 130 and at some larger ones; and at each period that is offered the loudest samples, responses
 * predicted and recovered, predictions at the edges of the range, lengths and values. `second legendre` makes the same calls of its own functions and
 * prints the same lines. */
#include "meter.h"
#include <inttypes.h>
#include <stdio.h>
#include <string.h>

static const uint32_t offered[] = {7, 11, 19, 23, 31, 43, 47, 59, 67, 71, 79, 83, 103, 107, 127};
enum { OFFERED = sizeof offered / sizeof *offered };

enum { LOWEST = -8388608, HIGHEST = 8388607 };
/* Periods up to MOST_PLACES are tried one by one, and no call is lent more for a larger one. BEHIND are the places behind those that a call may write,
 * so that one which writes on shows. */
enum { MOST_PLACES = 130, BEHIND = 3, MEMORY = MOST_PLACES + BEHIND };
/* The pattern times this predicts samples in range at every period: its sizes add up to at most 8387588. */
enum { LOUD = 6004 };
/* Room for the words of a case. */
enum { WORDS = 48 };

static int32_t samples[MEMORY], y[MEMORY];
static int64_t r[MEMORY];
static uint8_t bits[MEMORY];

/* Place i of every output holds i mod 7 before a call. */
#define FILL(list) \
    for (size_t i_ = 0; i_ < MEMORY; i_++) \
        list[i_] = i_ % 7

#define DIGEST(name, type) \
    static int64_t name(const type *l, size_t n) { \
        int64_t d = 0; \
        for (size_t i = 0; i < n; i++) \
            d = (131 * d + ((int64_t)l[i] % 1000003 + 1000003) % 1000003) % 1000003; \
        return d; \
    }
DIGEST(d8, uint8_t)
DIGEST(d32, int32_t)
DIGEST(d64, int64_t)

/* How many places a call of this period is lent at most, but for those behind. */
static size_t places(uint32_t p) { return p < MOST_PLACES ? p : MOST_PLACES; }

/* x(n): a square modulo p is +1 but for 0, and what is none is -1. The number may be up to twice the period. */
static int x(uint32_t p, size_t n) {
    for (size_t i = 1; i < p; i++)
        if (i * i % p == n % p)
            return 1;
    return -1;
}

/* ---- the calls, each of which prints its answer and the digest of the whole output after it ---- */

static uint32_t told(uint32_t answer, int64_t digest) {
    printf(": %u %" PRId64, answer, digest);
    return answer;
}

static uint32_t sequence(uint32_t p, size_t lent) {
    FILL(bits);
    uint32_t answer = meter_legendre_sequence(p, bits, lent);
    return told(answer, d8(bits, places(p) + BEHIND));
}

static uint32_t recording(uint32_t p, size_t n, size_t lent) {
    FILL(r);
    uint32_t answer = meter_legendre_recording(p, samples, n, r, lent);
    return told(answer, d64(r, places(p) + BEHIND));
}

static uint32_t predict(uint32_t p, size_t n, size_t lent) {
    FILL(y);
    uint32_t answer = meter_legendre_predict(p, samples, n, y, lent);
    return told(answer, d32(y, places(p) + BEHIND));
}

/* The same samples as a recording and as a response. */
static void both(uint32_t p, const char *what, size_t n, size_t lent) {
    printf("recording %u%s", p, what);
    recording(p, n, lent);
    printf("\npredict %u%s", p, what);
    predict(p, n, lent);
    printf("\n");
}

static void lay_pattern(int32_t times) {
    for (int32_t i = 0; i < MEMORY; i++)
        samples[i] = times * (i * 37 % 23 - 11);
}

static void lay_alone(int32_t value, size_t place) {
    memset(samples, 0, sizeof samples);
    samples[place] = value;
}

/* ---- the cases ---- */

/* All that there is is lent, the places behind too. An accepted sequence is printed in full. */
static void all_three(uint32_t p) {
    size_t n = places(p), lent = n + BEHIND;
    printf("sequence %u", p);
    if (sequence(p, lent) == METER_ACCEPTED) {
        printf(" ");
        for (size_t i = 0; i < n; i++)
            printf("%u", bits[i]);
        printf("\n");
    } else {
        printf(" -\n");
    }
    lay_pattern(1);
    both(p, "", n, lent);
}

/* Other primes of the form 4m - 1, two of them named in document 001, the edges of bytes and of the sign, offered periods in higher bytes, and negatives of
 * offered ones and others; then each period with higher bits that leave its lowest as they are. */
static void large_periods(void) {
    static const uint32_t large[] = {131, 163, 167, 179, 256, 511, 1031, 7u << 8, 32771, 65535, 65536, 65539, 7u << 16, 7u << 24, 127u << 24,
                                     2147483647u, 2147483648u, -129u, -127u, -7u, -3u, -2u, -1u};
    static const uint32_t higher[] = {1u << 7, 1u << 8, 1u << 16, 1u << 24, 1u << 31};
    for (size_t i = 0; i < sizeof large / sizeof *large; i++)
        all_three(large[i]);
    for (size_t i = 0; i < OFFERED; i++)
        for (size_t j = 0; j < sizeof higher / sizeof *higher; j++)
            all_three(offered[i] + higher[j]);
}

static void all_at(uint32_t p, int32_t rail) {
    char what[WORDS];
    snprintf(what, sizeof what, " all at %d", rail);
    for (size_t i = 0; i < p; i++)
        samples[i] = rail;
    both(p, what, p, p);
}

/* Each sample at the rail that its sign makes the most of, upwards or not. */
static void push(uint32_t p, size_t place, int upwards, const char *name) {
    for (size_t j = 0; j < p; j++)
        samples[j] = x(p, j + p - place) == upwards ? HIGHEST : LOWEST;
    printf("recording %u %s r(%zu)", p, name, place);
    recording(p, p, p);
    printf(" %" PRId64, r[place]);
    for (size_t i = 0; i < p; i++)
        samples[i] = x(p, place + p - i) == upwards ? HIGHEST : LOWEST;
    printf("\npredict %u %s y(%zu)", p, name, place);
    predict(p, p, p);
    printf("\n");
}

static void loudest(uint32_t p) {
    all_at(p, LOWEST);
    all_at(p, HIGHEST);
    for (size_t place = 0; place < p; place++) {
        push(p, place, 1, "largest");
        push(p, place, -1, "smallest");
    }
}

/* The samples are predicted from, and the prediction is handed in as a recording: whether its response is p+1 times what it was predicted from. */
static void there_and_back(uint32_t p, const char *name) {
    int32_t h[MEMORY];
    int scaled = 1;
    memcpy(h, samples, sizeof h);
    printf("predict %u %s", p, name);
    predict(p, p, p);
    memcpy(samples, y, sizeof samples);
    printf("\nrecording %u recovered %s", p, name);
    recording(p, p, p);
    for (size_t k = 0; k < p; k++)
        scaled &= r[k] == ((int64_t)p + 1) * h[k];
    printf(" %s\n", scaled ? "true" : "false");
}

static void recovered(uint32_t p) {
    lay_pattern(1);
    there_and_back(p, "pattern");
    lay_pattern(LOUD);
    there_and_back(p, "loud pattern");
    for (size_t place = 0; place < p; place++)
        for (int sign = 1; sign >= -1; sign -= 2) {
            char name[WORDS];
            snprintf(name, sizeof name, "alone %d at %zu", sign * HIGHEST, place);
            lay_alone(sign * HIGHEST, place);
            there_and_back(p, name);
        }
}

/* A response that has predicted sample j at `target`: each of its places adds its size to that sample. The sizes are shared out as evenly as whole numbers
 * can be, or all but 1 of each other place is at the first. Every other sample is nearer to 0. */
static void at_edge(uint32_t p, size_t j, int even, int32_t target) {
    int32_t n = (int32_t)p, total = target < 0 ? -target : target;
    for (int32_t i = 0; i < n; i++) {
        int32_t size = even ? total / n + (i < total % n) : i == 0 ? total - (n - 1) : 1;
        samples[i] = x(p, j + p - (size_t)i) * (target < 0 ? -size : size);
    }
    printf("predict %u %s y(%zu) of %d", p, even ? "even" : "first", j, target);
    predict(p, p, p);
    printf(" %d\n", y[j]);
}

/* For each sample the last predictions in range and the first beyond, on both sides. */
static void edges(uint32_t p) {
    for (size_t j = 0; j < p; j++)
        for (int even = 1; even >= 0; even--) {
            at_edge(p, j, even, HIGHEST);
            at_edge(p, j, even, HIGHEST + 1);
            at_edge(p, j, even, LOWEST);
            at_edge(p, j, even, LOWEST - 1);
        }
}

/* Samples and outputs too short, too long and just enough. */
static void lengths(uint32_t p) {
    const size_t length[3] = {0, p - 1, p + 1}, lent[3] = {0, p - 1, p};
    char what[WORDS];
    lay_pattern(1);
    for (int i = 0; i < 3; i++) {
        snprintf(what, sizeof what, " length %zu", length[i]);
        both(p, what, length[i], p);
    }
    for (int i = 0; i < 3; i++) {
        snprintf(what, sizeof what, " output %zu", lent[i]);
        printf("sequence %u%s", p, what);
        sequence(p, lent[i]);
        printf("\n");
        both(p, what, p, lent[i]);
    }
}

/* One value at the first place or at the last, and zeros. */
static void values(uint32_t p) {
    static const int32_t value[] = {HIGHEST, HIGHEST + 1, INT32_MAX, LOWEST, LOWEST - 1, INT32_MIN};
    for (size_t i = 0; i < sizeof value / sizeof *value; i++)
        for (size_t place = 0; place < p; place += p - 1) {
            char what[WORDS];
            snprintf(what, sizeof what, " value %d at %zu", value[i], place);
            lay_alone(value[i], place);
            both(p, what, p, p);
        }
}

int main(void) {
    for (uint32_t p = 0; p <= MOST_PLACES; p++)
        all_three(p);
    large_periods();
    for (size_t i = 0; i < OFFERED; i++) {
        loudest(offered[i]);
        recovered(offered[i]);
        edges(offered[i]);
        lengths(offered[i]);
        values(offered[i]);
    }
    return 0;
}
