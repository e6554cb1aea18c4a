/* Times the proved meter on Legendre sequences beside plain C, in one process. A call is too short for the clock, so a piece of work is many calls in a
 * row, of which every round runs each once; one line for each period and each piece, in microseconds a call: p, name, best, median. */
#include "meter.h"
#include "plain.h"
#include "rounds.h"
#include <math.h>
#include <string.h>

/* The periods that are measured, and the calls in a row of each. */
static const struct { uint32_t p; int calls; } periods[] = {{7, 2000}, {31, 1000}, {127, 200}};
enum { PERIODS = sizeof periods / sizeof *periods };

static uint32_t p;
static int calls;
static int32_t y[MOST_LEGENDRE], h[MOST_LEGENDRE], predicted[MOST_LEGENDRE], other_predicted[MOST_LEGENDRE], twice[2 * MOST_LEGENDRE];
static int64_t r[MOST_LEGENDRE], other[MOST_LEGENDRE];

#define IN_A_ROW for (int n = 0; n < calls; n++)

static void recording(void) { IN_A_ROW must(meter_legendre_recording(p, y, p, r, p) == 0, "recording"); }
static void plain(void) { IN_A_ROW plain_legendre(p, y, other); }
static void ready(void) { IN_A_ROW plain_legendre_ready(p, y, twice, other); }
static void predict(void) { IN_A_ROW must(meter_legendre_predict(p, h, p, predicted, p) == 0, "predict"); }
static void prediction(void) { IN_A_ROW plain_legendre_predict(p, h, other_predicted); }
#ifdef WITH_FFTW
static void fftw(void) { IN_A_ROW turn_fftw(y); }
#endif

static struct piece pieces[] = {
    {"recording", recording, NULL, {0}}, {"plain", plain, NULL, {0}}, {"ready", ready, NULL, {0}},
#ifdef WITH_FFTW
    {"fftw", fftw, NULL, {0}},
#endif
    {"predict", predict, NULL, {0}}, {"plain_predict", prediction, NULL, {0}},
};
enum { PIECES = sizeof pieces / sizeof *pieces };

static void begin(int n) {
    uint8_t bits[MOST_LEGENDRE];
    p = periods[n].p;
    calls = periods[n].calls;
    for (uint32_t j = 0; j < p; j++) {
        y[j] = drawn(8388606);
        h[j] = drawn(8388607 / MOST_LEGENDRE);
    }
    plain_legendre_twice(p, twice);
    /* What is compared answers the same. */
    must(meter_legendre_sequence(p, bits, p) == 0, "sequence");
    for (uint32_t j = 0; j < 2 * p; j++)
        must(twice[j] == 1 - 2 * bits[j % p], "plain C's signs differ");
    recording();
    plain();
    must(memcmp(r, other, p * sizeof *r) == 0, "plain C differs");
    memset(other, 0, sizeof other);
    ready();
    must(memcmp(r, other, p * sizeof *r) == 0, "plain C with its signs ready differs");
    predict();
    prediction();
    must(memcmp(predicted, other_predicted, p * sizeof *predicted) == 0, "plain C's prediction differs");
#ifdef WITH_FFTW
    plan_fftw(p, bits);
    const double *wave = turn_fftw(y), sum = (double)plain_pass(y, p);
    for (uint32_t k = 0; k < p; k++)
        must(fabs(wave[k] / p - sum - (double)r[k]) < 1e-3, "FFTW's correlation differs");
#endif
}

int main(void) {
    for (int n = 0; n < PERIODS; n++) {
        begin(n);
        rounds(pieces, pieces + PIECES);
        say(p, pieces, pieces + PIECES, calls, 3);
    }
    return 0;
}
