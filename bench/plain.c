#include "plain.h"
#ifdef WITH_FFTW
#include <fftw3.h>
#endif

static inline uint32_t next_window(uint32_t order, uint32_t taps, uint32_t window) {
    return (window >> 1) | ((uint32_t)__builtin_parity(window & taps) << (order - 1));
}

void plain_tags(uint32_t order, uint32_t taps, uint16_t *windows, uint16_t *delays) {
    uint32_t p = (1u << order) - 1, window = p, tag = 1;
    for (uint32_t j = 0; j < p; j++) {
        windows[j] = (uint16_t)window;
        window = next_window(order, taps, window);
    }
    for (uint32_t k = p; k > 0; k--) {
        tag = ((tag << 1) & p) ^ (tag >> (order - 1) ? taps : 0);
        delays[k - 1] = (uint16_t)tag;
    }
}

static void fast_hadamard(double *x, long p1, long n) {
    long k1 = p1;
    for (long k = 0; k < n; k++) {
        long k2 = k1 >> 1;
        for (long j = 0; j < k2; j++) {
            for (long i = j; i < p1; i = i + k1) {
                long i1 = i + k2;
                double temp = x[i] + x[i1];
                x[i1] = x[i] - x[i1];
                x[i] = temp;
            }
        }
        k1 = k1 >> 1;
    }
}

void paper_recording(uint32_t order, const double *y, const uint16_t *windows, const uint16_t *delays, double *room, double *out) {
    long p = (1L << order) - 1;
    double dc = 0;
    const double fact = 1 / (double)(p + 1);
    for (long i = 0; i < p; i++)
        dc += y[i];
    room[0] = -dc;
    for (long i = 0; i < p; i++)
        room[windows[i]] = y[i];
    fast_hadamard(room, p + 1, order);
    for (long i = 0; i < p; i++)
        out[i] = room[delays[i]] * fact;
}

static void plain_hadamard(int64_t *v, size_t n) {
    for (size_t half = n / 2; half > 0; half /= 2)
        for (size_t from = 0; from < n; from += 2 * half)
            for (size_t i = from; i < from + half; i++) {
                int64_t a = v[i], c = v[i + half];
                v[i] = a + c;
                v[i + half] = a - c;
            }
}

void plain_turn(uint32_t order, const int32_t *y, int64_t *out, int64_t *room, const uint16_t *windows, const uint16_t *delays) {
    size_t p = ((size_t)1 << order) - 1;
    room[0] = 0;
    for (size_t j = 0; j < p; j++)
        room[windows[j]] = y[j];
    plain_hadamard(room, p + 1);
    for (size_t k = 0; k < p; k++)
        out[k] = room[delays[k]] - room[0];
}

void plain_recording(uint32_t order, uint32_t taps, const int32_t *y, int64_t *out, int64_t *room, uint16_t *windows, uint16_t *delays) {
    plain_tags(order, taps, windows, delays);
    plain_turn(order, y, out, room, windows, delays);
}

void plain_predict(uint32_t order, uint32_t taps, const int32_t *h, int32_t *out, int64_t *room, uint16_t *windows, uint16_t *delays) {
    size_t p = ((size_t)1 << order) - 1;
    plain_tags(order, taps, windows, delays);
    room[0] = 0;
    for (size_t i = 0; i < p; i++)
        room[delays[i]] = h[i];
    plain_hadamard(room, p + 1);
    for (size_t j = 0; j < p; j++)
        out[j] = (int32_t)room[windows[j]];
}

int64_t plain_pass(const int32_t *store, size_t n) {
    int64_t total = 0;
    for (size_t i = 0; i < n; i++)
        total += store[i];
    return total;
}

uint32_t plain_walk(uint32_t order, uint32_t taps) {
    uint32_t p = (1u << order) - 1, window = p, steps = 0;
    do {
        window = next_window(order, taps, window);
        steps++;
    } while (window != p);
    return steps;
}

/* The signs of the definition, as they are made first: the squares by a division each. */
static void legendre_signs(uint32_t p, int8_t *x) {
    for (uint32_t n = 0; n < p; n++)
        x[n] = -1;
    for (uint32_t i = 1; i <= (p - 1) / 2; i++)
        x[i * i % p] = 1;
}

void plain_legendre(uint32_t p, const int32_t *y, int64_t *out) {
    int8_t x[MOST_LEGENDRE];
    int64_t sum = 0;
    legendre_signs(p, x);
    for (uint32_t j = 0; j < p; j++)
        sum += y[j];
    for (uint32_t k = 0; k < p; k++) {
        int64_t c = 0;
        uint32_t at = k == 0 ? 0 : p - k;
        for (uint32_t j = 0; j < p; j++) {
            c += (int64_t)y[j] * x[at];
            if (++at == p)
                at = 0;
        }
        out[k] = c - sum;
    }
}

void plain_legendre_twice(uint32_t p, int32_t *twice) {
    int8_t x[MOST_LEGENDRE];
    legendre_signs(p, x);
    for (uint32_t n = 0; n < p; n++)
        twice[n] = twice[n + p] = x[n];
}

void plain_legendre_ready(uint32_t p, const int32_t *y, const int32_t *twice, int64_t *out) {
    int32_t sum = 0;
    for (uint32_t j = 0; j < p; j++)
        sum += y[j];
    for (uint32_t k = 0; k < p; k++) {
        const int32_t *x = twice + (p - k);
        int32_t c = 0;
        for (uint32_t j = 0; j < p; j++)
            c += y[j] * x[j];
        out[k] = c - sum;
    }
}

void plain_legendre_predict(uint32_t p, const int32_t *h, int32_t *out) {
    int8_t x[MOST_LEGENDRE];
    legendre_signs(p, x);
    for (uint32_t j = 0; j < p; j++) {
        int64_t y = 0;
        uint32_t at = j;
        for (uint32_t i = 0; i < p; i++) {
            y += (int64_t)h[i] * x[at];
            at = at == 0 ? p - 1 : at - 1;
        }
        out[j] = (int32_t)y;
    }
}

#ifdef WITH_FFTW
static size_t length;
static fftw_plan forth, back;
static double *wave;
static fftw_complex *of_y, *of_x;

void plan_fftw(size_t p, const uint8_t *bits) {
    length = p;
    wave = fftw_malloc(p * sizeof *wave);
    of_y = fftw_malloc((p / 2 + 1) * sizeof *of_y);
    of_x = fftw_malloc((p / 2 + 1) * sizeof *of_x);
    forth = fftw_plan_dft_r2c_1d((int)p, wave, of_y, FFTW_MEASURE);
    back = fftw_plan_dft_c2r_1d((int)p, of_y, wave, FFTW_MEASURE);
    for (size_t j = 0; j < p; j++)
        wave[j] = 1 - 2 * bits[j];
    fftw_execute_dft_r2c(forth, wave, of_x);
}

const double *turn_fftw(const int32_t *y) {
    for (size_t j = 0; j < length; j++)
        wave[j] = y[j];
    fftw_execute(forth);
    for (size_t k = 0; k < length / 2 + 1; k++) {
        double a = of_y[k][0], b = of_y[k][1], c = of_x[k][0], d = of_x[k][1];
        of_y[k][0] = a * c + b * d;
        of_y[k][1] = b * c - a * d;
    }
    fftw_execute(back);
    return wave;
}
#endif
