/* For bench/misses: one recording at order 16 through the meter, and as many numbers transformed level by level, each in a function of its own,
 * so that cachegrind can say which function missed the cache. */
#include "meter.h"
#include <stdio.h>
#include <string.h>

enum { ORDER = 16, TAPS = 45, P = (1 << ORDER) - 1, N = P + 1 };

static int32_t y[P];
static int64_t out[P], room[N], pairs[N], fours[N];
static uint16_t tags[P];

/* Each level over all the numbers before the next one, the narrowest first. */
__attribute__((noipa)) static void level_by_level(int64_t *v, size_t n) {
    for (size_t half = 1; half < n; half *= 2)
        for (size_t from = 0; from < n; from += 2 * half)
            for (size_t i = from; i < from + half; i++) {
                int64_t a = v[i], b = v[i + half];
                v[i] = a + b;
                v[i + half] = a - b;
            }
}

/* The same, two levels in one pass; ORDER is even. */
__attribute__((noipa)) static void two_by_two(int64_t *v, size_t n) {
    for (size_t q = 1; q < n; q *= 4)
        for (size_t from = 0; from < n; from += 4 * q)
            for (size_t i = from; i < from + q; i++) {
                int64_t a = v[i], b = v[i + q], c = v[i + 2 * q], d = v[i + 3 * q];
                int64_t e = a + b, f = a - b, g = c + d, h = c - d;
                v[i] = e + g;
                v[i + q] = f + h;
                v[i + 2 * q] = e - g;
                v[i + 3 * q] = f - h;
            }
}

int main(void) {
    uint32_t period;
    uint32_t seed = 1;
    for (size_t j = 0; j < P; j++) {
        seed = seed * 1664525 + 1013904223;
        y[j] = (int32_t)(seed >> 8) - (1 << 23);
        pairs[j] = fours[j] = y[j];
    }
    uint32_t answer = meter_recording(ORDER, TAPS, y, P, out, P, room, N, tags, P, &period);
    level_by_level(pairs, N);
    two_by_two(fours, N);
    if (answer != 0 || memcmp(pairs, fours, sizeof pairs) != 0) {
        fprintf(stderr, "misses: answer %u, or the two plain transforms differ\n", answer);
        return 1;
    }
    return 0;
}
