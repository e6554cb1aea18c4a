/* What the meter is measured against: the same work by plain C, with no check of taps, lengths or samples and no clearing of the room. */
#ifndef PLAIN_H
#define PLAIN_H

#include <stddef.h>
#include <stdint.h>

/* The places of the samples and of the response in the transform: windows[j] for sample j, delays[k] for place k of the response. */
void plain_tags(uint32_t order, uint32_t taps, uint16_t *windows, uint16_t *delays);

/* (a) document 002's route, in doubles: PermuteSignal, FastHadamard, PermuteResponse, its loops as printed. */
void paper_recording(uint32_t order, const double *y, const uint16_t *windows, const uint16_t *delays, double *room, double *out);

/* (b) plain int64: the tags, the samples laid out, the levels one after the other, the response read. */
void plain_recording(uint32_t order, uint32_t taps, const int32_t *y, int64_t *out, int64_t *room, uint16_t *windows, uint16_t *delays);

/* (b) with tags that were made before. */
void plain_turn(uint32_t order, const int32_t *y, int64_t *out, int64_t *room, const uint16_t *windows, const uint16_t *delays);

/* A recording predicted, by plain int64 and tags made in the call. */
void plain_predict(uint32_t order, uint32_t taps, const int32_t *h, int32_t *out, int64_t *room, uint16_t *windows, uint16_t *delays);

/* (d) one pass over the store: the sum of its samples. */
int64_t plain_pass(const int32_t *store, size_t n);

/* (e) the steps after which the register first returns to all ones. */
uint32_t plain_walk(uint32_t order, uint32_t taps);

/* The longest Legendre sequence. */
enum { MOST_LEGENDRE = 127 };

/* (j) a recording of a Legendre sequence by the direct sum in int64, signs made in the call; x(j-k) is reached by an index that is compared and set back
 * to 0 at p, so the inner loop has no division. */
void plain_legendre(uint32_t p, const int32_t *y, int64_t *out);

/* The signs twice over, 2p of them. */
void plain_legendre_twice(uint32_t p, int32_t *twice);

/* (k) the direct sum with these signs, made before: the inner loop goes straight through both, and in int32, which holds every sum. */
void plain_legendre_ready(uint32_t p, const int32_t *y, const int32_t *twice, int64_t *out);

/* (m) a recording of a Legendre sequence predicted, as (j). */
void plain_legendre_predict(uint32_t p, const int32_t *h, int32_t *out);

#ifdef WITH_FFTW
/* The plans of length p, and the spectrum of the signal with these bits. */
void plan_fftw(size_t p, const uint8_t *bits);

/* (c), (l) the correlation by two transforms, with the plans and the spectrum made last: p times the correlation, as FFTW leaves it. */
const double *turn_fftw(const int32_t *y);
#endif

#endif
