/* What the benchmarks share: pieces of work that are timed by turns, and what they are given to work on. */
#ifndef ROUNDS_H
#define ROUNDS_H

#include <alloca.h>
#include <stdint.h>
#include <stdio.h>
#include <stdlib.h>
#include <time.h>

enum { ROUNDS = 41 };

struct piece {
    const char *name;
    void (*work)(void);
    /* What it wants done before, unmeasured, or NULL. */
    void (*before)(void);
    double times[ROUNDS];
};

static void must(int held, const char *what) {
    if (!held) {
        fprintf(stderr, "bench: %s\n", what);
        exit(1);
    }
}

static double now(void) {
    struct timespec t;
    clock_gettime(CLOCK_MONOTONIC, &t);
    return (double)t.tv_sec * 1e6 + (double)t.tv_nsec / 1e3;
}

static int smaller(const void *a, const void *b) {
    double x = *(const double *)a, z = *(const double *)b;
    return (x > z) - (x < z);
}

static uint64_t seed = 1;
static int32_t drawn(int32_t size) {
    seed = seed * 6364136223846793005u + 1442695040888963407u;
    return (int32_t)((seed >> 33) % (uint32_t)(2 * size + 1)) - size;
}

/* A call's room on the stack lies on a cache line or across two, by where its caller's stack ends, which is worth a fifth of an entry's time: every other
 * round goes 16 bytes deeper. */
static __attribute__((noinline)) void at_depth(void (*work)(void), int round) {
    volatile char *deeper = alloca(round % 2 == 0 ? 1 : 17);
    deeper[0] = 0;
    work();
}

/* Every round runs each piece once; two rounds go before those that count. */
static void rounds(struct piece *first, struct piece *end) {
    for (int round = -2; round < ROUNDS; round++)
        for (struct piece *i = first; i < end; i++) {
            if (i->before != NULL)
                i->before();
            double from = now();
            at_depth(i->work, round);
            double to = now();
            if (round >= 0)
                i->times[round] = to - from;
        }
}

/* A line for each piece: the order or the period, its name, its best and its median, each over the calls that are one piece of work. */
static void say(uint32_t of, struct piece *first, struct piece *end, int calls, int digits) {
    for (struct piece *i = first; i < end; i++) {
        qsort(i->times, ROUNDS, sizeof(double), smaller);
        printf("%u %s %.*f %.*f\n", of, i->name, digits, i->times[0] / calls, digits, i->times[ROUNDS / 2] / calls);
    }
}

#endif
