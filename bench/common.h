/* What the benchmarks share: seeded random numbers, the clock, two functions timed in turns, and medians. */
#ifndef BENCH_COMMON_H
#define BENCH_COMMON_H

#include <stdbool.h>
#include <stddef.h>
#include <stdint.h>
#include <stdio.h>
#include <stdlib.h>
#include <time.h>

typedef uint64_t u64;

/* The greatest time of a sheet, the greatest turn and the greatest weight. */
enum { MOST_TIME = 60000, MOST_TURN = 600, MOST_WEIGHT = 100 };

static u64 seed = 1;

/* A random number from low to high. */
static inline u64 any(u64 low, u64 high) {
    seed = seed * 6364136223846793005u + 1442695040888963407u;
    return low + (seed >> 33) % (high - low + 1);
}

/* What weights the strips of a section have: all 1, random, one the greatest and all others 1, 1 or the greatest, or rising with the strip's time, falling
   with it, or rising with its place in the row. */
enum weights { UNWEIGHTED, RANDOM_WEIGHTS, ONE_HEAVY, EXTREME_WEIGHTS, LONG_HEAVY, SHORT_HEAVY, LAST_HEAVY };

/* The weight of a strip with this time and place, both counted from 0 up to a greatest one. The caller sets the one heavy strip. */
static inline uint32_t random_weight(enum weights weights, u64 time, u64 most_time, u64 place, u64 last_place) {
    const u64 over = MOST_WEIGHT - 1;
    switch (weights) {
    case RANDOM_WEIGHTS: return (uint32_t)any(1, MOST_WEIGHT);
    case EXTREME_WEIGHTS: return any(0, 1) == 0 ? 1 : MOST_WEIGHT;
    case LONG_HEAVY: return (uint32_t)(1 + over * time / most_time);
    case SHORT_HEAVY: return (uint32_t)(MOST_WEIGHT - over * time / most_time);
    case LAST_HEAVY: return (uint32_t)(1 + over * place / last_place);
    default: return 1;
    }
}

/* Processor time in seconds. */
static inline double now(void) {
    struct timespec t;
    clock_gettime(CLOCK_PROCESS_CPUTIME_ID, &t);
    return (double)t.tv_sec + (double)t.tv_nsec * 1e-9;
}

/* One side of a comparison. It keeps its answer in the instance. */
typedef void work(void *instance);

/* The time of one call, as the mean of some. */
static inline double time_of(work *f, void *instance, int calls) {
    double start = now();
    for (int i = 0; i < calls; i++)
        f(instance);
    return (now() - start) / calls;
}

enum { TURNS = 5, MOST_INSTANCES = 100 };

/* The times of the instances of one family, in seconds of one call, and their ratios. */
struct times {
    int count;
    double ours[MOST_INSTANCES], plain[MOST_INSTANCES], ratio[MOST_INSTANCES];
};

/* Adds the times of both sides on one instance. */
static inline void add_times(struct times *t, double ours, double plain) {
    t->ours[t->count] = ours;
    t->plain[t->count] = plain;
    t->ratio[t->count] = ours / plain;
    t->count++;
}

/* Times both sides on one instance in turns. The least time of each side counts; a short call is repeated for a millisecond. */
static inline void add_instance(struct times *t, work *ours, work *plain, void *instance) {
    int calls = (int)(1e-3 / (time_of(plain, instance, 1) + 1e-9)) + 1;
    double a = 1e9, b = 1e9;
    for (int turn = 0; turn < TURNS; turn++) {
        double x = time_of(ours, instance, calls), y = time_of(plain, instance, calls);
        a = x < a ? x : a;
        b = y < b ? y : b;
    }
    add_times(t, a, b);
}

static inline int by_value(const void *a, const void *b) {
    double x = *(const double *)a, y = *(const double *)b;
    return (x > y) - (x < y);
}

/* Sorts the values. */
static inline double median(double *values, int count) {
    qsort(values, (size_t)count, sizeof *values, by_value);
    return values[count / 2];
}

static inline double greatest(const double *values, int count) {
    double most = values[0];
    for (int i = 1; i < count; i++)
        most = values[i] > most ? values[i] : most;
    return most;
}

/* The median times in microseconds, and the ratios. */
static inline void print_times(struct times *t) {
    double most = greatest(t->ratio, t->count);
    printf("%10.2f %10.2f %7.2f %8.2f", median(t->ours, t->count) * 1e6, median(t->plain, t->count) * 1e6, median(t->ratio, t->count), most);
}

static inline void print_times_head(void) {
    printf("%10s %10s %7s %8s", "ours us", "C us", "ratio", "greatest");
}

/* Ends the run where the two sides differ. */
static inline void require_equal(bool equal, const char *family, int instance) {
    if (equal)
        return;
    printf("%s: instance %d differs\n", family, instance);
    exit(1);
}

#endif
