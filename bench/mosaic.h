/* The mosaic planner in plain C: ready times, sums of bench times and of weights, one row of least figures, and the figures that begin with a batch that
   waits. */
#ifndef BENCH_MOSAIC_H
#define BENCH_MOSAIC_H

#include "common.h"

/* Station k of strip j, both from 0, stands at 4 j + k. A strip that carries no weight has 1. */
struct mosaic {
    size_t stations, strips;
    u64 mount, station[160], bench[40];
    u64 weight[40];
};

struct mosaic_plan {
    u64 figure;
    size_t batches;
    u64 last[40], start[40], finish[40];
};

/* A batch that is taken: its last strip, and the least figure from its first strip on. */
struct choice {
    size_t last;
    u64 figure;
};

/* When the bench work of a batch starts: its mount is done, and its last strip is ready. */
static inline u64 bench_start(u64 mount, u64 start, u64 ready) {
    return start + mount < ready ? ready : start + mount;
}

static inline u64 candidate(const u64 *ready, const u64 *sums, const u64 *weights, const u64 *late, const u64 *row, u64 mount, u64 free, size_t i, size_t q) {
    if (ready[q - 1] <= free + mount)
        return (weights[q] - weights[i]) * (free + mount + (sums[q] - sums[i])) + row[q];
    return late[41 * i + q];
}

static inline struct choice
choose_batch(const u64 *ready, const u64 *sums, const u64 *weights, const u64 *late, const u64 *row, u64 mount, size_t n, u64 free, size_t i) {
    struct choice best = {n, candidate(ready, sums, weights, late, row, mount, free, i, n)};
    for (size_t q = n; i + 1 < q;) {
        q--;
        u64 figure = candidate(ready, sums, weights, late, row, mount, free, i, q);
        if (figure < best.figure)
            best = (struct choice){q, figure};
    }
    return best;
}

static inline void
fill_block(const u64 *ready, const u64 *sums, const u64 *weights, const u64 *late, u64 *row, u64 mount, size_t n, u64 begin, size_t i, size_t low) {
    u64 at = begin + (u64)(n - low) * mount;
    row[n] = 0;
    for (size_t p = n; low < p;) {
        p--;
        at -= mount;
        for (size_t k = p; k < n; k++)
            row[k] = choose_batch(ready, sums, weights, late, row, mount, n, at + (sums[k] - sums[i]), k).figure;
    }
}

/* When each strip is ready, and the sums of the bench times and of the weights of the strips before each. The arrays must be zero. */
static inline void read_times(const struct mosaic *m, u64 *ready, u64 *sums, u64 *weights) {
    u64 sum[4] = {0};
    for (size_t j = 0; j < m->strips; j++) {
        for (size_t k = 0; k < m->stations; k++) {
            sum[k] += m->station[4 * j + k];
            if (ready[j] < sum[k])
                ready[j] = sum[k];
        }
        sums[j + 1] = sums[j] + m->bench[j];
        weights[j + 1] = weights[j] + m->weight[j];
    }
}

static inline struct mosaic_plan mosaic_in_c(const struct mosaic *m) {
    u64 ready[40] = {0}, sums[41] = {0}, weights[41] = {0}, late[1640] = {0}, row[41] = {0}, mount = m->mount, free = 0;
    size_t n = m->strips;
    struct mosaic_plan plan = {0};
    read_times(m, ready, sums, weights);
    for (size_t i = n; 0 < i;) {
        i--;
        for (size_t q = i + 1; q <= n; q++) {
            u64 begin = ready[q - 1];
            fill_block(ready, sums, weights, late, row, mount, n, begin, i, q);
            late[41 * i + q] = (weights[q] - weights[i]) * (begin + (sums[q] - sums[i])) + row[q];
        }
    }
    for (size_t i = 0; i < n;) {
        fill_block(ready, sums, weights, late, row, mount, n, free + mount, i, i + 1);
        size_t q = choose_batch(ready, sums, weights, late, row, mount, n, free, i).last;
        plan.last[plan.batches] = q;
        plan.start[plan.batches] = free;
        free = bench_start(mount, free, ready[q - 1]) + (sums[q] - sums[i]);
        plan.finish[plan.batches++] = free;
        plan.figure += (weights[q] - weights[i]) * free;
        i = q;
    }
    return plan;
}

/* Random times up to `high`, from `low` on where 0 is not asked for. A weight that goes with the strip's time goes with its bench time. */
static inline struct mosaic random_mosaic(size_t stations, size_t strips, u64 low, u64 high, enum weights weights) {
    struct mosaic m = {.stations = stations, .strips = strips, .mount = any(low, high)};
    for (size_t j = 0; j < strips; j++) {
        for (size_t k = 0; k < stations; k++)
            m.station[4 * j + k] = any(low, high);
        m.bench[j] = any(low < 1 ? 1 : low, high);
        m.weight[j] = random_weight(weights, m.bench[j], high, j, 39);
    }
    if (weights == ONE_HEAVY)
        m.weight[any(0, strips - 1)] = MOST_WEIGHT;
    return m;
}

#endif
