/* The sorting planner in plain C: the search with the planner's cuts, and plain enumeration of all interleavings. */
#ifndef BENCH_SORTING_H
#define BENCH_SORTING_H

#include "common.h"

/* Strip k of desk d, both from 0, stands at 6 d + k. A strip that carries no weight has 1. */
struct sorting {
    size_t desks, counts[3];
    u64 scan[18], desk[18];
    uint32_t weight[18];
};

/* A section as the search reads it: strips of each desk, scan times, desk times, weights. */
enum { SCAN = 3, DESK = 21, WEIGHT = 39, JOBS = 57 };

/* The working table: labels of 16 numbers to a count vector, then the scanner's bound of each. */
enum { VECTORS = 343, LABELS = 5488, TABLE = 6400 };

struct state {
    u64 left, time, cost, path, free[3], taken[3];
};

struct incumbent {
    u64 figure, path;
};

/* One search: its section, its table, the best list so far, and the nodes it came to. */
struct search {
    const u64 *jobs;
    u64 *table;
    struct incumbent best;
    u64 nodes;
};

struct sorting_plan {
    u64 figure;
    size_t jobs;
    u64 desk[18], number[18], scan[18], start[18];
};

static inline u64 later(u64 a, u64 b) {
    return a < b ? b : a;
}

static inline u64 lesser(u64 a, u64 b) {
    return a < b ? a : b;
}

static inline void jobs_of(const struct sorting *s, u64 *jobs) {
    for (int d = 0; d < 3; d++)
        jobs[d] = s->counts[d];
    for (int i = 0; i < 18; i++) {
        jobs[SCAN + i] = s->scan[i];
        jobs[DESK + i] = s->desk[i];
        jobs[WEIGHT + i] = s->weight[i];
    }
}

static inline struct state start_state(const u64 *jobs) {
    return (struct state){.left = jobs[0] + jobs[1] + jobs[2]};
}

static inline struct state step(const u64 *jobs, struct state s, int d) {
    u64 i = 6 * (u64)d + s.taken[d];
    s.left--;
    s.time += jobs[SCAN + i];
    s.free[d] = later(s.free[d], s.time) + jobs[DESK + i];
    s.cost += jobs[WEIGHT + i] * s.free[d];
    s.path = s.path * 4 + (u64)d + 1;
    s.taken[d]++;
    return s;
}

static inline void keep_better(struct incumbent *best, const struct state *s) {
    if (s->cost < best->figure)
        *best = (struct incumbent){s->cost, s->path};
}

/* Plain enumeration. The loops over the desks are unrolled, here and in the search below: gcc is the faster for it. */
static inline void enumerate(struct search *x, const struct state *s) {
    x->nodes++;
    if (s->left == 0) {
        keep_better(&x->best, s);
        return;
    }
#pragma GCC unroll 3
    for (int d = 0; d < 3; d++)
        if (s->taken[d] < x->jobs[d]) {
            struct state n = step(x->jobs, *s, d);
            enumerate(x, &n);
        }
}

static inline u64 key_of(const struct state *s) {
    return (s->taken[0] * 7 + s->taken[1]) * 7 + s->taken[2];
}

/* Each desk's rest as if the scanner served it alone. */
static inline u64 desk_bound(const u64 *jobs, const struct state *s) {
    u64 sum = s->cost;
    for (int d = 0; d < 3; d++) {
        u64 t = s->time, f = s->free[d];
        for (u64 k = s->taken[d]; k < jobs[d]; k++) {
            u64 i = 6 * (u64)d + k;
            t += jobs[SCAN + i];
            f = later(f, t) + jobs[DESK + i];
            sum += jobs[WEIGHT + i] * f;
        }
    }
    return sum;
}

/* The scanner's rest that starts with strip k of desk d, with every desk free. */
static inline u64 through(const u64 *jobs, u64 time, int d, u64 k, u64 next) {
    const u64 cap = (u64)1 << 40;
    u64 i = 6 * (u64)d + k;
    if (jobs[d] <= k)
        return cap;
    return lesser(jobs[WEIGHT + i] * (time + jobs[SCAN + i] + jobs[DESK + i]) + next, cap);
}

static inline u64 scanner_entry(const u64 *jobs, const u64 *entries, u64 k) {
    u64 counts[3] = {k / 49, k / 7 % 7, k % 7}, time = 0;
    if (jobs[0] + jobs[1] + jobs[2] <= counts[0] + counts[1] + counts[2])
        return 0;
    for (int d = 0; d < 3; d++)
        for (u64 i = 0; i < counts[d]; i++)
            time += jobs[SCAN + 6 * (u64)d + i];
    u64 a = through(jobs, time, 0, counts[0], entries[k + 49]);
    u64 b = through(jobs, time, 1, counts[1], entries[k + 7]);
    u64 c = through(jobs, time, 2, counts[2], entries[k + 1]);
    return lesser(lesser(a, b), c);
}

/* No label, and the scanner's entries from the last count vector down. */
static inline void fill_table(const u64 *jobs, u64 *table) {
    for (int i = 0; i < LABELS; i++)
        table[i] = UINT64_MAX;
    for (u64 k = VECTORS; 0 < k;) {
        k--;
        table[LABELS + k] = scanner_entry(jobs, table + LABELS, k);
    }
}

static inline bool dominated(const u64 *labels, const struct state *s) {
    for (int j = 0; j < 4; j++) {
        const u64 *m = labels + 4 * j;
        if (m[0] <= s->cost && m[1] <= s->free[0] && m[2] <= s->free[1] && m[3] <= s->free[2])
            return true;
    }
    return false;
}

/* The costliest of the four labels gives way. */
static inline void store_label(u64 *labels, const struct state *s) {
    int w = 0;
    for (int j = 1; j < 4; j++)
        if (labels[4 * w] < labels[4 * j])
            w = j;
    u64 *m = labels + 4 * w;
    m[0] = s->cost;
    m[1] = s->free[0];
    m[2] = s->free[1];
    m[3] = s->free[2];
}

/* The search with the planner's cuts. */
static inline void search(struct search *x, const struct state *s) {
    x->nodes++;
    if (s->left == 0) {
        keep_better(&x->best, s);
        return;
    }
    u64 k = key_of(s), *labels = x->table + 16 * k;
    if (x->best.figure <= s->cost + x->table[LABELS + k] || dominated(labels, s) || x->best.figure <= desk_bound(x->jobs, s))
        return;
#pragma GCC unroll 3
    for (int d = 0; d < 3; d++)
        if (s->taken[d] < x->jobs[d]) {
            struct state n = step(x->jobs, *s, d);
            search(x, &n);
        }
    store_label(labels, s);
}

/* The figure of the list that takes the desk of the least bound at each step. */
static inline u64 greedy(const u64 *jobs, const u64 *table) {
    struct state s = start_state(jobs);
    while (0 < s.left) {
        struct state chosen = {0};
        u64 least = UINT64_MAX;
        for (int d = 0; d < 3; d++)
            if (s.taken[d] < jobs[d]) {
                struct state n = step(jobs, s, d);
                u64 bound = later(n.cost + table[LABELS + key_of(&n)], desk_bound(jobs, &n));
                if (bound < least) {
                    chosen = n;
                    least = bound;
                }
            }
        s = chosen;
    }
    return s.cost;
}

/* The search whole; the result holds the best list and the nodes. */
static inline struct search search_in_c(const u64 *jobs, u64 *table) {
    struct state s = start_state(jobs);
    fill_table(jobs, table);
    struct search x = {jobs, table, {greedy(jobs, table) + 1, 0}, 0};
    search(&x, &s);
    return x;
}

static inline struct search enumerate_in_c(const u64 *jobs) {
    struct state s = start_state(jobs);
    struct search x = {jobs, NULL, {UINT64_MAX, 0}, 0};
    enumerate(&x, &s);
    return x;
}

/* The plan of at least one strip. */
static inline struct sorting_plan sorting_in_c(const struct sorting *section, u64 *table) {
    u64 jobs[JOBS];
    jobs_of(section, jobs);
    struct incumbent best = search_in_c(jobs, table).best;
    struct sorting_plan plan = {.figure = best.figure};
    for (struct state s = start_state(jobs); 0 < s.left;) {
        int d = (int)(best.path >> 2 * (s.left - 1) & 3) - 1;
        size_t at = plan.jobs++;
        plan.desk[at] = (u64)d + 1;
        plan.number[at] = s.taken[d] + 1;
        plan.scan[at] = s.time;
        plan.start[at] = later(s.free[d], s.time + jobs[SCAN + 6 * (u64)d + s.taken[d]]);
        s = step(jobs, s, d);
    }
    return plan;
}

enum sorting_times {
    EQUAL, RANDOM, RANDOM_SMALL, EXTREME, SCAN_HEAVY, DESK_HEAVY, RISING_SCANS, IDENTICAL_DESKS, PROPORTIONAL, EQUAL_BUT_ONE, EQUAL_STRIPS, IDENTICAL_SMALL
};

/* A family of full sections: what its times and its weights are. */
struct sorting_family {
    const char *name;
    enum sorting_times times;
    enum weights weights;
};

static const struct sorting_family sorting_families[] = {
    {"all times equal", EQUAL, UNWEIGHTED},
    {"random from 1 on", RANDOM, UNWEIGHTED},
    {"random 1..5", RANDOM_SMALL, UNWEIGHTED},
    {"times 1 or the greatest", EXTREME, UNWEIGHTED},
    {"scan-heavy", SCAN_HEAVY, UNWEIGHTED},
    {"desk-heavy", DESK_HEAVY, UNWEIGHTED},
    {"rising scans per desk", RISING_SCANS, UNWEIGHTED},
    {"three identical desks", IDENTICAL_DESKS, UNWEIGHTED},
    {"desk up to 3 times scan", PROPORTIONAL, UNWEIGHTED},
    {"all times equal but one", EQUAL_BUT_ONE, UNWEIGHTED},
    {"equal, desk 1..2 x scan", EQUAL_STRIPS, UNWEIGHTED},
    {"identical desks, 1..5", IDENTICAL_SMALL, UNWEIGHTED},
    {"random, random weights", RANDOM, RANDOM_WEIGHTS},
    {"random, one weight of 100", RANDOM, ONE_HEAVY},
    {"random, weights 1 or 100", RANDOM, EXTREME_WEIGHTS},
    {"random, long strips heavy", RANDOM, LONG_HEAVY},
    {"random, short strips heavy", RANDOM, SHORT_HEAVY},
    {"random, last strips heavy", RANDOM, LAST_HEAVY},
    {"equal times, random weights", EQUAL, RANDOM_WEIGHTS},
    {"equal times, last ones heavy", EQUAL, LAST_HEAVY},
    {"random 1..5, random weights", RANDOM_SMALL, RANDOM_WEIGHTS},
    {"1 or the greatest, weights 1 or 100", EXTREME, EXTREME_WEIGHTS},
    {"scan-heavy, random weights", SCAN_HEAVY, RANDOM_WEIGHTS},
    {"scan-heavy, long ones heavy", SCAN_HEAVY, LONG_HEAVY},
    {"desk-heavy, random weights", DESK_HEAVY, RANDOM_WEIGHTS},
    {"desk-heavy, long ones heavy", DESK_HEAVY, LONG_HEAVY},
    {"rising scans, random weights", RISING_SCANS, RANDOM_WEIGHTS},
    {"identical desks, random weights", IDENTICAL_DESKS, RANDOM_WEIGHTS},
    {"identical desks, long ones heavy", IDENTICAL_DESKS, LONG_HEAVY},
    {"identical desks, last ones heavy", IDENTICAL_DESKS, LAST_HEAVY},
    {"desk up to 3 x scan, random weights", PROPORTIONAL, RANDOM_WEIGHTS},
    {"desk up to 3 x scan, 1 or 100", PROPORTIONAL, EXTREME_WEIGHTS},
    {"desk up to 3 x scan, one of 100", PROPORTIONAL, ONE_HEAVY},
    {"desk up to 3 x scan, long heavy", PROPORTIONAL, LONG_HEAVY},
    {"desk up to 3 x scan, short heavy", PROPORTIONAL, SHORT_HEAVY},
    {"desk up to 3 x scan, last heavy", PROPORTIONAL, LAST_HEAVY},
    {"equal strips, random weights", EQUAL_STRIPS, RANDOM_WEIGHTS},
    {"equal strips, one weight of 100", EQUAL_STRIPS, ONE_HEAVY},
    {"equal strips, last ones heavy", EQUAL_STRIPS, LAST_HEAVY},
    {"identical 1..5, random weights", IDENTICAL_SMALL, RANDOM_WEIGHTS},
};

/* The strip whose times strip i has, or i where its times are its own. With all strips equal the three desks are identical too. */
static inline int same_strip(enum sorting_times times, int i) {
    if (times == EQUAL || times == EQUAL_STRIPS)
        return 0;
    return (times == IDENTICAL_DESKS || times == IDENTICAL_SMALL) && i >= 6 ? i - 6 : i;
}

/* The times of strip i, as they stand in the arrays, none above `most`: a desk's six rising scans rise by at most sixteen hundredths of it each. */
static inline void random_strip(struct sorting *s, enum sorting_times times, u64 most, int i) {
    u64 *scan = s->scan + i, *desk = s->desk + i;
    bool small = times == RANDOM_SMALL || times == IDENTICAL_SMALL;
    *scan = any(1, times == DESK_HEAVY ? most / 10 : small ? 5 : times == PROPORTIONAL ? most / 3 : most);
    *desk = any(1, times == SCAN_HEAVY ? most / 10 : small ? 5 : times == PROPORTIONAL ? 3 * *scan : most);
    if (times == EXTREME) {
        *scan = *scan <= most / 2 ? 1 : most;
        *desk = *desk <= most / 2 ? 1 : most;
    }
    if (times == RISING_SCANS)
        *scan = (i % 6 > 0 ? scan[-1] : 0) + any(1, most * 16 / 100);
    if (times == EQUAL_STRIPS) {
        *scan = any(1, most / 2);
        *desk = any(*scan, 2 * *scan);
    }
    if (times == EQUAL || (times == EQUAL_BUT_ONE && i > 0))
        *desk = *scan = s->scan[0];
    int from = same_strip(times, i);
    *scan = s->scan[from];
    *desk = s->desk[from];
}

/* A full section: 6 strips at each of 3 desks, with times up to `most`. */
static inline struct sorting random_sorting(enum sorting_times times, enum weights weights, u64 most) {
    struct sorting s = {.desks = 3, .counts = {6, 6, 6}};
    for (int i = 0; i < 18; i++) {
        random_strip(&s, times, most, i);
        s.weight[i] = random_weight(weights, s.scan[i] + s.desk[i], 2 * most, (u64)i % 6, 5);
    }
    if (weights == ONE_HEAVY)
        s.weight[any(0, 17)] = MOST_WEIGHT;
    return s;
}

#endif
