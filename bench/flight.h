/* The flight planner in plain C: rounds over the constraints of an order, and the recursion over proper orders. */
#ifndef BENCH_FLIGHT_H
#define BENCH_FLIGHT_H

#include "common.h"

/* The delay of a block lies from least to most; an exact one is a window of one value. */
struct flight {
    size_t blocks;
    u64 turn;
    u64 first[32], least[32], most[32], second[32];
    bool ordered;
    u64 order;
};

/* The starts: of the first pass of block i at i, of its second at blocks + i. */
struct flight_plan {
    bool possible;
    u64 figure, order, starts[64];
};

struct constraint {
    size_t from, to;
    u64 up, down;
};

static inline size_t pass_of(size_t n, u64 order, size_t k) {
    u64 low = k < 64 ? order & (((u64)1 << k) - 1) : order;
    size_t seconds = (size_t)__builtin_popcountll(low);
    return (order >> k) % 2 == 1 ? n + seconds : k - seconds;
}

static inline size_t write_constraints(const struct flight *f, u64 order, struct constraint *c) {
    size_t n = f->blocks, m = 0;
    for (size_t i = 0; i < n; i++)
        c[m++] = (struct constraint){i, n + i, f->first[i] + f->least[i], 0};
    for (size_t i = 0; i < n; i++)
        c[m++] = (struct constraint){n + i, i, 0, f->first[i] + f->most[i]};
    for (size_t j = 0; j + 1 < 2 * n; j++) {
        size_t p = pass_of(n, order, j), q = pass_of(n, order, j + 1);
        c[m++] = (struct constraint){p, q, (p < n ? f->first[p] : f->second[p - n]) + f->turn, 0};
    }
    return m;
}

/* The least starts of an order, or false where no timetable keeps it. */
static inline bool least_starts(const struct flight *f, u64 order, u64 *starts) {
    struct constraint c[127];
    size_t n = f->blocks, m = write_constraints(f, order, c);
    for (size_t j = 0; j < 2 * n; j++)
        starts[j] = 0;
    for (size_t r = 0; r < 2 * n; r++) {
        bool held = true;
        for (size_t k = 0; k < m; k++) {
            u64 wanted = starts[c[k].from] + c[k].up;
            if (starts[c[k].to] + c[k].down < wanted) {
                starts[c[k].to] = wanted - c[k].down;
                held = false;
            }
        }
        if (held)
            return true;
    }
    return false;
}

/* Tries the orders that begin with x and have `left` passes more. The first of the best is kept. */
static inline void search_orders(const struct flight *f, size_t left, u64 x, u64 *starts, struct flight_plan *best) {
    size_t n = f->blocks;
    if (left == 0) {
        if (least_starts(f, x, starts)) {
            u64 figure = starts[2 * n - 1] + f->second[n - 1];
            if (!best->possible || figure < best->figure) {
                best->possible = true;
                best->figure = figure;
                best->order = x;
            }
        }
        return;
    }
    size_t at = 2 * n - left, seconds = (size_t)__builtin_popcountll(x), firsts = at - seconds;
    if (firsts < n)
        search_orders(f, left - 1, x, starts, best);
    if (seconds < firsts)
        search_orders(f, left - 1, x | (u64)1 << at, starts, best);
}

/* Whether every longest delay is at least the turn. */
static inline bool delays_fit(const struct flight *f) {
    for (size_t i = 0; i < f->blocks; i++)
        if (f->most[i] < f->turn)
            return false;
    return true;
}

/* The plan of at least one block. Where a longest delay is below the turn no order is possible, and none is searched for. */
static inline struct flight_plan flight_in_c(const struct flight *f) {
    struct flight_plan plan = {.order = f->order};
    size_t n = f->blocks;
    if (!f->ordered && !delays_fit(f))
        return plan;
    if (!f->ordered)
        search_orders(f, 2 * n, 0, plan.starts, &plan);
    plan.possible = least_starts(f, plan.order, plan.starts);
    plan.figure = plan.starts[2 * n - 1] + f->second[n - 1];
    return plan;
}

static inline u64 random_order(size_t n) {
    u64 x = 0;
    size_t firsts = 0, seconds = 0;
    for (size_t k = 0; k < 2 * n; k++) {
        if (seconds < firsts && (firsts == n || any(0, 1))) {
            x |= (u64)1 << k;
            seconds++;
        } else {
            firsts++;
        }
    }
    return x;
}

/* 8 blocks without an order: random, such that many orders are impossible, all equal, and one delay below the turn, so that every order is impossible. 32 with
   one: each block by itself, random orders (most of them impossible), all first passes first. With windows the same but for equal blocks and all first
   passes first; and windows up to the greatest delay, so that random orders are possible. */
enum flight_family {
    FREE_RANDOM, FREE_MANY_IMPOSSIBLE, FREE_EQUAL, FREE_IMPOSSIBLE, FREE_WINDOWS, FREE_WINDOWS_MANY_IMPOSSIBLE, FREE_WINDOWS_IMPOSSIBLE,
    ONE_BY_ONE, RANDOM_ORDER, FIRSTS_FIRST, WINDOWS_ONE_BY_ONE, WINDOWS_RANDOM_ORDER, WIDE_WINDOWS
};

/* The limits of a family: passes, delays and the turn. Both ends of a window lie within the limits of the delays, of a wide one the shortest delay. */
struct flight_times {
    u64 pass_low, pass_high, delay_low, delay_high, turn_low, turn_high;
};

/* Of each family without a turn, with short times and with times up to the greatest. FREE_IMPOSSIBLE and FREE_WINDOWS_IMPOSSIBLE have none. */
static const struct flight_times short_times[] = {
    [FREE_RANDOM] = {1, 100, 0, 300, 0, 0},
    [FREE_MANY_IMPOSSIBLE] = {50, 100, 0, 60, 0, 0},
    [FREE_EQUAL] = {5, 5, 20, 20, 0, 0},
    [FREE_WINDOWS] = {1, 100, 0, 300, 0, 0},
    [FREE_WINDOWS_MANY_IMPOSSIBLE] = {50, 100, 0, 60, 0, 0},
    [ONE_BY_ONE] = {1, 100, 0, 10000, 0, 0},
    [RANDOM_ORDER] = {1, 100, 0, 300, 0, 0},
    [FIRSTS_FIRST] = {10, 10, 320, 320, 0, 0},
    [WINDOWS_ONE_BY_ONE] = {1, 100, 0, 10000, 0, 0},
    [WINDOWS_RANDOM_ORDER] = {1, 100, 0, 300, 0, 0},
    [WIDE_WINDOWS] = {1, 100, 0, 300, 0, 0},
};
static const struct flight_times long_times[] = {
    [FREE_RANDOM] = {1, MOST_TIME / 3, 0, MOST_TIME, 0, 0},
    [FREE_MANY_IMPOSSIBLE] = {MOST_TIME / 2, MOST_TIME, 0, MOST_TIME / 5 * 3, 0, 0},
    [FREE_EQUAL] = {MOST_TIME / 4, MOST_TIME / 4, MOST_TIME, MOST_TIME, 0, 0},
    [FREE_WINDOWS] = {1, MOST_TIME / 3, 0, MOST_TIME, 0, 0},
    [FREE_WINDOWS_MANY_IMPOSSIBLE] = {MOST_TIME / 2, MOST_TIME, 0, MOST_TIME / 5 * 3, 0, 0},
    [ONE_BY_ONE] = {1, MOST_TIME, 0, MOST_TIME, 0, 0},
    [RANDOM_ORDER] = {1, MOST_TIME / 3, 0, MOST_TIME, 0, 0},
    [FIRSTS_FIRST] = {MOST_TIME / 32, MOST_TIME / 32, MOST_TIME, MOST_TIME, 0, 0},
    [WINDOWS_ONE_BY_ONE] = {1, MOST_TIME, 0, MOST_TIME, 0, 0},
    [WINDOWS_RANDOM_ORDER] = {1, MOST_TIME / 3, 0, MOST_TIME, 0, 0},
    [WIDE_WINDOWS] = {1, MOST_TIME / 64, 0, MOST_TIME / 2, 0, 0},
};

/* The same with a turn, which no longest delay is below but one of FREE_IMPOSSIBLE and of FREE_WINDOWS_IMPOSSIBLE. Where all first passes go first, a delay
   takes in 31 passes and 32 turns. */
static const struct flight_times short_turns[] = {
    [FREE_RANDOM] = {1, 100, 30, 300, 1, 30},
    [FREE_MANY_IMPOSSIBLE] = {50, 100, 30, 90, 1, 30},
    [FREE_EQUAL] = {5, 5, 30, 30, 5, 5},
    [FREE_IMPOSSIBLE] = {1, 100, 30, 300, 1, 30},
    [FREE_WINDOWS] = {1, 100, 30, 300, 1, 30},
    [FREE_WINDOWS_MANY_IMPOSSIBLE] = {50, 100, 30, 90, 1, 30},
    [FREE_WINDOWS_IMPOSSIBLE] = {1, 100, 30, 300, 1, 30},
    [ONE_BY_ONE] = {1, 100, 30, 10000, 1, 30},
    [RANDOM_ORDER] = {1, 100, 30, 300, 1, 30},
    [FIRSTS_FIRST] = {10, 10, 470, 470, 5, 5},
    [WINDOWS_ONE_BY_ONE] = {1, 100, 30, 10000, 1, 30},
    [WINDOWS_RANDOM_ORDER] = {1, 100, 30, 300, 1, 30},
    [WIDE_WINDOWS] = {1, 100, 0, 300, 1, 30},
};
static const struct flight_times long_turns[] = {
    [FREE_RANDOM] = {1, MOST_TIME / 3, MOST_TURN, MOST_TIME, 1, MOST_TURN},
    [FREE_MANY_IMPOSSIBLE] = {MOST_TIME / 2, MOST_TIME, MOST_TURN, MOST_TIME / 5 * 3, 1, MOST_TURN},
    [FREE_EQUAL] = {MOST_TIME / 5, MOST_TIME / 5, MOST_TIME, MOST_TIME, MOST_TURN, MOST_TURN},
    [FREE_IMPOSSIBLE] = {1, MOST_TIME / 3, MOST_TURN, MOST_TIME, 1, MOST_TURN},
    [FREE_WINDOWS] = {1, MOST_TIME / 3, MOST_TURN, MOST_TIME, 1, MOST_TURN},
    [FREE_WINDOWS_MANY_IMPOSSIBLE] = {MOST_TIME / 2, MOST_TIME, MOST_TURN, MOST_TIME / 5 * 3, 1, MOST_TURN},
    [FREE_WINDOWS_IMPOSSIBLE] = {1, MOST_TIME / 3, MOST_TURN, MOST_TIME, 1, MOST_TURN},
    [ONE_BY_ONE] = {1, MOST_TIME, MOST_TURN, MOST_TIME, 1, MOST_TURN - 1},
    [RANDOM_ORDER] = {1, MOST_TIME / 3, MOST_TURN, MOST_TIME, 1, MOST_TURN},
    [FIRSTS_FIRST] = {1300, 1300, MOST_TIME, MOST_TIME, MOST_TURN, MOST_TURN},
    [WINDOWS_ONE_BY_ONE] = {1, MOST_TIME, MOST_TURN, MOST_TIME, 1, MOST_TURN},
    [WINDOWS_RANDOM_ORDER] = {1, MOST_TIME / 3, MOST_TURN, MOST_TIME, 1, MOST_TURN},
    [WIDE_WINDOWS] = {1, MOST_TIME / 200, 0, MOST_TIME / 3, 1, MOST_TURN},
};

static inline bool has_windows(enum flight_family family) {
    return (FREE_WINDOWS <= family && family <= FREE_WINDOWS_IMPOSSIBLE) || WINDOWS_ONE_BY_ONE <= family;
}

static inline bool is_impossible(enum flight_family family) {
    return family == FREE_IMPOSSIBLE || family == FREE_WINDOWS_IMPOSSIBLE;
}

static inline u64 longest_delay(enum flight_family family, u64 shortest, u64 high) {
    if (family == WIDE_WINDOWS)
        return MOST_TIME;
    return has_windows(family) ? any(shortest, high) : shortest;
}

/* The order of a family that has one. */
static inline u64 order_of(enum flight_family family, size_t blocks) {
    switch (family) {
    case ONE_BY_ONE: case WINDOWS_ONE_BY_ONE: return 0xAAAAAAAAAAAAAAAAu;
    case RANDOM_ORDER: case WINDOWS_RANDOM_ORDER: case WIDE_WINDOWS: return random_order(blocks);
    case FIRSTS_FIRST: return 0xFFFFFFFF00000000u;
    default: return 0;
    }
}

static inline struct flight random_flight(enum flight_family family, const struct flight_times *limits) {
    const struct flight_times *t = &limits[family];
    struct flight f = {.ordered = family >= ONE_BY_ONE};
    f.blocks = f.ordered ? 32 : 8;
    for (size_t i = 0; i < f.blocks; i++) {
        f.first[i] = any(t->pass_low, t->pass_high);
        f.second[i] = any(t->pass_low, t->pass_high);
        f.least[i] = any(t->delay_low, t->delay_high);
        f.most[i] = longest_delay(family, f.least[i], t->delay_high);
    }
    if (t->turn_high > 0)
        f.turn = any(t->turn_low, t->turn_high);
    if (is_impossible(family)) {
        size_t i = any(0, f.blocks - 1);
        f.most[i] = f.turn - 1;
        f.least[i] = has_windows(family) ? 0 : f.most[i];
    }
    f.order = order_of(family, f.blocks);
    return f;
}

#endif
