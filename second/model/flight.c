/* The model's flight: for one order, passes that start too early are moved until none does; without a given order, every proper order is tried. */
#include "plans.h"

/* The starts of the passes: of the blocks' first ones, then of their second ones. */
struct starts {
    u64 of[2][MOST_BLOCKS];
};

/* A pass of the order: its block and whether it is the second. */
struct pass {
    size_t block;
    bool second;
};

static void passes_of(const struct flight *f, u64 order, struct pass *passes) {
    size_t taken[2] = {0};
    for (size_t k = 0; k < 2 * f->blocks; k++) {
        bool second = order >> k & 1;
        passes[k] = (struct pass){taken[second]++, second};
    }
}

/* Moves each pass that starts less than a turn after the pass before it has ended. Tells whether one was moved. */
static bool move_in_order(const struct flight *f, const struct pass *passes, struct starts *s) {
    bool moved = false;
    u64 free = 0;
    for (size_t k = 0; k < 2 * f->blocks; k++) {
        u64 *start = &s->of[passes[k].second][passes[k].block];
        if (*start < free) {
            *start = free;
            moved = true;
        }
        free = *start + (passes[k].second ? f->second : f->first)[passes[k].block] + f->turn;
    }
    return moved;
}

/* Moves the second pass of each block to its shortest delay behind its first, and the first to its longest delay before its second. Tells whether one was
 * moved. */
static bool move_in_blocks(const struct flight *f, struct starts *s) {
    bool moved = false;
    for (size_t i = 0; i < f->blocks; i++) {
        u64 *first = &s->of[0][i], *second = &s->of[1][i];
        u64 least = f->first[i] + f->shortest[i], most = f->first[i] + f->longest[i];
        if (*second < *first + least) {
            *second = *first + least;
            moved = true;
        }
        if (*first + most < *second) {
            *first = *second - most;
            moved = true;
        }
    }
    return moved;
}

/* The least starts of an order, or false. What still moves after one round a pass and one more would move for ever. */
static bool least_starts(const struct flight *f, u64 order, struct starts *s) {
    struct pass passes[2 * MOST_BLOCKS];
    passes_of(f, order, passes);
    *s = (struct starts){0};
    for (size_t round = 0; round <= 2 * f->blocks; round++) {
        bool moved = move_in_order(f, passes, s);
        if (!move_in_blocks(f, s) && !moved)
            return true;
    }
    return false;
}

/* Takes the order where it is possible and ends sooner than the best so far. The last pass is the last block's second. */
static void try_order(const struct flight *f, u64 order, struct flight_plan *best) {
    struct starts s;
    if (!least_starts(f, order, &s))
        return;
    u64 end = s.of[1][f->blocks - 1] + f->second[f->blocks - 1];
    if (best->possible && best->figure <= end)
        return;
    *best = (struct flight_plan){.possible = true, .figure = end, .order = order};
    for (size_t i = 0; i < f->blocks; i++) {
        best->first[i] = s.of[0][i];
        best->second[i] = s.of[1][i];
    }
}

/* Tries every proper order that begins with these passes. */
static void try_orders(const struct flight *f, size_t firsts, size_t seconds, u64 order, struct flight_plan *best) {
    if (seconds == f->blocks)
        try_order(f, order, best);
    if (firsts < f->blocks)
        try_orders(f, firsts + 1, seconds, order, best);
    if (seconds < firsts)
        try_orders(f, firsts, seconds + 1, order | (u64)1 << (firsts + seconds), best);
}

struct flight_plan plan_flight(const struct flight *f) {
    struct flight_plan plan = {0};
    if (f->ordered)
        try_order(f, f->order, &plan);
    else
        try_orders(f, 0, 0, 0, &plan);
    return plan;
}
