/* The model's sorting: every interleaving, strip after strip, from a list that is known. A beginning is left where no list with it is better than the best so
   far: of a smaller figure, or of the same figure and with the lower desk at the first place where the two part. */
#include "plans.h"

/* A strip in scanner order: its desk and its number within the desk, both from 0. */
struct strip {
    uint8_t desk, number;
};

/* A beginning of a scanner list: the scanner's and the desks' times, what is taken of each desk, and the figure. */
struct state {
    u64 time, figure, free[MOST_DESKS];
    size_t placed, taken[MOST_DESKS];
    struct strip list[MOST_JOBS];
};

/* The beginning with the next strip of desk d behind it. */
static struct state scanned(const struct sorting *s, struct state x, size_t d) {
    size_t k = x.taken[d]++;
    x.time += s->scan[d][k];
    x.free[d] = later(x.free[d], x.time) + s->desk[d][k];
    x.figure += s->weight[d][k] * x.free[d];
    x.list[x.placed++] = (struct strip){(uint8_t)d, (uint8_t)k};
    return x;
}

/* What the rest of desk d adds at least: as if the scanner had no other strips left. */
static u64 least_rest(const struct sorting *s, const struct state *x, size_t d) {
    u64 time = x->time, free = x->free[d], sum = 0;
    for (size_t k = x->taken[d]; k < s->counts[d]; k++) {
        time += s->scan[d][k];
        free = later(free, time) + s->desk[d][k];
        sum += s->weight[d][k] * free;
    }
    return sum;
}

/* Scans of one desk that stand together: the desk, their number, their time and the weight of their strips. */
struct run {
    size_t desk, strips;
    u64 time, weight;
};

/* Whether of two runs the first should stand first where only the scanner counts: it has the shorter time for its weight. */
static bool stands_first(struct run a, struct run b) {
    return a.time * b.weight < b.time * a.weight;
}

/* Of the runs that begin with strip k of desk d, the one that should stand first. */
static struct run first_run(const struct sorting *s, size_t d, size_t k) {
    struct run first = {d, 1, s->scan[d][k], s->weight[d][k]}, longer = first;
    for (size_t j = k + 1; j < s->counts[d]; j++) {
        longer = (struct run){d, longer.strips + 1, longer.time + s->scan[d][j], longer.weight + s->weight[d][j]};
        if (stands_first(longer, first))
            first = longer;
    }
    return first;
}

/* What the rest of all desks adds at least: as if the desks were free. Then, run after run, the one that should stand first is best. */
static u64 least_scans(const struct sorting *s, struct state x) {
    u64 scanner = x.time, sum = 0;
    while (x.placed < s->strips) {
        struct run first = {0};
        for (size_t d = 0; d < s->desks; d++) {
            if (x.taken[d] == s->counts[d])
                continue;
            struct run own = first_run(s, d, x.taken[d]);
            if (first.strips == 0 || stands_first(own, first))
                first = own;
        }
        for (x.placed += first.strips; first.strips > 0; first.strips--) {
            size_t d = first.desk, k = x.taken[d]++;
            scanner += s->scan[d][k];
            sum += s->weight[d][k] * (scanner + s->desk[d][k]);
        }
    }
    return sum;
}

static u64 least_figure(const struct sorting *s, const struct state *x) {
    return x->figure + later(least_rest(s, x, 0) + least_rest(s, x, 1) + least_rest(s, x, 2), least_scans(s, *x));
}

/* Whether a list that begins with x can be better than the best so far, or is the same. */
static bool may_be_better(const struct sorting *s, const struct state *x, const struct state *best) {
    u64 figure = least_figure(s, x);
    if (figure != best->figure)
        return figure < best->figure;
    for (size_t i = 0; i < x->placed; i++)
        if (x->list[i].desk != best->list[i].desk)
            return x->list[i].desk < best->list[i].desk;
    return true;
}

static void search(const struct sorting *s, const struct state *x, struct state *best) {
    if (!may_be_better(s, x, best))
        return;
    if (x->placed == s->strips)
        *best = *x;
    for (size_t d = 0; d < s->desks; d++) {
        if (x->taken[d] == s->counts[d])
            continue;
        struct state next = scanned(s, *x, d);
        search(s, &next, best);
    }
}

/* A good list to start from: at each place the desk behind which the figure is the least that can be seen, of several the highest. */
static struct state known_list(const struct sorting *s) {
    struct state x = {0};
    while (x.placed < s->strips) {
        struct state best = {0};
        for (size_t d = 0; d < s->desks; d++) {
            if (x.taken[d] == s->counts[d])
                continue;
            struct state next = scanned(s, x, d);
            if (best.placed == 0 || least_figure(s, &next) <= least_figure(s, &best))
                best = next;
        }
        x = best;
    }
    return x;
}

struct sorting_plan plan_sorting(const struct sorting *s) {
    struct state x = {0}, best = known_list(s);
    search(s, &x, &best);
    struct sorting_plan plan = {.figure = best.figure, .strips = s->strips};
    for (size_t i = 0; i < s->strips; i++) {
        size_t d = best.list[i].desk, k = best.list[i].number;
        plan.scan[i] = x.time;
        x = scanned(s, x, d);
        plan.desk[i] = d + 1;
        plan.number[i] = k + 1;
        plan.start[i] = x.free[d] - s->desk[d][k];
    }
    return plan;
}
