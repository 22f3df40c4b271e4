/* The model's mosaic: forward from strip to strip, every beginning of a batching that no other beginning of the same strips beats. */
#include "plans.h"

/* A beginning of a batching: when it leaves the bench free, its figure, and the beginning that its last batch follows. */
struct beginning {
    u64 free, figure;
    size_t strips_before, index_before;
};

/* A beginning's free time is fixed by the last batch whose bench work waited for a strip, one of 820 runs or none, and by the number of mounts behind it. */
enum { MOST_BEGINNINGS = 821 * 40 };

struct beginnings {
    size_t count;
    struct beginning item[MOST_BEGINNINGS];
};

/* The beginnings that end behind each strip. */
static struct beginnings behind[MOST_STRIPS + 1];

static bool no_worse(const struct beginning *a, const struct beginning *b) {
    return a->free <= b->free && a->figure <= b->figure;
}

static bool beaten(const struct beginnings *l, const struct beginning *b) {
    for (size_t k = 0; k < l->count; k++)
        if (no_worse(&l->item[k], b))
            return true;
    return false;
}

/* Adds a beginning that no other beats, and drops those that it beats. */
static void add_beginning(struct beginnings *l, struct beginning b) {
    size_t kept = 0;
    if (beaten(l, &b))
        return;
    for (size_t k = 0; k < l->count; k++)
        if (!no_worse(&b, &l->item[k]))
            l->item[kept++] = l->item[k];
    l->item[kept] = b;
    l->count = kept + 1;
}

/* When a batch of strips i + 1 to q finishes, its mount starting at `start`. */
static u64 finish_of(const struct mosaic *m, const u64 *ready, u64 start, size_t i, size_t q) {
    u64 mounted = start + m->mount, last_ready = ready[q - 1];
    return later(mounted, last_ready) + bench_times(m, i, q);
}

/* Adds to a beginning of i strips every batch that can follow: strips i + 1 to q. */
static void extend(const struct mosaic *m, const u64 *ready, size_t i, size_t index) {
    const struct beginning from = behind[i].item[index];
    for (size_t q = i + 1; q <= m->strips; q++) {
        u64 finish = finish_of(m, ready, from.free, i, q);
        add_beginning(&behind[q], (struct beginning){finish, from.figure + weights(m, i, q) * finish, i, index});
    }
}

static size_t cheapest(const struct beginnings *l) {
    size_t best = 0;
    for (size_t k = 1; k < l->count; k++)
        if (l->item[k].figure < l->item[best].figure)
            best = k;
    return best;
}

/* Stores the last strips of the batches that lead to a beginning of q strips. Returns their number. */
static size_t trace(size_t q, size_t index, size_t *last) {
    if (q == 0)
        return 0;
    size_t batches = trace(behind[q].item[index].strips_before, behind[q].item[index].index_before, last);
    last[batches] = q;
    return batches + 1;
}

static void clear_behind(size_t strips) {
    for (size_t q = 0; q <= strips; q++)
        behind[q].count = 0;
}

/* Strip by strip: once all beginnings of i strips are found, each is extended. */
static void fill_behind(const struct mosaic *m, const u64 *ready) {
    clear_behind(m->strips);
    add_beginning(&behind[0], (struct beginning){0, 0, 0, 0});
    for (size_t i = 0; i < m->strips; i++)
        for (size_t k = 0; k < behind[i].count; k++)
            extend(m, ready, i, k);
}

struct mosaic_plan plan_mosaic(const struct mosaic *m) {
    u64 ready[MOST_STRIPS], free = 0;
    struct mosaic_plan plan = {0};
    ready_times(m, ready);
    fill_behind(m, ready);
    plan.batches = trace(m->strips, cheapest(&behind[m->strips]), plan.last);
    for (size_t k = 0, i = 0; k < plan.batches; i = plan.last[k++]) {
        plan.start[k] = free;
        plan.finish[k] = free = finish_of(m, ready, free, i, plan.last[k]);
        plan.figure += weights(m, i, plan.last[k]) * free;
    }
    return plan;
}
