/* Times the mosaic planner against plain C with the same tables, at 10, 20 and 40 strips, without and with weights. Both must give the same figure.
   (cd crates/mosaic_bench && rt lib) && mkdir -p target && gcc -O2 -Wall -Wextra -Werror -o target/bench_mosaic bench/mosaic.c crates/mosaic_bench/out/libmosaic_bench.a && target/bench_mosaic */
#include "mosaic.h"

extern u64 mosaic_best(size_t stations, u64 mount, size_t strips, const u64 station[160], const u64 bench[40], const u64 weight[40]);

enum { INSTANCES = 60 };

/* What a family has otherwise than random times: long mounts beside short times, or strips that are ready when their mounts are done, each alone. */
enum change { NONE, LONG_MOUNTS, JUST_READY };

struct family {
    const char *name;
    u64 most;
    enum change change;
    enum weights weights;
};

static const struct family families[] = {
    {"to 60,000", MOST_TIME, NONE, UNWEIGHTED},
    {"to 10,000", 10000, NONE, UNWEIGHTED},
    {"to 10", 10, NONE, UNWEIGHTED},
    {"long mounts", 1000, LONG_MOUNTS, UNWEIGHTED},
    {"just ready", MOST_TIME / 2, JUST_READY, UNWEIGHTED},
    {"random weights", MOST_TIME, NONE, RANDOM_WEIGHTS},
    {"one weight of 100", MOST_TIME, NONE, ONE_HEAVY},
    {"long strips heavy", MOST_TIME, NONE, LONG_HEAVY},
    {"last strips heavy", MOST_TIME, NONE, LAST_HEAVY},
    {"random weights, long mounts", 1000, LONG_MOUNTS, RANDOM_WEIGHTS},
    {"random weights, just ready", MOST_TIME / 2, JUST_READY, RANDOM_WEIGHTS},
};

struct instance {
    struct mosaic mosaic;
    u64 ours, plain;
};

static void ours(void *p) {
    struct instance *x = p;
    const struct mosaic *m = &x->mosaic;
    x->ours = mosaic_best(m->stations, m->mount, m->strips, m->station, m->bench, m->weight);
}

static void plain(void *p) {
    struct instance *x = p;
    x->plain = mosaic_in_c(&x->mosaic).figure;
}

static struct mosaic make_mosaic(const struct family *f, size_t stations, size_t strips) {
    struct mosaic m = random_mosaic(stations, strips, 0, f->most, f->weights);
    if (f->change == LONG_MOUNTS)
        m.mount = any(MOST_TIME / 2, MOST_TIME);
    if (f->change == JUST_READY)
        for (size_t i = 0; i < 4 * strips; i++)
            m.station[i] = m.mount + (i < 4 ? 0 : m.bench[i / 4 - 1]);
    return m;
}

/* One line of the table. Returns the planner's median time. */
static double measure(const struct family *f, size_t strips) {
    struct times t = {0};
    for (int i = 0; i < INSTANCES; i++) {
        struct instance x = {.mosaic = make_mosaic(f, 1 + (size_t)i % 4, strips)};
        add_instance(&t, ours, plain, &x);
        require_equal(x.ours == x.plain, f->name, i);
    }
    printf("%-28s %6zu %9d ", f->name, strips, INSTANCES);
    print_times(&t);
    printf("\n");
    return median(t.ours, t.count);
}

static void measure_all(const struct family *f) {
    double ten = measure(f, 10), twenty = measure(f, 20), forty = measure(f, 40);
    printf("%-28s growth of the planner's time: from 10 to 20 strips %.1f, from 20 to 40 %.1f\n", f->name, twenty / ten, forty / twenty);
}

int main(void) {
    printf("%-28s %6s %9s ", "times", "strips", "instances");
    print_times_head();
    printf("\n");
    for (size_t i = 0; i < sizeof families / sizeof families[0]; i++)
        measure_all(&families[i]);
    return 0;
}
