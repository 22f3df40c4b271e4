/* Times the search of the sorting planner against plain C: the same search with the same cuts, and plain enumeration of all interleavings.
   Full sections of 6 + 6 + 6 strips, in families, without and with weights; all three must give the same figure and the same list.
   (cd crates/sorting_bench && rt lib) && mkdir -p target && gcc -O2 -Wall -Wextra -Werror -o target/bench_sorting bench/sorting.c crates/sorting_bench/out/libsorting_bench.a && target/bench_sorting
   Arguments: instances to a family, at most 100; the greatest time, 60,000 where none is given. */
#include "sorting.h"

extern struct incumbent sorting_best(const u64 *jobs, size_t jobs_length, u64 *table, size_t table_length);

struct instance {
    u64 jobs[JOBS], table[TABLE];
    struct incumbent ours;
    struct search plain, all;
};

static void ours(void *p) {
    struct instance *x = p;
    x->ours = sorting_best(x->jobs, JOBS, x->table, TABLE);
}

static void plain(void *p) {
    struct instance *x = p;
    x->plain = search_in_c(x->jobs, x->table);
}

static void enumeration(void *p) {
    struct instance *x = p;
    x->all = enumerate_in_c(x->jobs);
}

static bool equal(struct incumbent a, struct incumbent b) {
    return a.figure == b.figure && a.path == b.path;
}

static void measure(const struct sorting_family *family, u64 most, int count) {
    static struct instance x;
    struct times t = {0};
    double nodes[MOST_INSTANCES], part[MOST_INSTANCES];
    for (int i = 0; i < count; i++) {
        struct sorting s = random_sorting(family->times, family->weights, most);
        jobs_of(&s, x.jobs);
        add_instance(&t, ours, plain, &x);
        part[i] = t.ours[i] / time_of(enumeration, &x, 1);
        nodes[i] = (double)x.plain.nodes;
        require_equal(equal(x.ours, x.plain.best) && equal(x.ours, x.all.best), family->name, i);
    }
    double most_nodes = greatest(nodes, count), most_part = greatest(part, count);
    printf("%-36s %9d ", family->name, count);
    print_times(&t);
    printf(" | %9.0f %9.0f %11.0f | %8.5f %8.5f\n", median(nodes, count), most_nodes, (double)x.all.nodes, median(part, count), most_part);
    fflush(stdout);
}

int main(int argc, char **argv) {
    int count = argc > 1 ? atoi(argv[1]) : 5;
    count = count < 1 ? 1 : count > MOST_INSTANCES ? MOST_INSTANCES : count;
    int most = argc > 2 ? atoi(argv[2]) : MOST_TIME;
    most = most < 10 ? 10 : most > MOST_TIME ? MOST_TIME : most;
    printf("times up to %d\n", most);
    printf("ratio: to C with the same cuts. C nodes: of that C, in the median and at most; all nodes: of plain enumeration in C. part: of the time of plain enumeration, in the median and at most.\n");
    printf("%-36s %9s ", "family (6 + 6 + 6)", "instances");
    print_times_head();
    printf(" | %9s %9s %11s | %8s %8s\n", "C nodes", "greatest", "all nodes", "part", "greatest");
    for (size_t i = 0; i < sizeof sorting_families / sizeof sorting_families[0]; i++)
        measure(&sorting_families[i], (u64)most, count);
    return 0;
}
