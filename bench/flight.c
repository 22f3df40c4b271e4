/* Times the flight planner against plain C that does the same rounds over the same constraints and the same recursion over proper orders:
   8 blocks without an order and 32 blocks with one, with exact delays and with windows, without and with a turn. Where a longest delay is below the turn
   neither searches. Both must give the same answer.
   (cd crates/flight_bench && rt lib) && mkdir -p target && gcc -O2 -Wall -Wextra -Werror -o target/bench_flight bench/flight.c crates/flight_bench/out/libflight_bench.a && target/bench_flight */
#include "flight.h"

struct answer {
    u64 figure, order;
    bool possible;
};

extern struct answer
flight_best(size_t blocks, u64 turn, const u64 first[32], const u64 least[32], const u64 most[32], const u64 second[32], bool ordered, u64 order);

enum { INSTANCES = 31 };

struct instance {
    struct flight flight;
    struct answer ours, plain;
};

static void ours(void *p) {
    struct instance *x = p;
    const struct flight *f = &x->flight;
    x->ours = flight_best(f->blocks, f->turn, f->first, f->least, f->most, f->second, f->ordered, f->order);
}

static void plain(void *p) {
    struct instance *x = p;
    struct flight_plan plan = flight_in_c(&x->flight);
    x->plain = (struct answer){plan.figure, plan.order, plan.possible};
}

static bool equal(struct answer a, struct answer b) {
    return a.possible == b.possible && (!a.possible || (a.figure == b.figure && a.order == b.order));
}

static void measure(const char *name, enum flight_family family, const struct flight_times *limits) {
    struct times t = {0};
    int possible = 0;
    for (int i = 0; i < INSTANCES; i++) {
        struct instance x = {.flight = random_flight(family, limits)};
        add_instance(&t, ours, plain, &x);
        require_equal(equal(x.ours, x.plain), name, i);
        possible += x.ours.possible;
    }
    printf("%-32s %9d %9d ", name, INSTANCES, possible);
    print_times(&t);
    printf("\n");
}

static void measure_all(const char *title, const struct flight_times *limits) {
    printf("%s\n", title);
    measure("8 free, random", FREE_RANDOM, limits);
    measure("8 free, many impossible orders", FREE_MANY_IMPOSSIBLE, limits);
    measure("8 free, all equal", FREE_EQUAL, limits);
    if (limits[FREE_IMPOSSIBLE].turn_high > 0)
        measure("8 free, a delay below the turn", FREE_IMPOSSIBLE, limits);
    measure("32, one block after another", ONE_BY_ONE, limits);
    measure("32, random orders", RANDOM_ORDER, limits);
    measure("32, all first passes first", FIRSTS_FIRST, limits);
    measure("8 free windows, random", FREE_WINDOWS, limits);
    measure("8 free windows, many impossible", FREE_WINDOWS_MANY_IMPOSSIBLE, limits);
    if (limits[FREE_WINDOWS_IMPOSSIBLE].turn_high > 0)
        measure("8 free windows, one below turn", FREE_WINDOWS_IMPOSSIBLE, limits);
    measure("32 windows, one after another", WINDOWS_ONE_BY_ONE, limits);
    measure("32 windows, random orders", WINDOWS_RANDOM_ORDER, limits);
    measure("32 wide windows, random orders", WIDE_WINDOWS, limits);
}

int main(void) {
    printf("%-32s %9s %9s ", "blocks", "instances", "possible");
    print_times_head();
    printf("\n");
    measure_all("short times", short_times);
    measure_all("times up to 60,000", long_times);
    measure_all("short times and turns up to 30", short_turns);
    measure_all("times up to 60,000 and turns up to 600", long_turns);
    return 0;
}
