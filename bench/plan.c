/* Times the whole call, sevulamon_plan, against plain C that does the same work on the same bytes: full sheets (40 strips, 6 + 6 + 6 strips, 8 free
   blocks or 32 with an order, with exact delays and with windows, without and with a turn, without and with weights), a small sheet, and sheets that are
   refused. Both must give the same answer and leave the same bytes in the buffer.
   (cd crates/viewer_c && rt lib) && mkdir -p target && gcc -O2 -Wall -Wextra -Werror -Iinclude -o target/bench_plan bench/plan.c crates/viewer_c/out/libviewer_c.a && target/bench_plan */
#include "plan.h"
#include "sheet_writer.h"
#include <string.h>

enum { SHEETS = 21 };

/* Bytes of whole fields of a flight, its head without a turn. */
enum { HEAD_FIELD = 3, BLOCK_FIELD = 9, WINDOW_FIELD = 11, ORDER_FIELD = 11 };

/* The targets of an accepted full sheet: its time by that of the C, and by that of plain enumeration of its sorting section alone. */
static const double target_ratio = 2.0, target_part = 0.05;

/* How a full sheet with an order is spoiled, if it is. */
enum change { NONE, ONE_MEMBER_EACH, EMPTY, CUT, LAST_DESK, LAST_WEIGHT, FIRST_TIME, TURN, LAST_TIME, LAST_WINDOW, NOT_PROPER, NO_ORDER, SMALL_BUFFER };

struct family {
    const char *name;
    u64 number;
    enum change change;
    u64 mosaic_low, mosaic_high;
    enum sorting_times sorting;
    enum weights weights;
    enum flight_family flight;
    const struct flight_times *flight_times;
};

static const struct family families[] = {
    {"random, 8 free blocks", 0, NONE, 0, MOST_TIME, RANDOM, UNWEIGHTED, FREE_RANDOM, long_times},
    {"random, 32 blocks in order", 0, NONE, 0, MOST_TIME, RANDOM, UNWEIGHTED, ONE_BY_ONE, long_times},
    {"random small times", 0, NONE, 0, 10, RANDOM_SMALL, UNWEIGHTED, FREE_RANDOM, short_times},
    {"all times equal", 0, NONE, MOST_TIME, MOST_TIME, EQUAL, UNWEIGHTED, FREE_EQUAL, long_times},
    {"scan-heavy", 0, NONE, 0, MOST_TIME, SCAN_HEAVY, UNWEIGHTED, FREE_RANDOM, long_times},
    {"desk-heavy", 0, NONE, 0, MOST_TIME, DESK_HEAVY, UNWEIGHTED, FREE_RANDOM, long_times},
    {"three identical desks", 0, NONE, 0, MOST_TIME, IDENTICAL_DESKS, UNWEIGHTED, FREE_RANDOM, long_times},
    {"equal strips at all desks", 0, NONE, 0, MOST_TIME, EQUAL_STRIPS, UNWEIGHTED, FREE_RANDOM, long_times},
    {"many impossible free orders", 0, NONE, 0, MOST_TIME, RANDOM, UNWEIGHTED, FREE_MANY_IMPOSSIBLE, long_times},
    {"32 blocks, first passes first", 0, NONE, 0, MOST_TIME, RANDOM, UNWEIGHTED, FIRSTS_FIRST, long_times},
    {"turns, 8 free blocks", 0, NONE, 0, MOST_TIME, RANDOM, UNWEIGHTED, FREE_RANDOM, long_turns},
    {"turns, small times", 0, NONE, 0, 10, RANDOM_SMALL, UNWEIGHTED, FREE_RANDOM, short_turns},
    {"turns, many impossible orders", 0, NONE, 0, MOST_TIME, RANDOM, UNWEIGHTED, FREE_MANY_IMPOSSIBLE, long_turns},
    {"turns, 32 blocks in order", 0, NONE, 0, MOST_TIME, RANDOM, UNWEIGHTED, ONE_BY_ONE, long_turns},
    {"turns, first passes first", 0, NONE, 0, MOST_TIME, RANDOM, UNWEIGHTED, FIRSTS_FIRST, long_turns},
    {"windows, 8 free blocks", 0, NONE, 0, MOST_TIME, RANDOM, UNWEIGHTED, FREE_WINDOWS, long_times},
    {"windows, small times", 0, NONE, 0, 10, RANDOM_SMALL, UNWEIGHTED, FREE_WINDOWS, short_times},
    {"windows, many impossible orders", 0, NONE, 0, MOST_TIME, RANDOM, UNWEIGHTED, FREE_WINDOWS_MANY_IMPOSSIBLE, long_times},
    {"windows, 32 blocks in order", 0, NONE, 0, MOST_TIME, RANDOM, UNWEIGHTED, WINDOWS_ONE_BY_ONE, long_times},
    {"windows and turns, 8 free blocks", 0, NONE, 0, MOST_TIME, RANDOM, UNWEIGHTED, FREE_WINDOWS, long_turns},
    {"windows and turns, 32 in order", 0, NONE, 0, MOST_TIME, RANDOM, UNWEIGHTED, WINDOWS_ONE_BY_ONE, long_turns},
    {"wide windows, random orders", 0, NONE, 0, MOST_TIME, RANDOM, UNWEIGHTED, WIDE_WINDOWS, long_times},
    {"wide windows and turns", 0, NONE, 0, MOST_TIME, RANDOM, UNWEIGHTED, WIDE_WINDOWS, long_turns},
    {"random weights, 8 free blocks", 0, NONE, 0, MOST_TIME, RANDOM, RANDOM_WEIGHTS, FREE_RANDOM, long_times},
    {"random weights, 32 in order", 0, NONE, 0, MOST_TIME, RANDOM, RANDOM_WEIGHTS, ONE_BY_ONE, long_times},
    {"random weights, small times", 0, NONE, 0, 10, RANDOM_SMALL, RANDOM_WEIGHTS, FREE_RANDOM, short_times},
    {"one weight of 100", 0, NONE, 0, MOST_TIME, RANDOM, ONE_HEAVY, FREE_RANDOM, long_times},
    {"weights 1 or 100", 0, NONE, 0, MOST_TIME, RANDOM, EXTREME_WEIGHTS, FREE_RANDOM, long_times},
    {"long strips heavy", 0, NONE, 0, MOST_TIME, RANDOM, LONG_HEAVY, FREE_RANDOM, long_times},
    {"short strips heavy", 0, NONE, 0, MOST_TIME, RANDOM, SHORT_HEAVY, FREE_RANDOM, long_times},
    {"last strips heavy", 0, NONE, 0, MOST_TIME, RANDOM, LAST_HEAVY, FREE_RANDOM, long_times},
    {"identical desks, random weights", 0, NONE, 0, MOST_TIME, IDENTICAL_DESKS, RANDOM_WEIGHTS, FREE_RANDOM, long_times},
    {"equal strips, last ones heavy", 0, NONE, 0, MOST_TIME, EQUAL_STRIPS, LAST_HEAVY, FREE_RANDOM, long_times},
    {"one member in each section", 0, ONE_MEMBER_EACH, 0, MOST_TIME, RANDOM, UNWEIGHTED, FREE_RANDOM, long_times},
    {"2: buffer too small", SEVULAMON_BUFFER_TOO_SMALL, SMALL_BUFFER, 0, MOST_TIME, RANDOM, UNWEIGHTED, ONE_BY_ONE, long_times},
    {"3: last field cut", SEVULAMON_FIELD_CUT, CUT, 0, MOST_TIME, RANDOM, UNWEIGHTED, ONE_BY_ONE, long_times},
    {"6: last desk out of range", SEVULAMON_OUT_OF_RANGE, LAST_DESK, 0, MOST_TIME, RANDOM, UNWEIGHTED, ONE_BY_ONE, long_times},
    {"6: last weight out of range", SEVULAMON_OUT_OF_RANGE, LAST_WEIGHT, 0, MOST_TIME, RANDOM, RANDOM_WEIGHTS, ONE_BY_ONE, long_times},
    {"8: empty sheet", SEVULAMON_NO_MEMBERS, EMPTY, 0, MOST_TIME, RANDOM, UNWEIGHTED, ONE_BY_ONE, long_times},
    {"9: order not proper", SEVULAMON_ORDER_NOT_PROPER, NOT_PROPER, 0, MOST_TIME, RANDOM, UNWEIGHTED, ONE_BY_ONE, long_times},
    {"10: 32 blocks, no order", SEVULAMON_ORDER_MISSING, NO_ORDER, 0, MOST_TIME, RANDOM, UNWEIGHTED, ONE_BY_ONE, long_times},
    {"11: impossible order", SEVULAMON_ORDER_IMPOSSIBLE, NONE, 0, MOST_TIME, RANDOM, UNWEIGHTED, RANDOM_ORDER, long_times},
    {"11: impossible order, turns", SEVULAMON_ORDER_IMPOSSIBLE, NONE, 0, MOST_TIME, RANDOM, UNWEIGHTED, RANDOM_ORDER, long_turns},
    {"11: 8 free, delay below turn", SEVULAMON_ORDER_IMPOSSIBLE, NONE, 0, MOST_TIME, RANDOM, UNWEIGHTED, FREE_IMPOSSIBLE, long_turns},
    {"11: impossible order, windows", SEVULAMON_ORDER_IMPOSSIBLE, NONE, 0, MOST_TIME, RANDOM, UNWEIGHTED, WINDOWS_RANDOM_ORDER, long_turns},
    {"11: 8 free, window below turn", SEVULAMON_ORDER_IMPOSSIBLE, NONE, 0, MOST_TIME, RANDOM, UNWEIGHTED, FREE_WINDOWS_IMPOSSIBLE, long_turns},
    {"15: turn too large", SEVULAMON_TIME_TOO_LARGE, TURN, 0, MOST_TIME, RANDOM, UNWEIGHTED, ONE_BY_ONE, long_turns},
    {"15: first time too large", SEVULAMON_TIME_TOO_LARGE, FIRST_TIME, 0, MOST_TIME, RANDOM, UNWEIGHTED, ONE_BY_ONE, long_times},
    {"16: last time of zero", SEVULAMON_TIME_OF_ZERO, LAST_TIME, 0, MOST_TIME, RANDOM, UNWEIGHTED, ONE_BY_ONE, long_times},
    {"17: last window ends too early", SEVULAMON_LONGEST_BELOW_SHORTEST, LAST_WINDOW, 0, MOST_TIME, RANDOM, UNWEIGHTED, WIDE_WINDOWS, long_turns},
};

struct call {
    struct sheet sections;
    uint8_t sheet[MOST_SHEET];
    size_t length, plan_length;
    struct sevulamon_answer ours, plain;
    uint8_t ours_plan[SEVULAMON_PLAN_LENGTH], plain_plan[SEVULAMON_PLAN_LENGTH];
    struct incumbent best;
};

static void change_sections(struct sheet *s, enum change change) {
    if (change == LAST_WEIGHT)
        s->sorting.weight[17] = MOST_WEIGHT;
    if (change == ONE_MEMBER_EACH) {
        s->mosaic.strips = s->sorting.counts[0] = s->flight.blocks = 1;
        s->sorting.counts[1] = s->sorting.counts[2] = 0;
    }
}

/* The bytes of a block in the sheet. */
static size_t block_field(const struct flight *f, size_t i) {
    return f->least[i] == f->most[i] ? BLOCK_FIELD : WINDOW_FIELD;
}

static void change_bytes(struct call *x, enum change change) {
    const struct flight *f = &x->sections.flight;
    uint8_t *order = x->sheet + x->length - ORDER_FIELD, *flight = order - HEAD_FIELD - turn_width(f);
    for (size_t i = 0; i < f->blocks; i++)
        flight -= block_field(f, i);
    switch (change) {
    case EMPTY: x->length = 0; break;
    case CUT: x->length--; break;
    case LAST_DESK: put(flight - JOB_LENGTH, 1, x->sections.sorting.desks + 1); break;
    case LAST_WEIGHT: put(flight - 1, 1, MOST_WEIGHT + 1); break;
    case FIRST_TIME: put(x->sheet + 4, 2, MOST_TIME + 1); break;
    case TURN: put(flight + 3, 2, MOST_TURN + 1); break;
    case LAST_TIME: put(order - 2, 2, 0); break;
    case LAST_WINDOW: put(put(order - 6, 2, MOST_TIME), 2, MOST_TIME - 1); break;
    case NOT_PROPER: put(order + 3, 8, 3); break;
    case NO_ORDER: x->length -= ORDER_FIELD; break;
    case SMALL_BUFFER: x->plan_length--; break;
    default: break;
    }
}

static void make_call(struct call *x, const struct family *f) {
    struct sheet *s = &x->sections;
    s->mosaic = random_mosaic(4, 40, f->mosaic_low, f->mosaic_high, f->weights);
    s->sorting = random_sorting(f->sorting, f->weights, MOST_TIME);
    s->flight = random_flight(f->flight, f->flight_times);
    change_sections(s, f->change);
    x->length = write_sheet(x->sheet, s);
    x->plan_length = SEVULAMON_PLAN_LENGTH;
    change_bytes(x, f->change);
    memset(x->ours_plan, 0xCC, sizeof x->ours_plan);
    memset(x->plain_plan, 0xCC, sizeof x->plain_plan);
}

static void ours(void *p) {
    struct call *x = p;
    x->ours = sevulamon_plan(x->sheet, x->length, x->ours_plan, x->plan_length);
}

static void plain(void *p) {
    struct call *x = p;
    x->plain = plan_in_c(x->sheet, x->length, x->plain_plan, x->plan_length);
}

static void enumeration(void *p) {
    struct call *x = p;
    u64 jobs[JOBS];
    jobs_of(&x->sections.sorting, jobs);
    x->best = enumerate_in_c(jobs).best;
}

static bool equal(const struct call *x) {
    const struct sevulamon_answer *a = &x->ours, *b = &x->plain;
    return a->number == b->number && a->place == b->place && a->length == b->length && memcmp(x->ours_plan, x->plain_plan, sizeof x->ours_plan) == 0;
}

/* One line of the table. Plain enumeration comes to the same nodes on every full sheet: one sheet of a family is enough. */
static void measure(const struct family *f) {
    static struct call x;
    struct times t = {0};
    for (int i = 0; i < SHEETS; i++) {
        make_call(&x, f);
        ours(&x);
        plain(&x);
        require_equal(equal(&x) && x.ours.number == f->number, f->name, i);
        add_instance(&t, ours, plain, &x);
    }
    printf("%-32s %6d ", f->name, SHEETS);
    print_times(&t);
    if (f->number == 0 && f->change == NONE)
        printf(" %6.2f | %8.5f %6.2f\n", target_ratio, median(t.ours, t.count) / time_of(enumeration, &x, 1), target_part);
    else
        printf(" %6s | %8s %6s\n", "-", "-", "-");
    fflush(stdout);
}

int main(void) {
    printf("ratio: to C that does the same work. part: of the time of plain enumeration, in C, of the sorting section alone.\n");
    printf("%-32s %6s ", "family", "sheets");
    print_times_head();
    printf(" %6s | %8s %6s\n", "target", "part", "target");
    for (size_t i = 0; i < sizeof families / sizeof families[0]; i++)
        measure(&families[i]);
    return 0;
}
