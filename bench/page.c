/* Times the page call, sevulamon_page, against plain C that does the same work on the same bytes: the whole call, which judges the plan and prints it, and the
   printing alone, as the time of a page call less that of a judging call. Full plans (40 batches, 18 strips, 8 or 32 blocks), plans with few batches, small
   plans, and plans that are refused. Both must give the same answers and leave the same bytes in the buffer.
   (cd crates/viewer_c && rt lib) && mkdir -p target && gcc -O2 -Wall -Wextra -Werror -Iinclude -o target/bench_page bench/page.c crates/viewer_c/out/libviewer_c.a && target/bench_page */
#include "page.h"
#include "sheet_writer.h"
#include <string.h>

enum { PLANS = 21, PAGE_TURNS = 15 };

/* What a family of plans has otherwise than others: as many batches as strips, one member in each section, or a fault. */
enum change { NONE, ALL_BATCHES, ONE_MEMBER_EACH, CUT, BROKEN, LONG_DELAY, SHORT_TURN, UNTRUE, SMALL_BUFFER };

struct family {
    const char *name;
    u64 number;
    enum change change;
    u64 mosaic_high;
    enum sorting_times sorting;
    enum weights weights;
    enum flight_family flight;
    const struct flight_times *flight_times;
};

static const struct family families[] = {
    {"40 batches, 18 strips, 32 blocks", 0, ALL_BATCHES, MOST_TIME, RANDOM, UNWEIGHTED, ONE_BY_ONE, long_times},
    {"40 batches, 18 strips, 8 blocks", 0, ALL_BATCHES, MOST_TIME, RANDOM, UNWEIGHTED, FREE_RANDOM, long_times},
    {"the same with small times", 0, ALL_BATCHES, 10, RANDOM_SMALL, UNWEIGHTED, FREE_RANDOM, short_times},
    {"few batches, 18 strips, 32 blocks", 0, NONE, MOST_TIME, RANDOM, UNWEIGHTED, ONE_BY_ONE, long_times},
    {"the same with a turn", 0, NONE, MOST_TIME, RANDOM, UNWEIGHTED, ONE_BY_ONE, long_turns},
    {"the same with windows", 0, NONE, MOST_TIME, RANDOM, UNWEIGHTED, WINDOWS_ONE_BY_ONE, long_times},
    {"the same with windows and a turn", 0, NONE, MOST_TIME, RANDOM, UNWEIGHTED, WINDOWS_ONE_BY_ONE, long_turns},
    {"the same with random weights", 0, NONE, MOST_TIME, RANDOM, RANDOM_WEIGHTS, ONE_BY_ONE, long_times},
    {"the same with long strips heavy", 0, NONE, MOST_TIME, RANDOM, LONG_HEAVY, ONE_BY_ONE, long_times},
    {"one member in each section", 0, ONE_MEMBER_EACH, MOST_TIME, RANDOM, UNWEIGHTED, FREE_RANDOM, long_times},
    {"2: page buffer too small", SEVULAMON_BUFFER_TOO_SMALL, SMALL_BUFFER, MOST_TIME, RANDOM, UNWEIGHTED, ONE_BY_ONE, long_times},
    {"12: last field cut", SEVULAMON_LAYOUT_WRONG, CUT, MOST_TIME, RANDOM, UNWEIGHTED, ONE_BY_ONE, long_times},
    {"13: last member broken", SEVULAMON_RULE_BROKEN, BROKEN, MOST_TIME, RANDOM, UNWEIGHTED, ONE_BY_ONE, long_times},
    {"13: delay beyond its window", SEVULAMON_RULE_BROKEN, LONG_DELAY, MOST_TIME, RANDOM, UNWEIGHTED, WINDOWS_ONE_BY_ONE, long_times},
    {"13: turn too short", SEVULAMON_RULE_BROKEN, SHORT_TURN, MOST_TIME, RANDOM, UNWEIGHTED, ONE_BY_ONE, long_turns},
    {"14: first figure untrue", SEVULAMON_FIGURE_UNTRUE, UNTRUE, MOST_TIME, RANDOM, UNWEIGHTED, ONE_BY_ONE, long_times},
};

struct call {
    uint8_t sheet[MOST_SHEET], plan[SEVULAMON_PLAN_LENGTH], ours_page[SEVULAMON_PAGE_LENGTH], plain_page[SEVULAMON_PAGE_LENGTH];
    size_t length, plan_length, page_length, printed;
    struct sevulamon_answer ours, plain;
    struct sevulamon_judged ours_judged, plain_judged;
};

/* Without a mount time every strip is its own batch in the best plan. */
static void change_sections(struct sheet *s, enum change change) {
    if (change == ALL_BATCHES)
        s->mosaic.mount = 0;
    if (change == ONE_MEMBER_EACH) {
        s->mosaic.strips = s->sorting.counts[0] = s->flight.blocks = 1;
        s->sorting.counts[1] = s->sorting.counts[2] = 0;
    }
}

/* The second start of the last block, one second later than its window allows. */
static void delay_last(struct call *x, const struct flight *f) {
    uint8_t *starts = x->plan + x->plan_length - 8;
    size_t last = f->blocks - 1;
    put(starts + 4, 4, number_at(starts, 4) + f->first[last] + f->most[last] + 1);
}

static void change_plan(struct call *x, const struct sheet *s, enum change change) {
    switch (change) {
    case CUT: x->plan_length--; break;
    case BROKEN: x->plan[x->plan_length - 4] ^= 1; break;
    case LONG_DELAY: delay_last(x, &s->flight); break;
    case UNTRUE: x->plan[3] ^= 1; break;
    case SMALL_BUFFER: x->page_length--; break;
    default: break;
    }
}

/* A turn one second longer than that of the plan. */
static void change_sheet(struct call *x, struct sheet *s, enum change change) {
    if (change == SHORT_TURN) {
        s->flight.turn++;
        x->length = write_sheet(x->sheet, s);
    }
}

static void make_call(struct call *x, const struct family *f) {
    struct sheet s = {0};
    s.mosaic = random_mosaic(4, 40, 0, f->mosaic_high, f->weights);
    s.sorting = random_sorting(f->sorting, f->weights, MOST_TIME);
    s.flight = random_flight(f->flight, f->flight_times);
    change_sections(&s, f->change);
    x->length = write_sheet(x->sheet, &s);
    x->plan_length = plan_in_c(x->sheet, x->length, x->plan, sizeof x->plan).length;
    x->page_length = SEVULAMON_PAGE_LENGTH;
    change_plan(x, &s, f->change);
    change_sheet(x, &s, f->change);
    memset(x->ours_page, 0xCC, sizeof x->ours_page);
    memset(x->plain_page, 0xCC, sizeof x->plain_page);
}

static void ours_page(void *p) {
    struct call *x = p;
    x->ours = sevulamon_page(x->sheet, x->length, x->plan, x->plan_length, x->ours_page, x->page_length);
}

static void ours_judge(void *p) {
    struct call *x = p;
    x->ours_judged = sevulamon_judge(x->sheet, x->length, x->plan, x->plan_length);
}

static void plain_page(void *p) {
    struct call *x = p;
    x->plain = page_in_c(x->sheet, x->length, x->plan, x->plan_length, x->plain_page, x->page_length);
}

static void plain_judge(void *p) {
    struct call *x = p;
    x->plain_judged = judge_in_c(x->sheet, x->length, x->plan, x->plan_length);
}

static void plain_print(void *p) {
    struct call *x = p;
    x->printed = print_in_c(x->plan, x->plan_length, x->plain_page);
}

static bool equal(const struct call *x) {
    const struct sevulamon_answer *a = &x->ours, *b = &x->plain;
    return a->number == b->number && a->place == b->place && a->length == b->length && memcmp(x->ours_page, x->plain_page, sizeof x->ours_page) == 0
        && memcmp(&x->ours_judged, &x->plain_judged, sizeof x->ours_judged) == 0;
}

static bool same_answers(struct call *x, u64 number) {
    ours_page(x);
    ours_judge(x);
    plain_page(x);
    plain_judge(x);
    return equal(x) && x->ours.number == number;
}

enum { OURS_PAGE, OURS_JUDGE, PLAIN_PAGE, PLAIN_PRINT, WORKS };

/* Times all in turns. The least time of each counts; a call is repeated for a fifth of a millisecond. A refused plan is not printed. */
static void time_all(struct call *x, bool accepted, double *least) {
    work *const works[WORKS] = {ours_page, ours_judge, plain_page, plain_print};
    int count = accepted ? WORKS : PLAIN_PRINT, calls[WORKS];
    for (int k = 0; k < count; k++) {
        calls[k] = (int)(2e-4 / (time_of(works[k], x, 1) + 1e-9)) + 1;
        least[k] = 1e9;
    }
    for (int turn = 0; turn < PAGE_TURNS; turn++)
        for (int k = 0; k < count; k++) {
            double t = time_of(works[k], x, calls[k]);
            least[k] = t < least[k] ? t : least[k];
        }
}

/* One line of the table. */
static void measure(const struct family *f) {
    static struct call x;
    struct times whole = {0}, printing = {0};
    for (int i = 0; i < PLANS; i++) {
        double least[WORKS];
        make_call(&x, f);
        require_equal(same_answers(&x, f->number), f->name, i);
        time_all(&x, f->number == 0, least);
        add_times(&whole, least[OURS_PAGE], least[PLAIN_PAGE]);
        if (f->number == 0)
            add_times(&printing, least[OURS_PAGE] - least[OURS_JUDGE], least[PLAIN_PRINT]);
    }
    printf("%-34s %6zu ", f->name, x.ours.length / LINE);
    print_times(&whole);
    printf(" |");
    if (f->number == 0)
        print_times(&printing);
    printf("\n");
    fflush(stdout);
}

int main(void) {
    printf("ratio: to C that does the same work. First the whole call, which judges the plan and prints it, then the printing alone.\n");
    printf("%-34s %6s ", "family", "lines");
    print_times_head();
    printf(" |");
    print_times_head();
    printf("\n");
    for (size_t i = 0; i < sizeof families / sizeof families[0]; i++)
        measure(&families[i]);
    return 0;
}
