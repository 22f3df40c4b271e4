/* The model's planner: a sheet read, its sections planned, the plan written. */
#include "plans.h"

/* Where the plan is written next. */
struct writer {
    uint8_t *at;
};

static void put(struct writer *w, size_t width, u64 value) {
    for (size_t i = 0; i < width; i++)
        *w->at++ = (uint8_t)(value >> 8 * i);
}

static void put_tag(struct writer *w, uint8_t tag, size_t length) {
    put(w, 1, tag);
    put(w, 2, length);
}

/* The tag and the length of a head, and its figure of `width` bytes. */
static void put_head(struct writer *w, uint8_t tag, size_t length, size_t width, u64 figure) {
    put_tag(w, tag, length);
    put(w, width, figure);
}

static void put_mosaic(struct writer *w, const struct mosaic_plan *p) {
    put_head(w, 0x90, 8, 8, p->figure);
    for (size_t i = 0; i < p->batches; i++) {
        put_tag(w, 0x91, 9);
        put(w, 1, p->last[i]);
        put(w, 4, p->start[i]);
        put(w, 4, p->finish[i]);
    }
}

static void put_sorting(struct writer *w, const struct sorting_plan *p) {
    put_head(w, 0xA0, 8, 8, p->figure);
    for (size_t i = 0; i < p->strips; i++) {
        put_tag(w, 0xA1, 10);
        put(w, 1, p->desk[i]);
        put(w, 1, p->number[i]);
        put(w, 4, p->scan[i]);
        put(w, 4, p->start[i]);
    }
}

static void put_flight(struct writer *w, const struct flight_plan *p, size_t blocks) {
    put_head(w, 0xB0, 12, 4, p->figure);
    put(w, 8, p->order);
    for (size_t i = 0; i < blocks; i++) {
        put_tag(w, 0xB1, 8);
        put(w, 4, p->first[i]);
        put(w, 4, p->second[i]);
    }
}

/* The plan of a sound sheet whose flight, where it has one, is possible. Returns its length. */
static size_t write_plan(const struct sheet *s, const struct flight_plan *flight, uint8_t *plan) {
    struct writer w = {plan};
    if (s->mosaic.strips > 0) {
        struct mosaic_plan mosaic = plan_mosaic(&s->mosaic);
        put_mosaic(&w, &mosaic);
    }
    if (s->sorting.strips > 0) {
        struct sorting_plan sorting = plan_sorting(&s->sorting);
        put_sorting(&w, &sorting);
    }
    if (s->flight.blocks > 0)
        put_flight(&w, flight, s->flight.blocks);
    return (size_t)(w.at - plan);
}

static struct sevulamon_answer refused(u64 number, size_t place) {
    return (struct sevulamon_answer){number, place, 0};
}

struct sevulamon_answer sevulamon_plan(const uint8_t *sheet, size_t sheet_length, uint8_t *plan, size_t plan_length) {
    struct sheet s = {0};
    struct flight_plan flight = {.possible = true};
    if (plan_length < PLAN_LENGTH)
        return refused(SEVULAMON_BUFFER_TOO_SMALL, 0);
    struct refusal r = read_sheet(sheet, sheet_length, &s);
    if (r.number != 0)
        return refused(r.number, r.place);
    if (s.flight.blocks > 0)
        flight = plan_flight(&s.flight);
    if (!flight.possible)
        return refused(SEVULAMON_ORDER_IMPOSSIBLE, s.flight.ordered ? s.flight.order_place : s.flight.head_place);
    return (struct sevulamon_answer){0, 0, write_plan(&s, &flight, plan)};
}
