/* The whole call in plain C: a sheet read, its sections planned, the plan's bytes written. */
#ifndef BENCH_PLAN_H
#define BENCH_PLAN_H

#include "sheet.h"

enum plan_tag { PLAN_MOSAIC = 0x90, PLAN_BATCH = 0x91, PLAN_SORTING = 0xA0, PLAN_STRIP = 0xA1, PLAN_FLIGHT = 0xB0, PLAN_BLOCK = 0xB1 };

/* Each of these writes at d and returns where it ended. */

static inline uint8_t *put(uint8_t *d, size_t width, u64 value) {
    for (size_t i = 0; i < width; i++)
        *d++ = (uint8_t)(value >> 8 * i);
    return d;
}

static inline uint8_t *put_head(uint8_t *d, uint8_t tag, size_t length) {
    return put(put(d, 1, tag), 2, length);
}

static inline uint8_t *write_mosaic(uint8_t *d, const struct mosaic_plan *p) {
    d = put(put_head(d, PLAN_MOSAIC, 8), 8, p->figure);
    for (size_t i = 0; i < p->batches; i++)
        d = put(put(put(put_head(d, PLAN_BATCH, 9), 1, p->last[i]), 4, p->start[i]), 4, p->finish[i]);
    return d;
}

static inline uint8_t *write_sorting(uint8_t *d, const struct sorting_plan *p) {
    d = put(put_head(d, PLAN_SORTING, 8), 8, p->figure);
    for (size_t i = 0; i < p->jobs; i++) {
        d = put(put(put_head(d, PLAN_STRIP, 10), 1, p->desk[i]), 1, p->number[i]);
        d = put(put(d, 4, p->scan[i]), 4, p->start[i]);
    }
    return d;
}

static inline uint8_t *write_flight(uint8_t *d, const struct flight_plan *p, size_t n) {
    d = put(put(put_head(d, PLAN_FLIGHT, 12), 4, p->figure), 8, p->order);
    for (size_t i = 0; i < n; i++)
        d = put(put(put_head(d, PLAN_BLOCK, 8), 4, p->starts[i]), 4, p->starts[n + i]);
    return d;
}

/* Plans and writes the sections that are present. The flight is planned first: where it is impossible, nothing is written. */
static inline struct sevulamon_answer plan_sections(const struct sheet *s, uint8_t *plan) {
    u64 table[TABLE];
    struct flight_plan flight = {.possible = true};
    uint8_t *d = plan;
    if (s->flight.blocks > 0)
        flight = flight_in_c(&s->flight);
    if (!flight.possible)
        return refusal(SEVULAMON_ORDER_IMPOSSIBLE, s->flight_place);
    if (s->mosaic.strips > 0) {
        struct mosaic_plan mosaic = mosaic_in_c(&s->mosaic);
        d = write_mosaic(d, &mosaic);
    }
    if (s->sorting.counts[0] + s->sorting.counts[1] + s->sorting.counts[2] > 0) {
        struct sorting_plan sorting = sorting_in_c(&s->sorting, table);
        d = write_sorting(d, &sorting);
    }
    if (s->flight.blocks > 0)
        d = write_flight(d, &flight, s->flight.blocks);
    return (struct sevulamon_answer){0, 0, (size_t)(d - plan)};
}

static inline struct sevulamon_answer plan_in_c(const uint8_t *bytes, size_t length, uint8_t *plan, size_t plan_length) {
    struct sheet s = {0};
    if (plan_length < SEVULAMON_PLAN_LENGTH)
        return refusal(SEVULAMON_BUFFER_TOO_SMALL, 0);
    struct sevulamon_answer answer = read_in_c(bytes, length, &s);
    return answer.number == 0 ? plan_sections(&s, plan) : answer;
}

#endif
