/* The bytes of a sheet with all three sections, from what it says. */
#ifndef BENCH_SHEET_WRITER_H
#define BENCH_SHEET_WRITER_H

#include "plan.h"

/* The bytes of the longest sheet that is accepted. */
enum { MOST_SHEET = 1100 };

/* Each of these writes at d and returns where it ended. */

/* A weight of 1 is not written. */
static inline size_t weight_width(uint32_t weight) {
    return weight > 1 ? 1 : 0;
}

static inline uint8_t *put_mosaic(uint8_t *d, const struct mosaic *m) {
    d = put(put(put_head(d, MOSAIC_HEAD, 3), 1, m->stations), 2, m->mount);
    for (size_t j = 0; j < m->strips; j++) {
        size_t width = weight_width(m->weight[j]);
        d = put_head(d, MOSAIC_STRIP, strip_length(m->stations) + width);
        for (size_t k = 0; k < m->stations; k++)
            d = put(d, 2, m->station[4 * j + k]);
        d = put(put(d, 2, m->bench[j]), width, m->weight[j]);
    }
    return d;
}

static inline uint8_t *put_job(uint8_t *d, size_t desk, u64 scan, u64 time, uint32_t weight) {
    size_t width = weight_width(weight);
    d = put(put_head(d, SORTING_STRIP, JOB_LENGTH + width), 1, desk);
    return put(put(put(d, 2, scan), 2, time), width, weight);
}

static inline uint8_t *put_sorting(uint8_t *d, const struct sorting *s) {
    d = put(put_head(d, SORTING_HEAD, 1), 1, s->desks);
    for (size_t i = 0; i < 18; i++)
        if (i % 6 < s->counts[i / 6])
            d = put_job(d, i / 6 + 1, s->scan[i], s->desk[i], s->weight[i]);
    return d;
}

/* The bytes of the turn in the flight head. A turn of 0 is not written. */
static inline size_t turn_width(const struct flight *f) {
    return f->turn > 0 ? 2 : 0;
}

/* A window of one value is written as a block with one delay. */
static inline uint8_t *put_block(uint8_t *d, u64 first, u64 least, u64 most, u64 second) {
    if (least == most)
        return put(put(put(put_head(d, FLIGHT_BLOCK, 6), 2, first), 2, least), 2, second);
    return put(put(put(put(put_head(d, FLIGHT_WINDOW, 8), 2, first), 2, least), 2, most), 2, second);
}

static inline uint8_t *put_flight(uint8_t *d, const struct flight *f) {
    d = put(put_head(d, FLIGHT_HEAD, turn_width(f)), turn_width(f), f->turn);
    for (size_t i = 0; i < f->blocks; i++)
        d = put_block(d, f->first[i], f->least[i], f->most[i], f->second[i]);
    return f->ordered ? put(put_head(d, FLIGHT_ORDER, 8), 8, f->order) : d;
}

/* Returns the length. */
static inline size_t write_sheet(uint8_t *sheet, const struct sheet *s) {
    return (size_t)(put_flight(put_sorting(put_mosaic(sheet, &s->mosaic), &s->sorting), &s->flight) - sheet);
}

#endif
