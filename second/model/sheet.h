/* What a sheet says once it is read: the model's planner and judge both work from this. */
#ifndef MODEL_SHEET_H
#define MODEL_SHEET_H

#include "sevulamon.h"

#include <stdbool.h>

typedef uint64_t u64;

enum { MOST_TIME = 60000, MOST_TURN = 600, MOST_WEIGHT = 100, MOST_STATIONS = 4, MOST_STRIPS = 40, MOST_DESKS = 3, MOST_OF_DESK = 6, MOST_BLOCKS = 32,
       FREE_BLOCKS = 8 };

/* A strip that carries no weight has the weight 1, here and in a sorting. */
struct mosaic {
    size_t stations, strips;
    u64 mount, station[MOST_STRIPS][MOST_STATIONS], bench[MOST_STRIPS], weight[MOST_STRIPS];
};

struct sorting {
    size_t desks, strips, counts[MOST_DESKS];
    u64 scan[MOST_DESKS][MOST_OF_DESK], desk[MOST_DESKS][MOST_OF_DESK], weight[MOST_DESKS][MOST_OF_DESK];
};

/* The turn is 0 where the head is empty. A block with one delay has that as the shortest and as the longest. */
struct flight {
    size_t blocks, head_place, order_place;
    u64 turn, first[MOST_BLOCKS], shortest[MOST_BLOCKS], longest[MOST_BLOCKS], second[MOST_BLOCKS], order;
    bool ordered;
};

/* A section without members is absent. */
struct sheet {
    struct mosaic mosaic;
    struct sorting sorting;
    struct flight flight;
};

/* Number and place, both 0 where nothing is refused. */
struct refusal {
    u64 number;
    size_t place;
};

/* A number of `width` bytes, low byte first. */
static inline u64 number_at(const uint8_t *bytes, size_t width) {
    u64 value = 0;
    for (size_t i = 0; i < width; i++)
        value |= (u64)bytes[i] << 8 * i;
    return value;
}

static inline u64 later(u64 a, u64 b) {
    return a < b ? b : a;
}

/* The time at which each strip of the mosaic is ready. */
void ready_times(const struct mosaic *m, u64 *ready);

/* The time of the bench for strips `from` up to, not including, `to`, counted from 0. */
u64 bench_times(const struct mosaic *m, size_t from, size_t to);

/* The sum of the weights of the same strips. */
u64 weights(const struct mosaic *m, size_t from, size_t to);

bool proper(size_t blocks, u64 order);

/* Reads a sheet into s, which must be zero. */
struct refusal read_sheet(const uint8_t *bytes, size_t length, struct sheet *s);

#endif
