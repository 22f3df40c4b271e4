/* The plans of the three sections, as the model's planner makes them and writes them. */
#ifndef MODEL_PLANS_H
#define MODEL_PLANS_H

#include "sheet.h"

/* The plan buffer must have this length. */
enum { MOST_JOBS = MOST_DESKS * MOST_OF_DESK, PLAN_LENGTH = 1103 };

/* The last strip of each batch, counted from 1, its mount's start and its finish. */
struct mosaic_plan {
    u64 figure, start[MOST_STRIPS], finish[MOST_STRIPS];
    size_t batches, last[MOST_STRIPS];
};

/* Desk and number within the desk of each strip in scanner order, both from 1, and the starts of its scan and its desk job. */
struct sorting_plan {
    u64 figure, scan[MOST_JOBS], start[MOST_JOBS];
    size_t strips, desk[MOST_JOBS], number[MOST_JOBS];
};

/* The starts of each block's two passes. */
struct flight_plan {
    bool possible;
    u64 figure, order, first[MOST_BLOCKS], second[MOST_BLOCKS];
};

struct mosaic_plan plan_mosaic(const struct mosaic *m);
struct sorting_plan plan_sorting(const struct sorting *s);
struct flight_plan plan_flight(const struct flight *f);

#endif
