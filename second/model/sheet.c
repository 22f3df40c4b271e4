/* The model's reader: every check of a field in the order in which they are due, and what the field adds. */
#include "sheet.h"

enum tag { MOSAIC_HEAD = 0x10, MOSAIC_STRIP = 0x11, SORTING_HEAD = 0x20, SORTING_STRIP = 0x21, FLIGHT_HEAD = 0x30, BLOCK = 0x31, ORDER = 0x32, WINDOW = 0x33 };

/* The head of the section that stands open, 0 where none does, its place and its members. */
struct reading {
    uint8_t open;
    size_t head, members;
};

void ready_times(const struct mosaic *m, u64 *ready) {
    u64 sum[MOST_STATIONS] = {0};
    for (size_t j = 0; j < m->strips; j++) {
        ready[j] = 0;
        for (size_t k = 0; k < m->stations; k++) {
            sum[k] += m->station[j][k];
            ready[j] = later(ready[j], sum[k]);
        }
    }
}

u64 bench_times(const struct mosaic *m, size_t from, size_t to) {
    u64 sum = 0;
    for (size_t j = from; j < to; j++)
        sum += m->bench[j];
    return sum;
}

u64 weights(const struct mosaic *m, size_t from, size_t to) {
    u64 total = 0;
    for (size_t j = from; j < to; j++)
        total += m->weight[j];
    return total;
}

bool proper(size_t blocks, u64 order) {
    size_t firsts = 0, seconds = 0;
    for (size_t k = 0; k < 2 * blocks; k++) {
        if (order >> k & 1)
            seconds++;
        else
            firsts++;
        if (firsts < seconds)
            return false;
    }
    return firsts == seconds && (blocks == MOST_BLOCKS || order >> 2 * blocks == 0);
}

static bool is_head(uint8_t tag) {
    return tag == MOSAIC_HEAD || tag == SORTING_HEAD || tag == FLIGHT_HEAD;
}

static bool permitted(uint8_t tag, const struct reading *r, const struct sheet *s) {
    if (s->flight.ordered)
        return false;
    if (is_head(tag))
        return tag > r->open;
    if (tag == ORDER)
        return r->open == FLIGHT_HEAD && r->members > 0;
    if (tag == BLOCK || tag == WINDOW)
        return r->open == FLIGHT_HEAD;
    return (tag == MOSAIC_STRIP || tag == SORTING_STRIP) && tag == r->open + 1;
}

/* Of a flight head the length without a turn, of a strip that without a weight. */
static size_t length_due(uint8_t tag, size_t stations) {
    switch (tag) {
    case MOSAIC_HEAD: return 3;
    case MOSAIC_STRIP: return 2 * stations + 2;
    case SORTING_HEAD: return 1;
    case SORTING_STRIP: return 5;
    case FLIGHT_HEAD: return 0;
    case BLOCK: return 6;
    case WINDOW: return 8;
    default: return 8;
    }
}

/* Whether a field of this length is a strip, of a mosaic or of a desk, with the byte of a weight behind its times. */
static bool has_weight(uint8_t tag, size_t length, size_t stations) {
    return (tag == MOSAIC_STRIP || tag == SORTING_STRIP) && length == length_due(tag, stations) + 1;
}

/* A flight head may carry the two bytes of a turn, a strip its weight. */
static bool length_wrong(uint8_t tag, size_t length, size_t stations) {
    bool turn = tag == FLIGHT_HEAD && length == 2;
    return !turn && !has_weight(tag, length, stations) && length != length_due(tag, stations);
}

/* 6 for a count that is not 1 to `most`, or 0. */
static u64 count_fault(u64 count, u64 most) {
    return 1 <= count && count <= most ? 0 : SEVULAMON_OUT_OF_RANGE;
}

/* 15 for a time above `most`, 16 for a time of 0 where `least` is 1, or 0. */
static u64 time_fault(const uint8_t *bytes, u64 least, u64 most) {
    u64 time = number_at(bytes, 2);
    if (time > most)
        return SEVULAMON_TIME_TOO_LARGE;
    if (time < least)
        return SEVULAMON_TIME_OF_ZERO;
    return 0;
}

/* The first of three numbers that is not 0, or 0. */
static u64 first_fault(u64 a, u64 b, u64 c) {
    return a != 0 ? a : b != 0 ? b : c;
}

static u64 strip_fault(const uint8_t *c, size_t stations) {
    u64 fault = 0;
    for (size_t k = 0; k < stations && fault == 0; k++)
        fault = time_fault(c + 2 * k, 0, MOST_TIME);
    return first_fault(fault, time_fault(c + 2 * stations, 1, MOST_TIME), 0);
}

/* The values of a block with a window: first pass, shortest delay, longest delay, second pass. */
static u64 window_fault(const uint8_t *c) {
    u64 before = first_fault(time_fault(c, 1, MOST_TIME), time_fault(c + 2, 0, MOST_TIME), time_fault(c + 4, 0, MOST_TIME));
    return first_fault(before, time_fault(c + 6, 1, MOST_TIME), 0);
}

/* 6, 15 or 16 of the first value of a field before its weight, from left to right, that is out of its range, or 0. */
static u64 value_fault(uint8_t tag, const uint8_t *c, size_t length, const struct sheet *s) {
    switch (tag) {
    case MOSAIC_HEAD: return first_fault(count_fault(c[0], MOST_STATIONS), time_fault(c + 1, 0, MOST_TIME), 0);
    case MOSAIC_STRIP: return strip_fault(c, s->mosaic.stations);
    case SORTING_HEAD: return count_fault(c[0], MOST_DESKS);
    case SORTING_STRIP: return first_fault(count_fault(c[0], s->sorting.desks), time_fault(c + 1, 1, MOST_TIME), time_fault(c + 3, 1, MOST_TIME));
    case FLIGHT_HEAD: return length == 0 ? 0 : time_fault(c, 0, MOST_TURN);
    case BLOCK: return first_fault(time_fault(c, 1, MOST_TIME), time_fault(c + 2, 0, MOST_TIME), time_fault(c + 4, 1, MOST_TIME));
    case WINDOW: return window_fault(c);
    default: return 0;
    }
}

/* The weight of a strip, and 1 for every field that carries none. */
static u64 weight_of(uint8_t tag, const uint8_t *c, size_t length, size_t stations) {
    return has_weight(tag, length, stations) ? c[length - 1] : 1;
}

/* Whether the longest delay of a window is below the shortest. */
static bool window_empty(uint8_t tag, const uint8_t *c) {
    return tag == WINDOW && number_at(c + 4, 2) < number_at(c + 2, 2);
}

static bool too_many(uint8_t tag, const uint8_t *c, const struct sheet *s) {
    switch (tag) {
    case MOSAIC_STRIP: return s->mosaic.strips == MOST_STRIPS;
    case SORTING_STRIP: return s->sorting.counts[c[0] - 1] == MOST_OF_DESK;
    case BLOCK: return s->flight.blocks == MOST_BLOCKS;
    case WINDOW: return s->flight.blocks == MOST_BLOCKS;
    default: return false;
    }
}

/* 8 or 10 where the open section may not end here. */
static struct refusal check_end(const struct reading *r, const struct sheet *s) {
    if (r->members == 0)
        return (struct refusal){SEVULAMON_NO_MEMBERS, r->head};
    if (s->flight.blocks > FREE_BLOCKS && !s->flight.ordered)
        return (struct refusal){SEVULAMON_ORDER_MISSING, r->head};
    return (struct refusal){0, 0};
}

/* 4, 5, then 6, 15 or 16 by its values, the weight last, 17, 7 or 9 of a field, or 0. */
static u64 check_field(uint8_t tag, const uint8_t *c, size_t length, const struct reading *r, const struct sheet *s) {
    if (!permitted(tag, r, s))
        return SEVULAMON_TAG_NOT_PERMITTED;
    if (length_wrong(tag, length, s->mosaic.stations))
        return SEVULAMON_LENGTH_WRONG;
    u64 fault = value_fault(tag, c, length, s);
    if (fault == 0)
        fault = count_fault(weight_of(tag, c, length, s->mosaic.stations), MOST_WEIGHT);
    if (fault != 0)
        return fault;
    if (window_empty(tag, c))
        return SEVULAMON_LONGEST_BELOW_SHORTEST;
    if (too_many(tag, c, s))
        return SEVULAMON_TOO_MANY;
    if (tag == ORDER && !proper(s->flight.blocks, number_at(c, 8)))
        return SEVULAMON_ORDER_NOT_PROPER;
    return 0;
}

static void add_strip(struct mosaic *m, const uint8_t *c, size_t length) {
    for (size_t k = 0; k < m->stations; k++)
        m->station[m->strips][k] = number_at(c + 2 * k, 2);
    m->weight[m->strips] = weight_of(MOSAIC_STRIP, c, length, m->stations);
    m->bench[m->strips++] = number_at(c + 2 * m->stations, 2);
}

static void add_job(struct sorting *s, const uint8_t *c, size_t length) {
    size_t d = c[0] - 1u, k = s->counts[d]++;
    s->scan[d][k] = number_at(c + 1, 2);
    s->desk[d][k] = number_at(c + 3, 2);
    s->weight[d][k] = weight_of(SORTING_STRIP, c, length, 0);
    s->strips++;
}

static void add_block(struct flight *f, const uint8_t *c) {
    f->first[f->blocks] = number_at(c, 2);
    f->shortest[f->blocks] = number_at(c + 2, 2);
    f->longest[f->blocks] = f->shortest[f->blocks];
    f->second[f->blocks++] = number_at(c + 4, 2);
}

static void add_window(struct flight *f, const uint8_t *c) {
    size_t i = f->blocks++;
    f->first[i] = number_at(c, 2);
    f->shortest[i] = number_at(c + 2, 2);
    f->longest[i] = number_at(c + 4, 2);
    f->second[i] = number_at(c + 6, 2);
}

/* What a field that passed its checks adds. */
static void add_field(struct sheet *s, uint8_t tag, const uint8_t *c, size_t length, size_t at) {
    switch (tag) {
    case MOSAIC_HEAD:
        s->mosaic.stations = c[0];
        s->mosaic.mount = number_at(c + 1, 2);
        break;
    case MOSAIC_STRIP: add_strip(&s->mosaic, c, length); break;
    case SORTING_HEAD: s->sorting.desks = c[0]; break;
    case SORTING_STRIP: add_job(&s->sorting, c, length); break;
    case FLIGHT_HEAD:
        s->flight.turn = length == 0 ? 0 : number_at(c, 2);
        s->flight.head_place = at;
        break;
    case BLOCK: add_block(&s->flight, c); break;
    case WINDOW: add_window(&s->flight, c); break;
    case ORDER:
        s->flight.ordered = true;
        s->flight.order = number_at(c, 8);
        s->flight.order_place = at;
        break;
    }
}

struct refusal read_sheet(const uint8_t *bytes, size_t length, struct sheet *s) {
    struct reading r = {0, 0, 0};
    for (size_t at = 0; at < length;) {
        size_t left = length - at, content = left < 3 ? 0 : number_at(bytes + at + 1, 2);
        if (left < 3 || left - 3 < content)
            return (struct refusal){SEVULAMON_FIELD_CUT, at};
        uint8_t tag = bytes[at];
        struct refusal end = is_head(tag) && r.open ? check_end(&r, s) : (struct refusal){0, 0};
        if (end.number != 0)
            return end;
        u64 number = check_field(tag, bytes + at + 3, content, &r, s);
        if (number != 0)
            return (struct refusal){number, at};
        add_field(s, tag, bytes + at + 3, content, at);
        if (is_head(tag))
            r = (struct reading){tag, at, 0};
        else
            r.members++;
        at += 3 + content;
    }
    return check_end(&r, s);
}
