/* The reader of a sheet in plain C: every check of a field, in the order in which they are due, and what the field adds. */
#ifndef BENCH_SHEET_H
#define BENCH_SHEET_H

#include "flight.h"
#include "mosaic.h"
#include "sevulamon.h"
#include "sorting.h"

enum sheet_tag {
    MOSAIC_HEAD = 0x10, MOSAIC_STRIP = 0x11, SORTING_HEAD = 0x20, SORTING_STRIP = 0x21,
    FLIGHT_HEAD = 0x30, FLIGHT_BLOCK = 0x31, FLIGHT_ORDER = 0x32, FLIGHT_WINDOW = 0x33
};

enum section { NO_SECTION, IN_MOSAIC, IN_SORTING, IN_FLIGHT, AFTER_ORDER };

/* A section without members is absent. The flight's place is that of its order field, or of its head where there is none: the place of 11. */
struct sheet {
    struct mosaic mosaic;
    struct sorting sorting;
    struct flight flight;
    size_t flight_place;
};

/* The section that stands open, its head's place and its members. */
struct reading {
    enum section section;
    size_t head, members;
};

static inline u64 number_at(const uint8_t *bytes, size_t width) {
    u64 value = 0;
    while (width-- > 0)
        value = value * 256 + bytes[width];
    return value;
}

static inline struct sevulamon_answer refusal(u64 number, size_t place) {
    return (struct sevulamon_answer){number, place, 0};
}

static inline bool ends_section(uint8_t tag) {
    return tag == MOSAIC_HEAD || tag == SORTING_HEAD || tag == FLIGHT_HEAD;
}

static inline bool permitted(uint8_t tag, const struct reading *r) {
    switch (tag) {
    case MOSAIC_HEAD: return r->section == NO_SECTION;
    case MOSAIC_STRIP: return r->section == IN_MOSAIC;
    case SORTING_HEAD: return r->section < IN_SORTING;
    case SORTING_STRIP: return r->section == IN_SORTING;
    case FLIGHT_HEAD: return r->section < IN_FLIGHT;
    case FLIGHT_BLOCK: case FLIGHT_WINDOW: return r->section == IN_FLIGHT;
    case FLIGHT_ORDER: return r->section == IN_FLIGHT && r->members > 0;
    default: return false;
    }
}

/* The bytes of a strip of the mosaic without its weight, and of a strip of a desk. */
static inline size_t strip_length(size_t stations) {
    return 2 * stations + 2;
}

enum { JOB_LENGTH = 5 };

/* A strip may have its weight as one last byte. A flight head is empty or has the turn. A window block and a pass order have 8 bytes. */
static inline bool length_is_due(uint8_t tag, size_t length, size_t stations) {
    switch (tag) {
    case MOSAIC_HEAD: return length == 3;
    case MOSAIC_STRIP: return length == strip_length(stations) || length == strip_length(stations) + 1;
    case SORTING_HEAD: return length == 1;
    case SORTING_STRIP: return length == JOB_LENGTH || length == JOB_LENGTH + 1;
    case FLIGHT_HEAD: return length == 0 || length == 2;
    case FLIGHT_BLOCK: return length == 6;
    default: return length == 8;
    }
}

static inline bool between(u64 low, u64 value, u64 high) {
    return low <= value && value <= high;
}

/* The values of a field from left to right: each of these gives 6, 15 or 16 for the first one that is out of its range, or 0. */

static inline u64 count_number(u64 count, u64 most) {
    return between(1, count, most) ? 0 : SEVULAMON_OUT_OF_RANGE;
}

static inline u64 time_number(const uint8_t *bytes, u64 least) {
    u64 time = number_at(bytes, 2);
    if (MOST_TIME < time)
        return SEVULAMON_TIME_TOO_LARGE;
    return time < least ? SEVULAMON_TIME_OF_ZERO : 0;
}

/* The weight behind the other bytes of a strip, or 1 where there is none. */
static inline uint8_t weight_of(const uint8_t *c, size_t length, size_t others) {
    return length > others ? c[others] : 1;
}

static inline u64 head_number(const uint8_t *c) {
    u64 number = count_number(c[0], 4);
    return number == 0 ? time_number(c + 1, 0) : number;
}

static inline u64 strip_number(const uint8_t *c, size_t length, size_t stations) {
    u64 number = 0;
    for (size_t k = 0; k < stations && number == 0; k++)
        number = time_number(c + 2 * k, 0);
    if (number == 0)
        number = time_number(c + 2 * stations, 1);
    return number == 0 ? count_number(weight_of(c, length, strip_length(stations)), MOST_WEIGHT) : number;
}

static inline u64 job_number(const uint8_t *c, size_t length, size_t desks) {
    u64 number = count_number(c[0], desks);
    if (number == 0)
        number = time_number(c + 1, 1);
    if (number == 0)
        number = time_number(c + 3, 1);
    return number == 0 ? count_number(weight_of(c, length, JOB_LENGTH), MOST_WEIGHT) : number;
}

static inline u64 turn_number(u64 turn) {
    return MOST_TURN < turn ? SEVULAMON_TIME_TOO_LARGE : 0;
}

/* A block with one delay, or with two. */
static inline u64 block_number(const uint8_t *c, size_t delays) {
    u64 number = time_number(c, 1);
    for (size_t k = 1; k <= delays && number == 0; k++)
        number = time_number(c + 2 * k, 0);
    return number == 0 ? time_number(c + 2 * delays + 2, 1) : number;
}

static inline u64 range_number(uint8_t tag, const uint8_t *c, size_t length, const struct sheet *s) {
    switch (tag) {
    case MOSAIC_HEAD: return head_number(c);
    case MOSAIC_STRIP: return strip_number(c, length, s->mosaic.stations);
    case SORTING_HEAD: return count_number(c[0], 3);
    case SORTING_STRIP: return job_number(c, length, s->sorting.desks);
    case FLIGHT_HEAD: return turn_number(number_at(c, length));
    case FLIGHT_BLOCK: return block_number(c, 1);
    case FLIGHT_WINDOW: return block_number(c, 2);
    default: return 0;
    }
}

static inline bool has_room(uint8_t tag, const uint8_t *c, const struct sheet *s) {
    switch (tag) {
    case MOSAIC_STRIP: return s->mosaic.strips < 40;
    case SORTING_STRIP: return s->sorting.counts[c[0] - 1] < 6;
    case FLIGHT_BLOCK: case FLIGHT_WINDOW: return s->flight.blocks < 32;
    default: return true;
    }
}

static inline bool proper(size_t n, u64 order) {
    size_t firsts = 0, seconds = 0;
    for (size_t k = 0; k < 2 * n; k++) {
        if (order >> k & 1)
            seconds++;
        else
            firsts++;
        if (firsts < seconds)
            return false;
    }
    return seconds == n && (n == 32 || order >> 2 * n == 0);
}

/* 8 or 10 where the section that ends is refused. */
static inline u64 section_number(const struct reading *r) {
    if (r->members == 0)
        return SEVULAMON_NO_MEMBERS;
    return r->section == IN_FLIGHT && r->members > 8 ? SEVULAMON_ORDER_MISSING : 0;
}

/* 4, 5, then 6, 15 or 16, then 17, then 7 or 9 where the field is refused. */
static inline u64 field_number(uint8_t tag, const uint8_t *c, size_t length, const struct reading *r, const struct sheet *s) {
    if (!permitted(tag, r))
        return SEVULAMON_TAG_NOT_PERMITTED;
    if (!length_is_due(tag, length, s->mosaic.stations))
        return SEVULAMON_LENGTH_WRONG;
    u64 out_of_range = range_number(tag, c, length, s);
    if (out_of_range != 0)
        return out_of_range;
    if (tag == FLIGHT_WINDOW && number_at(c + 4, 2) < number_at(c + 2, 2))
        return SEVULAMON_LONGEST_BELOW_SHORTEST;
    if (!has_room(tag, c, s))
        return SEVULAMON_TOO_MANY;
    if (tag == FLIGHT_ORDER && !proper(s->flight.blocks, number_at(c, 8)))
        return SEVULAMON_ORDER_NOT_PROPER;
    return 0;
}

static inline void add_strip(struct mosaic *m, const uint8_t *c, size_t length) {
    for (size_t k = 0; k < m->stations; k++)
        m->station[4 * m->strips + k] = number_at(c + 2 * k, 2);
    m->weight[m->strips] = weight_of(c, length, strip_length(m->stations));
    m->bench[m->strips++] = number_at(c + 2 * m->stations, 2);
}

static inline void add_job(struct sorting *s, const uint8_t *c, size_t length) {
    size_t d = c[0] - 1u, at = 6 * d + s->counts[d]++;
    s->scan[at] = number_at(c + 1, 2);
    s->desk[at] = number_at(c + 3, 2);
    s->weight[at] = weight_of(c, length, JOB_LENGTH);
}

/* A block with one delay, or with two. */
static inline void add_block(struct flight *f, const uint8_t *c, size_t delays) {
    f->first[f->blocks] = number_at(c, 2);
    f->least[f->blocks] = number_at(c + 2, 2);
    f->most[f->blocks] = number_at(c + 2 * delays, 2);
    f->second[f->blocks++] = number_at(c + 2 * delays + 2, 2);
}

/* What a field that passed its checks adds. */
static inline void add_field(struct sheet *s, uint8_t tag, const uint8_t *c, size_t length, size_t at) {
    switch (tag) {
    case MOSAIC_HEAD:
        s->mosaic.stations = c[0];
        s->mosaic.mount = number_at(c + 1, 2);
        break;
    case MOSAIC_STRIP: add_strip(&s->mosaic, c, length); break;
    case SORTING_HEAD: s->sorting.desks = c[0]; break;
    case SORTING_STRIP: add_job(&s->sorting, c, length); break;
    case FLIGHT_HEAD:
        s->flight.turn = number_at(c, length);
        s->flight_place = at;
        break;
    case FLIGHT_BLOCK: add_block(&s->flight, c, 1); break;
    case FLIGHT_WINDOW: add_block(&s->flight, c, 2); break;
    case FLIGHT_ORDER:
        s->flight.ordered = true;
        s->flight.order = number_at(c, 8);
        s->flight_place = at;
        break;
    }
}

static inline void advance(struct reading *r, uint8_t tag, size_t at) {
    if (ends_section(tag))
        *r = (struct reading){tag == MOSAIC_HEAD ? IN_MOSAIC : tag == SORTING_HEAD ? IN_SORTING : IN_FLIGHT, at, 0};
    else if (tag == FLIGHT_ORDER)
        r->section = AFTER_ORDER;
    else
        r->members++;
}

/* Reads a sheet into s, which must be zero: number and place of the refusal, or 0, 0. */
static inline struct sevulamon_answer read_in_c(const uint8_t *bytes, size_t length, struct sheet *s) {
    struct reading r = {NO_SECTION, 0, 0};
    for (size_t at = 0; at < length;) {
        size_t content = length - at < 3 ? 0 : number_at(bytes + at + 1, 2);
        if (length - at < 3 || length - at - 3 < content)
            return refusal(SEVULAMON_FIELD_CUT, at);
        uint8_t tag = bytes[at];
        u64 number = ends_section(tag) && r.section != NO_SECTION ? section_number(&r) : 0;
        if (number != 0)
            return refusal(number, r.head);
        number = field_number(tag, bytes + at + 3, content, &r, s);
        if (number != 0)
            return refusal(number, at);
        add_field(s, tag, bytes + at + 3, content, at);
        advance(&r, tag, at);
        at += 3 + content;
    }
    return refusal(section_number(&r), section_number(&r) == 0 ? 0 : r.head);
}

#endif
