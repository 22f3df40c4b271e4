/* The judge in plain C: the sheet read, the plan's layout, then section by section the members, the head and the figure. */
#ifndef BENCH_JUDGE_H
#define BENCH_JUDGE_H

#include "plan.h"

enum { CEILING = 10000000 };

/* Of each section of a plan: its head's tag (a member's is one more), and the bytes of a head, of a member and of the figure, with which the head begins. */
struct plan_section {
    uint8_t tag;
    size_t head, member, figure;
};

static const struct plan_section plan_sections_of[3] = {{PLAN_MOSAIC, 11, 12, 8}, {PLAN_SORTING, 11, 13, 8}, {PLAN_FLIGHT, 15, 11, 4}};

/* A section as it stands in the plan: the place of its head and of its first member, and the number of its members. */
struct stretch {
    size_t head, first, members;
};

/* The place of the first fault, or NO_FAULT and the figure. */
struct finding {
    size_t fault;
    u64 figure;
};

#define NO_FAULT SIZE_MAX

static inline bool is_field(const uint8_t *plan, size_t length, size_t at, unsigned tag, size_t bytes) {
    return length - at >= bytes && plan[at] == tag && number_at(plan + at + 1, 2) == bytes - 3;
}

/* Finds the sections of the sheet. Returns the place of 12, or NO_FAULT. */
static inline size_t find_sections(const bool *present, const uint8_t *plan, size_t length, struct stretch *found) {
    size_t at = 0;
    for (int i = 0; i < 3; i++) {
        const struct plan_section *p = &plan_sections_of[i];
        if (!present[i])
            continue;
        if (!is_field(plan, length, at, p->tag, p->head))
            return at;
        found[i] = (struct stretch){at, at + p->head, 0};
        for (at += p->head; is_field(plan, length, at, p->tag + 1u, p->member); at += p->member)
            found[i].members++;
    }
    return at == length ? NO_FAULT : at;
}

static inline struct finding judge_mosaic(const struct mosaic *m, const uint8_t *plan, struct stretch s) {
    u64 ready[40] = {0}, sums[41] = {0}, weights[41] = {0}, free = 0, done = 0, figure = 0;
    read_times(m, ready, sums, weights);
    for (size_t k = 0, at = s.first; k < s.members; k++, at += 12) {
        u64 last = plan[at + 3], start = number_at(plan + at + 4, 4), finish = number_at(plan + at + 8, 4);
        if (last <= done || m->strips < last || start < free)
            return (struct finding){at, 0};
        if (finish != bench_start(m->mount, start, ready[last - 1]) + sums[last] - sums[done] || CEILING < finish)
            return (struct finding){at, 0};
        figure += (weights[last] - weights[done]) * finish;
        done = last;
        free = finish;
    }
    return (struct finding){done == m->strips ? NO_FAULT : s.head, figure};
}

static inline struct finding judge_sorting(const struct sorting *section, const uint8_t *plan, struct stretch s) {
    u64 scanner = 0, free[3] = {0}, taken[3] = {0}, figure = 0;
    for (size_t k = 0, at = s.first; k < s.members; k++, at += 13) {
        u64 d = plan[at + 3] - (u64)1, number = plan[at + 4], scan = number_at(plan + at + 5, 4), start = number_at(plan + at + 9, 4);
        if (section->desks <= d || number != taken[d] + 1 || section->counts[d] < number)
            return (struct finding){at, 0};
        u64 scanned = scan + section->scan[6 * d + taken[d]], finish = start + section->desk[6 * d + taken[d]];
        if (scan < scanner || start < scanned || start < free[d] || CEILING < finish)
            return (struct finding){at, 0};
        scanner = scanned;
        free[d] = finish;
        figure += section->weight[6 * d + taken[d]] * finish;
        taken[d]++;
    }
    return (struct finding){s.members == section->counts[0] + section->counts[1] + section->counts[2] ? NO_FAULT : s.head, figure};
}

/* Whether the passes come in the order, none before the turn behind the one before. */
static inline bool in_order(const struct flight *f, const u64 *starts, u64 order) {
    u64 free = 0;
    for (size_t k = 0; k < 2 * f->blocks; k++) {
        size_t pass = pass_of(f->blocks, order, k);
        if (starts[pass] < free)
            return false;
        free = starts[pass] + (pass < f->blocks ? f->first[pass] : f->second[pass - f->blocks]) + f->turn;
    }
    return true;
}

static inline struct finding judge_flight(const struct flight *f, const uint8_t *plan, struct stretch s) {
    u64 starts[64] = {0}, order = number_at(plan + s.head + 7, 8), end = 0;
    for (size_t k = 0, at = s.first; k < s.members; k++, at += 11) {
        u64 first = number_at(plan + at + 3, 4), second = number_at(plan + at + 7, 4);
        if (k == f->blocks || !between(first + f->first[k] + f->least[k], second, first + f->first[k] + f->most[k]) || CEILING < second + f->second[k])
            return (struct finding){at, 0};
        starts[k] = first;
        starts[f->blocks + k] = second;
        end = second + f->second[k];
    }
    bool kept = s.members == f->blocks && proper(f->blocks, order) && (!f->ordered || order == f->order) && in_order(f, starts, order);
    return (struct finding){kept ? NO_FAULT : s.head, end};
}

static inline struct sevulamon_judged turned_back(u64 number, size_t place) {
    return (struct sevulamon_judged){number, place, 0, 0, 0};
}

static inline struct sevulamon_judged judge_in_c(const uint8_t *bytes, size_t length, const uint8_t *plan, size_t plan_length) {
    struct sheet s = {0};
    struct stretch found[3];
    struct sevulamon_answer read = read_in_c(bytes, length, &s);
    if (read.number != 0)
        return turned_back(read.number, read.place);
    const bool present[3] = {s.mosaic.strips > 0, s.sorting.counts[0] + s.sorting.counts[1] + s.sorting.counts[2] > 0, s.flight.blocks > 0};
    size_t wrong = find_sections(present, plan, plan_length, found);
    if (wrong != NO_FAULT)
        return turned_back(SEVULAMON_LAYOUT_WRONG, wrong);
    u64 figures[3] = {0};
    for (int i = 0; i < 3; i++) {
        if (!present[i])
            continue;
        struct finding f = i == 0 ? judge_mosaic(&s.mosaic, plan, found[i])
                         : i == 1 ? judge_sorting(&s.sorting, plan, found[i])
                         : judge_flight(&s.flight, plan, found[i]);
        if (f.fault != NO_FAULT)
            return turned_back(SEVULAMON_RULE_BROKEN, f.fault);
        if (f.figure != number_at(plan + found[i].head + 3, plan_sections_of[i].figure))
            return turned_back(SEVULAMON_FIGURE_UNTRUE, found[i].head);
        figures[i] = f.figure;
    }
    return (struct sevulamon_judged){0, 0, figures[0], figures[1], figures[2]};
}

#endif
