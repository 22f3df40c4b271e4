/* The model's judge: the sheet, the plan's layout, then section by section its members, its head and its figure. */
#include "sheet.h"

enum { CEILING = 10000000 };

/* What the plan's fields look like: the tag of a head (a member's is one more), the lengths of both, and of the figure, which begins the head. */
struct layout {
    uint8_t tag;
    size_t head, member, figure;
};

static const struct layout layouts[3] = {{0x90, 8, 9, 8}, {0xA0, 8, 10, 8}, {0xB0, 12, 8, 4}};

/* A section of the plan: where its head stands, and its members. */
struct part {
    size_t head, members;
};

/* A fault, or number 0 and the figure of the section. */
struct verdict {
    struct refusal fault;
    u64 figure;
};

static bool is_field(const uint8_t *plan, size_t length, size_t at, uint8_t tag, size_t content) {
    return length - at >= 3 && plan[at] == tag && number_at(plan + at + 1, 2) == content && length - at - 3 >= content;
}

static bool present(const struct sheet *s, int section) {
    return (section == 0 ? s->mosaic.strips : section == 1 ? s->sorting.strips : s->flight.blocks) > 0;
}

/* Finds the sections that the sheet has. The fault is 12 at the first wrong field. */
static struct refusal find_parts(const struct sheet *s, const uint8_t *plan, size_t length, struct part *parts) {
    size_t at = 0;
    for (int i = 0; i < 3; i++) {
        const struct layout *l = &layouts[i];
        if (!present(s, i))
            continue;
        if (!is_field(plan, length, at, l->tag, l->head))
            return (struct refusal){SEVULAMON_LAYOUT_WRONG, at};
        parts[i].head = at;
        for (at += 3 + l->head; is_field(plan, length, at, (uint8_t)(l->tag + 1), l->member); at += 3 + l->member)
            parts[i].members++;
    }
    return (struct refusal){at < length ? SEVULAMON_LAYOUT_WRONG : 0, at < length ? at : 0};
}

static struct verdict broken(size_t place) {
    return (struct verdict){{SEVULAMON_RULE_BROKEN, place}, 0};
}

static struct verdict lawful(u64 figure) {
    return (struct verdict){{0, 0}, figure};
}

static struct verdict judge_mosaic(const struct mosaic *m, const uint8_t *plan, struct part p) {
    u64 ready[MOST_STRIPS], before = 0, figure = 0;
    size_t done = 0;
    ready_times(m, ready);
    for (size_t k = 0; k < p.members; k++) {
        size_t at = p.head + 11 + 12 * k, last = plan[at + 3];
        u64 start = number_at(plan + at + 4, 4), finish = number_at(plan + at + 8, 4);
        if (last <= done || last > m->strips)
            return broken(at);
        if (start < before)
            return broken(at);
        u64 mounted = start + m->mount, last_ready = ready[last - 1];
        u64 due = later(mounted, last_ready) + bench_times(m, done, last);
        if (finish != due || finish > CEILING)
            return broken(at);
        figure += weights(m, done, last) * finish;
        done = last;
        before = finish;
    }
    return done == m->strips ? lawful(figure) : broken(p.head);
}

static struct verdict judge_sorting(const struct sorting *s, const uint8_t *plan, struct part p) {
    size_t done[MOST_DESKS] = {0}, all = 0;
    u64 scanner = 0, free[MOST_DESKS] = {0}, figure = 0;
    for (size_t k = 0; k < p.members; k++) {
        size_t at = p.head + 11 + 13 * k, desk = plan[at + 3], d = desk - 1, number = plan[at + 4];
        u64 scan = number_at(plan + at + 5, 4), start = number_at(plan + at + 9, 4);
        if (desk < 1 || desk > s->desks)
            return broken(at);
        if (number != done[d] + 1 || number > s->counts[d])
            return broken(at);
        u64 scanned = scan + s->scan[d][done[d]], finish = start + s->desk[d][done[d]];
        if (scan < scanner)
            return broken(at);
        if (start < scanned || start < free[d] || finish > CEILING)
            return broken(at);
        scanner = scanned;
        free[d] = finish;
        figure += s->weight[d][done[d]] * finish;
        done[d]++;
        all++;
    }
    return all == s->strips ? lawful(figure) : broken(p.head);
}

/* Whether the passes, taken in the order, each start at least a turn after the one before has ended. */
static bool keeps_order(const struct flight *f, const uint8_t *plan, size_t members, u64 order) {
    u64 free = 0;
    for (size_t k = 0, firsts = 0, seconds = 0; k < 2 * f->blocks; k++) {
        bool second = order >> k & 1;
        size_t i = second ? seconds++ : firsts++;
        u64 start = number_at(plan + members + 11 * i + (second ? 7 : 3), 4);
        if (start < free)
            return false;
        free = start + (second ? f->second[i] : f->first[i]) + f->turn;
    }
    return true;
}

static struct verdict judge_flight(const struct flight *f, const uint8_t *plan, struct part p) {
    u64 order = number_at(plan + p.head + 7, 8), end = 0;
    for (size_t k = 0; k < p.members; k++) {
        size_t at = p.head + 15 + 11 * k;
        u64 first = number_at(plan + at + 3, 4), second = number_at(plan + at + 7, 4);
        if (k >= f->blocks)
            return broken(at);
        u64 ended = first + f->first[k];
        end = second + f->second[k];
        if (second < ended + f->shortest[k] || second > ended + f->longest[k])
            return broken(at);
        if (end > CEILING)
            return broken(at);
    }
    if (p.members < f->blocks)
        return broken(p.head);
    if (!proper(f->blocks, order) || (f->ordered && order != f->order))
        return broken(p.head);
    return keeps_order(f, plan, p.head + 15, order) ? lawful(end) : broken(p.head);
}

static struct verdict judge_section(const struct sheet *s, int section, const uint8_t *plan, struct part p) {
    struct verdict v = section == 0 ? judge_mosaic(&s->mosaic, plan, p)
                     : section == 1 ? judge_sorting(&s->sorting, plan, p)
                     : judge_flight(&s->flight, plan, p);
    u64 stated = number_at(plan + p.head + 3, layouts[section].figure);
    if (v.fault.number == 0 && v.figure != stated)
        v.fault = (struct refusal){SEVULAMON_FIGURE_UNTRUE, p.head};
    return v;
}

static struct sevulamon_judged turned_back(struct refusal r) {
    return (struct sevulamon_judged){r.number, r.place, 0, 0, 0};
}

struct sevulamon_judged sevulamon_judge(const uint8_t *sheet, size_t sheet_length, const uint8_t *plan, size_t plan_length) {
    struct sheet s = {0};
    struct part parts[3] = {{0, 0}};
    u64 figures[3] = {0};
    struct refusal fault = read_sheet(sheet, sheet_length, &s);
    if (fault.number == 0)
        fault = find_parts(&s, plan, plan_length, parts);
    if (fault.number != 0)
        return turned_back(fault);
    for (int i = 0; i < 3; i++) {
        if (!present(&s, i))
            continue;
        struct verdict v = judge_section(&s, i, plan, parts[i]);
        if (v.fault.number != 0)
            return turned_back(v.fault);
        figures[i] = v.figure;
    }
    return (struct sevulamon_judged){0, 0, figures[0], figures[1], figures[2]};
}
