/* The page in plain C: an allowed plan printed, and the whole call, which judges it first. */
#ifndef BENCH_PAGE_H
#define BENCH_PAGE_H

#include "judge.h"
#include <string.h>

enum { COLUMNS = 32, LINE = COLUMNS + 1 };

/* A line without numbers. */
static inline void start_line(uint8_t *line, char letter) {
    memset(line, ' ', COLUMNS);
    line[0] = (uint8_t)letter;
    line[COLUMNS] = '\n';
}

/* A number whose last digit stands before column `end`, counted from 0: its digits from the last one on. */
static inline void print_number(uint8_t *line, size_t end, u64 value) {
    uint8_t *at = line + end;
    do
        *--at = (uint8_t)('0' + value % 10);
    while ((value /= 10) != 0);
}

/* A head whose figure has `width` bytes. */
static inline void print_head(uint8_t *line, char letter, const uint8_t *head, size_t width) {
    start_line(line, letter);
    print_number(line, 32, number_at(head + 3, width));
}

/* The two starts of a member, or start and finish. */
static inline void print_starts(uint8_t *line, const uint8_t *starts) {
    print_number(line, 20, number_at(starts, 4));
    print_number(line, 32, number_at(starts + 4, 4));
}

static inline void print_batch(uint8_t *line, u64 number, const uint8_t *member) {
    start_line(line, 'M');
    print_number(line, 4, number);
    print_number(line, 8, member[3]);
    print_starts(line, member + 4);
}

static inline void print_strip(uint8_t *line, const uint8_t *member) {
    start_line(line, 'S');
    print_number(line, 4, member[3]);
    print_number(line, 8, member[4]);
    print_starts(line, member + 5);
}

static inline void print_block(uint8_t *line, u64 number, const uint8_t *member) {
    start_line(line, 'F');
    print_number(line, 4, number);
    print_starts(line, member + 3);
}

/* The page of an allowed plan. Returns its length. */
static inline size_t print_in_c(const uint8_t *plan, size_t length, uint8_t *page) {
    uint8_t *line = page;
    u64 number = 0;
    for (size_t at = 0; at < length; at += 3 + number_at(plan + at + 1, 2), line += LINE) {
        const uint8_t *field = plan + at;
        number = *field == PLAN_BATCH || *field == PLAN_BLOCK ? number + 1 : 0;
        switch (*field) {
        case PLAN_MOSAIC: print_head(line, 'm', field, 8); break;
        case PLAN_BATCH: print_batch(line, number, field); break;
        case PLAN_SORTING: print_head(line, 's', field, 8); break;
        case PLAN_STRIP: print_strip(line, field); break;
        case PLAN_FLIGHT: print_head(line, 'f', field, 4); break;
        case PLAN_BLOCK: print_block(line, number, field); break;
        }
    }
    return (size_t)(line - page);
}

/* The whole call. */
static inline struct sevulamon_answer
page_in_c(const uint8_t *bytes, size_t length, const uint8_t *plan, size_t plan_length, uint8_t *page, size_t page_length) {
    if (page_length < SEVULAMON_PAGE_LENGTH)
        return refusal(SEVULAMON_BUFFER_TOO_SMALL, 0);
    struct sevulamon_judged judged = judge_in_c(bytes, length, plan, plan_length);
    if (judged.number != 0)
        return refusal(judged.number, judged.place);
    return (struct sevulamon_answer){0, 0, print_in_c(plan, plan_length, page)};
}

#endif
