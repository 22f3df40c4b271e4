/* The model's page: an allowed plan, field by field, in lines of 32 columns and a line feed. */
#include "sheet.h"

#include <string.h>

/* Where the page is written next. */
struct writer {
    uint8_t *at;
};

static void put_letter(struct writer *w, char letter) {
    *w->at++ = (uint8_t)letter;
}

static void put_blanks(struct writer *w, size_t width) {
    memset(w->at, ' ', width);
    w->at += width;
}

/* A number in so many columns, right-aligned: blanks first, then the digits from the last one on. */
static void put_number(struct writer *w, size_t width, u64 value) {
    put_blanks(w, width);
    uint8_t *digit = w->at;
    do {
        *--digit = (uint8_t)('0' + value % 10);
        value /= 10;
    } while (value > 0);
}

static void put_starts(struct writer *w, const uint8_t *starts) {
    put_number(w, 12, number_at(starts, 4));
    put_number(w, 12, number_at(starts + 4, 4));
}

static void put_head(struct writer *w, char letter, const uint8_t *figure, size_t width) {
    put_letter(w, letter);
    put_number(w, 31, number_at(figure, width));
}

static void put_batch(struct writer *w, size_t number, const uint8_t *content) {
    put_letter(w, 'M');
    put_number(w, 3, number);
    put_number(w, 4, content[0]);
    put_starts(w, content + 1);
}

static void put_strip(struct writer *w, const uint8_t *content) {
    put_letter(w, 'S');
    put_number(w, 3, content[0]);
    put_number(w, 4, content[1]);
    put_starts(w, content + 2);
}

static void put_block(struct writer *w, size_t number, const uint8_t *content) {
    put_letter(w, 'F');
    put_number(w, 3, number);
    put_blanks(w, 4);
    put_starts(w, content);
}

/* The columns of a field; a member is the `number`-th of its section. */
static void put_field(struct writer *w, uint8_t tag, size_t number, const uint8_t *content) {
    switch (tag) {
    case 0x90: put_head(w, 'm', content, 8); break;
    case 0x91: put_batch(w, number, content); break;
    case 0xA0: put_head(w, 's', content, 8); break;
    case 0xA1: put_strip(w, content); break;
    case 0xB0: put_head(w, 'f', content, 4); break;
    case 0xB1: put_block(w, number, content); break;
    }
}

static bool begins_section(uint8_t tag) {
    return tag == 0x90 || tag == 0xA0 || tag == 0xB0;
}

/* The page of an allowed plan. Returns its length. */
static size_t write_page(const uint8_t *plan, size_t plan_length, uint8_t *page) {
    struct writer w = {page};
    size_t number = 0;
    for (size_t at = 0; at < plan_length; at += 3 + number_at(plan + at + 1, 2)) {
        number = begins_section(plan[at]) ? 0 : number + 1;
        put_field(&w, plan[at], number, plan + at + 3);
        put_letter(&w, '\n');
    }
    return (size_t)(w.at - page);
}

static struct sevulamon_answer not_printed(u64 number, size_t place) {
    return (struct sevulamon_answer){.number = number, .place = place, .length = 0};
}

struct sevulamon_answer sevulamon_page(const uint8_t *sheet, size_t sheet_length, const uint8_t *plan, size_t plan_length, uint8_t *page, size_t page_length) {
    if (page_length < SEVULAMON_PAGE_LENGTH)
        return not_printed(SEVULAMON_BUFFER_TOO_SMALL, 0);
    struct sevulamon_judged judged = sevulamon_judge(sheet, sheet_length, plan, plan_length);
    if (judged.number != 0)
        return not_printed(judged.number, judged.place);
    return (struct sevulamon_answer){0, 0, write_page(plan, plan_length, page)};
}
