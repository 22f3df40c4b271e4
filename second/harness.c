/* Runs planning, judging and page calls that stand on standard input and writes what they answer.
 * A call: one byte ('P', 'J' or 'W' for a page for the wall), the sheet's length in four bytes and the sheet; for 'P' the plan buffer's length in four bytes;
 * for 'J' and 'W' the plan's length in four bytes and the plan; for 'W' then the page buffer's length in four bytes.
 * A buffer that is to be written and the bytes behind it are filled with A5 first.
 * An answer: for 'P' and 'W' three numbers of eight bytes, the whole buffer and 16 bytes behind it; for 'J' five numbers of eight bytes.
 * A call that changes its sheet, or the plan that is judged or printed, ends the program. */
#include "sevulamon.h"

#include <stdio.h>
#include <string.h>

enum { MOST = 1 << 20, BEHIND = 16 };

static uint8_t sheet[MOST], plan[MOST + BEHIND], page[MOST + BEHIND], given_sheet[MOST], given_plan[MOST];

static int read_bytes(uint8_t *to, size_t count) {
    return fread(to, 1, count, stdin) == count;
}

static size_t read_length(void) {
    uint8_t bytes[4] = {0};
    if (!read_bytes(bytes, 4))
        return 0;
    return bytes[0] | (size_t)bytes[1] << 8 | (size_t)bytes[2] << 16 | (size_t)bytes[3] << 24;
}

static void write_number(uint64_t value) {
    for (int i = 0; i < 8; i++, value >>= 8)
        putchar((int)(value & 255));
}

static void write_answer(struct sevulamon_answer answer, const uint8_t *buffer, size_t room) {
    write_number(answer.number);
    write_number(answer.place);
    write_number(answer.length);
    fwrite(buffer, 1, room + BEHIND, stdout);
}

static void call_planner(size_t sheet_length, size_t room) {
    memset(plan, 0xA5, room + BEHIND);
    write_answer(sevulamon_plan(sheet, sheet_length, plan, room), plan, room);
}

static int read_plan(size_t plan_length) {
    if (!read_bytes(plan, plan_length))
        return 0;
    memcpy(given_plan, plan, plan_length);
    return 1;
}

static int call_judge(size_t sheet_length, size_t plan_length) {
    if (!read_plan(plan_length))
        return 0;
    struct sevulamon_judged judged = sevulamon_judge(sheet, sheet_length, plan, plan_length);
    write_number(judged.number);
    write_number(judged.place);
    write_number(judged.mosaic);
    write_number(judged.sorting);
    write_number(judged.flight);
    return memcmp(given_plan, plan, plan_length) == 0;
}

static int call_page(size_t sheet_length, size_t plan_length) {
    if (!read_plan(plan_length))
        return 0;
    size_t room = read_length();
    if (room > MOST)
        return 0;
    memset(page, 0xA5, room + BEHIND);
    write_answer(sevulamon_page(sheet, sheet_length, plan, plan_length, page, room), page, room);
    return memcmp(given_plan, plan, plan_length) == 0;
}

int main(void) {
    for (int kind = getchar(); kind != EOF; kind = getchar()) {
        size_t sheet_length = read_length();
        if (sheet_length > MOST || !read_bytes(sheet, sheet_length))
            return 1;
        memcpy(given_sheet, sheet, sheet_length);
        size_t plan_length = read_length();
        if (plan_length > MOST)
            return 1;
        if (kind == 'P')
            call_planner(sheet_length, plan_length);
        else if (kind == 'J' ? !call_judge(sheet_length, plan_length) : !call_page(sheet_length, plan_length))
            return 1;
        if (memcmp(given_sheet, sheet, sheet_length) != 0)
            return 1;
    }
    return 0;
}
