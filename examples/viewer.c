/* Plans a sheet file, judges the plan, and prints the timetable: in words, and as the page for the wall. */
#include "sevulamon.h"

#include <inttypes.h>
#include <stdio.h>

static uint64_t number(const uint8_t *bytes, size_t width) {
    uint64_t value = 0;
    while (width-- > 0)
        value = value * 256 + bytes[width];
    return value;
}

/* One line for each field of a plan. */
static void print_field(uint8_t tag, const uint8_t *c) {
    switch (tag) {
    case 0x90:
        printf("mosaic, in minutes: figure %" PRIu64 "\n", number(c, 8));
        break;
    case 0x91:
        printf("  batch up to strip %" PRIu64 ": mount at %" PRIu64 ", finished at %" PRIu64 "\n", number(c, 1), number(c + 1, 4), number(c + 5, 4));
        break;
    case 0xA0:
        printf("sorting, in minutes: figure %" PRIu64 "\n", number(c, 8));
        break;
    case 0xA1:
        printf("  desk %" PRIu64 " strip %" PRIu64 ": scan at %" PRIu64 ", desk at %" PRIu64 "\n", number(c, 1), number(c + 1, 1), number(c + 2, 4), number(c + 6, 4));
        break;
    case 0xB0:
        printf("flight, in seconds: figure %" PRIu64 ", order %" PRIX64 "\n", number(c, 4), number(c + 4, 8));
        break;
    case 0xB1:
        printf("  block: first pass at %" PRIu64 ", second at %" PRIu64 "\n", number(c, 4), number(c + 4, 4));
        break;
    }
}

/* The page of a plan. Returns 0 where the judge allows the plan. */
static int print_page(const uint8_t *sheet, size_t sheet_length, const uint8_t *plan, size_t plan_length) {
    uint8_t page[SEVULAMON_PAGE_LENGTH];
    struct sevulamon_answer answer = sevulamon_page(sheet, sheet_length, plan, plan_length, page, sizeof page);
    fwrite(page, 1, answer.length, stdout);
    return answer.number == SEVULAMON_ACCEPTED ? 0 : 1;
}

/* Plans and judges a sheet, and prints both and the page. Returns 0 where the sheet is planned and the judge allows the plan. */
static int print_plan(const uint8_t *sheet, size_t length) {
    uint8_t plan[SEVULAMON_PLAN_LENGTH];
    struct sevulamon_answer answer = sevulamon_plan(sheet, length, plan, sizeof plan);
    if (answer.number != SEVULAMON_ACCEPTED) {
        printf("refused: number %" PRIu64 ", place %zu\n", answer.number, answer.place);
        return 1;
    }
    for (size_t at = 0; at < answer.length; at += 3 + (size_t)number(plan + at + 1, 2))
        print_field(plan[at], plan + at + 3);

    struct sevulamon_judged judged = sevulamon_judge(sheet, length, plan, answer.length);
    printf("judged: number %" PRIu64 ", figures %" PRIu64 " %" PRIu64 " %" PRIu64 "\n\n", judged.number, judged.mosaic, judged.sorting, judged.flight);
    return print_page(sheet, length, plan, answer.length);
}

int main(int argc, char **argv) {
    static uint8_t sheet[65536];
    if (argc != 2) {
        fprintf(stderr, "usage: viewer SHEET\n");
        return 2;
    }
    FILE *file = fopen(argv[1], "rb");
    size_t length = file == NULL ? 0 : fread(sheet, 1, sizeof sheet, file);
    if (file == NULL || ferror(file)) {
        perror(argv[1]);
        return 2;
    }
    fclose(file);

    int status = print_plan(sheet, length);
    if (fflush(stdout) != 0) {
        perror("standard output");
        return 2;
    }
    return status;
}
