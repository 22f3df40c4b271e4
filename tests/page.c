/* Prints a plan through the function for C, into page buffers of several lengths. For each length it writes a line with the number, the place and the length
   that come back, then the whole buffer and 16 bytes behind it, which are filled with A5 first. A call that changes its sheet or its plan ends the program.

   page SHEET PLAN LENGTH.. */
#include "sevulamon.h"

#include <inttypes.h>
#include <stdio.h>
#include <stdlib.h>
#include <string.h>

enum { MOST = 1 << 17, BEHIND = 16 };

/* What a file holds, and a copy of it. */
struct input {
    uint8_t bytes[MOST], given[MOST];
    size_t length;
};

static struct input sheet, plan;
static uint8_t page[MOST + BEHIND];

static int read_input(struct input *in, const char *name) {
    FILE *file = fopen(name, "rb");
    if (file == NULL)
        return 0;
    in->length = fread(in->bytes, 1, MOST, file);
    memcpy(in->given, in->bytes, in->length);
    return fclose(file) == 0;
}

static int unchanged(const struct input *in) {
    return memcmp(in->bytes, in->given, in->length) == 0;
}

static int print_page(size_t room) {
    memset(page, 0xA5, room + BEHIND);
    struct sevulamon_answer answer = sevulamon_page(sheet.bytes, sheet.length, plan.bytes, plan.length, page, room);
    printf("%" PRIu64 " %zu %zu\n", answer.number, answer.place, answer.length);
    fwrite(page, 1, room + BEHIND, stdout);
    return unchanged(&sheet) && unchanged(&plan);
}

int main(int argc, char **argv) {
    if (argc < 4 || !read_input(&sheet, argv[1]) || !read_input(&plan, argv[2]))
        return 1;
    for (int i = 3; i < argc; i++) {
        size_t room = strtoul(argv[i], NULL, 10);
        if (room > MOST || !print_page(room))
            return 1;
    }
    return 0;
}
