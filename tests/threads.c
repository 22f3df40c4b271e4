/* Four threads plan, judge and print the sheets of the given files at once, each on the stack that sevulamon.h names, and must get the answers that one thread
   gets alone; then four judge and print on the smaller stack. Buffers of length 0 with a null pointer are tried first, and plan buffers of lengths next to the
   least that is enough. */
#include "sevulamon.h"

#include <pthread.h>
#include <stdio.h>
#include <string.h>

enum { THREADS = 4, MOST_SHEETS = 32, TURNS = 20, MOST_BYTES = 4096 };

struct example {
    uint8_t sheet[MOST_BYTES], plan[SEVULAMON_PLAN_LENGTH], page[SEVULAMON_PAGE_LENGTH];
    size_t length;
    struct sevulamon_answer answer, printed;
    struct sevulamon_judged judged;
};

static struct example examples[MOST_SHEETS];
static size_t count;

static int same_judging(const struct example *e) {
    struct sevulamon_judged judged = sevulamon_judge(e->sheet, e->length, e->plan, e->answer.length);
    return memcmp(&judged, &e->judged, sizeof judged) == 0;
}

static int same_printing(const struct example *e) {
    uint8_t page[SEVULAMON_PAGE_LENGTH] = {0};
    struct sevulamon_answer printed = sevulamon_page(e->sheet, e->length, e->plan, e->answer.length, page, sizeof page);
    return memcmp(&printed, &e->printed, sizeof printed) == 0 && memcmp(page, e->page, sizeof page) == 0;
}

static int same_planning(const struct example *e) {
    uint8_t plan[SEVULAMON_PLAN_LENGTH] = {0};
    struct sevulamon_answer answer = sevulamon_plan(e->sheet, e->length, plan, sizeof plan);
    return memcmp(&answer, &e->answer, sizeof answer) == 0 && memcmp(plan, e->plan, sizeof plan) == 0;
}

/* Threads: each gives back whether an answer was wrong. */

static void *judge_all(void *wrong) {
    for (size_t i = 0; i < TURNS * count; i++)
        if (!same_judging(&examples[i % count]) || !same_printing(&examples[i % count]))
            *(int *)wrong = 1;
    return NULL;
}

static void *plan_all(void *wrong) {
    for (size_t i = 0; i < TURNS * count; i++)
        if (!same_planning(&examples[i % count]))
            *(int *)wrong = 1;
    return judge_all(wrong);
}

static int run_threads(void *(*work)(void *), size_t stack) {
    pthread_t threads[THREADS];
    int wrong[THREADS] = {0}, any = 0;
    pthread_attr_t attributes;
    if (pthread_attr_init(&attributes) != 0 || pthread_attr_setstacksize(&attributes, stack) != 0)
        return 1;
    for (int i = 0; i < THREADS; i++)
        if (pthread_create(&threads[i], &attributes, work, &wrong[i]) != 0)
            return 1;
    for (int i = 0; i < THREADS; i++) {
        pthread_join(threads[i], NULL);
        any |= wrong[i];
    }
    return any;
}

static int read_example(struct example *e, const char *name) {
    FILE *file = fopen(name, "rb");
    if (file == NULL)
        return 0;
    e->length = fread(e->sheet, 1, sizeof e->sheet, file);
    fclose(file);
    e->answer = sevulamon_plan(e->sheet, e->length, e->plan, sizeof e->plan);
    e->judged = sevulamon_judge(e->sheet, e->length, e->plan, e->answer.length);
    e->printed = sevulamon_page(e->sheet, e->length, e->plan, e->answer.length, e->page, sizeof e->page);
    return e->length > 0;
}

/* The empty sheet is 8, an empty plan 12, and a buffer of length 0 is too small. */
static int null_pointers_taken(const struct example *e) {
    uint8_t plan[SEVULAMON_PLAN_LENGTH], page[SEVULAMON_PAGE_LENGTH];
    return sevulamon_plan(NULL, 0, plan, sizeof plan).number == SEVULAMON_NO_MEMBERS
        && sevulamon_plan(e->sheet, e->length, NULL, 0).number == SEVULAMON_BUFFER_TOO_SMALL
        && sevulamon_judge(NULL, 0, e->plan, e->answer.length).number == SEVULAMON_NO_MEMBERS
        && sevulamon_judge(e->sheet, e->length, NULL, 0).number == SEVULAMON_LAYOUT_WRONG
        && sevulamon_page(NULL, 0, e->plan, e->answer.length, page, sizeof page).number == SEVULAMON_NO_MEMBERS
        && sevulamon_page(e->sheet, e->length, NULL, 0, page, sizeof page).number == SEVULAMON_LAYOUT_WRONG
        && sevulamon_page(e->sheet, e->length, e->plan, e->answer.length, NULL, 0).number == SEVULAMON_BUFFER_TOO_SMALL;
}

/* A plan buffer of 1,103 bytes is enough, whatever the sheet, and one of a byte less is not. */
static int least_length_kept(const struct example *e) {
    uint8_t plan[1103];
    struct sevulamon_answer answer = sevulamon_plan(e->sheet, e->length, plan, 1102);
    return SEVULAMON_PLAN_LENGTH == 1103 && answer.number == SEVULAMON_BUFFER_TOO_SMALL && answer.place == 0 && answer.length == 0
        && sevulamon_plan(e->sheet, e->length, plan, 1103).number == e->answer.number;
}

int main(int argc, char **argv) {
    for (int i = 1; i < argc && count < MOST_SHEETS; i++)
        if (!read_example(&examples[count++], argv[i])) {
            fprintf(stderr, "%s: cannot be read\n", argv[i]);
            return 1;
        }
    int wrong = count == 0 || !null_pointers_taken(&examples[0]);
    for (size_t i = 0; i < count; i++)
        wrong |= !least_length_kept(&examples[i]);
    wrong |= run_threads(plan_all, SEVULAMON_PLAN_STACK) | run_threads(judge_all, SEVULAMON_JUDGE_STACK);
    printf("%zu sheets planned, judged and printed by %d threads at once: %s\n", count, THREADS, wrong ? "WRONG" : "as by one");
    return wrong;
}
