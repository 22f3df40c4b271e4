/* The planner, the judge and the page for C and C++. Link with libviewer.a.
 *
 * A sheet and a plan are rows of fields. A field is a tag (1 byte), the length of its content
 * (2 bytes) and the content. Numbers stand low byte first. docs/FORMAT.md says more, with examples.
 *
 * The sheet: one to three sections in this order, each with one member or more.
 *
 *   tag  length  field            content, with the bytes of each number
 *   10   3       mosaic head      stations m (1), 1 to 4; mount time (2), 0 to 60,000
 *   11   2 m + 2 strip, up to 40  m station times (2 each), 0 to 60,000; bench time (2);
 *     or 2 m + 3                  weight (1), 1 to 100; absent means 1
 *   20   1       sorting head     desks m (1), 1 to 3
 *   21   5 or 6  strip, up to 6   desk (1), 1 to m; scan time (2); desk time (2); weight (1), 1 to
 *                of each desk     100; absent means 1
 *   30   0 or 2  flight head      turn (2), 0 to 600: the least time between the end of a pass and
 *                                 the start of the next; an empty head means 0
 *   31   6       block            first pass (2); delay (2), 0 to 60,000; second pass (2)
 *   33   8       block with a     first pass (2); shortest delay (2) and longest delay (2), each 0
 *                window           to 60,000, the longest no less than the shortest; second pass (2)
 *   32   8       pass order       order number (8); ends the sheet; due over 8 blocks
 *
 * Blocks of both tags may be mixed; there may be up to 32 in all.
 *
 * Strips with and without a weight may be mixed.
 *
 * Tags are hexadecimal. A time without a range here is 1 to 60,000. Times are minutes in the first
 * two sections and seconds in the flight.
 *
 * The plan: the sections of the sheet, in its order.
 *
 *   tag  length  field            content, with the bytes of each number
 *   90   8       mosaic head      figure (8): the sum of weight times completion of the strips
 *   91   9       batch            its last strip (1), from 1; mount start (4); finish (4)
 *   A0   8       sorting head     figure (8): the sum of weight times the desk's finishing time
 *   A1   10      strip, in the    desk (1); number at the desk (1), from 1; scan start (4);
 *                scanner's order  desk start (4)
 *   B0   12      flight head      figure (4): the end of the last pass; order number (8)
 *   B1   8       block            start of its first pass (4), of its second pass (4)
 *
 * A strip is ready when every station has done it. A mount starts no earlier than the batch before
 * finishes. Bench work starts when the mount is done and the last strip of the batch is ready; the
 * batch finishes when its bench times are over.
 *
 * The page: an allowed plan as text, one line for each field of the plan, in its order. Each line
 * has 32 columns and a line feed. A head's line is a letter and the figure in 31 columns; a
 * member's is a letter and fields of 3, 4, 12 and 12 columns. Numbers are decimal, right-aligned
 * with spaces, without leading zeros. The order number is not printed.
 *
 *   line          1       2 to 4   5 to 8        9 to 20       21 to 32
 *   mosaic head   m       the figure, in columns 2 to 32
 *   batch         M       number   last strip    mount start   finish
 *   sorting head  s       the figure
 *   strip         S       desk     number there  scan start    desk start
 *   flight head   f       the figure
 *   block         F       number   four spaces   first start   second start
 *
 * Batches and blocks are numbered from 1 in each section.
 */
#ifndef SEVULAMON_H
#define SEVULAMON_H

#include <stddef.h>
#include <stdint.h>

/* The minor number rises with every change request that lands (docs/LANDINGS.md). */
#define SEVULAMON_VERSION_MAJOR 1
#define SEVULAMON_VERSION_MINOR 8
#define SEVULAMON_VERSION "1.8"

/* A plan buffer of this length is large enough for every sheet. A smaller one is refused with 2,
 * whatever the sheet. */
#define SEVULAMON_PLAN_LENGTH 1103

/* A page buffer of this length is large enough for every plan: 93 lines of 33 bytes. A smaller one
 * is refused with 2, whatever the page would need. */
#define SEVULAMON_PAGE_LENGTH 3069

/* Bytes of stack that are enough for a thread that plans, and for one that only judges and prints
 * pages. Measured on full sheets (40 strips, 6 + 6 + 6 strips, 8 free blocks or 32 in order, also
 * with windows and with weights) by the bytes of a painted stack that were changed: 103,500 for
 * planning, 31,400 for judging, 31,600 for a page, of which a thread that does nothing takes 4,500.
 * The rest is slack. */
#define SEVULAMON_PLAN_STACK 131072
#define SEVULAMON_JUDGE_STACK 65536

#ifdef __cplusplus
extern "C" {
#endif

/* Why a sheet or a plan is turned back. 1, a working table too small, cannot occur here: the table
 * is supplied inside. Where nothing else is said, the place is the offset of the field's tag. 6,
 * 15 and 16 are one check, after 5 and before 7: the values of a field are examined from left to
 * right, and the first one out of its range decides which of the three is given. 17 comes right
 * after them. */
enum sevulamon_number {
    SEVULAMON_ACCEPTED = 0,
    SEVULAMON_BUFFER_TOO_SMALL = 2,  /* the plan's or the page's; place 0 */
    SEVULAMON_FIELD_CUT = 3,         /* under three bytes left, or content runs past the end */
    SEVULAMON_TAG_NOT_PERMITTED = 4, /* also an order field with no block before it */
    SEVULAMON_LENGTH_WRONG = 5,
    SEVULAMON_OUT_OF_RANGE = 6,      /* a count: stations, desks, the desk or weight of a strip */
    SEVULAMON_TOO_MANY = 7,          /* 41st mosaic strip, 7th for one desk, 33rd block */
    SEVULAMON_NO_MEMBERS = 8,        /* at the section's head; 0 for the empty sheet */
    SEVULAMON_ORDER_NOT_PROPER = 9,
    SEVULAMON_ORDER_MISSING = 10,    /* over 8 blocks and no order, at the flight head */
    SEVULAMON_ORDER_IMPOSSIBLE = 11, /* no timetable keeps the given order, at the order field; or,
                                        without one, any proper order, at the flight head */
    SEVULAMON_LAYOUT_WRONG = 12,     /* judge: the plan's tags, lengths or sections, at the first
                                        wrong field; at the plan's length where it ends before its
                                        last section */
    SEVULAMON_RULE_BROKEN = 13,      /* judge: at the member or the head that breaks a rule */
    SEVULAMON_FIGURE_UNTRUE = 14,    /* judge: at the head that states it */
    SEVULAMON_TIME_TOO_LARGE = 15,   /* a time above its upper end: 600 for a turn, else 60,000 */
    SEVULAMON_TIME_OF_ZERO = 16,     /* a time of 0 where at least 1 is due */
    SEVULAMON_LONGEST_BELOW_SHORTEST = 17 /* of a block with a window */
};

/* What planning and printing answer. Accepted: number 0, place 0 and the length written, of the
 * plan or of the page. Refused: the number, the place and length 0. */
struct sevulamon_answer {
    uint64_t number;
    size_t place;
    size_t length;
};

/* What judging answers. Allowed: number 0, place 0 and the figure of each section, 0 for an absent
 * one. Else the number, the place and figures 0. The place of 12 to 14 is in the plan, that of
 * every other number in the sheet. */
struct sevulamon_judged {
    uint64_t number;
    size_t place;
    uint64_t mosaic;
    uint64_t sorting;
    uint64_t flight;
};

/* The functions take any bytes and any lengths, and return for all of them. Nothing is read or
 * written outside the buffers, so nothing at all through the pointer of a buffer of length 0. The
 * tests pass a null pointer there; beyond that no promise is made for a null pointer.
 *
 * There is no state behind the functions, so threads may call them at once. They may share a buffer
 * that is only read; one that is written, for a plan or a page, belongs to one call at a time. */

/* Plans a sheet. An accepted call writes the plan at the start of the buffer and no byte behind it;
 * a refused one writes nothing. The two buffers must not overlap. No allowed plan of the sheet has
 * a smaller figure in any section. Of several best sortings the one is taken that has the lower
 * desk number at the first place where they part, in the scanner's order. */
struct sevulamon_answer sevulamon_plan(const uint8_t *sheet, size_t sheet_length,
                                       uint8_t *plan, size_t plan_length);

/* Judges a plan for a sheet. Writes nothing, so its two buffers may overlap. */
struct sevulamon_judged sevulamon_judge(const uint8_t *sheet, size_t sheet_length,
                                        const uint8_t *plan, size_t plan_length);

/* Prints the page of a plan for a sheet, where the judge allows the plan. The lines are written at
 * the start of the page buffer, and no byte behind the last line feed: the page is no C string. A
 * buffer below SEVULAMON_PAGE_LENGTH is 2 at place 0, before sheet or plan is looked at. For a plan
 * that the judge does not allow, the judge's number and place come back. A refused call writes
 * nothing. The page buffer must not overlap the sheet or the plan; these two may overlap. */
struct sevulamon_answer sevulamon_page(const uint8_t *sheet, size_t sheet_length,
                                       const uint8_t *plan, size_t plan_length,
                                       uint8_t *page, size_t page_length);

#ifdef __cplusplus
}
#endif

#endif
