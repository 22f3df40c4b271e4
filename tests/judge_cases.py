#!/usr/bin/env python3
"""The sheets and plans that the program judge_cases reads, with what it must write for each.

Each case is a name, a sheet, a plan, and the line due: number, place and the three figures. The lines are written by hand from 01 and the requests of 02;
figures with weights are summed here from the batches or the finishing times.

    judge_cases.py           writes crates/judge_cases/stdin and stdout
    judge_cases.py --check   says whether they are as written here
"""
import itertools
import struct
import sys

import sheet_cases as sheets
from sheet_cases import MOST_TIME as TIME, MOST_TURN, MOST_WEIGHT, OVER, block, field, flight, job, mosaic, order, sorting, strip, window, word

FOLDER = sheets.FOLDER.parent / "judge_cases"
CEILING = 10_000_000
HEAD = 11  # bytes of the head field of a mosaic or a sorting; a batch has 12 and a scanned strip 13


def four(*values):
    return b"".join(struct.pack("<I", value) for value in values)


def eight(value):
    return struct.pack("<Q", value)


def batches(figure, *members):
    """Members: last strip, start, finish."""
    return field(0x90, eight(figure)) + b"".join(field(0x91, bytes([last]) + four(start, finish)) for last, start, finish in members)


def jobs(figure, *members):
    """Members: desk, number, scan start, desk start."""
    return field(0xA0, eight(figure)) + b"".join(field(0xA1, bytes([desk, number]) + four(scan, start)) for desk, number, scan, start in members)


def passes(figure, order_number, *members):
    """Members: first start, second start."""
    return field(0xB0, four(figure) + eight(order_number)) + b"".join(field(0xB1, four(*starts)) for starts in members)


def ready_strips(mount, *strips):
    """A mosaic of one station. Strips: when it is ready, bench time."""
    before = [0, *[ready for ready, _ in strips]]
    return mosaic(1, mount) + b"".join(strip(ready - earlier, bench) for earlier, (ready, bench) in zip(before, strips))


CASES = []
# Sheets and plans of over 200 bytes together. They have no room in the file that judge_cases reads; plan_cases.py and page_cases.py try them.
LARGE = []


def judged(name, sheet, plan, line):
    cases = CASES if len(sheet) + len(plan) <= 200 else LARGE
    cases.append((name, sheet, plan, line))


def allowed(name, sheet, plan, mosaic_figure=0, sorting_figure=0, flight_figure=0):
    judged(name, sheet, plan, "0 0 %d %d %d" % (mosaic_figure, sorting_figure, flight_figure))


def refused(name, sheet, plan, number, place):
    judged(name, sheet, plan, "%d %d 0 0 0" % (number, place))


# The worked sheets of 01. Each batching of the first one with its mounts as early as may be, and with mounts that start when the last strip is ready or later.
M = sheets.FIRST
FOUR = [(1, 0, 3), (2, 3, 7), (3, 7, 10), (4, 10, 12)]
BEST = batches(32, *FOUR)
allowed("four batches", M, BEST, 32)
allowed("batches 1, 2-3, 4", M, batches(41, (1, 0, 3), (3, 3, 12), (4, 12, 14)), 41)
allowed("batches 1, 2, 3-4", M, batches(34, (1, 0, 3), (2, 3, 7), (4, 7, 12)), 34)
allowed("four batches, later mounts", M, batches(36, (1, 2, 4), (2, 4, 8), (3, 8, 11), (4, 11, 13)), 36)
allowed("batches 1, 2-3, 4, later mounts", M, batches(45, (1, 2, 4), (3, 7, 13), (4, 13, 15)), 45)
allowed("batches 1, 2, 3-4, later mounts", M, batches(38, (1, 2, 4), (2, 4, 8), (4, 9, 13)), 38)
S = sorting(2) + job(1, 2, 5) + job(2, 1, 1)
allowed("desk 2 first", S, jobs(10, (2, 1, 0, 1), (1, 1, 1, 3)), 0, 10)
allowed("desk 1 first", S, jobs(11, (1, 1, 0, 2), (2, 1, 2, 3)), 0, 11)
T = sorting(2) + job(1) + job(2)
allowed("two desks, desk 1 first", T, jobs(5, (1, 1, 0, 1), (2, 1, 1, 2)), 0, 5)
allowed("two desks, desk 2 first", T, jobs(5, (2, 1, 0, 1), (1, 1, 1, 2)), 0, 5)
allowed("one block", flight() + block(3, 4, 1), passes(8, 2, (0, 7)), 0, 0, 8)
F = flight() + block(1, 2, 1) * 2
allowed("two blocks, interleaved", F, passes(5, 0xC, (0, 3), (1, 4)), 0, 0, 5)
A = flight() + block(1, 0, 1) + block(1, 5, 1)
allowed("order A", A + order(0xA), passes(9, 0xA, (0, 1), (2, 8)), 0, 0, 9)
refused("order C cannot be kept", A + order(0xC), passes(9, 0xC, (0, 1), (2, 8)), 13, 0)
E = flight() + b"".join(block(*b) for b in sheets.EIGHT)
STARTS = [0, 6, 8, 9, 12, 19, 21, 22]
EIGHT = [(first, first + a + l) for first, (a, l, b) in zip(STARTS, sheets.EIGHT)]
allowed("000's eight blocks", E + order(0xF2C4), passes(30, 0xF2C4, *EIGHT), 0, 0, 30)
allowed("the same with no order given", E, passes(30, 0xF2C4, *EIGHT), 0, 0, 30)
ALL = M + S + F
PLAN = BEST + jobs(10, (2, 1, 0, 1), (1, 1, 1, 3)) + passes(5, 0xC, (0, 3), (1, 4))
allowed("all three sections", ALL, PLAN, 32, 10, 5)

# Idle time is allowed.
allowed("mounts that wait", M, batches(4000, (4, 992, 1000)), 4000)
allowed("a scanner and desks that wait", S, jobs(27, (2, 1, 5, 10), (1, 1, 7, 11)), 0, 27)
allowed("passes that wait", F, passes(105, 0xC, (100, 103), (101, 104)), 0, 0, 105)

# The sheet goes first, with its place in the sheet.
refused("a sheet that is refused", flight() + block() * 9, b"", 10, 0)
refused("a cut sheet and a good plan", M[:-1], BEST, 3, 33)
# So it is with 6, 15, 16 and 17: all three sections, in each of them a value out of its range, a weight among them, or two of which the left one decides; and a
# plan of the good sheet, or a plan with a fault of its own. For the good sheet each of these plans is 12, 13 or 14.
ONE_JOB, ONE_BLOCK = sorting(2) + job(1, 2, 5), flight() + block(1, 2, 1)
BAD_SHEETS = [
    ("stations 0, mount time 60,001", mosaic(0, OVER) + M[6:] + S + F, 6, 0),
    ("mount time 60,001", mosaic(2, OVER) + M[6:] + S + F, 15, 0),
    ("station time 60,001, bench time 0", M[:6] + strip(2, OVER, 0) + M[15:] + S + F, 15, 6),
    ("bench time 0 of the second strip", M[:15] + strip(1, 3, 0) + M[24:] + S + F, 16, 15),
    ("weight 0 of the second strip", M[:15] + strip(1, 3, 3, weight=0) + M[24:] + S + F, 6, 15),
    ("desk 3 of 2", M + ONE_JOB + job(3, 1, 1) + F, 6, len(M + ONE_JOB)),
    ("weight 101 of the second job", M + ONE_JOB + job(2, 1, 1, weight=101) + F, 6, len(M + ONE_JOB)),
    ("scan time 0, desk time 60,001", M + ONE_JOB + job(2, 0, OVER) + F, 16, len(M + ONE_JOB)),
    ("desk time 60,001", M + ONE_JOB + job(2, 1, OVER) + F, 15, len(M + ONE_JOB)),
    ("turn 601", M + S + flight(MOST_TURN + 1) + F[3:], 15, len(M + S)),
    ("first pass 60,001, second pass 0", M + S + ONE_BLOCK + block(OVER, 2, 0), 15, len(M + S + ONE_BLOCK)),
    ("second pass 0", M + S + ONE_BLOCK + block(1, 2, 0), 16, len(M + S + ONE_BLOCK)),
    ("a window from 3 to 2", M + S + ONE_BLOCK + window(1, 3, 2, 1), 17, len(M + S + ONE_BLOCK)),
]
BAD_PLANS = [
    ("an empty plan", b"", 12, 0),
    ("a plan whose last field is cut", PLAN[:-1], 12, len(PLAN) - 11),
    ("a plan whose first batch finishes late", batches(32, (1, 0, 4)) + PLAN[HEAD + 12:], 13, HEAD),
    ("a plan whose first figure is untrue", batches(33) + PLAN[HEAD:], 14, 0),
]
for kind, plan, number, place in BAD_PLANS:
    refused("the good sheet, and " + kind, ALL, plan, number, place)
for fault, sheet, number, place in BAD_SHEETS:
    for kind, plan in [("a plan of the good sheet", PLAN), *[bad[:2] for bad in BAD_PLANS]]:
        refused("%s, and %s" % (fault, kind), sheet, plan, number, place)

# 12: layout.
refused("an empty plan", M, b"", 12, 0)
refused("a plan of another section", M, jobs(10, (2, 1, 0, 1)), 12, 0)
refused("a refusal is no plan", M, field(0xE0, word(6) + four(0)), 12, 0)
refused("a cut head", M, BEST[:HEAD - 1], 12, 0)
refused("a cut first member", M, BEST[:HEAD + 11], 12, HEAD)
refused("a cut last member", M, BEST[:-1], 12, HEAD + 3 * 12)
for length in (0, 4, 7, 9, 12):
    refused("a mosaic head of %d bytes" % length, M, field(0x90, (eight(32) + bytes(4))[:length]) + BEST[HEAD:], 12, 0)
refused("a member of ten bytes", M, batches(32, (1, 0, 3)) + field(0x91, bytes(10)), 12, HEAD + 12)
refused("a byte behind the plan", M, BEST + b"\0", 12, len(BEST))
refused("a head behind the last section", M, BEST + batches(0), 12, len(BEST))
refused("a section missing at the end", M + S, BEST, 12, len(BEST))
refused("a section missing in the middle", ALL, BEST + passes(5, 0xC, (0, 3), (1, 4)), 12, len(BEST))
refused("sections in another order", M + S, jobs(10, (2, 1, 0, 1), (1, 1, 1, 3)) + BEST, 12, 0)
refused("a wrong last field goes before a broken first member", M, batches(32, (1, 0, 4), *FOUR[1:]) + b"\0", 12, len(BEST))

# 13 at a batch: first, middle, last.
def mosaic_fault(name, index, member):
    members = list(FOUR)
    members[index] = member
    refused(name, M, batches(32, *members), 13, HEAD + 12 * index)


mosaic_fault("a finish too early", 0, (1, 0, 2))
mosaic_fault("a finish too late", 1, (2, 3, 8))
mosaic_fault("a mount before the batch before finishes", 2, (3, 6, 9))
mosaic_fault("a batch that does not rise", 2, (2, 7, 8))
mosaic_fault("a last strip that is not there", 3, (5, 10, 12))
mosaic_fault("a last strip of 0", 0, (0, 0, 1))
refused("a batch too many", M, BEST + batches(0, (4, 12, 13))[HEAD:], 13, len(BEST))
refused("batches missing", M, batches(32, *FOUR[:3]), 13, 0)
refused("no batch", M, batches(32), 13, 0)
refused("an untrue figure", M, batches(33, *FOUR), 14, 0)
allowed("a finish at the ceiling", M, batches(4 * CEILING, (4, CEILING - 8, CEILING)), 4 * CEILING)
refused("a finish past the ceiling", M, batches(4 * CEILING + 4, (4, CEILING - 7, CEILING + 1)), 13, HEAD)

# A mount may start before the last strip of its batch is ready; bench work starts when the mount is done and that strip is ready. One strip with a bench
# time of 2: mount time, when the strip is ready, start, finish. A finish one minute early or late is 13.
for mount, ready, start, finish in [
    (3, 5, 0, 7),
    (3, 5, 1, 7),
    (3, 5, 2, 7),
    (3, 5, 3, 8),
    (3, 5, 9, 14),
    (0, 5, 0, 7),
    (0, 5, 4, 7),
    (0, 5, 5, 7),
    (0, 5, 6, 8),
    (4, 5, 0, 7),
    (5, 5, 0, 7),
    (6, 5, 0, 8),
    (6, 5, 5, 13),
    (0, 0, 0, 2),
    (0, 0, 1, 3),
    (6, 0, 0, 8),
    (TIME - 1, TIME, 0, TIME + 2),
    (TIME, TIME, 0, TIME + 2),
    (TIME, TIME, 1, TIME + 3),
    (TIME, TIME - 1, 0, TIME + 2),
]:
    sheet, name = ready_strips(mount, (ready, 2)), "a mount of %d from %d on, a strip ready at %d" % (mount, start, ready)
    allowed(name, sheet, batches(finish, (1, start, finish)), finish)
    for what, other in [("early", finish - 1), ("late", finish + 1)]:
        refused("%s, a finish one minute %s" % (name, what), sheet, batches(other, (1, start, other)), 13, HEAD)
AHEAD = ready_strips(3, (5, 2))
refused("a mount ahead, a finish as if the strip were ready", AHEAD, batches(5, (1, 0, 5)), 13, HEAD)
refused("a mount ahead, a finish as if it started when the strip is ready", AHEAD, batches(10, (1, 0, 10)), 13, HEAD)
refused("a mount ahead, an untrue figure", AHEAD, batches(10, (1, 0, 7)), 14, 0)
refused("a mount ahead, a finish one minute late, an untrue figure", AHEAD, batches(7, (1, 0, 8)), 13, HEAD)

# The first worked sheet: several starts have one finish, up to the last start at which the mount is done when the strip is ready.
allowed("batch 1 from 1 on", M, batches(35, (1, 1, 3), (2, 4, 8), (3, 8, 11), (4, 11, 13)), 35)
for start, finish in [(4, 12), (6, 12), (7, 13)]:
    figure = 3 + 2 * finish + finish + 2
    allowed("batch 2-3 from %d on" % start, M, batches(figure, (1, 0, 3), (3, start, finish), (4, finish, finish + 2)), figure)
for start, finish in [(8, 12), (9, 13)]:
    allowed("batch 3-4 from %d on" % start, M, batches(10 + 2 * finish, (1, 0, 3), (2, 3, 7), (4, start, finish)), 10 + 2 * finish)
refused("batch 2-3 from 7 on, finished as from 6 on", M, batches(41, (1, 0, 3), (3, 7, 12), (4, 12, 14)), 13, HEAD + 12)
refused("batch 2-3 from 6 on, finished as from 7 on", M, batches(44, (1, 0, 3), (3, 6, 13), (4, 13, 15)), 13, HEAD + 12)
refused("batch 3-4 from 9 on, finished as from 8 on", M, batches(34, (1, 0, 3), (2, 3, 7), (4, 9, 12)), 13, HEAD + 24)
# A batch waits for its last strip, not for its first one.
refused("batch 2-3, finished as if strip 2 were the last one", M, batches(32, (1, 0, 3), (3, 3, 9), (4, 9, 11)), 13, HEAD + 12)
refused("batch 3-4, finished as if strip 3 were the last one", M, batches(32, (1, 0, 3), (2, 3, 7), (4, 7, 11)), 13, HEAD + 24)
# A start before the batch before finishes is 13, though the finish would be the same.
mosaic_fault("a mount one minute before batch 1 finishes, its finish as it should be", 1, (2, 2, 7))
refused("batch 2-3 one minute before batch 1 finishes", M, batches(41, (1, 0, 3), (3, 2, 12), (4, 12, 14)), 13, HEAD + 12)
refused("batch 3-4 one minute before batch 2 finishes", M, batches(34, (1, 0, 3), (2, 3, 7), (4, 6, 12)), 13, HEAD + 24)
refused("batch 3-4 from 0 on", M, batches(34, (1, 0, 3), (2, 3, 7), (4, 0, 12)), 13, HEAD + 24)
# The figure is that of the finishes in the plan.
refused("four batches, figure 36", M, batches(36, *FOUR), 14, 0)
refused("four batches, later mounts, figure 32", M, batches(32, (1, 2, 4), (2, 4, 8), (3, 8, 11), (4, 11, 13)), 14, 0)
refused("batches 1, 2-3, 4, figure 45", M, batches(45, (1, 0, 3), (3, 3, 12), (4, 12, 14)), 14, 0)
refused("batches 1, 2, 3-4, figure 38", M, batches(38, (1, 0, 3), (2, 3, 7), (4, 7, 12)), 14, 0)

# Three strips, mount time 2: the first and the third are waited for, the second is not. Mounts at their earliest, at their latest for the same finishes, and
# later; in each batch a finish one minute early or late.
WAITED = ready_strips(2, (5, 3), (6, 1), (20, 4))
EARLIEST = [(1, 0, 8), (2, 8, 11), (3, 11, 24)]
for name, figure, members in [
    ("the earliest mounts", 43, EARLIEST),
    ("the latest mounts for the same finishes", 43, [(1, 3, 8), (2, 8, 11), (3, 18, 24)]),
    ("later mounts", 49, [(1, 4, 9), (2, 12, 15), (3, 19, 25)]),
]:
    allowed(name, WAITED, batches(figure, *members), figure)
    for index, (last, start, finish) in enumerate(members):
        for what, other in [("early", finish - 1), ("late", finish + 1)]:
            changed = [*members[:index], (last, start, other), *members[index + 1:]]
            refused("%s, finish %d one minute %s" % (name, index + 1, what), WAITED, batches(figure, *changed), 13, HEAD + 12 * index)
for name, index, member in [
    ("batch 1 finished as if its strip were ready", 0, (1, 0, 5)),
    ("batch 2 one minute before batch 1 finishes", 1, (2, 7, 10)),
    ("batch 2 one minute before batch 1 finishes, finished as from 8 on", 1, (2, 7, 11)),
    ("batch 2 from 0 on", 1, (2, 0, 9)),
    ("batch 3 finished as if its strip were ready", 2, (3, 11, 17)),
    ("batch 3 finished as if its mount started when its strip is ready", 2, (3, 11, 26)),
    ("batch 3 one minute before batch 2 finishes", 2, (3, 10, 24)),
    ("batch 3 from 0 on", 2, (3, 0, 24)),
]:
    refused(name, WAITED, batches(43, *EARLIEST[:index], member, *EARLIEST[index + 1:]), 13, HEAD + 12 * index)
for start, finish in [(0, 28), (18, 28), (19, 29)]:
    allowed("one batch from %d on" % start, WAITED, batches(3 * finish, (3, start, finish)), 3 * finish)
for what, finish in [("none were waited for", 10), ("strip 1 were the last one", 13), ("strip 2 were the last one", 14)]:
    refused("one batch, finished as if %s" % what, WAITED, batches(3 * finish, (3, 0, finish)), 13, HEAD)
allowed("batches 1-2, 3", WAITED, batches(44, (2, 0, 10), (3, 10, 24)), 44)
allowed("batches 1, 2-3", WAITED, batches(58, (1, 0, 8), (3, 8, 25)), 58)

# Cameras off: strips that are ready with the one before, or at 0.
OFF = mosaic(2, 1) + strip(9, 0, 1) + strip(0, 0, 1)
allowed("cameras off at the last strip", OFF, batches(22, (1, 0, 10), (2, 10, 12)), 22)
allowed("cameras off at the last strip, one batch", OFF, batches(22, (2, 0, 11)), 22)
refused("cameras off at the last strip, finished as if it were ready at 0", OFF, batches(6, (2, 0, 3)), 13, HEAD)
ALL_OFF = mosaic(4, 2) + strip(0, 0, 0, 0, 3) * 2
allowed("cameras off everywhere", ALL_OFF, batches(15, (1, 0, 5), (2, 5, 10)), 15)
allowed("cameras off everywhere, one batch", ALL_OFF, batches(16, (2, 0, 8)), 16)
refused("cameras off everywhere, finished without the mount", ALL_OFF, batches(12, (2, 0, 6)), 13, HEAD)

# 40 strips in a batch: the last one is ready at 40 T.
IN_ONE = mosaic(1, TIME) + strip(TIME, TIME) * 40
for start, finish in [(0, 80 * TIME), (39 * TIME, 80 * TIME), (39 * TIME + 1, 80 * TIME + 1)]:
    allowed("40 strips in a batch from %d on" % start, IN_ONE, batches(40 * finish, (40, start, finish)), 40 * finish)
refused("40 strips in a batch, finished as if none were waited for", IN_ONE, batches(40 * 41 * TIME, (40, 0, 41 * TIME)), 13, HEAD)

# Up to the ceiling, and numbers near the greatest of four bytes.
allowed("one strip up to the ceiling", AHEAD, batches(CEILING, (1, CEILING - 5, CEILING)), CEILING)
for start, finish in [
    (CEILING - 4, CEILING + 1),
    (CEILING - 5, CEILING + 1),
    (CEILING - 4, CEILING),
    (CEILING, CEILING),
    (CEILING + 1, CEILING),
    (2**32 - 6, 2**32 - 1),
    (2**32 - 3, 7),
    (2**32 - 1, 4),
]:
    refused("one strip from %d to %d" % (start, finish), AHEAD, batches(finish, (1, start, finish)), 13, HEAD)
PAIR = ready_strips(3, (5, 2), (6, 2))
late = lambda over: [(1, 0, 7), (2, CEILING + over - 5, CEILING + over)]
allowed("two strips up to the ceiling", PAIR, batches(CEILING + 7, *late(0)), CEILING + 7)
refused("two strips, the second one past the ceiling", PAIR, batches(CEILING + 8, *late(1)), 13, HEAD + 12)
refused("two strips, the second behind the ceiling", PAIR, batches(2 * CEILING + 5, (1, CEILING - 5, CEILING), (2, CEILING, CEILING + 5)), 13, HEAD + 12)

# Beside other sections, and what goes first.
allowed("batches 1, 2-3, 4 beside two sections", ALL, batches(41, (1, 0, 3), (3, 3, 12), (4, 12, 14)) + PLAN[len(BEST):], 41, 10, 5)
refused("a mount one minute before batch 1 finishes, beside two sections", ALL, batches(32, FOUR[0], (2, 2, 7)) + PLAN[HEAD + 24:], 13, HEAD + 12)
refused("four batches, figure 36, beside two sections", ALL, batches(36) + PLAN[HEAD:], 14, 0)
refused("a mount one minute before batch 1 finishes, a byte behind the plan", M, batches(32, FOUR[0], (2, 2, 7)) + BEST[HEAD + 24:] + b"\0", 12, len(BEST))
refused("a mount one minute before batch 1 finishes, batches missing", M, batches(32, FOUR[0], (2, 2, 7)), 13, HEAD + 12)
refused("a mount ahead, batches missing", M, batches(3, FOUR[0]), 13, 0)

# 13 at a job.
refused("a desk that is not there", S, jobs(10, (3, 1, 0, 1), (1, 1, 1, 3)), 13, HEAD)
refused("desk 0", S, jobs(10, (0, 1, 0, 1), (1, 1, 1, 3)), 13, HEAD)
refused("a strip out of turn", S, jobs(10, (2, 2, 0, 1), (1, 1, 1, 3)), 13, HEAD)
refused("a strip twice", S, jobs(10, (2, 1, 0, 1), (2, 1, 1, 3)), 13, HEAD + 13)
refused("a strip too many", S, jobs(10, (2, 1, 0, 1), (1, 1, 1, 3), (1, 2, 8, 9)), 13, HEAD + 26)
refused("a scan before the one above it ends", S, jobs(9, (2, 1, 0, 1), (1, 1, 0, 2)), 13, HEAD + 13)
refused("a desk job before its scan ends", S, jobs(9, (2, 1, 0, 1), (1, 1, 1, 2)), 13, HEAD + 13)
TWO = sorting(1) + job(1, 1, 5) + job(1, 1, 5)
allowed("a desk's strips one after another", TWO, jobs(17, (1, 1, 0, 1), (1, 2, 1, 6)), 0, 17)
refused("a desk that takes two strips at once", TWO, jobs(16, (1, 1, 0, 1), (1, 2, 1, 5)), 13, HEAD + 13)
refused("jobs missing", S, jobs(2, (2, 1, 0, 1)), 13, 0)
refused("an untrue sorting figure", S, jobs(9, (2, 1, 0, 1), (1, 1, 1, 3)), 14, 0)
allowed("a desk that finishes at the ceiling", sorting() + job(1, 1, 1), jobs(CEILING, (1, 1, 0, CEILING - 1)), 0, CEILING)
refused("a desk that finishes past the ceiling", sorting() + job(1, 1, 1), jobs(CEILING + 1, (1, 1, 0, CEILING)), 13, HEAD)

# 13 at a block, and at the head of a flight.
refused("a delay one second short", F, passes(5, 0xC, (0, 2), (1, 4)), 13, 15)
refused("a delay one second long", F, passes(5, 0xC, (0, 3), (1, 5)), 13, 26)
refused("a block too many", F, passes(5, 0xC, (0, 3), (1, 4), (9, 12)), 13, 37)
refused("a block missing", F, passes(5, 0xC, (0, 3)), 13, 0)
refused("an improper order number", F, passes(5, 3, (0, 3), (1, 4)), 13, 0)
refused("another order number", F, passes(5, 0xA, (0, 3), (1, 4)), 13, 0)
refused("an order other than the given one", F + order(0xA), passes(5, 0xC, (0, 3), (1, 4)), 13, 0)
refused("overlapping passes", F, passes(4, 0xC, (0, 3), (0, 3)), 13, 0)
LONG = flight() + block(4, 4, 2) * 2
refused("passes that overlap by one second", LONG, passes(13, 0xC, (0, 8), (3, 11)), 13, 0)
allowed("passes that touch", LONG, passes(14, 0xC, (0, 8), (4, 12)), 0, 0, 14)
refused("blocks out of sheet order", F, passes(5, 0xC, (1, 4), (0, 3)), 13, 0)
refused("an untrue flight figure", F, passes(6, 0xC, (0, 3), (1, 4)), 14, 0)
ONE = flight() + block(1, 0, 1)
allowed("a pass that ends at the ceiling", ONE, passes(CEILING, 2, (CEILING - 2, CEILING - 1)), 0, 0, CEILING)
refused("a pass that ends past the ceiling", ONE, passes(CEILING + 1, 2, (CEILING - 1, CEILING)), 13, 15)



# The turn: passes of 1, 2, .. seconds in an order, with given gaps between them. Gaps as long as the turn are allowed, and longer ones; one that is a second
# shorter is 13 at the head, before 14, whichever passes it lies between.
def flown(number, *gaps):
    """The blocks of such a flight, their starts, and the end."""
    starts, lengths, now = ([], []), ([], []), 0
    for k, gap in enumerate((*gaps, 0)):
        second = number >> k & 1
        starts[second].append(now)
        lengths[second].append(k + 1)
        now += k + 1 + gap
    blocks = [block(a, y - x - a, b) for x, y, a, b in zip(*starts, *lengths)]
    return b"".join(blocks), list(zip(*starts)), now


def turns(number, turn, given, *gaps):
    """The sheet of such a flight with a turn, and its plans with the true figure and with an untrue one."""
    blocks, starts, end = flown(number, *gaps)
    sheet = flight(turn) + blocks + (order(number) if given else b"")
    return sheet, end, passes(end, number, *starts), passes(end + 1, number, *starts)


def try_turns(number, count, turn, given):
    name = "order %X, %s, turn %d" % (number, "given" if given else "free", turn)
    sheet, end, plan, untrue = turns(number, turn, given, *[turn] * count)
    allowed(name, sheet, plan, 0, 0, end)
    refused(name + ", an untrue figure", sheet, untrue, 14, 0)
    for k in range(count):
        gaps = lambda gap: [turn] * k + [gap] + [turn] * (count - k - 1)
        sheet, end, plan, untrue = turns(number, turn, given, *gaps(turn - 1))
        refused("%s, gap %d too short" % (name, k + 1), sheet, plan, 13, 0)
        refused("%s, gap %d too short, an untrue figure" % (name, k + 1), sheet, untrue, 13, 0)
        sheet, end, plan, _ = turns(number, turn, given, *gaps(turn + 1))
        allowed("%s, gap %d longer" % (name, k + 1), sheet, plan, 0, 0, end)


for number, count in [(0x2, 1), (0xA, 3), (0xC, 3)]:
    for turn, given in [(1, False), (1, True), (MOST_TURN, False), (MOST_TURN, True)]:
        try_turns(number, count, turn, given)
try_turns(0x2C, 5, 7, False)

# A written 0 is as an empty head.
allowed("passes that touch, a written 0", flight(0) + LONG[3:], passes(14, 0xC, (0, 8), (4, 12)), 0, 0, 14)
refused("passes that overlap by one second, a written 0", flight(0) + LONG[3:], passes(13, 0xC, (0, 8), (3, 11)), 13, 0)
refused("passes that touch, a turn of 1", flight(1) + LONG[3:], passes(14, 0xC, (0, 8), (4, 12)), 13, 0)
# The turn is due behind each pass and not before the first one; members go first, then the head, then the figure.
TURNED = flight(2) + block(1, 5, 1) * 2
allowed("a turn, passes from 0 on", TURNED, passes(10, 0xC, (0, 6), (3, 9)), 0, 0, 10)
allowed("a turn, passes from 1 on", TURNED, passes(11, 0xC, (1, 7), (4, 10)), 0, 0, 11)
refused("a turn too short and a delay one second short", TURNED, passes(9, 0xC, (0, 6), (3, 8)), 13, 26)
refused("a turn too short and a block past the ceiling", TURNED, passes(CEILING + 1, 0xC, (CEILING - 10, CEILING - 4), (CEILING - 6, CEILING)), 13, 26)
refused("a turn too short and a block missing", TURNED, passes(7, 0xC, (0, 6)), 13, 0)
refused("a turn too short and an order number that is not kept", TURNED, passes(9, 0xA, (0, 6), (2, 8)), 13, 0)
allowed("a turn, up to the ceiling", TURNED, passes(CEILING, 0xC, (CEILING - 10, CEILING - 4), (CEILING - 7, CEILING - 1)), 0, 0, CEILING)
refused("a turn, one past the ceiling", TURNED, passes(CEILING + 1, 0xC, (CEILING - 9, CEILING - 3), (CEILING - 6, CEILING)), 13, 26)
# Behind other sections.
BEFORE = PLAN[:-37]
allowed("a turn behind two sections", M + S + TURNED, BEFORE + passes(10, 0xC, (0, 6), (3, 9)), 32, 10, 10)
refused("a turn too short behind two sections", M + S + TURNED, BEFORE + passes(9, 0xC, (0, 6), (2, 8)), 13, len(BEFORE))
refused("the same with an untrue figure", M + S + TURNED, BEFORE + passes(8, 0xC, (0, 6), (2, 8)), 13, len(BEFORE))
refused("an untrue mosaic figure and a turn too short", M + TURNED, batches(33) + BEST[HEAD:] + passes(9, 0xC, (0, 6), (2, 8)), 14, 0)
refused("a turn too short and a byte behind the plan", TURNED, passes(9, 0xC, (0, 6), (2, 8)) + b"\0", 12, 37)

# A sheet that is impossible by its turn: no plan of it is allowed, and 11 is not given.
NEVER = flight(5) + block(1, 4, 1)
refused("a delay below the turn", NEVER, passes(6, 2, (0, 5)), 13, 0)
refused("a delay below the turn, an untrue figure", NEVER, passes(5, 2, (0, 5)), 13, 0)
refused("a delay below the turn, the turn kept", NEVER, passes(7, 2, (0, 6)), 13, 15)
refused("a delay below the turn, no block", NEVER, passes(6, 2), 13, 0)
refused("a delay below the turn, an empty plan", NEVER, b"", 12, 0)
refused("a delay below the turn, an untrue mosaic figure", M + NEVER, batches(33) + BEST[HEAD:] + passes(6, 2, (0, 5)), 14, 0)
TIGHT = flight(1) + block(1, 2, 1) * 2
allowed("a turn of 1, order A", TIGHT + order(0xA), passes(9, 0xA, (0, 3), (5, 8)), 0, 0, 9)
refused("a turn of 1, order C cannot be kept", TIGHT + order(0xC), passes(5, 0xC, (0, 3), (1, 4)), 13, 0)
refused("a turn of 1, order C given, order A flown", TIGHT + order(0xC), passes(9, 0xA, (0, 3), (5, 8)), 13, 0)

# Windows: the delay lies from the shortest to the longest, both included. One block, each delay about its window, from 0 and later, in every kind of flight.
def one_window(name, sheet, a, shortest, longest, b, delays, start=0, turn=0, over=0):
    """A plan of one block for each delay: one outside the window is 13 at the member, one below the turn 13 at the head, in both before 14 of a figure that is
    over the true one."""
    for delay in delays:
        end = start + a + delay + b
        plan, within = passes(end + over, 2, (start, start + a + delay)), shortest <= delay <= longest
        if not within or delay < turn:
            refused("%s, delay %d" % (name, delay), sheet, plan, 13, 0 if within else 15)
        elif over:
            refused("%s, delay %d" % (name, delay), sheet, plan, 14, 0)
        else:
            allowed("%s, delay %d" % (name, delay), sheet, plan, 0, 0, end)


SOME = window(2, 3, 6, 1)
one_window("a window from 3 to 6", flight() + SOME, 2, 3, 6, 1, range(9))
one_window("a window from 3 to 6, an untrue figure", flight() + SOME, 2, 3, 6, 1, (2, 3, 6, 7), over=1)
one_window("a window from 3 to 6, a pass that waits", flight() + SOME + order(2), 2, 3, 6, 1, (2, 3, 6, 7), start=5)
one_window("a window from 3 to 6, turn 5", flight(5) + SOME, 2, 3, 6, 1, (2, 3, 4, 5, 6, 7), turn=5)
one_window("a window from 3 to 6, turn 5, an untrue figure", flight(5) + SOME, 2, 3, 6, 1, (2, 4, 5, 7), turn=5, over=1)
one_window("a window from 3 to 6, turn 5, order 2", flight(5) + SOME + order(2), 2, 3, 6, 1, (2, 4, 5, 6, 7), turn=5)
one_window("a window from 3 to 6, turn 7", flight(7) + SOME, 2, 3, 6, 1, (2, 3, 6, 7, 8), turn=7)
one_window("a window of 3 alone", flight() + window(2, 3, 3, 1), 2, 3, 3, 1, (2, 3, 4))
one_window("a window from 0 to 1", flight() + window(1, 0, 1, 1), 1, 0, 1, 1, (0, 1, 2))
one_window("a window from 0 to 60,000", flight() + window(1, 0, 60000, 1), 1, 0, 60000, 1, (0, 256, 60000, 60001))
one_window("a window from 59,999 to 60,000", flight() + window(1, 59999, 60000, 1), 1, 59999, 60000, 1, (59998, 59999, 60000, 60001, 65535))
# A second pass that starts before its first ends is below every window.
for starts in [(5, 5), (5, 0), (5, 6)]:
    refused("a second pass at %d behind a first at %d of 2" % starts[::-1], flight() + window(2, 0, 9, 1), passes(9, 2, starts), 13, 15)
# Up to the ceiling, with either end of the window.
for delay in (3, 6):
    late = lambda over: (CEILING + over - 3 - delay, CEILING + over - 1)
    allowed("delay %d of 3 to 6, up to the ceiling" % delay, flight() + SOME, passes(CEILING, 2, late(0)), 0, 0, CEILING)
    refused("delay %d of 3 to 6, one past the ceiling" % delay, flight() + SOME, passes(CEILING + 1, 2, late(1)), 13, 15)

# Three blocks of both kinds, one after another. Each of them at either end of its window and one second beyond; the other delays are exact or in the middle.
KINDS = [(2, 3, 6, 1), (1, 4, 4, 2), (3, 0, 2, 1)]
MIXED = window(*KINDS[0]) + block(1, 4, 2) + window(*KINDS[2])
MIDDLE = [5, 4, 1]


def flown_apart(delays, turn):
    """The starts of these blocks, each a turn behind the one before, and the end."""
    starts, now = [], -turn
    for (a, _, _, b), delay in zip(KINDS, delays):
        starts.append((now + turn, now + turn + a + delay))
        now = starts[-1][1] + b
    return starts, now


for turn, given in [(0, False), (1, True)]:
    sheet = flight(turn) + MIXED + (order(0x2A) if given else b"")
    for index, (_, shortest, longest, _) in enumerate(KINDS):
        for delay in sorted({max(shortest, turn) - 1, max(shortest, turn), longest, longest + 1} - {-1}):
            starts, end = flown_apart(MIDDLE[:index] + [delay] + MIDDLE[index + 1:], turn)
            name = "block %d of three with delay %d, turn %d, %s order" % (index + 1, delay, turn, "given" if given else "free")
            if shortest <= delay <= longest and turn <= delay:
                allowed(name, sheet, passes(end, 0x2A, *starts), 0, 0, end)
            elif shortest <= delay <= longest:
                refused(name, sheet, passes(end, 0x2A, *starts), 13, 0)
            else:
                refused(name, sheet, passes(end, 0x2A, *starts), 13, 15 + 11 * index)
starts, end = flown_apart(MIDDLE, 0)
refused("three blocks of both kinds, an untrue figure", flight() + MIXED, passes(end - 1, 0x2A, *starts), 14, 0)
refused("three blocks of both kinds, another order given", flight() + MIXED + order(0x2C), passes(end, 0x2A, *starts), 13, 0)
refused("delays of two blocks outside their windows: the first decides", flight() + MIXED, passes(end, 0x2A, (0, 4), (8, 14), starts[2]), 13, 15)
refused("a delay outside its window and a byte behind the plan", flight() + MIXED, passes(end, 0x2A, (0, 4), *starts[1:]) + b"\0", 12, 48)
refused("a block of both kinds missing", flight() + MIXED, passes(end, 0x2A, *starts[:2]), 13, 0)
refused("a block of both kinds too many", flight() + MIXED, passes(end, 0x2A, *starts, (90, 93)), 13, 48)

# A window and an exact delay. In order C the second pass of block 1 waits for the first of block 2; a longer delay of its window may be flown too.
WIDE = flight() + window(1, 0, 3, 1) + block(1, 5, 1)
for name, sheet in [("order C", WIDE + order(0xC)), ("no order", WIDE)]:
    for first, second, number in [(0, 1, 13), (0, 2, 0), (0, 3, 0), (0, 4, 0)]:
        plan = passes(8, 0xC, (first, second), (1, 7))
        if number:
            refused("%s, block 1 at %d and %d" % (name, first, second), sheet, plan, number, 0)
        else:
            allowed("%s, block 1 at %d and %d" % (name, first, second), sheet, plan, 0, 0, 8)
    refused("%s, block 1 at 0 and 5" % name, sheet, passes(8, 0xC, (0, 5), (1, 7)), 13, 15)
    allowed("%s, all passes wait" % name, sheet, passes(18, 0xC, (10, 12), (11, 17)), 0, 0, 18)
    allowed("%s, block 2 waits between the passes of block 1" % name, sheet, passes(9, 0xC, (0, 4), (2, 8)), 0, 0, 9)
    refused("%s, the passes of block 1 and block 2 overlap" % name, sheet, passes(7, 0xC, (0, 2), (0, 6)), 13, 0)
allowed("no order, order A flown", WIDE, passes(9, 0xA, (0, 1), (2, 8)), 0, 0, 9)
refused("order C given, order A flown", WIDE + order(0xC), passes(9, 0xA, (0, 1), (2, 8)), 13, 0)
refused("order A given, order C flown", WIDE + order(0xA), passes(8, 0xC, (0, 2), (1, 7)), 13, 0)
# Behind other sections.
allowed("a window behind two sections", M + S + WIDE, BEFORE + passes(8, 0xC, (0, 2), (1, 7)), 32, 10, 8)
refused("a delay outside its window behind two sections", M + S + WIDE, BEFORE + passes(8, 0xC, (0, 5), (1, 7)), 13, len(BEFORE) + 15)
refused("an untrue figure behind two sections", M + S + WIDE, BEFORE + passes(7, 0xC, (0, 2), (1, 7)), 14, len(BEFORE))
refused("an untrue mosaic figure and a delay outside its window", M + WIDE, batches(33) + BEST[HEAD:] + passes(8, 0xC, (0, 5), (1, 7)), 14, 0)

# The turn and windows: passes of 1 and windows from 0 to 20, a turn of 5. A gap of the turn is allowed, one a second shorter is 13 at the head.
GAPS = flight(5) + window(1, 0, 20, 1) * 2
for second, third, fourth, number in [(6, 12, 18, 0), (5, 12, 18, 13), (6, 11, 18, 13), (6, 12, 17, 13), (7, 13, 19, 0)]:
    plan = passes(fourth + 1, 0xC, (0, third), (second, fourth))
    if number:
        refused("windows, passes at 0, %d, %d and %d, turn 5" % (second, third, fourth), GAPS + order(0xC), plan, number, 0)
    else:
        allowed("windows, passes at 0, %d, %d and %d, turn 5" % (second, third, fourth), GAPS + order(0xC), plan, 0, 0, fourth + 1)
# A sheet whose longest delay is below the turn: no plan of it is allowed, and 11 is not given.
NO_WINDOW = flight(5) + window(1, 0, 4, 1)
refused("a longest delay below the turn", NO_WINDOW, passes(6, 2, (0, 5)), 13, 0)
refused("a longest delay below the turn, the turn kept", NO_WINDOW, passes(7, 2, (0, 6)), 13, 15)
refused("a longest delay below the turn, an order", NO_WINDOW + order(2), passes(6, 2, (0, 5)), 13, 0)
refused("a longest delay below the turn, an empty plan", NO_WINDOW, b"", 12, 0)

# Weights. A batch counts with the sum of the weights of its strips, each strip of a desk with its own. Untrue are the figure of the same plan without weights,
# and that with weights of other strips.
def of_weights(weights, *members):
    """The mosaic figure of these batches."""
    ends = [0, *[last for last, _, _ in members]]
    return sum(sum(weights[first:last]) * finish for first, (last, _, finish) in zip(ends, members))


def weighted_worked(weights):
    """The first worked sheet with these weights; None for a strip that carries none."""
    return mosaic(2, 1) + b"".join(strip(*times, weight=weight) for times, weight in zip(WORKED, weights))


def untrue_figures(name, sheet, plan_of, figure, *others):
    """Figures that are not the true one: those next to it, those with the same low four bytes, and others."""
    for other in sorted({figure - 1, figure + 1, figure + 2**32, figure + 2**63, figure % 2**32, *others} - {figure}):
        refused("%s, figure %d" % (name, other), sheet, plan_of(other), 14, 0)


WORKED = [(2, 1, 1), (1, 3, 3), (4, 2, 2), (1, 3, 1)]
BATCHINGS = [
    ("four batches", FOUR),
    ("batches 1, 2-3, 4", [(1, 0, 3), (3, 3, 12), (4, 12, 14)]),
    ("batches 1, 2, 3-4, later mounts", [(1, 2, 4), (2, 4, 8), (4, 9, 13)]),
    ("one batch", [(4, 0, 16)]),
]
assert weighted_worked([None] * 4) == M
for name, members in BATCHINGS:
    for weights in [(1, 1, 1, 1), (100, 1, 1, 1), (1, 1, 1, 100), (2, 3, 5, 7)]:
        sheet, figure = weighted_worked(weights), of_weights(weights, *members)
        allowed("%s, weights %d %d %d %d" % (name, *weights), sheet, batches(figure, *members), figure)
weights, members = (2, 3, 5, 7), BATCHINGS[1][1]
untrue_figures(
    "weights 2 3 5 7", weighted_worked(weights), lambda figure: batches(figure, *members), of_weights(weights, *members),
    of_weights([1] * 4, *members), of_weights(weights[::-1], *members), of_weights([17] * 4, *members),
)
untrue_figures("no weights", M, lambda figure: batches(figure, *FOUR), 32)
for which in itertools.product((None, 1), repeat=4):
    name = " ".join("none" if weight is None else "1" for weight in which)
    allowed("weights %s" % name, weighted_worked(which), BEST, 32)
MIXED_STRIPS = weighted_worked((None, 9, None, 4))
allowed("strips with and without weights", MIXED_STRIPS, batches(124, *FOUR), 124)
refused("strips with and without weights, figure 32", MIXED_STRIPS, BEST, 14, 0)
refused("strips with and without weights, a finish too late", MIXED_STRIPS, batches(125, FOUR[0], (2, 3, 8), *FOUR[2:]), 13, HEAD + 12)
refused("strips with and without weights, a finish too late, an untrue figure", MIXED_STRIPS, batches(9, *FOUR[:3], (4, 10, 13)), 13, HEAD + 36)
refused("strips with and without weights, a batch missing", MIXED_STRIPS, batches(76, *FOUR[:3]), 13, 0)
refused("strips with and without weights, a byte behind the plan", MIXED_STRIPS, batches(124, *FOUR) + b"\0", 12, len(BEST))

# A heavy strip may wait: the judge allows plans that are not best.
URGENT = sorting(2) + job(1, 2, 5, weight=3) + job(2, 1, 1)
allowed("the heavy strip first", URGENT, jobs(25, (1, 1, 0, 2), (2, 1, 2, 3)), 0, 25)
allowed("the heavy strip last", URGENT, jobs(26, (2, 1, 0, 1), (1, 1, 1, 3)), 0, 26)
allowed("the heavy strip last and late", URGENT, jobs(10 + 3 * 100, (2, 1, 0, 9), (1, 1, 1, 95)), 0, 310)
untrue_figures("the heavy strip first", URGENT, lambda figure: jobs(figure, (1, 1, 0, 2), (2, 1, 2, 3)), 25, 11, 7 + 3 * 4, 3 * 11)
for which in itertools.product((None, 1), repeat=2):
    sheet = sorting(2) + job(1, 2, 5, weight=which[0]) + job(2, 1, 1, weight=which[1])
    allowed("weights of a sorting, %s" % " and ".join(map(str, which)), sheet, jobs(10, (2, 1, 0, 1), (1, 1, 1, 3)), 0, 10)
refused("a heavy strip scanned before the scanner is free, an untrue figure", URGENT, jobs(1, (2, 1, 0, 1), (1, 1, 0, 3)), 13, HEAD + 13)
refused("a heavy strip missing", URGENT, jobs(2, (2, 1, 0, 1)), 13, 0)
# The weight is that of the strip with the desk and the number, whichever strips stand before it in the sheet.
ORDERED = sorting(2) + job(2, 1, 1, weight=10) + job(1, 1, 1, weight=20) + job(2, 1, 1, weight=40) + job(1, 1, 1)
IN_SCANS = [(1, 1, 0, 1), (2, 1, 1, 2), (2, 2, 2, 3), (1, 2, 3, 4)]
for weights, number in [((20, 10, 40, 1), 0), ((10, 20, 40, 1), 14), ((1, 40, 10, 20), 14), ((20, 10, 1, 40), 14)]:
    figure = sum(weight * (start + 1) for weight, (_, _, _, start) in zip(weights, IN_SCANS))
    if number:
        refused("strips scanned with weights %d %d %d %d" % weights, ORDERED, jobs(figure, *IN_SCANS), number, 0)
    else:
        allowed("strips scanned with weights %d %d %d %d" % weights, ORDERED, jobs(figure, *IN_SCANS), 0, figure)

# All three sections with weights: the flight has none. The first untrue figure decides.
HEAVY_ALL = weighted_worked((2, 3, 5, 7)) + URGENT + F
HEAVY_PLAN = lambda one, two, three: batches(one, *FOUR) + jobs(two, (1, 1, 0, 2), (2, 1, 2, 3)) + passes(three, 0xC, (0, 3), (1, 4))
allowed("all three sections with weights", HEAVY_ALL, HEAVY_PLAN(161, 25, 5), 161, 25, 5)
for one, two, three, section in [(32, 25, 5, 0), (161, 11, 5, 1), (161, 25, 15, 2), (32, 11, 5, 0), (160, 24, 4, 0), (161, 24, 4, 1)]:
    place = [0, len(BEST), len(BEST) + HEAD + 26][section]
    refused("all three sections with weights, figures %d %d %d" % (one, two, three), HEAVY_ALL, HEAVY_PLAN(one, two, three), 14, place)

# Heads of other lengths than eight bytes, and in flight than twelve, are 12; so is a head of four bytes with its members, whatever its figure.
for length in (0, 4, 7, 9, 12):
    head = lambda tag, figure: field(tag, (eight(figure) + bytes(4))[:length])
    refused("a sorting head of %d bytes" % length, S, head(0xA0, 10) + PLAN[len(BEST) + HEAD:-37], 12, 0)
    refused("a sorting head of %d bytes behind a mosaic" % length, M + S, BEST + head(0xA0, 10) + PLAN[len(BEST) + HEAD:-37], 12, len(BEST))
    refused("a mosaic head of %d bytes, a broken member" % length, M, head(0x90, 32) + batches(0, (1, 0, 4))[HEAD:], 12, 0)
refused("a mosaic head of four bytes and four more", M, field(0x90, four(32)) + bytes(4) + BEST[HEAD:], 12, 0)
refused("a flight head of sixteen bytes", F, field(0xB0, eight(5) + eight(0xC)) + PLAN[-22:], 12, 0)

# Figures above four bytes: 40 strips of weight 100 in a batch that finishes at the ceiling, and each alone.
FORTY = mosaic(1, 0) + strip(0, 1, weight=MOST_WEIGHT) * 40
MOST_FIGURE = 40 * MOST_WEIGHT * CEILING
allowed("40 strips of weight 100 up to the ceiling", FORTY, batches(MOST_FIGURE, (40, CEILING - 40, CEILING)), MOST_FIGURE)
untrue_figures("40 strips of weight 100", FORTY, lambda figure: batches(figure, (40, CEILING - 40, CEILING)), MOST_FIGURE, 40 * CEILING)
refused("40 strips of weight 100, one past the ceiling", FORTY, batches(MOST_FIGURE + 4000, (40, CEILING - 39, CEILING + 1)), 13, HEAD)
LAST_ALONE = [(k, CEILING - 41 + k, CEILING - 40 + k) for k in range(1, 41)]
figure = of_weights([MOST_WEIGHT] * 40, *LAST_ALONE)
allowed("40 strips of weight 100, each alone, up to the ceiling", FORTY, batches(figure, *LAST_ALONE), figure)
untrue_figures("40 strips of weight 100, each alone", FORTY, lambda figure: batches(figure, *LAST_ALONE), figure)
ONE_HEAVY = mosaic(1, 0) + strip(0, 1) * 39 + strip(0, 1, weight=MOST_WEIGHT)
allowed("one weight of 100 among 40 strips", ONE_HEAVY, batches(139 * CEILING, (40, CEILING - 40, CEILING)), 139 * CEILING)
# A batch whose figure is 2^32 - 1, 2^32 or 2^32 + 1: strips of weight 100 and a last one, the finish.
HUNDREDS = lambda count, last: mosaic(1, 0) + strip(0, 1, weight=MOST_WEIGHT) * count + strip(0, 1, weight=last)
for figure, count, last, finish in [(2**32 - 1, 7, 71, 5_570_645), (2**32, 5, 12, 8_388_608), (2**32 + 1, 6, 41, 6_700_417)]:
    batch = count + 1, finish - count - 1, finish
    allowed("a figure of %d" % figure, HUNDREDS(count, last), batches(figure, batch), figure)
    untrue_figures("a figure of %d" % figure, HUNDREDS(count, last), lambda other: batches(other, batch), figure)
# 18 strips of weight 100 at three desks, all of them late.
LATE_JOBS = [(k // 6 + 1, k % 6 + 1, k, CEILING - 6 + k % 6) for k in range(18)]
HEAVY_JOBS = sorting(3) + b"".join(job(desk, weight=MOST_WEIGHT) * 6 for desk in (1, 2, 3))
figure = MOST_WEIGHT * sum(start + 1 for _, _, _, start in LATE_JOBS)
allowed("18 strips of weight 100 up to the ceiling", HEAVY_JOBS, jobs(figure, *LATE_JOBS), 0, figure)
untrue_figures("18 strips of weight 100", HEAVY_JOBS, lambda figure: jobs(figure, *LATE_JOBS), figure, figure // MOST_WEIGHT)
BOTH_LATE = batches(MOST_FIGURE, (40, CEILING - 40, CEILING)) + jobs(figure, *LATE_JOBS)
allowed("both figures above four bytes", FORTY + HEAVY_JOBS, BOTH_LATE, MOST_FIGURE, figure)

# The longest sections: full ones in which every time is 60,000. Without idle time, with the last member as late as it may be, and one later.
ALONE = [(k, (2 * k - 2) * TIME, 2 * k * TIME) for k in range(1, 41)]
WAITING = [(k, (38 + 2 * k) * TIME, (40 + 2 * k) * TIME) for k in range(1, 41)]
together = lambda members: sum(finish for _, _, finish in members)
allowed("the longest mosaic", sheets.LONG_MOSAIC, batches(1640 * TIME, *ALONE), 1640 * TIME)
allowed("the longest mosaic, every mount behind the last strip", sheets.LONG_MOSAIC, batches(3240 * TIME, *WAITING), 3240 * TIME)
for name, members in [("the longest mosaic", ALONE), ("the longest mosaic, every mount behind the last strip", WAITING)]:
    late = lambda over: [*members[:-1], (40, CEILING + over - 2 * TIME, CEILING + over)]
    allowed(name + ", up to the ceiling", sheets.LONG_MOSAIC, batches(together(late(0)), *late(0)), together(late(0)))
    refused(name + ", one past the ceiling", sheets.LONG_MOSAIC, batches(together(late(1)), *late(1)), 13, HEAD + 12 * 39)

IN_TURN = [(k % 3 + 1, k // 3 + 1, k * TIME, (k + 1) * TIME) for k in range(18)]
allowed("the longest sorting", sheets.LONG_SORTING, jobs(189 * TIME, *IN_TURN), 0, 189 * TIME)
late = lambda over: [*IN_TURN[:-1], (3, 6, 17 * TIME, CEILING + over - TIME)]
allowed("the longest sorting, up to the ceiling", sheets.LONG_SORTING, jobs(170 * TIME + CEILING, *late(0)), 0, 170 * TIME + CEILING)
refused("the longest sorting, one past the ceiling", sheets.LONG_SORTING, jobs(170 * TIME + CEILING + 1, *late(1)), 13, HEAD + 13 * 17)

LONG_FLIGHT = flight() + sheets.LONG_BLOCK * 32
BY_ONE, BY_TWO = sheets.alternate(32), int("1100" * 16, 2)
ONE_BY_ONE = [(3 * k * TIME, (3 * k + 2) * TIME) for k in range(32)]
TWO_BY_TWO = [((4 * (k // 2) + k % 2) * TIME, (4 * (k // 2) + k % 2 + 2) * TIME) for k in range(32)]
allowed("the longest flight, block after block", LONG_FLIGHT + order(BY_ONE), passes(96 * TIME, BY_ONE, *ONE_BY_ONE), 0, 0, 96 * TIME)
allowed("the longest flight, two by two", LONG_FLIGHT + order(BY_TWO), passes(64 * TIME, BY_TWO, *TWO_BY_TWO), 0, 0, 64 * TIME)
late = lambda over: [*ONE_BY_ONE[:-1], (CEILING + over - 3 * TIME, CEILING + over - TIME)]
allowed("the longest flight, up to the ceiling", LONG_FLIGHT + order(BY_ONE), passes(CEILING, BY_ONE, *late(0)), 0, 0, CEILING)
refused("the longest flight, one past the ceiling", LONG_FLIGHT + order(BY_ONE), passes(CEILING + 1, BY_ONE, *late(1)), 13, 15 + 11 * 31)
late = lambda over: [(first + CEILING + over - 64 * TIME, second + CEILING + over - 64 * TIME) for first, second in TWO_BY_TWO]
allowed("the longest flight, all of it up to the ceiling", LONG_FLIGHT + order(BY_TWO), passes(CEILING, BY_TWO, *late(0)), 0, 0, CEILING)
refused("the longest flight, all of it one past the ceiling", LONG_FLIGHT + order(BY_TWO), passes(CEILING + 1, BY_TWO, *late(1)), 13, 15 + 11 * 31)
refused("the longest flight, its delay one second short", LONG_FLIGHT + order(BY_ONE), passes(96 * TIME, BY_ONE, (0, 2 * TIME - 1), *ONE_BY_ONE[1:]), 13, 15)

TURNED_FLIGHT = flight(MOST_TURN) + sheets.LONG_BLOCK * 32 + order(BY_ONE)
LAST_END = 96 * TIME + 31 * MOST_TURN
TURNED_STARTS = [(first + k * MOST_TURN, second + k * MOST_TURN) for k, (first, second) in enumerate(ONE_BY_ONE)]
EARLY = [*TURNED_STARTS[:-1], tuple(start - 1 for start in TURNED_STARTS[-1])]
allowed("the longest flight and the longest turn", TURNED_FLIGHT, passes(LAST_END, BY_ONE, *TURNED_STARTS), 0, 0, LAST_END)
refused("the longest flight, the last turn one second short", TURNED_FLIGHT, passes(LAST_END - 1, BY_ONE, *EARLY), 13, 0)
late = lambda over: [*TURNED_STARTS[:-1], (CEILING + over - 3 * TIME, CEILING + over - TIME)]
allowed("the longest flight and the longest turn, up to the ceiling", TURNED_FLIGHT, passes(CEILING, BY_ONE, *late(0)), 0, 0, CEILING)
refused("the longest flight and the longest turn, one past the ceiling", TURNED_FLIGHT, passes(CEILING + 1, BY_ONE, *late(1)), 13, 15 + 11 * 31)

# 32 blocks of both kinds in order, each delay as long as it may be, and one second longer in the last one; the longest sheet.
BOTH = flight() + (block(1, 1, 1) + window(1, 0, 1, 1)) * 16 + order(BY_ONE)
EACH = [(3 * k, 3 * k + 2) for k in range(32)]
allowed("32 blocks of both kinds", BOTH, passes(96, BY_ONE, *EACH), 0, 0, 96)
refused("32 blocks of both kinds, the last delay one second long", BOTH, passes(97, BY_ONE, *EACH[:-1], (93, 96)), 13, 15 + 11 * 31)
HEAVY_FIGURES = MOST_WEIGHT * 1640 * TIME, MOST_WEIGHT * 189 * TIME
LONGEST_PLAN = batches(HEAVY_FIGURES[0], *ALONE) + jobs(HEAVY_FIGURES[1], *IN_TURN) + passes(LAST_END, BY_ONE, *TURNED_STARTS)
allowed("the longest sheet", sheets.LONGEST, LONGEST_PLAN, *HEAVY_FIGURES, LAST_END)

LONG_PLAN = batches(1640 * TIME, *ALONE) + jobs(189 * TIME, *IN_TURN) + passes(96 * TIME, BY_ONE, *ONE_BY_ONE)
allowed("the longest sections", sheets.LONG, LONG_PLAN, 1640 * TIME, 189 * TIME, 96 * TIME)

# Every kind of fault of a member, at each member of a section: first, middle and last.
def faulty(kind, sheet, plan_of, members, index, member, place):
    changed = list(members)
    changed[index] = member
    refused("%s, member %d" % (kind, index + 1), sheet, plan_of(*changed), 13, place)


BENCH = [1, 3, 2, 1]
for index, (last, start, finish) in enumerate(FOUR):
    for kind, member in [
        ("a mount one minute early", (last, start - 1, finish - 1)),
        ("a finish one minute early", (last, start, finish - 1)),
        ("a finish one minute late", (last, start, finish + 1)),
        ("a last strip that does not rise", (last - 1, start, finish)),
        ("a last strip past the sheet's", (5, start, finish)),
        ("a finish one minute past the ceiling", (last, CEILING - BENCH[index], CEILING + 1)),
    ]:
        if member[1] >= 0:
            faulty(kind, M, lambda *ms: batches(32, *ms), FOUR, index, member, HEAD + 12 * index)

THREE = sorting(2) + job(1, 1, 5) + job(2, 1, 1) + job(1, 1, 2)
JOBS = [(1, 1, 0, 1), (2, 1, 1, 2), (1, 2, 2, 6)]
DESK_TIMES = [5, 1, 2]
allowed("three strips, two desks", THREE, jobs(17, *JOBS), 0, 17)
for index, (desk, number, scan, start) in enumerate(JOBS):
    for kind, member in [
        ("a desk past the sheet's", (3, number, scan, start)),
        ("a desk of 0", (0, number, scan, start)),
        ("a strip before its turn", (desk, number + 1, scan, start)),
        ("a strip after its turn", (desk, number - 1, scan, start)),
        ("a desk job one second before its scan ends", (desk, number, scan, scan)),
        ("a scan one second before the scanner is free", (desk, number, scan - 1, start)),
        ("a desk job one second past the ceiling", (desk, number, scan, CEILING + 1 - DESK_TIMES[index])),
    ]:
        if scan > 0 or member[2] == scan:
            faulty(kind, THREE, lambda *ms: jobs(17, *ms), JOBS, index, member, HEAD + 13 * index)
faulty("a desk job one second before its desk is free", THREE, lambda *ms: jobs(17, *ms), JOBS, 2, (1, 2, 2, 5), HEAD + 26)

BLOCKS = flight() + block(1, 4, 1) * 3
STARTED = [(0, 5), (1, 6), (2, 7)]
allowed("three blocks, interleaved", BLOCKS, passes(8, 0x38, *STARTED), 0, 0, 8)
for index, (first, second) in enumerate(STARTED):
    for kind, member in [
        ("a repeat one second early", (first, second - 1)),
        ("a repeat one second late", (first, second + 1)),
        ("a repeat before its first pass", (second, first)),
        ("a pass one second past the ceiling", (CEILING - 5, CEILING)),
    ]:
        faulty(kind, BLOCKS, lambda *ms: passes(8, 0x38, *ms), STARTED, index, member, 15 + 11 * index)
    for other in STARTED[:index] + STARTED[index + 1:]:
        faulty("a block flown with another", BLOCKS, lambda *ms: passes(8, 0x38, *ms), STARTED, index, other, 0)

# Faults in two sections.
BAD_JOBS = jobs(10, (2, 1, 0, 0), (1, 1, 1, 3))
refused("the first section's fault goes first", M + S, batches(32, *FOUR[:3], (4, 10, 13)) + BAD_JOBS, 13, HEAD + 36)
refused("an untrue mosaic figure goes before a broken sorting member", M + S, batches(33, *FOUR) + BAD_JOBS, 14, 0)
refused("a good mosaic and a broken sorting", M + S, BEST + BAD_JOBS, 13, len(BEST) + HEAD)
refused("two good sections and an untrue flight figure", ALL, PLAN[:-37] + passes(6, 0xC, (0, 3), (1, 4)), 14, len(PLAN) - 37)


def files():
    pairs = b"".join(word(len(sheet)) + sheet + word(len(plan)) + plan for _, sheet, plan, _ in CASES)
    if len(pairs) > 65536:
        sys.exit("the cases take %d bytes, and judge_cases reads 65,536" % len(pairs))
    lines = "".join(line + "\n" for _, _, _, line in CASES)
    return {"stdin": pairs, "stdout": lines.encode()}


if __name__ == "__main__":
    sheets.write(FOLDER, files(), len(CASES))
