#!/usr/bin/env python3
"""Runs the program plan_sheet on sheets and compares what it writes: the plan of each worked sheet of 01, and the refusal of every sheet that sheet_cases.py
turns back.
Where a sheet has several best batchings or free pass orders, the choice is left to the program: then the figures of the plan and the bytes of its sorting are
compared, and the program judge_plan must allow it; of a mosaic also that each mount starts when the batch before finishes, and of a flight with windows that
the starts are the least of the order that the plan has. Of several best scanner lists one is due: its bytes are compared, and judge_plan must allow the others
too. The plans that judge_cases.py has no room for are judged here.
A written turn of 0 must give the plan that an empty head gives, a window of one value that of an exact delay, and a weight of 1 that of a strip without one.

    plan_cases.py PLANNER JUDGE
"""
import functools
import itertools
import pathlib
import random
import subprocess
import sys
import tempfile

import judge_cases as judged
import sheet_cases as sheets
from judge_cases import HEAD, batches, four, jobs, passes
from program_cases import FIRST_PLAN, FIRST_SHEET
from sheet_cases import MOST_TURN, MOST_WEIGHT, alternate, block, field, flight, job, mosaic, order, sorting, strip, window, word

T = sheets.MOST_TIME

CASES = []
BEST = []
OTHERS = []
SAME = []
FLOWN = []


def planned(name, sheet, plan):
    CASES.append((name, sheet, plan))


def best(name, sheet, *figures, sorting_part=b""):
    """A sheet with several best plans, the figures of its sections that they have (mosaic, sorting, flight), and the bytes of their sorting."""
    BEST.append((name, sheet, figures, sorting_part))


def tied(name, sheet, plan, *others):
    """A sorting with several best plans: the one that is due, and others, which are allowed."""
    planned(name, sheet, plan)
    OTHERS.extend((name, sheet, other, (0, 0, 0, int.from_bytes(plan[3:HEAD], "little"), 0)) for other in (plan, *others))


def refused(name, sheet, number, place):
    CASES.append((name, sheet, field(0xE0, word(number) + four(place))))


def same(name, before, members):
    """A flight behind other sections: an empty head and a written turn of 0 have the same plan."""
    SAME.append((name, before + flight() + members, before + flight(0) + members))


# A block here is (a, delay, b), or (a, shortest delay, longest delay, b).
def members_of(blocks):
    return b"".join(block(*b) if len(b) == 3 else window(*b) for b in blocks)


def same_windows(name, head, blocks, behind=b""):
    """A flight of exact delays: the same with windows of one value, in every block and in every second one."""
    of_one = [(a, l, l, b) for a, l, b in blocks]
    for what, windows in [("in every block", of_one), ("in every second block", [of_one[k] if k % 2 else b for k, b in enumerate(blocks)])]:
        SAME.append(("windows of one value %s: %s" % (what, name), head + members_of(blocks) + behind, head + members_of(windows) + behind))


def exact_starts(blocks, order_number, turn=0):
    """The starts of a flight of exact delays in an order with a turn, each pass as early as it can be; None where no timetable keeps the order."""
    n = len(blocks)
    turns = passes_in_order(n, order_number)
    starts = [0] * n  # of the first passes
    start = lambda block, second: starts[block] + (blocks[block][0] + blocks[block][1] if second else 0)
    for _ in range(n + 1):
        before = list(starts)
        for (a, x), (b, y) in zip(turns, turns[1:]):
            clear = start(a, x) + blocks[a][2 if x else 0] + turn
            starts[b] = max(starts[b], clear - (start(b, y) - starts[b]))
        if starts == before:
            return [(start(block, 0), start(block, 1)) for block in range(n)]
    return None


def passes_in_order(n, order_number):
    """Each pass of an order: its block, and whether it is the second one."""
    seconds = [order_number >> k & 1 for k in range(2 * n)]
    return [(sum(seconds[:k]) if second else k - sum(seconds[:k]), second) for k, second in enumerate(seconds)]


def starts_by_choice(blocks, order_number, turn=0):
    """Every choice of delays tried: each pass at its earliest in any of them; None where no choice has a timetable."""
    choices = [[(b[0], delay, b[-1]) for delay in range(b[1], b[-2] + 1)] for b in blocks]
    found = [starts for choice in itertools.product(*choices) if (starts := exact_starts(choice, order_number, turn)) is not None]
    return [tuple(map(min, zip(*of_block))) for of_block in zip(*found)] if found else None


def starts_in_order(blocks, order_number, turn=0):
    """The same where there are too many choices: passes are moved on until all rules hold; None where that does not end."""
    n = len(blocks)
    starts = [[0, 0] for _ in blocks]
    for _ in range(2 * n + 1):
        before, clear = [list(pair) for pair in starts], 0
        for at, second in passes_in_order(n, order_number):
            starts[at][second] = max(starts[at][second], clear)
            clear = starts[at][second] + blocks[at][-1 if second else 0] + turn
        for pair, b in zip(starts, blocks):
            pair[1] = max(pair[1], pair[0] + b[0] + b[1])
            pair[0] = max(pair[0], pair[1] - b[0] - b[-2])
        if starts == before:
            return [tuple(pair) for pair in starts]
    return None


def flown(name, blocks, turn=0, before=b"", plan=b""):
    """A free flight with windows behind other sections and their plan: its least end, and the least starts of whichever order the plan has."""
    FLOWN.append((name, before + flight(turn) + members_of(blocks), plan, blocks, turn, least_end(blocks, turn)))


def end_of(blocks, starts):
    """The end of the last pass."""
    return max(second + b[-1] for b, (_, second) in zip(blocks, starts))


def proper_orders(n):
    """The numbers of all proper orders of n blocks."""
    for ones in itertools.combinations(range(2 * n), n):
        if all(2 * sum(one < k for one in ones) <= k for k in range(2 * n + 1)):
            yield sum(1 << one for one in ones)


def least_end(blocks, turn=0):
    """The least end over all proper orders, each tried; None where none has a timetable."""
    timetables = [starts_in_order(blocks, number, turn) for number in proper_orders(len(blocks))]
    return min((end_of(blocks, starts) for starts in timetables if starts is not None), default=None)


# A strip here is its station times, then its bench time; a batching is the last strip of each batch.
def finish_of(ready, mount, bench, free, first, last):
    """When a batch finishes whose mount starts at `free`."""
    return max(free + mount, ready[last - 1]) + sum(bench[first - 1:last])


def best_batchings(ready, mount, bench, weights=None):
    """The least figure over all batchings, and the best ones, at most two of them; from the ready times, the bench times and the weights of the strips, which
    are 1 where none are given."""
    n = len(ready)
    weights = weights or [1] * n

    @functools.cache
    def rest(done, free):
        if done == n:
            return 0, [()]
        found = []
        for last in range(done + 1, n + 1):
            end = finish_of(ready, mount, bench, free, done + 1, last)
            figure, ways = rest(last, end)
            found.append((sum(weights[done:last]) * end + figure, [(last, *way) for way in ways]))
        least = min(figure for figure, _ in found)
        return least, [way for figure, ways in found if figure == least for way in ways][:2]

    return rest(0, 0)


def least_sum(ready, mount, bench, weights=None):
    """The least figure over all batchings."""
    return best_batchings(ready, mount, bench, weights)[0]


def times_of(strips):
    """When each strip is ready, and the bench times."""
    sums = [[sum(times) for times in zip(*strips[:k])] for k in range(1, len(strips) + 1)]
    return [max(stations[:-1]) for stations in sums], [times[-1] for times in strips]


def batched(ready, mount, bench, batching):
    """The batches of a batching, each mounted when the one before finishes: last strip, start, finish."""
    members, done, free = [], 0, 0
    for last in batching:
        end = finish_of(ready, mount, bench, free, done + 1, last)
        members.append((last, free, end))
        done, free = last, end
    return members


def mosaic_of(mount, strips, weights=None):
    """The sheet of these strips. A strip whose weight is 1 carries none."""
    carried = [weight if weight > 1 else None for weight in weights or [1] * len(strips)]
    return mosaic(len(strips[0]) - 1, mount) + b"".join(strip(*times, weight=weight) for times, weight in zip(strips, carried))


def mounted(name, mount, strips, figure, *members, weights=None):
    """A mosaic and the plan of its only best batching."""
    ready, bench = times_of(strips)
    batching = tuple(last for last, _, _ in members)
    assert best_batchings(ready, mount, bench, weights) == (figure, [batching]) and batched(ready, mount, bench, batching) == list(members)
    planned(name, mosaic_of(mount, strips, weights), batches(figure, *members))


def tried(name, mount, strips, weights=None):
    """A mosaic whose batchings are tried here: the plan of the best one, or the figure where there are several."""
    ready, bench = times_of(strips)
    figure, batchings = best_batchings(ready, mount, bench, weights)
    if len(batchings) == 1:
        planned(name, mosaic_of(mount, strips, weights), batches(figure, *batched(ready, mount, bench, batchings[0])))
    else:
        best(name, mosaic_of(mount, strips, weights), figure, 0, 0)


# A strip of a desk here is (scan time, desk time, weight); a scanner list is a row of desks, counted from 1.
def lists_of(counts):
    """Every scanner list of so many strips for each desk."""
    if not any(counts):
        yield ()
    for desk, left in enumerate(counts):
        if left:
            for rest in lists_of([left - (other == desk) for other, left in enumerate(counts)]):
                yield (desk + 1, *rest)


def scanned(desks, order_of_desks):
    """The figure of a scanner list and its members, each as early as it can be."""
    figure, members, scan, free, taken = 0, [], 0, [0] * len(desks), [0] * len(desks)
    for desk in order_of_desks:
        scan_time, desk_time, weight = desks[desk - 1][taken[desk - 1]]
        start = max(scan + scan_time, free[desk - 1])
        taken[desk - 1] += 1
        members.append((desk, taken[desk - 1], scan, start))
        scan, free[desk - 1] = scan + scan_time, start + desk_time
        figure += weight * free[desk - 1]
    return figure, members


def best_list(desks):
    """The least figure over all lists, and the first list that has it."""
    return min((scanned(desks, one)[0], one) for one in lists_of([len(strips) for strips in desks]))


def sorting_of(desks):
    """The sheet of these strips, desk after desk. A strip whose weight is 1 carries none."""
    strips = [(desk + 1, *one) for desk, strips in enumerate(desks) for one in strips]
    return sorting(len(desks)) + b"".join(job(desk, scan, time, weight if weight > 1 else None) for desk, scan, time, weight in strips)


def listed(name, desks, *due):
    """A sorting whose lists are tried here, and the plan of the one that is due; its figure and its desks where they are given."""
    figure, order_of_desks = best_list(desks)
    assert due in ((), (figure, *order_of_desks))
    planned(name, sorting_of(desks), jobs(figure, *scanned(desks, order_of_desks)[1]))


def with_weights(sheet, weights):
    """A sheet without weights in which the strips get these, one after another; None for none."""
    given, at = b"", 0
    while at < len(sheet):
        end = at + 3 + int.from_bytes(sheet[at + 1:at + 3], "little")
        weight = next(weights) if sheet[at] in (0x11, 0x21) else None
        given += field(sheet[at], sheet[at + 3:end] + sheets.carried(weight))
        at = end
    return given


def same_weights(name, sheet):
    """A sheet without weights: the same with a weight of 1 in every strip, and in every second one."""
    for what, weights in [("every strip", itertools.repeat(1)), ("every second strip", itertools.cycle((None, 1)))]:
        SAME.append(("weights of 1 in %s: %s" % (what, name), sheet, with_weights(sheet, weights)))


# The worked sheets of 01 with their best plans.
planned("the first worked sheet", judged.M, judged.BEST)
planned("two desks", judged.S, jobs(10, (2, 1, 0, 1), (1, 1, 1, 3)))
planned("one block", flight() + block(3, 4, 1), passes(8, 2, (0, 7)))
planned("two blocks", judged.F, passes(5, 0xC, (0, 3), (1, 4)))
planned("order A", judged.A + order(0xA), passes(9, 0xA, (0, 1), (2, 8)))
planned("eight blocks and an order", judged.E + order(0xF2C4), passes(30, 0xF2C4, *judged.EIGHT))
planned("all three sections", judged.ALL, judged.PLAN)
planned("the bytes of the first worked sheet", FIRST_SHEET, FIRST_PLAN)

# The first worked sheet with other mount times: with longer mounts fewer batches.
WORKED = [(2, 1, 1), (1, 3, 3), (4, 2, 2), (1, 3, 1)]
mounted("the first worked sheet, mount time 0", 0, WORKED, 29, (1, 0, 3), (2, 3, 7), (3, 7, 9), (4, 9, 10))
mounted("the first worked sheet, mount time 1", 1, WORKED, 32, (1, 0, 3), (2, 3, 7), (3, 7, 10), (4, 10, 12))
mounted("the first worked sheet, mount time 2", 2, WORKED, 37, (1, 0, 3), (2, 3, 8), (4, 8, 13))
best("the first worked sheet, mount time 3", mosaic_of(3, WORKED), 44, 0, 0)
mounted("the first worked sheet, mount time 4", 4, WORKED, 46, (2, 0, 8), (4, 8, 15))
mounted("the first worked sheet, mount time 5", 5, WORKED, 52, (2, 0, 9), (4, 9, 17))
mounted("the first worked sheet, mount time 10", 10, WORKED, 68, (4, 0, 17))

# One strip: the mount starts at 0, and the strip finishes 2 after the mount is done and the strip is ready.
SMALL, GREAT = [(0, 0, 2), (0, 5, 7), (3, 0, 5), (3, 5, 7), (4, 5, 7), (5, 5, 7), (6, 5, 8)], [(1, T), (T - 1, T), (T, T), (T, T - 1)]
for mount, ready, finish in SMALL + [(*times, T + 2) for times in GREAT]:
    mounted("one strip, ready at %d, mount time %d" % (ready, mount), mount, [(ready, 2)], finish, (1, 0, finish))
mounted("one strip of four stations", 4, [(3, 5, 0, 2, 2)], 7, (1, 0, 7))
# Each strip is ready when its mount is done, or one minute later or earlier.
mounted("strips ready when their mounts are done", 3, [(3, 4), (7, 2), (5, 3)], 37, (1, 0, 7), (2, 7, 12), (3, 12, 18))
mounted("the same, strip 2 one minute later", 3, [(3, 4), (8, 2), (4, 3)], 39, (1, 0, 7), (2, 7, 13), (3, 13, 19))
mounted("the same, strip 2 one minute earlier", 3, [(3, 4), (6, 2), (6, 3)], 37, (1, 0, 7), (2, 7, 12), (3, 12, 18))
mounted("the same, strip 3 one minute later", 3, [(3, 4), (7, 2), (6, 3)], 38, (1, 0, 7), (2, 7, 12), (3, 12, 19))
# Strips that are waited for: with a mount time of 9 the second and the third are ready when their mounts are done, with 10 before that.
for mount in (0, 2, 9):
    mounted("strips far apart, mount time %d" % mount, mount, [(10, 1)] * 3, 63, (1, 0, 11), (2, 11, 21), (3, 21, 31))
mounted("strips far apart, mount time 10", 10, [(10, 1)] * 3, 66, (1, 0, 11), (2, 11, 22), (3, 22, 33))
mounted("the third strip is waited for", 2, [(0, 3), (0, 3), (20, 2), (0, 4)], 65, (1, 0, 5), (2, 5, 10), (3, 10, 22), (4, 22, 28))
mounted("the first strip and the third are waited for", 2, [(5, 3), (1, 1), (14, 4)], 43, (1, 0, 8), (2, 8, 11), (3, 11, 24))
# Cameras off everywhere: every strip is ready at 0.
mounted("cameras off everywhere, mount time 0", 0, [(0, 1), (0, 5)], 7, (1, 0, 1), (2, 1, 6))
mounted("cameras off everywhere, a short mount", 2, [(0, 0, 0, 0, 3)] * 2, 15, (1, 0, 5), (2, 5, 10))
mounted("cameras off everywhere, a long mount", 4, [(0, 5), (0, 1), (0, 1)], 33, (3, 0, 11))
best("cameras off everywhere, several best batchings", mosaic_of(1, [(0, 2)] * 5), 43, 0, 0)
# A longer batch is best where its last strip is ready while the mount is made, or little later.
mounted("two strips in a batch", 4, [(0, 4), (2, 2)], 20, (2, 0, 10))
mounted("two strips in a batch, the second ready when the mount is done", 5, [(1, 2), (4, 4)], 22, (2, 0, 11))
mounted("two strips in a batch, the second ready after the mount is done", 5, [(2, 3), (4, 2)], 22, (2, 0, 11))
mounted("batches 1, 2-3", 4, [(2, 3), (4, 3), (5, 1)], 37, (1, 0, 7), (3, 7, 15))
mounted("batches 1-2, 3", 5, [(1, 3), (4, 2), (2, 1)], 36, (2, 0, 10), (3, 10, 16))
mounted("batches 1-2, 3, 4", 3, [(0, 3), (1, 3), (4, 1), (4, 4)], 51, (2, 0, 9), (3, 9, 13), (4, 13, 20))
mounted("batches 1-3, 4", 3, [(1, 3), (0, 3), (1, 2), (2, 4)], 51, (3, 0, 11), (4, 11, 18))
# The best beginning is not that of the best batching: apart the first two have 25 and end at 15, together 26 and end at 13.
mounted("two strips together, for the sake of the third", 2, [(6, 4), (0, 3), (1, 4)], 45, (2, 0, 13), (3, 13, 19))
mounted("the same with a fourth", 2, [(5, 3), (1, 3), (0, 3), (6, 2)], 60, (1, 0, 8), (3, 8, 16), (4, 16, 20))
# Three strips, every batching tried.
for mount, one, two, three in itertools.product((0, 1, 3), (0, 1, 4), (0, 1, 4), (0, 1, 4)):
    tried("stations %d, %d and %d, mount time %d" % (one, two, three, mount), mount, [(one, 2), (two, 1), (three, 3)])
# 40 strips: each alone, all together, and in batches between.
mounted("40 strips, mount time 0", 0, [(1, 1)] * 40, 860, (1, 0, 2), *[(k, k, k + 1) for k in range(2, 41)])
HALF, ALONE = T // 2, [(k, (k - 1) * T, k * T) for k in range(1, 41)]
mounted("40 strips, each ready when its mount is done", HALF, [(HALF, HALF), *[(T, HALF)] * 39], 820 * T, *ALONE)
for mount in (0, 1, T - 1):
    mounted(
        "40 strips far apart, mount time %d" % mount, mount, [(T, 1)] * 40,
        820 * T + 40, (1, 0, T + 1), *[(k, (k - 1) * T + 1, k * T + 1) for k in range(2, 41)],
    )
mounted("40 strips far apart, mount time 60,000", T, [(T, 1)] * 40, 820 * T + 820, *[(k, (k - 1) * (T + 1), k * (T + 1)) for k in range(1, 41)])
mounted("40 strips, a long mount", T, [(1, 1)] * 40, 40 * (T + 40), (40, 0, T + 40))
mounted("40 strips, a long mount, the last ready when it is done", T, [(1, 1)] * 39 + [(T - 39, 1)], 40 * (T + 40), (40, 0, T + 40))
mounted("40 strips, a long mount, the last ready one minute later", T, [(1, 1)] * 39 + [(T - 38, 1)], 40 * (T + 41), (40, 0, T + 41))
mounted("40 strips, cameras off everywhere, mount time 0", 0, [(0, 1)] * 40, 820, *[(k, k - 1, k) for k in range(1, 41)])
mounted(
    "40 strips, cameras off everywhere, mount time 3", 3, [(0, 5)] * 40, 4987,
    (7, 0, 38), (13, 38, 71), (18, 71, 99), (23, 99, 127), (27, 127, 150), (31, 150, 173), (34, 173, 191), (36, 191, 204), (38, 204, 217), (39, 217, 225),
    (40, 225, 233),
)
mounted(
    "40 strips, mount time 9", 9, [(7, 5)] * 40, 6964,
    (1, 0, 14), (3, 14, 33), (6, 33, 57), (9, 57, 81), (13, 81, 111), (17, 111, 140), (21, 140, 169), (25, 169, 198), (29, 198, 227), (33, 227, 256),
    (37, 256, 285), (39, 285, 304), (40, 304, 318),
)
mounted("40 strips in three batches", 100, [(k, 41 - k) for k in range(1, 41)], 34612, (13, 0, 542), (27, 542, 929), (40, 929, 1120))
# Beside other sections.
BESIDE, MOUNTS = judged.WAITED, batches(43, *judged.EARLIEST)
planned("mounts ahead and a sorting", BESIDE + judged.S, MOUNTS + jobs(10, (2, 1, 0, 1), (1, 1, 1, 3)))
planned("mounts ahead and a flight", BESIDE + judged.F, MOUNTS + passes(5, 0xC, (0, 3), (1, 4)))
planned("mounts ahead and two sections", BESIDE + judged.S + judged.F, MOUNTS + judged.PLAN[len(judged.BEST):])
refused("mounts ahead, order C cannot be kept", BESIDE + judged.A + order(0xC), 11, len(BESIDE + judged.A))

# Of several best scanner lists that with the lower desk at the first place where they part.
ONE_TWO, TWO_ONE = jobs(5, (1, 1, 0, 1), (2, 1, 1, 2)), jobs(5, (2, 1, 0, 1), (1, 1, 1, 2))
tied("two desks, 5 either way: desk 1 first", judged.T, ONE_TWO, TWO_ONE)
tied("the same, desk 2 first in the sheet", sorting(2) + job(2) + job(1), ONE_TWO, TWO_ONE)
planned("the same between a mosaic and a flight", judged.M + judged.T + judged.F, judged.BEST + ONE_TWO + passes(5, 0xC, (0, 3), (1, 4)))
tied("desks 1 and 3, none for desk 2", sorting(3) + job(3) + job(1), jobs(5, (1, 1, 0, 1), (3, 1, 1, 2)), jobs(5, (3, 1, 0, 1), (1, 1, 1, 2)))
tied("desks 2 and 3, none for desk 1", sorting(3) + job(3) + job(2), jobs(5, (2, 1, 0, 1), (3, 1, 1, 2)), jobs(5, (3, 1, 0, 1), (2, 1, 1, 2)))
# Scans of 1 and desk times of 1: no desk is waited for, so every list has the same figure, and desk 1 goes first to its last strip.
tied(
    "three strips of desk 1, one of desk 2, every list best",
    sorting(2) + job(2) + job(1) * 3,
    jobs(14, (1, 1, 0, 1), (1, 2, 1, 2), (1, 3, 2, 3), (2, 1, 3, 4)),
    jobs(14, (2, 1, 0, 1), (1, 1, 1, 2), (1, 2, 2, 3), (1, 3, 3, 4)),
)
# Desk 2 must begin. Behind it both lists have scans that end at 4 and 7.
tied(
    "a tie at the second place",
    sorting(2) + job(1, 3, 1) + job(2, 1, 1) + job(2, 3, 1),
    jobs(15, (2, 1, 0, 1), (1, 1, 1, 4), (2, 2, 4, 7)),
    jobs(15, (2, 1, 0, 1), (2, 2, 1, 4), (1, 1, 4, 7)),
)
# The scans end at 3, 4, 6, 8 or at 2, 4, 7, 8 or at 2, 5, 6, 8: 21 each time, and more in the other lists.
tied(
    "the longer scan first",
    sorting(2) + job(1, 3, 1) + job(1, 1, 1) + job(2, 2, 1) * 2,
    jobs(25, (1, 1, 0, 3), (1, 2, 3, 4), (2, 1, 4, 6), (2, 2, 6, 8)),
    jobs(25, (2, 1, 0, 2), (2, 2, 2, 4), (1, 1, 4, 7), (1, 2, 7, 8)),
    jobs(25, (2, 1, 0, 2), (1, 1, 2, 5), (1, 2, 5, 6), (2, 2, 6, 8)),
)
# Both long desk jobs begin before any second strip is scanned; the second strips wait for their desks, so that their scans may stand in any order.
tied(
    "two identical desks with long first strips",
    sorting(2) + job(1, 1, 5) + job(2, 1, 5) + job(1, 1, 1) + job(2, 1, 1),
    jobs(28, (1, 1, 0, 1), (2, 1, 1, 2), (1, 2, 2, 6), (2, 2, 3, 7)),
    jobs(28, (1, 1, 0, 1), (2, 1, 1, 2), (2, 2, 2, 7), (1, 2, 3, 6)),
    jobs(28, (2, 1, 0, 1), (1, 1, 1, 2), (2, 2, 2, 6), (1, 2, 3, 7)),
    jobs(28, (2, 1, 0, 1), (1, 1, 1, 2), (1, 2, 2, 7), (2, 2, 3, 6)),
)

# Order 3 for two blocks is not proper. Eight blocks without order are planned, nine are 10, and nine with an order are planned.
refused("order 3 for two blocks", flight() + block() * 2 + order(3), 9, 21)
# A delay of 0 lets no pass between, so one block follows another: the only best plan.
apart = lambda n: passes(2 * n, alternate(n), *[(2 * i, 2 * i + 1) for i in range(n)])
planned("eight blocks without order", flight() + block(1, 0, 1) * 8, apart(8))
refused("nine blocks without order", flight() + block(1, 0, 1) * 9, 10, 0)
planned("nine blocks with an order", flight() + block(1, 0, 1) * 9 + order(alternate(9)), apart(9))
# 16 passes of a second take 16 seconds. A delay of 7 lets them be flown without a gap in one way: all first passes, then all second ones.
planned("eight blocks without order and without a gap", flight() + block(1, 7, 1) * 8, passes(16, 0xFF00, *[(i, i + 8) for i in range(8)]))
best("000's eight blocks without order", judged.E, 0, 0, least_end(sheets.EIGHT))

# Time 60,000 in every time: a strip of four stations, a strip of a desk and a block. Each is worked without a wait; the strip is ready when its mount is done.
planned(
    "time 60,000 in every time",
    mosaic(4, T) + strip(T, T, T, T, T) + sorting(1) + job(1, T, T) + flight() + block(T, T, T),
    batches(2 * T, (1, 0, 2 * T)) + jobs(2 * T, (1, 1, 0, T)) + passes(3 * T, 2, (0, 2 * T)),
)

# Time 60,001 is 15, a pass of 0 is 16: the bytes of the whole answer.
CASES.append(("time 60,001 in every time of a block", flight() + block(T + 1, T + 1, T + 1), bytes.fromhex("E0 06 00 0F 00 03 00 00 00")))
CASES.append(("a second pass of 0", judged.ALL[:-2] + word(0), bytes.fromhex("E0 06 00 10 00 4A 00 00 00")))

# The longest sections: full ones in which every time is 60,000. The strips are ready at T, 2 T, .. 40 T, with any number of stations.
# The k-th strip that is scanned is finished at (k + 1) T or later: 2 T + 3 T + .. + 19 T = 189 T at least. No desk is waited for, so every list has that.
SUM = least_sum([k * T for k in range(1, 41)], T, [T] * 40)
for stations in (1, 2, 3, 4):
    best("40 strips of %d stations, time 60,000 in every time" % stations, mosaic(stations, T) + strip(*[T] * (stations + 1)) * 40, SUM, 0, 0)
best("40 strips, a mount of 59,999", mosaic(1, T - 1) + strip(T, T) * 40, least_sum([k * T for k in range(1, 41)], T - 1, [T] * 40), 0, 0)
IN_DESKS = [(k // 6 + 1, k % 6 + 1, k * T, (k + 1) * T) for k in range(18)]
DESK_AFTER_DESK = jobs(189 * T, *IN_DESKS)
tied("6 + 6 + 6 strips, time 60,000 in every time", sheets.LONG_SORTING, DESK_AFTER_DESK, jobs(189 * T, *judged.IN_TURN))
for number, figure, starts in [(judged.BY_ONE, 96 * T, judged.ONE_BY_ONE), (judged.BY_TWO, 64 * T, judged.TWO_BY_TWO)]:
    planned("32 blocks, time 60,000 in every time, order %X" % number, judged.LONG_FLIGHT + order(number), passes(figure, number, *starts))
# Two by two the passes leave no gap. Three blocks that are open at once need a delay for two passes.
EIGHT_LONG = flight() + sheets.LONG_BLOCK * 8
planned("8 free blocks, time 60,000 in every time", EIGHT_LONG, passes(16 * T, 0xCCCC, *judged.TWO_BY_TWO[:8]))
refused("8 blocks, time 60,000 in every time, three open at once", EIGHT_LONG + order(0xCCF0), 11, len(EIGHT_LONG))
# All first passes first: the delay of block 1 takes in 31 passes of 1,935 (59,985 in all), not of 1,936 (60,016).
PASS = T // 31
FIRSTS_FIRST = 0xFFFFFFFF00000000
planned(
    "32 blocks, delays of 60,000, all first passes first",
    flight() + block(PASS, T, PASS) * 32 + order(FIRSTS_FIRST),
    passes(33 * PASS + T, FIRSTS_FIRST, *[(k * PASS, (k + 1) * PASS + T) for k in range(32)]),
)
refused("the same with passes one second longer", flight() + block(PASS + 1, T, PASS + 1) * 32 + order(FIRSTS_FIRST), 11, 3 + 9 * 32)
best("the longest sections", sheets.LONG, SUM, 189 * T, 96 * T, sorting_part=DESK_AFTER_DESK)
FREE_LONG = sheets.LONG_MOSAIC + sheets.LONG_SORTING + EIGHT_LONG
best("the longest sections, a free flight", FREE_LONG, SUM, 189 * T, 16 * T, sorting_part=DESK_AFTER_DESK)

# 11 at the order field, also where other sections could be planned.
refused("order C cannot be kept", judged.A + order(0xC), 11, len(judged.A))
refused("order C cannot be kept behind two sections", judged.M + judged.S + judged.A + order(0xC), 11, len(judged.M + judged.S + judged.A))

# The turn. A free flight with a delay below it is impossible: 11 at the flight head, with a given order at the order field.
for turn in (1, 2, 256, 599, MOST_TURN):
    for delay in (turn, turn + 1):
        planned("turn %d, delay %d" % (turn, delay), flight(turn) + block(1, delay, 1), passes(delay + 2, 2, (0, delay + 1)))
        planned("turn %d, delay %d, order 2" % (turn, delay), flight(turn) + block(1, delay, 1) + order(2), passes(delay + 2, 2, (0, delay + 1)))
    refused("turn %d, delay %d" % (turn, turn - 1), flight(turn) + block(1, turn - 1, 1), 11, 0)
    refused("turn %d, delay %d, order 2" % (turn, turn - 1), flight(turn) + block(1, turn - 1, 1) + order(2), 11, 14)
for name, before, plan in [
    ("a mosaic", judged.M, judged.BEST),
    ("a sorting", judged.S, judged.BEFORE[len(judged.BEST):]),
    ("two sections", judged.M + judged.S, judged.BEFORE),
]:
    refused("a delay below the turn behind " + name, before + judged.NEVER, 11, len(before))
    refused("the same with an order, behind " + name, before + judged.NEVER + order(2), 11, len(before + judged.NEVER))
    planned("a turn behind " + name, before + flight(4) + block(1, 4, 1), plan + passes(6, 2, (0, 5)))

# Any block may be the one with the short delay. With delays of 600 and a turn of 600 one block follows another: 1 + 600 + 1 + 600 seconds each.
BY_TURNS = [(1202 * k, 1202 * k + 601) for k in range(8)]
planned("eight blocks, delays of 600, turn 600", flight(MOST_TURN) + block(1, 600, 1) * 8, passes(8 * 1202 - 600, alternate(8), *BY_TURNS))
for k in range(8):
    one_short = block(1, 600, 1) * k + block(1, 599, 1) + block(1, 600, 1) * (7 - k)
    refused("the same with a delay of 599 of block %d" % (k + 1), flight(MOST_TURN) + one_short, 11, 0)
refused("nine blocks, a delay below the turn", flight(MOST_TURN) + block(1, 0, 1) * 9, 10, 0)
refused("nine blocks with an order, a delay below the turn", flight(1) + block(1, 0, 1) * 9 + order(alternate(9)), 11, 5 + 9 * 9)

# Between its passes a block takes in a pass of another one where its delay is as long as that pass and two turns.
planned("two blocks, turn 600, delays of 1,201", flight(600) + block(1, 1201, 1) * 2, passes(1804, 0xC, (0, 1202), (601, 1803)))
planned("two blocks, turn 600, delays of 1,200", flight(600) + block(1, 1200, 1) * 2, passes(3004, 0xA, (0, 1201), (1802, 3003)))
planned("order A, turn 600, delays of 1,201", flight(600) + block(1, 1201, 1) * 2 + order(0xA), passes(3006, 0xA, (0, 1202), (1803, 3005)))
refused("order C, turn 600, delays of 1,200", flight(600) + block(1, 1200, 1) * 2 + order(0xC), 11, 23)
planned("a turn of 1, no order", judged.TIGHT, passes(9, 0xA, (0, 3), (5, 8)))
planned("a turn of 1, order A", judged.TIGHT + order(0xA), passes(9, 0xA, (0, 3), (5, 8)))
refused("a turn of 1, order C", judged.TIGHT + order(0xC), 11, 23)
planned("a turn of 2, no order", judged.TURNED, passes(10, 0xC, (0, 6), (3, 9)))
planned("a turn of 2, order A", judged.TURNED + order(0xA), passes(16, 0xA, (0, 6), (9, 15)))

# 000's blocks with turns: four of them in every order and without one, all eight without order and block after block. The least delay is 4,
# so that with a turn of 5 no order has a timetable.
FOUR = sheets.EIGHT[:4]
for turn in range(6):
    head = flight(turn) + b"".join(block(*b) for b in FOUR)
    for number in proper_orders(4):
        starts = starts_in_order(FOUR, number, turn)
        name = "four blocks, turn %d, order %X" % (turn, number)
        if starts is None:
            refused(name, head + order(number), 11, len(head))
        else:
            planned(name, head + order(number), passes(end_of(FOUR, starts), number, *starts))
    for blocks in (FOUR, sheets.EIGHT):
        name, sheet = "%d blocks without order, turn %d" % (len(blocks), turn), flight(turn) + b"".join(block(*b) for b in blocks)
        end = least_end(blocks, turn)
        if end is None:
            refused(name, sheet, 11, 0)
        else:
            best(name, sheet, 0, 0, end)
AFTER = starts_in_order(sheets.EIGHT, alternate(8), 4)
planned("eight blocks one after another, turn 4", flight(4) + judged.E[3:] + order(alternate(8)), passes(end_of(sheets.EIGHT, AFTER), alternate(8), *AFTER))

# The longest flights with the longest turn. A delay of 60,000 takes in no pass of 60,000, one of 58,800 with two turns, or 31 passes of 1,316 with 32 turns
# (59,996 in all).
planned("32 blocks, time 60,000 in every time, turn 600", judged.TURNED_FLIGHT, passes(judged.LAST_END, judged.BY_ONE, *judged.TURNED_STARTS))
planned(
    "8 free blocks, time 60,000 in every time, turn 600",
    flight(MOST_TURN) + sheets.LONG_BLOCK * 8,
    passes(24 * T + 7 * MOST_TURN, alternate(8), *judged.TURNED_STARTS[:8]),
)
STEP = T - MOST_TURN  # from start to start: 58,800 and a turn
in_pairs = lambda time: flight(MOST_TURN) + block(time, T, time) * 32 + order(judged.BY_TWO)
PAIRS = [(first // T * STEP, second // T * STEP) for first, second in judged.TWO_BY_TWO]
planned("32 blocks two by two, passes of 58,800, turn 600", in_pairs(STEP - MOST_TURN), passes(64 * STEP - MOST_TURN, judged.BY_TWO, *PAIRS))
refused("32 blocks two by two, passes of 58,801, turn 600", in_pairs(STEP - MOST_TURN + 1), 11, 5 + 9 * 32)
TURNED_PASS = (T - 32 * MOST_TURN) // 31
planned(
    "32 blocks, delays of 60,000, all first passes first, turn 600",
    flight(MOST_TURN) + block(TURNED_PASS, T, TURNED_PASS) * 32 + order(FIRSTS_FIRST),
    passes(
        33 * TURNED_PASS + 31 * MOST_TURN + T,
        FIRSTS_FIRST,
        *[(k * (TURNED_PASS + MOST_TURN), (k + 1) * TURNED_PASS + k * MOST_TURN + T) for k in range(32)],
    ),
)
refused(
    "the same with passes one second longer, turn 600",
    flight(MOST_TURN) + block(TURNED_PASS + 1, T, TURNED_PASS + 1) * 32 + order(FIRSTS_FIRST),
    11,
    5 + 9 * 32,
)
best("the longest sections and the longest turn", sheets.LONG_TURN, SUM, 189 * T, judged.LAST_END, sorting_part=DESK_AFTER_DESK)

# A written 0 is as an empty head; the places behind it are two higher.
for name, before, members in [
    ("one block", b"", block(3, 4, 1)),
    ("two blocks", b"", judged.F[3:]),
    ("order A", b"", judged.A[3:] + order(0xA)),
    ("000's eight blocks", b"", judged.E[3:]),
    ("000's eight blocks and an order", b"", judged.E[3:] + order(0xF2C4)),
    ("eight equal blocks", b"", block(5, 20, 5) * 8),
    ("eight blocks with delays of 0", b"", block(1, 0, 1) * 8),
    ("32 blocks", b"", sheets.LONG_BLOCK * 32 + order(judged.BY_TWO)),
    ("all three sections", judged.M + judged.S, judged.F[3:]),
    ("nine blocks without order", judged.M, block() * 9),
]:
    same(name, before, members)
refused("order C cannot be kept, a written 0", flight(0) + judged.A[3:] + order(0xC), 11, len(judged.A) + 2)

# A turn of 601 is 15: the bytes of the whole answer. All other numbers go before 11, also before 11 at the flight head.
CASES.append(("a turn of 601 behind a mosaic", judged.M + flight(601) + block(), bytes.fromhex("E0 06 00 0F 00 2A 00 00 00")))
CASES.append(("a delay below the turn behind a mosaic", judged.M + judged.NEVER, bytes.fromhex("E0 06 00 0B 00 2A 00 00 00")))
refused("a delay below the turn, then a first pass of 0", judged.NEVER + block(0), 16, 14)
refused("a delay below the turn, then an order that is not proper", judged.NEVER + order(1), 9, 14)
refused("a delay below the turn, then a mosaic", judged.NEVER + judged.M, 4, 14)
refused("a delay below the turn, then a byte", judged.NEVER + b"\x31", 3, 14)

# Windows. In order C the second pass of block 1 waits for the first of block 2, so that its delay is 1, inside its window from 0 to 3.
planned("a window and an exact delay, order C", judged.WIDE + order(0xC), passes(8, 0xC, (0, 2), (1, 7)))
planned("a window and an exact delay, order A", judged.WIDE + order(0xA), passes(9, 0xA, (0, 1), (2, 8)))
planned("a window and an exact delay, no order", judged.WIDE, passes(8, 0xC, (0, 2), (1, 7)))
planned("the same behind two sections", judged.M + judged.S + judged.WIDE + order(0xC), judged.BEFORE + passes(8, 0xC, (0, 2), (1, 7)))
refused("the same with a window from 0 to 0", flight() + window(1, 0, 0, 1) + block(1, 5, 1) + order(0xC), 11, 23)
# One block: the shortest delay, or the turn where that is longer. Where the longest delay is below the turn the flight is impossible.
for turn in (1, 2, 256, 599, MOST_TURN):
    for shortest, longest in [(0, turn), (turn - 1, turn + 1), (turn, turn), (turn, turn + 5), (turn + 1, turn + 1), (turn + 1, sheets.MOST_TIME)]:
        delay = max(shortest, turn)
        plan = passes(delay + 2, 2, (0, delay + 1))
        planned("turn %d, a window from %d to %d" % (turn, shortest, longest), flight(turn) + window(1, shortest, longest, 1), plan)
        planned("turn %d, a window from %d to %d, order 2" % (turn, shortest, longest), flight(turn) + window(1, shortest, longest, 1) + order(2), plan)
    for shortest in {0, turn - 1}:
        refused("turn %d, a window from %d to %d" % (turn, shortest, turn - 1), flight(turn) + window(1, shortest, turn - 1, 1), 11, 0)
        refused("turn %d, a window from %d to %d, order 2" % (turn, shortest, turn - 1), flight(turn) + window(1, shortest, turn - 1, 1) + order(2), 11, 16)
CASES.append(("a longest delay below the turn behind a mosaic", judged.M + judged.NO_WINDOW, bytes.fromhex("E0 06 00 0B 00 2A 00 00 00")))
CASES.append(("the same with an order", judged.M + judged.NO_WINDOW + order(2), bytes.fromhex("E0 06 00 0B 00 3A 00 00 00")))
# Any block may be the one with the short window, and the kinds may be mixed.
for k in range(8):
    kinds = [(1, 0, 600, 1) if i % 2 else (1, 600, 1) for i in range(8)]
    kinds[k] = (1, 0, 599, 1)
    refused("eight blocks of both kinds, turn 600, a longest delay of 599 of block %d" % (k + 1), flight(MOST_TURN) + members_of(kinds), 11, 0)
kinds = [(1, 0, 600, 1) if i % 2 else (1, 600, 1) for i in range(8)]
planned("eight blocks of both kinds, turn 600", flight(MOST_TURN) + members_of(kinds), passes(8 * 1202 - 600, alternate(8), *BY_TURNS))
refused("nine blocks of both kinds, a longest delay below the turn", flight(MOST_TURN) + members_of(kinds) + window(), 10, 0)

# Orders that no end of a window can keep, but a delay inside it. Between blocks with a delay of 10, all first passes first, the delay lies from 2 to 18.
INNER = lambda *delays: [(1, 10, 1), (1, *delays, 1), (1, 10, 1)]
for delays in [(0,), (1,), (19,), (60,), (0, 1), (19, 60)]:
    sheet = flight() + members_of(INNER(*delays))
    assert starts_by_choice(INNER(*delays), 0x38) is None
    refused("three blocks, delays of 10, %s and 10, all first passes first" % " to ".join(map(str, delays)), sheet + order(0x38), 11, len(sheet))
for delays in [(2,), (18,), (0, 2), (1, 3), (18, 19), (17, 60), (0, 60)]:
    starts = starts_by_choice(INNER(*delays), 0x38)
    name = "three blocks, delays of 10, %s and 10, all first passes first" % " to ".join(map(str, delays))
    planned(name, flight() + members_of(INNER(*delays)) + order(0x38), passes(end_of(INNER(*delays), starts), 0x38, *starts))
planned("three blocks, a delay of 10 inside 0 to 60", flight() + members_of(INNER(0, 60)) + order(0x38), passes(14, 0x38, (0, 11), (1, 12), (2, 13)))


# Small windows in every order, with every choice of delays tried, and without an order.
def every_order(name, blocks, turn):
    sheet = flight(turn) + members_of(blocks)
    for number in proper_orders(len(blocks)):
        starts = starts_by_choice(blocks, number, turn)
        assert starts == starts_in_order(blocks, number, turn)
        if starts is None:
            refused("%s, order %X" % (name, number), sheet + order(number), 11, len(sheet))
        else:
            planned("%s, order %X" % (name, number), sheet + order(number), passes(end_of(blocks, starts), number, *starts))
    possible = all(turn <= b[-2] for b in blocks)
    assert possible == (least_end(blocks, turn) is not None)
    if possible:
        flown(name + ", no order", blocks, turn)
    else:
        refused(name + ", no order", sheet, 11, 0)


WINDOWS = [(0, 0), (0, 1), (0, 3), (1, 1), (1, 3), (3, 3)]
for one, other in itertools.product(WINDOWS, repeat=2):
    for turn in (0, 1):
        every_order("windows %d to %d and %d to %d, turn %d" % (*one, *other, turn), [(1, *one, 2), (2, *other, 1)], turn)
for blocks in [
    [(1, 0, 3, 2), (2, 4, 1), (1, 1, 4, 1)],
    [(2, 4, 1), (1, 2, 6, 1), (3, 4, 1)],
    [(1, 0, 5, 1), (1, 0, 5, 1), (1, 0, 5, 1)],
    [(3, 2, 5, 3), (1, 8, 1), (2, 0, 9, 1)],
    [(1, 5, 6, 1), (2, 5, 6, 2), (1, 2, 3, 1)],
]:
    for turn in (0, 1, 2, 4):
        every_order("blocks %s, turn %d" % (" ".join(map(str, blocks)), turn), blocks, turn)
FOUR_KINDS = [(3, 2, 6, 1), (1, 7, 2), (1, 6, 9, 1), (1, 10, 1)]
for turn in range(4):
    every_order("four blocks of both kinds, turn %d" % turn, FOUR_KINDS, turn)

# 000's eight blocks with windows about their delays, with the order of 000 and without one.
for less, more, turn in [(1, 0, 0), (0, 1, 0), (2, 3, 0), (4, 100, 0), (2, 3, 1), (4, 100, 3)]:
    blocks = [(a, l - less, l + more, b) for a, l, b in sheets.EIGHT]
    name = "000's eight blocks, delays %d shorter to %d longer, turn %d" % (less, more, turn)
    starts = starts_in_order(blocks, 0xF2C4, turn)
    sheet = flight(turn) + members_of(blocks)
    if starts is None:
        refused(name + ", an order", sheet + order(0xF2C4), 11, len(sheet))
    else:
        planned(name + ", an order", sheet + order(0xF2C4), passes(end_of(blocks, starts), 0xF2C4, *starts))
    flown(name, blocks, turn)
flown("000's eight blocks, every second one with a window", [(a, l - 1, l + 2, b) if k % 2 else (a, l, b) for k, (a, l, b) in enumerate(sheets.EIGHT)])
flown("a flight with windows behind two sections", FOUR_KINDS, 1, judged.M + judged.S, judged.BEFORE)

# Eight blocks of both kinds without order. 16 passes of a second take 16 seconds; with delays of at least 7 in one way only.
kinds = [(1, 7, 20, 1) if i % 2 else (1, 7, 1) for i in range(8)]
planned("eight blocks of both kinds without a gap", flight() + members_of(kinds), passes(16, 0xFF00, *[(i, i + 8) for i in range(8)]))
planned("eight windows without a gap", flight() + window(1, 7, T, 1) * 8, passes(16, 0xFF00, *[(i, i + 8) for i in range(8)]))
flown("eight windows from 0 to 7", [(1, 0, 7, 1)] * 8)
flown("eight windows from 0 to 60,000 and long passes", [(T, 0, T, T)] * 8)
flown("eight windows from 0 to 60,000, turn 600", [(T, 0, T, 1)] * 8, MOST_TURN)
refused("nine windows without order", flight() + window(1, 7, T, 1) * 9, 10, 0)

# 32 blocks in order. All first passes first: between the two passes of a block there are 31 others of a second, in every delay of 31 seconds.
AT_ONCE = passes(64, FIRSTS_FIRST, *[(k, 32 + k) for k in range(32)])
planned("32 windows from 0 to 60,000, all first passes first", flight() + window(1, 0, T, 1) * 32 + order(FIRSTS_FIRST), AT_ONCE)
planned("32 windows from 0 to 31, all first passes first", flight() + window(1, 0, 31, 1) * 32 + order(FIRSTS_FIRST), AT_ONCE)
planned("32 blocks of both kinds, all first passes first", flight() + (block(1, 31, 1) + window(1, 0, T, 1)) * 16 + order(FIRSTS_FIRST), AT_ONCE)
refused("32 windows from 0 to 30, all first passes first", flight() + window(1, 0, 30, 1) * 32 + order(FIRSTS_FIRST), 11, 3 + 11 * 32)
refused("31 windows from 0 to 60,000 and one from 0 to 30", flight() + window(1, 0, T, 1) * 31 + window(1, 0, 30, 1) + order(FIRSTS_FIRST), 11, 3 + 11 * 32)
# One after another, each at its shortest delay or, where that is below it, at the turn.
ONES = lambda delay, turn: [(k * (2 + delay + turn), k * (2 + delay + turn) + 1 + delay) for k in range(32)]
for shortest, turn, delay in [(0, 0, 0), (7, 0, 7), (0, 600, 600), (599, 600, 600), (601, 600, 601)]:
    starts = ONES(delay, turn)
    sheet = flight(turn) + window(1, shortest, T, 1) * 32 + order(judged.BY_ONE)
    planned("32 windows from %d to 60,000, turn %d" % (shortest, turn), sheet, passes(starts[-1][1] + 1, judged.BY_ONE, *starts))
# Two by two with the longest passes: the shortest delay is no hindrance.
planned("32 windows two by two, time 60,000", flight() + window(T, 0, T, T) * 32 + order(judged.BY_TWO), passes(64 * T, judged.BY_TWO, *judged.TWO_BY_TWO))
# A block with a delay of 1, then one with a window from 0 to 1: five seconds for both.
IN_FIVE = [start for k in range(16) for start in ((5 * k, 5 * k + 2), (5 * k + 3, 5 * k + 4))]
planned("32 blocks of both kinds", judged.BOTH, passes(80, judged.BY_ONE, *IN_FIVE))
HEAVY_AFTER_DESK = jobs(MOST_WEIGHT * 189 * T, *IN_DESKS)
best("the longest sheet", sheets.LONGEST, MOST_WEIGHT * SUM, MOST_WEIGHT * 189 * T, judged.LAST_END, sorting_part=HEAVY_AFTER_DESK)

# A window of one value means the same as an exact delay.
for name, head, blocks, behind in [
    ("one block", flight(), [(3, 4, 1)], b""),
    ("one block, turn 4", flight(4), [(3, 4, 1)], b""),
    ("one block, turn 5", flight(5), [(3, 4, 1)], b""),
    ("two blocks", flight(), [(1, 2, 1)] * 2, b""),
    ("two blocks, turn 1", flight(1), [(1, 2, 1)] * 2, b""),
    ("order A", flight(), [(1, 0, 1), (1, 5, 1)], order(0xA)),
    ("000's eight blocks", flight(), sheets.EIGHT, b""),
    ("000's eight blocks, turn 3", flight(3), sheets.EIGHT, b""),
    ("000's eight blocks and an order", flight(), sheets.EIGHT, order(0xF2C4)),
    ("000's eight blocks one after another, turn 4", flight(4), sheets.EIGHT, order(alternate(8))),
    ("eight equal blocks", flight(), [(5, 20, 5)] * 8, b""),
    ("eight blocks with delays of 0", flight(), [(1, 0, 1)] * 8, b""),
    ("nine blocks without order", flight(), [(1, 0, 1)] * 9, b""),
    ("32 blocks", flight(), [(T, T, T)] * 32, order(judged.BY_TWO)),
    ("32 blocks, turn 600", flight(MOST_TURN), [(T, T, T)] * 32, order(judged.BY_ONE)),
    ("two blocks behind two sections", judged.M + judged.S + flight(), [(1, 2, 1)] * 2, b""),
]:
    same_windows(name, head, blocks, behind)

# Weights. A heavy strip gets a batch of its own: two strips in a batch finish at 10, apart at 8 and 14.
for weight, figure in [(1, 20), (3, 38), (4, 46), (MOST_WEIGHT, 814)]:
    members = [(2, 0, 10)] if weight == 1 else [(1, 0, 8), (2, 8, 14)]
    mounted("two strips, the first of weight %d" % weight, 4, [(0, 4), (2, 2)], figure, *members, weights=[weight, 1])
best("two strips, the first of weight 2", mosaic_of(4, [(0, 4), (2, 2)], [2, 1]), 30, 0, 0)
# A heavy strip saves a mount: two strips apart finish at 2 and 5, in a batch at 4.
for weight, figure in [(1, 7), (3, 16), (4, 20), (MOST_WEIGHT, 404)]:
    members = [(1, 0, 2), (2, 2, 5)] if weight == 1 else [(2, 0, 4)]
    mounted("two strips, the second of weight %d" % weight, 1, [(0, 1), (0, 2)], figure, *members, weights=[1, weight])
best("two strips, the second of weight 2", mosaic_of(1, [(0, 1), (0, 2)], [1, 2]), 12, 0, 0)
# The first worked sheet with one heavy strip, at each mount time, and with the same weight in every strip.
for mount, which in itertools.product((0, 1, 2, 3, 5, 10), range(4)):
    tried("the first worked sheet, mount time %d, strip %d heavy" % (mount, which + 1), mount, WORKED, [100 if k == which else 1 for k in range(4)])
for weight in (2, 7, MOST_WEIGHT):
    mounted("the first worked sheet, weight %d in every strip" % weight, 1, WORKED, 32 * weight, *judged.FOUR, weights=[weight] * 4)
    mounted("the first worked sheet, mount time 5, weight %d in every strip" % weight, 5, WORKED, 52 * weight, (2, 0, 9), (4, 9, 17), weights=[weight] * 4)
# Three strips, every batching tried with every weight.
for mount, weights in itertools.product((0, 1, 2, 4), itertools.product((1, 3, MOST_WEIGHT), repeat=3)):
    tried("weights %d, %d and %d, mount time %d" % (*weights, mount), mount, [(1, 2), (4, 1), (0, 3)], weights)
# A batch that is cut for a heavy strip before it, behind it and inside it.
for which in range(6):
    tried("six strips, strip %d heavy" % (which + 1), 6, [(2, 3)] * 6, [100 if k == which else 1 for k in range(6)])
    tried("six strips, strip %d light" % (which + 1), 6, [(2, 3)] * 6, [1 if k == which else 100 for k in range(6)])

# Figures above four bytes. 40 strips far apart: every strip alone, whatever the weights.
FAR = [(1, 0, T + 1), *[(k, (k - 1) * T + 1, k * T + 1) for k in range(2, 41)]]
for name, weights in [
    ("100 in every strip", [MOST_WEIGHT] * 40),
    ("100 in every second strip", [MOST_WEIGHT, 1] * 20),
    ("rising weights", [2 * k + 20 for k in range(1, 41)]),
    ("falling weights", [102 - 2 * k for k in range(1, 41)]),
]:
    mounted("40 strips far apart, " + name, 1, [(T, 1)] * 40, judged.of_weights(weights, *FAR), *FAR, weights=weights)
HEAVY_SUM = least_sum([k * T for k in range(1, 41)], T, [T] * 40, [MOST_WEIGHT, 1] * 20)
best("40 strips of 60,000, 100 in every strip", sheets.HEAVY_MOSAIC, MOST_WEIGHT * SUM, 0, 0)
best("40 strips of 60,000, 100 in every second strip", mosaic_of(T, [(T, T)] * 40, [MOST_WEIGHT, 1] * 20), HEAVY_SUM, 0, 0)
for which in (0, 19, 39):
    weights = [100 if k == which else 1 for k in range(40)]
    figure = least_sum([k * T for k in range(1, 41)], T, [T] * 40, weights)
    best("40 strips of 60,000, strip %d heavy" % (which + 1), mosaic_of(T, [(T, T)] * 40, weights), figure, 0, 0)
# The longest plan: 40 batches, 18 strips and 32 blocks.
LONGEST_PLAN = batches(MOST_WEIGHT * (820 * T + 40), *FAR) + HEAVY_AFTER_DESK + passes(judged.LAST_END, judged.BY_ONE, *judged.TURNED_STARTS)
assert len(LONGEST_PLAN) == 1103
planned("the longest plan", mosaic_of(1, [(T, 1)] * 40, [MOST_WEIGHT] * 40) + sheets.HEAVY_SORTING + judged.TURNED_FLIGHT, LONGEST_PLAN)
# In a sorting the least figure has four bytes at most: with 100 in each of 18 strips of 60,000 it is 18,900 × 60,000.
planned("6 + 6 + 6 strips of 60,000, 100 in every strip", sheets.HEAVY_SORTING, HEAVY_AFTER_DESK)

# A heavy strip goes first. Desk 1 has (2, 5) and desk 2 (1, 1): with weights up to 2 the short one is no worse as the first, and from 2 on the heavy one.
for weight, figure, first in [(1, 10, 2), (2, 18, 1), (3, 25, 1), (MOST_WEIGHT, 704, 1)]:
    listed("(2, 5) of weight %d at desk 1" % weight, [[(2, 5, weight)], [(1, 1, 1)]], figure, first, 3 - first)
for weight, figure, first in [(1, 10, 1), (2, 18, 1), (3, 25, 2), (MOST_WEIGHT, 704, 2)]:
    listed("(2, 5) of weight %d at desk 2" % weight, [[(1, 1, 1)], [(2, 5, weight)]], figure, first, 3 - first)
listed("a heavy strip behind a light one of its desk", [[(1, 1, 1)] * 2, [(1, 1, 1), (1, 1, MOST_WEIGHT)]], 311, 2, 2, 1, 1)
listed("a heavy strip behind a long one of its desk", [[(1, 1, 1)] * 2, [(9, 1, 1), (1, 1, 4)]], 69, 1, 1, 2, 2)
listed("a heavy strip at desk 3", [[(1, 1, 1)], [(1, 1, 1)], [(3, 3, MOST_WEIGHT)]], 611, 3, 1, 2)
# Of several lists of least weighted figure that with the lower desk: weights that make a tie, and weights that end one.
listed("weights 2 and 1 as their times are", [[(2, 1, 2)], [(1, 1, 1)]], 10, 1, 2)
listed("the same weights at the other desks", [[(1, 1, 1)], [(2, 1, 2)]], 10, 1, 2)
listed("two equal strips, the second heavier", [[(1, 1, 1)], [(1, 1, 2)]], 7, 2, 1)
listed("two equal strips of weight 100", [[(1, 1, MOST_WEIGHT)], [(1, 1, MOST_WEIGHT)]], 500, 1, 2)
tied(
    "a tie of the weighted figures alone", sorting(2) + job(1, 2, 1, 2) + job(2, 1, 1),
    jobs(10, (1, 1, 0, 2), (2, 1, 2, 3)), jobs(10, (2, 1, 0, 1), (1, 1, 1, 3)),
)
# Small sortings with every weight, every list tried.
for weights in itertools.product((1, 2, MOST_WEIGHT), repeat=4):
    desks = [[(2, 5, weights[0]), (1, 1, weights[1])], [(1, 2, weights[2]), (3, 1, weights[3])]]
    listed("two desks, weights %d %d and %d %d" % weights, desks)
for weights in itertools.product((1, 3), repeat=6):
    desks = [[(1, 2, weights[2 * d]), (2, 1, weights[2 * d + 1])] for d in range(3)]
    listed("three identical desks, weights %d %d, %d %d and %d %d" % weights, desks)
# Drawn ones: small times and weights, with many best lists and batchings, and great ones.
rng = random.Random(9)
for k in range(60):
    most_time, most_weight = [(3, 3), (9, MOST_WEIGHT), (T, MOST_WEIGHT)][k % 3]
    drawn = lambda *lows: tuple(rng.randint(low, most_time) for low in lows)
    weight = lambda: rng.randint(1, most_weight)
    listed("a drawn sorting, %d" % k, [[(*drawn(1, 1), weight()) for _ in range(rng.randint(1, 3))] for _ in range(rng.randint(1, 3))])
    strips = [drawn(0, 0, 1) for _ in range(rng.randint(2, 8))]
    tried("a drawn mosaic, %d" % k, *drawn(0), strips, [weight() for _ in strips])

# All three sections with weights, and 11 behind them: the flight has no part in it.
URGENT_PLAN = jobs(25, (1, 1, 0, 2), (2, 1, 2, 3))
HEAVY_BEST = batches(judged.of_weights((2, 3, 5, 7), *judged.FOUR), *judged.FOUR)
tried("the first worked sheet, weights 2 3 5 7", 1, WORKED, (2, 3, 5, 7))
planned("all three sections with weights", judged.HEAVY_ALL, HEAVY_BEST + URGENT_PLAN + passes(5, 0xC, (0, 3), (1, 4)))
refused("weights, order C cannot be kept", judged.URGENT + judged.A + order(0xC), 11, len(judged.URGENT + judged.A))
CASES.append(("weight 0 behind a mosaic", judged.M + sorting(2) + job(1, 2, 5, 0) + judged.F, bytes.fromhex("E0 06 00 06 00 2E 00 00 00")))
CASES.append(("weight 101 of the fourth strip", judged.M[:33] + strip(1, 3, 1, weight=101), bytes.fromhex("E0 06 00 06 00 21 00 00 00")))
refused("a weight of 0, order C cannot be kept", sorting() + job(weight=0) + judged.A + order(0xC), 6, 4)

# A weight of 1 means the same as none.
for name, sheet in [
    ("the first worked sheet", judged.M),
    ("two desks", judged.S),
    ("two desks, 5 either way", judged.T),
    ("three strips, two desks", judged.THREE),
    ("all three sections", judged.ALL),
    ("mounts ahead", judged.WAITED),
    ("40 strips in three batches", mosaic_of(100, [(k, 41 - k) for k in range(1, 41)])),
    ("40 strips, several best batchings", mosaic_of(1, [(0, 2)] * 40)),
    ("the longest sections", sheets.LONG),
    ("the longest sections, a free flight", FREE_LONG),
    ("the longest sections and the longest turn", sheets.LONG_TURN),
]:
    same_weights(name, sheet)

# All other numbers go before 11, 17 too. The bytes of the whole answer.
CASES.append(("a window from 5 to 4 behind a mosaic", judged.M + flight() + window(1, 5, 4, 1), bytes.fromhex("E0 06 00 11 00 2D 00 00 00")))
refused("a longest delay below the turn, then 17", judged.NO_WINDOW + window(1, 5, 4, 1), 17, 16)
refused("a longest delay below the turn, then a first pass of 0", judged.NO_WINDOW + window(0), 16, 16)
refused("a longest delay below the turn, then an order that is not proper", judged.NO_WINDOW + order(1), 9, 16)
refused("a window block past the bytes that are taken", flight() + field(0x33, bytes(65535)), 3, 3)
refused("a window block up to the last byte that is taken", flight() + field(0x33, bytes(65530)), 5, 3)

# 6, 15 and 16 go before 11 of an order that cannot be kept.
refused("no desk, order C cannot be kept", judged.M + sorting(0) + judged.A + order(0xC), 6, len(judged.M))
refused("mount time 60,001, order C cannot be kept", mosaic(2, T + 1) + judged.M[6:] + judged.A + order(0xC), 15, 0)
refused("a second pass of 0, order C cannot be kept", judged.A[:-2] + word(0) + order(0xC), 16, len(judged.A) - 9)

# The program takes the first 65,536 bytes: a field that goes on behind them is cut.
refused("a field past the bytes that are taken", field(0x10, bytes(65535)), 3, 0)
refused("a field that ends at the last byte that is taken", field(0x10, bytes(65533)), 5, 0)

# Plans that judge_cases.py has no room for.
OTHERS.extend((name, sheet, plan, tuple(map(int, line.split()))) for name, sheet, plan, line in judged.LARGE)

# Every refusal of a sheet.
for name, sheet, line in sheets.CASES + sheets.LARGE:
    number, place = map(int, line.split()[:2])
    if number != 0:
        refused(name, sheet, number, place)


def written(program, sheet):
    return subprocess.run([program], input=sheet, stdout=subprocess.PIPE, check=True).stdout


def figures_judged(judge, sheet, plan):
    """What judge_plan writes, as numbers: number, place and the figures."""
    with tempfile.TemporaryDirectory() as folder:
        names = [pathlib.Path(folder) / name for name in ("sheet", "plan")]
        for name, content in zip(names, (sheet, plan)):
            name.write_bytes(content)
        lines = subprocess.run([judge, *names], stdout=subprocess.PIPE, check=True).stdout.split()
    return tuple(map(int, lines[1::2]))


def mounts_follow(plan):
    """Whether each mount of a plan starts when the batch before finishes, the first at 0."""
    free, at = 0, HEAD
    while plan[:1] == b"\x90" and plan[at:at + 1] == b"\x91":
        start, finish = (int.from_bytes(plan[k:k + 4], "little") for k in (at + 4, at + 8))
        if start != free:
            return False
        free, at = finish, at + 12
    return True


def main(program, judge):
    wrong = 0
    for name, sheet, due in CASES:
        plan = written(program, sheet)
        if plan != due:
            wrong += 1
            print("%s: sheet %s\n  due     %s\n  written %s" % (name, sheet.hex(), due.hex(), plan.hex()))
    for name, sheet, figures, part in BEST:
        plan = written(program, sheet)
        verdict = figures_judged(judge, sheet, plan)
        if verdict != (0, 0, *figures) or part not in plan or not mounts_follow(plan):
            wrong += 1
            print("%s: sheet %s\n  due     figures %s, sorting %s\n  written %s\n  judged  %s" % (name, sheet.hex(), figures, part.hex(), plan.hex(), verdict))
    for name, sheet, plan, due in OTHERS:
        verdict = figures_judged(judge, sheet, plan)
        if verdict != due:
            wrong += 1
            print("%s: sheet %s, plan %s\n  due     %s\n  judged  %s" % (name, sheet.hex(), plan.hex(), due, verdict))
    for name, sheet, other in SAME:
        plans = written(program, sheet), written(program, other)
        if plans[0] != plans[1]:
            wrong += 1
            print("%s: sheets %s and %s\n  the plan of the one %s\n  and of the other    %s" % (name, sheet.hex(), other.hex(), plans[0].hex(), plans[1].hex()))
    for name, sheet, before, blocks, turn, end in FLOWN:
        plan = written(program, sheet)
        number = int.from_bytes(plan[len(before) + 7:len(before) + 15], "little")
        starts = starts_in_order(blocks, number, turn) if number in proper_orders(len(blocks)) else None
        if starts is None or plan != before + passes(end, number, *starts):
            wrong += 1
            print("%s: sheet %s\n  due     figure %d, starts %s\n  written %s" % (name, sheet.hex(), end, starts, plan.hex()))
    counts = len(CASES) + len(BEST) + len(SAME) + len(FLOWN), program, len(OTHERS), wrong
    print("%d sheets planned or refused by %s, %d plans judged, %d wrong" % counts)
    sys.exit(1 if wrong else 0)


if __name__ == "__main__":
    main(*sys.argv[1:])
