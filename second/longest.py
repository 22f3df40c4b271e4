"""The longest sections: full ones in which every time is the greatest, the same with one time one less, and their plans up to the ceiling.
The same for every seed. A wide window is one of 0 to the greatest delay.

Sheets that are planned:
- mosaics of 40 strips, of one to four stations; sortings of 6, 6 + 6 and 6 + 6 + 6 strips, desk after desk and in turn; flights of 1 to 8 free blocks;
- flights of 32 blocks: block after block, in pairs, both mixed, in orders that are impossible, and with the longest delays, all first passes first, these
  as long as the delays let them be and one second longer;
- the same flights with the longest turn, in pairs with passes as long as delay and turns let them be and one second longer;
- the flights of 1 to 8 and of 32 blocks with wide windows, with every other block of one delay, and with windows whose longest delay is one too short;
- each of them with one time one less, at every place in turn; of the flights of 32 blocks those in two of the orders;
- all three sections together, with several of these flights and with one time one less in each section.

Plans that are judged, of mosaics batch by batch, in pairs and in one batch, of sortings, and of flights that are possible:
- with the earliest starts, with idle time before every start, and a mosaic whose first mount waits until the last strip is ready;
- with all members from one on moved, so that they end at the ceiling, or one behind it;
- moved whole, so that each member in turn is the first that ends behind the ceiling;
- all three sections at the ceiling, and one of them one behind it.
"""
import copy
import itertools

import distances
import plans
import reader
import sheets
import timetable
from reader import MOST_TIME, MOST_TURN
from timetable import CEILING

# Orders of 32 blocks, the latest pass first. A delay of the greatest time has room for one pass of the greatest time.
IN_TURN, IN_PAIRS = int("10" * 32, 2), int("1100" * 16, 2)
POSSIBLE = (IN_TURN, IN_PAIRS, int("10101100" * 8, 2), int("10" * 16 + "1100" * 8, 2))
FIRSTS_FIRST = int("1" * 32 + "0" * 32, 2)
IMPOSSIBLE = (FIRSTS_FIRST, int("1100" + "110100" * 10, 2), int("10" * 29 + "110100", 2))

# With the longest turn it has room for one pass of this time, a turn before it and one behind it.
BESIDE_TURNS = MOST_TIME - 2 * MOST_TURN

# The desks of the strips of a sorting, as they stand in the sheet.
QUEUES = ([1] * 6, [1, 2] * 6, [1] * 6 + [2] * 6, [1, 2, 3] * 6, [1] * 6 + [2] * 6 + [3] * 6)


def longest(members, times):
    """So many rows of so many times, all the greatest."""
    return [[MOST_TIME] * times for _ in range(members)]


def one_less(rows):
    """Rows of times with one time one less, at every place in turn."""
    for i, row in enumerate(rows):
        for k in range(len(row)):
            yield [*rows[:i], [*row[:k], row[k] - 1, *row[k + 1:]], *rows[i + 1:]]


def mosaic(rows, mount=MOST_TIME):
    return sheets.mosaic_head(len(rows[0]) - 1, mount) + b"".join(map(sheets.strip, rows))


def sorting(desks, rows):
    return sheets.sorting_head(max(desks)) + b"".join(sheets.job(desk, *row) for desk, row in zip(desks, rows))


def mosaics():
    for stations in (1, 2, 3, 4):
        rows = longest(40, stations + 1)
        yield mosaic(rows)
        yield mosaic(rows, MOST_TIME - 1)
        yield from map(mosaic, one_less(rows))


def sortings():
    for desks in QUEUES:
        rows = longest(len(desks), 2)
        yield sorting(desks, rows)
        yield from (sorting(desks, less) for less in one_less(rows))


def long_delays(members, time):
    """So many blocks with passes of this time and the greatest delay."""
    return [[time, MOST_TIME, time] for _ in range(members)]


def wide_windows(members, time):
    """The same with wide windows."""
    return [[time, 0, MOST_TIME, time] for _ in range(members)]


def both_kinds(members, time):
    """The same with every other block of one delay."""
    return [row for pair in zip(wide_windows(members, time), long_delays(members, time)) for row in pair][:members]


def flights_with_windows():
    """Free ones, and those with one time one less; those of 32 blocks in every order, and with one longest delay one less."""
    for n, turn, blocks_of in itertools.product(range(1, 9), (None, MOST_TURN), (wide_windows, both_kinds)):
        yield sheets.flight(blocks_of(n, MOST_TIME), turn=turn)
        yield from (sheets.flight(less, turn=turn) for less in one_less([[MOST_TIME, 1, MOST_TIME, MOST_TIME]] * n))
    for (turn, fits), blocks_of in itertools.product(((None, MOST_TIME), (MOST_TURN, BESIDE_TURNS)), (wide_windows, both_kinds)):
        yield from (sheets.flight(blocks_of(32, fits), order, turn) for order in POSSIBLE + IMPOSSIBLE)
        for i, order in itertools.product(range(0, 32, 5), (IN_TURN, IN_PAIRS)):
            blocks = blocks_of(32, fits)
            blocks[i][-2] -= 1
            yield sheets.flight(blocks, order, turn)
    yield from (sheets.flight(wide_windows(32, BESIDE_TURNS + 1), order, MOST_TURN) for order in POSSIBLE)


def free_flights():
    for n, turn in itertools.product(range(1, 9), (None, MOST_TURN)):
        yield sheets.flight(longest(n, 3), turn=turn)
        yield from (sheets.flight(less, turn=turn) for less in one_less(longest(n, 3)))
    for n, time in itertools.product(range(1, 9), (BESIDE_TURNS, BESIDE_TURNS + 1)):
        yield sheets.flight(long_delays(n, time), turn=MOST_TURN)


def firsts_first(turn):
    """The longest delay of block 1 takes in the first passes of the 31 others with 32 turns, or not quite."""
    fits = (MOST_TIME - 32 * (turn or 0)) // 31
    return [sheets.flight(blocks_of(32, time), FIRSTS_FIRST, turn) for blocks_of in (long_delays, wide_windows) for time in (fits, fits + 1)]


def ordered_flights():
    for turn, fits in ((None, MOST_TIME), (MOST_TURN, BESIDE_TURNS)):
        blocks = long_delays(32, fits)
        yield from (sheets.flight(blocks, order, turn) for order in POSSIBLE + IMPOSSIBLE)
        yield from firsts_first(turn)
        for order in (IN_TURN, IN_PAIRS):
            yield from (sheets.flight(less, order, turn) for less in one_less(blocks))
    yield from (sheets.flight(long_delays(32, BESIDE_TURNS + 1), order, MOST_TURN) for order in POSSIBLE)
    yield from (sheets.flight(longest(32, 3), order, MOST_TURN) for order in POSSIBLE)


def ends_less(rows):
    """Rows of times with the first time, and with the last time, one less."""
    less = list(one_less(rows))
    return less[0], less[-1]


def all_three():
    """With a free flight, with one in each order that is possible, and with one time of one section one less."""
    strips, jobs, blocks, desks = longest(40, 5), longest(18, 2), longest(32, 3), QUEUES[-1]
    before = mosaic(strips) + sorting(desks, jobs)
    yield before + sheets.flight(blocks[:8])
    yield before + sheets.flight(blocks[:8], turn=MOST_TURN)
    yield from (before + sheets.flight(both_kinds(32, MOST_TIME), order) for order in POSSIBLE)
    yield from (before + sheets.flight(blocks, order) for order in POSSIBLE)
    yield from (before + sheets.flight(long_delays(32, BESIDE_TURNS), order, MOST_TURN) for order in POSSIBLE)
    yield from (before + flight for flight in firsts_first(None) + firsts_first(MOST_TURN))
    yield from (mosaic(less) + sorting(desks, jobs) + sheets.flight(blocks, IN_PAIRS) for less in ends_less(strips))
    yield from (mosaic(strips) + sorting(desks, less) + sheets.flight(blocks, IN_PAIRS) for less in ends_less(jobs))
    yield from (before + sheets.flight(less, IN_PAIRS) for less in ends_less(blocks))


def planned():
    for section in (mosaics, sortings, free_flights, ordered_flights, flights_with_windows, all_three):
        yield from section()


def each_wait(time):
    return lambda: time


def first_wait(time):
    waits = iter([time])
    return lambda: next(waits, 0)


def mosaic_plans():
    """A sheet and a plan. Waits of a whole time before each of 40 mounts stay below the ceiling."""
    for stations in (1, 4):
        sheet = mosaic(longest(40, stations + 1))
        parsed = reader.read(sheet)
        for size in (1, 2, 40):
            lasts = range(size, 41, size)
            for wait in (timetable.no_wait, each_wait(MOST_TIME), first_wait(40 * MOST_TIME)):
                yield sheet, timetable.plan_of(parsed, timetable.batches_of(parsed, lasts, wait), [], None, [])


def sorting_plans():
    for desks in QUEUES:
        sheet = sorting(desks, longest(len(desks), 2))
        parsed = reader.read(sheet)
        for wait in (timetable.no_wait, each_wait(MOST_TIME)):
            yield sheet, timetable.plan_of(parsed, [], timetable.jobs_of(parsed, desks, wait), None, [])


def flight_plans():
    orders, turns = [(8, int("10" * 8, 2)), (8, int("1100" * 4, 2)), *((32, order) for order in POSSIBLE)], ((None, MOST_TIME), (MOST_TURN, BESIDE_TURNS))
    kinds = [(long_delays, *one) for one in itertools.product(orders, turns)] + [(both_kinds, *one) for one in itertools.product(orders[1:4], turns)]
    for blocks_of, (n, order), (turn, fits) in kinds:
        blocks = blocks_of(n, fits)
        far = distances.in_order(blocks, order, turn or 0)
        for given in (order, None) if n == 8 else (order,):
            sheet = sheets.flight(blocks, given, turn)
            for gap in (0, 4 * MOST_TIME):
                yield sheet, timetable.plan_of(reader.read(sheet), [], [], order, distances.least(far, [(i * gap, 0) for i in range(n)]))


def ends_of(sheet, tag, members):
    """When each member of a section ends."""
    if tag == 0x90:
        return [finish for _, _, finish in members]
    if tag == 0xA0:
        return [begin + sheet.queue(desk)[number - 1][1] for desk, number, _, begin in members]
    return [second + block[-1] for (_, second), block in zip(members, sheet.blocks)]


def moved(sheet, plan, section, first, by):
    """The plan with the members of a section from `first` on so much later."""
    plan = copy.deepcopy(plan)
    tag, head, members = plan.sections[section]
    plans.mount_late(sheet, tag, members, first)
    plans.shift(tag, members[first:], by)
    head[0] = plans.figure_of(sheet, tag, members)
    return plan


def place_of(plan, section, member):
    """Where a member stands in the plan's bytes."""
    before = timetable.Plan(plan.sections[:section], None).bytes()
    tag, head, members = plan.sections[section]
    return len(before + timetable.Plan([(tag, head, members[:member])], None).bytes())


def apart_from(plan, first):
    """Whether the members before `first` are done with when it starts: in flight, where no block is open then."""
    tag, head, _ = plan.sections[0]
    return tag != 0xB0 or bin(head[1] & (1 << 2 * first) - 1).count("1") == first


def at_ceiling(sheet, plan):
    """Of a sheet with one section: plans that end at the ceiling, or behind it; each with None, or the place of the member that is then turned back."""
    parsed = reader.read(sheet)
    ends = ends_of(parsed, *plan.sections[0][::2])
    for first in filter(lambda first: apart_from(plan, first), range(len(ends))):
        yield moved(parsed, plan, 0, first, CEILING - ends[-1]), None
        yield moved(parsed, plan, 0, first, CEILING + 1 - ends[-1]), place_of(plan, 0, len(ends) - 1)
    for member, end in enumerate(ends):
        yield moved(parsed, plan, 0, 0, CEILING + 1 - end), place_of(plan, 0, member)


def all_at_ceiling():
    """A sheet with all three sections, its plan at the ceiling, and the same with one section one behind it."""
    rows, desks, blocks = longest(40, 5), QUEUES[-1], longest(32, 3)
    sheet = mosaic(rows) + sorting(desks, longest(18, 2)) + sheets.flight(blocks, IN_PAIRS)
    parsed = reader.read(sheet)
    starts = distances.least(distances.in_order(blocks, IN_PAIRS, 0))
    plan = timetable.plan_of(parsed, timetable.batches_of(parsed, range(1, 41)), timetable.jobs_of(parsed, desks), IN_PAIRS, starts)
    for section, (tag, _, members) in enumerate(plan.sections):
        plan = moved(parsed, plan, section, 0, CEILING - ends_of(parsed, tag, members)[-1])
    yield sheet, plan, None
    for section, (_, _, members) in enumerate(plan.sections):
        yield sheet, moved(parsed, plan, section, len(members) - 1 if section < 2 else 0, 1), place_of(plan, section, len(members) - 1)


def judged():
    """A sheet, a plan, and None where it is allowed or the place of 13."""
    for section in (mosaic_plans, sorting_plans, flight_plans):
        for sheet, plan in section():
            yield sheet, plan, None
            yield from ((sheet, late, place) for late, place in at_ceiling(sheet, plan))
    yield from all_at_ceiling()
