"""Flights with windows, and their plans. All but the drawn ones are the same for every seed; values.py, lengths.py, longest.py and sheets.py have others.

Sheets whose least figures and least starts are found by trying every delay, every order and idle time:
- one block: passes of 1 or 2, every window of 0 to 4, with turns of 0 to 4;
- two blocks: passes of 1, with a turn also of 2, every window of 0 to 3, one of 5 and one of 2 to 5, with turns of 0 and 1; and some with a turn of 2;
- three blocks: passes of 1, every window of 0 to 2, and windows and delays of two lists, with turns of 0 and 1; all without order and with every proper order.

Sheets that are planned, judged and printed:
- blocks with every row of values of a list, in and out of their ranges, the longest delay below, at and above the shortest, alone and behind a block;
- windows whose two ends are the same or differ in one byte or in both;
- 1, 2, 7 to 9 and 31 to 34 blocks of both kinds in several mixtures, the last one good, 16 or 17, with and without an order and a head behind them;
- flights that are possible or not because of one window, at each place in turn: its longest delay is one below, at and one above the turn, with an order and
  without; and two blocks, one within the other, with a longest delay one below, at and one above what that takes;
- flights that are impossible because of a window, and windows of number 17, behind other sections and with other fields behind them.

Sheets that are planned:
- the blocks with every row of values that are the 33rd block, cut short, of a wrong length or not permitted;
- given orders whose earliest starts take delays within a window: the worked one, pairs and steps of 2 to 32 blocks, with turns and behind other sections;
- flights without order whose least figure needs a delay within a window, or whose best order is another because of the longest delays, with every turn that
  leaves them possible, and one more;
- every row of none to four fields of a list with blocks of both kinds, right and wrong, heads and orders;
- every change of one byte of a flight with a window, with an order and without, and every beginning of it.

Plans that are judged and printed:
- every row of small starts of one and two blocks with windows, with turns of 0 and 1, with the order and figure of these passes, some with an untrue figure;
- plans of 1 to 3, 8 and 32 blocks in several orders, with idle time, in which one delay, at each block in turn, of 32 at five of them, is an end of its window,
  within it, or one second beyond an end;
- every change of one byte of a plan of a flight with windows.

Windows of one value beside blocks of one delay: both sheets planned, judged and printed. The answers must be the same but for places.

Drawn: small flights with windows, of 8 blocks without order, of 32 in order, and of windows of one value.
"""
import itertools

import brute
import distances
import plans
import reader
import sheets
import timetable
import tiny
import turns
from longest import FIRSTS_FIRST, IN_PAIRS, IN_TURN
from reader import MOST_TIME, MOST_TURN, field
from sheets import block, flight, flight_head, mosaic_head, order, sorting_head, strip
from turns import SECTIONS, earliest_plan, in_turn

OVER = MOST_TIME + 1


def windows(most):
    """Every window with both ends up to `most`."""
    return [(shortest, longest) for longest in range(most + 1) for shortest in range(longest + 1)]


def every_window():
    """The blocks of each flight, and its turn; None for an empty head."""
    for window, a, b, turn in itertools.product(windows(4), (1, 2), (1, 2), (None, 1, 2, 3, 4)):
        yield [(a, *window, b)], turn
    for one, other, turn in itertools.product([*windows(3), (5, 5), (2, 5)], [*windows(3), (5, 5), (2, 5)], (None, 1)):
        yield [(1, *one, 2), (2, *other, 1)] if turn else [(1, *one, 1), (1, *other, 1)], turn
    for one, other in itertools.product([(0, 1), (0, 3), (2, 2), (2, 6), (5, 7)], repeat=2):
        yield [(1, *one, 1), (2, *other, 2)], 2
    for row in itertools.product(windows(2), repeat=3):
        yield [(1, *window, 1) for window in row], None
    for row in itertools.product([(1, 1, 4, 1), (1, 2, 1), (1, 4, 5, 1), (1, 0, 2, 1)], repeat=3):
        yield row, None
    for row in itertools.product([(1, 1, 3, 1), (1, 3, 5, 1), (1, 4, 1), (1, 0, 6, 1)], repeat=3):
        yield row, 1


# Values of a window block: of its first pass, its shortest and its longest delay, and its second pass.
VALUES = ((1, 0, MOST_TIME, OVER), (3, 0, MOST_TIME, OVER, 65535), (3, 0, 2, 4, MOST_TIME, OVER, 65535), (1, 0, OVER))


def every_value():
    """A block with every row of these values."""
    return [block(*row) for row in itertools.product(*VALUES)]


def out_of_range():
    """A sheet and a plan: the block alone, and behind another."""
    plan = earliest_plan([(1, 3, 1)], 0b10, 0)
    two = earliest_plan([(1, 3, 1), (1, 3, 1)], 0b1010, 0)
    for one in every_value():
        yield flight_head() + one, plan
        yield flight_head(2) + block(1, 3, 1) + one + order(0b1010), two


def wrong_twice():
    """A window block with these values that is the 33rd, is cut short, has another length or is not permitted."""
    full = flight([(1, 0, 1), (1, 0, 2, 1)] * 16)
    for one in every_value():
        content = one[3:]
        yield full + one
        yield flight_head() + one[:-1]
        yield from (flight_head() + other for other in (field(0x33, content[:-1]), field(0x33, content + b"\x01"), field(0x31, content), field(0x34, content)))
        yield from (before + one for before in (b"", mosaic_head(1, 0), tiny.ONES["m"], flight([(1, 0, 1, 1)], 0b10)))


def ends_apart():
    """A sheet and a plan. The ends of the window differ in their low bytes, their high bytes or both."""
    ends = (0, 1, 2, 254, 255, 256, 257, 511, 512, 0x0102, 0x0201, MOST_TIME - 1, MOST_TIME)
    for (shortest, longest), number in itertools.product(itertools.product(ends, repeat=2), (None, 0b10)):
        yield flight([(1, shortest, longest, 1)], number), earliest_plan([(1, shortest, max(shortest, longest), 1)], 0b10, 0)


def mixtures(n):
    """Rows of n blocks: all of one kind, in turn, and with one of the other kind."""
    one, window = (1, 0, 1), (1, 0, 2, 1)
    yield from ([one] * n, [window] * n, ([one, window] * n)[:n], ([window, one] * n)[:n], [one] * (n - 1) + [window], [window] * (n - 1) + [one])
    yield [window if i == n // 2 else one for i in range(n)]


def counts():
    """A sheet and a plan: of so many blocks, the last one good or not, and what may stand behind them."""
    for n in (1, 2, 7, 8, 9, 31, 32, 33, 34):
        plan = earliest_plan([(1, 0, 1)] * min(n, 32), in_turn(min(n, 32)), 0)
        for blocks in mixtures(n):
            rows = (blocks, blocks[:-1] + [(1, 0, 2, 0)], blocks[:-1] + [(1, 2, 1, 1)], blocks[:-1] + [(0, 0, 1)])
            for row, behind in itertools.product(rows, (b"", order(in_turn(n) % (1 << 64)), order(1), mosaic_head(1, 0), flight_head())):
                yield flight(row) + behind, plan


def one_longest(n, at, window, others):
    """So many blocks with windows, of which one has this window."""
    return [(2 + i % 3, *(window if i == at else others), 1 + i % 2) for i in range(n)]


def about_longest():
    """A sheet and a plan. Of one block, and block after block, an order is possible where no longest delay is below the turn."""
    places = [(n, at) for n in (1, 2, 3) for at in range(n)] + [(8, 0), (8, 5), (8, 7), (32, 0), (32, 15), (32, 31)]
    for turn, (n, at), more, width in itertools.product((1, 2, 256, 600), places, (-1, 0, 1), (0, 1, 200)):
        longest = turn + more
        blocks = one_longest(n, at, (max(0, longest - width), longest), (turn // 2, 3 * turn + 50))
        for number in (None, in_turn(n)) if n < 9 else (in_turn(n),):
            yield flight(blocks, number, turn), earliest_plan(blocks, in_turn(n), turn)


def within_another():
    """A sheet and a plan. The first window takes in the second block's first pass and two turns, or not quite."""
    for turn, more, width in itertools.product((0, 1, 2, 300, 600), (-1, 0, 1), (0, 1, 4)):
        longest = 2 * turn + 5 + more
        blocks = [(3, longest - width, longest, 2), (5, max(0, 2 * turn + 1 - width), 2 * turn + 2, 4)]
        for number, kept in itertools.product((None, 0b1100, 0b1010), (0b1010, 0b1100 if more >= 0 else 0b1010)):
            yield flight(blocks, number, turn), earliest_plan(blocks, kept, turn)


# Behind a flight that is impossible, or behind a window of number 17. Some of it makes the flight whole, some has a number of its own.
BEHIND = [
    b"", block(1, 2, 1), block(1, 0, 2, 1), block(1, 2, 1, 1), block(1, 0, 0, 0), block(1, OVER, 0, 1), order(0b10), order(0b1010), order(0b0011),
    flight_head(), flight_head(601), mosaic_head(1, 0), sorting_head(1), field(0x33), field(0x33, bytes(6)), field(0x99), block(1, 0, 2, 1)[:-1], b"\x33",
]


def other_faults():
    """A sheet and a plan: a window of number 17, or a flight that is impossible because of a window, with other sections before it and fields behind it."""
    flights = [([(1, 2, 1, 1)], None), ([(1, 0, 1), (1, 2, 1, 1)], None), ([(1, 0, 1, 1)], 2), ([(1, 5, 1), (1, 0, 1, 1)], 2)]
    plan = earliest_plan([(1, 2, 1)], 0b10, 0)
    for (before, planned), (blocks, turn), behind in itertools.product(SECTIONS, flights, BEHIND):
        yield before + flight(blocks, turn=turn) + behind, planned + plan


def steps(n):
    """The order number of n blocks of which each but the last has the next one's first pass between its own two."""
    return int("11" + "01" * (n - 2) + "00", 2) if n > 1 else 0b10


def inside():
    """Given orders whose earliest starts take delays that are no end of a window; one end of a window of some block may then be too near."""
    yield flight([(1, 0, 3, 1), (1, 5, 1)], 0b1100)
    for n, wide, turn in itertools.product((2, 3, 4, 8, 9, 16, 31, 32), (0, 1, 3, 9, 90), (None, 1, 3)):
        blocks = [(1 + i % 3, i % 2, 3 + i % 4 + wide, 1 + i % 2) for i in range(n)]
        mixed = [(a, longest, b) if i % 3 == 2 else (a, shortest, longest, b) for i, (a, shortest, longest, b) in enumerate(blocks)]
        pairs = int("1100" * (n // 2), 2) if n % 2 == 0 else int("10" + "1100" * (n // 2), 2)
        for row, number in itertools.product((blocks, mixed), (in_turn(n), pairs, steps(n), (1 << n) - 1 << n)):
            yield flight(row, number, turn)
    for (before, _), turn in itertools.product(SECTIONS, (None, 0, 1, 2)):
        yield before + flight([(1, 0, 9, 1), (1, 5, 1), (2, 1, 4, 1)], 0b110100, turn)


def close_steps():
    """Given orders in which each first pass is held back by its second, which waits for the next block: steps of blocks with short windows."""
    for n, slack, turn in itertools.product((3, 5, 8, 17, 32), (0, 1, 2, 5), (0, 1)):
        blocks = [(2, 3 + 2 * turn, 3 + 2 * turn + slack * (i % 2), 1 + (i % 5 == 4)) for i in range(n)]
        yield flight(blocks, steps(n), turn)
        yield flight(blocks[:-1] + [(2, 40 + turn, 50 + turn, 1)], steps(n), turn)
        yield flight([(4, 3 + 2 * turn, 9 + 2 * turn, 7), *blocks[1:]], steps(n), turn)


# Turns and blocks without order. Of all orders and delays, those that end first take a delay that is no end of its window.
WITHIN_IS_BEST = [
    (0, [(2, 0, 9, 4), (1, 9, 4), (2, 11, 3)]),
    (0, [(4, 8, 17, 1), (3, 9, 2), (4, 4, 13, 1)]),
    (0, [(1, 8, 12, 3), (1, 1, 7, 4), (1, 8, 12, 3), (4, 10, 14, 3)]),
    (1, [(3, 5, 11, 4), (3, 4, 13, 1)]),
    (1, [(1, 6, 4), (1, 2, 11, 1), (1, 1, 2)]),
    (1, [(4, 8, 10, 4), (2, 12, 21, 4), (1, 10, 19, 4)]),
    (1, [(4, 1, 7, 4), (4, 8, 10, 1), (3, 12, 16, 3), (3, 8, 17, 4)]),
    (2, [(4, 6, 15, 1), (4, 6, 8, 1)]),
    (2, [(2, 5, 14, 2), (3, 5, 9, 3), (4, 2, 8, 4)]),
    (2, [(3, 7, 11, 4), (1, 2, 11, 1), (4, 7, 11, 3)]),
    (3, [(3, 7, 16, 1), (3, 9, 18, 1), (2, 9, 18, 1)]),
    (3, [(3, 5, 9, 1), (2, 12, 16, 4), (3, 7, 16, 4)]),
    (3, [(4, 8, 17, 2), (3, 9, 18, 2), (4, 8, 14, 2), (3, 10, 16, 3)]),
]


# The same. Of all orders, those that would end first if windows had no longest delay are possible and end later than another.
HELD_BY_LONGEST = [
    (0, [(4, 5, 8, 1), (1, 12, 14, 1), (2, 4, 6, 2), (2, 8, 9, 1)]),
    (0, [(5, 5, 8, 5), (2, 8, 3), (1, 2, 7, 1), (3, 12, 2)]),
    (0, [(3, 9, 10, 5), (4, 9, 10, 5), (4, 7, 8, 3), (3, 10, 15, 1)]),
    (0, [(4, 13, 14, 6), (4, 10, 6), (3, 8, 9, 3), (3, 13, 6)]),
    (0, [(3, 7, 10, 2), (5, 10, 3), (1, 3, 8, 1), (1, 11, 16, 2)]),
    (1, [(4, 12, 17, 5), (1, 9, 10, 3), (1, 3, 8, 4), (2, 12, 6)]),
]


def free_by_windows():
    """These flights with every turn from 0 on that leaves them possible, and one more; with their own turn behind other sections too."""
    for own, blocks in WITHIN_IS_BEST + HELD_BY_LONGEST:
        yield from (flight(blocks, turn=turn) for turn in range(min(map(distances.longest, blocks)) + 2))
        yield from (before + flight(blocks, turn=own) for before, _ in SECTIONS)


FIELDS = [
    mosaic_head(1, 0), strip([0, 1]), flight_head(), flight_head(1), block(1, 1, 1), block(1, 0, 2, 1), block(1, 2, 1, 1), block(1, 0, 0, 0),
    field(0x33, bytes(6)), order(0b10), order(0b1010),
]


def field_rows():
    return map(b"".join, tiny.rows(FIELDS, 0, 4))


# Two blocks whose earliest starts take a delay within the window.
LOOSE = [(1, 0, 6, 1), (2, 3, 4, 1)]


def changes():
    return turns.changes(LOOSE)


def changed_plans():
    return turns.changed_plans(LOOSE)


def every_start():
    """Turn, blocks and starts. A second pass may start before its first has ended."""
    for window, first, second, turn in itertools.product(windows(3), range(3), range(8), (0, 1)):
        yield turn, [(2, *window, 1)], [[first, second]]
    kinds = [(1, 0, 2, 1), (1, 1, 3, 1), (1, 2, 1), (1, 3, 5, 1)]
    for one, other, turn in itertools.product(kinds, kinds, (0, 1)):
        for firsts, delays in itertools.product(itertools.product(range(3), range(5)), itertools.product(range(-1, 5), range(7))):
            yield turn, [one, other], [[first, first + 1 + delay] for first, delay in zip(firsts, delays)]


def beyond_window(blocks, starts):
    """The index of the first block whose delay does not lie in its window, or None."""
    for i, (one, (first, second)) in enumerate(zip(blocks, starts)):
        if second - first - one[0] not in brute.delays_of(one):
            return i
    return None


# Windows about a delay, by how far their ends are from it, and whether the delay lies within.
ABOUT = [((0, 0), True), ((0, 4), True), ((-4, 0), True), ((-1, 1), True), ((1, 1), False), ((1, 9), False), ((-9, -1), False), ((-1, -1), False)]


def window_about(one, ends):
    """The block with a window about its delay, its ends in their range; None where there is no such window on that side."""
    first, delay, second = one
    shortest, longest = max(0, delay + ends[0]), delay + ends[1]
    return None if longest < shortest else (first, shortest, longest, second)


def ends_judged():
    """Order, turn, blocks and starts of a plan with idle time, and the block whose delay is one beyond its window, or None. All other windows are wide."""
    orders = [(1, 0b10), (2, 0b1010), (2, 0b1100), (3, 0b110100), (3, 0b111000), (8, steps(8)), (32, IN_TURN), (32, IN_PAIRS), (32, FIRSTS_FIRST)]
    for (n, number), turn in itertools.product(orders, (0, 2)):
        exact, firsts = turns.with_gaps(n, number, [turn + k % 4 for k in range(2 * n - 1)])
        wide, starts = [window_about(one, (-9, 9)) for one in exact], timetable.passes_of(exact, firsts)
        for at, (ends, lies_within) in itertools.product(range(n) if n < 9 else (0, 1, 15, 30, 31), ABOUT):
            one = window_about(exact[at], ends)
            if one is not None:
                yield number, turn, [*wide[:at], one, *wide[at + 1:]], starts, None if lies_within else at


def place_of_member(at):
    """Where the member of a block stands in the plan of a flight alone."""
    return 15 + 11 * at


def as_window(one):
    """A block of one delay with a window of this one value."""
    return (one[0], one[1], *one[1:])


def beside(before, blocks, turn, behind, which):
    """A sheet, the same with windows of one value for the blocks at these indices, and the places of these blocks in the first. Each block has one delay."""
    head = before + flight_head(turn)
    others = [as_window(one) if i in which else one for i, one in enumerate(blocks)]
    return head + b"".join(block(*one) for one in blocks) + behind, head + b"".join(block(*one) for one in others) + behind, [len(head) + 9 * i for i in which]


def choices(n):
    """Indices of the blocks that are made windows: all, the first, the last, every other."""
    return sorted({tuple(range(n)), (0,), (n - 1,), tuple(range(0, n, 2)), tuple(range(1, n, 2)) or (0,)})


def one_value():
    """Two sheets that mean the same, the places of the longer fields, and a plan."""
    rows = list(tiny.rows([(1, 0, 1), (1, 1, 1), (1, 3, 1), (2, 5, 2)], 1, 2)) + [[(1, 3, 1), (2, 5, 2), (1, 4, 1)], [(1, 1, 1)] * 8, [(2, 5, 2)] * 9]
    rows += [[(0, 3, 1)], [(1, OVER, 1)], [(1, 3, 0)], [(1, 3, 1), (1, 65535, 0)], [(1, 3, 1), (0, OVER, 1)], [(1, MOST_TIME, 1), (1, MOST_TIME, 1)]]
    for (before, planned), blocks, turn in itertools.product((SECTIONS[0], SECTIONS[-1]), rows, (None, 0, 1)):
        sound = all(first and time <= MOST_TIME and second for first, time, second in blocks)
        plan = planned + earliest_plan(blocks if sound else [(1, 3, 1)] * len(blocks), in_turn(len(blocks)), turn or 0)
        for which, behind in itertools.product(choices(len(blocks)), (b"", order(in_turn(len(blocks))), mosaic_head(1, 0))):
            yield *beside(before, blocks, turn, behind, which), plan
    for n, number in ((2, 0b1100), (8, steps(8)), (32, IN_TURN), (32, IN_PAIRS), (32, FIRSTS_FIRST), (33, IN_TURN)):
        blocks = [(1, 40, 1)] * n
        for which, behind in itertools.product(choices(n), (order(number), order(number ^ 1), b"")):
            yield *beside(b"", blocks, 1, behind, which), earliest_plan(blocks[:32], number, 1)


def with_one_value(rng, sheet):
    """A sound sheet whose blocks have one delay each, the same with windows of one value for some, and the places of these; None where it has no flight."""
    parsed = reader.read(sheet)
    if parsed.flight_at is None:
        return None
    blocks = [(one[0], rng.choice(one[1:-1]), one[-1]) for one in parsed.blocks]
    behind = b"" if parsed.order is None else order(parsed.order)
    which = sorted(rng.sample(range(len(blocks)), rng.randint(1, len(blocks))))
    return beside(sheet[:parsed.flight_at], blocks, rng.choice((None, parsed.turn)), behind, which)


def drawn_windows(rng, n):
    """Blocks of any family, each with a window, or one in four with one delay."""
    blocks = turns.drawn_blocks(rng, n)
    return [sheets.with_window(rng, *one) if len(one) == 3 and rng.random() < 0.75 else one for one in blocks]


def small_flight(rng):
    """With an order or without, and with a turn or without."""
    blocks = drawn_windows(rng, rng.randint(1, 4))
    turn = sheets.turn_for(rng, blocks)
    number = distances.order_of(plans.random_starts(rng, blocks, turn or 0))
    return flight(blocks, rng.choice((None, number, number, plans.random_order(rng, len(blocks)))), turn)


def narrowed(rng, blocks, starts):
    """The blocks, all with windows, each cut on one side, on both or on none, so that it still has the delay of these starts."""
    out = []
    for one, (first, second) in zip(blocks, starts):
        delay = second - first - one[0]
        ends = rng.choice(((one[1], one[-2]), (one[1], one[-2]), (delay, one[-2]), (one[1], delay), (delay, delay)))
        out.append((one[0], *ends, one[-1]))
    return out


def at_the_edge(rng, blocks, number, turn):
    """The blocks with one longest delay as short as the order lets it be, or a second shorter; or with one shortest delay as long, or a second longer. Where
    there is such a block, one whose whole window the order does not allow."""
    far = distances.in_order(blocks, number, turn)
    ends = [(far[2 * i][2 * i + 1] - one[0], -far[2 * i + 1][2 * i] - one[0]) for i, one in enumerate(blocks)]
    held = [i for i, one in enumerate(blocks) if ends[i] != one[1:-1]]
    i = rng.choice(held or range(len(blocks)))
    first, shortest, longest, second = blocks[i]
    if ends[i][0] > shortest and rng.random() < 0.7:
        longest = max(shortest, ends[i][0] - rng.choice((0, 1)))
    else:
        shortest = min(longest, ends[i][1] + rng.choice((0, 1)))
    return [*blocks[:i], (first, shortest, longest, second), *blocks[i + 1:]]


def large_flight(rng):
    """32 blocks in the order of some timetable, with windows that it keeps; or with one window at the edge of what the order lets it be, or beyond."""
    blocks = drawn_windows(rng, 32)
    turn = min(MOST_TURN, min(map(distances.longest, blocks)), rng.choice((0, 0, 1, 600)))
    starts = plans.random_starts(rng, blocks, turn)
    blocks, number = narrowed(rng, blocks, starts), distances.order_of(starts)
    return flight(at_the_edge(rng, blocks, number, turn) if rng.random() < 0.7 else blocks, number, turn)


def free_flight(rng):
    """Eight blocks with windows, most with a turn that leaves them possible."""
    blocks = drawn_windows(rng, 8)
    return flight(blocks, turn=sheets.turn_for(rng, blocks))
