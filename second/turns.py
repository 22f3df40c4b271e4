"""Flights with a turn, and their plans. All but the drawn ones are the same for every seed; tiny.py and longest.py have others.

Sheets that are planned, judged and printed, with a plan of earliest starts in the sheet's order:
- every turn of 0 to 700, every turn with a low byte of 0, 58 and 59, and others up to 65,535, with an order and without;
- one to three, 8 and 32 blocks of which one, at each place in turn, has a delay one below, at and one above the turn, with an order and without; and two
  blocks, one within the other, with a delay one below, at and one above what that takes;
- turns above 600, heads of a wrong length and heads that are cut short, behind other sections and behind what may not end there, with nothing, with blocks,
  with nine and with 33 of them, with an order, a head or a wrong field behind them;
- flights that are impossible and have another fault behind them, which comes first; also with too small a buffer.

Sheets that are planned:
- flights without order whose best order is another with a turn than without one, with every turn that leaves them possible, and one more;
- every row of none to four fields of a list with heads of 0 to 3 bytes, turns of 0, 1 and 601, blocks with delays 0 and 1, and orders;
- every change of one byte of a flight with a turn, with an order and without, and every beginning of it.

Plans that are judged and printed:
- every row of first starts of one and of two blocks, with turns of 1 and 2, with the order and figure of these passes, and with an untrue figure;
- plans of 1 to 3 and of 32 blocks in several orders in which one gap between two passes, at each place in turn, is a second shorter than all others, judged
  with the turn of that gap and with a turn one second longer;
- every change of one byte of a plan of a flight with a turn.

A turn of 0 beside an empty head: both sheets planned, judged and printed. The answers must be the same but for places behind the head.

Drawn: small flights with a turn; flights of 8 blocks without order that are impossible.
"""
import itertools

import distances
import plans
import reader
import sheets
import timetable
import tiny
from longest import FIRSTS_FIRST, IN_PAIRS, IN_TURN
from reader import MOST_TIME, MOST_TURN, field
from sheets import block, flight, flight_head, mosaic_head, order, sorting_head, strip


def in_turn(n):
    """The order number of n blocks, block after block."""
    return int("10" * n, 2)


def earliest_plan(blocks, number, turn):
    """The plan of a sheet with this flight alone, as early as the order allows. Where it is impossible with the turn, as if there were none."""
    far = distances.in_order(blocks, number, turn) or distances.in_order(blocks, number, 0)
    return flight_plan(blocks, distances.least(far), number)


def flight_plan(blocks, starts, number, more=0):
    """The plan of a flight alone with these starts and this order number, and a figure that is so much more than the true one."""
    return timetable.Plan([(0xB0, [distances.end(blocks, starts) + more, number], starts)], number).bytes()


def all_turns():
    low = (high << 8 | byte for high in range(256) for byte in (0x00, 0x58, 0x59))
    return sorted({*range(701), *low, *sheets.NEAR_ENDS, MOST_TIME + 1, 65535})


def every_turn():
    """A sheet and a plan. The delays have room for a pass and two of the longest turns. Plans for a turn one second shorter are turned back."""
    blocks, number = [(3, 1300, 2), (2, 1300, 4)], 0b1100
    for turn in all_turns():
        least = min(turn, MOST_TURN)
        yield flight(blocks, number, turn), earliest_plan(blocks, number, least)
        yield flight(blocks, None, turn), earliest_plan(blocks, number, max(0, least - 1))


def one_delay(n, at, delay, others):
    """So many blocks, of which one has this delay."""
    return [(2 + i % 3, delay if i == at else others, 1 + i % 2) for i in range(n)]


def about_delays():
    """A sheet and a plan. Of one block, and block after block, an order is possible where no delay is shorter than the turn."""
    places = [(n, at) for n in (1, 2, 3) for at in range(n)] + [(8, 0), (8, 3), (8, 7), (32, 0), (32, 15), (32, 31)]
    for turn, (n, at), more in itertools.product((1, 2, 255, 256, 599, 600), places, (-1, 0, 1)):
        blocks = one_delay(n, at, turn + more, 3 * turn + 50)
        for number in (None, in_turn(n)) if n < 9 else (in_turn(n),):
            yield flight(blocks, number, turn), earliest_plan(blocks, in_turn(n), turn)


def within_another():
    """A sheet and a plan. The first delay takes in the second block's first pass and two turns, or not quite."""
    for turn, more in itertools.product((0, 1, 2, 300, 599, 600), (-1, 0, 1)):
        blocks = [(3, 2 * turn + 5 + more, 2), (5, 2 * turn + 2, 4)]
        for number, kept in itertools.product((None, 0b1100, 0b1010), (0b1010, 0b1100 if more >= 0 else 0b1010)):
            yield flight(blocks, number, turn), earliest_plan(blocks, kept, turn)


# Turns and blocks without order. Of all orders that are possible with the turn, those that end first end later than another where there is no turn.
OTHER_BEST_ORDER = [
    (2, [(4, 13, 3), (1, 8, 3), (4, 18, 1), (2, 13, 4)]),
    (2, [(3, 7, 2), (1, 12, 1), (2, 19, 4), (3, 19, 2)]),
    (3, [(1, 22, 3), (2, 19, 3), (1, 17, 3), (3, 11, 4)]),
    (3, [(1, 12, 2), (3, 19, 4), (3, 15, 4), (3, 11, 1)]),
    (3, [(4, 12, 3), (2, 21, 2), (2, 22, 2), (2, 17, 3)]),
    (4, [(2, 14, 2), (4, 20, 3), (3, 21, 1), (1, 18, 1)]),
]


def other_best_order():
    """These flights with every turn from 0 on that leaves them possible, and one more."""
    for _, blocks in OTHER_BEST_ORDER:
        shortest = min(map(distances.longest, blocks))
        yield from (flight(blocks, turn=turn) for turn in range(shortest + 2))


# Behind a head that is turned back. None of it is looked at.
BEHIND = [
    b"", block(1, 0, 1), block(1, 0, 1) * 9, block(1, 0, 1) * 33, block(1, 0, 1) * 9 + mosaic_head(1, 0), block(1, 0, 1) + order(2), order(2),
    block(1, 0, 1) + order(3), flight_head(), flight_head(1), mosaic_head(1, 0), sorting_head(1), block(0, 0, 1), block(1, 0, 1)[:-1], field(0x31),
    field(0x99), b"\x31",
]

# The sections that may stand before a flight, and their plans.
SECTIONS = [
    (b"".join(tiny.ONES[one] for one in sections), b"".join(tiny.HEADS[one] + tiny.MEMBERS[one] for one in sections)) for sections in ("", "m", "s", "ms")
]

# Before a flight head: these, what may not end there, and a flight.
BEFORE = [
    *(sheet for sheet, _ in SECTIONS), mosaic_head(1, 0), tiny.ONES["m"] + sorting_head(1), flight_head(), flight_head(1), flight([(1, 1, 1)], turn=1),
    flight([(1, 1, 1)] * 9, turn=1), flight([(1, 1, 1)], 2, 1),
]


def turned_back(behind):
    """A sheet and a plan, with each of these behind the head."""
    heads = [flight_head(turn) for turn in (0, 600, 601, 602, 0x5802, 65535)]
    heads += [field(0x30, byte * length) for byte, length in itertools.product((b"\x00", b"\xFF"), (1, 3, 4))]
    cut = [flight_head(601)[:3], flight_head(601)[:4], field(0x30, b"\x59\x02\x00")[:5]]
    plan = tiny.HEADS["f"] + tiny.MEMBERS["f"]
    yield from ((b"".join(parts), plan) for parts in itertools.product(BEFORE, heads, behind))
    yield from ((b"".join(parts), plan) for parts in itertools.product(BEFORE, cut))


def impossible_and_more():
    """A sheet and a plan. The flight has a delay shorter than its turn, with an order and without, and something may stand behind it."""
    blocks = [(1, 600, 1), (2, 1, 1)]
    for (before, planned), number, behind in itertools.product(SECTIONS, (None, 0b1010, 0b0011), BEHIND):
        yield before + flight(blocks, number, 2) + behind, planned + earliest_plan(blocks, 0b1010, 2)


FIELDS = [
    mosaic_head(1, 0), strip([0, 1]), flight_head(), flight_head(0), flight_head(1), flight_head(601), field(0x30, b"\x01"), field(0x30, bytes(3)),
    block(1, 0, 1), block(1, 1, 1), order(2), order(12),
]


def field_rows():
    return map(b"".join, tiny.rows(FIELDS, 0, 4))


# Two blocks, each pass exactly a turn behind the one before.
TIGHT = [(1, 4, 1), (2, 3, 1)]


def changes(blocks=TIGHT):
    for number in (None, 0b1100):
        yield from tiny.changes(flight(blocks, number, 1))
        yield from tiny.beginnings(flight(blocks, number, 1))


def changed_plans(blocks=TIGHT):
    """A sheet and a plan, judged."""
    plan = earliest_plan(blocks, 0b1100, 1)
    return ((flight(blocks, 0b1100, 1), other) for other in tiny.changes(plan))


def plan_of_starts(blocks, starts, more=0):
    """The plan of a flight alone with these starts and the number of the order in which they come, and a figure that is so much more than the true one."""
    return flight_plan(blocks, starts, distances.order_of(starts), more)


def every_start():
    """Turn, blocks and first starts."""
    for turn in (1, 2):
        kinds = [(1, turn - 1, 1), (1, turn, 2), (2, turn + 1, 1), (1, 2 * turn + 1, 1), (1, 2 * turn + 2, 2)]
        yield from ((turn, [one], [start]) for one, start in itertools.product(kinds, range(5)))
        yield from ((turn, [one, other], firsts) for one, other in itertools.product(kinds, repeat=2) for firsts in itertools.product(range(12), repeat=2))


def with_gaps(n, number, gaps):
    """Blocks and first starts of n blocks whose passes, in this order, have these gaps between them."""
    time, starts = 0, {}
    for (i, second), gap in zip(distances.passes_in(n, number), [0, *gaps]):
        starts[i, second] = time + gap
        time += gap + 1 + (i + second) % 3
    firsts = [starts[i, 0] for i in range(n)]
    return [(1 + i % 3, starts[i, 1] - starts[i, 0] - 1 - i % 3, 1 + (i + 1) % 3) for i in range(n)], firsts


def one_gap_short():
    """The turn of the one short gap, the order, blocks and first starts, and the place of the gap."""
    orders = [(1, 0b10), (2, 0b1010), (2, 0b1100), (3, 0b101010), (3, 0b110100), (3, 0b111000), (3, 0b101100)]
    for (n, number), turn in itertools.product(orders + [(32, IN_TURN), (32, IN_PAIRS), (32, FIRSTS_FIRST)], (0, 1, 599)):
        for at in range(2 * n - 1):
            blocks, firsts = with_gaps(n, number, [turn + (k != at) * (1 + k % 3) for k in range(2 * n - 1)])
            yield turn, number, blocks, firsts, at


def empty_heads():
    """A sheet with an empty flight head, the place of the head, and a plan."""
    small, head = tiny.SMALL, tiny.SMALL.index(field(0x30) + block(1, 2, 1))
    for at, value in itertools.product(range(head + 3, len(small)), (0, 1, 2, 0x30, 0x31, 0x32, 0xFF)):
        yield small[:at] + bytes([value]) + small[at + 1:], head, tiny.small_plan()
    yield from ((small[:length], head, tiny.small_plan()) for length in range(head + 3, len(small) + 1))
    for (before, planned), blocks in itertools.product(SECTIONS, tiny.rows([(1, 0, 1), (1, 1, 1), (1, 3, 1), (2, 5, 2)], 1, 3)):
        yield before + flight(blocks), len(before), planned + earliest_plan(blocks, in_turn(len(blocks)), 0)
    for (before, planned), behind in itertools.product(SECTIONS, BEHIND):
        yield before + flight_head() + behind, len(before), planned + tiny.HEADS["f"] + tiny.MEMBERS["f"]


def written(sheet, head):
    """The sheet with a turn of 0 in its empty flight head."""
    return sheet[:head] + flight_head(0) + sheet[head + 3:]


def with_empty_head(sheet):
    """A sound sheet with its flight head made empty, and the place of the head; None where it has no flight."""
    at = reader.read(sheet).flight_at
    return None if at is None else (sheet[:at] + field(0x30) + sheet[at + 3 + reader.word(sheet, at + 1):], at)


def drawn_blocks(rng, n):
    return sheets.blocks_of(rng, sheets.any_family(rng, sheets.FLIGHTS), n)


def drawn_turn(rng, blocks):
    """A turn that is written."""
    return next(turn for turn in iter(lambda: sheets.turn_for(rng, blocks), ()) if turn is not None)


def small_flight(rng):
    """With an order or without."""
    blocks = drawn_blocks(rng, rng.randint(1, 4))
    turn = drawn_turn(rng, blocks)
    number = distances.order_of(plans.random_starts(rng, blocks, turn))
    return flight(blocks, rng.choice((None, None, number, number, plans.random_order(rng, len(blocks)))), turn)


def with_longest(block, longest):
    """The block with this longest delay, and with no shortest delay above it."""
    return (block[0], *(min(delay, longest) for delay in block[1:-2]), longest, block[-1])


def impossible_flight(rng):
    """Eight blocks without order, some of which have no delay as long as the turn."""
    turn, short = rng.choice((1, rng.randint(1, MOST_TURN), MOST_TURN)), rng.sample(range(8), rng.choice((1, 1, 2, 8)))
    blocks = [with_longest(block, max(turn, distances.longest(block))) for block in drawn_blocks(rng, 8)]
    for i in short:
        blocks[i] = with_longest(blocks[i], rng.choice((turn - 1, rng.randrange(turn))))
    return flight(blocks, turn=turn)
