"""Every tiny sheet of bounded kinds, and every tiny plan. The same for every seed.

Sheets whose least figures are found by trying timetables, idle ones too:
- mosaics of one station: mount time 0, 1 or 3, one to three strips, station times 0, 1 or 3, bench times 1 or 3;
- mosaics of two stations: mount time 0, 1 or 2, two strips, station times 0 or 2, bench times 1 or 3;
- sortings of two desks: none to two strips at each, scan and desk times 1 or 3, either desk's strips first in the sheet;
- sortings of three desks: none or one strip at each, scan and desk times 1 to 3;
- flights of one or two blocks: passes of 1 or 2, delays 0 to 3, without order and with every order number of up to two bits too many;
- flights of three blocks: passes of 1, delays 0, 1, 2 or 4, without order and with every order number of six bits;
- flights with a turn of 1, 2 or 3 and one or two blocks: passes of 1 or 2, delays next to the turn, and next to a pass and two turns; and with a turn of 1 or
  2 and three blocks: passes of 1, the same delays and one for two passes and three turns; without order and with every proper order.

Sortings whose least figure and scanner list are found by trying every interleaving:
- three desks: none to two strips at each, of scan and desk times 1 or 2 one is always 1;
- two desks: none to three strips at each, scan time 1, desk times 1 or 2, and the same with three desks of which the middle one has none.

Sortings whose best scanner lists are many:
- three desks: every number of strips of each, all with scan and desk times 1 and 1, 1 and 2, 1 and 3, 2 and 1, 2 and 3, or 60,000 and 60,000.

Sheets whose refusals, where they have one, are compared:
- every row of none to four fields of a list of good and bad ones;
- every row of none to five bytes of a list;
- every change of one byte of a sheet with all three sections, and every beginning of it;
- 0, 1, 9,999, 10,000, 10,001, 59,999, 60,000, 60,001 and 65,535 at every place of that sheet, and of a mosaic of four stations;
- every number of members up to two past its limit, the last one good and bad, with and without an order;
- that sheet, an empty one and a cut one with every plan buffer of 0 to 1,110 bytes.

Plans that are judged:
- every row of none to four plan fields of a list, for sheets with one member a section and every set of sections;
- every change of one byte of a plan for a sheet with all three sections, and every beginning of it.
"""
import itertools
import struct

import reader
import timetable
from reader import MOST_TIME, field
from sheets import NEAR_ENDS, block, flight, job, mosaic_head, order, sorting_head, strip


def rows(values, least, most):
    """Every row of these values with `least` to `most` places."""
    for length in range(least, most + 1):
        yield from itertools.product(values, repeat=length)


def mosaics_of(stations, mounts, strips):
    """Every mosaic of these mount times and these rows of strips."""
    for mount, row in itertools.product(mounts, strips):
        yield mosaic_head(stations, mount) + b"".join(map(strip, row))


def mosaics():
    yield from mosaics_of(1, (0, 1, 3), rows(list(itertools.product((0, 1, 3), (1, 3))), 1, 3))
    yield from mosaics_of(2, (0, 1, 2), rows(list(itertools.product((0, 2), (0, 2), (1, 3))), 2, 2))


def two_desks():
    times = list(rows(list(itertools.product((1, 3), (1, 3))), 0, 2))
    for one, two in itertools.product(times, repeat=2):
        first, second = [job(1, *t) for t in one], [job(2, *t) for t in two]
        if first or second:
            yield sorting_head(2) + b"".join(first + second)
        if first and second:
            yield sorting_head(2) + b"".join(second + first)


def three_desks():
    times = [None, *itertools.product((1, 2, 3), repeat=2)]
    for row in itertools.product(times, repeat=3):
        if any(row):
            yield sorting_head(3) + b"".join(job(desk + 1, *t) for desk, t in enumerate(row) if t)


def sortings():
    yield from two_desks()
    yield from three_desks()


def desk_after_desk(queues):
    """A sorting with these scan and desk times of the strips of each desk."""
    return sorting_head(len(queues)) + b"".join(job(desk, *times) for desk, queue in enumerate(queues, 1) for times in queue)


def few_interleavings():
    """Small times, so that many sheets have several best lists. Some have three desks and none for the middle one."""
    for strips in ([(1, 1), (1, 2)], [(1, 1), (2, 1)]):
        yield from (desk_after_desk(queues) for queues in itertools.product(rows(strips, 0, 2), repeat=3) if any(queues))
    for one, other in itertools.product(rows([(1, 1), (1, 2)], 0, 3), repeat=2):
        if one or other:
            yield desk_after_desk([one, other])
            yield desk_after_desk([one, (), other])


def equal_strips():
    for times in ((1, 1), (1, 2), (1, 3), (2, 1), (2, 3), (MOST_TIME, MOST_TIME)):
        yield from (desk_after_desk([[times] * count for count in counts]) for counts in itertools.product(range(7), repeat=3) if any(counts))


def flights():
    """The blocks of each flight, and the orders that are tried."""
    for blocks in rows(list(itertools.product((1, 2), (0, 1, 2, 3), (1, 2))), 1, 2):
        yield blocks, [None, *range(1 << 2 * len(blocks) + 2)]
    for delays in itertools.product((0, 1, 2, 4), repeat=3):
        yield [(1, delay, 1) for delay in delays], [None, *range(64)]


def flights_with_turns():
    """The blocks of each flight, and its turn."""
    for turn in (1, 2, 3):
        delays = (turn - 1, turn, 2 * turn, 2 * turn + 1, 2 * turn + 2)
        yield from ((blocks, turn) for blocks in rows(list(itertools.product((1, 2), delays, (1, 2))), 1, 2))
    for turn in (1, 2):
        delays = itertools.product((turn - 1, turn, 2 * turn + 1, 3 * turn + 2), repeat=3)
        yield from (([(1, delay, 1) for delay in row], turn) for row in delays)


FIELDS = [
    mosaic_head(1, 0), strip([0, 1]), sorting_head(1), job(1, 1, 1), field(0x30), block(1, 0, 1), order(2), order(12), field(0x11), field(0x30, b"\x00"),
    field(0x20, b"\x04"), field(0x99), b"\x20\x01",
]

BYTES = [0x00, 0x01, 0x03, 0x10, 0x20, 0x30, 0x31]


def field_rows():
    return map(b"".join, rows(FIELDS, 0, 4))


def byte_rows():
    return map(bytes, rows(BYTES, 0, 5))


# A sheet with all three sections.
SMALL = mosaic_head(2, 1) + strip([2, 1, 1]) + strip([0, 3, 3]) + sorting_head(2) + job(1, 2, 5) + job(2, 1, 1) + flight([(1, 2, 1), (2, 3, 1)], 0xC)


def small_plan():
    sheet = reader.read(SMALL)
    starts = timetable.passes_of(sheet.blocks, [0, 1])
    return timetable.plan_of(sheet, timetable.batches_of(sheet, [1, 2]), timetable.jobs_of(sheet, [2, 1]), 0xC, starts).bytes()


def changes(data):
    """Every change of one byte."""
    for at, value in itertools.product(range(len(data)), range(256)):
        if value != data[at]:
            yield data[:at] + bytes([value]) + data[at + 1:]


def beginnings(data):
    return (data[:length] for length in range(len(data) + 1))


def bounds():
    """The numbers about the bounds of times, at every place of the small sheet and of a mosaic of four stations."""
    for sheet in (SMALL, mosaic_head(4, 1) + strip([4, 3, 2, 1, 5]) * 2):
        for at, number in itertools.product(range(len(sheet) - 1), (0, 1, *NEAR_ENDS, MOST_TIME + 1, 65535)):
            yield sheet[:at] + struct.pack("<H", number) + sheet[at + 2:]


def buffers():
    """A sheet and a length of the plan buffer."""
    return itertools.product((SMALL, b"", SMALL[:2]), range(1111))


def strip_counts():
    for n in range(1, 43):
        yield mosaic_head(1, 1) + strip([0, 1]) * n
        yield mosaic_head(1, 1) + strip([0, 1]) * (n - 1) + strip([0, 0])


def desk_counts():
    for n, desk in itertools.product(range(1, 9), (1, 2, 3)):
        yield sorting_head(3) + job(desk, 1, 1) * n
        yield sorting_head(3) + job(desk, 1, 1) * (n - 1) + job(desk, 0, 1)
        yield sorting_head(3) + job(desk, 1, 1) * 6 + job(desk % 3 + 1, 1, 1) * (n - 1) + job(4, 1, 1)


def block_counts():
    for n in range(1, 35):
        blocks = [(1, 0, 1)] * n
        orders = [int("10" * n, 2), int("10" * (n - 1) + "01", 2), (1 << n) - 1]
        yield flight(blocks)
        yield from (flight(blocks, number) for number in orders if number < 1 << 64)
        yield flight(blocks[1:] + [(0, 0, 1)])
        yield flight(blocks) + mosaic_head(1, 1)


def counts():
    yield from strip_counts()
    yield from desk_counts()
    yield from block_counts()


# Sheets with one member a section, and plan fields for them, right and wrong.
ONES = {"m": mosaic_head(1, 0) + strip([1, 1]), "s": sorting_head(1) + job(1, 1, 1), "f": flight([(1, 1, 1)])}
SETS = ("m", "s", "f", "ms", "mf", "sf", "msf")
HEADS = {"m": field(0x90, struct.pack("<Q", 2)), "s": field(0xA0, struct.pack("<Q", 2)), "f": field(0xB0, struct.pack("<IQ", 3, 2))}
MEMBERS = {"m": field(0x91, struct.pack("<BII", 1, 1, 2)), "s": field(0xA1, struct.pack("<BBII", 1, 1, 0, 1)), "f": field(0xB1, struct.pack("<II", 0, 2))}
REFUSAL = field(0xE0, bytes(6))


def plan_rows():
    """A sheet and a row of up to four plan fields."""
    fields = [*HEADS.values(), *MEMBERS.values(), field(0x90, struct.pack("<Q", 3)), REFUSAL]
    for sections, row in itertools.product(SETS, rows(fields, 0, 4)):
        yield b"".join(ONES[section] for section in sections), b"".join(row)
