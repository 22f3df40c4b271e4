#!/usr/bin/env python3
"""The sheets that the program sheet_cases reads, with what it must write for each.

Each case is a name, the bytes of a sheet, and the line due: number and place, and for a sound sheet the strips of the mosaic, of each desk,
the blocks, the turn and the order number. The lines are written by hand from 01 and the requests of 02; those of wrong lengths come from a table of fields with
their lengths, those of values out of range from a table of bad values with their numbers.

    sheet_cases.py           writes crates/sheet_cases/stdin and stdout
    sheet_cases.py --check   says whether they are as written here
"""
import itertools
import pathlib
import struct
import sys

MOST_TIME = 60_000
MOST_TURN = 600
MOST_WEIGHT = 100
FOLDER = pathlib.Path(__file__).resolve().parent.parent / "crates" / "sheet_cases"


def word(*values):
    return b"".join(struct.pack("<H", value) for value in values)


def field(tag, content=b""):
    return bytes([tag]) + word(len(content)) + content


def mosaic(stations=1, mount=0):
    return field(0x10, bytes([stations]) + word(mount))


def carried(weight):
    """The last byte of a strip that carries a weight, or nothing."""
    return b"" if weight is None else bytes([weight])


def strip(*times, weight=None):
    """Station times, then the bench time."""
    return field(0x11, word(*times) + carried(weight))


def sorting(desks=1):
    return field(0x20, bytes([desks]))


def job(desk=1, scan=1, time=1, weight=None):
    return field(0x21, bytes([desk]) + word(scan, time) + carried(weight))


def flight(turn=None):
    """An empty head, or one with a turn."""
    return field(0x30, b"" if turn is None else word(turn))


def block(a=1, l=0, b=1):
    return field(0x31, word(a, l, b))


def window(a=1, shortest=0, longest=0, b=1):
    """A block with a window for its delay."""
    return field(0x33, word(a, shortest, longest, b))


def order(number):
    return field(0x32, struct.pack("<Q", number))


def alternate(n):
    """The order first, second, first, second of n blocks."""
    return sum(1 << (2 * i + 1) for i in range(n))


M = mosaic()
S = sorting()
F = flight()
STRIP = strip(0, 1)
JOB = job()
BLOCK = block()
WINDOW = window()

CASES = []
# Refused sheets of over 250 bytes. They have no room in the file that sheet_cases reads; plan_cases.py and page_cases.py try them beside the others.
LARGE = []


def refused(name, sheet, number, place):
    cases = CASES if len(sheet) <= 250 else LARGE
    cases.append((name, sheet, "%d %d" % (number, place)))


def sound(name, sheet, strips=0, desks=(0, 0, 0), blocks=0, turn=0, order_number=0):
    CASES.append((name, sheet, "0 0 %d %d %d %d %d %d %d" % (strips, *desks, blocks, turn, order_number)))


# 01, "Sheets worked through".
FIRST = mosaic(2, 1) + strip(2, 1, 1) + strip(1, 3, 3) + strip(4, 2, 2) + strip(1, 3, 1)
sound("the first worked sheet", FIRST, strips=4)
refused("order 3 for two blocks", F + BLOCK * 2 + order(3), 9, 21)
sound("eight blocks without order", F + BLOCK * 8, blocks=8)
refused("nine blocks without order", F + BLOCK * 9, 10, 0)
sound("time 60,000", F + block(MOST_TIME, MOST_TIME, MOST_TIME), blocks=1)
refused("time 60,001", F + block(MOST_TIME + 1, MOST_TIME + 1, MOST_TIME + 1), 15, 3)
sound("time 10,001", F + block(10001, 10001, 10001), blocks=1)
EIGHT = [(3, 4, 1), (1, 7, 2), (1, 8, 1), (1, 10, 1), (2, 9, 1), (1, 4, 3), (1, 5, 2), (1, 6, 1)]
sound("000's eight blocks", F + b"".join(block(*b) for b in EIGHT) + order(0xF2C4), blocks=8, order_number=0xF2C4)

# The empty sheet, and fields that are cut.
refused("empty sheet", b"", 8, 0)
refused("one byte", b"\x10", 3, 0)
refused("two bytes", b"\x10\x03", 3, 0)
refused("head without content", b"\x10\x03\x00", 3, 0)
refused("head cut by one byte", M[:-1], 3, 0)
refused("a tail of one byte", M + STRIP + b"\x11", 3, 13)
refused("a tail of two bytes", M + STRIP + b"\x20\x01", 3, 13)
refused("content runs past the end", M + STRIP + b"\x11\xff\xff\x00", 3, 13)
refused("3 goes before 8: a cut head after an empty section", M + b"\x20\x01", 3, 6)
refused("3 goes before 4: a cut field of an unknown tag", b"\x99\x01\x00", 3, 0)
refused("a cut field behind the order field", F + BLOCK + order(2) + b"\x31", 3, 23)

# 8: a section without members, ended by a head or by the end.
refused("mosaic head alone", M, 8, 0)
refused("sorting head alone", S, 8, 0)
refused("flight head alone", F, 8, 0)
refused("empty mosaic ended by sorting", M + S + JOB, 8, 0)
refused("empty mosaic ended by a second mosaic head", M + M + STRIP, 8, 0)
refused("empty mosaic ended by flight", M + F + BLOCK, 8, 0)
refused("empty sorting behind a mosaic", M + STRIP + S + F + BLOCK, 8, 13)
refused("empty flight behind a sorting", S + JOB + F, 8, 12)
refused("empty sorting ended by a mosaic head that may not stand there", S + M, 8, 0)
refused("empty flight ended by a sorting head of wrong length", F + field(0x20), 8, 0)

# 10: over eight blocks and no order.
refused("nine blocks ended by a mosaic head", F + BLOCK * 9 + M, 10, 0)
refused("nine blocks ended by a flight head", M + STRIP + F + BLOCK * 9 + F, 10, 13)
refused("32 blocks without order", F + BLOCK * 32, 10, 0)
refused("nine blocks do not end at an unknown tag", F + BLOCK * 9 + field(0x99), 4, 84)
refused("nine blocks, then a wrong block", F + BLOCK * 9 + block(0), 16, 84)

# 4: what may stand next.
refused("a strip first", STRIP, 4, 0)
refused("a job first", JOB, 4, 0)
refused("a block first", BLOCK, 4, 0)
refused("an order first", order(2), 4, 0)
refused("an unknown tag first", field(0x99), 4, 0)
refused("a plan's tag", field(0x90, bytes(4)), 4, 0)
refused("a job in the mosaic", M + STRIP + JOB, 4, 13)
refused("a block in the mosaic", M + BLOCK, 4, 6)
refused("an unknown tag in an empty mosaic", M + field(0x99), 4, 6)
refused("a strip in the sorting", S + JOB + STRIP, 4, 12)
refused("a strip in the flight", F + BLOCK + STRIP, 4, 12)
refused("a second mosaic", M + STRIP + M + STRIP, 4, 13)
refused("a second sorting", S + JOB + S + JOB, 4, 12)
refused("a second flight", F + BLOCK + F + BLOCK, 4, 12)
refused("mosaic behind sorting", S + JOB + M + STRIP, 4, 12)
refused("sorting behind flight", F + BLOCK + S + JOB, 4, 12)
refused("an order in the mosaic", M + STRIP + order(2), 4, 13)
refused("an order with no block before it", F + order(2), 4, 3)
refused("4 goes before 5: such an order of wrong length", F + field(0x32, b"\x02"), 4, 3)
refused("a block behind the order", F + BLOCK + order(2) + BLOCK, 4, 23)
refused("a second order", F + BLOCK + order(2) + order(2), 4, 23)
refused("a head behind the order", F + BLOCK + order(2) + M, 4, 23)
refused("an unknown tag behind the order", F + BLOCK + order(2) + field(0x00), 4, 23)

# 5: lengths. Each field of the table: its name, what stands before it, its tag, a good content, and another length that is due, if there is one.
LENGTHS = [
    ("mosaic head", b"", 0x10, b"\x01" + word(0)),
    ("strip of 1 station", mosaic(1), 0x11, word(7, 1), 5),
    ("strip of 2 stations", mosaic(2), 0x11, word(7, 7, 1), 7),
    ("strip of 3 stations", mosaic(3), 0x11, word(7, 7, 7, 1), 9),
    ("strip of 4 stations", mosaic(4), 0x11, word(7, 7, 7, 7, 1), 11),
    ("weighted strip of 1 station", mosaic(1), 0x11, word(7, 1) + b"\x64", 4),
    ("weighted strip of 2 stations", mosaic(2), 0x11, word(7, 7, 1) + b"\x64", 6),
    ("weighted strip of 3 stations", mosaic(3), 0x11, word(7, 7, 7, 1) + b"\x64", 8),
    ("weighted strip of 4 stations", mosaic(4), 0x11, word(7, 7, 7, 7, 1) + b"\x64", 10),
    ("sorting head", b"", 0x20, b"\x01"),
    ("strip of a desk", S, 0x21, b"\x01" + word(1, 1), 6),
    ("weighted strip of a desk", S, 0x21, b"\x01" + word(1, 1) + b"\x64", 5),
    ("flight head", b"", 0x30, b"", 2),
    ("flight head with a turn", b"", 0x30, word(MOST_TURN), 0),
    ("block", F, 0x31, word(1, 0, 1)),
    ("window block", F, 0x33, word(1, 0, 0, 1)),
    ("pass order", F + BLOCK, 0x32, struct.pack("<Q", 2)),
]


def of_length(content, length):
    """The content cut, or with ones behind it."""
    return (content + b"\x01" * length)[:length]


# Every length from 0 to 12 but those that are due; the same low byte with another high byte, and the two bytes exchanged.
for kind, before, tag, content, *other in LENGTHS:
    for length in [*range(13), len(content) + 256, len(content) * 256]:
        if length not in (len(content), *other):
            refused("%s of %d bytes" % (kind, length), before + field(tag, of_length(content, length)), 5, len(before))
for m in (1, 2, 3, 4):
    sound("a strip of %d stations" % m, mosaic(m) + strip(*[7] * m, 1), strips=1)
    for n, weight in itertools.product({1, 2, 3, 4} - {m}, (None, 1)):
        name = "a %s of %d stations behind two of %d" % ("strip" if weight is None else "weighted strip", n, m)
        refused(name, mosaic(m) + strip(*[7] * m, 1) * 2 + strip(*[7] * n, 1, weight=weight), 5, 6 + 2 * (5 + 2 * m))

# 3, 8, 10 and 4 go before 5, and 5 before all others.
for kind, before, tag, content, *_ in LENGTHS:
    refused("3 goes before 5: " + kind, before + field(tag, content + b"\x01")[:-1], 3, len(before))
    if tag in (0x10, 0x20, 0x30):
        refused("8 goes before 5: " + kind, M + field(tag, content + b"\x01"), 8, 0)
        refused("10 goes before 5: " + kind, F + BLOCK * 9 + field(tag, content + b"\x01"), 10, 0)
        refused("4 goes before 5: a %s behind a block" % kind, F + BLOCK + field(tag, content + b"\x01"), 4, 12)
    else:
        refused("4 goes before 5: %s, first" % kind, field(tag, content + b"\x01"), 4, 0)
# A tag outside the table may stand nowhere; the lengths go from 0 to 10, so that each length of the table is among them.
for tag in sorted({*range(256)} - {0x10, 0x11, 0x20, 0x21, 0x30, 0x31, 0x32, 0x33}):
    refused("tag %02X is not permitted" % tag, M + field(tag, bytes(tag % 11)), 4, 6)
refused("5 goes before 6: stations 0", field(0x10, bytes(4)), 5, 0)
refused("5 goes before 15: a turn of 601 in three bytes", field(0x30, word(MOST_TURN + 1) + b"\0"), 5, 0)
refused("a flight head of one byte behind a mosaic", M + STRIP + field(0x30, b"\1"), 5, 13)
refused("5 goes before 16: first pass 0", F + field(0x31, bytes(8)), 5, 3)
refused("5 goes before 6: weight 0, one byte over", M + field(0x11, word(0, 1) + bytes(2)), 5, 6)
refused("5 goes before 7: a 41st strip", M + STRIP * 40 + field(0x11, word(0, 1, 1)), 5, 6 + 7 * 40)
refused("5 goes before 7: a 41st strip with a weight", M + STRIP * 40 + field(0x11, word(0, 1) + b"\1\1"), 5, 6 + 7 * 40)
refused("5 goes before 9: an order of seven bytes", F + BLOCK + field(0x32, bytes(7)), 5, 12)

# 6, 15 and 16: the values of a field are examined from left to right.
OVER = MOST_TIME + 1
refused("stations 0, mount time 60,001", mosaic(0, OVER), 6, 0)
refused("stations 5, mount time 60,001", mosaic(5, OVER), 6, 0)
refused("station time 60,001, bench time 0", M + strip(OVER, 0), 15, 6)
refused("station time 0, bench time 0", M + strip(0, 0), 16, 6)
refused("desk 0, scan time 0", S + job(0, 0), 6, 4)
refused("scan time 0, desk time 60,001", S + job(1, 0, OVER), 16, 4)
refused("scan time 60,001, desk time 0", S + job(1, OVER, 0), 15, 4)
refused("first pass 0, delay 60,001", F + block(0, OVER), 16, 3)
refused("delay 60,001, second pass 0", F + block(1, OVER, 0), 15, 3)


# The bad values of each kind of value, with their numbers: those next to its range, then others, of times also one whose low byte is 0.
def count(most):
    return {0: 6, most + 1: 6}, {255: 6}


TURN = {MOST_TURN + 1: 15}, {0x0300: 15, MOST_TIME: 15, OVER: 15, 0xFFFF: 15}
FROM_0 = {OVER: 15}, {0xEB00: 15, 0xFFFF: 15}
FROM_1 = {0: 16, OVER: 15}, {0xEB00: 15, 0xFFFF: 15}

# Each field: its name, what stands before it, how it is made from its values, and its values from left to right, each with its name, a good one and its kind.
BENCH = ("bench time", 1, FROM_1)
WEIGHT = ("weight", 1, count(MOST_WEIGHT))
STATIONS = lambda m: [("station time %d" % k, 0, FROM_0) for k in range(1, m + 1)]
AT_DESK = [("desk", 1, count(2)), ("scan time", 1, FROM_1), ("desk time", 1, FROM_1)]
weighted = lambda make: lambda *values: make(*values[:-1], weight=values[-1])
FIELDS = [
    ("mosaic head", b"", mosaic, [("stations", 1, count(4)), ("mount time", 0, FROM_0)]),
    *[("strip of %d stations" % m, mosaic(m), strip, [*STATIONS(m), BENCH]) for m in (1, 2, 3, 4)],
    *[("weighted strip of %d stations" % m, mosaic(m), weighted(strip), [*STATIONS(m), BENCH, WEIGHT]) for m in (1, 2, 3, 4)],
    ("sorting head", b"", sorting, [("desks", 1, count(3))]),
    ("strip for two desks", sorting(2), job, AT_DESK),
    ("weighted strip for two desks", sorting(2), weighted(job), [*AT_DESK, WEIGHT]),
    ("flight head", b"", flight, [("turn", 0, TURN)]),
    ("block", F, block, [("first pass", 1, FROM_1), ("delay", 0, FROM_0), ("second pass", 1, FROM_1)]),
    ("window block", F, window, [("first pass", 1, FROM_1), ("shortest delay", 0, FROM_0), ("longest delay", 0, FROM_0), ("second pass", 1, FROM_1)]),
]


def rows(values):
    """Every row in which each value is good or next to its range: the bad ones in words, the row, and the numbers of the bad ones from left to right."""
    for row in itertools.product(*[[(good, 0), *near.items()] for _, good, (near, _) in values]):
        bad = ["%s %d" % (name, value) for (name, _, _), (value, number) in zip(values, row) if number]
        yield ", ".join(bad), [value for value, _ in row], [number for _, number in row if number]


# Every set of bad values in a field, from one to all: the leftmost decides. The place is the field's tag, and so it is in a later field of the section.
# Nothing stands behind the field: that a head has no members (8) is found later.
# The fields with one bad value are used again below: the name, what stands before, the field without the bad value, the field with it, and the number.
ONE_BAD = []
for kind, before, make, values in FIELDS:
    goods = [good for _, good, _ in values]
    for what, row, numbers in rows(values):
        name = "%s: %s" % (kind, what)
        if numbers:
            refused(name, before + make(*row), numbers[0], len(before))
        if len(numbers) == 1:
            ONE_BAD.append((name, before, make(*goods), make(*row), numbers[0]))
    for k, (name, _, (_, others)) in enumerate(values):
        for value, number in others.items():
            refused("%s: %s %d" % (kind, name, value), before + make(*goods[:k], value, *goods[k + 1:]), number, len(before))
MEMBERS = [one for one in ONE_BAD if one[1]]
for name, before, good, bad, number in MEMBERS:
    refused(name + ", behind two good ones", before + good * 2 + bad, number, len(before + good * 2))
for m in (1, 3):
    for desk, number in {**count(m)[0], **count(m)[1]}.items():
        refused("desk %d of %d" % (desk, m), sorting(m) + job(desk), number, 4)
for desks in (0, 4):
    refused("%d desks, behind a mosaic" % desks, M + STRIP + sorting(desks), 6, 13)

# Each value at both ends of its range, a time also at 256, whose low byte is 0.
for m, mount in itertools.product((1, 2, 3, 4), (0, 256, MOST_TIME)):
    sound("%d stations, mount time %d" % (m, mount), mosaic(m, mount) + strip(*[0] * m, 1), strips=1)
for m in (1, 2, 3, 4):
    for k, time in itertools.product(range(m + 1), (256, MOST_TIME)):
        times = [0] * m + [1]
        times[k] = time
        sound("time %d of a strip of %d stations: %d" % (k + 1, m, time), mosaic(m) + strip(*times), strips=1)
for m in (1, 2, 3):
    for desk in range(1, m + 1):
        sound("desk %d of %d" % (desk, m), sorting(m) + job(desk), desks=tuple(int(d == desk) for d in (1, 2, 3)))
for time in (1, 256, MOST_TIME):
    sound("scan time %d" % time, S + job(1, time, 1), desks=(1, 0, 0))
    sound("desk time %d" % time, S + job(1, 1, time), desks=(1, 0, 0))
    sound("first pass %d" % time, F + block(time, 0, 1), blocks=1)
    sound("second pass %d" % time, F + block(1, 0, time), blocks=1)
for time in (0, 256, MOST_TIME):
    sound("delay %d" % time, F + block(1, time, 1), blocks=1)

# 3, 4 and 5 of the same field go before 6, 15 and 16.
for name, before, _, bad, _ in ONE_BAD:
    refused("3 goes before: " + name, before + bad[:-1], 3, len(before))
    # Without its last byte a weighted strip has the length of one without a weight.
    short = 2 if name.startswith("weighted") else 1
    refused("5 goes before, too short: " + name, before + field(bad[0], bad[3:-short]), 5, len(before))
    refused("5 goes before, two bytes over: " + name, before + field(bad[0], bad[3:] + word(1)), 5, len(before))
for name, _, _, bad, _ in MEMBERS:
    refused("4 goes before: " + name, bad, 4, 0)
refused("4 goes before 15: a second mosaic head", M + STRIP + mosaic(1, OVER), 4, 13)
refused("4 goes before 6: a second sorting head", S + JOB + sorting(0), 4, 12)
refused("4 goes before 15: a mosaic head behind the flight", F + BLOCK + mosaic(1, OVER), 4, 12)
refused("4 goes before 15: a second flight head", F + BLOCK + flight(MOST_TURN + 1), 4, 12)
refused("4 goes before 15: a flight head behind the order", F + BLOCK + order(2) + flight(MOST_TURN + 1), 4, 23)
refused("4 goes before 16: a block behind the order", F + BLOCK + order(2) + block(0), 4, 23)

# 8 and 10 of the section before go before the values of the head that ends it. A member ends no section.
for head in (mosaic(0), mosaic(1, OVER), sorting(0), sorting(4), flight(MOST_TURN + 1)):
    refused("8 goes before the values of head %s" % head.hex(), M + head, 8, 0)
    refused("8 goes before the values of head %s, behind a mosaic" % head.hex(), M + STRIP + S + head, 8, 13)
    refused("10 goes before the values of head %s" % head.hex(), F + BLOCK * 9 + head, 10, 0)
refused("nine blocks, then one with a first pass of 60,001", F + BLOCK * 9 + block(OVER), 15, 84)

# The first bad field decides: among jobs with 6, 15 and 16, across sections, and against other faults.
BAD_JOBS = {6: job(0), 15: job(1, OVER), 16: job(1, 0)}
for one, other in itertools.permutations(BAD_JOBS, 2):
    refused("a job with %d, then one with %d" % (one, other), S + BAD_JOBS[one] + BAD_JOBS[other], one, 4)
refused("16 in the mosaic, 6 in the sorting, 15 in the flight", M + strip(0, 0) + sorting(0) + JOB + F + block(OVER), 16, 6)
refused("6 in the sorting, 15 in the flight", M + STRIP + S + job(0) + F + block(OVER), 6, 17)
refused("15 in the flight", M + STRIP + S + JOB + F + block(OVER), 15, 28)
refused("16, then a field that is cut", M + strip(0, 0) + b"\x11", 16, 6)
refused("15, then a tag that is not permitted", M + strip(OVER, 1) + field(0x99), 15, 6)
refused("16, then a wrong length", F + block(0) + field(0x31), 16, 3)
refused("15, then 40 strips", M + strip(OVER, 1) + STRIP * 40, 15, 6)
refused("16, then a section without members", M + strip(0, 0) + S, 16, 6)
refused("15, then an order that is not proper", F + block(OVER) + order(1), 15, 3)
refused("16 in the ninth block without order", F + BLOCK * 8 + block(1, 0, 0), 16, 75)
refused("a wrong length, then 16", F + BLOCK + field(0x31) + block(0), 5, 12)
refused("a 41st strip, then 16", M + STRIP * 41 + strip(0, 0), 7, 6 + 7 * 40)
refused("an order that is not proper, then 15", F + BLOCK + order(1) + block(OVER), 9, 12)

# 7: each number of members on both sides; 6, 15 and 16 of the same field go first.
sound("40 strips", M + STRIP * 40, strips=40)
refused("41 strips", M + STRIP * 41, 7, 6 + 7 * 40)
sound("six strips of each desk", sorting(3) + job(1) * 6 + job(2) * 6 + job(3) * 6, desks=(6, 6, 6))
refused("a seventh strip of desk 2", sorting(3) + job(2) * 7, 7, 4 + 8 * 6)
refused("a seventh strip of desk 1 with scan time 0", sorting(3) + job(1) * 6 + job(1, 0), 16, 4 + 8 * 6)
refused("a strip of desk 4 of 3 behind full desks", sorting(3) + (job(1) + job(2) + job(3)) * 6 + job(4), 6, 4 + 8 * 18)
sound("strips of desks in turn", sorting(3) + (job(1) + job(3)) * 3, desks=(3, 0, 3))
sound("32 blocks with an order", F + BLOCK * 32 + order(alternate(32)), blocks=32, order_number=alternate(32))
refused("33 blocks", F + BLOCK * 33 + order(alternate(32)), 7, 3 + 9 * 32)
MOST_MEMBERS = {0x11: 40, 0x21: 6, 0x31: 32}
for name, before, good, bad, number in MEMBERS:
    if bad[0] in MOST_MEMBERS:
        full = before + good * MOST_MEMBERS[bad[0]]
        refused(name + ", one member too many", full + bad, number, len(full))

# 9: orders that are not proper. An order number has no range of its own.
sound("order 2 for one block", F + BLOCK + order(2), blocks=1, order_number=2)
refused("order 1 for one block", F + BLOCK + order(1), 9, 12)
refused("order 0 for one block", F + BLOCK + order(0), 9, 12)
refused("order 6 for one block: a higher bit", F + BLOCK + order(6), 9, 12)
sound("order A for two blocks", F + BLOCK * 2 + order(0xA), blocks=2, order_number=0xA)
sound("order C for two blocks", F + BLOCK * 2 + order(0xC), blocks=2, order_number=0xC)
refused("order 9 for two blocks", F + BLOCK * 2 + order(9), 9, 21)
refused("order 5 for two blocks", F + BLOCK * 2 + order(5), 9, 21)
refused("order 6 for two blocks", F + BLOCK * 2 + order(6), 9, 21)
refused("the highest bit for two blocks", F + BLOCK * 2 + order(0xC | 1 << 63), 9, 21)
refused("all bits for 32 blocks", F + BLOCK * 32 + order(2**64 - 1), 9, 3 + 9 * 32)
LATE = 0xFFFFFFFF00000000
sound("all first passes, then all second passes of 32 blocks", F + BLOCK * 32 + order(LATE), blocks=32, order_number=LATE)
refused("the same the other way round", F + BLOCK * 32 + order(0xFFFFFFFF), 9, 3 + 9 * 32)
sound("nine blocks with an order", F + BLOCK * 9 + order(alternate(9)), blocks=9, order_number=alternate(9))

# Whole sheets of each set of sections.
sound("mosaic and sorting", M + STRIP + S + JOB, strips=1, desks=(1, 0, 0))
sound("mosaic and flight", M + STRIP * 2 + F + BLOCK, strips=2, blocks=1)
sound("sorting and flight", S + JOB + F + BLOCK * 3, desks=(1, 0, 0), blocks=3)
sound("all three", FIRST + sorting(2) + job(1, 2, 5) + job(2) + F + BLOCK * 2 + order(0xC), strips=4, desks=(1, 1, 0), blocks=2, order_number=0xC)

# The longest sections: full ones in which every time is 60,000.
LONG_MOSAIC = mosaic(4, MOST_TIME) + strip(*[MOST_TIME] * 5) * 40
LONG_SORTING = sorting(3) + b"".join(job(desk, MOST_TIME, MOST_TIME) for desk in (1, 2, 3)) * 6
LONG_BLOCK = block(MOST_TIME, MOST_TIME, MOST_TIME)
sound("the longest sections, a free flight", LONG_MOSAIC + LONG_SORTING + F + LONG_BLOCK * 8, strips=40, desks=(6, 6, 6), blocks=8)
LONG = LONG_MOSAIC + LONG_SORTING + F + LONG_BLOCK * 32 + order(alternate(32))
sound("the longest sections, a flight in order", LONG, strips=40, desks=(6, 6, 6), blocks=32, order_number=alternate(32))

# The turn: both ends of its range, a low byte of 0, and two bytes that differ. Whether a delay is long enough for it is no matter of reading.
G = flight(MOST_TURN)
OVER_TURN = flight(MOST_TURN + 1)
for turn in (0, 1, 255, 256, 258, 599, 600):
    sound("turn %d" % turn, flight(turn) + BLOCK, blocks=1, turn=turn)
    sound("turn %d, an order" % turn, flight(turn) + BLOCK * 2 + order(0xC), blocks=2, turn=turn, order_number=0xC)
for before, strips, desks in [(M + STRIP, 1, (0, 0, 0)), (S + JOB, 0, (1, 0, 0)), (M + STRIP + S + JOB, 1, (1, 0, 0))]:
    sound("turn 600 behind %d bytes" % len(before), before + G + BLOCK * 3, strips=strips, desks=desks, blocks=3, turn=600)
    refused("turn 601 behind %d bytes" % len(before), before + OVER_TURN + BLOCK * 3, 15, len(before))
sound("eight blocks, a turn and no order", G + BLOCK * 8, blocks=8, turn=600)
sound("nine blocks, a turn and an order", G + BLOCK * 9 + order(alternate(9)), blocks=9, turn=600, order_number=alternate(9))
sound("32 blocks, a turn and an order", G + BLOCK * 32 + order(LATE), blocks=32, turn=600, order_number=LATE)
LONG_TURN = LONG_MOSAIC + LONG_SORTING + G + LONG_BLOCK * 32 + order(alternate(32))
sound("the longest sections and the longest turn", LONG_TURN, strips=40, desks=(6, 6, 6), blocks=32, turn=600, order_number=alternate(32))

# A turn over 600 is found when its head is read: before 8 and 10 of its own section, and before any fault behind it.
for name, behind in [
    ("nine blocks", BLOCK * 9),
    ("32 blocks", BLOCK * 32),
    ("another flight head", F),
    ("a sorting", S + JOB),
    ("a field that is cut", b"\x31"),
    ("a tag that is not permitted", field(0x99)),
    ("an order with no block before it", order(2)),
    ("a block of a wrong length", field(0x31)),
    ("a block with a first pass of 0", block(0)),
    ("an order that is not proper", BLOCK + order(1)),
]:
    refused("turn 601, then " + name, OVER_TURN + behind, 15, 0)
refused("15 and 16 in the sections before a turn of 601", M + strip(0, 0) + S + job(1, OVER) + OVER_TURN + BLOCK, 16, 6)
refused("6 in the section before a turn of 601", S + job(0) + OVER_TURN + BLOCK, 6, 4)

# Behind a good turn: 8 and 10 at the head, all others two bytes further on than behind an empty head.
refused("a turn and no block", G, 8, 0)
refused("a turn and no block, behind a mosaic", M + STRIP + G, 8, 13)
refused("a turn and no block, ended by a second turn", G + G + BLOCK, 8, 0)
refused("a turn, nine blocks", G + BLOCK * 9, 10, 0)
refused("a turn, nine blocks, behind a sorting", S + JOB + G + BLOCK * 9, 10, 12)
refused("a turn, 32 blocks and no order", G + BLOCK * 32, 10, 0)
refused("a turn, 33 blocks", G + BLOCK * 33, 7, 5 + 9 * 32)
refused("a turn, all bits for 32 blocks", G + BLOCK * 32 + order(2**64 - 1), 9, 5 + 9 * 32)
refused("a head of two bytes that is cut behind its length", b"\x30\x02\x00", 3, 0)
refused("an empty head, then the two bytes of a turn", F + word(MOST_TURN), 3, 3)
for name, sheet, line in [case for case in CASES if case[1].startswith(F) and len(case[1]) < 120]:
    number, place = map(int, line.split()[:2])
    shifted = line if place < len(F) else "%d %d" % (number, place + 2)
    CASES.append(("a written 0: " + name, flight(0) + sheet[len(F):], shifted))

# Windows. The ends of both delays, a low byte of 0, bytes that differ, and a window of one value.
for shortest, longest in [(0, 0), (0, 1), (1, 1), (255, 256), (258, 513), (0, MOST_TIME), (MOST_TIME - 1, MOST_TIME), (MOST_TIME, MOST_TIME)]:
    sound("a window from %d to %d" % (shortest, longest), F + window(1, shortest, longest), blocks=1)
for time in (256, MOST_TIME):
    sound("a window block with a first pass of %d" % time, F + window(time), blocks=1)
    sound("a window block with a second pass of %d" % time, F + window(1, 0, 0, time), blocks=1)

# 17: the longest delay below the shortest. It comes after the ranges of all values of its field, whichever of them is bad.
for shortest, longest in [(1, 0), (256, 255), (513, 258), (MOST_TIME, 0), (MOST_TIME, MOST_TIME - 1)]:
    refused("a window from %d to %d" % (shortest, longest), F + window(1, shortest, longest), 17, 3)
for (a, number_a), (b, number_b) in itertools.product({1: 0, **FROM_1[0]}.items(), repeat=2):
    refused("a window from 1 to 0, passes of %d and %d" % (a, b), F + window(a, 1, 0, b), number_a or number_b or 17, 3)
refused("a window from 60,001 to 60,000", F + window(1, OVER, MOST_TIME), 15, 3)
refused("a window from 60,002 to 60,001", F + window(1, OVER + 1, OVER), 15, 3)

# 3, 4 and 5 go before 17; 7, 9 and 10 come after it; 11 is no matter of reading. The first bad field decides.
NARROW = window(1, 1, 0)
refused("3 goes before 17", F + NARROW[:-1], 3, 3)
refused("5 goes before 17, one byte short", F + field(0x33, NARROW[3:-1]), 5, 3)
refused("5 goes before 17, one byte over", F + field(0x33, NARROW[3:] + b"\0"), 5, 3)
refused("4 goes before 17: first", NARROW, 4, 0)
refused("4 goes before 17: behind the order", F + BLOCK + order(2) + NARROW, 4, 23)
for name, behind in [
    ("a field that is cut", b"\x33"),
    ("a tag that is not permitted", field(0x99)),
    ("a block of a wrong length", field(0x33)),
    ("a block with a first pass of 0", block(0)),
    ("an order that is not proper", order(1)),
    ("another head", F),
]:
    refused("17, then " + name, F + NARROW + behind, 17, 3)
refused("16, then 17", F + block(0) + NARROW, 16, 3)
refused("17 behind a block of each kind", F + BLOCK + WINDOW + NARROW, 17, 23)
refused("17 behind a turn", flight(0) + NARROW, 17, 5)
refused("a turn of 601, then 17", OVER_TURN + NARROW, 15, 0)
refused("17 behind two sections", M + STRIP + S + JOB + F + NARROW, 17, 28)
refused("17 in the ninth block without order", F + BLOCK * 8 + NARROW, 17, 75)
refused("17 behind nine blocks without order", F + BLOCK * 9 + NARROW, 17, 84)
refused("17 in the first of nine blocks without order", F + NARROW + BLOCK * 8, 17, 3)
for name, last, number in [("a window block", WINDOW, 7), ("16", window(0), 16), ("15", window(1, 0, OVER), 15), ("17", NARROW, 17)]:
    refused("the 33rd block: " + name, F + BLOCK * 32 + last, number, 3 + 9 * 32)

# A window block may stand where a block may, and nowhere else.
for name, before in [("first", b""), ("behind a mosaic head", M), ("behind a strip", M + STRIP), ("behind a sorting head", S), ("behind a job", S + JOB)]:
    refused("a window block " + name, before + WINDOW, 4, len(before))
    refused("a window block without content " + name, before + field(0x33), 4, len(before))
refused("a window block behind the order", F + WINDOW + order(2) + WINDOW, 4, 25)
refused("a window block of a wrong length behind the order", F + WINDOW + order(2) + field(0x33), 4, 25)
refused("a mosaic head behind a window block", F + WINDOW + M, 4, 14)
refused("a second flight behind a window block", F + WINDOW + F + WINDOW, 4, 14)
refused("an unknown tag behind a window block", F + WINDOW + field(0x34, bytes(8)), 4, 14)
sound("a window block and an order", F + WINDOW + order(2), blocks=1, order_number=2)
refused("a window block and an order that is not proper", F + WINDOW + order(1), 9, 14)
sound("a window block behind two sections", M + STRIP + S + JOB + G + WINDOW, strips=1, desks=(1, 0, 0), blocks=1, turn=600)
# Whether a delay of the window is as long as the turn is no matter of reading.
sound("a turn of 600 and a window from 0 to 599", G + window(1, 0, 599) + order(2), blocks=1, turn=600, order_number=2)

# Both kinds count together.
PAIR = BLOCK + WINDOW
sound("two blocks of both kinds", F + PAIR, blocks=2)
sound("two blocks of both kinds, a written 0 and an order", flight(0) + PAIR + order(0xC), blocks=2, order_number=0xC)
sound("two blocks of both kinds, the window block first", F + WINDOW + BLOCK + order(0xA), blocks=2, order_number=0xA)
refused("order 3 for two blocks of both kinds", F + PAIR + order(3), 9, 23)
sound("eight window blocks without order", F + WINDOW * 8, blocks=8)
sound("eight blocks of both kinds without order", F + PAIR * 4, blocks=8)
refused("nine window blocks without order", F + WINDOW * 9, 10, 0)
refused("nine blocks of both kinds without order", F + PAIR * 4 + BLOCK, 10, 0)
refused("nine blocks of both kinds, ended by a head", S + JOB + F + PAIR * 4 + WINDOW + F, 10, 12)
sound("nine blocks of both kinds with an order", F + PAIR * 4 + WINDOW + order(alternate(9)), blocks=9, order_number=alternate(9))
sound("32 blocks of both kinds with an order", F + PAIR * 16 + order(LATE), blocks=32, order_number=LATE)
refused("32 window blocks without order", F + WINDOW * 32, 10, 0)
refused("32 window blocks, then a block", F + WINDOW * 32 + BLOCK, 7, 3 + 11 * 32)

# Weights: both ends of their range and values between, at each number of stations and at each desk. What a weight is does not show in the line.
for m, weight in itertools.product((1, 2, 3, 4), (1, 2, 99, MOST_WEIGHT)):
    sound("weight %d of a strip of %d stations" % (weight, m), mosaic(m) + strip(*[0] * m, 1, weight=weight), strips=1)
for m, weight in itertools.product((1, 2, 3), (1, 2, 99, MOST_WEIGHT)):
    sound("weight %d at desk %d" % (weight, m), sorting(m) + job(m, weight=weight), desks=tuple(int(d == m) for d in (1, 2, 3)))
# Strips with and without a weight may be mixed, in any order, and count together.
HEAVY, HEAVY_JOB = strip(0, 1, weight=MOST_WEIGHT), job(weight=MOST_WEIGHT)
for mixed in itertools.product((STRIP, HEAVY), repeat=3):
    kinds = " ".join(str(len(one) - 3) for one in mixed)
    sound("strips of %s bytes" % kinds, M + b"".join(mixed), strips=3)
for mixed in itertools.product((JOB, HEAVY_JOB), repeat=3):
    kinds = " ".join(str(len(one) - 3) for one in mixed)
    sound("strips of a desk of %s bytes" % kinds, S + b"".join(mixed), desks=(3, 0, 0))
sound("40 strips, every second one with a weight", M + (STRIP + HEAVY) * 20, strips=40)
sound("six strips of each desk, some with a weight", sorting(3) + (job(1) + job(2, weight=7) + job(3)) * 6, desks=(6, 6, 6))
sound("all three with weights", M + STRIP + HEAVY + S + HEAVY_JOB + JOB + F + BLOCK, strips=2, desks=(2, 0, 0), blocks=1)
# A strip too many is 7 with a weight and without; a weight out of its range is 6 before that.
for what, last, number in [("no weight", STRIP, 7), ("weight 1", strip(0, 1, weight=1), 7), ("weight 100", HEAVY, 7), ("weight 0", strip(0, 1, weight=0), 6)]:
    refused("a 41st strip, " + what, M + (STRIP + HEAVY) * 20 + last, number, 6 + 15 * 20)
for what, weight, number in [("no weight", None, 7), ("weight 1", 1, 7), ("weight 100", 100, 7), ("weight 101", 101, 6)]:
    refused("a seventh strip of a desk, " + what, sorting(2) + (job(2) + job(2, weight=7)) * 3 + job(2, weight=weight), number, 4 + 17 * 3)
# The first bad field decides: a weight against other faults before and behind it.
for name, behind in [
    ("a field that is cut", b"\x11"),
    ("a tag that is not permitted", field(0x99)),
    ("a strip of a wrong length", field(0x11)),
    ("a station time of 60,001", strip(OVER, 1)),
    ("a bench time of 0", strip(0, 0)),
    ("another mosaic head", M),
    ("a sorting head with 4 desks", sorting(4)),
    ("40 strips", STRIP * 40),
]:
    refused("weight 0, then " + name, M + strip(0, 1, weight=0) + behind, 6, 6)
    refused("weight 101 behind a strip, then " + name, M + STRIP + strip(0, 1, weight=101) + behind, 6, 13)
for name, before, number in [
    ("a station time of 60,001", strip(OVER, 1), 15),
    ("a bench time of 0", strip(0, 0, weight=5), 16),
    ("a strip of a wrong length", field(0x11), 5),
    ("a strip of a desk", JOB, 4),
]:
    refused("%s, then weight 0" % name, M + before + strip(0, 1, weight=0), number, 6)
for one, other in itertools.permutations((0, 101), 2):
    refused("weight %d in the mosaic, %d in the sorting" % (one, other), M + strip(0, 1, weight=one) + S + job(weight=other), 6, 6)
refused("a good weight in the mosaic, 101 in the sorting", M + HEAVY + S + job(weight=101), 6, 18)
refused("weight 0 in the sorting, a turn of 601", S + JOB + job(weight=0) + OVER_TURN + BLOCK, 6, 12)
refused("a turn of 601 behind weights", M + HEAVY + S + HEAVY_JOB + OVER_TURN + BLOCK, 15, 27)
refused("weight 0 in a section, none in the next", S + job(weight=0) + F, 6, 4)
refused("nine blocks behind weights", M + HEAVY + F + BLOCK * 9, 10, 14)
# Every byte as a weight.
for weight in range(256):
    if weight in range(1, MOST_WEIGHT + 1):
        sound("a strip of a desk with weight %d" % weight, S + job(weight=weight), desks=(1, 0, 0))
    else:
        refused("a strip of a desk with weight %d" % weight, S + job(weight=weight), 6, 4)

# The longest sheet: 1,100 bytes.
LONG_WINDOW = window(MOST_TIME, MOST_TIME, MOST_TIME, MOST_TIME)
HEAVY_MOSAIC = mosaic(4, MOST_TIME) + strip(*[MOST_TIME] * 5, weight=MOST_WEIGHT) * 40
HEAVY_SORTING = sorting(3) + b"".join(job(desk, MOST_TIME, MOST_TIME, weight=MOST_WEIGHT) for desk in (1, 2, 3)) * 6
LONGEST = HEAVY_MOSAIC + HEAVY_SORTING + G + LONG_WINDOW * 32 + order(alternate(32))
assert len(LONGEST) == 1100
sound("the longest sheet", LONGEST, strips=40, desks=(6, 6, 6), blocks=32, turn=600, order_number=alternate(32))


def files():
    sheets = b"".join(word(len(sheet)) + sheet for _, sheet, _ in CASES)
    if len(sheets) > 65536:
        sys.exit("the cases take %d bytes, and sheet_cases reads 65,536" % len(sheets))
    lines = "".join(line + "\n" for _, _, line in CASES)
    return {"stdin": sheets, "stdout": lines.encode()}


def write(folder, contents, count):
    """Writes the files of a program, or with --check says whether they are as they should be."""
    for name, content in contents.items():
        path = folder / name
        if sys.argv[1:] == ["--check"]:
            if not path.is_file() or path.read_bytes() != content:
                sys.exit("%s is not what %s writes: run it" % (path.relative_to(folder.parent.parent), sys.argv[0]))
        else:
            path.write_bytes(content)
    print("%d cases" % count)


if __name__ == "__main__":
    write(FOLDER, files(), len(CASES))
