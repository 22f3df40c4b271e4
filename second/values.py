"""Sheets with values at the ends of their ranges and beyond them. All but the drawn ones are the same for every seed.

Each is a sound sheet in which something is changed. The plan that comes with it is allowed for the sound sheet.

Sheets that are planned, judged and printed:
- every field with values, of mosaics of one to four stations and of sortings of one to three desks, strips with a weight and without: values as they were, 0,
  1, the upper end, one more or the greatest number of their bytes, in every row of up to three values, and any two of more; and every row of values that are
  as they were or next to their range;
- a 41st strip and a 7th of a desk, with a weight and without, and a 33rd block, of either kind behind either and with and without a turn, with every row of
  values that are right or next to their range.

Sheets with one value out of its range, one for each field and number, and with a window whose longest delay is below the shortest:
- planned and printed into buffers one byte too small, and judged and printed with an empty plan and one that is cut short.

Sheets that are planned:
- fields with every row of values that are right or next to their range, when the field is cut short, has a byte less or more or a tag that is not permitted;
- such a field put in at every place of a sheet;
- such a field and another wrong field, before or behind it: the other has any of the numbers 3 to 10 and 15 to 17.

Drawn: a sheet with any values of one or two fields out of their ranges.
"""
import itertools
import struct

import distances
import judge
import reader
import timetable
from reader import HEADS, MEMBER_OF, MOST_TIME, MOST_TURN, MOST_WEIGHT, field
from sheets import block, flight_head, job, mosaic_head, order, sorting_head, strip

OVER = MOST_TIME + 1
GREATEST = {"B": 0xFF, "H": 0xFFFF}


def ranges_of(one, sheet):
    """Of each value of a field, from left to right: its width (B one byte, H two), the least and the greatest number of its range."""
    from_0, from_1, weight, tag = ("H", 0, MOST_TIME), ("H", 1, MOST_TIME), ("B", 1, MOST_WEIGHT), one[0]
    if tag == 0x30:
        return [("H", 0, MOST_TURN)] if len(one) > 3 else []
    if tag == 0x11:
        return [from_0] * sheet.stations + [from_1] + [weight] * (len(one) % 2 == 0)
    if tag == 0x21:
        return [("B", 1, sheet.desks), from_1, from_1] + [weight] * (len(one) % 2)
    return {0x10: [("B", 1, 4), from_0], 0x20: [("B", 1, 3)], 0x31: [from_1, from_0, from_1], 0x33: [from_1, from_0, from_0, from_1]}.get(tag, [])


def form_of(ranges):
    return "<" + "".join(width for width, _, _ in ranges)


def beyond(width, least, most):
    """The numbers next to a range."""
    return [least - 1, most + 1] if least else [most + 1]


def about(width, least, most):
    """0 and 1, of which one is the lower end, the upper end and the number behind it, and the greatest number of the width."""
    return [0, 1, most, most + 1, GREATEST[width]]


def changed(row, choices, most):
    """Every row in which at most `most` values are changed, each to one of its choices."""
    for other in itertools.product(*[[value, *numbers] for value, numbers in zip(row, choices)]):
        if sum(value != number for value, number in zip(row, other)) <= most:
            yield other


def next_to_ranges(row, ranges):
    """Every row of values that are as they were or next to their ranges."""
    return changed(row, [beyond(*one) for one in ranges], len(row))


def at_ends_or_beyond(row, ranges):
    """Every row of up to three values, and any two of more, as they were, at the ends of their ranges and beyond."""
    return changed(row, [about(*one) for one in ranges], 3 if len(row) < 4 else 2)


def with_rows(one, sheet, *rows_of):
    """A field of this sheet with every row of values that these functions give, each row once."""
    ranges = ranges_of(one, sheet)
    row = struct.unpack(form_of(ranges), one[3:])
    rows = dict.fromkeys(itertools.chain.from_iterable(rows(row, ranges) for rows in rows_of))
    return [field(one[0], struct.pack(form_of(ranges), *other)) for other in rows]


def fields_of(stations, desks, turn=1, weight=None):
    """The fields of a sound sheet with all three sections and both kinds of blocks. The last strip of the mosaic and of the sorting carries the weight."""
    strips = [strip([2, 1, 4, 3][:stations] + [bench], heavy) for bench, heavy in ((1, None), (3, weight))]
    jobs, blocks = [job(1, 2, 5), job(desks, 1, 1, weight)], [block(1, 4, 1), block(2, 2, 4, 1)]
    return [mosaic_head(stations, 1), *strips, sorting_head(desks), *jobs, flight_head(turn), *blocks, order(0b1100)]


# The last field of each tag that has values, by its index in fields_of.
LAST = {0x10: 0, 0x11: 2, 0x20: 3, 0x21: 5, 0x30: 6, 0x31: 7, 0x33: 8}


def replaced(fields, at, one):
    """The sheet with this field in the place of another."""
    return b"".join([*fields[:at], one, *fields[at + 1:]])


def read_and_planned(fields):
    """What a sound sheet says, and a plan: each strip its own batch, the strips of the desks as they stand, the passes in the sheet's order."""
    sheet = reader.read(b"".join(fields))
    batches = timetable.batches_of(sheet, range(1, len(sheet.strips) + 1)) if sheet.strips else []
    jobs = timetable.jobs_of(sheet, [desk for desk, *_ in sheet.jobs]) if sheet.jobs else []
    starts = distances.least(distances.in_order(sheet.blocks, sheet.order, sheet.turn)) if sheet.blocks else []
    plan = timetable.plan_of(sheet, batches, jobs, sheet.order, starts).bytes()
    assert judge.judge_plan(sheet, plan)[0] == 0, "the second program turns its own plan back"
    return sheet, plan


def places():
    """The fields of a sheet and the index of one with values."""
    yield from ((fields_of(stations, 2), LAST[tag]) for stations in (1, 2, 3, 4) for tag in (0x10, 0x11))
    yield from ((fields_of(2, desks), LAST[tag]) for desks in (1, 2, 3) for tag in (0x20, 0x21))
    yield from ((fields_of(stations, 2, weight=2), LAST[0x11]) for stations in (1, 2, 3, 4))
    yield from ((fields_of(2, desks, weight=2), LAST[0x21]) for desks in (1, 2, 3))
    yield from ((fields_of(2, 2), LAST[tag]) for tag in (0x30, 0x31, 0x33))


def ends():
    """A sheet and a plan."""
    for fields, at in places():
        sheet, plan = read_and_planned(fields)
        for one in with_rows(fields[at], sheet, at_ends_or_beyond, next_to_ranges):
            yield replaced(fields, at, one), plan


def full_sections():
    """The fields of a sheet with one full section, and the index at which one member more is put in."""
    one, window, number = block(1, 1, 1), block(1, 1, 2, 1), order(int("10" * 32, 2))
    for turn in (None, 1):
        yield from (([flight_head(turn), *blocks, number], 33) for blocks in ([one] * 32, [window] * 32))
    yield from (([flight_head(), *blocks, number], 33) for blocks in ([window] * 31 + [one], [one] * 31 + [window]))
    for desks, weight in ((1, None), (2, None), (3, None), (1, 3), (3, 3)):
        yield [sorting_head(desks)] + [job(desk, 1, 1, weight) for desk in range(1, desks + 1)] * 6, 6 * desks + 1
    for stations, weight in ((1, None), (2, None), (3, None), (4, None), (1, 3), (4, 3)):
        yield [mosaic_head(stations, 1)] + [strip([1] * stations + [1], weight)] * 40, 41


def one_too_many():
    """A sheet and a plan."""
    for fields, at in full_sections():
        sheet, plan = read_and_planned(fields)
        for one in with_rows(fields[at - 1], sheet, next_to_ranges):
            yield b"".join([*fields[:at], one, *fields[at:]]), plan


def wrong_twice():
    """A field with values next to their ranges that is also cut short, of a wrong length or not permitted."""
    for fields, (tag, at) in itertools.product((fields_of(2, 2), fields_of(2, 2, weight=2)), LAST.items()):
        sheet, _ = read_and_planned(fields)
        for one in with_rows(fields[at], sheet, next_to_ranges):
            content = one[3:]
            yield b"".join([*fields[:at], one[:-1]])
            for other in (field(tag, content[:-1]), field(tag, content + b"\x01"), field(tag, content + b"\x01\x01"), field(0x99, content)):
                yield replaced(fields, at, other)


# Fields of fields_of(2, 2) with one value out of its range, one for each number, strips also with a weight out of its range, and the window with its longest
# delay below the shortest.
OUT_OF_RANGE = {
    0x10: [mosaic_head(5, 1), mosaic_head(2, OVER)],
    0x11: [strip([2, OVER, 1]), strip([2, 1, 0]), strip([2, 1, 3], 0), strip([2, 1, 3], 101)],
    0x20: [sorting_head(4)],
    0x21: [job(3, 1, 1), job(2, OVER, 1), job(2, 1, 0), job(2, 1, 1, 0), job(2, 1, 1, 101)],
    0x30: [flight_head(MOST_TURN + 1)],
    0x31: [block(1, OVER, 1), block(1, 4, 0)],
    0x33: [block(2, 2, OVER, 1), block(2, 2, 4, 0), block(2, 4, 3, 1)],
}


def one_out():
    """A sheet with one of these fields, and a plan."""
    fields = fields_of(2, 2)
    _, plan = read_and_planned(fields)
    for tag, at in LAST.items():
        yield from ((replaced(fields, at, one), plan) for one in OUT_OF_RANGE[tag])


def put_in():
    """One of these fields more, at every place."""
    fields = fields_of(2, 2)
    for at, one in itertools.product(range(len(fields) + 1), itertools.chain.from_iterable(OUT_OF_RANGE.values())):
        yield b"".join([*fields[:at], one, *fields[at:]])


def wrong_otherwise(one):
    """What has another number in the place of a field: 3, 4 and 5, and each of 7 to 10 where it can be given."""
    tag, content = one[0], one[3:]
    yield from (bytes([tag, 0xFF, 0xFF]) + content, field(0x99, content), field(tag, content + b"\x01\x01"))
    if tag in HEADS:
        yield one + one
    if tag in MEMBER_OF:
        yield one * 41
    if tag in (0x31, 0x33):
        yield one * 9 + field(0x30)
    if tag == 0x32:
        yield order(0b0011)


def two_wrong(wrong_of):
    """Two wrong fields, at least one of them in one of the ways that `wrong_of` gives for it."""
    fields = fields_of(2, 2)
    ours, others = [list(wrong_of(one)) for one in fields], [list(wrong_otherwise(one)) for one in fields]
    for i, j in itertools.combinations(range(len(fields)), 2):
        for first, second in itertools.chain(itertools.product(ours[i], ours[j] + others[j]), itertools.product(others[i], ours[j])):
            yield b"".join([*fields[:i], first, *fields[i + 1:j], second, *fields[j + 1:]])


def values_out(one):
    """This field of fields_of(2, 2) as OUT_OF_RANGE has it."""
    return OUT_OF_RANGE.get(one[0], [])


def fields_in(data):
    """The fields of a sound sheet."""
    at, out = 0, []
    while at < len(data):
        after = at + 3 + reader.word(data, at + 1)
        out.append(data[at:after])
        at = after
    return out


def with_some_out(rng, one, ranges):
    """The field with some of its values, or all, out of their ranges: next to them or anywhere above."""
    row = list(struct.unpack(form_of(ranges), one[3:]))
    for at in rng.sample(range(len(row)), rng.randint(1, len(row))):
        width, least, most = ranges[at]
        row[at] = rng.choice([*beyond(width, least, most), rng.randint(most + 1, GREATEST[width])])
    return field(one[0], struct.pack(form_of(ranges), *row))


def drawn(rng, data):
    """A sound sheet with values of one or two fields out of their ranges."""
    sheet, fields = reader.read(data), fields_in(data)
    with_values = [at for at, one in enumerate(fields) if ranges_of(one, sheet)]
    for at in rng.sample(with_values, min(len(with_values), rng.choice((1, 1, 2)))):
        fields[at] = with_some_out(rng, fields[at], ranges_of(fields[at], sheet))
    return b"".join(fields)
