"""Sheets with fields of other lengths than those that are due. All but the drawn ones are the same for every seed.

A field of another length has its content cut, or bytes behind it.

Sheets that are planned, judged and printed, with a plan that is allowed for the sheet without the change:
- every field of mosaics of one to four stations and of sortings of one to three desks, some strips with a weight, and of flights with and without a turn, with
  0 to 16 bytes, with 256 bytes more than are due, and with as many as a length due says with its two bytes exchanged; the bytes behind the content are 0, 1
  or FF.

Sheets that are planned:
- every field with a length of 0 to 300 that is stated only, so that the next field is read from another place;
- strips of one to four stations, with a weight and without, behind heads of one to four, in the place of each of three strips;
- each of the 256 tags at every place of a sheet, with contents of every length that some field has, and of one more;
- a 41st strip, a 7th of a desk, a 33rd block of either kind, a window with its longest delay below the shortest and an order that is not proper, with 0 to
  12 bytes;
- a head with 0 to 4 bytes behind a section without members, behind nine blocks without order, and behind an order;
- a field that is a byte short or long and another wrong field, before or behind it: the other has any of the numbers 3 to 5 and 7 to 10.

Drawn: a sheet with one or two fields of other lengths.
"""
import itertools
import struct

from reader import HEADS, field
from sheets import block, flight, flight_head, mosaic_head, order, sorting_head, strip
from values import fields_in, fields_of, full_sections, read_and_planned, replaced

DUE = (0, 1, 2, 3, 4, 5, 6, 7, 8, 9, 10, 11)


def of_length(one, length, behind):
    """The field with its content cut to this length, or with bytes of this value behind it."""
    content = one[3:] + bytes([behind]) * length
    return field(one[0], content[:length])


def lengths_due(one):
    """The lengths due for the tag of a right field: its own, for a flight head 0 and 2, for a strip those without a weight and with it."""
    length = len(one) - 3
    if one[0] == 0x11:
        return {length // 2 * 2, length // 2 * 2 + 1}
    return {0x21: {5, 6}, 0x30: {0, 2}}.get(one[0], {length})


def other_lengths(one):
    """0 to 16, 256 more than is due, and the lengths due with their two bytes exchanged; never a length due itself."""
    due = lengths_due(one)
    return sorted({*range(17), *(length + 256 for length in due), *(length * 256 for length in due)} - due)


def one_short_or_long(one):
    """A right field cut to the next length that is not due, if there is one, and with bytes behind it up to the next one."""
    length, due = len(one) - 3, lengths_due(one)
    yield from (of_length(one, shorter, 0) for shorter in itertools.islice((k for k in range(length - 1, -1, -1) if k not in due), 1))
    yield of_length(one, next(k for k in itertools.count(length + 1) if k not in due), 1)


def every_field():
    """The fields of a sheet and the index of each. The sheets have every number of stations and every number of desks, heads with and without a
    turn, and strips with and without a weight."""
    for stations, desks, turn, weight in ((1, 1, None, None), (2, 2, 1, 9), (3, 3, 0, None), (4, 2, None, 9)):
        fields = fields_of(stations, desks, turn, weight)
        yield from ((fields, at) for at in range(len(fields)))


def other_length():
    """A sheet and a plan."""
    for fields, at in every_field():
        _, plan = read_and_planned(fields)
        for length, behind in itertools.product(other_lengths(fields[at]), (0x00, 0x01, 0xFF)):
            yield replaced(fields, at, of_length(fields[at], length, behind)), plan


def stated_only():
    """Fields that say another length and keep their bytes."""
    for fields, at in every_field():
        for length in range(301):
            yield replaced(fields, at, fields[at][:1] + struct.pack("<H", length) + fields[at][3:])


def strips_of_other_stations():
    for stations, other, at, weight in itertools.product((1, 2, 3, 4), (1, 2, 3, 4), (0, 1, 2), (None, 2)):
        strips = [strip([2] * stations + [1])] * 3
        yield replaced([mosaic_head(stations, 1), *strips], at + 1, strip([2] * other + [1], weight))


def every_tag():
    fields = fields_of(2, 2)
    for at, tag, length in itertools.product(range(len(fields) + 1), range(256), (*DUE, 12)):
        yield b"".join([*fields[:at], field(tag, b"\x01" * length), *fields[at:]])


def one_too_many():
    """A member more than its section may have, a window with its longest delay below the shortest, and an order that is not proper."""
    for fields, at in full_sections():
        for length in range(13):
            yield b"".join([*fields[:at], of_length(fields[at - 1], length, 1), *fields[at:]])
    for length in range(13):
        yield field(0x30) + of_length(block(1, 2, 1, 1), length, 1)
        yield field(0x30) + block(1, 0, 1) + of_length(order(0b01), length, 0)


def heads_behind():
    """A head of some length behind what may not end there, or behind which no head may stand."""
    heads, one = (mosaic_head(1, 0), sorting_head(1), flight_head(), flight_head(1)), (1, 1, 1)
    for before in (*heads, flight([one] * 9), flight([one] * 9, turn=1), flight([one], 0b10), flight([one], 0b10, 1)):
        yield from (before + field(tag, byte * length) for tag, byte, length in itertools.product(HEADS, (b"\x01", b"\xFF"), range(5)))


def drawn(rng, data):
    """A sound sheet with one or two fields of other lengths."""
    fields = fields_in(data)
    for at in rng.sample(range(len(fields)), min(len(fields), rng.choice((1, 1, 2)))):
        length = rng.choice(other_lengths(fields[at]))
        fields[at] = of_length(fields[at], length, rng.randrange(256))
    return b"".join(fields)
