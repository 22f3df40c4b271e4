"""The reader of sheets: the checks of each field in the order in which they are due, and what a sound sheet says."""
import functools
import struct

MOST_TIME, MOST_TURN, MOST_WEIGHT = 60_000, 600, 100
HEADS = (0x10, 0x20, 0x30)
MEMBER_OF = {0x11: 0x10, 0x21: 0x20, 0x31: 0x30, 0x33: 0x30}


class Refused(Exception):
    """A sheet that is turned back, with number and place."""

    def __init__(self, number, place):
        super().__init__(number, place)
        self.number, self.place = number, place


class Sheet:
    """What a sound sheet says. The members of an absent section are None.

    strips: (station times, bench time, weight); jobs: (desk, scan time, desk time, weight); a weight that is absent is 1. blocks: (first pass, delay, second
    pass) or, with a window, (first pass, shortest delay, longest delay, second pass). `turn` is 0 where the flight head is empty; `flight_at` and `order_at`
    are the places of the flight head and of the order field.
    """

    def __init__(self):
        self.stations = self.mount = self.desks = None
        self.strips = self.jobs = self.blocks = None
        self.turn, self.flight_at = 0, None
        self.order = self.order_at = None

    def queue(self, desk):
        """Scan time, desk time and weight of the strips of one desk, in order."""
        return [job[1:] for job in self.jobs if job[0] == desk]


def word(data, at):
    return data[at] | data[at + 1] << 8


def words(content, first):
    """The numbers of two bytes from `first` on. A byte that is left is none of them."""
    return [word(content, at) for at in range(first, len(content) - 1, 2)]


def weight_of(content, times):
    """The weight behind so many bytes of a strip, 1 where the strip ends there."""
    return content[times] if len(content) > times else 1


def field(tag, content=b""):
    return bytes([tag]) + struct.pack("<H", len(content)) + content


def proper(n, order):
    """Whether the order number is proper for n blocks: the passes open never fall below 0 and end at 0."""
    if order >> 2 * n:
        return False
    height = 0
    for k in range(2 * n):
        height += -1 if order >> k & 1 else 1
        if height < 0:
            return False
    return height == 0


def count_fault(count, most):
    """6 for a count that is not 1 to `most`, or 0."""
    return 0 if 1 <= count <= most else 6


def time_fault(time, least, most=MOST_TIME):
    """15 for a time above its upper end, 16 for a time of 0 where at least 1 is due, or 0."""
    if time > most:
        return 15
    return 16 if time < least else 0


def window_fault(shortest, longest=MOST_TIME):
    """17 for a longest delay below the shortest, or 0."""
    return 17 if longest < shortest else 0


def first_fault(*numbers):
    """The first number that is not 0, or 0. The values of a field are examined from left to right."""
    return next(filter(None, numbers), 0)


class Reader:
    """Takes in one field after another. `open` is the head tag of the section that stands open, `head` its place, `members` its list."""

    def __init__(self):
        self.sheet = Sheet()
        self.open, self.head, self.members = None, 0, []

    def read_field(self, data, at):
        """Checks one field and takes it in. Returns where the next one stands."""
        if len(data) - at < 3 or len(data) - at - 3 < word(data, at + 1):
            raise Refused(3, at)
        tag, after = data[at], at + 3 + word(data, at + 1)
        content = data[at + 3:after]
        if tag in HEADS and self.open is not None:
            self.end_section()
        if not self.permitted(tag):
            raise Refused(4, at)
        if len(content) not in self.lengths_due(tag):
            raise Refused(5, at)
        number = self.take(tag, content, at)
        if number:
            raise Refused(number, at)
        if tag in HEADS:
            self.open, self.head, self.members = tag, at, self.members_of(tag)
        return after

    def end_section(self):
        """8 or 10 where the open section may not end; 8 at 0 where no section stands open."""
        if not self.members:
            raise Refused(8, self.head)
        if self.open == 0x30 and self.sheet.order is None and len(self.members) > 8:
            raise Refused(10, self.head)

    def permitted(self, tag):
        if self.sheet.order is not None:
            return False
        if tag in HEADS:
            return self.open is None or tag > self.open
        if tag == 0x32:
            return self.open == 0x30 and len(self.members) > 0
        return tag in MEMBER_OF and MEMBER_OF[tag] == self.open

    def lengths_due(self, tag):
        if tag == 0x11:
            return 2 * self.sheet.stations + 2, 2 * self.sheet.stations + 3
        return {0x10: (3,), 0x20: (1,), 0x21: (5, 6), 0x30: (0, 2), 0x31: (6,), 0x32: (8,), 0x33: (8,)}[tag]

    def members_of(self, tag):
        return {0x10: self.sheet.strips, 0x20: self.sheet.jobs, 0x30: self.sheet.blocks}[tag]

    def take(self, tag, content, at):
        """6, 15 or 16 of a field by its values, then 17, then 7 or 9, or 0 once the field is taken in."""
        if tag == 0x10:
            return self.take_mosaic(content)
        if tag == 0x11:
            return self.take_strip(words(content, 0), weight_of(content, 2 * self.sheet.stations + 2))
        if tag == 0x20:
            return self.take_sorting(content[0])
        if tag == 0x21:
            return self.take_job(content[0], *words(content, 1), weight_of(content, 5))
        if tag in (0x31, 0x33):
            return self.take_block(words(content, 0))
        if tag == 0x32:
            return self.take_order(int.from_bytes(content, "little"), at)
        return self.take_flight(content, at)

    def take_mosaic(self, content):
        stations, mount = content[0], word(content, 1)
        number = first_fault(count_fault(stations, 4), time_fault(mount, 0))
        if number:
            return number
        self.sheet.stations, self.sheet.mount, self.sheet.strips = stations, mount, []
        return 0

    def take_strip(self, times, weight):
        *stations, bench = times
        number = first_fault(*[time_fault(time, 0) for time in stations], time_fault(bench, 1), count_fault(weight, MOST_WEIGHT))
        if number:
            return number
        if len(self.members) == 40:
            return 7
        self.members.append((stations, bench, weight))
        return 0

    def take_sorting(self, desks):
        number = count_fault(desks, 3)
        if number:
            return number
        self.sheet.desks, self.sheet.jobs = desks, []
        return 0

    def take_job(self, desk, scan, time, weight):
        number = first_fault(count_fault(desk, self.sheet.desks), time_fault(scan, 1), time_fault(time, 1), count_fault(weight, MOST_WEIGHT))
        if number:
            return number
        if len(self.sheet.queue(desk)) == 6:
            return 7
        self.members.append((desk, scan, time, weight))
        return 0

    def take_flight(self, content, at):
        """An empty head means a turn of 0."""
        turn = word(content, 0) if content else 0
        number = time_fault(turn, 0, MOST_TURN)
        if number:
            return number
        self.sheet.turn, self.sheet.flight_at, self.sheet.blocks = turn, at, []
        return 0

    def take_block(self, times):
        """A block has one delay, or the shortest and the longest. 17 comes behind all four ranges."""
        first, *delays, second = times
        number = first_fault(time_fault(first, 1), *[time_fault(delay, 0) for delay in delays], time_fault(second, 1), window_fault(*delays))
        if number:
            return number
        if len(self.members) == 32:
            return 7
        self.members.append(tuple(times))
        return 0

    def take_order(self, order, at):
        if not proper(len(self.members), order):
            return 9
        self.sheet.order, self.sheet.order_at = order, at
        return 0


@functools.lru_cache(maxsize=256)
def read(data):
    """What a sheet says, or Refused. A sheet that is judged and printed with many plans is read once; what it says is never changed."""
    reader, at = Reader(), 0
    while at < len(data):
        at = reader.read_field(data, at)
    reader.end_section()
    return reader.sheet
