"""Sheets: their fields, random small ones, and full sections of several families.

A family is a row of functions, each of which draws a time. A family of TIES, of sortings that have many best scanner lists, draws the strips of all desks
together. Mosaics and sortings that are drawn have strips without weights, with weights of a family of WEIGHTS, or of both kinds. Flights that are drawn have
blocks with one delay, with a window, or of both kinds.
"""
import struct

import distances
import plans
from reader import MOST_TIME, MOST_TURN, MOST_WEIGHT, field


def mosaic_head(stations, mount):
    return field(0x10, struct.pack("<BH", stations, mount))


def weight_byte(weight):
    """Nothing where the strip carries no weight."""
    return b"" if weight is None else bytes([weight])


def strip(times, weight=None):
    """Station times, then the bench time, then the weight."""
    return field(0x11, struct.pack("<%dH" % len(times), *times) + weight_byte(weight))


def sorting_head(desks):
    return field(0x20, bytes([desks]))


def job(desk, scan, time, weight=None):
    return field(0x21, struct.pack("<BHH", desk, scan, time) + weight_byte(weight))


def block(*times):
    """First pass, delay, second pass; or first pass, shortest delay, longest delay, second pass."""
    return field(0x31 if len(times) == 3 else 0x33, struct.pack("<%dH" % len(times), *times))


def order(number):
    return field(0x32, struct.pack("<Q", number))


def flight_head(turn=None):
    """Without a turn it is empty."""
    return field(0x30, b"" if turn is None else struct.pack("<H", turn))


def flight(blocks, number=None, turn=None):
    """A whole section; without an order number it is free."""
    out = flight_head(turn) + b"".join(block(*times) for times in blocks)
    return out if number is None else out + order(number)


def span(low, high):
    return lambda rng: rng.randint(low, high)


def either(*values):
    return lambda rng: rng.choice(values)


# Times about the upper end, and about 10,000, which once was it.
NEAR_ENDS = (9_999, 10_000, 10_001, MOST_TIME - 1, MOST_TIME)

# Mount, station and bench times.
MOSAICS = {
    "equal times": (span(7, 7), span(7, 7), span(7, 7)),
    "small times": (span(0, 5), span(0, 5), span(1, 5)),
    "large times": (span(0, MOST_TIME), span(0, MOST_TIME), span(1, MOST_TIME)),
    "times to 10,000": (span(0, 10_000), span(0, 10_000), span(1, 10_000)),
    "near the ends": (either(*NEAR_ENDS), either(*NEAR_ENDS), either(*NEAR_ENDS)),
    "longest times": (span(MOST_TIME, MOST_TIME), span(MOST_TIME, MOST_TIME), span(MOST_TIME, MOST_TIME)),
    "long stations": (span(0, 1000), span(0, MOST_TIME), span(1, 1000)),
    "long bench": (span(0, 1000), span(0, 1000), span(1, MOST_TIME)),
    "strips as slow as the bench": (span(5, 15), span(10, 25), span(5, 15)),
    "mounts as long as strips": (span(100, 120), span(90, 140), span(1, 9)),
    "long mounts": (span(MOST_TIME - 1000, MOST_TIME), span(0, 500), span(1, 500)),
    "no mounts": (span(0, 0), span(0, 100), span(1, 100)),
    "cameras off": (span(1, 60), either(0, 0, 0, 50), span(1, 20)),
    "all ready at 0": (span(1, 300), span(0, 0), span(1, 30)),
}

# Scan and desk times.
SORTINGS = {
    "equal times": (span(4, 4), span(9, 9)),
    "small times": (span(1, 5), span(1, 5)),
    "large times": (span(1, MOST_TIME), span(1, MOST_TIME)),
    "times to 10,000": (span(1, 10_000), span(1, 10_000)),
    "near the ends": (either(*NEAR_ENDS), either(*NEAR_ENDS)),
    "longest times": (span(MOST_TIME, MOST_TIME), span(MOST_TIME, MOST_TIME)),
    "long scans": (span(1, MOST_TIME), span(1, 1000)),
    "long desks": (span(1, 1000), span(1, MOST_TIME)),
    "three desks busy": (span(1, MOST_TIME // 3), span(1, MOST_TIME)),
    "1 or 60,000": (either(1, MOST_TIME), either(1, MOST_TIME)),
}


# Weights of the strips of a section, None for a strip that carries none. In three of eight sections no strip does.
WEIGHTS = (
    either(None), either(None), either(None), either(None, 1, 2, 3), span(1, 9), span(1, MOST_WEIGHT), either(None, None, None, MOST_WEIGHT),
    either(1, MOST_WEIGHT),
)


def strips_of(scan, time):
    """Draws so many strips of a desk, each with its own times."""
    return lambda rng, n: [(scan(rng), time(rng)) for _ in range(n)]


def equal_strips(scan, time):
    """Draws so many strips of a desk, all with the same times."""
    return lambda rng, n: [(scan(rng), time(rng))] * n


def of_own(draw):
    """Each of three desks has strips of its own."""
    return lambda rng, n: [draw(rng, n) for _ in range(3)]


def of_one(draw, *changes):
    """Strips are drawn once, and each of three desks has them, changed in its own way."""
    def of_desks(rng, n):
        strips = draw(rng, n)
        return [change(strips) for change in changes]
    return of_desks


def unchanged(strips):
    return strips


def from_the_end(strips):
    return strips[::-1]


def exchanged(strips):
    """Each scan time for the desk time."""
    return [(time, scan) for scan, time in strips]


def all_equal(rng, n):
    """Strips whose scan and desk times are all the same number."""
    time = rng.choice((1, 2, 9, rng.randint(1, MOST_TIME)))
    return [(time, time)] * n


# The strips of three desks, the same number of each.
TIES = {
    "times of 1 or 2": of_own(strips_of(span(1, 2), span(1, 2))),
    "times of 1 to 4": of_own(strips_of(span(1, 4), span(1, 4))),
    "times in tens": of_own(strips_of(either(10, 20, 30), either(10, 20, 30, 60))),
    "all times equal": of_one(all_equal, unchanged, unchanged, unchanged),
    "equal strips": of_one(equal_strips(span(1, 9), span(1, 30)), unchanged, unchanged, unchanged),
    "equal strips of each desk": of_own(equal_strips(span(1, 3), span(1, 6))),
    "identical desks": of_one(strips_of(span(1, 5), span(1, 9)), unchanged, unchanged, unchanged),
    "mirrored desks": of_one(strips_of(span(1, 4), span(1, 4)), unchanged, from_the_end, unchanged),
    "desks 1 and 3 mirrored": of_one(strips_of(span(1, 4), span(1, 9)), unchanged, unchanged, from_the_end),
    "scan and desk times exchanged": of_one(strips_of(span(1, 5), span(1, 5)), unchanged, exchanged, unchanged),
    "desk times 1": of_own(strips_of(span(1, 3), span(1, 1))),
    "scan times 1": of_own(strips_of(span(1, 1), span(1, 4))),
    "equal scans, short desk times": of_own(strips_of(span(9, 9), span(1, 9))),
    "long equal desk times": of_own(strips_of(span(1, 2), span(20, 20))),
}

# First pass, delay, second pass. A window is made about the delay.
FLIGHTS = {
    "equal times": (span(5, 5), span(20, 20), span(5, 5)),
    "small times": (span(1, 4), span(0, 9), span(1, 4)),
    "large times": (span(1, MOST_TIME), span(0, MOST_TIME), span(1, MOST_TIME)),
    "times to 10,000": (span(1, 10_000), span(0, 10_000), span(1, 10_000)),
    "near the ends": (either(*NEAR_ENDS), either(*NEAR_ENDS), either(*NEAR_ENDS)),
    "longest times": (span(MOST_TIME, MOST_TIME), span(MOST_TIME, MOST_TIME), span(MOST_TIME, MOST_TIME)),
    "long delays": (span(1, 100), span(0, MOST_TIME), span(1, 100)),
    "short delays": (span(50, 100), span(0, 60), span(50, 100)),
    "room for small turns": (span(1, 3), span(2, 20), span(1, 3)),
    "room for one turn": (span(1, 60), span(500, 1300), span(1, 60)),
    "room for many turns": (span(1, 200), span(600, 9000), span(1, 200)),
}


def mosaic(rng, family, strips):
    mount, station, bench = MOSAICS[family]
    stations, weight = rng.randint(1, 4), rng.choice(WEIGHTS)
    rows = [[station(rng) for _ in range(stations)] + [bench(rng)] for _ in range(strips)]
    return mosaic_head(stations, mount(rng)) + b"".join(strip(row, weight(rng)) for row in rows)


def mixed_desks(rng, counts):
    """The desks of so many strips of each, in any order."""
    desks = [desk + 1 for desk, count in enumerate(counts) for _ in range(count)]
    rng.shuffle(desks)
    return desks


def sorting(rng, family, counts):
    """So many strips of each desk, the desks mixed in the sheet."""
    (scan, time), weight = SORTINGS[family], rng.choice(WEIGHTS)
    return sorting_head(len(counts)) + b"".join(job(desk, scan(rng), time(rng), weight(rng)) for desk in mixed_desks(rng, counts))


def tied_sorting(rng, family, counts):
    """The same, of a family of TIES. The weights are few, or by their numbers the same for all desks."""
    n, weight = max(counts), rng.choice((either(None), either(None), either(MOST_WEIGHT), either(None, 1, 2)))
    shared, own = [weight(rng) for _ in range(n)], rng.random() < 0.3
    queues = [zip(strips, (weight(rng) for _ in strips) if own else shared) for strips in TIES[family](rng, n)]
    strips = ((desk, *next(queues[desk - 1])) for desk in mixed_desks(rng, counts))
    return sorting_head(len(counts)) + b"".join(job(desk, *times, weight) for desk, times, weight in strips)


def with_window(rng, first, delay, second):
    """The block with a window about its delay: of one value, of some more, or as wide as it can be."""
    below, above = [rng.choice((0, 0, 1, rng.randint(0, 9), rng.randint(0, MOST_TIME))) for _ in range(2)]
    return first, max(0, delay - below), min(MOST_TIME, delay + above), second


def blocks_of(rng, family, n):
    """Blocks with one delay, with a window, or of both kinds."""
    (first, delay, second), chance = FLIGHTS[family], rng.choice((0, 0.5, 1))
    blocks = [(first(rng), delay(rng), second(rng)) for _ in range(n)]
    return [with_window(rng, *block) if rng.random() < chance else block for block in blocks]


def turn_for(rng, blocks):
    """None for an empty head, 0, any turn, one up to the shortest of the blocks' longest delays, or one next to it."""
    shortest = min(MOST_TURN, *map(distances.longest, blocks))
    near = min(MOST_TURN, max(0, shortest + rng.choice((-1, 0, 1))))
    return rng.choice((None, None, None, 0, rng.randint(0, MOST_TURN), rng.randint(0, shortest), rng.randint(0, shortest), near))


def free_flight(rng, family, n):
    blocks = blocks_of(rng, family, n)
    return flight(blocks, turn=turn_for(rng, blocks))


def with_other_delay(rng, blocks):
    """One delay, or one end of a window, is one shorter or longer."""
    i = rng.randrange(len(blocks))
    first, *delays, second = blocks[i]
    at = rng.randrange(len(delays))
    delays[at] = min(MOST_TIME, max(0, delays[at] + rng.choice((-1, 1))))
    return blocks[:i] + [(first, *sorted(delays), second)] + blocks[i + 1:]


def ordered_flight(rng, family, n):
    """With the order of some timetable, which may be spoilt by a delay or a turn that is one off; with any proper order; or block after block."""
    blocks, kind = blocks_of(rng, family, n), rng.choice(("possible", "possible", "delay one off", "turn one off", "any", "in turn"))
    turn = turn_for(rng, blocks)
    if kind == "any":
        return flight(blocks, plans.random_order(rng, n), turn)
    if kind == "in turn":
        return flight(blocks, int("10" * n, 2), turn)
    number = distances.order_of(plans.random_starts(rng, blocks, turn or 0))
    if kind == "delay one off":
        blocks = with_other_delay(rng, blocks)
    if kind == "turn one off":
        turn = min(MOST_TURN, max(0, (turn or 0) + rng.choice((-1, 1, 1))))
    return flight(blocks, number, turn)


def any_family(rng, families):
    return rng.choice(list(families))


def random_counts(rng, most):
    """Numbers of strips of one to three desks, not all 0."""
    counts = [rng.randint(0, most) for _ in range(rng.randint(1, 3))]
    if not any(counts):
        counts[rng.randrange(len(counts))] = 1
    return counts


def tied_counts(rng, most):
    """Numbers of strips of one to three desks: any, the same for each, and with none for the middle desk or the first."""
    n, m = rng.randint(1, most), rng.randint(1, most)
    return rng.choice((random_counts(rng, most), [n, n], [n, n, n], [n, 0, m], [n, 0, n], [0, n, m]))


def random_sheet(rng, strips, of_desk, free, ordered):
    """One to three sections of any families, with at most so many members."""
    sections, out = rng.choice(("m", "s", "f", "ms", "mf", "sf", "msf", "msf")), b""
    if "m" in sections:
        out += mosaic(rng, any_family(rng, MOSAICS), rng.randint(1, strips))
    if "s" in sections:
        out += sorting(rng, any_family(rng, SORTINGS), random_counts(rng, of_desk))
    if "f" in sections:
        kind, most = rng.choice(((free_flight, free), (ordered_flight, ordered)))
        out += kind(rng, any_family(rng, FLIGHTS), rng.randint(1, most))
    return out


def small_sheet(rng):
    return random_sheet(rng, strips=6, of_desk=3, free=4, ordered=6)


def large_sheet(rng):
    return random_sheet(rng, strips=40, of_desk=6, free=8, ordered=32)


def full_sheet(rng):
    """All three sections, as large as they can be."""
    kind, n = rng.choice(((free_flight, 8), (ordered_flight, 32), (ordered_flight, 32)))
    return mosaic(rng, any_family(rng, MOSAICS), 40) + sorting(rng, any_family(rng, SORTINGS), [6, 6, 6]) + kind(rng, any_family(rng, FLIGHTS), n)


def sheet_around(rng, middle):
    """A small mosaic, this sorting, and a small flight; or one of the two with it."""
    others = rng.choice(("m", "f", "mf", "mf"))
    before = mosaic(rng, any_family(rng, MOSAICS), rng.randint(1, 6)) if "m" in others else b""
    return before + middle + (free_flight(rng, any_family(rng, FLIGHTS), rng.randint(1, 4)) if "f" in others else b"")


def longest_planned():
    """A sheet whose plan takes 1,103 bytes: 40 batches, 18 strips, 32 blocks."""
    strips, jobs = strip([9, 1]) * 40, b"".join(job(desk, 1, 1) for desk in (1, 2, 3)) * 6
    return mosaic_head(1, 0) + strips + sorting_head(3) + jobs + flight([(1, 0, 1)] * 32, int("10" * 32, 2))
