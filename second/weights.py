"""Strips with weights, and their plans. All but the drawn ones are the same for every seed; values.py, lengths.py, sheets.py and plans.py have others.

Sheets whose least figure and scanner list are found by counting, over every batching or every interleaving and minute by minute, the weights of the strips
that are not complete:
- mosaics of one station: one to four strips of few times and weights, some without a weight, with several mount times; and of two stations;
- sortings of two desks with none to two strips at each, of three with none or one, and of equal times with three strips at two desks or two at three.

Sheets whose figure or list is known in another way:
- two strips or three whose figure is written down, with weights and without;
- sortings whose weights are as their scan times, with every desk free in time: every scanner list has the same figure, so the desks come one after another;
- full sortings of equal strips of which one, at each place in turn, has the weight 100: its desk comes first until it is scanned.

Sheets that are planned:
- strips in which one, at each place in turn, has the weight 100, so that a batch is cut for it, with several mount times;
- every choice of the strips that carry a weight, among three;
- full sections of the longest times and weights, and with one weight one less at several places in turn;
- every row of none to three fields of a list with strips of good and bad weights;
- every change of the bytes of a strip's length and of its weight;
- the sheet of the longest plan, and one with weights, with plan buffers about 1,095 and 1,103 bytes.

Sheets that are planned, judged and printed:
- every weight of 0 to 255, of strips of one to four stations and of a desk's.

Plans that are judged, most of them also printed:
- with the figures of other weights, and with figures that are right in their lower or upper four bytes alone;
- of the longest sections with the weight 100 up to the ceiling, where a figure has eleven digits, and figures about powers of ten and about 2 to the 32;
- with heads of every length of 0 to 16 bytes, and every change of a byte of a head.

Strips with the weight 1 beside strips without a weight: both sheets planned, judged and printed. The answers must be the same but for places.

Drawn: small sections with weights, every choice tried, with the figures of other weights; and sheets with weights of 1 beside the same without them.
"""
import itertools
import struct

import brute
import judge
import longest
import mounts
import plans
import reader
import sheets
import timetable
import tiny
import values
from reader import MOST_TIME, MOST_WEIGHT, field, word
from sheets import flight, job, mosaic_head, sorting_head, strip
from timetable import CEILING
from tiny import desk_after_desk as sorting

TOP = 1 << 32


def mosaic(mount, rows):
    """A sheet with a mosaic alone: of each strip the station times, the bench time, and the weight or None."""
    return mosaic_head(len(rows[0]) - 2, mount) + b"".join(strip(row[:-1], row[-1]) for row in rows)


# Figures by minutes: each minute counts the weights of the strips that are not complete when it begins.

def minutes_of_batches(sheet, lasts):
    figure = minute = done = 0
    for last in lasts:
        mount, bench, ready = sheet.mount, timetable.bench_time(sheet, done, last), timetable.ready_times(sheet)[last - 1]
        while bench:
            figure += sum(weight for *_, weight in sheet.strips[done:])
            if mount:
                mount -= 1
            elif minute >= ready:
                bench -= 1
            minute += 1
        done = last
    return figure


def minutes_of_list(sheet, desks):
    """A desk works in a minute on its first strip that is not complete, where its scan has ended; then the scanner on its first strip."""
    queues, figure = {desk: iter(sheet.queue(desk)) for desk in (1, 2, 3)}, 0
    left = [[desk, *next(queues[desk])] for desk in desks]
    while left:
        figure += sum(weight for *_, weight in left)
        for first in {desk: next(one for one in left if one[0] == desk) for desk, *_ in left}.values():
            first[2] -= first[1] == 0
        scanned = next((one for one in left if one[1]), None)
        if scanned:
            scanned[1] -= 1
        left = [one for one in left if one[2]]
    return figure


def least_by_minutes(sheet):
    """The least figures and the scanner list of a sheet with a mosaic or a sorting."""
    if sheet.strips:
        return (min(minutes_of_batches(sheet, lasts) for lasts in brute.batchings(len(sheet.strips))), 0, 0), b""
    figure, desks = min((minutes_of_list(sheet, desks), bytes(desks)) for desks in brute.interleavings(brute.counts_of(sheet)))
    return (0, figure, 0), desks


def with_weights(times, weights):
    """Strips of these times, each with each of these weights."""
    return [(*one, weight) for one, weight in itertools.product(times, weights)]


def every_mosaic():
    choices = [
        ((0, 2), with_weights([(0, 1), (2, 1), (1, 3)], (None, 2, 5)), 1, 2), ((0, 1, 4), with_weights([(0, 1), (2, 2)], (None, 3, 9)), 3, 3),
        ((0, 1, 3, 9), with_weights([(0, 1)], (None, 4, 100)), 4, 4), ((1, 2), with_weights([(0, 2, 1), (3, 0, 1), (1, 1, 2)], (None, 7)), 2, 2),
    ]
    for times, strips, least, most in choices:
        yield from (mosaic(mount, rows) for mount, rows in itertools.product(times, tiny.rows(strips, least, most)))


def every_sorting():
    """Of the last ones many have several best lists."""
    two = list(tiny.rows([(1, 1, None), (1, 1, 3), (2, 1, 2), (1, 3, 5)], 0, 2))
    one = list(tiny.rows(with_weights([(1, 1), (2, 1)], (None, 2)) + [(2, 3, 7)], 0, 1))
    yield from (sorting(queues) for queues in [*itertools.product(two, repeat=2), *itertools.product(one, repeat=3)] if any(queues))
    for times, (desks, n) in itertools.product([(1, 1), (1, 2)], ((2, 3), (3, 2))):
        yield from (sorting(queues) for queues in itertools.product(tiny.rows(with_weights([times], (None, 2)), n, n), repeat=desks))


# Sheets, their least figures and their scanner lists. The strips of the mosaics are all ready at 0, and a mount takes 10 minutes. In one batch they are
# complete at 13. A first strip of weight 100 is worth a mount of its own: 100 * 11 + 2 * 23. With a last strip of weight 100 one batch stays best.
# The sortings are two worked ones. A strip of weight 100 goes first although its scan is longer: 100 * 7 + 4. Of equal strips the one with more weight does.
KNOWN = [
    (mosaic(10, [(0, 1, None)] * 3), (39, 0), b""),
    (mosaic(10, [(0, 1, 100), (0, 1, None), (0, 1, None)]), (1146, 0), b""),
    (mosaic(10, [(0, 1, None), (0, 1, None), (0, 1, 100)]), (1326, 0), b""),
    (sorting([[(2, 5, None)], [(1, 1, None)]]), (0, 10), b"\2\1"),
    (sorting([[(2, 5, 100)], [(1, 1, None)]]), (0, 704), b"\1\2"),
    (sorting([[(1, 1, None)], [(1, 1, None)]]), (0, 5), b"\1\2"),
    (sorting([[(1, 1, None)], [(1, 1, 2)]]), (0, 7), b"\2\1"),
    (sorting([[(1, 1, 2)], [(1, 1, 2)]]), (0, 10), b"\1\2"),
]


def as_scan_times():
    """A sheet with a sorting, its figure and its scanner list. Each weight is the scan time, or some times it, and no scan is shorter than a desk time. Any two
    strips add the later one's weight times the other's scan time to the figure, which is the same number whichever of them is the later one."""
    for counts, least, times in itertools.product([(6, 6, 6), (6, 0, 6), (6, 6), (2, 3, 4), (1, 1, 1)], (1, 4), (1, 9)):
        queues = [[(scan, least, times * scan) for scan in range(least + desk, least + desk + count)] for desk, count in enumerate(counts)]
        scans = [scan for queue in queues for scan, _, _ in queue]
        pairs = itertools.combinations_with_replacement(scans, 2)
        figure = times * (sum(one * other for one, other in pairs) + least * sum(scans))
        yield sorting(queues), (0, figure, 0), bytes(desk for desk, count in enumerate(counts, 1) for _ in range(count))


def one_heavy(rows, at, weight=MOST_WEIGHT):
    """The rows of times, each with None behind it, and one with the weight."""
    return [(*row, weight if k == at else None) for k, row in enumerate(rows)]


def heavy_sortings():
    """A sheet of equal strips, the desk of the one with the weight 100, and its number within the desk. It is worth more than all others, and every desk is
    free in time."""
    for times, (n, desks), heavy in itertools.product([(1, 1), (9, 4)], ((6, 3), (6, 2), (3, 3)), range(18)):
        desk, at = divmod(heavy, n)
        if desk < desks:
            yield sorting([one_heavy([times] * n, at if d == desk else None) for d in range(desks)]), desk + 1, at + 1


def heavy_mosaics(most):
    """Three or so many strips, one of them with the weight 100."""
    for n, (time, bench), mount in itertools.product((3, most), ((0, 1), (1, 1), (5, 3), (0, 40)), (0, 3, 20, 300)):
        yield from (mosaic(mount, one_heavy([(time, bench)] * n, at)) for at in range(0, n, max(1, n // 8)))


def some_weights():
    """Of three strips every choice of those that carry a weight."""
    for weights in itertools.product((None, 1, 2, 100), repeat=3):
        yield mosaic(4, [(1, bench, weight) for bench, weight in zip((2, 1, 3), weights)])
        yield sorting([[(1, 2, weights[0]), (2, 1, weights[1])], [(1, 1, weights[2])]])


def longest_mosaic(stations, weights):
    return mosaic(MOST_TIME, [(*times, weight) for times, weight in zip(longest.longest(40, stations + 1), weights)])


def longest_sorting(desks, weights):
    return longest.sorting(desks, [(MOST_TIME, MOST_TIME, weight) for weight in weights])


def greatest(n, one_less):
    """Rows of n weights: all the greatest, and one at these places in turn one less."""
    yield [MOST_WEIGHT] * n
    yield from ([MOST_WEIGHT - (k == at) for k in range(n)] for at in one_less)


def longest_weights():
    """The full sections of longest.py with these weights."""
    for stations, places in ((1, range(40)), (4, (0, 20, 39))):
        yield from (longest_mosaic(stations, row) for row in greatest(40, places))
    for desks in longest.QUEUES:
        yield from (longest_sorting(desks, row) for row in greatest(len(desks), range(len(desks))))


FIELDS = [
    mosaic_head(1, 0), strip([0, 1]), strip([0, 1], 2), strip([0, 1], 0), strip([0, 1], 101), strip([0, 0], 0), sorting_head(2), job(1, 1, 1),
    job(2, 1, 1, 100), job(2, 1, 1, 0), job(2, 1, 1, 101), job(3, 1, 1, 101), job(1, 0, 1, 255), flight([(1, 0, 1)]),
]

# The fields of a sheet with all three sections. All weights are different, and one strip of the mosaic and one of the sorting carry none.
SMALL = [
    mosaic_head(2, 1), strip([2, 1, 1], 7), strip([0, 3, 3]), strip([1, 1, 1], 100), sorting_head(2), job(1, 2, 5, 3), job(2, 1, 1, 90), job(1, 1, 1),
    flight([(1, 2, 1), (2, 3, 1)], 0xC),
]


def small_plan(lasts=(1, 2, 3), desks=(2, 1, 1)):
    """A plan of that sheet."""
    parsed = reader.read(b"".join(SMALL))
    starts = timetable.passes_of(parsed.blocks, [0, 1])
    return timetable.plan_of(parsed, timetable.batches_of(parsed, lasts), timetable.jobs_of(parsed, desks), 0xC, starts)


def buffers():
    """A sheet and a length of the plan buffer."""
    return itertools.product((sheets.longest_planned(), b"".join(SMALL)), (1094, 1095, 1096, 1102, 1103, 1104, 2000))


def every_weight():
    """A sheet with any weight, and a plan for it where the weight is in its range."""
    chosen = [(weight, 1 + weight % 4) for weight in range(256)] + list(itertools.product((0, 1, 100, 101, 255), (1, 2, 3, 4)))
    for (weight, stations), at in itertools.product(chosen, (values.LAST[0x11], values.LAST[0x21])):
        fields = values.fields_of(stations, 2, weight=2)
        sound = [*fields[:at], fields[at][:-1] + bytes([min(max(weight, 1), MOST_WEIGHT)]), *fields[at + 1:]]
        yield values.replaced(fields, at, fields[at][:-1] + bytes([weight])), values.read_and_planned(sound)[1]


def rows_and_changes():
    """Rows of fields, and the sheet above with one byte of a strip's length or its weight changed."""
    yield from map(b"".join, tiny.rows(FIELDS, 0, 3))
    for at, one in enumerate(SMALL):
        for byte in (1, 2, len(one) - 1) if one[0] in (0x11, 0x21) else ():
            yield from (values.replaced(SMALL, at, one[:byte] + bytes([value]) + one[byte + 1:]) for value in range(256) if value != one[byte])


def other_figures(figure):
    """Figures that are right in some bytes alone."""
    low, high = figure % TOP, figure >> 32
    return sorted({low, high << 32, high, low << 32 | high, figure + TOP, figure ^ 1 << 63, figure + (1 << 40), abs(figure - TOP), figure ^ 1} - {figure})


def other_weights(sheet, tag, members):
    """The figures of a section with other weights, without the true one."""
    figures = {plans.figure_of(plans.with_weights(sheet, change), tag, members) for change in plans.OTHER_WEIGHTS}
    return sorted(figures - {plans.figure_of(sheet, tag, members)})


def with_figure(plan, section, figure):
    """The bytes of the plan with another figure of one section."""
    sections = [(tag, [figure if k == section else head[0], *head[1:]], members) for k, (tag, head, members) in enumerate(plan.sections)]
    return timetable.Plan(sections, plan.order).bytes()


def untrue(sheet, plan):
    """The plans of a sheet with all these figures in place of each of its figures, and the place of the head."""
    parsed = reader.read(sheet)
    for section, (tag, head, members) in enumerate(plan.sections):
        figures = other_figures(head[0]) + other_weights(parsed, tag, members) if tag != 0xB0 else []
        place = len(timetable.Plan(plan.sections[:section], None).bytes())
        yield from ((with_figure(plan, section, figure), place) for figure in figures)


def with_plans():
    """Sheets with weights, and their plans."""
    small = b"".join(SMALL)
    for lasts, desks in itertools.product(brute.batchings(3), brute.interleavings((2, 1, 0))):
        yield small, small_plan(lasts, desks)
    for weights in ((1, 2, 3, 4), (100, 1, 1, 1), (1, 1, 1, 100), (None, 9, None, 50)):
        sheet = mosaic(1, [(*times, weight) for times, weight in zip([(2, 1, 1), (1, 3, 3), (4, 2, 2), (1, 3, 1)], weights)])
        for batches in mounts.WORKED_PLANS.values():
            yield sheet, timetable.plan_of(reader.read(sheet), batches, [], None, [])
    for desks in longest.QUEUES:
        sheet = longest_sorting(desks, [1 + 37 * k % 100 for k in range(len(desks))])
        parsed = reader.read(sheet)
        yield sheet, timetable.plan_of(parsed, [], timetable.jobs_of(parsed, desks), None, [])


def to_ceiling():
    """A sheet, a plan, and None or the place of 13: the longest sections with the weight 100, at the ceiling and behind it."""
    full = longest_mosaic(1, [MOST_WEIGHT] * 40)
    parsed = reader.read(full)
    for lasts in ([40], [1, 40], list(range(1, 41))):
        plan = timetable.plan_of(parsed, timetable.batches_of(parsed, lasts), [], None, [])
        yield from ((full, *one) for one in itertools.islice(longest.at_ceiling(full, plan), 0, None, 1 + len(lasts) // 5))
    for desks in longest.QUEUES[-2:]:
        sheet = longest_sorting(desks, [MOST_WEIGHT] * len(desks))
        parsed = reader.read(sheet)
        plan = timetable.plan_of(parsed, [], timetable.jobs_of(parsed, desks), None, [])
        yield from ((sheet, *one) for one in longest.at_ceiling(sheet, plan))


def digits():
    """A sheet and a plan: figures about powers of ten and about 2 to the 32. All strips of the mosaic are complete at one time, those of the desk in turn."""
    for n, weight in ((40, 100), (40, 1), (5, 100), (1, 100), (1, 7), (1, None)):
        sheet, each = mosaic(0, [(0, 1, weight)] * n), n * (weight or 1)
        near = {bound // each + more for bound in (TOP, *(10 ** k for k in range(11))) for more in (-1, 0, 1)} | {CEILING - 1, CEILING}
        for finish in sorted(time for time in near if n <= time <= CEILING):
            yield sheet, mounts.plan_of(sheet, [[n, finish - n, finish]])
    for weight, first in itertools.product((100, 72, 71, None), (0, 7_000_000, 7_158_000, 9_942_000, CEILING - 12)):
        sheet = sorting([[(1, 1, weight)] * 6])
        jobs = [[1, k + 1, first + 2 * k, first + 2 * k + 1] for k in range(6)]
        yield sheet, timetable.plan_of(reader.read(sheet), [], jobs, None, []).bytes()


def other_heads():
    """A sheet, a plan with a head of another length, and the place of the head. The bytes of the head are cut, or there are zeros behind them."""
    for sheet, plan in ((b"".join(SMALL), small_plan().bytes()), (tiny.SMALL, tiny.small_plan())):
        for tag, place, _ in judge.parts_of(reader.read(sheet), plan)[0]:
            after = place + 3 + word(plan, place + 1)
            content = plan[place + 3:after]
            for length in set(range(17)) - {len(content)}:
                yield sheet, plan[:place] + field(tag, (content + bytes(16))[:length]) + plan[after:], place


def four_byte_heads():
    """A sheet, a plan in which the heads of some mosaics and sortings have figures of four bytes, and the place of the first of these."""
    for sections, short in itertools.product(tiny.SETS, tiny.SETS):
        if set(short) & set(sections) & {"m", "s"}:
            heads = {one: field(tiny.HEADS[one][0], struct.pack("<I", 2)) if one in short and one != "f" else tiny.HEADS[one] for one in sections}
            rows = [heads[one] + tiny.MEMBERS[one] for one in sections]
            first = next(k for k, one in enumerate(sections) if one in short and one != "f")
            yield b"".join(tiny.ONES[one] for one in sections), b"".join(rows), len(b"".join(rows[:first]))


def changed_heads():
    """A sheet and a plan with one byte of a head changed."""
    sheet, plan = b"".join(SMALL), small_plan().bytes()
    for _, place, _ in judge.parts_of(reader.read(sheet), plan)[0][:2]:
        for at, value in itertools.product(range(place, place + 11), range(256)):
            if value != plan[at]:
                yield sheet, plan[:at] + bytes([value]) + plan[at + 1:]


def beside(fields, which):
    """A sheet of these fields, the same with the weight 1 in the strips at these indices, which carry none, and the places of these in the first."""
    others = [field(one[0], one[3:] + b"\x01") if k in which else one for k, one in enumerate(fields)]
    ends = list(itertools.accumulate(map(len, fields), initial=0))
    return b"".join(fields), b"".join(others), [ends[k] for k in which]


def without_weights(fields):
    """The indices of the strips that carry none, but for those of a wrong length."""
    stations = next((one[3] for one in fields if one[0] == 0x10), 0)
    due = {0x11: 2 * stations + 5, 0x21: 8}
    return [k for k, one in enumerate(fields) if due.get(one[0]) == len(one)]


# What may stand behind the strips: nothing, and fields that are turned back or end the section.
BEHIND = [
    [], [strip([0, 0, 1])], [strip([0, 0, 1], 0)], [strip([0, 0, 0])], [job(1, 1, 1)], [job(2, 1, 1, 101)], [job(1, 1, 0)], [field(0x99)], [mosaic_head(1, 0)],
    [sorting_head(2)], [sorting_head(2), job(1, 1, 1), job(2, 1, 1)], [flight([(1, 0, 1)])], [flight([(1, 0, 1)] * 9)], [b"\x11\x07"], [strip([1, 1, 1])[:-1]],
]


def ones():
    """Two sheets that mean the same, the places of the longer fields, and a plan."""
    small = values.fields_of(2, 2)
    for fields, behind in itertools.product((small[:3], small[3:6], small[:6], SMALL[:4], SMALL[4:8]), BEHIND):
        free = without_weights(fields)
        for size in {1, len(free)}:
            yield from ((*beside(fields + behind, which), tiny.small_plan()) for which in itertools.combinations(free, size))
    for fields in (small, SMALL):
        plan = values.read_and_planned(fields)[1]
        yield from ((*beside(fields, which), plan) for which in [without_weights(fields), without_weights(fields)[-1:]])
    for full, _ in values.full_sections():
        free = without_weights(full)
        for which, more in itertools.product((free, free[:1], free[-1:], free[::2]), ([], full[-1:])) if free else ():
            yield *beside(full + more, which), values.read_and_planned(full)[1]


def drawn_section(rng):
    """A small mosaic or sorting of which most strips carry a weight."""
    weight = rng.choice(sheets.WEIGHTS[3:])
    if rng.random() < 0.5:
        mount, station, bench = sheets.MOSAICS[sheets.any_family(rng, sheets.MOSAICS)]
        stations = rng.randint(1, 4)
        return mosaic(mount(rng), [(*(station(rng) for _ in range(stations)), bench(rng), weight(rng)) for _ in range(rng.randint(1, 7))])
    scan, time = sheets.SORTINGS[sheets.any_family(rng, sheets.SORTINGS)]
    return sorting([[(scan(rng), time(rng), weight(rng)) for _ in range(count)] for count in sheets.random_counts(rng, 3)])


def with_ones(rng, sheet):
    """A sound sheet, the same with the weight 1 for some strips that carry none, and the places of these; None where it has none."""
    fields = values.fields_in(sheet)
    free = without_weights(fields)
    return beside(fields, sorted(rng.sample(free, rng.randint(1, len(free))))) if free else None
