"""The least figures of small sheets, and the scanner list that is due, by trying everything.

`of_choices` tries every batching, every interleaving and every proper order, each with its earliest starts. `of_timetables`, for tiny sheets, tries idle
timetables too: in mosaic every mount up to two minutes later than it may start, in sorting those that wait one minute at one or two starts, in flight every
row of starts up to a time behind which no start is needed, with every delay of each window. `least_by_batching`, for tiny mosaics, tries every start of every
mount, its bench minute by minute. That a flight without order is impossible is found by trying every proper order, never by its delays.
"""
import itertools

import distances
import reader
import timetable


def batchings(n):
    """Every row of last strips."""
    for size in range(n):
        for cuts in itertools.combinations(range(1, n), size):
            yield [*cuts, n]


def interleavings(counts):
    """Every scanner list of desk numbers, for these numbers of strips of desks 1, 2, ..."""
    if not any(counts):
        yield []
    for d, count in enumerate(counts):
        if count:
            for rest in interleavings(counts[:d] + (count - 1,) + counts[d + 1:]):
                yield [d + 1, *rest]


def proper_orders(n):
    numbers = (sum(1 << k for k in seconds) for seconds in itertools.combinations(range(2 * n), n))
    return [order for order in numbers if reader.proper(n, order)]


def counts_of(sheet):
    return tuple(len(sheet.queue(desk)) for desk in (1, 2, 3))


def waits(starts, most):
    """Every row of waits before so many starts: one minute at no more than `most` of them, 0 at the others. Each is a function that gives them in turn."""
    for size in range(most + 1):
        for late in itertools.combinations(range(starts), size):
            yield iter([int(k in late) for k in range(starts)]).__next__


def idle_batches(sheet, lasts, most):
    """The batches with these last strips, each mount 0 to `most` minutes later than it may start."""
    return (timetable.batches_of(sheet, lasts, iter(row).__next__) for row in itertools.product(range(most + 1), repeat=len(lasts)))


def least_mosaic(sheet, most):
    return min(timetable.mosaic_figure(sheet, batches) for lasts in batchings(len(sheet.strips)) for batches in idle_batches(sheet, lasts, most))


def finish_of(sheet, done, last, start):
    """When the batch of the strips behind `done` up to `last` finishes, minute by minute: the bench waits until the mount is done and every strip is ready."""
    ready, minute = timetable.ready_times(sheet)[done:last], start
    while minute < start + sheet.mount or any(minute < at for at in ready):
        minute += 1
    return minute + timetable.bench_time(sheet, done, last)


def every_mounts(sheet, lasts, done=0, free=0):
    """Every row of batches with these last strips, the bench being free from `free` on. No mount needs to be done later than its batch's last strip is ready;
    each is also tried one minute later than that."""
    if not lasts:
        yield []
        return
    last, most = lasts[0], max(free, timetable.ready_times(sheet)[lasts[0] - 1] - sheet.mount) + 1
    for start in range(free, most + 1):
        finish = finish_of(sheet, done, last, start)
        yield from ([[last, start, finish], *rest] for rest in every_mounts(sheet, lasts[1:], last, finish))


def least_by_batching(sheet):
    """Of every batching the least figure, and the least start and finish of each batch, each for itself over all that are tried."""
    found = {}
    for lasts in batchings(len(sheet.strips)):
        rows = list(every_mounts(sheet, lasts))
        least = [[last, min(row[k][1] for row in rows), min(row[k][2] for row in rows)] for k, last in enumerate(lasts)]
        found[tuple(lasts)] = min(timetable.mosaic_figure(sheet, row) for row in rows), least
    return found


def first_wrong_batch(sheet, batches):
    """The index of the first batch that breaks a rule, or None. The last strips are not looked at."""
    done = free = 0
    for k, (last, start, finish) in enumerate(batches):
        if start < free or finish != finish_of(sheet, done, last, start):
            return k
        done, free = last, finish
    return None


def least_sorting(sheet, most):
    """The least figure and, of the lists that have it, the one with the lower desk number at the first place where it and another part."""
    lists = interleavings(counts_of(sheet))
    tried = ((desks, timetable.jobs_of(sheet, desks, wait)) for desks in lists for wait in waits(2 * len(desks), most))
    return min((timetable.sorting_figure(sheet, jobs), bytes(desks)) for desks, jobs in tried)


def best_lists(sheet):
    """Every scanner list of least figure, in the order of their desk numbers: the first is the one that is due."""
    figures = {bytes(desks): timetable.sorting_figure(sheet, timetable.jobs_of(sheet, desks)) for desks in interleavings(counts_of(sheet))}
    least = min(figures.values())
    return sorted(desks for desks, figure in figures.items() if figure == least)


def earliest_flights(sheet):
    """Order and starts, as early as the order allows, of every order that may be chosen and has a timetable."""
    for order in proper_orders(len(sheet.blocks)) if sheet.order is None else [sheet.order]:
        far = distances.in_order(sheet.blocks, order, sheet.turn)
        if far is not None:
            yield order, distances.least(far)


def least_flight(sheet):
    """Over every order that may be chosen; None where none has a timetable."""
    return min((distances.end(sheet.blocks, starts) for _, starts in earliest_flights(sheet)), default=None)


def some_order(blocks, turn, far, last, firsts, seconds):
    """Whether some proper order that begins with so many first and second passes, `last` the last of them, has a timetable. `far` are the distances of this
    beginning, None where it has no timetable itself."""
    if far is None or seconds == len(blocks):
        return far is not None
    ways = [(seconds, 1)] if seconds < firsts else []
    ways += [(firsts, 0)] if firsts < len(blocks) else []
    for way in ways:
        asked = distances.ask_passes(far, blocks, last, way, turn) if last else far
        if some_order(blocks, turn, asked, way, firsts + 1 - way[1], seconds + way[1]):
            return True
    return False


def possible(sheet):
    """Whether some proper order of a flight without one has a timetable."""
    return some_order(sheet.blocks, sheet.turn, distances.of_blocks(sheet.blocks), None, 0, 0)


def lawful_passes(blocks, starts, turn):
    """Whether first passes take the blocks in turn, second passes too, each block's first before its second, and of any two passes the later starts at least a
    turn after the other ends. The delays are not looked at."""
    firsts, seconds = zip(*starts)
    spans = [(f, f + block[0]) for f, block in zip(firsts, blocks)] + [(s, s + block[-1]) for s, block in zip(seconds, blocks)]
    clear = all(apart(one, other, turn) for one, other in itertools.combinations(spans, 2))
    return clear and sorted(firsts) == list(firsts) and sorted(seconds) == list(seconds) and all(first < second for first, second in starts)


def delays_of(block):
    """Every delay of a block's window."""
    return range(block[1], block[-2] + 1)


def apart(one, other, turn):
    """Whether of two passes, each by start and end, the later starts at least a turn after the other ends."""
    return one[1] + turn <= other[0] or other[1] + turn <= one[0]


def timetables(blocks, turn, latest, starts=(), spans=()):
    """Every row of starts that goes on with these, block by block, with every delay and every first start before `latest`. `spans` are the passes so far."""
    if len(starts) == len(blocks):
        yield starts
        return
    block, (first_before, second_before) = blocks[len(starts)], starts[-1] if starts else (-1, -1)
    for first, delay in itertools.product(range(first_before + 1, latest), delays_of(block)):
        second = first + block[0] + delay
        own = (first, first + block[0]), (second, second + block[-1])
        if second > second_before and apart(*own, turn) and all(apart(one, other, turn) for one in own for other in spans):
            yield from timetables(blocks, turn, latest, (*starts, (first, second)), spans + own)


def least_by_order(blocks, turn):
    """Of every order that has a timetable the least end, and the least start of each pass, each for itself over all its timetables. No pass needs to start
    behind the time of all blocks in turn, each delay the shortest or the turn and a turn behind each block."""
    latest, found = sum(block[0] + max(block[1], turn) + block[-1] + turn for block in blocks), {}
    for starts in timetables(blocks, turn, latest):
        order, end = distances.order_of(starts), distances.end(blocks, starts)
        least, known = found.get(order, (end, starts))
        found[order] = min(end, least), [list(map(min, one, other)) for one, other in zip(starts, known)]
    return found


def of_sections(sheet, most, flight):
    """The least figures, 0 for an absent section, with this one of the flight; and the scanner list, empty without a sorting."""
    sorting, desks = least_sorting(sheet, most) if sheet.jobs else (0, b"")
    return (least_mosaic(sheet, most) if sheet.strips else 0, sorting, flight), desks


def of_choices(sheet):
    """The least figures and the scanner list. The figure of a flight that is impossible is None."""
    return of_sections(sheet, 0, least_flight(sheet) if sheet.blocks else 0)


def best_plan(sheet):
    """A plan of least figures over all choices, with the scanner list that is due, or None where the flight is impossible."""
    batches = [timetable.batches_of(sheet, lasts) for lasts in batchings(len(sheet.strips))] if sheet.strips else [[]]
    jobs = timetable.jobs_of(sheet, least_sorting(sheet, 0)[1]) if sheet.jobs else []
    flights = list(earliest_flights(sheet)) if sheet.blocks else [(None, [])]
    if not flights:
        return None
    order, starts = min(flights, key=lambda flight: distances.end(sheet.blocks, flight[1]) if sheet.blocks else 0)
    least = min(batches, key=lambda row: timetable.mosaic_figure(sheet, row))
    return timetable.plan_of(sheet, least, jobs, order, starts)


def of_timetables(sheet, found=None):
    """The same. `found` is what least_by_order gives for the sheet's blocks and turn."""
    flight = 0
    if sheet.blocks:
        ends = {order: end for order, (end, _) in found.items()}
        flight = min(ends.values(), default=None) if sheet.order is None else ends.get(sheet.order)
    return of_sections(sheet, 2, flight)
