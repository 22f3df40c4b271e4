"""Mosaics whose mounts may start before their strips are ready, and their plans. All but the drawn ones are the same for every seed; tiny.py, longest.py and
sheets.py have others.

Sheets whose least figure, and of every batching the least start and finish of each batch, are found by trying every start:
- one station, one and two strips: mount times 0, 2 and 5, station times 0 to 5, bench times 1 and 2;
- one station, three strips: mount times 0, 1 and 3, station times 0, 2 and 3, bench times 1 and 2; and two stations, two strips.

Sheets that are planned:
- the first worked sheet, whose best plan is written down;
- 1 to 3 and 40 strips of which one, at each place in turn, of 40 at five of them, is ready one minute before the mount is done, at that minute, or one later;
- strips in one batch of which the last is ready one minute before the mount is done, at that minute, or one later, with mount times up to 60,000;
- sheets whose best batching is another where each mount waits for its batch's last strip, with every mount time of 0 to 30.

Plans that are judged and printed:
- of the first worked sheet six plans, with their figures, with each other's, and with other sections behind them;
- every start and finish about the due ones of one batch, and of two batches, of tiny sheets;
- plans of the worked sheet, of those with a strip or a batch about its mount, and of the longest, in which one mount, at each batch in turn or some, starts
  when the batch before finishes, one minute before and behind that, as late as its finish lets it, one minute before and behind that, and much later; each
  with the finish that is due, with one that is one minute off, and with finishes by other rules;
- mounts that end at the ceiling, behind it and where four bytes end, in the first batch, one between and the last;
- every change of one byte of a plan.

Plans that differ in one mount's start alone, printed in pairs.

Drawn: mosaics of up to 8 strips, every batching tried, and of 40 strips; and the same kinds of plans of them.
"""
import itertools

import longest
import plans
import reader
import sheets
import timetable
import tiny
from reader import MOST_TIME
from sheets import mosaic_head, strip
from timetable import CEILING, batches_of

TOP = 1 << 32


def mosaic(mount, rows):
    """A sheet with a mosaic alone: of each strip the station times, then the bench time."""
    return mosaic_head(len(rows[0]) - 1, mount) + b"".join(map(strip, rows))


def stated_plan(figure, batches):
    """The plan of a mosaic alone with this figure."""
    return timetable.Plan([(0x90, [figure], batches)], None).bytes()


def plan_of(sheet, batches, more=0):
    """The plan of a sheet with a mosaic alone, and a figure that is so much more than the true one."""
    return stated_plan(timetable.mosaic_figure(reader.read(sheet), batches) + more, batches)


def place_of(batch):
    return 11 + 12 * batch


# The first worked sheet, and plans with the figures that are written down: the best one, its other two batchings, and the same three where each mount waits for
# its batch's last strip.
WORKED = mosaic(1, [(2, 1, 1), (1, 3, 3), (4, 2, 2), (1, 3, 1)])
WORKED_PLANS = {
    32: [[1, 0, 3], [2, 3, 7], [3, 7, 10], [4, 10, 12]],
    41: [[1, 0, 3], [3, 3, 12], [4, 12, 14]],
    34: [[1, 0, 3], [2, 3, 7], [4, 7, 12]],
    36: [[1, 2, 4], [2, 4, 8], [3, 8, 11], [4, 11, 13]],
    45: [[1, 2, 4], [3, 7, 13], [4, 13, 15]],
    38: [[1, 2, 4], [2, 4, 8], [4, 9, 13]],
}


def every_mosaic():
    """Tiny sheets of which every start is tried."""
    yield from tiny.mosaics_of(1, (0, 2, 5), tiny.rows(list(itertools.product(range(6), (1, 2))), 1, 2))
    yield from tiny.mosaics_of(1, (0, 1, 3), tiny.rows(list(itertools.product((0, 2, 3), (1, 2))), 3, 3))
    yield from tiny.mosaics_of(2, (1, 3), tiny.rows(list(itertools.product((0, 1, 4), (0, 3), (1, 2))), 2, 2))


def every_time():
    """A sheet and its batches, which need not be lawful: of one strip, of two in one batch, and of two in two batches."""
    for mount, time, bench in itertools.product((0, 1, 3), range(5), (1, 2)):
        sheet = mosaic(mount, [(time, bench)])
        yield from ((sheet, [[1, start, finish]]) for start, finish in itertools.product(range(6), range(11)))
    for mount, one, other in itertools.product((0, 1, 3), (0, 2), (0, 1, 3)):
        sheet = mosaic(mount, [(one, 1), (other, 2)])
        yield from ((sheet, [[2, start, finish]]) for start, finish in itertools.product(range(5), range(3, 11)))
        yield from ((sheet, batches) for batches in about_two(reader.read(sheet)))


def about_two(sheet):
    """Two batches: the first mount up to three minutes late, the second from one minute too early up to three minutes late, finishes up to one minute off."""
    for first, off in itertools.product(range(4), (-1, 0, 1)):
        one = batches_of(sheet, [1], lambda: first)[0]
        one[2] += off
        for second, other_off in itertools.product(range(-1, 4), (-1, 0, 1)):
            *_, (last, start, finish) = batches_of(sheet, [1, 2], lambda: second, [one])
            yield [one, [last, start, finish + other_off]]


def singly(n):
    """The last strips where each strip is its own batch."""
    return list(range(1, n + 1))


def with_ready(mount, bench, ready):
    """A sheet of one station whose strips are ready at these times."""
    return mosaic(mount, [(time - before, bench) for before, time in zip([0, *ready], ready)])


def about_mounts():
    """A sheet, the last strips of its batches and the batches that are tried. Each strip is its own batch. All strips before one are ready in time, that one so
    much later than its mount is done."""
    places = [(n, at) for n in (1, 2, 3) for at in range(n)] + [(40, at) for at in (0, 1, 20, 38, 39)]
    for (n, at), (mount, bench), late in itertools.product(places, ((0, 1), (1, 3), (255, 1), (256, 40), (59_000, 600)), (-1, 0, 1, 2)):
        done = [j * (mount + bench) + mount for j in range(n)]
        ready = [max(0, done[j] - 2) for j in range(at)] + [max(0, done[at] + late)] * (n - at)
        yield with_ready(mount, bench, ready), singly(n), range(n) if n < 40 else (at,)


def about_one_mount():
    """The same with all strips in one batch, of one to four stations."""
    for n, mount, late, stations in itertools.product((1, 2, 5, 40), (0, 1, 2, 256, MOST_TIME - 1, MOST_TIME), (-1, 0, 1), (1, 2, 4)):
        time = mount + late
        if 0 <= time <= n * MOST_TIME:
            times = [time // n + (j < time % n) for j in range(n)]
            yield mosaic(mount, [(*[each // 2] * (stations - 1), each, 1 + j % 3) for j, each in enumerate(times)]), [n], (0,)


# Strips whose best batchings are others where each mount waits for its batch's last strip, with most mount times of 0 to 30.
OTHER_BEST = [
    [(0, 0, 8), (1, 0, 1), (4, 0, 1), (0, 14, 6), (0, 20, 11)],
    [(0, 3), (0, 8), (9, 2), (14, 2)],
    [(0, 12), (5, 4), (10, 8), (7, 4), (0, 6), (0, 6)],
    [(0, 11), (0, 9), (3, 4), (4, 7), (22, 9), (0, 3)],
    [(0, 0, 4), (7, 5, 11), (7, 0, 3), (0, 14, 4), (20, 5, 3)],
    [(0, 8), (7, 11), (6, 5), (5, 4), (0, 8)],
]


def other_best():
    return (mosaic(mount, rows) for rows, mount in itertools.product(OTHER_BEST, range(31)))


class Batch:
    """The times that the finish of a batch may be made of: the mount's start and time, when it is done, ready times of strips, and the time of the bench."""

    def __init__(self, sheet, done, last, start):
        self.start, self.mount, self.mounted, self.done = start, sheet.mount, start + sheet.mount, done
        self.all_ready = timetable.ready_times(sheet)
        self.ready = self.all_ready[done:last]
        self.benches = [bench for _, bench, _ in sheet.strips[done:last]]
        self.first, self.last, self.bench = self.ready[0], self.ready[-1], sum(self.benches)

    def strip_by_strip(self):
        """The finish where each strip is worked as soon as it is ready."""
        time = self.mounted
        for ready, bench in zip(self.ready, self.benches):
            time = max(time, ready) + bench
        return time


# Finishes by other rules.
OTHER_FINISHES = (
    lambda b: b.mounted + b.bench,
    lambda b: b.last + b.bench,
    lambda b: b.last + b.mount + b.bench,
    lambda b: min(b.mounted, b.last) + b.bench,
    lambda b: max(b.start, b.last) + b.bench,
    lambda b: max(b.start, b.last) + b.mount + b.bench,
    lambda b: max(b.start, b.first) + b.mount + b.bench,
    lambda b: max(b.start, b.mount, b.last) + b.bench,
    lambda b: max(b.mounted, b.first) + b.bench,
    lambda b: max(b.mounted, b.last - b.first) + b.bench,
    lambda b: max(b.mounted, b.all_ready[-1]) + b.bench,
    lambda b: max(b.mounted, b.all_ready[max(0, b.done - 1)]) + b.bench,
    lambda b: max(b.mounted, b.all_ready[max(0, b.done + len(b.ready) - 2)]) + b.bench,
    lambda b: max(b.mounted, b.all_ready[min(len(b.all_ready) - 1, b.done + len(b.ready))]) + b.bench,
    lambda b: max(b.start + b.mount * len(b.ready), b.last) + b.bench,
    lambda b: max(b.mounted + b.bench, b.last),
    lambda b: max(b.mounted, b.last) + b.benches[0],
    lambda b: max(b.mounted, b.last) + b.benches[-1],
    lambda b: max(b.mounted, b.last) + max(b.benches),
    Batch.strip_by_strip,
)


def other_finishes(sheet, done, last, start):
    batch = Batch(sheet, done, last, start)
    return {rule(batch) for rule in OTHER_FINISHES}


def starts_about(free, latest):
    """Starts of a mount that is done when its last strip is ready where it starts at `latest`."""
    return sorted({start for start in (free - 1, free, free + 1, latest - 1, latest, latest + 1, latest + 1000) if start >= max(0, free - 1)})


def about_batch(sheet, lasts, k):
    """Batches, and None or the index of the one that breaks a rule: batch k with the starts above, each with the finish that is due, with finishes one minute
    off and with those of other rules. All other batches are as early as they may."""
    before = batches_of(sheet, lasts[:k])
    done, _, free = before[-1] if before else (0, 0, 0)
    latest = max(free, timetable.ready_times(sheet)[lasts[k] - 1] - sheet.mount)
    for start in starts_about(free, latest):
        due = batches_of(sheet, lasts[:k + 1], lambda: start - free, before)[k][2]
        for finish in sorted({due, due - 1, due + 1, *other_finishes(sheet, done, lasts[k], start)}):
            batches = batches_of(sheet, lasts, before=[*before, [lasts[k], start, finish]])
            yield batches, None if finish == due and start >= free else k


def judged():
    """A sheet, its batches, and None or the index of the one that breaks a rule."""
    rows = [(WORKED, lasts, range(len(lasts))) for lasts in ([1, 2, 3, 4], [1, 3, 4], [1, 2, 4], [2, 4], [4])]
    rows += itertools.chain(about_mounts(), about_one_mount())
    for mount, stations, lasts in itertools.product((0, MOST_TIME), (1, 4), (singly(40), [1, 40], [39, 40])):
        rows.append((mosaic(mount, longest.longest(40, stations + 1)), lasts, (0, 1, len(lasts) - 1)))
    for sheet, lasts, tried in rows:
        parsed = reader.read(sheet)
        for k in tried:
            yield from ((sheet, batches, broken) for batches, broken in about_batch(parsed, lasts, k))


def missing():
    """The batches of the worked plans without the last ones: the strips that are missing are found at the head."""
    return (batches[:k] for batches in WORKED_PLANS.values() for k in range(len(batches)))


def at_ceiling():
    """A sheet, its batches, and None or the index of the one that breaks a rule: one batch starts so late that it finishes about the ceiling, or where four
    bytes end; with the finish that is due, with the ceiling, and with finishes that would be due if some sum were of four bytes."""
    for mount, bench, n in itertools.product((0, 1, MOST_TIME), (1, MOST_TIME), (1, 3)):
        sheet = mosaic(mount, [(7, 0, bench)] * n)
        parsed, lasts, fits = reader.read(sheet), singly(n), CEILING - bench - mount
        starts = (fits - 1, fits, fits + 1, CEILING - bench, CEILING, CEILING + 1, TOP - bench - mount, TOP - max(1, mount), TOP - 1)
        for k, start in itertools.product(range(n), starts):
            due, before = start + mount + bench, batches_of(parsed, lasts[:k])
            for finish in sorted({due % TOP, due - 1, CEILING, CEILING + 1, 7 * (k + 1) + bench, (start + mount) % TOP + bench}):
                batches = batches_of(parsed, lasts, before=[*before, [k + 1, start, finish]])
                behind = next((j for j in range(k, n) if batches[j][2] > CEILING), None)
                yield sheet, batches, behind if finish == due else k


def same_finish():
    """A sheet and two rows of batches, which differ in the start of one mount alone, or not at all."""
    for sheet, lasts in ((WORKED, [1, 2, 4]), (WORKED, [2, 4]), (mosaic(10, [(3, 9), (200, 1), (1, 1)]), [1, 3]), (mosaic(0, [(255, 1), (256, 1)]), [1, 2])):
        parsed = reader.read(sheet)
        batches = batches_of(parsed, lasts)
        for k, (last, latest, finish) in enumerate(timetable.latest_mounts(parsed, batches)):
            others = ([*batches[:k], [last, start, finish], *batches[k + 1:]] for start in range(batches[k][1], latest + 1))
            yield from ((sheet, batches, other) for other in others)


# Of the worked sheet, a batch whose mount is done before its strips are ready, one whose mount is done at that minute, and one of two strips.
CHANGED = WORKED_PLANS[34]


def drawn_mosaic(rng, most):
    return sheets.mosaic(rng, sheets.any_family(rng, sheets.MOSAICS), rng.randint(1, most))


def drawn_judged(rng, sheet):
    """The same of some batches of a drawn batching."""
    parsed = reader.read(sheet)
    lasts = plans.random_lasts(rng, len(parsed.strips))
    for k in rng.sample(range(len(lasts)), min(2, len(lasts))):
        found = list(about_batch(parsed, lasts, k))
        yield from rng.sample(found, min(12, len(found)))
