"""Timetables by the rules: the times of a choice (batches, scanner list, pass order) with given waits, the figures, and the plan's bytes."""
import struct

import distances

CEILING = 10_000_000


def no_wait():
    return 0


def ready_times(sheet):
    sums, out = [0] * sheet.stations, []
    for stations, _, _ in sheet.strips:
        sums = [x + y for x, y in zip(sums, stations)]
        out.append(max(sums))
    return out


def bench_time(sheet, done, last):
    """The time of the bench for the strips behind `done`, up to `last`."""
    return sum(bench for _, bench, _ in sheet.strips[done:last])


def batches_of(sheet, lasts, wait=no_wait, before=()):
    """Last strip, mount start and finish of each batch, each mount as early as it may and `wait` later. Bench work starts once the mount is done and the last
    strip is ready. The first batches are those of `before`, whatever their times."""
    ready, out = ready_times(sheet), [*before]
    done, _, free = out[-1] if out else (0, 0, 0)
    for last in lasts[len(out):]:
        start = free + wait()
        free = max(start + sheet.mount, ready[last - 1]) + bench_time(sheet, done, last)
        out.append([last, start, free])
        done = last
    return out


def latest_mounts(sheet, batches):
    """The batches with the same finishes, each mount as late as its finish lets it be."""
    lasts = [0] + [last for last, _, _ in batches]
    return [[last, finish - bench_time(sheet, done, last) - sheet.mount, finish] for done, (last, _, finish) in zip(lasts, batches)]


def jobs_of(sheet, desks, wait=no_wait):
    """Desk, number, scan start and desk start of each strip of a scanner list, each start as early as it may and `wait` later."""
    queues = {desk: sheet.queue(desk) for desk in (1, 2, 3)}
    scanner, free, done, out = 0, [0] * 4, [0] * 4, []
    for desk in desks:
        scan, time, _ = queues[desk][done[desk]]
        done[desk] += 1
        start = scanner + wait()
        scanner = start + scan
        begin = max(scanner, free[desk]) + wait()
        free[desk] = begin + time
        out.append([desk, done[desk], start, begin])
    return out


def passes_of(blocks, firsts):
    """First and second start of each block, each delay the shortest of its window."""
    return [[first, first + block[0] + distances.shortest(block)] for first, block in zip(firsts, blocks)]


def mosaic_figure(sheet, batches):
    """Every strip is complete when its batch finishes."""
    lasts = [0] + [last for last, _, _ in batches]
    return sum(weight * finish for done, (last, _, finish) in zip(lasts, batches) for _, _, weight in sheet.strips[done:last])


def sorting_figure(sheet, jobs):
    strips = ((sheet.queue(desk)[number - 1], begin) for desk, number, _, begin in jobs)
    return sum(weight * (begin + time) for (_, time, weight), begin in strips)


class Plan:
    """The numbers of a plan: of each section its tag, its head's numbers and its members' numbers. `order` is None where there is no flight."""

    FORMATS = {0x90: ("Q", "BII"), 0xA0: ("Q", "BBII"), 0xB0: ("IQ", "II")}
    GREATEST = {"B": 0xFF, "I": 0xFFFFFFFF, "Q": 0xFFFFFFFFFFFFFFFF}

    def __init__(self, sections, order):
        self.sections, self.order = sections, order

    def packed(self, tag, form, numbers):
        """A field. A number that does not fit loses its upper bits."""
        fitted = [number & self.GREATEST[width] for number, width in zip(numbers, form)]
        return bytes([tag]) + struct.pack("<H" + form, struct.calcsize("<" + form), *fitted)

    def bytes(self):
        out = []
        for tag, head, members in self.sections:
            of_head, of_member = self.FORMATS[tag]
            out.append(self.packed(tag, of_head, head))
            out += [self.packed(tag + 1, of_member, member) for member in members]
        return b"".join(out)


def plan_of(sheet, batches, jobs, order, starts):
    """The plan of a sheet with these timetables and their true figures. `starts` are the first and the second start of each block."""
    sections = []
    if sheet.strips:
        sections.append((0x90, [mosaic_figure(sheet, batches)], batches))
    if sheet.jobs:
        sections.append((0xA0, [sorting_figure(sheet, jobs)], jobs))
    if sheet.blocks:
        sections.append((0xB0, [distances.end(sheet.blocks, starts), order], starts))
    return Plan(sections, order)
