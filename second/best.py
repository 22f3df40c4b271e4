"""The least figures of a sheet's sections, of any size, and the scanner list that is due.

Mosaic: forward from strip to strip, every pair (time at which the bench is free, figure) that no other pair beats. Sorting: forward over the
numbers of strips taken of each desk, every row (figure, scanner list, free times of the desks) that no other row beats. Flight without an order: the
timetable in which passes of two kinds may stand in each other's way, and from there a branch on each two that do, one pass first or the other.

The scanner list that is due is, of those of least figure, the one that has the lower desk number at the first place where it and another part. Of two rows
with the same strips taken, the one with the lower figure, or with the same figure and the list that comes first, beats the other where its desks are free
no later: the same rest behind both adds no more to it, and leaves its list the first.
"""
import itertools

import distances
import timetable


def unbeaten(pairs):
    """Of pairs (time, figure) those that no other comes before in both."""
    out = []
    for time, figure in sorted(pairs):
        if not out or figure < out[-1][1]:
            out.append((time, figure))
    return out


def best_mosaic(sheet):
    ready, n = timetable.ready_times(sheet), len(sheet.strips)
    pairs = [[(0, 0)]] + [[] for _ in range(n)]
    for done in range(n):
        mounted, work, weights = [(free + sheet.mount, figure) for free, figure in unbeaten(pairs[done])], 0, 0
        for last in range(done, n):
            _, bench, weight = sheet.strips[last]
            work, weights = work + bench, weights + weight
            finishes = [(max(time, ready[last]) + work, figure) for time, figure in mounted]
            pairs[last + 1] += [(finish, figure + weights * finish) for finish, figure in finishes]
    return min(figure for _, figure in pairs[n])


def unbeaten_rows(rows):
    """Of rows (figure, list, three free times) those that no other beats: one that comes before by figure and list and has no later free time."""
    out = []
    for row in sorted(rows):
        _, _, a, b, c = row
        if not any(x <= a and y <= b and z <= c for _, _, x, y, z in out):
            out.append(row)
    return out


def scan_sums(queue):
    return [0] + list(itertools.accumulate(scan for scan, _, _ in queue))


def rows_behind(rows, desk, scanned, time, weight, soonest):
    """The rows once a strip of the desk (1 to 3) is scanned. A desk is not needed before its next strip's scan can end."""
    out = set()
    for figure, desks, *free in rows:
        finish = max(free[desk - 1], scanned) + time
        free[desk - 1] = finish
        out.add((figure + weight * finish, desks + bytes([desk]), *[max(at, need) if need else 0 for at, need in zip(free, soonest)]))
    return out


def best_sorting(sheet):
    """The least figure and the scanner list that is due, a byte for each desk number."""
    queues = [sheet.queue(desk) for desk in (1, 2, 3)]
    sums = [scan_sums(queue) for queue in queues]
    rows = {}
    for taken in itertools.product(*[range(len(queue) + 1) for queue in queues]):
        scanned = sum(sums[d][k] for d, k in enumerate(taken))
        soonest = [scanned + queue[k][0] if k < len(queue) else None for queue, k in zip(queues, taken)]
        found = set() if any(taken) else {(0, b"", 0, 0, 0)}
        for d, k in enumerate(taken):
            if k:
                before = taken[:d] + (k - 1,) + taken[d + 1:]
                found |= rows_behind(rows[before], d + 1, scanned, *queues[d][k - 1][1:], soonest)
        rows[taken] = unbeaten_rows(found)
    return rows[tuple(map(len, queues))][0][:2]


def too_close(blocks, starts, turn):
    """The first and the second pass of two blocks without a turn between them, as (block of the second, block of the first), or None."""
    for i, (_, second) in enumerate(starts):
        for j in range(i + 1, len(blocks)):
            first = starts[j][0]
            if first < second + blocks[i][-1] + turn and second < first + blocks[j][0] + turn:
                return i, j
    return None


def kinds_in_turn(blocks, turn):
    """The distances where first passes take the blocks in turn, and second passes too, and each block's first pass comes before its second."""
    far = distances.of_blocks(blocks)
    for i in range(len(blocks)):
        far = distances.ask_passes(far, blocks, (i, 0), (i, 1), turn)
    for i, kind in itertools.product(range(len(blocks) - 1), (0, 1)):
        far = distances.ask_passes(far, blocks, (i, kind), (i + 1, kind), turn)
    return far


def best_free_flight(blocks, turn):
    """The least figure, or None where every branch ends without a timetable."""
    best, waiting = None, [kinds_in_turn(blocks, turn)]
    while waiting:
        far = waiting.pop()
        if far is None:
            continue
        starts = distances.least(far)
        end = distances.end(blocks, starts)
        if best is not None and end >= best:
            continue
        pair = too_close(blocks, starts, turn)
        if pair is None:
            best = end
            continue
        i, j = pair
        waiting.append(distances.ask_passes(far, blocks, (i, 1), (j, 0), turn))
        waiting.append(distances.ask_passes(far, blocks, (j, 0), (i, 1), turn))
    return best


def best_flight(sheet):
    """The least figure, or None where the flight is impossible."""
    if sheet.order is None:
        return best_free_flight(sheet.blocks, sheet.turn)
    far = distances.in_order(sheet.blocks, sheet.order, sheet.turn)
    return None if far is None else distances.end(sheet.blocks, distances.least(far))


def best(sheet):
    """The least figure of each section, 0 for an absent one, None for a flight that is impossible; and the scanner list, empty without a sorting."""
    sorting, desks = best_sorting(sheet) if sheet.jobs else (0, b"")
    return (best_mosaic(sheet) if sheet.strips else 0, sorting, best_flight(sheet) if sheet.blocks else 0), desks
