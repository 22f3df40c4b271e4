"""Least distances between the passes of a flight.

A block is (first pass, delay, second pass) or (first pass, shortest delay, longest delay, second pass): a delay alone is the shortest and the longest. A pass
is (block, 0 or 1 for the second). "This pass ends a turn before that one starts" says that one pass starts at least so much after another, and so does each
end of a window: the second pass starts at least the first pass and the shortest delay after the first, and the first at most the first pass and the longest
delay before the second. `far[p][q]` is the most that the rules asked so far say of that kind: pass q starts at least far[p][q] after pass p, the passes
counted block by block. A new rule is followed through all pairs at once; no rounds are needed.
"""
import functools

NONE = float("-inf")


def shortest(block):
    return block[1]


def longest(block):
    return block[-2]


def ask(far, before, after, gap):
    """The distances once one pass also starts at least gap after another, or None where no timetable does all that is asked."""
    if far is None:
        return None
    p, q = index(before), index(after)
    if far[q][p] + gap > 0:
        return None
    beyond = [(r, more) for r, more in enumerate(far[q]) if more != NONE]
    return [farther(row, row[p] + gap, beyond) if row[p] + gap > row[q] else row for row in far]


def index(one):
    """Of a pass."""
    return 2 * one[0] + one[1]


def farther(row, reached, beyond):
    """A row of distances once a pass is so far away, from which others are farther."""
    row = row[:]
    for r, more in beyond:
        if row[r] < reached + more:
            row[r] = reached + more
    return row


def of_blocks(blocks):
    """The distances of blocks of which nothing is asked but that each delay lies in its window."""
    count = 2 * len(blocks)
    far = [[0 if p == q else NONE for q in range(count)] for p in range(count)]
    for i, block in enumerate(blocks):
        far[2 * i][2 * i + 1] = block[0] + shortest(block)
        far[2 * i + 1][2 * i] = -block[0] - longest(block)
    return far


def ask_passes(far, blocks, before, after, turn):
    """The distances once one pass ends a turn before another one starts."""
    i, second = before
    return ask(far, before, after, blocks[i][-1 if second else 0] + turn)


def passes_in(n, order):
    """The passes of an order."""
    taken, out = [0, 0], []
    for k in range(2 * n):
        kind = order >> k & 1
        out.append((taken[kind], kind))
        taken[kind] += 1
    return out


@functools.lru_cache(maxsize=256)
def in_order_of(blocks, order, turn):
    """The distances of an order, once for each row of blocks."""
    far, passes = of_blocks(blocks), passes_in(len(blocks), order)
    for before, after in zip(passes, passes[1:]):
        far = ask_passes(far, blocks, before, after, turn)
    return far


def in_order(blocks, order, turn):
    """The distances of an order, or None where no timetable keeps it."""
    return in_order_of(tuple(map(tuple, blocks)), order, turn)


def least(far, earliest=None):
    """The least starts, [first, second] of each block, none before its entry in `earliest`, which is 0 for all where it is not given."""
    times = [0] * len(far) if earliest is None else [time for pair in earliest for time in pair]
    starts = [max(time + row[q] for time, row in zip(times, far)) for q in range(len(far))]
    return [list(pair) for pair in zip(starts[0::2], starts[1::2])]


def end(blocks, starts):
    return max(second + block[-1] for (_, second), block in zip(starts, blocks))


def order_of(starts):
    """The order in which the passes start."""
    passes = [(first, 0) for first, _ in starts] + [(second, 1) for _, second in starts]
    return sum(kind << k for k, (_, kind) in enumerate(sorted(passes)))
