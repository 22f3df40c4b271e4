"""Plans for the judge: lawful ones with random choices and idle time, and the same with faults.

A fault of meaning keeps the layout and changes numbers, or adds, drops or exchanges members or sections; a fault of bytes changes the bytes blindly.
"""
import copy

import distances
import timetable
from reader import MOST_TIME
from timetable import CEILING


def random_lasts(rng, n):
    """Last strips of a random batching of few or many batches."""
    chance = rng.choice((0.1, 0.5, 0.9))
    return [k for k in range(1, n) if rng.random() < chance] + [n]


def random_list(rng, sheet):
    desks = [desk for desk, *_ in sheet.jobs]
    rng.shuffle(desks)
    return desks


def random_order(rng, n):
    """A proper order number of n blocks."""
    order = firsts = seconds = 0
    for k in range(2 * n):
        if seconds < firsts and (firsts == n or rng.random() < 0.5):
            order |= 1 << k
            seconds += 1
        else:
            firsts += 1
    return order


def spans_of(blocks, firsts):
    """Start and end of every pass of the blocks that are placed."""
    pairs = timetable.passes_of(blocks, firsts)
    return [(start, start + time) for (first, second), block in zip(pairs, blocks) for start, time in ((first, block[0]), (second, block[-1]))]


def first_fit(blocks, firsts, start, turn):
    """The earliest time from `start` on at which the next block, with its shortest delay, follows the blocks placed and is a turn away from their passes."""
    block, spans, moved = blocks[len(firsts)], [(begin - turn, end + turn) for begin, end in spans_of(blocks, firsts)], True
    gap = block[0] + distances.shortest(block)
    if spans:
        start = max(start, spans[-2][1], spans[-1][1] - gap)
    while moved:
        ends = [end for begin, end in spans if begin < start + block[0] and start < end]
        ends += [end - gap for begin, end in spans if begin < start + gap + block[-1] and start + gap < end]
        moved = bool(ends)
        start = max(ends, default=start)
    return start


def with_one_delay(rng, block, turn):
    """The block with one delay of its window, no shorter than the turn where there is such a one: the shortest, the longest or any."""
    longest = distances.longest(block)
    shortest = min(longest, max(distances.shortest(block), turn))
    return block[0], rng.choice((shortest, longest, rng.randint(shortest, longest))), block[-1]


def random_starts(rng, blocks, turn):
    """Starts of a timetable in some order, with or without idle time, lawful where no longest delay is shorter than the turn."""
    blocks, most, firsts = [with_one_delay(rng, block, turn) for block in blocks], rng.choice((0, 0, 3, 30, MOST_TIME)), []
    for _ in blocks:
        firsts.append(first_fit(blocks, firsts, (firsts[-1] if firsts else 0) + rng.randint(0, most), turn))
    return timetable.passes_of(blocks, firsts)


def waiting_starts(rng, blocks, order, turn):
    """Starts that keep an order, some passes made to wait, or None where the order is impossible."""
    far, most = distances.in_order(blocks, order, turn), rng.choice((0, 3, 100, MOST_TIME))
    return far and distances.least(far, [(rng.choice((0, rng.randint(0, most))), rng.choice((0, rng.randint(0, most)))) for _ in blocks])


def random_flight(rng, sheet):
    """Order number and starts: the given order, or a random one; where that is impossible, the order of a random timetable."""
    order = random_order(rng, len(sheet.blocks)) if sheet.order is None else sheet.order
    starts = waiting_starts(rng, sheet.blocks, order, sheet.turn)
    if starts is None:
        starts = random_starts(rng, sheet.blocks, sheet.turn)
        order = distances.order_of(starts)
    return order, starts


def idle_plan(rng, sheet):
    """A plan with idle time that is lawful unless the flight is impossible: then its flight keeps another order than the given one, or has a turn too short."""
    most = rng.choice((0, 1, 20, 5000, MOST_TIME))

    def wait():
        return rng.choice((0, rng.randint(0, most)))

    batches = timetable.batches_of(sheet, random_lasts(rng, len(sheet.strips)), wait) if sheet.strips else []
    jobs = timetable.jobs_of(sheet, random_list(rng, sheet), wait) if sheet.jobs else []
    order, starts = random_flight(rng, sheet) if sheet.blocks else (None, [])
    return timetable.plan_of(sheet, batches, jobs, order, starts)


def lawful(sheet, plan):
    """Whether a plan with idle time is lawful."""
    return not sheet.blocks or sheet.order in (None, plan.order) and all(distances.longest(block) >= sheet.turn for block in sheet.blocks)


# The places of the times in a member.
TIMES = {0x90: (1, 2), 0xA0: (2, 3), 0xB0: (0, 1)}


def figure_of(sheet, tag, members):
    if tag == 0x90:
        return timetable.mosaic_figure(sheet, members)
    if tag == 0xA0:
        return timetable.sorting_figure(sheet, members)
    return distances.end(sheet.blocks, members)


def last_end(sheet, tag, members):
    if tag == 0x90:
        return members[-1][2]
    if tag == 0xA0:
        return max(begin + sheet.queue(desk)[number - 1][1] for desk, number, _, begin in members)
    return figure_of(sheet, tag, members)


def shift(tag, members, by):
    """Moves members; the figure stays."""
    for member in members:
        for column in TIMES[tag]:
            member[column] += by


def mount_late(sheet, tag, members, first):
    """In a mosaic, each mount from `first` on as late as its finish lets it be: then its start can be moved with its finish."""
    if tag == 0x90:
        members[first:] = timetable.latest_mounts(sheet, members)[first:]


def move_to_ceiling(rng, sheet, plan, over):
    """One section ends at the ceiling, or `over` behind it: all of it, or in mosaic and sorting its last members, are moved there."""
    tag, head, members = rng.choice(plan.sections)
    first = 0 if tag == 0xB0 else rng.randrange(len(members))
    mount_late(sheet, tag, members, first)
    shift(tag, members[first:], CEILING + over - last_end(sheet, tag, members[first:]))
    head[0] = figure_of(sheet, tag, members)


# Faults of meaning: each changes a plan. A mount may also start elsewhere without a fault.

def one_off(rng, sheet, plan):
    """One time of one member is one earlier or later."""
    tag, _, members = rng.choice(plan.sections)
    rng.choice(members)[rng.choice(TIMES[tag])] += rng.choice((-1, 1))


def member_moved(rng, sheet, plan):
    """All times of one member are one earlier or later, and the figure is that of the members then."""
    tag, head, members = rng.choice(plan.sections)
    shift(tag, [rng.choice(members)], rng.choice((-1, -1, 1)))
    head[0] = figure_of(sheet, tag, members)


def tail_moved(rng, sheet, plan):
    """All times from one member on are some earlier, and the figure is that of the members then."""
    tag, head, members = rng.choice(plan.sections)
    shift(tag, members[rng.randrange(len(members)):], -rng.choice((1, 1, 2, 5)))
    head[0] = figure_of(sheet, tag, members)


def any_batch(rng, plan):
    """The strips done and the finish before a batch, and the batch; None where there is no mosaic."""
    tag, _, members = plan.sections[0]
    if tag != 0x90:
        return None
    k = rng.randrange(len(members))
    done, _, free = members[k - 1] if k else (0, 0, 0)
    return done, free, members[k]


def mount_elsewhere(rng, sheet, plan):
    """One mount starts when the batch before finishes, as late as its finish lets it, or between, or one minute before or behind; the finish stays."""
    found = any_batch(rng, plan)
    if found:
        done, free, batch = found
        latest = max(free, batch[2] - timetable.bench_time(sheet, done, batch[0]) - sheet.mount)
        batch[1] = max(0, rng.choice((free - 1, free, rng.randint(free, latest), latest, latest + 1)))


def bench_too_soon(rng, sheet, plan):
    """One finish is as if the bench had not waited for the mount, for the last strip or for the other strips; the figure is that of the members then."""
    found = any_batch(rng, plan)
    if found:
        (done, _, batch), ready = found, timetable.ready_times(sheet)
        mounted, times = batch[1] + sheet.mount, ready[done:batch[0]]
        batch[2] = rng.choice((mounted, max(batch[1], times[-1]), max(mounted, times[0]))) + timetable.bench_time(sheet, done, batch[0])
        plan.sections[0][1][0] = timetable.mosaic_figure(sheet, plan.sections[0][2])


def exchanged(rng, sheet, plan):
    """Two members change places."""
    _, _, members = rng.choice(plan.sections)
    i, j = rng.randrange(len(members)), rng.randrange(len(members))
    members[i], members[j] = members[j], members[i]


def times_exchanged(rng, sheet, plan):
    """Two members change their times."""
    tag, _, members = rng.choice(plan.sections)
    one, other = rng.choice(members), rng.choice(members)
    for column in TIMES[tag]:
        one[column], other[column] = other[column], one[column]


def one_more(rng, sheet, plan):
    """A member too many, at any place or at the end: one that stands already, or zeros."""
    _, _, members = rng.choice(plan.sections)
    at, member = rng.randrange(len(members)), rng.choice(members)
    members.insert(rng.choice((at, len(members))), rng.choice((list(member), [0] * len(member))))


def one_less(rng, sheet, plan):
    """A member is missing."""
    _, _, members = rng.choice(plan.sections)
    members.pop(rng.randrange(len(members)))


def last_missing(rng, sheet, plan):
    """The last member is missing, and the figure is that of the others."""
    tag, head, members = rng.choice(plan.sections)
    members.pop()
    head[0] = figure_of(sheet, tag, members) if members else 0


def renumbered(rng, sheet, plan):
    """Another last strip, desk or strip number; in flight another time."""
    tag, _, members = rng.choice(plan.sections)
    member, column = rng.choice(members), rng.choice((0, 1)) if tag == 0xA0 else 0
    member[column] = rng.choice((0, member[column] - 1, member[column] + 1, 255))


def untrue(rng, sheet, plan):
    """A figure is off, also in its upper bytes, or 0."""
    _, head, _ = rng.choice(plan.sections)
    head[0] = rng.choice((head[0] - 1, head[0] + 1, head[0] + (1 << 24), head[0] + (1 << 32), head[0] ^ 1 << rng.randrange(64), 0))


def with_weights(sheet, change):
    """The sheet with the weights of the strips of the mosaic, and of those of each desk, changed together."""
    other = copy.copy(sheet)
    if sheet.strips:
        weights = change([weight for *_, weight in sheet.strips])
        other.strips = [(*one[:-1], weight) for one, weight in zip(sheet.strips, weights)]
    if sheet.jobs:
        weights = {desk: iter(change([weight for *_, weight in sheet.queue(desk)])) for desk in (1, 2, 3)}
        other.jobs = [(*one[:-1], next(weights[one[0]])) for one in sheet.jobs]
    return other


# Other weights of a row of strips: 1 for each, those of the neighbours, from the end, one more for one strip.
OTHER_WEIGHTS = (
    lambda weights: [1 for _ in weights],
    lambda weights: weights[1:] + weights[:1],
    lambda weights: weights[-1:] + weights[:-1],
    lambda weights: weights[::-1],
    lambda weights: [*weights[:-1], weights[-1] + 1] if weights else [],
    lambda weights: [weights[0] - 1, *weights[1:]] if weights else [],
    lambda weights: [max(weights, default=1) for _ in weights],
)


def other_weights(rng, sheet, plan):
    """The figure of a mosaic or a sorting is that with other weights."""
    tag, head, members = rng.choice(plan.sections)
    if tag != 0xB0:
        head[0] = figure_of(with_weights(sheet, rng.choice(OTHER_WEIGHTS)), tag, members)


def other_number(rng, sheet, plan):
    """The number of another order, or of none."""
    tag, head, members = plan.sections[-1]
    if tag == 0xB0:
        head[1] = rng.choice((random_order(rng, len(members)), head[1] ^ 1 << rng.randrange(64), head[1] ^ 3 << rng.randrange(63), 0))


def other_flight(rng, sheet, plan):
    """The flight in another order, lawful unless an order is given, and with that order's number."""
    tag, head, members = plan.sections[-1]
    if tag == 0xB0:
        members[:] = random_starts(rng, sheet.blocks, sheet.turn)
        head[:] = [distances.end(sheet.blocks, members), distances.order_of(members)]


def delay_at_an_end(rng, sheet, plan):
    """The delay of one block is an end of its window, or one beyond it; the figure is that of the members then."""
    tag, head, members = plan.sections[-1]
    if tag == 0xB0:
        i = rng.randrange(len(members))
        block = sheet.blocks[i]
        members[i][1] = members[i][0] + block[0] + rng.choice((distances.shortest(block) - rng.choice((0, 1)), distances.longest(block) + rng.choice((0, 1))))
        head[0] = figure_of(sheet, tag, members)


def turn_too_short(rng, sheet, plan):
    """The flight as early as its order allows with a turn one second shorter, or with none; the figure is that of the members then."""
    tag, head, members = plan.sections[-1]
    far = distances.in_order(sheet.blocks, head[1], rng.choice((0, max(0, sheet.turn - 1)))) if tag == 0xB0 else None
    if far:
        members[:] = distances.least(far)
        head[0] = distances.end(sheet.blocks, members)


def near_the_top(rng, sheet, plan):
    """A member's times stand just below the greatest number of four bytes, or pass it and lose their upper bits."""
    tag, _, members = rng.choice(plan.sections)
    member = rng.choice(members)
    shift(tag, [member], (1 << 32) - rng.choice((1, 2, member[TIMES[tag][1]], member[TIMES[tag][0]] + 1)))


def section_displaced(rng, sheet, plan):
    """A section is missing, stands first or stands first and last."""
    section, kind = plan.sections.pop(rng.randrange(len(plan.sections))), rng.choice(("missing", "first", "twice"))
    if kind != "missing":
        plan.sections.insert(0, section)
    if kind == "twice":
        plan.sections.append(section)


FAULTS = (
    one_off, member_moved, tail_moved, exchanged, times_exchanged, one_more, one_less, last_missing, renumbered, untrue, other_number, other_flight,
    turn_too_short, delay_at_an_end, near_the_top, section_displaced, mount_elsewhere, bench_too_soon, other_weights,
)


def with_fault(rng, sheet, plan, fault):
    """The bytes of the plan with a fault of meaning."""
    plan = copy.deepcopy(plan)
    fault(rng, sheet, plan)
    return plan.bytes()


def damaged(rng, data):
    """The bytes, of a sheet or a plan, with one to three blind faults."""
    out = bytearray(data)
    for _ in range(rng.randint(1, 3)):
        at, kind = rng.randrange(len(out) + 1), rng.choice(("set", "cut", "insert", "step", "repeat"))
        if kind == "set":
            out[at:at + 1] = [rng.choice((0, 1, 0x10, 0x20, 0x30, 0x31, 0x32, 0x91, 255, rng.randrange(256)))]
        elif kind == "cut":
            del out[at:]
        elif kind == "insert":
            out[at:at] = [rng.randrange(256)]
        elif kind == "step":
            out[at:at + 1] = [(byte + rng.choice((1, 255))) % 256 for byte in out[at:at + 1]]
        else:
            cut = rng.randrange(len(out) + 1)
            out[at:at] = out[cut:cut + rng.randint(1, 12)]
    return bytes(out)
