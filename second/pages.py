"""Plans that are printed: a sheet, a plan and the length of the page buffer.

The same for every seed:
- every number of lines of the page buffer up to one past the longest page, and one byte less and more, with an allowed plan, a broken one, an untrue one,
  one of a wrong layout, and a sheet that is refused;
- every row of none to two plan fields, for sheets with one member a section; every row of none to two fields of a sheet, and sheets with every number of
  members, with one plan;
- every change of one bit of a plan for a sheet with all three sections, and every beginning of it;
- sections with one member at times of one to eight digits, 40 strips in one batch there, whose figure has nine, and a full page;
- the allowed plans of the longest sections.

Drawn: plans with idle time, of least figures, at the ceiling, with faults and for damaged sheets, and pairs of allowed plans of one sheet: one plan twice,
two that differ in few numbers, two of other choices.
"""
import copy
import itertools

import brute
import distances
import judge
import longest
import plans
import reader
import sheets
import timetable
import tiny
from page import LINE, ROOM
from timetable import CEILING


def buffers():
    """The lengths about the limit first."""
    plan = tiny.small_plan()
    untrue, broken, cut = plan[:3] + b"\xff" + plan[4:], plan[:-1] + b"\xff", plan[:-1]
    rooms = {max(0, LINE * lines + more) for lines in range(ROOM // LINE + 2) for more in (-1, 0, 1)}
    for room in sorted(rooms, key=lambda room: abs(room - ROOM)):
        yield from ((tiny.SMALL, other, room) for other in (plan, untrue, broken, cut))
        yield tiny.SMALL[:-1], plan, room


def plan_rows():
    fields = [*tiny.HEADS.values(), *tiny.MEMBERS.values(), tiny.REFUSAL]
    for sections, row in itertools.product(tiny.SETS, tiny.rows(fields, 0, 2)):
        yield b"".join(tiny.ONES[section] for section in sections), b"".join(row), ROOM


def sheet_rows():
    rows = map(b"".join, tiny.rows(tiny.FIELDS, 0, 2))
    return ((sheet, tiny.HEADS["m"] + tiny.MEMBERS["m"], ROOM) for sheet in itertools.chain(rows, tiny.counts()))


def changes():
    plan = tiny.small_plan()
    for at, bit in itertools.product(range(len(plan)), range(8)):
        yield tiny.SMALL, plan[:at] + bytes([plan[at] ^ 1 << bit]) + plan[at + 1:], ROOM
    yield from ((tiny.SMALL, beginning, ROOM) for beginning in tiny.beginnings(plan))


# A strip that is ready at 0, a strip of a desk and a block, each of the shortest times. A member with its start at t ends at t + 1, t + 2 and t + 2.
SHORTEST = {
    0x90: (sheets.mosaic_head(1, 0) + sheets.strip([0, 1]), lambda t: [[1, t, t + 1]]),
    0xA0: (sheets.sorting_head(1) + sheets.job(1, 1, 1), lambda t: [[1, 1, t, t + 1]]),
    0xB0: (sheets.flight([(1, 0, 1)]), lambda t: [[t, t + 1]]),
}


def one_member(sheet, tag, members):
    """The plan of a sheet with one section."""
    head = [plans.figure_of(reader.read(sheet), tag, members)] + ([0b10] if tag == 0xB0 else [])
    return timetable.Plan([(tag, head, members)], None).bytes()


def digits():
    """Starts about every power of ten, and about the ceiling."""
    for start in sorted({max(0, 10 ** power + more) for power in range(8) for more in (-3, -2, -1, 0, 1)}):
        for tag, (sheet, members) in SHORTEST.items():
            yield sheet, one_member(sheet, tag, members(start)), ROOM
    for start in (0, 1, CEILING // 4, CEILING - 41, CEILING - 40, CEILING - 39):
        yield (sheet := sheets.mosaic_head(1, 0) + sheets.strip([0, 1]) * 40), one_member(sheet, 0x90, [[40, start, start + 40]]), ROOM


def full_page():
    """All 93 lines, in buffers about their length."""
    sheet = sheets.longest_planned()
    parsed = reader.read(sheet)
    starts = timetable.passes_of(parsed.blocks, range(0, 64, 2))
    plan = timetable.plan_of(parsed, timetable.batches_of(parsed, range(1, 41)), timetable.jobs_of(parsed, [1, 2, 3] * 6), parsed.order, starts).bytes()
    return ((sheet, plan, room) for room in (0, ROOM - LINE, ROOM - 1, ROOM, ROOM + 1, ROOM + LINE, 65536))


def longest_plans():
    return ((sheet, plan.bytes(), ROOM) for sheet, plan, place in longest.judged() if place is None)


def fixed():
    for kind in (digits, full_page, buffers, plan_rows, sheet_rows, changes, longest_plans):
        yield from kind()


def any_room(rng):
    return rng.choice((ROOM, ROOM, ROOM + 1, rng.randint(ROOM, 2 * ROOM)))


def small_room(rng):
    return rng.choice((0, ROOM - 1, rng.randrange(ROOM)))


def drawn(rng, sheet):
    """A plan with idle time, the same with some faults of meaning, damaged, and for a damaged sheet; at the ceiling or behind it; in too small a buffer."""
    parsed = reader.read(sheet)
    plan = plans.idle_plan(rng, parsed)
    yield sheet, plan.bytes(), any_room(rng)
    for fault in rng.sample(plans.FAULTS, 4):
        yield sheet, plans.with_fault(rng, parsed, plan, fault), any_room(rng)
    yield sheet, plans.damaged(rng, plan.bytes()), any_room(rng)
    yield plans.damaged(rng, sheet), plan.bytes(), any_room(rng)
    yield sheet, rng.choice((plan.bytes(), plans.damaged(rng, plan.bytes()))), small_room(rng)
    plans.move_to_ceiling(rng, parsed, plan, rng.choice((0, 0, 1)))
    yield sheet, plan.bytes(), any_room(rng)


def best(sheet):
    """A plan of least figures of a small sheet, where its flight is possible."""
    plan = brute.best_plan(reader.read(sheet))
    return [(sheet, plan.bytes(), ROOM)] if plan else []


def changed(rng, sheet, plan):
    """The plan with one time, one member or all members from one on so much earlier or later, and the figure and order of the members then."""
    plan = copy.deepcopy(plan)
    tag, head, members = rng.choice(plan.sections)
    first, by = rng.randrange(len(members)), rng.choice((-1, 1, 1)) * 10 ** rng.randrange(6)
    if rng.random() < 0.5:
        members[first][rng.choice(plans.TIMES[tag])] += by
    else:
        plans.shift(tag, members[first:rng.choice((first + 1, None))], by)
    head[0] = plans.figure_of(sheet, tag, members)
    if tag == 0xB0:
        head[1] = distances.order_of(members)
    return plan


def nearby(rng, sheet, plan):
    """The first allowed plan of some that differ in few numbers, or the plan itself."""
    others = (changed(rng, sheet, plan) for _ in range(20))
    return next((other for other in others if judge.judge_plan(sheet, other.bytes())[0] == 0), plan)


def pairs(rng, sheet):
    """Pairs of allowed plans, where the flight is possible."""
    parsed = reader.read(sheet)
    plan, other = plans.idle_plan(rng, parsed), plans.idle_plan(rng, parsed)
    if plans.lawful(parsed, plan):
        yield sheet, plan.bytes(), rng.choice((plan, other)).bytes()
        yield sheet, plan.bytes(), nearby(rng, parsed, plan).bytes()
