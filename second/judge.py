"""The judge by the rules: what the exported judge must answer, number, place and the three figures."""
import distances
import reader
import timetable
from timetable import CEILING

SECTIONS = ((0x90, 8, 9), (0xA0, 8, 10), (0xB0, 12, 8))

# The bytes of the figure, with which a head begins.
FIGURES = {0x90: 8, 0xA0: 8, 0xB0: 4}


def number(data, at, width=4):
    return int.from_bytes(data[at:at + width], "little")


def is_field(plan, at, tag, size):
    return len(plan) - at >= 3 and plan[at] == tag and reader.word(plan, at + 1) == size and len(plan) - at - 3 >= size


def stated_figure(plan, tag, head):
    """The figure that a head states."""
    return number(plan, head + 3, FIGURES[tag])


def parts_of(sheet, plan):
    """The head's place and the members' places of each section, and None or the place of 12."""
    at, parts = 0, []
    for (tag, head, member), members in zip(SECTIONS, (sheet.strips, sheet.jobs, sheet.blocks)):
        if members is None:
            continue
        if not is_field(plan, at, tag, head):
            return parts, at
        places, start = [], at
        at += 3 + head
        while is_field(plan, at, tag + 1, member):
            places.append(at)
            at += 3 + member
        parts.append((tag, start, places))
    return parts, None if at == len(plan) else at


def judge_mosaic(sheet, plan, head, places):
    """The place of 13 or None, and the figure."""
    ready, done, free, figure = timetable.ready_times(sheet), 0, 0, 0
    for at in places:
        last, start, finish = plan[at + 3], number(plan, at + 4), number(plan, at + 8)
        if not done < last <= len(sheet.strips) or start < free or finish > CEILING:
            return at, 0
        bench_start = finish - sum(bench for _, bench, _ in sheet.strips[done:last])
        if bench_start != max(start + sheet.mount, ready[last - 1]):
            return at, 0
        figure += sum(weight for _, _, weight in sheet.strips[done:last]) * finish
        done, free = last, finish
    return (None if done == len(sheet.strips) else head), figure


def judge_sorting(sheet, plan, head, places):
    queues = {desk: sheet.queue(desk) for desk in range(1, sheet.desks + 1)}
    done, free, scanner, figure = dict.fromkeys(queues, 0), dict.fromkeys(queues, 0), 0, 0
    for at in places:
        desk, strip, start, begin = plan[at + 3], plan[at + 4], number(plan, at + 5), number(plan, at + 9)
        if desk not in queues or strip != done[desk] + 1 or strip > len(queues[desk]):
            return at, 0
        scan, time, weight = queues[desk][strip - 1]
        if start < scanner or begin < start + scan or begin < free[desk] or begin + time > CEILING:
            return at, 0
        done[desk], free[desk], scanner = strip, begin + time, start + scan
        figure += weight * (begin + time)
    return (None if all(done[desk] == len(queues[desk]) for desk in queues) else head), figure


def order_kept(blocks, starts, order, turn):
    """Whether the passes, taken by start, come in the order, each at least a turn after the one before has ended."""
    free = 0
    for i, second in distances.passes_in(len(blocks), order):
        if starts[i][second] < free:
            return False
        free = starts[i][second] + blocks[i][-1 if second else 0] + turn
    return True


def judge_flight(sheet, plan, head, places):
    blocks, starts = sheet.blocks, []
    for at in places:
        first, second = number(plan, at + 3), number(plan, at + 7)
        if len(starts) == len(blocks):
            return at, 0
        block = blocks[len(starts)]
        if not distances.shortest(block) <= second - first - block[0] <= distances.longest(block) or second + block[-1] > CEILING:
            return at, 0
        starts.append((first, second))
    order = number(plan, head + 7, 8)
    if len(starts) < len(blocks) or not reader.proper(len(blocks), order) or sheet.order not in (None, order):
        return head, 0
    if not order_kept(blocks, starts, order, sheet.turn):
        return head, 0
    return None, distances.end(blocks, starts)


JUDGES = {0x90: judge_mosaic, 0xA0: judge_sorting, 0xB0: judge_flight}


def judge_plan(sheet, plan):
    """The answer for a sound sheet."""
    parts, wrong = parts_of(sheet, plan)
    if wrong is not None:
        return (12, wrong, 0, 0, 0)
    figures = dict.fromkeys(JUDGES, 0)
    for tag, head, places in parts:
        fault, figures[tag] = JUDGES[tag](sheet, plan, head, places)
        if fault is not None:
            return (13, fault, 0, 0, 0)
        if figures[tag] != stated_figure(plan, tag, head):
            return (14, head, 0, 0, 0)
    return (0, 0, *figures.values())


def judge(data, plan):
    try:
        return judge_plan(reader.read(data), plan)
    except reader.Refused as refused:
        return (refused.number, refused.place, 0, 0, 0)
