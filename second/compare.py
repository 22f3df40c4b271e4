"""Cases, and their comparison with what a program answers. The program is harness.c over the exported functions.

A planning call is compared by value: number, place, length, every byte of the plan, and every other byte of the buffer and of the bytes behind it. Which of
several best batchings and which of several best free pass orders the plan takes is left to the program; the scanner list is not. A judging call is compared
by its five numbers. A page call is compared by number, place, length and every byte of the buffer and behind it; of two pages of one sheet it is also asked
whether they are equal exactly where the plans are. Of a call for a sheet with a turn of 0, with windows of one value or with weights of 1 it is asked whether
it answers as with an empty flight head, with blocks of one delay or without these weights.
"""
import functools
import itertools
import struct
import subprocess

import best
import brute
import distances
import judge
import page
import reader
import timetable

ROOM = 1103
BEHIND = 16
FILL = b"\xA5"

# The numbers whose place is in the plan.
PLAN_NUMBERS = (12, 13, 14)


def plan_due(sheet, desks, plan):
    """The plan with this scanner list that takes the same batches and pass order as an allowed one and starts everything as early as they allow."""
    places = {tag: members for tag, _, members in judge.parts_of(sheet, plan)[0]}
    batches = timetable.batches_of(sheet, [plan[at + 3] for at in places[0x90]]) if sheet.strips else []
    jobs = timetable.jobs_of(sheet, desks) if sheet.jobs else []
    order, starts = None, []
    if sheet.blocks:
        order = judge.number(plan, places[0xB0][0] - 8, 8)
        starts = distances.least(distances.in_order(sheet.blocks, order, sheet.turn))
    return timetable.plan_of(sheet, batches, jobs, order, starts).bytes()


def impossible(sheet, flight):
    """Whether 11 is due, the least figure of the flight being this one. A flight without order is also asked whether the delays say the same: the longest
    of some block is shorter than the turn."""
    if sheet.blocks and sheet.order is None:
        shorter = any(distances.longest(block) < sheet.turn for block in sheet.blocks)
        assert (flight is None) == shorter and brute.possible(sheet) != shorter, "the second program's own methods differ on 11"
    return flight is None


def scanner_list(sheet, plan):
    """The desk numbers of an allowed plan's sorting, a byte for each; none without a sorting."""
    return bytes(plan[at + 3] for tag, _, members in judge.parts_of(sheet, plan)[0] if tag == 0xA0 for at in members)


class PlanCase:
    """A sheet to be planned into a buffer of `room` bytes; `least` gives the figures and the scanner list due for a sound sheet."""

    calls = 1

    def __init__(self, sheet, room=ROOM, least=best.best):
        self.sheet, self.room, self.least = sheet, room, least

    def request(self):
        return b"P" + struct.pack("<I", len(self.sheet)) + self.sheet + struct.pack("<I", self.room)

    def answer_length(self):
        return 24 + self.room + BEHIND

    @functools.cached_property
    def due(self):
        """Number and place of the refusal, or 0 and 0; for a sheet that is sound but for 11, what it says, its figures and its scanner list."""
        if self.room < ROOM:
            return (2, 0), None
        try:
            sheet = reader.read(self.sheet)
        except reader.Refused as refused:
            return (refused.number, refused.place), None
        figures, desks = self.least(sheet)
        place = sheet.flight_at if sheet.order is None else sheet.order_at
        return ((11, place) if impossible(sheet, figures[2]) else (0, 0)), (sheet, figures, desks)

    def fault(self, answer):
        """What is wrong with the answer, or None."""
        (number, place, length), buffer = struct.unpack_from("<3Q", answer), answer[24:]
        refusal, sound = self.due
        if (number, place) != refusal:
            return "number %d and place %d were due, not %d and %d" % (*refusal, number, place)
        if number and length:
            return "length 0 was due, not %d" % length
        if buffer[length:] != FILL * (len(buffer) - length):
            return "a byte that is no part of a plan was written"
        return None if number else self.plan_fault(*sound, buffer[:length])

    def plan_fault(self, sheet, figures, desks, plan):
        verdict = judge.judge_plan(sheet, plan)
        if verdict[0]:
            return "the plan is not allowed: %d at %d" % verdict[:2]
        if verdict[2:] != figures:
            return "figures %s were due, not %s" % (figures, verdict[2:])
        if scanner_list(sheet, plan) != desks:
            return "the scanner list %s was due, not %s" % (desks.hex(" "), scanner_list(sheet, plan).hex(" "))
        return None if plan == plan_due(sheet, desks, plan) else "a start is later than it need be"

    def shown(self):
        return "sheet %s\nplan buffer of %d bytes" % (self.sheet.hex(), self.room)


class JudgeCase:
    """A plan to be judged for a sheet."""

    calls = 1

    def __init__(self, sheet, plan):
        self.sheet, self.plan = sheet, plan

    def request(self):
        return b"J" + struct.pack("<I", len(self.sheet)) + self.sheet + struct.pack("<I", len(self.plan)) + self.plan

    def answer_length(self):
        return 40

    @functools.cached_property
    def due(self):
        return judge.judge(self.sheet, self.plan)

    def fault(self, answer):
        numbers = struct.unpack("<5Q", answer)
        return None if numbers == self.due else "%s was due, not %s" % (self.due, numbers)

    def shown(self):
        return "sheet %s\nplan %s" % (self.sheet.hex(), self.plan.hex())


class AllowedCase(JudgeCase):
    """A plan that must be allowed."""

    @functools.cached_property
    def due(self):
        verdict = judge.judge(self.sheet, self.plan)
        assert verdict[:2] == (0, 0), "the second program turns its own plan back: %s\n%s" % (verdict, self.shown())
        return verdict


class BrokenCase(JudgeCase):
    """A plan that must be turned back at this place with this number: 12, 13 or 14."""

    def __init__(self, sheet, plan, place, number=13):
        super().__init__(sheet, plan)
        self.number, self.place = number, place

    @functools.cached_property
    def due(self):
        verdict = judge.judge(self.sheet, self.plan)
        assert verdict[:2] == (self.number, self.place), "the second program judges its own plan otherwise: %s\n%s" % (verdict, self.shown())
        return verdict


class PageCase:
    """A plan to be printed for a sheet, into a page buffer of `room` bytes."""

    calls = 1

    def __init__(self, sheet, plan, room=page.ROOM):
        self.sheet, self.plan, self.room = sheet, plan, room

    def request(self):
        parts = (b"W", struct.pack("<I", len(self.sheet)), self.sheet, struct.pack("<I", len(self.plan)), self.plan, struct.pack("<I", self.room))
        return b"".join(parts)

    def answer_length(self):
        return 24 + self.room + BEHIND

    @functools.cached_property
    def due(self):
        return page.printed(self.sheet, self.plan, self.room)

    def fault(self, answer):
        numbers, buffer = struct.unpack_from("<3Q", answer), answer[24:]
        number, place, lines = self.due
        if numbers != (number, place, len(lines)):
            return "number %d, place %d and length %d were due, not %d, %d and %d" % (number, place, len(lines), *numbers)
        for at in range(0, len(lines), page.LINE):
            if buffer[at:at + page.LINE] != lines[at:at + page.LINE]:
                return "the line %s was due, not %s" % (lines[at:at + page.LINE], buffer[at:at + page.LINE])
        return None if buffer[len(lines):] == FILL * (len(buffer) - len(lines)) else "a byte that is no part of a page was written"

    def shown(self):
        return "sheet %s\nplan %s\npage buffer of %d bytes" % (self.sheet.hex(), self.plan.hex(), self.room)


class PagesCase:
    """Two allowed plans of one sheet, both printed: the pages must be equal exactly where the plans' bytes are."""

    calls = 2

    def __init__(self, sheet, plan, other):
        self.pages = PageCase(sheet, plan), PageCase(sheet, other)

    def request(self):
        return b"".join(one.request() for one in self.pages)

    def answer_length(self):
        return sum(one.answer_length() for one in self.pages)

    def fault(self, answer):
        one, other = self.pages
        assert one.due[0] == other.due[0] == 0, "the second program turns its own plan back\n%s" % self.shown()
        first, second = answer[:one.answer_length()], answer[one.answer_length():]
        if (first == second) != (one.plan == other.plan):
            return "two plans are equal and their pages are not, or the pages are and the plans are not"
        return one.fault(first) or other.fault(second)

    def shown(self):
        return "\n".join(one.shown() for one in self.pages)


class SameCase:
    """One call for two sheets that mean the same. The fields at these places of the first are so many bytes longer in the other: a flight head with a turn of 0
    for an empty one, a window of one value for a delay, a strip with the weight 1 for one without a weight. The answers must be the same but for places in the
    sheet, which are so much higher for each such field before them."""

    calls = 2

    def __init__(self, one, other, longer, by):
        self.both, self.longer, self.by = (one, other), longer, by

    def request(self):
        return b"".join(one.request() for one in self.both)

    def answer_length(self):
        return sum(one.answer_length() for one in self.both)

    def fault(self, answer):
        first, second = self.both
        one, other = answer[:first.answer_length()], answer[first.answer_length():]
        number, place = struct.unpack_from("<2Q", one)
        higher = 0 if number in PLAN_NUMBERS else self.by * sum(place > longer for longer in self.longer)
        if other != struct.pack("<2Q", number, place + higher) + one[16:]:
            return "two sheets that mean the same give different answers"
        return first.fault(one) or second.fault(other)

    def shown(self):
        return "\n".join(one.shown() for one in self.both)


def answers(program, cases):
    """What the program answers to each case. Where it does not end well, its last answer is cut and those it did not come to are empty."""
    done = subprocess.run([program], input=b"".join(case.request() for case in cases), stdout=subprocess.PIPE)
    out = done.stdout if done.returncode == 0 else done.stdout[:-1]
    ends = list(itertools.accumulate((case.answer_length() for case in cases), initial=0))
    return [out[start:end] for start, end in zip(ends, ends[1:])]


def first_difference(cases, found):
    """The index and the fault of the first answer that is otherwise than is due, or None."""
    for index, (case, answer) in enumerate(zip(cases, found)):
        fault = case.fault(answer) if len(answer) == case.answer_length() else "the program did not end well"
        if fault:
            return index, fault
    return None
