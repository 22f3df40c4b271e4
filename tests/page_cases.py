#!/usr/bin/env python3
"""Prints plans with the program print_page and through the function for C, and compares: pages, refusals, and what a page buffer holds afterwards.

The pages of the worked plans stand here as text. The larger ones are compared with `lines_of`, and every plan and sheet that judge_cases.py and sheet_cases.py
turn back must get the same number and place, the page untouched.

    page_cases.py PRINTER FUNCTION        FUNCTION is tests/page.c over the function for C
"""
import itertools
import pathlib
import subprocess
import sys
import tempfile

import judge_cases as judged
import sheet_cases as sheets
from judge_cases import CEILING, HEAD, batches, four, jobs, passes
from sheet_cases import MOST_TIME, MOST_TURN, block, field, flight, job, mosaic, order, sorting, strip, window, word

LEAST_ROOM = 3069
FILL, BEHIND = b"\xA5", 16
SMALL_ROOMS = [0, 1, 32, 33, 1103, LEAST_ROOM - 33, LEAST_ROOM - 1]
ROOMS = [LEAST_ROOM, LEAST_ROOM + 1, LEAST_ROOM + 33, 65536]

PAGES = []
REFUSED = []


def printed(name, sheet, plan, *lines):
    PAGES.append((name, sheet, plan, "".join(line + "\n" for line in lines).encode()))


def refused(name, sheet, plan, number, place):
    REFUSED.append((name, sheet, plan, number, place))


def number_at(data, at, length):
    return int.from_bytes(data[at:at + length], "little")


# The letter of each field of a plan, and of each column of its line the width, and the offset and length in bytes of the number there: a length of 0 is for
# the member's own number, None for blanks.
FIELDS = {
    0x90: ("m", [(31, 0, 8)]),
    0x91: ("M", [(3, 0, 0), (4, 0, 1), (12, 1, 4), (12, 5, 4)]),
    0xA0: ("s", [(31, 0, 8)]),
    0xA1: ("S", [(3, 0, 1), (4, 1, 1), (12, 2, 4), (12, 6, 4)]),
    0xB0: ("f", [(31, 0, 4)]),
    0xB1: ("F", [(3, 0, 0), (4, 0, None), (12, 0, 4), (12, 4, 4)]),
}


def lines_of(plan):
    """The page of an allowed plan."""
    at, member, page = 0, 0, ""
    while at < len(plan):
        letter, columns = FIELDS[plan[at]]
        member = 0 if letter.islower() else member + 1
        page += letter
        for width, offset, length in columns:
            text = "" if length is None else str(number_at(plan, at + 3 + offset, length) if length else member)
            page += " " * (width - len(text)) + text
        page += "\n"
        at += 3 + number_at(plan, at + 1, 2)
    return page.encode()


# Each section alone, all three, and two of them.
MOSAIC_LINES = [
    "m                             32",
    "M  1   1           0           3",
    "M  2   2           3           7",
    "M  3   3           7          10",
    "M  4   4          10          12",
]
SORTING_LINES = [
    "s                             10",
    "S  2   1           0           1",
    "S  1   1           1           3",
]
FLIGHT_LINES = [
    "f                              5",
    "F  1               0           3",
    "F  2               1           4",
]
JOBS = jobs(10, (2, 1, 0, 1), (1, 1, 1, 3))
PASSES = passes(5, 0xC, (0, 3), (1, 4))
printed("a mosaic", judged.M, judged.BEST, *MOSAIC_LINES)
printed("a sorting", judged.S, JOBS, *SORTING_LINES)
printed("a flight", judged.F, PASSES, *FLIGHT_LINES)
printed("all three sections", judged.ALL, judged.PLAN, *MOSAIC_LINES, *SORTING_LINES, *FLIGHT_LINES)
printed("mosaic and sorting", judged.M + judged.S, judged.BEST + JOBS, *MOSAIC_LINES, *SORTING_LINES)
printed("mosaic and flight", judged.M + judged.F, judged.BEST + PASSES, *MOSAIC_LINES, *FLIGHT_LINES)
printed("sorting and flight", judged.S + judged.F, JOBS + PASSES, *SORTING_LINES, *FLIGHT_LINES)

# The batch's number is not that of its last strip; a desk's strips are not numbered as they are scanned.
printed(
    "batches 1, 2-3, 4", judged.M, batches(41, (1, 0, 3), (3, 3, 12), (4, 12, 14)),
    "m                             41",
    "M  1   1           0           3",
    "M  2   3           3          12",
    "M  3   4          12          14",
)
printed(
    "three strips, two desks", judged.THREE, jobs(17, *judged.JOBS),
    "s                             17",
    "S  1   1           0           1",
    "S  2   1           1           2",
    "S  1   2           2           6",
)
printed(
    "000's eight blocks", judged.E + order(0xF2C4), passes(30, 0xF2C4, *judged.EIGHT),
    "f                             30",
    "F  1               0           7",
    "F  2               6          14",
    "F  3               8          17",
    "F  4               9          20",
    "F  5              12          23",
    "F  6              19          24",
    "F  7              21          27",
    "F  8              22          29",
)
# The start of each mount is printed, and not that of the bench work. Plans of one sheet with the same finishes and other starts have other pages.
printed(
    "the earliest mounts", judged.WAITED, batches(43, *judged.EARLIEST),
    "m                             43",
    "M  1   1           0           8",
    "M  2   2           8          11",
    "M  3   3          11          24",
)
printed(
    "the latest mounts for the same finishes", judged.WAITED, batches(43, (1, 3, 8), (2, 8, 11), (3, 18, 24)),
    "m                             43",
    "M  1   1           3           8",
    "M  2   2           8          11",
    "M  3   3          18          24",
)
printed(
    "later mounts", judged.WAITED, batches(49, (1, 4, 9), (2, 12, 15), (3, 19, 25)),
    "m                             49",
    "M  1   1           4           9",
    "M  2   2          12          15",
    "M  3   3          19          25",
)
printed(
    "batches 1, 2-3, 4, later mounts", judged.M, batches(45, (1, 2, 4), (3, 7, 13), (4, 13, 15)),
    "m                             45",
    "M  1   1           2           4",
    "M  2   3           7          13",
    "M  3   4          13          15",
)
printed(
    "mounts ahead beside two sections", judged.WAITED + judged.S + judged.F, batches(43, *judged.EARLIEST) + JOBS + PASSES,
    "m                             43",
    "M  1   1           0           8",
    "M  2   2           8          11",
    "M  3   3          11          24",
    *SORTING_LINES,
    *FLIGHT_LINES,
)
printed(
    "a mount from 0 on, the strip ready at 60,000", mosaic(1, 1) + strip(MOST_TIME, 1), batches(60001, (1, 0, 60001)),
    "m                          60001",
    "M  1   1           0       60001",
)
# The turn is not printed: only the starts show it.
printed(
    "two blocks and a turn", judged.TURNED, passes(10, 0xC, (0, 6), (3, 9)),
    "f                             10",
    "F  1               0           6",
    "F  2               3           9",
)
printed(
    "the longest delay and the longest turn", flight(MOST_TURN) + block(1, MOST_TIME, 1) * 2, passes(60603, 0xC, (0, 60001), (601, 60602)),
    "f                          60603",
    "F  1               0       60001",
    "F  2             601       60602",
)
# Nor is the window: the starts show the delay that is flown. Two plans of one sheet with other delays have other pages.
printed(
    "a window and an exact delay, order C", judged.WIDE + order(0xC), passes(8, 0xC, (0, 2), (1, 7)),
    "f                              8",
    "F  1               0           2",
    "F  2               1           7",
)
printed(
    "the same with the longest delay", judged.WIDE + order(0xC), passes(8, 0xC, (0, 4), (1, 7)),
    "f                              8",
    "F  1               0           4",
    "F  2               1           7",
)
printed(
    "a window and an exact delay behind two sections", judged.M + judged.S + judged.WIDE, judged.BEFORE + passes(9, 0xA, (0, 1), (2, 8)),
    *MOSAIC_LINES,
    *SORTING_LINES,
    "f                              9",
    "F  1               0           1",
    "F  2               2           8",
)
printed(
    "the widest window, flown at its longest delay, and the longest turn",
    flight(MOST_TURN) + window(1, 0, MOST_TIME, 1), passes(60002, 2, (0, 60001)),
    "f                          60002",
    "F  1               0       60001",
)

# Nor is a weight: the figure shows it.
printed(
    "a heavy strip first", judged.URGENT, jobs(25, (1, 1, 0, 2), (2, 1, 2, 3)),
    "s                             25",
    "S  1   1           0           2",
    "S  2   1           2           3",
)
printed(
    "a heavy strip last", judged.URGENT, jobs(26, (2, 1, 0, 1), (1, 1, 1, 3)),
    "s                             26",
    "S  2   1           0           1",
    "S  1   1           1           3",
)
printed(
    "strips with and without weights", judged.MIXED_STRIPS, batches(124, *judged.FOUR),
    "m                            124",
    *MOSAIC_LINES[1:],
)
printed(
    "all three sections with weights", judged.HEAVY_ALL, judged.HEAVY_PLAN(161, 25, 5),
    "m                            161",
    *MOSAIC_LINES[1:],
    "s                             25",
    "S  1   1           0           2",
    "S  2   1           2           3",
    *FLIGHT_LINES,
)

# Numbers of one digit and of eight; figures of nine digits to eleven.
printed(
    "a batch from 0 to 1", mosaic(1, 0) + strip(0, 1), batches(1, (1, 0, 1)),
    "m                              1",
    "M  1   1           0           1",
)
printed(
    "a finish at the ceiling", judged.M, batches(4 * CEILING, (4, CEILING - 8, CEILING)),
    "m                       40000000",
    "M  1   4     9999992    10000000",
)
printed(
    "40 strips in a batch up to the ceiling", mosaic(1, 0) + strip(0, 1) * 40, batches(40 * CEILING, (40, CEILING - 40, CEILING)),
    "m                      400000000",
    "M  1  40     9999960    10000000",
)
printed(
    "40 strips of weight 100 in a batch up to the ceiling", judged.FORTY, batches(4000 * CEILING, (40, CEILING - 40, CEILING)),
    "m                    40000000000",
    "M  1  40     9999960    10000000",
)
printed(
    "ten strips of weight 100 in a batch up to the ceiling", judged.HUNDREDS(9, 100), batches(1000 * CEILING, (10, CEILING - 10, CEILING)),
    "m                    10000000000",
    "M  1  10     9999990    10000000",
)
printed(
    "a strip of weight 100 up to the ceiling", mosaic(1, 0) + strip(0, 1, weight=100), batches(100 * CEILING, (1, CEILING - 1, CEILING)),
    "m                     1000000000",
    "M  1   1     9999999    10000000",
)
printed(
    "a figure one below 2^32", judged.HUNDREDS(7, 71), batches(2**32 - 1, (8, 5570637, 5570645)),
    "m                     4294967295",
    "M  1   8     5570637     5570645",
)
printed(
    "a figure of 2^32", judged.HUNDREDS(5, 12), batches(2**32, (6, 8388602, 8388608)),
    "m                     4294967296",
    "M  1   6     8388602     8388608",
)
printed(
    "a strip of a desk of weight 100 up to the ceiling", sorting() + job(1, 1, 1, 100), jobs(100 * CEILING, (1, 1, 0, CEILING - 1)),
    "s                     1000000000",
    "S  1   1           0     9999999",
)
printed(
    "a desk that finishes at the ceiling", sorting() + job(1, 1, 1), jobs(CEILING, (1, 1, 0, CEILING - 1)),
    "s                       10000000",
    "S  1   1           0     9999999",
)
printed(
    "a pass that ends at the ceiling", judged.ONE, passes(CEILING, 2, (CEILING - 2, CEILING - 1)),
    "f                       10000000",
    "F  1         9999998     9999999",
)
for digits in range(1, 8):
    start = int("123456789"[:digits])
    printed(
        "a batch that starts at %d" % start, mosaic(1, 0) + strip(0, 1), batches(start + 1, (1, start, start + 1)),
        "m" + " " * (31 - digits) + "123456789"[:digits - 1] + str(digits + 1),
        "M  1   1" + " " * (12 - digits) + "123456789"[:digits] + " " * (12 - digits) + "123456789"[:digits - 1] + str(digits + 1),
    )

# judge_cases.py has 40 batches, 18 strips and 32 blocks alone and together: the longest sections. Some of the 93 lines of all three.
SOME_LINES = {
    0: "m                       98400000",
    1: "M  1   1           0      120000",
    10: "M 10  10     1080000     1200000",
    40: "M 40  40     4680000     4800000",
    41: "s                       11340000",
    42: "S  1   1           0       60000",
    59: "S  3   6     1020000     1080000",
    60: "f                        5760000",
    61: "F  1               0      120000",
    92: "F 32         5580000     5700000",
}

# Every plan that is judged, and every sheet that is turned back. judge_cases.py has 6, 15, 16 and 17 of a sheet beside plans that are 12, 13 and 14.
for name, sheet, plan, line in judged.CASES + judged.LARGE:
    number, place = map(int, line.split()[:2])
    if number == 0:
        PAGES.append((name, sheet, plan, lines_of(plan)))
    else:
        refused(name, sheet, plan, number, place)
for name, sheet, line in sheets.CASES + sheets.LARGE:
    number, place = map(int, line.split()[:2])
    if number != 0:
        refused(name, sheet, judged.PLAN, number, place)
refused("a plan with an order that is impossible", judged.A + order(0xC), passes(9, 0xA, (0, 1), (2, 8)), 13, 0)
refused("a plan with a mount before the batch before finishes", judged.M, batches(32, judged.FOUR[0], (2, 2, 7)) + judged.BEST[HEAD + 24:], 13, HEAD + 12)
for finish in (7, 9):
    refused("a plan with a batch that finishes at %d and not at 8" % finish, judged.WAITED, batches(43, (1, 0, finish), *judged.EARLIEST[1:]), 13, HEAD)
refused("a plan with a turn that is too short", judged.TURNED, passes(9, 0xC, (0, 6), (2, 8)), 13, 0)
for name, delay, figure in [("below", 2, 5), ("above", 7, 10)]:
    refused("a plan with a delay %s its window" % name, flight() + judged.SOME, passes(figure, 2, (0, 2 + delay)), 13, 15)
refused("a plan for a sheet with 17", judged.WIDE + window(1, 5, 4, 1), passes(8, 0xC, (0, 2), (1, 7)), 17, len(judged.WIDE))

# The program takes the first 65,536 bytes of each file, the function all of them: (sheet, plan, by the program, by the function).
MEMBER = judged.BEST[-12:]
LONG_FILES = [
    ("a field of the sheet past the bytes that are taken", field(0x10, bytes(65535)), judged.PLAN, (3, 0), (5, 0)),
    ("a window block past the bytes that are taken", flight() + field(0x33, bytes(65535)), judged.PLAN, (3, 3), (5, 3)),
    ("a window block up to the last byte that is taken", flight() + field(0x33, bytes(65530)), judged.PLAN, (5, 3), (5, 3)),
    ("a member past the bytes that are taken", judged.M, judged.BEST + MEMBER * 5457, (12, HEAD + 12 * 5460), (13, len(judged.BEST))),
]

wrong = []


def compare(what, found, due):
    if found != due:
        wrong.append("%s\n  due   %r\n  found %r" % (what, due, found))


def compare_bytes(what, found, due):
    """Bytes that may be many: shown are those about the first difference."""
    if found == due:
        return
    at = next((at for at, pair in enumerate(zip(found, due)) if pair[0] != pair[1]), min(len(found), len(due)))
    compare("%s: byte %d of %d" % (what, at, len(due)), found[max(0, at - 33):at + 33], due[max(0, at - 33):at + 33])


def refusal(number, place):
    return field(0xE0, word(number) + four(place))


def run(folder, program, sheet, plan, rooms=()):
    """What a program writes for a sheet and a plan."""
    names = [folder / "sheet", folder / "plan"]
    for name, content in zip(names, (sheet, plan)):
        name.write_bytes(content)
    return subprocess.run([program, *names, *map(str, rooms)], stdout=subprocess.PIPE, check=True).stdout


def answer(number, place, page, room):
    """What tests/page.c writes for one length."""
    return b"%d %d %d\n" % (number, place, len(page)) + page + FILL * (room + BEHIND - len(page))


def compare_call(folder, program, name, sheet, plan, number, place, page):
    """The function with buffers that are too small, 2 whatever the sheet and the plan, and with larger ones."""
    found, at = run(folder, program, sheet, plan, SMALL_ROOMS + ROOMS), 0
    for room in SMALL_ROOMS + ROOMS:
        due = answer(2, 0, b"", room) if room < LEAST_ROOM else answer(number, place, page, room)
        compare_bytes("%s: a page buffer of %d bytes" % (name, room), found[at:at + len(due)], due)
        at += len(due)
    compare("%s: bytes behind the last answer" % name, found[at:], b"")


def compare_pairs():
    """Of two allowed plans for one sheet the pages are equal exactly when the plans are. The pages due stand for those printed, which equal them."""
    pairs = [(one, other) for one, other in itertools.combinations(PAGES, 2) if one[1] == other[1]]
    for one, other in pairs:
        compare("%s and %s: equal pages" % (one[0], other[0]), one[3] == other[3], one[2] == other[2])
    return len(pairs)


def main(printer, function):
    with tempfile.TemporaryDirectory() as name:
        folder = pathlib.Path(name)
        for name, sheet, plan, page in PAGES:
            compare_bytes("%s: the page" % name, run(folder, printer, sheet, plan), page)
            compare("%s: lines of 32 columns" % name, {len(line) for line in page.split(b"\n")[:-1]}, {32})
            compare_call(folder, function, name, sheet, plan, 0, 0, page)
        for name, sheet, plan, number, place in REFUSED:
            compare("%s: the refusal" % name, run(folder, printer, sheet, plan), refusal(number, place))
            compare_call(folder, function, name, sheet, plan, number, place, b"")
        for name, sheet, plan, by_program, by_function in LONG_FILES:
            compare("%s: the program" % name, run(folder, printer, sheet, plan), refusal(*by_program))
            compare_call(folder, function, name, sheet, plan, *by_function, b"")
    lines = lines_of(judged.LONG_PLAN).decode().splitlines()
    compare("the longest page", (len(lines), {at: lines[at] for at in SOME_LINES}), (93, SOME_LINES))
    numbers = sorted({number for _, _, _, number, _ in REFUSED})
    compare("the numbers that are tried", numbers, [*range(3, 11), *range(12, 18)])
    pairs = compare_pairs()
    for line in wrong:
        print(line)
    print("%d pages printed and %d plans refused by %s, %d pairs of pages, %d wrong" % (len(PAGES), len(REFUSED) + len(LONG_FILES), printer, pairs, len(wrong)))
    sys.exit(1 if wrong else 0)


if __name__ == "__main__":
    main(*sys.argv[1:])
