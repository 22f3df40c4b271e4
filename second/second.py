#!/usr/bin/env python3
"""A second planner, judge and page that shares no code with the first, run beside it.

    second.py HARNESS [COUNT] [SEED]

runs all cases through the program HARNESS (harness.c over the exported functions) and compares. COUNT sets how many cases are drawn from SEED. The first
difference ends the run with status 1 and is printed with the seed and the case.

    reader.py      sheets, read and checked
    timetable.py   the rules: times of a choice, figures, plan bytes; distances.py: the flight's
    best.py        the least figures of sections of any size, and the scanner list that is due
    brute.py       the same of small sections, by trying everything
    judge.py       the judge; page.py: the page
    tiny.py        every tiny sheet and plan of bounded kinds
    values.py      values at the ends of their ranges and beyond them; lengths.py: fields of other lengths than those that are due
    mounts.py      mosaics whose mounts start before their strips are ready, and their plans
    weights.py     strips with weights, and their plans
    turns.py       flights with a turn, and their plans; windows.py: flights with windows, and their plans
    longest.py     the longest sections, and their plans up to the ceiling
    sheets.py      sheets that are drawn; plans.py: plans with idle time, and with faults; pages.py: plans that are printed
    kinds.py       all cases
    compare.py     what is due in each case, and whether an answer is that
    wrong.py       shows that every wrong program of wrong.txt is found; model/ is the right one that they are made from
"""
import sys

import compare
import kinds

COUNT, SEED = 4000, 1987


def compare_all(program, count, seed):
    """The number of calls of each kind."""
    calls = {}
    for name, first, chunk in kinds.chunks(count, seed):
        difference = compare.first_difference(chunk, compare.answers(program, chunk))
        if difference:
            index, fault = difference
            sys.exit("differs: %s\nseed %d, count %d, %s, case %d\n%s" % (fault, seed, count, name, first + index, chunk[index].shown()))
        calls[name] = calls.get(name, 0) + sum(case.calls for case in chunk)
    return calls


def main(program, count=COUNT, seed=SEED):
    calls = compare_all(program, int(count), int(seed))
    for name, number in calls.items():
        print("%7d  %s" % (number, name))
    print("%7d  calls agree, seed %s" % (sum(calls.values()), seed))


if __name__ == "__main__":
    main(*sys.argv[1:])
