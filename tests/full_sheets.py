#!/usr/bin/env python3
"""Writes full sheets into a folder: 40 strips of four stations, six strips of each of three desks, and 8 blocks without order or 32 with one, without and with
a turn, with exact delays and with windows, without and with weights; the times are drawn, or all of them are the greatest.

    full_sheets.py FOLDER
"""
import pathlib
import random
import sys

from sheet_cases import LONG, LONG_TURN, LONGEST, MOST_TIME, MOST_TURN, MOST_WEIGHT, alternate, block, flight, job, mosaic, order, sorting, strip, window

rng = random.Random(1)


def time(least):
    return rng.randint(least, MOST_TIME)


def drawn_window(turn):
    """A window block whose longest delay is not below the turn."""
    shortest = time(0)
    return window(time(1), shortest, time(max(shortest, turn)), time(1))


def full(blocks, turn=None, windows=False, weighted=False):
    """A sheet in which no longest delay is below the turn."""
    weight = lambda: rng.randint(1, MOST_WEIGHT) if weighted else None
    strips = [strip(time(0), time(0), time(0), time(0), time(1), weight=weight()) for _ in range(40)]
    jobs = [job(desk, time(1), time(1), weight()) for _ in range(6) for desk in (1, 2, 3)]
    flown = [drawn_window(turn or 0) if windows else block(time(1), time(turn or 0), time(1)) for _ in range(blocks)]
    return b"".join([mosaic(4, time(0)), *strips, sorting(3), *jobs, flight(turn), *flown])


if __name__ == "__main__":
    folder = pathlib.Path(sys.argv[1])
    (folder / "full_free.sheet").write_bytes(full(8))
    (folder / "full_order.sheet").write_bytes(full(32) + order(alternate(32)))
    (folder / "full_longest.sheet").write_bytes(LONG)
    (folder / "full_free_turn.sheet").write_bytes(full(8, MOST_TURN))
    (folder / "full_order_turn.sheet").write_bytes(full(32, MOST_TURN) + order(alternate(32)))
    (folder / "full_longest_turn.sheet").write_bytes(LONG_TURN)
    (folder / "full_free_windows.sheet").write_bytes(full(8, windows=True))
    (folder / "full_order_windows.sheet").write_bytes(full(32, windows=True) + order(alternate(32)))
    (folder / "full_free_windows_turn.sheet").write_bytes(full(8, MOST_TURN, windows=True))
    (folder / "full_order_windows_turn.sheet").write_bytes(full(32, MOST_TURN, windows=True) + order(alternate(32)))
    (folder / "full_free_weights.sheet").write_bytes(full(8, weighted=True))
    (folder / "full_order_weights.sheet").write_bytes(full(32, MOST_TURN, windows=True, weighted=True) + order(alternate(32)))
    (folder / "full_longest_windows.sheet").write_bytes(LONGEST)
