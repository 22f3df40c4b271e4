#!/usr/bin/env python3
"""Wrong planners, judges and pages, and that the second program finds every one.

    wrong.py [COUNT] [SEED]

builds the model (model/), a right planner, judge and page in plain C, and every wrong program of wrong.txt. All cases that second.py has (kinds.py) go through
the model, which must agree, and through each wrong program until it differs. Ends with status 1 where the model differs or a wrong program does not.
"""
import concurrent.futures
import os
import pathlib
import subprocess
import sys
import tempfile

import compare
import kinds
from second import COUNT, SEED

HERE = pathlib.Path(__file__).resolve().parent
GCC = ["gcc", "-O1", "-I" + str(HERE.parent / "include"), "-I" + str(HERE / "model")]
STRICT = ["-Wall", "-Wextra", "-Werror"]


def read_table(text):
    """Name, line and changed line of each wrong program."""
    lines = [line for line in text.splitlines() if line and not line.startswith("#")]
    table = list(zip(lines[0::3], lines[1::3], lines[2::3]))
    for name, old, new in table:
        if len(lines) % 3 or old[:2] != "- " or new[:2] != "+ ":
            sys.exit("wrong.txt: %s: a name, a line '- ..' and a line '+ ..' are due" % name)
    return [(name, old[2:], new[2:]) for name, old, new in table]


def changed(sources, name, old, new):
    """The file that holds the line, and its text with the line changed."""
    found = [path for path, text in sources.items() for line in text.splitlines() if line.strip() == old]
    if len(found) != 1:
        sys.exit("wrong.txt: %s: its line stands %d times in the model" % (name, len(found)))
    lines = [new if line.strip() == old else line for line in sources[found[0]].splitlines()]
    return found[0], "\n".join(lines) + "\n"


def compile_c(source, to, options=()):
    subprocess.run([*GCC, *options, "-c", "-o", to, source], check=True)
    return to


def link(objects, to):
    subprocess.run(["gcc", "-o", to, *objects], check=True)
    return to


def build(folder, table):
    """The model's program, and the program of each wrong one by its name."""
    sources = {path: path.read_text() for path in sorted((HERE / "model").glob("*.c"))}
    harness = compile_c(HERE / "harness.c", folder / "harness.o", STRICT)
    objects = {path: compile_c(path, folder / (path.stem + ".o"), STRICT) for path in sources}
    model = link([harness, *objects.values()], folder / "model")

    def build_wrong(number):
        path, text = changed(sources, *table[number])
        source = folder / ("wrong%d.c" % number)
        source.write_text(text)
        others = [harness] + [objects[other] for other in sources if other != path]
        return link(others + [compile_c(source, source.with_suffix(".o"))], source.with_suffix(""))

    with concurrent.futures.ThreadPoolExecutor(os.cpu_count()) as pool:
        programs = list(pool.map(build_wrong, range(len(table))))
    return model, dict(zip((name for name, _, _ in table), programs))


def run_chunk(chunk, where, model, wrong):
    """Runs some cases; takes what is found out of `wrong` and prints it. An answer that is the model's needs no second look."""
    right = compare.answers(model, chunk)
    difference = compare.first_difference(chunk, right)
    if difference:
        sys.exit("the model differs: %s\n%s\n%s" % (difference[1], where, chunk[difference[0]].shown()))
    for name, program in list(wrong.items()):
        others = [pair for pair, answer in zip(zip(chunk, compare.answers(program, chunk)), right) if pair[1] != answer]
        difference = compare.first_difference(*zip(*others)) if others else None
        if difference:
            print("found: %s (%s: %s)" % (name, where, difference[1]))
            del wrong[name]


def main(count=COUNT, seed=SEED):
    calls, table = 0, read_table((HERE / "wrong.txt").read_text())
    with tempfile.TemporaryDirectory() as folder:
        model, wrong = build(pathlib.Path(folder), table)
        for name, _, chunk in kinds.chunks(int(count), int(seed)):
            run_chunk(chunk, "seed %s, %s" % (seed, name), model, wrong)
            calls += sum(case.calls for case in chunk)
    print("%d calls agree with the model, %d of %d wrong programs found" % (calls, len(table) - len(wrong), len(table)))
    if wrong:
        sys.exit("not found: " + ", ".join(wrong))


if __name__ == "__main__":
    main(*sys.argv[1:])
