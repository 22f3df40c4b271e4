#!/usr/bin/env python3
"""Writes a page of the crates, layer by layer from bytes to C, from crates.txt, and checks who rests on whom.

In crates.txt a line `## NAME: what it is` begins a layer; lower layers come first. A crate may rest on crates of its own and of lower layers alone.
Neither the judge nor the planner rests on a crate of the other, directly or through others; nor do the page and the programs that judge or print
rest on a crate of the planner.

    layers.py           writes docs/CRATES.md
    layers.py --check   fails where docs/CRATES.md is not what would be written, or where a crate rests on what it must not
"""
import pathlib
import re
import sys

ROOT = pathlib.Path(__file__).resolve().parent.parent
PAGE = ROOT / "docs/CRATES.md"
APART = ("The judge", "The planner")

# What else must have no part of the planner beneath it: a layer, and programs.
NO_PLANNER = ("The page",)
NO_PLANNER_PROGRAMS = ("judge_plan", "judge_cases", "print_page")

HEAD = """# The crates

Layers from bytes to C. A crate rests only on crates of its own layer and of layers above it in this page, and neither the judge nor the planner rests on
a crate of the other; no part of the planner is beneath the page or the programs that judge or print. One line a crate: what it is, and the crates that it rests on. Written by tests/layers.py from crates.txt and from the first sentence of each crate, and checked by it.
"""


def read():
    """The layers, as (name, what it is, crates), and the crates that each crate rests on. Libraries that come with the language are left out."""
    layers, rests = [], {}
    for line in (ROOT / "crates.txt").read_text().splitlines():
        layer = re.match(r"## ([^:]+): (.+)$", line)
        crate = re.match(r"(\w+)(?: staticlib)?:(.*)$", line)
        if layer:
            layers.append((layer.group(1), layer.group(2), []))
        elif crate:
            if not layers:
                raise SystemExit("crates.txt: %s stands in no layer" % crate.group(1))
            layers[-1][2].append(crate.group(1))
            rests[crate.group(1)] = crate.group(2).split()
    return layers, {crate: [name for name in names if name in rests] for crate, names in rests.items()}


def reached(crate, rests):
    """Every crate that a crate rests on, directly or through others."""
    seen, todo = set(), list(rests[crate])
    while todo:
        name = todo.pop()
        if name not in seen:
            seen.add(name)
            todo += rests[name]
    return seen


def faults(layers, rests):
    """Where a crate rests on what it must not."""
    level = {crate: k for k, (_, _, crates) in enumerate(layers) for crate in crates}
    apart = {name: set(crates) for name, _, crates in layers if name in APART}
    if set(apart) != set(APART):
        yield "crates.txt: there is no layer %s" % " or no layer ".join(sorted(set(APART) - set(apart)))
    for crate in rests:
        for name in rests[crate]:
            if level[name] > level[crate]:
                yield "%s rests on %s of an upper layer" % (crate, name)
        for one, other in (APART, APART[::-1]):
            if crate in apart.get(one, ()):
                for name in sorted(reached(crate, rests) & apart.get(other, set())):
                    yield "%s rests on %s: the judge and the planner must not rest on each other" % (crate, name)
    free = {crate for name, _, crates in layers if name in NO_PLANNER for crate in crates} | set(NO_PLANNER_PROGRAMS)
    for crate in sorted(free):
        for name in sorted(reached(crate, rests) & apart.get("The planner", set())):
            yield "%s rests on %s: no part of the planner must be beneath it" % (crate, name)


def purpose(crate):
    """The first sentence of a crate, which says what it is."""
    for file in ("lib.rt", "main.rt"):
        path = ROOT / "crates" / crate / "src" / file
        if path.is_file():
            head = re.match(r"(?://[^\n]*\n)*", path.read_text()).group()
            return re.sub(r"\s*\n?//\s*", " ", head).strip().split(". ")[0].rstrip(".")
    raise SystemExit("%s has no source" % crate)


def page(layers, rests):
    lines = [HEAD]
    for name, what, crates in layers:
        lines += ["## %s" % name, "", what[0].upper() + what[1:], "", "| crate | what it is | rests on |", "|---|---|---|"]
        lines += ["| `%s` | %s | %s |" % (crate, purpose(crate), ", ".join(rests[crate]) or "nothing") for crate in crates]
        lines.append("")
    return "\n".join(lines)


def main(check):
    layers, rests = read()
    wrong = list(faults(layers, rests))
    drawn = page(layers, rests)
    if not check:
        PAGE.write_text(drawn)
    elif not PAGE.is_file() or PAGE.read_text() != drawn:
        wrong.append("docs/CRATES.md is not what crates.txt says: run tests/layers.py")
    print("\n".join(wrong + ["%d crates in %d layers, %d wrong" % (len(rests), len(layers), len(wrong))]))
    sys.exit(1 if wrong else 0)


if __name__ == "__main__":
    main("--check" in sys.argv[1:])
