#!/usr/bin/env python3
"""Compares docs/FORMAT.md with the code that gives the length due for a field (02, Req 05).

Of the table of fields: each length is the sum of the bytes of its content; where the last number may be left out, which is so where its row says what that
means, the sum without it "or" the sum. Of the table of lengths: its rows are those of the table of fields, 11 once for each station count, and two for what has
no length: 11 with any other count, and any other tag; its cases are those of `length_due`, in their order, and give its lengths.
Ends with status 1 and the first difference.
"""
import pathlib
import re
import sys

ROOT = pathlib.Path(__file__).resolve().parent.parent
FORMAT = (ROOT / "docs/FORMAT.md").read_text()
CODE = (ROOT / "crates/sheet_lengths/src/lib.rt").read_text()
TAGS = (ROOT / "crates/sheet/src/tags.rt").read_text()
STATIONS = (1, 2, 3, 4)


def same(what, one, other):
    if one != other:
        sys.exit("%s:\n  %s\n  %s" % (what, one, other))


def table(columns):
    """The rows of the table of docs/FORMAT.md with these columns."""
    head = "| %s |\n" % " | ".join(columns)
    if FORMAT.count(head) != 1:
        sys.exit("docs/FORMAT.md: the table with the columns %s stands %d times" % (", ".join(columns), FORMAT.count(head)))
    lines = FORMAT.split(head)[1].splitlines()[1:]
    end = next(k for k, line in enumerate(lines) if not line.startswith("|"))
    return [[cell.strip() for cell in line.strip("|").split("|")] for line in lines[:end]]


def fields():
    """Of each field: its tag, its length in words, and each number of its content with its bytes in words and whether it may be left out."""
    found = []
    for tag, _, length, content, width, _ in table(["tag", "field", "length", "content", "bytes", "range"]):
        if tag:
            found.append((tag, length, []))
        if width:
            found[-1][2].append((content.split(",")[0].split(";")[0], width, " means " in content))
    return found


def with_stations(tag, length, content, m):
    """The length, and the content with the bytes of its numbers, of a field with m stations."""
    always, last = [], []
    for name, width, left_out in content:
        if width == "2 each":
            name, width = "%d station time%s" % (m, "s" if m > 1 else ""), 2 * m
        (last if left_out else always).append((name, int(width)))
    sums = [sum(width for _, width in numbers) for numbers in (always, always + last)]
    due = " or ".join(map(str, sums if last else sums[:1]))
    same("tag %s: its length and the sum of its bytes" % tag, re.sub(r"2 m \+ (\d)", lambda k: str(2 * m + int(k[1])), length), due)
    return due, in_words(always, last)


def in_words(always, last):
    """The content of a field: the numbers that it always has, and the one that it may have behind them."""
    joined = lambda numbers: " + ".join("%s (%d)" % number for number in numbers)
    if not last:
        return joined(always)
    return "%s, or these + %s" % (joined(always), joined(last)) if always else "nothing, or " + joined(last)


def lengths_of_fields():
    """The rows of the table of lengths by the table of fields, without their cases."""
    for tag, length, content in fields():
        by_stations = "2 m" in length
        for m in STATIONS if by_stations else [0]:
            due, words = with_stations(tag, length, content, m)
            yield tag, str(m or ""), words, due
        if by_stations:
            yield tag, "other", "none: a head has 1 to 4 stations", "none"
    yield "other", "", "none: the tag is not in the table", "none"


def cases_of_code():
    """The cases of `length_due`, in their order: the tag, the station count, and the case."""
    names = dict(re.findall(r"pub const (\w+): u8 = 0x([0-9a-f]{2});", TAGS))
    body = CODE.split("    match tag {\n")[1].split("\n    }\n")[0]
    within = None
    for line in map(str.strip, body.splitlines()):
        if line == "},":
            within = None
            continue
        pattern, answer = line.split(" => ")
        if answer == "match stations {":
            within = names[pattern]
        elif within:
            yield within, "other" if pattern == "_" else pattern, line
        else:
            yield "other" if pattern == "_" else names[pattern], "", line


def answer(length):
    """The answer of the case that gives a length of the table."""
    if length == "none":
        return "LengthDue::None"
    if " or " in length:
        return "LengthDue::Either(%s)" % length.replace(" or ", ", ")
    return "LengthDue::Bytes(%s)" % length


def main():
    rows = [tuple(row) for row in table(["tag", "stations", "content", "length", "case"])]
    same("docs/FORMAT.md: rows of lengths, and rows by the table of fields", [row[:4] for row in rows], list(lengths_of_fields()))
    same("docs/FORMAT.md: cases, and cases of the code", [(tag, m, case.strip("`")) for tag, m, _, _, case in rows], list(cases_of_code()))
    for tag, m, _, length, case in rows:
        same("tag %s %s: length and case" % (tag, m), answer(length), case.strip("`").split(" => ")[1].removesuffix(","))
    print("%d lengths of docs/FORMAT.md are those of the code" % len(rows))


if __name__ == "__main__":
    main()
