#!/usr/bin/env python3
"""Compares the files of examples/ and the worked sheets of docs/FORMAT.md with each other and with what the programs write.

Every .sheet has a .txt with its bytes, one field a line; a sheet whose .txt says that it is refused is refused with that number and place; every .plan is what
plan_sheet writes for its sheet and has a .page, which is what print_page writes for both; every .timetable is what the viewer prints, its page behind it;
the bytes of each file that docs/FORMAT.md shows, with their offsets, or the lines of a page, are those of the file; and mosaic is the first worked sheet.

    example_cases.py PLANNER PRINTER VIEWER
"""
import pathlib
import re
import subprocess
import sys

from program_cases import FIRST_PLAN, FIRST_SHEET

ROOT = pathlib.Path(__file__).resolve().parent.parent
EXAMPLES = ROOT / "examples"
REFUSED = re.compile(r"refused with (\d+) at place (\d+)")
FIELD = re.compile(r"[0-9A-F]{2}(?: [0-9A-F]{2})*")
SHOWN = re.compile(r"`examples/(\S+)`:")
SHOWN_FIELD = re.compile(r" +(\d+)  ([0-9A-F]{2}(?: [0-9A-F]{2})*)  ")
SHOWN_LINE = re.compile(r" {4}([msfMSF].{31})")

wrong = []


def compare(what, found, due):
    if found != due:
        wrong.append("%s\n  due   %r\n  found %r" % (what, due, found))


def fields(text):
    """The bytes of the lines that are a field in hexadecimal; other lines are words."""
    return bytes.fromhex("".join(line for line in text.splitlines() if FIELD.fullmatch(line)))


def field_lengths(sheet):
    """The length of each field with its tag and length."""
    at = 0
    while at < len(sheet):
        yield 3 + int.from_bytes(sheet[at + 1 : at + 3], "little")
        at += 3 + int.from_bytes(sheet[at + 1 : at + 3], "little")


def compare_sheets():
    texts = sorted(path.stem for path in EXAMPLES.glob("*.txt"))
    compare("a text for each sheet", texts, sorted(path.stem for path in EXAMPLES.glob("*.sheet")))
    for name in texts:
        sheet = (EXAMPLES / (name + ".sheet")).read_bytes()
        text = (EXAMPLES / (name + ".txt")).read_text()
        compare("%s.txt" % name, fields(text), sheet)
        lines = [line for line in text.splitlines() if FIELD.fullmatch(line)]
        compare("%s.txt: one field a line" % name, [len(bytes.fromhex(line)) for line in lines], list(field_lengths(sheet)))
    return len(texts)


def compare_refusals(written):
    """What plan_sheet writes for each sheet that its text calls refused."""
    paths = sorted(path for path in EXAMPLES.glob("*.txt") if REFUSED.search(path.read_text()))
    for path in paths:
        number, place = map(int, REFUSED.search(path.read_text()).groups())
        due = b"\xE0\x06\x00" + number.to_bytes(2, "little") + place.to_bytes(4, "little")
        compare("%s: the refusal" % path.name, written(path.with_suffix(".sheet")), due)
    return len(paths)


def compare_written(ending, written):
    """Each file of an ending with what a program writes for its sheet."""
    paths = sorted(EXAMPLES.glob("*" + ending))
    for path in paths:
        compare(path.name, written(path.with_suffix(".sheet")), path.read_bytes())
    return len(paths)


def shown_files():
    """The bytes of each file that docs/FORMAT.md shows, in fields or as a page. The offset of a field must be the number of bytes before it."""
    shown, name = {}, None
    for line in (ROOT / "docs" / "FORMAT.md").read_text().splitlines():
        if SHOWN.fullmatch(line):
            name = SHOWN.fullmatch(line).group(1)
            shown[name] = b""
        elif SHOWN_FIELD.match(line):
            offset, content = SHOWN_FIELD.match(line).groups()
            compare("docs/FORMAT.md: offset of %s in %s" % (content, name), int(offset), len(shown[name]))
            shown[name] += bytes.fromhex(content)
        elif name and name.endswith(".page") and SHOWN_LINE.fullmatch(line):
            shown[name] += SHOWN_LINE.fullmatch(line).group(1).encode() + b"\n"
    return shown


def compare_pages():
    """A page for each plan, and each page also at the end of its timetable."""
    compare("a page for each plan", sorted(path.stem for path in EXAMPLES.glob("*.page")), sorted(path.stem for path in EXAMPLES.glob("*.plan")))
    for path in EXAMPLES.glob("*.page"):
        page, timetable = path.read_bytes(), path.with_suffix(".timetable").read_bytes()
        compare("%s: the page in its timetable" % path.name, timetable[-len(page):], page)


def compare_first():
    """The first worked sheet, and its plan alone and before other sections."""
    for name in ("mosaic", "all_three"):
        for ending, due in [(".sheet", FIRST_SHEET), (".plan", FIRST_PLAN)]:
            compare("%s%s: the first worked sheet" % (name, ending), (EXAMPLES / (name + ending)).read_bytes()[:len(due)], due)


def main(planner, printer, viewer):
    planned = lambda sheet: subprocess.run([planner], stdin=open(sheet, "rb"), stdout=subprocess.PIPE).stdout
    sheets = compare_sheets()
    refusals = compare_refusals(planned)
    plans = compare_written(".plan", planned)
    pages = compare_written(".page", lambda sheet: subprocess.run([printer, sheet, sheet.with_suffix(".plan")], stdout=subprocess.PIPE).stdout)
    timetables = compare_written(".timetable", lambda sheet: subprocess.run([viewer, sheet], stdout=subprocess.PIPE).stdout)
    compare_pages()
    compare_first()
    shown = shown_files()
    for name, content in shown.items():
        compare("docs/FORMAT.md: %s" % name, content, (EXAMPLES / name).read_bytes())
    for line in wrong:
        print(line)
    counts = sheets, refusals, plans, pages, timetables, len(shown)
    print("examples: %d sheets, %d of them refused, %d plans, %d pages, %d timetables, %d files shown in docs/FORMAT.md, %d wrong" % (*counts, len(wrong)))
    sys.exit(1 if wrong or min(counts) == 0 else 0)


if __name__ == "__main__":
    main(*sys.argv[1:])
