#!/usr/bin/env python3
"""Checks the must-fail edits: wrong programs and wrong definitions that the prover must refuse.

An edit of code keeps the shape of the code: the row of token kinds is the same before and after, so that only operands differ. An operand is a
name, a path as a.b or a::B, a literal, true or false. Every other token is its own kind, and so is the name of a function that is called.

An edit of a definition (specs/, or a page of proofs/) or of a contract (requires, ensures) is listed apart. Its second line says which statement becomes false:

    # false: `NAME` (FILE), in words.

    edits.py          checks every edit, and lists those of definitions and contracts
    edits.py --log F  reads what `rt ci` wrote into the file F of each edit: the first thing that is refused must be a fact that does not hold
"""
import pathlib
import re
import sys

ROOT = pathlib.Path(__file__).resolve().parent.parent

# Words that are no operands: keywords and the types of numbers.
WORDS = set("as bool break const continue else enum extern f32 f64 fn for ghost i16 i32 i64 i8 if impl in isize let loop match mod mut pub return "
            "struct type u16 u32 u64 u8 use usize while".split())

TOKEN = re.compile(r"""
    (?P<space> \s+ | //[^\n]* )
  | (?P<operand> b'(?:\\.|[^'\\])+' | b"(?:\\.|[^"\\])*" | [0-9]\w* | [A-Za-z_]\w*(?:(?:\.|::)\w+)* )
  | (?P<mark> '[a-z_]\w* | <<= | >>= | \.\.= | => | -> | == | != | <= | >= | && | \|\| | << | >> | [-+*/%&|^]= | \.\. | :: | . )
""", re.X | re.S)

# A page of definitions and laws: of specs/, or one that stands in proofs/ itself. What is below proofs/ is the proof of one function.
PAGE = re.compile(r"specs/|proofs/[A-Z]\w*\.antt$")

FALSE = re.compile(r"# false: `(?P<name>[^`]+)` \((?P<file>(?:specs|proofs|src)/[^)]+)\), \S.*\.$")

# What it says where it could not tell, or where a proof no longer fits the shape of the code or of the statement.
SHOWS_NOTHING = (
    "Not every way was tried",
    "It stopped",
    "broke off",
    "met a bound",
    "no verdict",
    "not yet determined",
    "only because a proof file names",
    "only by a limit of the prover",
)

# What is written of an edit that was refused: the edit, and the first thing that the prover refused, cut after some columns.
LINE = re.compile(r"rt: must-fail (?P<edit>\S+)\.edit: (?P<said>.*)$")
AS_DUE = "refused, as it must be: "
PLACE = re.compile(r"(?:note: )?(?:\./)?(?P<file>\S+?):\d+:\d+: (?:error: )?(?:`(?P<name>[^`]*)`)?")


class Edit:
    """An edit file: what its first lines say, and each file that it changes, before and after."""

    def __init__(self, path):
        self.crate = path.parent.parent
        self.name = "%s/%s" % (self.crate.name, path.stem)
        self.lines = path.read_text().splitlines()
        self.false = FALSE.match(self.lines[1]) if len(self.lines) > 1 else None
        self.texts = {}
        file = old = None
        for line in self.lines:
            if line.startswith("file: "):
                file = line[6:]
                text = (self.crate / file).read_text()
                self.texts.setdefault(file, (text, text))
            elif line.startswith("old: "):
                old = line[5:]
            elif line.startswith("new:"):
                before, after = self.texts[file]
                if after.count(old) != 1:
                    raise SystemExit("%s: the old text stands %d times in %s: %s" % (self.name, after.count(old), file, old))
                self.texts[file] = (before, after.replace(old, line[4:].removeprefix(" ")))


def tokens(text):
    return [(t.lastgroup, t.group()) for t in TOKEN.finditer(text) if t.lastgroup != "space"]


def clause_end(row, at):
    """The index behind the clause that begins at an index: `ghost use ..;`, or `requires` or `ensures` with its braces."""
    closing = ";" if row[at][1] == "ghost" else "}"
    depth = 0
    while True:
        text = row[at][1]
        depth += (text == "{") - (text == "}")
        at += 1
        if text == closing and depth == 0:
            return at


def split(text):
    """The tokens of a Rattle file: those of its code, and those of its contracts."""
    row, code, contracts = tokens(text), [], []
    at = 0
    while at < len(row):
        if row[at][1] in ("ghost", "requires", "ensures"):
            end = clause_end(row, at)
            contracts += row[at:end]
            at = end
        else:
            code.append(row[at])
            at += 1
    return code, contracts


def kinds(code):
    """The kind of each token: that it is an operand, or its text."""
    called = [after[1] == "(" for after in code[1:]] + [False]
    return ["operand" if group == "operand" and text not in WORDS and not call else text for (group, text), call in zip(code, called)]


def parts(edit):
    """Whether an edit changes code, and whether it changes a definition or a contract; and the files whose shape it does not keep."""
    in_code = in_definition = False
    shapes = []
    for file, (before, after) in edit.texts.items():
        if not file.endswith(".rt"):
            in_definition = True
            continue
        (code, contracts), (new_code, new_contracts) = split(before), split(after)
        in_code |= code != new_code
        in_definition |= contracts != new_contracts
        if kinds(code) != kinds(new_code):
            shapes.append(file)
    return in_code, in_definition, shapes


def is_stated(edit, name, file):
    """Whether a file of the crate states what is said to become false: a declaration of a page, or the contract of a function of src/."""
    text = (edit.crate / file).read_text()
    start = r"^\s*(?:pub )?fn %s\b" if file.endswith(".rt") else r"^\s*(?:pub )?%s : "
    return re.search(start % re.escape(name), text, re.M) is not None


def faults(edit):
    """What is wrong with an edit as it is written."""
    in_code, in_definition, shapes = parts(edit)
    if not re.match(r"# \S.*\.$", edit.lines[0]) or edit.lines[0].startswith("# false"):
        yield "its first line does not say in words what the wrong program is"
    if any(not file.startswith("src/") and not PAGE.match(file) for file in edit.texts):
        yield "it changes a proof, not a program or a definition"
    for file in shapes:
        yield "it does not keep the shape of %s" % file
    if in_code == in_definition:
        yield "it changes both code and a definition" if in_code else "it changes nothing"
    if in_definition and not edit.false:
        yield "its second line does not say which statement becomes false"
    if not in_definition and any(line.startswith("# false") for line in edit.lines):
        yield "it is an edit of code, and no statement becomes false"
    if edit.false and not is_stated(edit, edit.false["name"], edit.false["file"]):
        yield "%s does not state %s" % (edit.false["file"], edit.false["name"])


def log_faults(edit, said):
    """What is wrong with how an edit was refused, by what was written of it."""
    if said is None:
        yield "it was not tried"
    elif not said.startswith(AS_DUE) or any(words in said for words in SHOWS_NOTHING):
        yield "it is refused, and that shows nothing: %s" % said
    elif edit.false:
        place = PLACE.match(said.removeprefix(AS_DUE))
        file, name = (place["file"], place["name"]) if place else ("", "")
        if PAGE.match(edit.false["file"]) and (file, name) != (edit.false["file"], edit.false["name"]):
            yield "it is refused at %s of %s, not at the statement that becomes false" % (name, file)
        if edit.false["file"].startswith("src/") and file != edit.false["file"] and "/%s/" % edit.false["name"] not in file:
            yield "it is refused in %s, not at the contract that becomes false" % file


def main(log):
    edits = [Edit(path) for path in sorted(ROOT.glob("crates/*/must-fail/*.edit"))]
    apart = [edit for edit in edits if edit.false]
    said = {line["edit"]: line["said"] for line in map(LINE.match, log.read_text(errors="replace").splitlines()) if line} if log else {}
    wrong = 0
    for edit in edits:
        for fault in log_faults(edit, said.get(edit.name)) if log else faults(edit):
            wrong += 1
            print("%s: %s" % (edit.name, fault))
    if not log:
        print("edits of definitions and contracts, and the statement that becomes false:")
        for edit in apart:
            print("  %s: %s" % (edit.name, edit.lines[1].removeprefix("# false: ")))
    what = "refused at a fact that does not hold" if log else "of code, %d of definitions and contracts" % len(apart)
    print("%d must-fail edits, %d %s, %d wrong" % (len(edits), len(edits) - (wrong if log else len(apart)), what, wrong))
    sys.exit(1 if wrong else 0)


if __name__ == "__main__":
    main(pathlib.Path(sys.argv[2]) if sys.argv[1:2] == ["--log"] else None)
