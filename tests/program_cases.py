#!/usr/bin/env python3
"""Runs the programs on inputs that come in pieces or cannot be read, on outputs that cannot be written, and with arguments too few or too many.

A failure is one line on standard error, which names the input or the output and the reason, and nothing on standard output. Whatever can be read
gives what crates/NAME/stdout has. The first worked sheet, whole through plan_sheet, gives the plan that stands here.

    program_cases.py FOLDER        the programs are in FOLDER
"""
import errno
import fcntl
import os
import pathlib
import resource
import shutil
import subprocess
import sys
import tempfile
import tty

CRATES = pathlib.Path(__file__).resolve().parent.parent / "crates"
USAGE = {
    "plan_sheet": "usage: plan_sheet < SHEET > PLAN\n",
    "sheet_cases": "usage: sheet_cases < CASES\n",
    "judge_cases": "usage: judge_cases < CASES\n",
    "judge_plan": "usage: judge_plan SHEET PLAN\n",
    "print_page": "usage: print_page SHEET PLAN\n",
}
READERS = ["plan_sheet", "sheet_cases", "judge_cases"]  # of standard input
OF_FILES = ["judge_plan", "print_page"]  # programs that take the names of a sheet and a plan
FIRST_SHEET = bytes.fromhex("""
    10 03 00 02 01 00
    11 06 00 02 00 01 00 01 00
    11 06 00 01 00 03 00 03 00
    11 06 00 04 00 02 00 02 00
    11 06 00 01 00 03 00 01 00
""")
FIRST_PLAN = bytes.fromhex("""
    90 08 00 20 00 00 00 00 00 00 00
    91 09 00 01 00 00 00 00 03 00 00 00
    91 09 00 02 03 00 00 00 07 00 00 00
    91 09 00 03 07 00 00 00 0A 00 00 00
    91 09 00 04 0A 00 00 00 0C 00 00 00
""")
NOBODY = 65534
PIPE_SIZE = 1 << 18  # room for the longest input in packets of 4,096 bytes and less

tried = wrong = 0


def compare(name, run, out=b"", err=""):
    global tried, wrong
    tried += 1
    if (run.stdout, run.stderr) != (out, err.encode()):
        wrong += 1
        print("%s\n  due     %r, %r\n  written %r, %r" % (name, out, err.encode(), run.stdout, run.stderr))


def failed(program, name, number):
    """The line that is due where an input or an output fails."""
    return "%s: %s: %s\n" % (program, name, os.strerror(number))


def run(command, redirect="", stdin=subprocess.DEVNULL, stdout=subprocess.PIPE, **how):
    """Runs a command, with a redirection of the shell, takes both of its outputs and closes its input."""
    words = ["sh", "-c", 'exec "$@" ' + redirect, "sh", *map(str, command)]
    done = subprocess.run(words, stdin=stdin, stdout=stdout, stderr=subprocess.PIPE, **how)
    done.stdout = done.stdout or b""
    if stdin >= 0:
        os.close(stdin)
    return done


def pieces(data):
    """A pipe that delivers its bytes in pieces: in packet mode one read takes what one write gave."""
    read_end, write_end = os.pipe2(os.O_DIRECT)
    fcntl.fcntl(write_end, fcntl.F_SETPIPE_SZ, PIPE_SIZE)
    cuts = [0, 7, 99, *range(4096, len(data), 4096), len(data)]
    for start, end in zip(cuts, cuts[1:]):
        os.write(write_end, data[start:end])
    os.close(write_end)
    return read_end


def error_in_the_middle(data):
    """A terminal whose other side is closed behind some bytes: they are read, and the next read is an input error."""
    terminal, other_side = os.openpty()
    tty.setraw(other_side)
    os.write(other_side, data)
    os.close(other_side)
    return terminal


def nothing_yet():
    """A pipe without bytes that does not wait for any."""
    read_end, write_end = os.pipe()
    os.set_blocking(read_end, False)
    return read_end, write_end


def small_files():
    """For a child: a file takes 30 bytes, and one byte more is an error."""
    resource.setrlimit(resource.RLIMIT_FSIZE, (30, 30))


def read_standard_input(program, folder):
    """What a program reads from standard input."""
    name = program.name
    data = (CRATES / name / "stdin").read_bytes()
    due = (CRATES / name / "stdout").read_bytes()
    fails = lambda number: failed(name, "standard input", number)

    compare("%s: input in pieces" % name, run([program], stdin=pieces(data)), due)
    compare("%s: a directory" % name, run([program], '< "%s"' % folder), b"", fails(errno.EISDIR))
    compare("%s: closed input" % name, run([program], "<&-"), b"", fails(errno.EBADF))
    compare("%s: an input error in the middle" % name, run([program], stdin=error_in_the_middle(data[:99])), b"", fails(errno.EIO))
    compare("%s: an input that is open for writing only" % name, run([program], "0> /dev/null"), b"", fails(errno.EBADF))
    read_end, write_end = nothing_yet()
    compare("%s: a pipe that does not wait" % name, run([program], stdin=read_end), b"", fails(errno.EAGAIN))
    os.close(write_end)
    compare("%s: an extra argument" % name, run([program, "sheet"], stdin=pieces(data)), b"", USAGE[name])
    compare("%s: an empty argument" % name, run([program, ""], stdin=pieces(data)), b"", USAGE[name])


def write_standard_output(program, arguments, stdin, folder):
    """What a program writes to standard output: `stdin` gives its input anew for each trial."""
    name = program.name
    fails = lambda number: failed(name, "standard output", number)
    command = [program, *arguments]

    compare("%s: a full device" % name, run(command, "> /dev/full", stdin=stdin()), b"", fails(errno.ENOSPC))
    compare("%s: closed output" % name, run(command, ">&-", stdin=stdin()), b"", fails(errno.EBADF))
    compare("%s: an output that is open for reading only" % name, run(command, "1< /dev/null", stdin=stdin()), b"", fails(errno.EBADF))
    due = (CRATES / name / "stdout").read_bytes()
    if len(due) > 30:
        with open(folder / "cut", "w+b") as file:
            done = run(command, stdin=stdin(), stdout=file, preexec_fn=small_files, restore_signals=False)
            file.seek(0)
            done.stdout = file.read()
        compare("%s: a disk that is full in the middle" % name, done, due[:30], fails(errno.EFBIG))


def read_files(program, folder):
    """What a program reads by name: each name in the place of the sheet, and then of the plan."""
    own = program.name
    data = CRATES / own / "data"
    due = (CRATES / own / "stdout").read_bytes()
    sheet, plan = data / "sheet", data / "plan"
    unreadable = folder / (own + " unreadable")
    shutil.copy(sheet, unreadable)
    os.chmod(unreadable, 0)
    as_nobody = dict(user=NOBODY, group=NOBODY, extra_groups=[]) if os.geteuid() == 0 else {}
    names = [
        ("a missing file", folder / "missing", errno.ENOENT),
        ("a directory", folder, errno.EISDIR),
        ("a file for a directory", unreadable / "sheet", errno.ENOTDIR),
        ("an unreadable file", unreadable, errno.EACCES),
        ("an input error", "/proc/self/mem", errno.EIO),
    ]
    compare("%s: whole files" % own, run([program, sheet, plan]), due)
    # The repository may be closed to nobody, so the good file is one of the folder.
    good = shutil.copy(sheet, folder / "good")
    os.chmod(good, 0o644)
    for kind, name, number in names:
        line = failed(own, name, number)
        compare("%s: %s as sheet" % (own, kind), run([program, name, good], **as_nobody), b"", line)
        compare("%s: %s as plan" % (own, kind), run([program, good, name], **as_nobody), b"", line)
    for kind, name, number in [("an empty name", "", errno.ENOENT), ("a name too long", "x" * 5000, errno.ENAMETOOLONG)]:
        compare("%s: %s as sheet" % (own, kind), run([program, name, plan]), b"", failed(own, "SHEET", number))
        compare("%s: %s as plan" % (own, kind), run([program, sheet, name]), b"", failed(own, "PLAN", number))
    for kind, arguments in [("no argument", []), ("a missing argument", [sheet]), ("an extra argument", [sheet, plan, plan])]:
        compare("%s: %s" % (own, kind), run([program, *arguments]), b"", USAGE[own])


def read_pieces(program):
    """A sheet and a plan that come in pieces, by the name of a pipe."""
    data = CRATES / program.name / "data"
    due = (CRATES / program.name / "stdout").read_bytes()
    for kind in ["sheet", "plan"]:
        read_end = pieces((data / kind).read_bytes())
        names = [("/dev/fd/%d" % read_end) if name == kind else data / name for name in ["sheet", "plan"]]
        compare("%s: a %s in pieces" % (program.name, kind), run([program, *names], pass_fds=[read_end]), due)
        os.close(read_end)


def first_case(planner, judge, folder):
    """The first worked sheet: its plan, and what the judge says of it."""
    sheet, plan = folder / "first.sheet", folder / "first.plan"
    sheet.write_bytes(FIRST_SHEET)
    plan.write_bytes(FIRST_PLAN)
    compare("plan_sheet: the first worked sheet", run([planner], '< "%s"' % sheet), FIRST_PLAN)
    compare("judge_plan: the first worked sheet", run([judge, sheet, plan]), b"number 0\nplace 0\nmosaic 32\nsorting 0\nflight 0\n")


def main(programs):
    with tempfile.TemporaryDirectory() as name:
        folder = pathlib.Path(name)
        os.chmod(folder, 0o755)
        copies = {program: pathlib.Path(shutil.copy(pathlib.Path(programs) / program, folder)) for program in USAGE}
        first_case(copies["plan_sheet"], copies["judge_plan"], folder)
        for program in READERS:
            stdin = lambda: pieces((CRATES / program / "stdin").read_bytes())
            read_standard_input(copies[program], folder)
            write_standard_output(copies[program], [], stdin, folder)
        for program in OF_FILES:
            data = CRATES / program / "data"
            read_files(copies[program], folder)
            read_pieces(copies[program])
            write_standard_output(copies[program], [data / "sheet", data / "plan"], lambda: subprocess.DEVNULL, folder)
    print("%d runs of the programs on whole inputs, and on inputs and outputs that fail, %d wrong" % (tried, wrong))
    sys.exit(1 if wrong else 0)


if __name__ == "__main__":
    main(sys.argv[1])
