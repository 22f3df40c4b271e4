"""The page of a plan: what the exported page call must answer and write. A line is a letter and columns of numbers, each by its width."""
import judge
import reader

LINE = 33
ROOM = 93 * LINE

HEADS = {0x90: "m%31d\n", 0xA0: "s%31d\n", 0xB0: "f%31d\n"}
MEMBERS = {0x90: "M%3d%4d%12d%12d\n", 0xA0: "S%3d%4d%12d%12d\n", 0xB0: "F%3d    %12d%12d\n"}


def columns(tag, plan, number, at):
    """The numbers in the line of a member, the `number`-th of its section."""
    if tag == 0x90:
        return number, plan[at + 3], judge.number(plan, at + 4), judge.number(plan, at + 8)
    if tag == 0xA0:
        return plan[at + 3], plan[at + 4], judge.number(plan, at + 5), judge.number(plan, at + 9)
    return number, judge.number(plan, at + 3), judge.number(plan, at + 7)


def page_of(sheet, plan):
    """The page of an allowed plan."""
    lines = []
    for tag, head, places in judge.parts_of(sheet, plan)[0]:
        lines.append(HEADS[tag] % judge.stated_figure(plan, tag, head))
        lines += [MEMBERS[tag] % columns(tag, plan, number, at) for number, at in enumerate(places, 1)]
    return "".join(lines).encode()


def printed(data, plan, room):
    """Number, place and page: empty where the call is refused."""
    if room < ROOM:
        return 2, 0, b""
    number, place = judge.judge(data, plan)[:2]
    return number, place, b"" if number else page_of(reader.read(data), plan)
