"""All kinds of cases. The exhaustive ones are the same for every seed; of the others `count` sets the number, and the seed draws them.

Sortings with ties, which have several best scanner lists, are drawn from the families of sheets.TIES: small times, times in tens, all times equal, equal
strips at all desks and at each, identical desks, two desks that mirror each other (the strips from the end, or scan for desk times), desk times 1, scan
times 1, scans so long that no desk is waited for, and desks so long that the scanner is never waited for. They have one to three desks, also with none for
the middle one or the first, and up to 3 strips of each, where every interleaving is tried, or all 6; some stand beside a mosaic, a flight or both. Of the
small ones plans with any of the best lists are judged and printed.

Strips that are drawn, in every kind, have no weight in three of eight sections; in the others all have one, or some. The weights of sortings with ties are few
or the same at all desks.

Flights have an empty head or a turn: of those that are drawn, in every kind, three of eight an empty head, the others 0, any turn, one up to the shortest
of the blocks' longest delays or one next to it. Their blocks have one delay, a window, or are of both kinds.
"""
import itertools
import random

import best
import brute
import distances
import lengths
import longest
import mounts
import page
import pages
import plans
import reader
import sheets
import timetable
import tiny
import turns
import values
import weights
import windows
from compare import AllowedCase, BrokenCase, JudgeCase, PageCase, PagesCase, PlanCase, ROOM, SameCase
from reader import field

CHUNK = 250


def agreed(sheet, least):
    """The figures and the scanner list, once the two methods of this program agree on them."""
    assert least == best.best(sheet), "the second program's own methods differ: %s" % (least,)
    return least


def of_choices(sheet):
    return agreed(sheet, brute.of_choices(sheet))


def of_timetables(sheet):
    return agreed(sheet, brute.of_timetables(sheet))


def tiny_flights():
    for blocks, orders in tiny.flights():
        yield from tried_flights(blocks, orders, None)


def tiny_flights_with_turns():
    for blocks, turn in tiny.flights_with_turns():
        yield from tried_flights(blocks, [None, *brute.proper_orders(len(blocks))], turn)


def tried_flights(blocks, orders, turn):
    """A row of blocks with each of these orders; all its timetables are tried once."""
    found = brute.least_by_order(blocks, turn or 0)
    assert found == least_by_distances(blocks, turn or 0), "the second program's own methods differ on least starts: %s, turn %s" % (blocks, turn)
    for number in orders:
        yield PlanCase(sheets.flight(blocks, number, turn), least=lambda sheet: agreed(sheet, brute.of_timetables(sheet, found)))


def least_by_distances(blocks, turn):
    """What brute.least_by_order finds, by the other method."""
    fars = ((number, distances.in_order(blocks, number, turn)) for number in brute.proper_orders(len(blocks)))
    starts = {number: distances.least(far) for number, far in fars if far is not None}
    return {number: (distances.end(blocks, row), row) for number, row in starts.items()}


def long_sheets():
    """Fields behind which, or within which, the sheet passes 65,536 bytes, whole, cut and with more behind them; and the longest plan."""
    yield PlanCase(sheets.longest_planned())
    for start, length, tag in itertools.product((b"", tiny.ONES["m"], tiny.ONES["f"]), (65529, 65532, 65533, 65534, 65535), (0x10, 0x20, 0x31, 0x99)):
        whole = start + field(tag, bytes(length))
        yield PlanCase(whole)
        yield PlanCase(whole[:-1])
        yield PlanCase(whole + start)


def long_plans():
    """Plans with 7,000 members, right or with something behind them."""
    for section in ("m", "s", "f"):
        plan = tiny.HEADS[section] + tiny.MEMBERS[section] * 7000
        for tail in (b"", b"\x91", tiny.REFUSAL, plan):
            yield JudgeCase(tiny.ONES[section], plan + tail)


def longest_judged():
    """What each plan must get is known from how it was made."""
    for sheet, plan, place in longest.judged():
        yield AllowedCase(sheet, plan.bytes()) if place is None else BrokenCase(sheet, plan.bytes(), place)


def all_calls(pairs):
    """Each sheet planned, and judged and printed with its plan."""
    for sheet, plan in pairs:
        yield from (PlanCase(sheet), JudgeCase(sheet, plan), PageCase(sheet, plan))


def out_of_range_and_more():
    """Sheets with a value out of range, with a plan buffer or a page buffer that is one byte too small, and with plans of a wrong layout."""
    for sheet, plan in values.one_out():
        yield from (PlanCase(sheet, ROOM - 1), PageCase(sheet, plan, page.ROOM - 1))
        yield from (case(sheet, other) for case in (JudgeCase, PageCase) for other in (b"", plan[:-1]))


def impossible_and_more():
    """Also with a plan buffer that is one byte too small."""
    for sheet, plan in turns.impossible_and_more():
        yield from (PlanCase(sheet), PlanCase(sheet, ROOM - 1), JudgeCase(sheet, plan), PageCase(sheet, plan))


def heads_turned_back():
    """Also with buffers that are one byte too small."""
    yield from all_calls(turns.turned_back(turns.BEHIND))
    for sheet, plan in turns.turned_back([b""]):
        yield from (PlanCase(sheet, ROOM - 1), PageCase(sheet, plan, page.ROOM - 1))


def every_start():
    """Judged with the true figure, where it is known from the starts whether the plan is lawful, judged with an untrue one, and printed."""
    for turn, blocks, firsts in turns.every_start():
        starts = timetable.passes_of(blocks, firsts)
        sheet, plan = sheets.flight(blocks, turn=turn), turns.plan_of_starts(blocks, starts)
        yield AllowedCase(sheet, plan) if brute.lawful_passes(blocks, starts, turn) else BrokenCase(sheet, plan, 0)
        yield JudgeCase(sheet, turns.plan_of_starts(blocks, starts, 1))
        yield PageCase(sheet, plan)


def one_gap_short():
    """A plan with one gap of exactly the turn, and the same where the turn is a second longer; behind a mosaic too. Some of the sheets are planned."""
    before, planned = tiny.ONES["m"], tiny.HEADS["m"] + tiny.MEMBERS["m"]
    for turn, number, blocks, firsts, at in turns.one_gap_short():
        plan = turns.plan_of_starts(blocks, timetable.passes_of(blocks, firsts))
        kept, broken = sheets.flight(blocks, number, turn), sheets.flight(blocks, number, turn + 1)
        yield from (AllowedCase(kept, plan), BrokenCase(broken, plan, 0), PageCase(kept, plan), PageCase(broken, plan))
        yield from (AllowedCase(before + kept, planned + plan), BrokenCase(before + broken, planned + plan, len(planned)))
        if len(blocks) < 32 or at % 16 == 0:
            yield from map(PlanCase, (kept, broken, sheets.flight(blocks[:8], turn=turn), sheets.flight(blocks[:8], turn=turn + 1)))


def same_cases(sheet, other, longer, plan, by=2):
    """A sheet planned, judged and printed, each beside one that means the same and has fields at these places that are so many bytes longer."""
    yield SameCase(PlanCase(sheet), PlanCase(other), longer, by)
    yield from (SameCase(case(sheet, plan), case(other, plan), longer, by) for case in (JudgeCase, PageCase))


def zero_cases(sheet, head, plan):
    """A sheet with an empty flight head beside the sheet with a turn of 0."""
    return same_cases(sheet, turns.written(sheet, head), [head], plan)


def turns_of_zero():
    return itertools.chain.from_iterable(itertools.starmap(zero_cases, turns.empty_heads()))


def turns_fixed():
    """Name and cases of those of flights with a turn, which are the same for every seed too."""
    yield "every tiny flight with a turn", tiny_flights_with_turns()
    yield "every turn", all_calls(turns.every_turn())
    yield "delays about the turn", all_calls(itertools.chain(turns.about_delays(), turns.within_another()))
    yield "turns above 600 and heads of a wrong length, before and behind other fields", heads_turned_back()
    yield "flights that are impossible, with other fields behind them", impossible_and_more()
    yield "free flights whose best order is another with a turn", (PlanCase(sheet, least=of_choices) for sheet in turns.other_best_order())
    yield "every row of up to four fields with turns", map(PlanCase, turns.field_rows())
    yield "every change of one byte of a flight with a turn, and every beginning", map(PlanCase, turns.changes())
    yield "every change of one byte of a plan with a turn", itertools.starmap(JudgeCase, turns.changed_plans())
    yield "every tiny plan with a turn", every_start()
    yield "plans with one gap between passes shorter than the others", one_gap_short()
    yield "a turn of 0 beside an empty head", turns_of_zero()


def tiny_flights_with_windows():
    for blocks, turn in windows.every_window():
        yield from tried_flights(blocks, [None, *brute.proper_orders(len(blocks))], turn)


def every_start_with_windows():
    """Judged, some printed. What each plan must get is known from its delays and its passes."""
    for number, (turn, blocks, starts) in enumerate(windows.every_start()):
        sheet, plan, beyond = sheets.flight(blocks, turn=turn), turns.plan_of_starts(blocks, starts), windows.beyond_window(blocks, starts)
        lawful = beyond is None and brute.lawful_passes(blocks, starts, turn)
        yield AllowedCase(sheet, plan) if lawful else BrokenCase(sheet, plan, 0 if beyond is None else windows.place_of_member(beyond))
        if lawful or number % 16 == 0:
            yield from (PageCase(sheet, plan), JudgeCase(sheet, turns.plan_of_starts(blocks, starts, 1)))


def ends_of_windows():
    """Judged with the order given and without, and behind a mosaic, and printed; the sheets are planned too."""
    before, planned = tiny.ONES["m"], tiny.HEADS["m"] + tiny.MEMBERS["m"]
    for number, turn, blocks, starts, beyond in windows.ends_judged():
        sheet, plan = sheets.flight(blocks, number, turn), turns.plan_of_starts(blocks, starts)
        for start, head in ((b"", b""), (before, planned)):
            place = None if beyond is None else len(head) + windows.place_of_member(beyond)
            yield AllowedCase(start + sheet, head + plan) if beyond is None else BrokenCase(start + sheet, head + plan, place)
        yield from (PageCase(sheet, plan), PlanCase(sheet))
        if len(blocks) <= 8:
            yield from (JudgeCase(sheets.flight(blocks, None, turn), plan), PlanCase(sheets.flight(blocks, None, turn)))


def windows_of_one_value():
    return itertools.chain.from_iterable(itertools.starmap(same_cases, windows.one_value()))


def windows_fixed():
    """Name and cases of those of flights with windows, which are the same for every seed too."""
    yield "every tiny flight with windows", tiny_flights_with_windows()
    yield "window blocks with values in and out of their ranges", all_calls(windows.out_of_range())
    yield "window blocks that are the 33rd, cut, of a wrong length or not permitted", map(PlanCase, windows.wrong_twice())
    yield "windows whose ends differ in one byte or both", all_calls(windows.ends_apart())
    yield "every mixture of both kinds of blocks about their limits", all_calls(windows.counts())
    yield "longest delays about the turn", all_calls(itertools.chain(windows.about_longest(), windows.within_another()))
    yield "flights with windows that are turned back, with other fields before and behind them", all_calls(windows.other_faults())
    yield "given orders with delays within windows", map(PlanCase, itertools.chain(windows.inside(), windows.close_steps()))
    yield "free flights whose best order or delays depend on windows", (PlanCase(sheet, least=of_choices) for sheet in windows.free_by_windows())
    yield "every row of up to four fields with windows", map(PlanCase, windows.field_rows())
    yield "every change of one byte of a flight with windows, and every beginning", map(PlanCase, windows.changes())
    yield "every change of one byte of a plan with windows", itertools.starmap(JudgeCase, windows.changed_plans())
    yield "every tiny plan with windows", every_start_with_windows()
    yield "plans with a delay at an end of its window or beyond", ends_of_windows()
    yield "windows of one value beside blocks of one delay", windows_of_one_value()


def of_every_mount(sheet):
    """The figures once every start of every batching is tried, and the other methods of this program agree."""
    found = brute.least_by_batching(sheet)
    for lasts, (figure, least) in found.items():
        batches = timetable.batches_of(sheet, lasts)
        assert (figure, least) == (timetable.mosaic_figure(sheet, batches), batches), "the second program's own methods differ on mounts: %s" % (least,)
    return agreed(sheet, ((min(figure for figure, _ in found.values()), 0, 0), b""))


def worked_mosaic():
    """The best plan of the first worked sheet is one alone. All six are judged with each other's figures too, and with other sections behind them."""
    yield PlanCase(mounts.WORKED, least=lambda sheet: agreed(sheet, ((32, 0, 0), b"")))
    behind, planned = tiny.ONES["s"] + tiny.ONES["f"], tiny.HEADS["s"] + tiny.MEMBERS["s"] + tiny.HEADS["f"] + tiny.MEMBERS["f"]
    for figure, batches in mounts.WORKED_PLANS.items():
        plan = mounts.stated_plan(figure, batches)
        yield from (AllowedCase(mounts.WORKED, plan), AllowedCase(mounts.WORKED + behind, plan + planned), PageCase(mounts.WORKED, plan))
        yield from (JudgeCase(mounts.WORKED + behind, plan + tail) for tail in (b"", planned[:-1], planned[:-1] + b"\xFF"))
        yield from (JudgeCase(mounts.WORKED, mounts.stated_plan(other, batches)) for other in (*mounts.WORKED_PLANS, 0, figure - 1, figure + 1))
    yield from (BrokenCase(mounts.WORKED, mounts.plan_of(mounts.WORKED, batches), 0) for batches in mounts.missing())


def judged_batches(sheet, batches, broken):
    """What the plan must get is known: None, or the index of the batch that breaks a rule."""
    plan = mounts.plan_of(sheet, batches)
    return AllowedCase(sheet, plan) if broken is None else BrokenCase(sheet, plan, mounts.place_of(broken))


def every_mount():
    """Judged, the lawful ones also with an untrue figure and printed."""
    for sheet, batches in mounts.every_time():
        broken = brute.first_wrong_batch(reader.read(sheet), batches)
        yield judged_batches(sheet, batches, broken)
        if broken is None:
            yield from (JudgeCase(sheet, mounts.plan_of(sheet, batches, 1)), PageCase(sheet, mounts.plan_of(sheet, batches)))


def judged_mounts():
    """Some of the lawful ones are printed."""
    for number, (sheet, batches, broken) in enumerate(itertools.chain(mounts.judged(), mounts.at_ceiling())):
        yield judged_batches(sheet, batches, broken)
        if broken is None and number % 4 == 0:
            yield PageCase(sheet, mounts.plan_of(sheet, batches))


def mounts_alone():
    return (PagesCase(sheet, mounts.plan_of(sheet, one), mounts.plan_of(sheet, other)) for sheet, one, other in mounts.same_finish())


def mounts_fixed():
    """Name and cases of those of mosaics whose mounts start ahead, which are the same for every seed too."""
    yield "the first worked sheet and its plans", worked_mosaic()
    yield "every tiny mosaic with every start of its mounts", (PlanCase(sheet, least=of_every_mount) for sheet in mounts.every_mosaic())
    yield "strips that are ready about when the mount is done", (PlanCase(sheet) for sheet, *_ in [*mounts.about_mounts(), *mounts.about_one_mount()])
    yield "mosaics whose best batching is another where mounts wait", (PlanCase(sheet, least=of_choices) for sheet in mounts.other_best())
    yield "every tiny plan of mounts", every_mount()
    yield "plans with a mount or a finish about the due ones, up to the ceiling", judged_mounts()
    yield "plans that differ in the start of a mount", mounts_alone()
    changed = mounts.plan_of(mounts.WORKED, mounts.CHANGED)
    yield "every change of one byte of a plan of mounts", (JudgeCase(mounts.WORKED, plan) for plan in tiny.changes(changed))


def of_minutes(sheet):
    """Also by the other way of trying everything."""
    found = weights.least_by_minutes(sheet)
    assert found == brute.of_choices(sheet), "the second program's own methods differ on weights: %s" % (found,)
    return agreed(sheet, found)


def known(sheet, figures, desks):
    return PlanCase(sheet, least=lambda parsed: agreed(parsed, ((*figures, 0)[:3], desks)))


def heavy_first(desk, number):
    """The figures and the list of a sheet whose list must begin with so many strips of the desk."""
    def least(sheet):
        figures, desks = best.best(sheet)
        assert desks[:number] == bytes([desk] * number), "the second program's own list lets a strip of weight 100 wait: %s" % desks.hex(" ")
        return figures, desks
    return least


def known_weights():
    """Also two sheets with plan buffers about their least length."""
    yield from itertools.starmap(known, itertools.chain(weights.KNOWN, weights.as_scan_times()))
    yield from (PlanCase(sheet, least=heavy_first(desk, number)) for sheet, desk, number in weights.heavy_sortings())
    yield from itertools.starmap(PlanCase, weights.buffers())


def few_weights():
    """Of the smaller ones every batching or interleaving is tried."""
    yield from (PlanCase(sheet, least=of_choices) for sheet in itertools.chain(weights.some_weights(), weights.heavy_mosaics(7)))
    yield from map(PlanCase, weights.heavy_mosaics(40))


def untrue_weights():
    """Plans with their true figures, and with figures of other weights or of other bytes. All are printed."""
    for sheet, plan in weights.with_plans():
        yield from (AllowedCase(sheet, plan.bytes()), PageCase(sheet, plan.bytes()))
        for other, place in weights.untrue(sheet, plan):
            yield from (BrokenCase(sheet, other, place, 14), PageCase(sheet, other))


def weights_to_ceiling():
    """Those that are allowed are also printed, and judged with other figures."""
    for sheet, plan, place in weights.to_ceiling():
        if place is None:
            yield from (AllowedCase(sheet, plan.bytes()), PageCase(sheet, plan.bytes()))
            yield from (BrokenCase(sheet, other, 0, 14) for other, _ in weights.untrue(sheet, plan))
        else:
            yield BrokenCase(sheet, plan.bytes(), place)


def large_figures():
    return (case(*one) for one in weights.digits() for case in (AllowedCase, PageCase))


def other_heads():
    for sheet, plan, place in itertools.chain(weights.other_heads(), weights.four_byte_heads()):
        yield from (BrokenCase(sheet, plan, place, 12), PageCase(sheet, plan))


def weights_of_one():
    return itertools.chain.from_iterable(same_cases(*one, by=1) for one in weights.ones())


def weights_fixed():
    """Name and cases of those of strips with weights, which are the same for every seed too."""
    yield "every tiny mosaic with weights", (PlanCase(sheet, least=of_minutes) for sheet in weights.every_mosaic())
    yield "every tiny sorting with weights", (PlanCase(sheet, least=of_minutes) for sheet in weights.every_sorting())
    yield "sheets with weights whose figure, scanner list or refusal is known", known_weights()
    yield "sections of which some strips or one carry a weight", few_weights()
    yield "the longest sections with weights", map(PlanCase, weights.longest_weights())
    yield "every weight", all_calls(weights.every_weight())
    yield "every row of up to three fields with weights, every other length and weight of a strip", map(PlanCase, weights.rows_and_changes())
    yield "plans of the longest sections with weights, up to the ceiling", weights_to_ceiling()
    yield "plans with figures of other weights, and of eight bytes", itertools.chain(untrue_weights(), large_figures())
    yield "plans with a head of another length or another byte", itertools.chain(other_heads(), itertools.starmap(JudgeCase, weights.changed_heads()))
    yield "weights of 1 beside none", weights_of_one()


def fixed():
    """Name and cases of the kinds that are the same for every seed. Some that find many wrong programs come first, so that wrong.py ends sooner."""
    yield "pages that are the same for every seed", itertools.starmap(PageCase, pages.fixed())
    yield "every field with values at their ends and beyond", all_calls(values.ends())
    yield "a member too many with values out of range", all_calls(values.one_too_many())
    yield "values out of range with too small a buffer or a wrong plan", out_of_range_and_more()
    yield "every number of members", map(PlanCase, tiny.counts())
    yield "every tiny mosaic", (PlanCase(sheet, least=of_timetables) for sheet in tiny.mosaics())
    yield "every tiny sorting", (PlanCase(sheet, least=of_timetables) for sheet in tiny.sortings())
    yield "every tiny flight", tiny_flights()
    yield "every sorting of few interleavings", (PlanCase(sheet, least=of_choices) for sheet in tiny.few_interleavings())
    yield "every number of strips with equal times", map(PlanCase, tiny.equal_strips())
    yield "every row of up to four fields", map(PlanCase, tiny.field_rows())
    yield "every row of up to five bytes", map(PlanCase, tiny.byte_rows())
    yield "every change of one byte of a sheet", map(PlanCase, tiny.changes(tiny.SMALL))
    yield "every beginning of a sheet", map(PlanCase, tiny.beginnings(tiny.SMALL))
    yield "every place with numbers about the bounds of times", map(PlanCase, tiny.bounds())
    yield "fields with values out of range that are also cut, of a wrong length or not permitted", map(PlanCase, values.wrong_twice())
    yield "a field with a value out of range at every place", map(PlanCase, values.put_in())
    yield "a field with a value out of range and another wrong field", map(PlanCase, values.two_wrong(values.values_out))
    yield "every field with every other length", all_calls(lengths.other_length())
    yield "every field with another length stated", map(PlanCase, lengths.stated_only())
    yield "strips of other station counts", map(PlanCase, lengths.strips_of_other_stations())
    yield "every tag at every place", map(PlanCase, lengths.every_tag())
    yield "a member too many or an improper order, of every length", map(PlanCase, lengths.one_too_many())
    yield "heads of every length where none may stand", map(PlanCase, lengths.heads_behind())
    yield "a field of a wrong length and another wrong field", map(PlanCase, values.two_wrong(lengths.one_short_or_long))
    yield "every length of the plan buffer", itertools.starmap(PlanCase, tiny.buffers())
    yield "every row of up to four plan fields", itertools.starmap(JudgeCase, tiny.plan_rows())
    yield "every change of one byte of a plan", (JudgeCase(tiny.SMALL, plan) for plan in tiny.changes(tiny.small_plan()))
    yield "every beginning of a plan", (JudgeCase(tiny.SMALL, plan) for plan in tiny.beginnings(tiny.small_plan()))
    yield "sheets of more than 65,536 bytes", long_sheets()
    yield "plans of more than 65,536 bytes", long_plans()
    yield "the longest sections", map(PlanCase, longest.planned())
    yield "plans of the longest sections, up to the ceiling", longest_judged()


def share(count, part):
    return max(1, count // part)


def small_sheets(rng, count):
    """Each also damaged, and with too small a buffer."""
    for _ in range(count):
        sheet = sheets.small_sheet(rng)
        wrong = plans.damaged(rng, sheet)
        yield PlanCase(sheet, ROOM + rng.choice((0, 0, 7)), of_choices)
        yield PlanCase(wrong)
        yield PlanCase(rng.choice((sheet, wrong)), rng.randrange(ROOM))


def judged(rng, sheet):
    """A plan with idle time, the same with each fault of meaning, damaged, and for a damaged sheet; at the ceiling or behind it."""
    parsed = reader.read(sheet)
    plan = plans.idle_plan(rng, parsed)
    allowed = AllowedCase if plans.lawful(parsed, plan) else JudgeCase
    yield allowed(sheet, plan.bytes())
    for fault in plans.FAULTS:
        yield JudgeCase(sheet, plans.with_fault(rng, parsed, plan, fault))
    yield JudgeCase(sheet, plans.damaged(rng, plan.bytes()))
    yield JudgeCase(plans.damaged(rng, sheet), plan.bytes())
    over = rng.choice((0, 1))
    plans.move_to_ceiling(rng, parsed, plan, over)
    yield (JudgeCase if over else allowed)(sheet, plan.bytes())


def plans_for_small(rng, count):
    for _ in range(share(count, 4)):
        yield from judged(rng, sheets.small_sheet(rng))


def plans_for_full(rng, count):
    for _ in range(share(count, 40)):
        yield from judged(rng, sheets.full_sheet(rng))


def pages_for_small(rng, count):
    for _ in range(share(count, 16)):
        sheet = sheets.small_sheet(rng)
        yield from itertools.starmap(PageCase, itertools.chain(pages.drawn(rng, sheet), pages.best(sheet)))
        yield from itertools.starmap(PagesCase, pages.pairs(rng, sheet))


def pages_for_full(rng, count):
    for _ in range(share(count, 40)):
        sheet = sheets.full_sheet(rng)
        yield from itertools.starmap(PageCase, pages.drawn(rng, sheet))
        yield from itertools.starmap(PagesCase, pages.pairs(rng, sheet))


def large_sheets(rng, count):
    return (PlanCase(sheets.large_sheet(rng)) for _ in range(share(count, 10)))


def full_sheets(rng, count):
    return (PlanCase(sheets.full_sheet(rng)) for _ in range(share(count, 40)))


def of_families(rng, count, families, section, size):
    """Sheets with one full section, the same number of each family."""
    return (PlanCase(section(rng, family, size)) for family in families for _ in range(share(count, 100)))


def mosaics(rng, count):
    return of_families(rng, count, sheets.MOSAICS, sheets.mosaic, 40)


def sortings(rng, count):
    return of_families(rng, count, sheets.SORTINGS, sheets.sorting, [6, 6, 6])


def tied_sortings(rng, count):
    """Small sortings of every family of ties, each interleaving tried."""
    for family, _ in itertools.product(sheets.TIES, range(share(count, 40))):
        yield PlanCase(sheets.tied_sorting(rng, family, sheets.tied_counts(rng, 3)), least=of_choices)


def full_tied_sortings(rng, count):
    """Full sortings of every family of ties, of three desks and of two, and with no strip of the middle desk."""
    for family, counts in itertools.product(sheets.TIES, ([6, 6, 6], [6, 6, 6], [6, 0, 6], [6, 6])):
        yield from (PlanCase(sheets.tied_sorting(rng, family, counts)) for _ in range(share(count, 200)))


def tied_sheets(rng, count):
    """Sortings of any number of strips with ties, beside a mosaic or a flight or both."""
    for family, _ in itertools.product(sheets.TIES, range(share(count, 200))):
        yield PlanCase(sheets.sheet_around(rng, sheets.tied_sorting(rng, family, sheets.tied_counts(rng, 6))))


def sorting_plan(sheet, desks):
    """The plan of a sheet with a sorting alone that takes this scanner list."""
    return timetable.plan_of(sheet, [], timetable.jobs_of(sheet, desks), None, []).bytes()


def any_best_list(rng, count):
    """Plans of small sortings with ties, judged and printed: that of the list which is due, and others of the same figure, which are allowed as well."""
    for family, _ in itertools.product(sheets.TIES, range(share(count, 200))):
        sheet = sheets.tied_sorting(rng, family, sheets.tied_counts(rng, 2))
        parsed = reader.read(sheet)
        best_plans = [sorting_plan(parsed, desks) for desks in brute.best_lists(parsed)]
        for plan in [best_plans[0], *rng.sample(best_plans, min(3, len(best_plans)))]:
            yield AllowedCase(sheet, plan)
            yield PageCase(sheet, plan)
        yield PagesCase(sheet, rng.choice(best_plans), rng.choice(best_plans))


def with_wrong_fields(rng, count, wrong):
    """Small and full sheets with some fields made wrong, each with a plan that is allowed without that where the flight is possible."""
    for draw, part in ((sheets.small_sheet, 16), (sheets.full_sheet, 80)):
        for _ in range(share(count, part)):
            sheet = draw(rng)
            yield from all_calls([(wrong(rng, sheet), plans.idle_plan(rng, reader.read(sheet)).bytes())])


def out_of_range(rng, count):
    return with_wrong_fields(rng, count, values.drawn)


def of_other_lengths(rng, count):
    return with_wrong_fields(rng, count, lengths.drawn)


def free_flights(rng, count):
    return of_families(rng, count, sheets.FLIGHTS, sheets.free_flight, 8)


def ordered_flights(rng, count):
    return of_families(rng, 2 * count, sheets.FLIGHTS, sheets.ordered_flight, 32)


def small_flights(rng, count, draw):
    """Small flights, every order tried; some also judged and printed."""
    for number in range(share(count, 4)):
        sheet = draw(rng)
        yield PlanCase(sheet, least=of_choices)
        if number % 4 == 0:
            yield from judged(rng, sheet)
            yield from itertools.starmap(PageCase, itertools.chain(pages.drawn(rng, sheet), pages.best(sheet)))
            yield from itertools.starmap(PagesCase, pages.pairs(rng, sheet))


def small_flights_with_turns(rng, count):
    return small_flights(rng, count, turns.small_flight)


def impossible_flights(rng, count):
    return (PlanCase(turns.impossible_flight(rng)) for _ in range(share(count, 100)))


def drawn_turns_of_zero(rng, count):
    """Sheets with an empty head beside the same with a turn of 0, sound and damaged, with a plan for the sound one."""
    for draw, part in ((sheets.small_sheet, 8), (sheets.large_sheet, 80)):
        found = filter(None, (turns.with_empty_head(draw(rng)) for _ in range(share(count, part))))
        for sheet, head in found:
            plan = plans.idle_plan(rng, reader.read(sheet)).bytes()
            yield from zero_cases(sheet, head, plan)
            yield from zero_cases(sheet[:head + 3] + plans.damaged(rng, sheet[head + 3:]), head, plan)


def small_flights_with_windows(rng, count):
    return small_flights(rng, count, windows.small_flight)


def free_flights_with_windows(rng, count):
    """Eight blocks; of a few every order is tried."""
    for number in range(share(count, 20)):
        yield PlanCase(windows.free_flight(rng), **({"least": of_choices} if number % 16 == 0 else {}))


def large_flights_with_windows(rng, count):
    """32 blocks in order; some also judged."""
    for number in range(share(count, 16)):
        sheet = windows.large_flight(rng)
        yield PlanCase(sheet)
        if number % 8 == 0:
            yield from judged(rng, sheet)


def drawn_windows_of_one_value(rng, count):
    """Sheets with blocks of one delay beside the same with windows of one value, with a plan for both."""
    for draw, part in ((sheets.small_sheet, 8), (sheets.large_sheet, 80)):
        for _ in range(share(count, part)):
            sheet = draw(rng)
            found = windows.with_one_value(rng, sheet)
            if found:
                yield from same_cases(*found, plans.idle_plan(rng, reader.read(found[0])).bytes())


def small_mosaics(rng, count):
    """Every batching tried; some with plans about their mounts."""
    for number in range(share(count, 4)):
        sheet = mounts.drawn_mosaic(rng, 8)
        yield PlanCase(sheet, least=of_choices)
        if number % 4 == 0:
            yield from itertools.starmap(judged_batches, ((sheet, *one) for one in mounts.drawn_judged(rng, sheet)))
            yield from itertools.starmap(PagesCase, pages.pairs(rng, sheet))


def mounts_for_large(rng, count):
    for _ in range(share(count, 40)):
        sheet = mounts.drawn_mosaic(rng, 40)
        yield from itertools.starmap(judged_batches, ((sheet, *one) for one in mounts.drawn_judged(rng, sheet)))


def small_sections_with_weights(rng, count):
    """Every batching or interleaving tried; some with a plan that is judged with figures of other weights."""
    for number in range(share(count, 4)):
        sheet = weights.drawn_section(rng)
        yield PlanCase(sheet, least=of_choices)
        if number % 8 == 0:
            plan = plans.idle_plan(rng, reader.read(sheet))
            yield from (AllowedCase(sheet, plan.bytes()), PageCase(sheet, plan.bytes()))
            yield from (BrokenCase(sheet, other, 0, 14) for other, _ in weights.untrue(sheet, plan))


def drawn_weights_of_one(rng, count):
    """Sheets with strips that carry no weight beside the same with weights of 1, with a plan for both."""
    for draw, part in ((sheets.small_sheet, 16), (sheets.large_sheet, 160)):
        found = filter(None, (weights.with_ones(rng, draw(rng)) for _ in range(share(count, part))))
        yield from itertools.chain.from_iterable(same_cases(*one, plans.idle_plan(rng, reader.read(one[0])).bytes(), by=1) for one in found)


DRAWN = {
    "small sheets": small_sheets, "sheets with values out of range": out_of_range, "sheets with fields of other lengths": of_other_lengths,
    "plans for small sheets": plans_for_small, "mosaics of 40 strips": mosaics,
    "sortings of 6 + 6 + 6 strips": sortings, "flights of 8 free blocks": free_flights, "flights of 32 blocks in order": ordered_flights,
    "large sheets": large_sheets, "full sheets": full_sheets, "small sortings with ties": tied_sortings, "full sortings with ties": full_tied_sortings,
    "sortings with ties beside other sections": tied_sheets, "plans with any of the best scanner lists": any_best_list,
    "plans for full sheets": plans_for_full, "pages for small sheets": pages_for_small, "pages for full sheets": pages_for_full,
    "small flights with a turn": small_flights_with_turns, "flights of 8 free blocks that are impossible": impossible_flights,
    "sheets with a turn of 0 beside an empty head": drawn_turns_of_zero,
    "small flights with windows": small_flights_with_windows, "flights of 8 free blocks with windows": free_flights_with_windows,
    "flights of 32 blocks in order with windows": large_flights_with_windows, "sheets with windows of one value": drawn_windows_of_one_value,
    "small mosaics": small_mosaics, "plans of large mosaics about their mounts": mounts_for_large,
    "small sections with weights": small_sections_with_weights, "sheets with weights of 1 beside none": drawn_weights_of_one,
}


def drawn(count, seed):
    """Name and cases of the kinds that are drawn, each kind from the seed and its name."""
    for name, cases in DRAWN.items():
        yield name, cases(random.Random("%d %s" % (seed, name)), count)


def rows_of(name, cases):
    """The cases of a kind in rows of at most CHUNK: the kind's name, the number of the first case, the row."""
    first = 0
    for row in iter(lambda: list(itertools.islice(cases, CHUNK)), []):
        yield name, first, row
        first += len(row)


def chunks(count, seed):
    """All cases, a row of each kind in turn, so that every kind is met early."""
    every = itertools.chain(fixed(), weights_fixed(), mounts_fixed(), turns_fixed(), windows_fixed(), drawn(count, seed))
    waiting = [rows_of(name, cases) for name, cases in every]
    while waiting:
        kind = waiting.pop(0)
        row = next(kind, None)
        if row:
            yield row
            waiting.append(kind)
