"""Trials of edits of loops: runs that go round, the joint, and what is kept and carried (document 02, request 8).

Each edit is seen to leave what a second reading says, point by point round the loop; where a wrong
reading of the request would show, the edit is seen to come out otherwise by it.
"""

from typing import List, Sequence, Tuple

import refusal
import trials
from curve import exact_outline
from make_trials import exact
from make_trials.defects import CHANGE, EDITS, FULL, needs
from make_trials.depths import TOO_DEEP, comes_to, span_numbers, view
from make_trials.dice import Dice
from make_trials.edits import edges
from make_trials.halves import BELOW, MIRRORS, mirrored, sides, told_apart
from make_trials.loop_misreadings import (ALL_CARRIED, CARRIED_BACK, ENDS_ALWAYS_FRESH, ENDS_APART, FIRST_IS_LOWEST,
                                          FIRST_STAYS, JOINT_COUNTED_ONCE, LAST_POINT_STAYS, LAST_STAYS, NO_LOOPS,
                                          NOT_CARRIED, NOT_INSERTED_AT_63, NOT_OFFERED, NOT_REMOVED_AT_FIVE,
                                          OWN_POINTS_COUNTED, PARAMETER_LOOKED_AT, REMOVED_AT_FOUR, RUN_A_SPAN_LONG,
                                          RUN_CLIPPED, WHOLE_LOOP_FROM_NOUGHT, WHOLE_LOOP_NAMES_THREE)
from make_trials.loops import NO_BASIS, NO_COUNT, PARAMETERS, axis_at_a_half, wide
from make_trials.misreadings import EDIT_LOSES, Misreading, told_from
from make_trials.outlines import WAYS
from make_trials.script import ACCEPTED, Script
from make_trials.tolerance import on_axis
from outline import rounded
from shape import DEEPEST, LOOP, MOST_RECORDS, SPAN_RECORDS, Shape, point_count

FEW = range(4, 9)
FRESH_SPANS = {trials.MOVE: 4, trials.INSERT: 4, trials.REMOVE: 3}


def places(op: int, count: int) -> range:
    """Every place of the edit; none where there are too many records for it, or too few."""
    return range(0 if count == FULL.get(op) else count + (op == trials.INSERT))


def after(op: int, shape: Shape) -> Shape:
    return shape._replace(count=shape.count + CHANGE.get(op, 0))


def is_fresh(op: int, new: Shape, place: int, point: int) -> bool:
    """Whether a point is at most as many steps after the start of the run, going round, as the run has."""
    steps = 2 ** new.depth
    return (point - (place - 3) * steps) % (new.count * steps) <= FRESH_SPANS[op] * steps


# ---- one edit


def one_edit(script: Script, op: int, place: int, record: Sequence[int], *wrong: Misreading) -> List[int]:
    """An accepted edit of what stands on the bench, seen point by point; it comes out otherwise by each wrong reading.

    The outline of the new loop, which the points need not be.
    """
    old, held, lent = script.bench.shape, list(script.bench.points), list(script.bench.controls)
    with told_from(script, *wrong):
        script.edit(op, place, record)
    new, points = script.bench.shape, script.bench.points
    assert new == after(op, old) and script.bench.controls == edited_controls(op, lent, place, old.count, record)
    first, fresh = (place - 3) % new.count, FRESH_SPANS[op]
    values, steps = exact_outline(new, script.bench.controls), 2 ** new.depth
    outline, figure = rounded(values), 0
    for point in range(point_count(new)):
        x, y = 2 * point, 2 * point + 1
        if is_fresh(op, new, place, point):
            wanted = outline[x:y + 1]
            figure += sum(values[number].denominator == 1 for number in (x, y))
        else:
            back = 2 * steps * (new.count - old.count) if point >= place * steps else 0
            wanted = held[x - back:y + 1 - back]
        assert points[x:y + 1] == wanted
    assert points[len(outline):] == held[len(outline):]
    assert script.lines == [f"edited {LOOP} {new.depth} {new.count} {first} {fresh} {figure} {new.parameter}"]
    return outline


def drawn_edit(script: Script, op: int, place: int) -> None:
    """An accepted edit of a drawn loop, which stays one."""
    outline = one_edit(script, op, place, script.dice.record())
    assert script.bench.points[:len(outline)] == outline


def edited_controls(op: int, controls: List[int], place: int, count: int, record: Sequence[int]) -> List[int]:
    """The controls after an edit; those past the last of them stay, and one less is left where it stood."""
    records = [controls[2 * at:2 * at + 2] for at in range(count)]
    records[place:place + (op != trials.INSERT)] = [] if op == trials.REMOVE else [[*record]]
    numbers = [number for pair in records for number in pair]
    return numbers + controls[len(numbers):]


def edited_otherwise(op: int, old: Shape, place: int) -> List[Misreading]:
    """The wrong readings by which an edit of stale points, with a record that is far from the others, is another."""
    new = after(op, old)
    run = [span % new.count for span in range(place - 3, place - 3 + FRESH_SPANS[op])]
    wraps, whole = run[0] > run[-1], len(run) == new.count
    wrong = [NO_LOOPS]
    if op != trials.MOVE:
        wrong += [NOT_OFFERED]
    if wraps:
        wrong += [RUN_CLIPPED] + [FIRST_IS_LOWEST] * (min(run) != run[0])
    if whole:
        wrong += [WHOLE_LOOP_NAMES_THREE] + [WHOLE_LOOP_FROM_NOUGHT] * (run[0] != 0)
    if 0 in run and new.count - 1 not in run:
        wrong += [LAST_STAYS, ENDS_APART]
    if 0 not in run and new.count - 1 in run:
        wrong += [FIRST_STAYS, ENDS_APART]
    if 0 not in run and new.count - 1 not in run:
        wrong += [ENDS_ALWAYS_FRESH]
    return wrong


def carried_otherwise(op: int, old: Shape, place: int) -> List[Misreading]:
    """The wrong readings by which points that are all unlike are carried otherwise: some are not fresh, and so held something."""
    new, steps = after(op, old), 2 ** old.depth
    held = [point for point in range(point_count(new)) if not is_fresh(op, new, place, point)]
    wrong = [RUN_A_SPAN_LONG] * (FRESH_SPANS[op] < new.count)
    if op != trials.MOVE and any(point >= place * steps for point in held):
        wrong += [NOT_CARRIED, CARRIED_BACK] + [LAST_POINT_STAYS] * (point_count(new) - 1 in held)
    if op != trials.MOVE and any(point < place * steps for point in held):
        wrong += [ALL_CARRIED]
    return wrong


# ---- every place


def lend_twice_as_deep(script: Script, shape: Shape) -> None:
    """Lists with room for a record more, and for the loop at one depth more."""
    most = shape._replace(count=min(shape.count + 1, MOST_RECORDS))
    room = max(2 * point_count(most), 2 * point_count(shape._replace(depth=shape.depth + 1)))
    script.lend(2 * most.count + 2, room + 1, fill=script.dice.outside())


def make_stale(script: Script, shape: Shape) -> None:
    """The points become those of another depth; then the shape is this."""
    script.shape(shape._replace(depth=shape.depth + 1))
    comes_to(script, ACCEPTED, script.dice.pick(WAYS))
    script.shape(shape)


def refill(script: Script, op: int, shape: Shape) -> None:
    """After a removal the last two records are alike; the last becomes another."""
    if op == trials.REMOVE:
        for at, number in enumerate(wide(script.dice, 1)):
            script.say(trials.SET_CONTROL, 2 * shape.count - 2 + at, number)


def stale_places(script: Script) -> None:
    """Each edit at each place of small loops, over points that are another outline's."""
    dice = script.dice
    for count in FEW:
        shape = Shape(LOOP, 1, count)
        lend_twice_as_deep(script, shape)
        script.read(shape, wide(dice, count))
        for op in EDITS:
            for place in places(op, count):
                make_stale(script, shape._replace(parameter=dice.pick(PARAMETERS)))
                stale_edit(script, op, place)
                script.show(trials.SHOW_POINTS)
                refill(script, op, shape)
        script.show(trials.SHOW_CONTROLS)


def stale_edit(script: Script, op: int, place: int) -> None:
    """An edit over points that are all unlike and no outline's; the wrong readings that could show take it otherwise."""
    shape = script.bench.shape
    wrong = edited_otherwise(op, shape, place) + carried_otherwise(op, shape, place)
    told = shape.count <= max(FEW) or place % 16 == 0 or not 4 < place < shape.count - 3
    if told:
        spoil_joint(script, op, place)
    one_edit(script, op, place, wide(script.dice, 1), *(wrong if told else ()))


def spoil_joint(script: Script, op: int, place: int) -> None:
    """The end of the list that no fresh span has becomes any point, or one of them where both are alike."""
    shape = script.bench.shape
    run = {span % after(op, shape).count for span in range(place - 3, place - 3 + FRESH_SPANS[op])}
    first, last = 0, 2 * point_count(shape) - 2
    end = last if 0 in run else first if after(op, shape).count - 1 in run else script.dice.pick((first, last))
    script.say(trials.SET_POINT, end + script.dice.below(2), script.dice.outside())


def stale_places_of_the_most(script: Script) -> None:
    """Each edit at each place of loops of 63 and 64, over points that are another outline's there."""
    dice = script.dice
    shape = Shape(LOOP, 0, MOST_RECORDS - 1)
    lend_twice_as_deep(script, shape)
    script.read(shape, wide(dice, shape.count))
    for place in range(MOST_RECORDS):
        make_stale(script, shape)
        for op, far in ((trials.INSERT, 0), (trials.MOVE, 32), (trials.REMOVE, 16)):
            stale_edit(script, op, (place + far) % MOST_RECORDS)
        script.show(trials.SHOW_POINTS)
    for place in range(MOST_RECORDS - 1):
        make_stale(script, shape)
        for op, far in ((trials.MOVE, 0), (trials.REMOVE, 30)):
            stale_edit(script, op, (place + far) % shape.count)
        script.show(trials.SHOW_POINTS)
        refill(script, op, shape)
    script.show(trials.SHOW_CONTROLS)


def drawn_places(script: Script) -> None:
    """Each edit at each place of small loops, each drawn once: they stay that of their records, and drawn again are the same."""
    dice = script.dice
    for count in FEW:
        shape = Shape(LOOP, 1 + count % 2, count)
        script.lend(2 * count + 2, 2 * point_count(shape._replace(count=count + 1)) + 1, fill=dice.junk())
        script.read(shape, dice.numbers(count))
        comes_to(script, ACCEPTED, dice.pick(WAYS))
        for place in range(count + 1):
            for op in (trials.INSERT, trials.REMOVE, trials.MOVE):
                if place < script.bench.shape.count + (op == trials.INSERT):
                    drawn_edit(script, op, place)
            script.show(trials.SHOW_POINTS)
        drawn_again(script)


def drawn_again(script: Script) -> None:
    """Another drawing comes to the points that the edits left."""
    edited = list(script.bench.points)
    comes_to(script, ACCEPTED, script.dice.pick(WAYS))
    assert script.bench.points == edited


def drawn_places_of_the_most(script: Script) -> None:
    """Each place of the largest loops, drawn once: in and out again at 63, and at 62, with a move at each count."""
    dice = script.dice
    most = Shape(LOOP, 0, MOST_RECORDS)
    script.lend(2 * MOST_RECORDS, 2 * point_count(most), fill=dice.junk())
    script.read(most._replace(count=MOST_RECORDS - 1), dice.numbers(MOST_RECORDS - 1))
    comes_to(script, ACCEPTED, dice.pick(WAYS))
    for place in range(MOST_RECORDS):
        for op in (trials.INSERT, trials.MOVE, trials.REMOVE):
            drawn_edit(script, op, place)
        if place % 2 == 0:
            script.show(trials.SHOW_POINTS)
    for place in range(MOST_RECORDS - 1):
        for op in (trials.MOVE, trials.REMOVE, trials.INSERT):
            drawn_edit(script, op, place)
        if place % 4 == 0:
            script.show(trials.SHOW_POINTS)
    drawn_again(script)


def least_and_most(script: Script) -> None:
    """An insert to 64 and one at 64, a removal to 4 and one at 4, at each end; places past the last come before 6."""
    dice = script.dice
    for op, count, wrong in ((trials.INSERT, MOST_RECORDS - 1, NOT_INSERTED_AT_63),
                             (trials.REMOVE, SPAN_RECORDS + 1, NOT_REMOVED_AT_FIVE)):
        for end in (False, True):
            shape = Shape(LOOP, 1, count)
            script.lend(*needs(op, shape), fill=dice.between(-9, 9))
            script.read(shape, wide(dice, count))
            past = count + (op == trials.INSERT)
            refused_edit(script, op, past, refusal.PLACE, past)
            one_edit(script, op, past - 1 if end else 0, wide(dice, 1), wrong)
            full = script.bench.shape.count
            past = full + (op == trials.INSERT)
            for place in (0, 1, full // 2, full - 1):
                refused_edit(script, op, place, refusal.RECORDS, 0, *[REMOVED_AT_FOUR] * (op == trials.REMOVE))
            for place in (past, past + 1, 2 ** 32, 2 ** 63 - 1):
                refused_edit(script, op, place, refusal.PLACE, place)
            for span in (0, full - 1):
                view(script, span, span_numbers(shape.depth))


def refused_edit(script: Script, op: int, place: int, number: int, at: int, *wrong: Misreading) -> None:
    with told_from(script, *wrong):
        script.edit(op, place, wide(script.dice, 1))
    assert script.lines == [f"refused {number} {at}"]


# ---- the joint


def joints(script: Script) -> None:
    """Runs that start, end and stand next to the joint, over first and last points that are no outline's."""
    dice = script.dice
    shape = Shape(LOOP, 3, 9)
    for op in EDITS:
        new = after(op, shape)
        for first in (0, new.count - FRESH_SPANS[op], new.count - 1, 1, new.count - FRESH_SPANS[op] - 1):
            place = (first + 3) % new.count
            script.lend(*needs(op, shape), fill=dice.between(-9, 9))
            script.read(shape, wide(dice, shape.count))
            for point in sorted({0, point_count(shape) - 1, point_count(new) - 1}):
                script.say(trials.SET_POINT, 2 * point + dice.below(2), dice.outside())
            one_edit(script, op, place, wide(dice, 1), *edited_otherwise(op, shape, place))
            for span in (0, new.count - 1):
                view(script, span, span_numbers(shape.depth))


def figures(script: Script) -> None:
    """Figures of exact coordinates of edits by which the joint counts twice where it is fresh."""
    dice = script.dice
    for depth in (0, 2):
        for op in EDITS:
            for count in (5, 8):
                for reading in (JOINT_COUNTED_ONCE, OWN_POINTS_COUNTED):
                    one_figure(script, op, Shape(LOOP, depth, count), reading)


def one_figure(script: Script, op: int, shape: Shape, reading: Misreading) -> None:
    """A drawing and an edit of it whose joint is fresh and exact on one axis or both."""
    dice = script.dice
    new = after(op, shape)
    while True:
        controls, record = exact.grained(dice, shape, shape.count), exact.grained(dice, shape, 1)
        starts = (0, new.count - FRESH_SPANS[op]) if reading is OWN_POINTS_COUNTED and new.count > 5 else range(new.count)
        place = (dice.pick(starts) + 3) % new.count
        run = {span % new.count for span in range(place - 3, place - 3 + FRESH_SPANS[op])}
        values = exact_outline(new, edited_controls(op, controls, place, shape.count, record)[:2 * new.count])
        exactly = any(value.denominator == 1 for value in values[:2])
        joint = {0 in run, new.count - 1 in run}
        if exactly and (joint == {True, False} or reading is JOINT_COUNTED_ONCE and True in joint):
            break
    script.lend(*needs(op, shape), fill=dice.junk())
    script.read(shape, controls)
    comes_to(script, ACCEPTED, dice.pick(WAYS))
    one_edit(script, op, place, record, reading)


def half_edits(script: Script) -> None:
    """Each edit with fresh points at halves below zero on both axes, as it stands and mirrored, with and without the joint."""
    dice = script.dice
    for op in EDITS:
        for depth in (1, 3):
            old, place, record, before = edit_at_halves(dice, op, Shape(LOOP, depth, 6 + depth))
            for axis in MIRRORS:
                script.lend(*needs(op, old), fill=dice.outside())
                script.read(old, mirrored(before, axis))
                one_edit(script, op, place, mirrored(record, axis))
                values = exact_outline(script.bench.shape, script.bench.controls)
                assert told_apart(values, rounded(values))
                script.show(trials.SHOW_POINTS)


def edit_at_halves(dice: Dice, op: int, new: Shape) -> Tuple[Shape, int, List[int], List[int]]:
    """The loop before an edit that comes to one with halves below zero in span 0; the edit's place and record."""
    while True:
        controls = on_axis(0, *(axis_at_a_half(dice, new) for _ in range(2)))
        if sides(exact_outline(new, controls)[:2 * 2 ** new.depth]) >= BELOW:
            break
    old = new._replace(count=new.count - CHANGE.get(op, 0))
    place = dice.pick((1, 2, 3) if op == trials.REMOVE else (0, 1, 2, 3))
    record, other = controls[2 * place:2 * place + 2], [*dice.record()]
    there = {trials.MOVE: other, trials.INSERT: [], trials.REMOVE: other + record}[op]
    return old, place, record, controls[:2 * place] + there + controls[2 * place + 2:]


# ---- sequences


def runs(script: Script) -> None:
    """Long sequences of edits with refused calls among them: a drawn loop stays that of its records to the end."""
    for depth, least, most, edits in ((0, 4, 9, 200), (2, 4, 8, 100), (0, 60, MOST_RECORDS, 50)):
        run(script, Shape(LOOP, depth, least + 2, script.dice.pick(PARAMETERS)), least, most, edits)


def run(script: Script, shape: Shape, least: int, most: int, edits: int) -> None:
    """At least so many edits, and until there were all counts from the least to the most."""
    dice = script.dice
    script.lend(2 * most, 2 * point_count(shape._replace(count=most)) + 3, fill=dice.junk())
    controls = dice.numbers(shape.count)
    script.read(shape._replace(parameter=0), controls)
    script.shape(shape)
    comes_to(script, ACCEPTED, dice.pick(WAYS))
    seen = {least + 2}
    while edits > 0 or seen != {*range(least, most + 1)}:
        edits -= 1
        count = script.bench.shape.count
        op = dice.pick(EDITS if least < count < most else (trials.MOVE, trials.REMOVE, trials.REMOVE) if count == most
                       else (trials.MOVE, trials.INSERT, trials.INSERT))
        drawn_edit(script, op, dice.below(count + (op == trials.INSERT)))
        seen.add(script.bench.shape.count)
        if dice.one_in(4):
            refused_between(script, most)
        if dice.one_in(10):
            script.show(trials.SHOW_POINTS)
    script.show(trials.SHOW_CONTROLS, trials.SHOW_POINTS)
    drawn_again(script)


def refused_between(script: Script, most: int) -> None:
    """A call that is refused and changes nothing, the shape put back after it."""
    dice = script.dice
    good, op = script.bench.shape, dice.pick(EDITS)
    inside = dice.below(good.count)
    full = refusal.CONTROLS_SHORT if good.count == most else ACCEPTED
    full = refusal.RECORDS if good.count == MOST_RECORDS else full
    bad, op, place, record, number = dice.pick((
        (good._replace(basis=dice.pick(NO_BASIS)), op, inside, dice.record(), refusal.BASIS),
        (good._replace(depth=dice.pick(TOO_DEEP)), op, inside, dice.record(), refusal.DEPTH),
        (good._replace(count=dice.pick(NO_COUNT)), op, inside, dice.record(), refusal.COUNT),
        (good, op, good.count + 1 + dice.below(3), dice.record(), refusal.PLACE),
        (good, trials.MOVE, inside, dice.bad_record(), refusal.LIMITS),
        (good, trials.MOVE, good.count, dice.record(), refusal.PLACE),
        (good._replace(depth=DEEPEST), trials.MOVE, inside, dice.record(), refusal.POINTS_SHORT),
        (good, *((trials.INSERT, inside, dice.record(), full) if full else
                 (trials.REMOVE, good.count, dice.record(), refusal.PLACE)))))
    if bad != good:
        script.shape(bad)
    before = list(script.bench.controls), list(script.bench.points)
    script.edit(op, place, record)
    assert script.last == number and before == (script.bench.controls, script.bench.points)
    if bad != good:
        script.shape(good)


def handed_on(script: Script) -> None:
    """A loop's parameter is handed on by every edit as it came, and not looked at."""
    dice = script.dice
    for op in EDITS:
        for parameter in PARAMETERS[1:]:
            shape = Shape(LOOP, 1, SPAN_RECORDS + 2, parameter)
            script.lend(*needs(op, shape), fill=dice.coordinate())
            script.shape(shape)
            with told_from(script, EDIT_LOSES, *[PARAMETER_LOOKED_AT] * (parameter > 64)):
                one_edit(script, op, dice.below(shape.count), dice.record())
        script.show(trials.SHOW_POINTS)


def rooms(script: Script) -> None:
    """Lists just long enough and just too short, for the old loop and for the new."""
    dice = script.dice
    for op in EDITS:
        for count in (5, MOST_RECORDS - 1):
            shape = Shape(LOOP, dice.below(3), count)
            new = after(op, shape)
            for controls, points in edges(shape, new):
                script.lend(controls, points, fill=dice.coordinate())
                script.shape(shape)
                script.edit(op, dice.below(count), dice.record())
                short = refusal.CONTROLS_SHORT if controls < 2 * max(count, new.count) else refusal.POINTS_SHORT
                ample = (controls, points) == needs(op, shape)
                assert script.last == (ACCEPTED if ample else short)


def deep(script: Script) -> None:
    """The longest loops at the deepest, over points that are no outline's: runs that go round and runs that do not."""
    dice = script.dice
    most = Shape(LOOP, DEEPEST, MOST_RECORDS)
    script.lend(2 * MOST_RECORDS, 2 * point_count(most), fill=dice.between(-9, 9))
    script.read(most._replace(count=MOST_RECORDS - 1), dice.numbers(MOST_RECORDS - 1))
    for op, place in ((trials.INSERT, 0), (trials.REMOVE, MOST_RECORDS - 1), (trials.INSERT, MOST_RECORDS - 1),
                      (trials.MOVE, 1), (trials.REMOVE, 0), (trials.INSERT, 30), (trials.MOVE, 3), (trials.REMOVE, 40)):
        script.junk_points(4)
        one_edit(script, op, place, dice.record())
        new = script.bench.shape
        first, fresh = (place - 3) % new.count, FRESH_SPANS[op]
        for span in sorted({0, new.count - 1, first, (first + fresh) % new.count}):
            view(script, span, span_numbers(DEEPEST))


def deep_places(script: Script) -> None:
    """Each edit of a small loop at the depths from 4 on, at both ends and between them, over stale points; views of both ends."""
    dice = script.dice
    for depth in range(4, DEEPEST + 1):
        shape = Shape(LOOP, depth, SPAN_RECORDS + 1)
        script.lend(2 * shape.count + 2, 2 * point_count(shape._replace(count=shape.count + 1)), fill=dice.between(-9, 9))
        script.read(shape, wide(dice, shape.count))
        for op in EDITS:
            for place in (0, 2, places(op, shape.count)[-1]):
                script.shape(shape)
                script.junk_points(1)
                spoil_joint(script, op, place)
                one_edit(script, op, place, wide(dice, 1))
                refill(script, op, shape)
            for span in (0, script.bench.shape.count - 1):
                view(script, span, span_numbers(depth))
