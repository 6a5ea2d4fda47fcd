"""Trials of edits: long runs on one outline over any contents, and lists with no number to spare."""

from typing import List, Tuple

import trials
from edits import BASES_THAT_GROW
from make_trials.defects import CHANGE, EDITS
from make_trials.dice import BASES_BEFORE, DEEPEST_BEFORE, GROWING_BEFORE
from make_trials.outlines import WAYS
from make_trials.script import Script
from shape import B_SPLINE, MOST_RECORDS, SPAN_RECORDS, Shape, point_count, spans


def edits_of(basis: int) -> Tuple[int, ...]:
    """The edits that the basis is offered."""
    return EDITS if basis in BASES_THAT_GROW else (trials.MOVE,)


def start_run(script: Script, shape: Shape, largest: Shape) -> None:
    """An outline to edit; its points are its own, another outline's, or one number throughout."""
    dice = script.dice
    spare = dice.below(5)
    script.lend(2 * largest.count + spare, 2 * point_count(largest) + spare, fill=dice.junk())
    before = dice.pick(("drawn", "other", "fill"))
    if before == "other":
        other = Shape(shape.basis, 0, largest.count)
        script.read(other, dice.numbers(other.count))
        script.say(dice.pick(WAYS))
    script.read(shape, dice.numbers(shape.count))
    if before == "drawn":
        script.say(dice.pick(WAYS))


def one_edit(script: Script) -> None:
    """An edit of what stands on the bench; sometimes its place or its record is a bad one."""
    dice = script.dice
    shape = script.bench.shape
    growing = shape.basis in BASES_THAT_GROW
    op = dice.pick((trials.INSERT, trials.REMOVE) * 2 + (trials.MOVE,)) if growing else trials.MOVE
    script.edit(op, dice.place(shape.count), dice.bad_record() if dice.one_in(30) else dice.record())


def run(script: Script, shape: Shape, largest: Shape, edits: int) -> None:
    """A long sequence of edits; now and then the points or the depth change under it."""
    dice = script.dice
    start_run(script, shape, largest)
    for _ in range(edits):
        one_edit(script)
        if dice.one_in(2):
            script.show(trials.SHOW_POINTS)
        if dice.one_in(8):
            script.show(trials.SHOW_CONTROLS)
        if dice.one_in(12):
            script.junk_points(4)
        if dice.one_in(25):
            script.shape(script.bench.shape._replace(depth=dice.below(shape.depth + 1)))
    script.show(trials.SHOW_POINTS, trials.SHOW_CONTROLS)


def runs(script: Script) -> None:
    """Runs for every basis; the lists fill up and the records run out on the way."""
    for basis in BASES_BEFORE:
        growing = basis in GROWING_BEFORE
        for depth, most in ((0, 16), (1, 10), (2, 8), (3, 10)):
            shape = Shape(basis, depth, script.dice.count(basis, most))
            run(script, shape, shape._replace(count=most) if growing else shape, 60 if growing else 25)
    for basis in GROWING_BEFORE:
        run(script, Shape(basis, 0, MOST_RECORDS - 1), Shape(basis, 0, MOST_RECORDS), 30)
        run(script, Shape(basis, 0, SPAN_RECORDS), Shape(basis, 0, SPAN_RECORDS + 2), 40)


def every_place(script: Script) -> None:
    """Each edit at each place of a small outline, over junk each time."""
    dice = script.dice
    for basis in BASES_BEFORE:
        shape = Shape(basis, 1, 10)
        script.lend(2 * shape.count + 4, 2 * point_count(shape) + 8, fill=dice.junk())
        for op in edits_of(basis):
            script.read(shape, dice.numbers(shape.count))
            for place in range(shape.count + 2):
                script.shape(shape)
                script.junk_points(5)
                script.edit(op, place, dice.record())
                script.show(trials.SHOW_POINTS)
            script.show(trials.SHOW_CONTROLS)


def rooms(script: Script) -> None:
    """Lists just long enough and just too short, for the old shape and for the new."""
    dice = script.dice
    for basis in BASES_BEFORE:
        shape = Shape(basis, dice.below(3), MOST_RECORDS - 1 if basis == B_SPLINE else 10)
        for op in edits_of(basis):
            for controls, points in edges(shape, shape._replace(count=shape.count + CHANGE.get(op, 0))):
                script.lend(controls, points, fill=dice.coordinate())
                script.shape(shape)
                script.edit(op, dice.below(shape.count), dice.record())
                if basis != B_SPLINE:
                    script.show(trials.SHOW_CONTROLS, trials.SHOW_POINTS)


def edges(old: Shape, new: Shape) -> List[Tuple[int, int]]:
    """Lengths of controls and points at, and one under, what each shape needs; the other list ample."""
    ample = 2 * max(old.count, new.count), 2 * max(point_count(old), point_count(new))
    lengths = {ample}
    for shape in (old, new):
        for short in (0, 1):
            lengths |= {(2 * shape.count - short, ample[1]), (ample[0], 2 * point_count(shape) - short)}
    return sorted(lengths)


def deep(script: Script) -> None:
    """Edits of the longest outlines at the deepest; views of the spans round about."""
    dice = script.dice
    for basis in GROWING_BEFORE:
        shape = Shape(basis, DEEPEST_BEFORE, MOST_RECORDS - 1)
        script.lend(2 * MOST_RECORDS, 2 * point_count(shape._replace(count=MOST_RECORDS)), fill=dice.junk())
        script.read(shape, dice.numbers(shape.count))
        script.say(dice.pick(WAYS))
        for op in (trials.INSERT, trials.INSERT, trials.MOVE, trials.REMOVE, trials.REMOVE):
            script.junk_points(4)
            place = dice.below(script.bench.shape.count)
            script.edit(op, place, dice.record())
            last = spans(script.bench.shape) - 1
            for span in sorted({0, last, *(min(max(place + off, 0), last) for off in (-4, -3, 0, 1))}):
                script.say(trials.VIEW, span)
