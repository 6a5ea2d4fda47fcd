"""Trials of how many coordinates are exact (document 02, request 9).

The figure counts coordinates, x and y each by itself, all points of an outline
once, and after an edit the fresh ones alone.  Each trial here is seen to tell that
figure from those of other counts.
"""

from fractions import Fraction
from typing import List, Sequence, Set

import trials
from checks import CONTROL_LIMIT
from curve import exact_outline, whole_values
from make_trials.defects import CHANGE, needs
from make_trials.dice import BASES_BEFORE, DEEPEST_BEFORE, Dice
from make_trials.edits import edits_of
from make_trials.halves import divisor
from make_trials.outlines import WAYS
from make_trials.script import ACCEPTED, Script
from shape import B_SPLINE, CARDINAL, LOOP, SPAN_RECORDS, STRIDE, Shape, point_count

# Coordinates are at most so many grains, or so many micrometres.
MOST = 9


def grained(dice: Dice, shape: Shape, count: int) -> List[int]:
    """The numbers of that many records, each a multiple of a grain; the coarsest grain makes every point whole."""
    grains = [divisor(shape) * 2 ** dice.between(0, 3 * shape.depth) for _ in range(2 * count)]
    return [grain * dice.sign() * dice.below(min(MOST, CONTROL_LIMIT // grain) + 1) for grain in grains]


def small(dice: Dice, count: int) -> List[int]:
    """The numbers of that many records, all small."""
    return [dice.between(-MOST, MOST) for _ in range(2 * count)]


def other_counts(values: Sequence[Fraction]) -> Set[int]:
    """What a count of points, of one axis, or of all but the first or the last point comes to."""
    points = [(x.denominator == 1, y.denominator == 1) for x, y in zip(values[::2], values[1::2])]
    both = sum(1 for x, y in points if x and y)
    either = sum(1 for x, y in points if x or y)
    return {both, either, 2 * both, 2 * either, whole_values(values[::2]), whole_values(values[1::2]),
            whole_values(values[2:]), whole_values(values[:-2]), len(points), len(values), 0}


def outlines(script: Script) -> None:
    """Outlines of each basis at each depth in each way, where some coordinates are exact and some are not."""
    for basis in BASES_BEFORE:
        for depth in range(DEEPEST_BEFORE + 1):
            shape = Shape(basis, depth, SPAN_RECORDS + 2 * STRIDE[basis])
            every_way(script, shape, told_apart(script.dice, shape))


def told_apart(dice: Dice, shape: Shape) -> List[int]:
    """Controls whose outline has another figure than other counts, or any where every coordinate must be exact."""
    all_exact = shape.depth == 0 and shape.basis not in (B_SPLINE, LOOP)
    while True:
        controls = small(dice, shape.count) if dice.one_in(2) else grained(dice, shape, shape.count)
        values = exact_outline(shape, controls)
        if all_exact or whole_values(values) not in other_counts(values):
            return controls


def every_way(script: Script, shape: Shape, controls: List[int]) -> None:
    script.lend(2 * shape.count, 2 * point_count(shape), fill=script.dice.junk())
    script.read(shape, controls)
    for way in WAYS:
        script.junk_points(2)
        script.show(way)
        assert script.last == ACCEPTED


def edits(script: Script) -> None:
    """Each edit of each basis over a drawn outline: exact coordinates are kept or carried beside the fresh ones."""
    for basis in BASES_BEFORE:
        for op in edits_of(basis):
            for depth in (0, 1, 3, 5):
                one_edit(script, op, Shape(basis, depth, SPAN_RECORDS + 6 * STRIDE[basis]))


def one_edit(script: Script, op: int, shape: Shape) -> None:
    """A drawing and an edit of it, over places until the figure is neither nought nor the whole outline's."""
    dice = script.dice
    new = shape._replace(count=shape.count + CHANGE.get(op, 0))
    while True:
        controls, place, record = grained(dice, shape, shape.count), dice.below(shape.count), grained(dice, shape, 1)
        script.lend(*needs(op, shape), fill=dice.junk())
        script.read(shape, controls)
        script.show(dice.pick(WAYS))
        script.edit(op, place, record)
        assert script.last == ACCEPTED
        if 0 < figure(script) < whole_values(exact_outline(new, script.bench.controls)):
            return


def figure(script: Script) -> int:
    """The figure of the last edit: its line's last number but the parameter."""
    return int(script.lines[0].split()[-2])


def none_fresh(script: Script) -> None:
    """A removal of the first record: no span is fresh, so none of the exact coordinates is counted."""
    for depth in (0, 2):
        shape = Shape(CARDINAL, depth, SPAN_RECORDS + 4)
        script.lend(*needs(trials.REMOVE, shape))
        script.read(shape, grained(script.dice, shape, shape.count))
        script.show(trials.DIFFERENCES)
        script.say(trials.REMOVE, 0)
        assert figure(script) == 0
