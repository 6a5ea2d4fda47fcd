"""Trials at exact halves, on both sides of zero, each with its mirrors (document 02, request 1).

A half goes away from zero, so that a drawing and its mirror round alike.  It went
to the greater number before; each trial here is seen to tell the two rules apart.
"""

from fractions import Fraction
from math import floor
from typing import List, Optional, Sequence, Set, Tuple

import trials
from checks import Record
from curve import cubic, exact_outline, parameter_value, powers, product
from drawing import MICROMETRES_PER_MM
from make_trials.defects import CHANGE, needs
from make_trials.dice import BASES_BEFORE, DEEPEST_BEFORE, Dice
from make_trials.edits import edits_of
from make_trials.outlines import WAYS
from make_trials.script import ACCEPTED, Script
from shape import (B_SPLINE, BEZIER, CARDINAL, HERMITE, LOOP, MOST_RECORDS, SPAN_RECORDS, STRIDE, Shape,
                   numbers_of, point_count, span_points, span_records, spans)

X, Y = AXES = 0, 1
# As it stands, and mirrored on each axis.
MIRRORS = (None, X, Y)

Side = Tuple[int, bool]
ALL_SIDES = {(axis, above) for axis in AXES for above in (False, True)}
BELOW = {(axis, False) for axis in AXES}

# Every exact half of a micrometre that a double can be is an odd sixteenth of a millimetre.
PER_MM = 16
FARTHEST = 63_999


def mirrored(numbers: Sequence, axis: Optional[int]) -> List:
    """The numbers of records or points with those on one axis negated."""
    return [-number if at % 2 == axis else number for at, number in enumerate(numbers)]


def sides(values: Sequence[Fraction]) -> Set[Side]:
    """The axes, and the sides of zero, on which exact values of points have halves."""
    return {(at % 2, value > 0) for at, value in enumerate(values) if value.denominator == 2}


def told_apart(values: Sequence[Fraction], rounded: Sequence[int]) -> bool:
    """Whether the rule before, an exact half to the greater, rounds otherwise."""
    return [floor(value + Fraction(1, 2)) for value in values] != list(rounded)


def divisor(shape: Shape) -> int:
    """The least whole number, over 2^(3k), that makes every share of a record in a point whole."""
    return {BEZIER: 1, B_SPLINE: 6, CARDINAL: parameter_value(shape.parameter).denominator, HERMITE: 1, LOOP: 6}[shape.basis]


def half_coordinate(dice: Dice, shape: Shape, three: Sequence[int], step: int) -> int:
    """What a span's last record must be, after the other three, for the point at a step to be an exact half."""
    whole = divisor(shape) * 8 ** shape.depth
    t = powers(Fraction(step, 2 ** shape.depth))
    others, share = (int(whole * product(t, cubic(shape.basis, four, shape.parameter)))
                     for four in ((*three, 0), (0, 0, 0, 1)))
    return (whole // 2 - others) * pow(share, -1, whole) % whole - dice.pick((0, whole))


def half_record(dice: Dice, shape: Shape, controls: Sequence[int], span: int) -> Record:
    """A last record for the span that puts one of its points at a half on both axes.

    The step has no factor in common with any divisor, so the share of the last record has none either.
    """
    step = dice.pick([step for step in range(1, 2 ** shape.depth + 1) if step % 2 and step % 3])
    three = span_records(shape, span)[:-1]
    x, y = (half_coordinate(dice, shape, [controls[2 * record + axis] for record in three], step) for axis in AXES)
    return x, y


def controls_at_halves(dice: Dice, shape: Shape) -> List[int]:
    """Controls that put a point of every span at a half, on both sides of zero on both axes."""
    while True:
        controls = dice.numbers(shape.count)
        for span in range(spans(shape)):
            last = span_records(shape, span)[-1]
            controls[2 * last:2 * last + 2] = half_record(dice, shape, controls, span)
        if sides(exact_outline(shape, controls)) == ALL_SIDES:
            return controls


def points(script: Script) -> None:
    """Outlines of each basis, at each depth that has halves, in each way."""
    for basis in BASES_BEFORE:
        for depth in range(0 if basis == B_SPLINE else 1, DEEPEST_BEFORE + 1):
            shape = Shape(basis, depth, SPAN_RECORDS + STRIDE[basis])
            controls = controls_at_halves(script.dice, shape)
            for axis in MIRRORS:
                every_way(script, shape, mirrored(controls, axis))


def every_way(script: Script, shape: Shape, controls: List[int]) -> None:
    """The outline in each way; halves stand on all sides, and the rule before has other numbers on both axes."""
    exact = exact_outline(shape, controls)
    assert sides(exact) == ALL_SIDES
    script.lend(2 * shape.count, 2 * point_count(shape), fill=script.dice.outside())
    script.read(shape, controls)
    for way in WAYS:
        script.junk_points(2)
        script.show(way, trials.SHOW_POINTS)
        assert all(told_apart(exact[axis::2], script.bench.points[axis::2]) for axis in AXES)


def edits(script: Script) -> None:
    """Each edit of each basis, with a fresh point at halves below zero on both axes."""
    for basis in BASES_BEFORE:
        for op in edits_of(basis):
            for depth in (1, 2, 4):
                one_edit(script, op, Shape(basis, depth, 10))


def one_edit(script: Script, op: int, shape: Shape) -> None:
    """An edit that comes to the shape, over points that are no outline's: the rule before has other fresh ones."""
    controls, span = span_below_zero(script.dice, shape)
    old = shape._replace(count=shape.count - CHANGE.get(op, 0))
    before, place, record = undone(script.dice, op, controls, span_records(shape, span))
    part = numbers_of(span_points(shape, span))
    for axis in MIRRORS:
        script.lend(*needs(op, old), fill=script.dice.outside())
        script.read(old, mirrored(before, axis))
        script.edit(op, place, mirrored(record, axis))
        script.show(trials.SHOW_CONTROLS, trials.SHOW_POINTS)
        exact = exact_outline(shape, mirrored(controls, axis))
        assert script.last == ACCEPTED and told_apart(exact[part], script.bench.points[part])


def span_below_zero(dice: Dice, shape: Shape) -> Tuple[List[int], int]:
    """Controls, and a span of theirs that has halves below zero on both axes."""
    while True:
        controls = controls_at_halves(dice, shape)
        exact = exact_outline(shape, controls)
        for span in range(spans(shape)):
            if sides(exact[numbers_of(span_points(shape, span))]) >= BELOW:
                return controls, span


def undone(dice: Dice, op: int, controls: List[int], records: Sequence[int]) -> Tuple[List[int], int, List[int]]:
    """The controls before an edit that works the span of these records afresh; the edit's place and record."""
    place = dice.pick(records[1:]) if op == trials.REMOVE else records[-1]
    earlier, record, later = controls[:2 * place], controls[2 * place:2 * place + 2], controls[2 * place + 2:]
    other = [*dice.record()]
    there = {trials.MOVE: other, trials.INSERT: [], trials.REMOVE: other + record}[op]
    return earlier + there + later, place, record


def numbers(script: Script) -> None:
    """Odd sixteenths of a millimetre of every size up to the limit, and the first past it, on both sides."""
    sizes = {1, FARTHEST, FARTHEST + 2, *(2 ** power + side for power in range(2, 16) for side in (-1, 1))}
    script.lend(2, 0)
    for size in sorted(sizes):
        for number in (size / PER_MM, -size / PER_MM):
            script.say(trials.SET_STATE, 0, 0, 0, 0, 0, 0)
            script.say(trials.STEP_MOVE, number, -number)
            assert (script.last == ACCEPTED) == (size <= FARTHEST)
            assert size > FARTHEST or told_apart(in_micrometres((number, -number)), script.bench.controls)


def in_micrometres(step: Sequence[float]) -> List[Fraction]:
    return [Fraction(number) * MICROMETRES_PER_MM for number in step]


def drawings(script: Script) -> None:
    """Drawings in odd sixteenths: along the y axis to zero, along the x axis, on by a curve, and closed."""
    for depth in range(4):
        right, up, *curve = sixteenths(script.dice, 4)
        steps = ((trials.STEP_MOVE, (0.0, up)), (trials.STEP_LINE, (0.0, 0.0)), (trials.STEP_LINE, (right, 0.0)),
                 (trials.STEP_CUBIC, curve))
        for axis in MIRRORS:
            one_drawing(script, depth, [(op, mirrored(step, axis)) for op, step in steps])


def sixteenths(dice: Dice, records: int) -> List[float]:
    """Records in odd sixteenths, on one side of zero and on the other in turn."""
    signs = dice.sign(), dice.sign()
    sizes = [(2 * dice.below(FARTHEST // 2 + 1) + 1) / PER_MM for _ in range(2 * records)]
    return [size * signs[at % 2] * (-1) ** (at // 2) for at, size in enumerate(sizes)]


def one_drawing(script: Script, depth: int, steps: Sequence[Tuple[int, List[float]]]) -> None:
    """The drawing step by step, by the rule before another on both axes; then drawn in each way and previewed."""
    script.lend(2 * MOST_RECORDS, 2 * MOST_RECORDS, 2 * MOST_RECORDS, script.dice.junk())
    script.say(trials.SET_STATE, 0, 0, 0, 0, 0, 0)
    apart: Set[int] = set()
    for op, step in steps:
        script.say(op, *step)
        end = 2 * script.bench.state.count
        written = script.bench.controls[end - len(step):end]
        apart |= {axis for axis in AXES if told_apart(in_micrometres(step)[axis::2], written[axis::2])}
    assert apart == set(AXES)
    script.show(trials.STEP_CLOSE, trials.SHOW_CONTROLS)
    script.shape(Shape(BEZIER, depth, script.bench.state.count))
    for way in WAYS:
        script.junk_points(2)
        script.show(way, trials.SHOW_POINTS)
    script.show(trials.PREVIEW, trials.SHOW_PREVIEW)
