"""Trials of edits with a parameter: it is kept to, handed on, and refused above one (document 02, request 7)."""

from typing import List

import refusal
import trials
from make_trials import edits, halves
from make_trials.defects import EDITS, needs
from make_trials.depths import TOO_DEEP, comes_to
from make_trials.edits import edits_of
from make_trials.misreadings import EDIT_AT_HALF, EDIT_LOSES, Misreading, told_from
from make_trials.outlines import WAYS
from make_trials.script import ACCEPTED, Script
from make_trials.tautness import HALF_WAY, HALVES, TAUT, TOO_LARGE, after_parameter, not_refused, set_parameter, wide
from outline import formula_points
from shape import (B_SPLINE, BEZIER, CARDINAL, HERMITE, MOST_RECORDS, ONE_HALF, SPAN_RECORDS, STRIDE, WHOLE_PARAMETER,
                   Shape, point_count)


def every_place(script: Script) -> None:
    """Each edit at each place of a small outline, at one parameter or another, over points that are no outline's."""
    dice = script.dice
    shape = Shape(CARDINAL, 1, SPAN_RECORDS + 4)
    for op in EDITS:
        script.lend(2 * shape.count + 2, 2 * point_count(shape) + 4, fill=dice.junk())
        script.read(shape, wide(dice, shape.count))
        for place in range(shape.count):
            script.shape(shape._replace(parameter=dice.pick(TAUT)))
            script.junk_points(2)
            with told_from(script, EDIT_LOSES):
                script.edit(op, place, dice.record())
            assert script.last == ACCEPTED
            script.show(trials.SHOW_POINTS)


def half_edits(script: Script) -> None:
    """Each edit with a fresh point at halves below zero on both axes."""
    for parameter in (3, WHOLE_PARAMETER):
        for op in EDITS:
            halves.one_edit(script, op, Shape(CARDINAL, script.dice.between(1, 3), SPAN_RECORDS + 3, parameter))


def runs(script: Script) -> None:
    """Long runs of edits, refused ones among them, over any contents."""
    for depth, parameter in ((0, 5), (1, 1), (2, WHOLE_PARAMETER), (1, 48)):
        shape = Shape(CARDINAL, depth, SPAN_RECORDS + 2, parameter)
        edits.run(script, shape, shape._replace(count=SPAN_RECORDS + 5), 30)
        assert script.bench.shape.parameter == parameter


def stale_points(script: Script) -> None:
    """Drawn at one parameter and edited at others: what is fresh is the new one's, all else stays or is carried."""
    dice = script.dice
    for depth in (1, 3):
        shape = Shape(CARDINAL, depth, SPAN_RECORDS + 10, dice.pick((3, 16, 33)))
        largest = shape._replace(count=shape.count + 6)
        script.lend(2 * largest.count, 2 * point_count(largest), fill=dice.junk())
        script.read(shape, wide(dice, shape.count))
        comes_to(script, ACCEPTED, dice.pick(WAYS))
        for parameter in (WHOLE_PARAMETER, dice.pick(TOO_LARGE), 1, HALF_WAY, 2 ** 32 - 1, ONE_HALF, 48):
            for op in dice.some(EDITS, 2) or EDITS:
                set_parameter(script, parameter)
                one_stale_edit(script, op)


def one_stale_edit(script: Script, op: int) -> None:
    """An edit in the middle of the outline: some spans are fresh, and the others are those of another parameter."""
    shape = script.bench.shape
    with told_from(script, *edited_otherwise(shape.parameter)):
        script.edit(op, shape.count // 2, wide(script.dice, 1))
    assert script.last == after_parameter(shape, ACCEPTED)
    script.show(trials.SHOW_POINTS)
    if script.last == ACCEPTED:
        outline = formula_points(script.bench.shape, script.bench.controls)
        assert script.bench.points[:len(outline)] != outline


def edited_otherwise(parameter: int) -> List[Misreading]:
    """The wrong readings by which an edit at this parameter is another."""
    if parameter > WHOLE_PARAMETER:
        return not_refused(parameter)
    return [EDIT_LOSES] * (parameter != ONE_HALF) + [EDIT_AT_HALF] * (parameter not in HALVES)


def drawn_outlines_stay_drawn(script: Script) -> None:
    """A drawn outline stays that of its controls and parameter through a run of edits, with refused ones in between."""
    dice = script.dice
    for parameter in (1, 33, WHOLE_PARAMETER):
        shape = Shape(CARDINAL, 2, SPAN_RECORDS + 3, parameter)
        script.lend(2 * MOST_RECORDS, 2 * point_count(shape._replace(count=SPAN_RECORDS + 6)), fill=dice.junk())
        script.read(shape, wide(dice, shape.count))
        comes_to(script, ACCEPTED, dice.pick(WAYS))
        for op in EDITS * 3:
            script.edit(op, dice.below(script.bench.shape.count), wide(dice, 1))
            assert script.last == ACCEPTED
            good = script.bench.shape
            for refused, number in ((good._replace(parameter=dice.pick(TOO_LARGE)), refusal.PARAMETER),
                                    (good._replace(depth=dice.pick(TOO_DEEP)), refusal.DEPTH)):
                script.shape(refused)
                script.edit(dice.pick(EDITS), dice.below(good.count), dice.record())
                assert script.last == number
            script.shape(good)
        script.show(trials.SHOW_POINTS)
        edited = list(script.bench.points)
        comes_to(script, ACCEPTED, dice.pick(WAYS))
        assert script.bench.points == edited


def handed_on(script: Script) -> None:
    """A parameter that is not looked at is handed on by every edit as it came."""
    dice = script.dice
    for basis in (BEZIER, B_SPLINE, HERMITE):
        shape = Shape(basis, 1, SPAN_RECORDS + 2 * STRIDE[basis])
        for op in edits_of(basis):
            for parameter in (1, WHOLE_PARAMETER, dice.pick(TOO_LARGE), 2 ** 32 - 1):
                script.lend(*needs(op, shape), fill=dice.coordinate())
                script.shape(shape._replace(parameter=parameter))
                with told_from(script, EDIT_LOSES):
                    script.edit(op, dice.below(shape.count), dice.record())
                assert script.last == ACCEPTED and script.bench.shape.parameter == parameter
        script.show(trials.SHOW_POINTS)
