"""Trials of the outline by tolerance (document 02, request 3).

Every call is seen to come to what the request says; each at an edge is seen to tell
the request's rule from the wrong ones that the edge is for.
"""

from fractions import Fraction
from itertools import count
from typing import Callable, Collection, List, NamedTuple, Sequence, Tuple

import refusal
import trials
from checks import CONTROL_LIMIT
from curve import whole_values
from make_trials.defects import NO_BASIS, bad_shape
from make_trials.dice import BASES_BEFORE, DEEPEST_BEFORE, Dice
from make_trials.exact import grained, other_counts
from make_trials.halves import ALL_SIDES, AXES, MIRRORS, X, Y, controls_at_halves, mirrored, sides, told_apart
from make_trials.rules import (ANEW_EACH_SPAN, AXES_ADDED, EXCHANGED, FIRST_CUT_FREE, LAST_CUTS_FREE, MOST_FIRST,
                               ONLY_FIRST, ONLY_LAST, ONLY_X, ONLY_Y, RIGHT, RIGHT_FIRST, ROUNDED, STRICT, Rule, Walk,
                               bends)
from make_trials.script import ACCEPTED, Script
from shape import (B_SPLINE, BEZIER, CARDINAL, DEEPEST, HERMITE, LOOP, MOST_RECORDS, SPAN_RECORDS, STRIDE,
                   WHOLE_PARAMETER, Shape, point_count, spans)
from tolerance import FINEST, MOST_TOLERANCE, span_pieces

# More cuts than any outline needs, and all that a span can have.
ANY_CUTS = 2 ** 63 - 1
ALL_CUTS = 2 ** FINEST - 1

ONE_SPAN = Shape(BEZIER, 0, SPAN_RECORDS)
# One number less than the two ends of a span.
TOO_LITTLE_ROOM = 3
OTHER_AXIS_ALONE = {X: ONLY_Y, Y: ONLY_X}

# One axis of a span whose second differences are both 1, and of one whose steps are equal.
PARABOLA = {BEZIER: (0, 0, 1, 3), B_SPLINE: (3, 0, 3, 12), CARDINAL: (3, 0, 3, 12), HERMITE: (0, 0, 3, 6)}
STRAIGHT = {BEZIER: (0, 1, 2, 3), B_SPLINE: (0, 1, 2, 3), CARDINAL: (0, 1, 2, 3), HERMITE: (0, 1, 1, 1)}
# Bezier controls of which the first second difference alone is 1, and the second alone.
FIRST_BEND, LAST_BEND = (1, 0, 0, 0), (0, 0, 0, 1)
# A Line's: its length, and its length back.
LINE = (0, 0, 1, 1)


def flattest(tolerance: int, depth: int) -> int:
    """The greatest whole second difference of a span that so many cuts make flat: a piece has a 4^depth-th of it."""
    return 4 ** depth * 4 * tolerance // 3


def times(factor: int, four: Sequence[int]) -> List[int]:
    return [factor * number for number in four]


def on_axis(axis: int, numbers: Sequence[int], others: Sequence[int]) -> List[int]:
    """Controls with these numbers on one axis and the others on the other."""
    return [number for pair in zip(*((numbers, others) if axis == X else (others, numbers))) for number in pair]


def lay(script: Script, shape: Shape, controls: Sequence[int], room: int) -> None:
    """The shape and its controls, over points that held something else."""
    script.lend(2 * shape.count, room, fill=script.dice.junk())
    script.read(shape, controls)


def lay_for(script: Script, shape: Shape, controls: Sequence[int], tolerance: int) -> Walk:
    """The same with as much room as the tolerance needs, or too little where the walk is refused; and that walk."""
    walk = Walk(RIGHT, shape, controls, tolerance, ANY_CUTS)
    lay(script, shape, controls, len(walk.values) or TOO_LITTLE_ROOM)
    return walk


def cut(script: Script, tolerance: int, most: int, *wrong: Rule) -> Walk:
    """The call, and the points after it; by each wrong rule it comes out otherwise."""
    call = script.bench.shape, script.bench.controls, tolerance, most
    walk = Walk(RIGHT, *call)
    assert all(Walk(rule, *call).outcome() != walk.outcome() for rule in wrong)
    script.say(trials.CUT, tolerance, most)
    assert script.lines == [walk.line()]
    script.show(trials.SHOW_POINTS)
    return walk


def met(script: Script, number: int, tolerance: int, most: int, *wrong: Rule) -> None:
    """A call that the walk refuses with this number."""
    assert cut(script, tolerance, most, *wrong).met == number


def accepted(script: Script, cuts: int, tolerance: int, most: int, *wrong: Rule) -> None:
    """A call that makes so many cuts."""
    walk = cut(script, tolerance, most, *wrong)
    assert (len(walk.values), walk.cuts) == (2 * (spans(script.bench.shape) + cuts + 1), cuts)


def any_outline(dice: Dice, basis: int, size: int) -> Tuple[Shape, List[int]]:
    """A shape of one to three spans and any depth, and controls of up to that size."""
    shape = dice.shape((basis,), DEEPEST_BEFORE, SPAN_RECORDS + 2 * STRIDE[basis])
    return shape, [dice.between(-size, size) for _ in range(2 * shape.count)]


def one_far(dice: Dice, basis: int, size: int) -> Tuple[Shape, List[int]]:
    """The same with all records but the first or the last in one place, so that it bends at one end alone."""
    shape, controls = any_outline(dice, basis, size)
    far = dice.pick((0, shape.count - 1))
    return shape, [number if at // 2 == far else 0 for at, number in enumerate(controls)]


def outlines(script: Script) -> None:
    """Outlines of each basis and of many sizes: with one cut too few, just enough, and cuts to spare."""
    dice = script.dice
    for basis in BASES_BEFORE:
        for size in (9, 1000, 40_000, 1_000_000, CONTROL_LIMIT):
            shape, controls = any_outline(dice, basis, size)
            tolerance = dice.pick((1, dice.between(0, 1 + size // 400), dice.between(1, MOST_TOLERANCE)))
            walk = lay_for(script, shape, controls, tolerance)
            for most in sorted({max(walk.cuts - 1, 0), walk.cuts}):
                assert (cut(script, tolerance, most).met == refusal.CUTS) == (most < walk.cuts)
            cut(script, tolerance, dice.pick((walk.cuts + 1, 2 ** 32, ANY_CUTS)))


# What can be wrong with a call, in the order in which it is found.  Where the cuts run out before the piece that
# stays bent is met, 22 comes before 21.
FOUND = {"basis": refusal.BASIS, "depth": refusal.DEPTH, "parameter": refusal.PARAMETER, "count": refusal.COUNT,
         "controls": refusal.CONTROLS_SHORT, "limit": refusal.LIMITS, "tolerance": refusal.TOLERANCE,
         "most": refusal.CUTS, "bent": refusal.NOT_FLAT, "points": refusal.POINTS_SHORT}
# What is tried here; the parameter is not, so that the records stay what they were.
DEFECTS = tuple(name for name in FOUND if name != "parameter")
# What is no basis, though the loop's is one by now.
NO_BASIS_STILL = tuple(basis for basis in NO_BASIS if basis != LOOP)
TOO_MUCH = (MOST_TOLERANCE + 1, 2 ** 15, 2 ** 31, 2 ** 32, 2 ** 32 + MOST_TOLERANCE, 2 ** 62, 2 ** 63 - 1)


def refusals(script: Script) -> None:
    """Each defect alone and each two of them."""
    dice = script.dice
    for first, name in enumerate(DEFECTS):
        for other in DEFECTS[first:]:
            one_call(script, Shape(dice.pick(BASES_BEFORE), dice.below(DEEPEST_BEFORE + 1), SPAN_RECORDS), {name, other})


def one_call(script: Script, shape: Shape, defects: Collection[str]) -> None:
    """A span that bends far to one end of it, with what is wrong."""
    dice = script.dice
    still, far, at = dice.between(-9, 9), dice.sign() * (CONTROL_LIMIT - dice.below(9)), 2 * SPAN_RECORDS - 2
    tolerance, most, room = asked(dice, shape, [still] * at + [far, still], defects)
    script.lend(2 * SPAN_RECORDS - ("controls" in defects), room, fill=still)
    script.say(trials.SET_CONTROL, at, far)
    place = dice.below(at)
    if "limit" in defects:
        script.say(trials.SET_CONTROL, place, dice.outside())
    laid = bad_shape(dice, shape, defects)
    script.shape(laid)
    script.say(trials.CUT, tolerance, most)
    if laid.basis in (shape.basis, *NO_BASIS_STILL):
        see_found(script, first_found(laid, defects), place // 2)
    script.show(trials.SHOW_POINTS)


def see_found(script: Script, found: int, record: int) -> None:
    """What is found first; a record outside the limits is this one."""
    assert script.last == found
    assert found == ACCEPTED or script.lines == [f"refused {found} {record if found == refusal.LIMITS else 0}"]


def first_found(laid: Shape, defects: Collection[str]) -> int:
    """The number of what is found first; depth and parameter are wrong where they are past their most, and only there."""
    past = {"depth": laid.depth > DEEPEST, "parameter": laid.basis == CARDINAL and laid.parameter > WHOLE_PARAMETER}
    return next((number for name, number in FOUND.items() if past.get(name, name in defects)), ACCEPTED)


def asked(dice: Dice, shape: Shape, controls: Sequence[int], defects: Collection[str]) -> Tuple[int, int, int]:
    """The tolerance, the most cuts and the room for points: good ones, but for rows 20, 21, 22 and 9."""
    tolerance = 0 if "bent" in defects else dice.between(MOST_TOLERANCE // 2, MOST_TOLERANCE)
    walk = Walk(RIGHT, shape, controls, tolerance, ANY_CUTS)
    most = dice.below(walk.cuts) if "most" in defects else dice.pick((walk.cuts, ANY_CUTS))
    needed = len(walk.values) or 2 * (ALL_CUTS + 2)
    room = needed - dice.pick((1, 1, 2, needed)) if "points" in defects else needed
    return dice.pick(TOO_MUCH) if "tolerance" in defects else tolerance, most, room


def rooms(script: Script) -> None:
    """Room for one number too few, for just enough, and for one more, which is kept."""
    dice = script.dice
    for basis in BASES_BEFORE:
        shape, controls = any_outline(dice, basis, CONTROL_LIMIT)
        tolerance = dice.between(MOST_TOLERANCE // 2, MOST_TOLERANCE)
        needed = len(Walk(RIGHT, shape, controls, tolerance, ANY_CUTS).values)
        for room, number in ((needed - 1, refusal.POINTS_SHORT), (needed, ACCEPTED), (needed + 1, ACCEPTED)):
            lay(script, shape, controls, room)
            last = script.bench.points[-1]
            script.say(trials.CUT, tolerance, ANY_CUTS)
            assert script.last == number and (room == needed or script.bench.points[-1] == last)
            script.show(trials.SHOW_POINTS)


def numbers(script: Script) -> None:
    """The greatest tolerance and those past it, by the greatest numbers too, on a flat span and on a bent one."""
    for four in (STRAIGHT[BEZIER], times(CONTROL_LIMIT, LINE)):
        lay_for(script, ONE_SPAN, on_axis(X, four, four), MOST_TOLERANCE)
        for tolerance in TOO_MUCH:
            for most in (0, ANY_CUTS):
                script.say(trials.CUT, tolerance, most)
                assert script.last == refusal.TOLERANCE
        script.show(trials.SHOW_POINTS)
        assert cut(script, MOST_TOLERANCE, ANY_CUTS).met == ACCEPTED


def just_too_little(shape: Shape, controls: Sequence[int]) -> int:
    """The greatest tolerance for which six cuts leave a piece bent, or 0."""
    bend = max(max(both) for piece in span_pieces(shape, controls) for both in bends(piece))
    return next(tolerance for tolerance in count() if flattest(tolerance + 1, FINEST) >= bend)


class Told(NamedTuple):
    """A call that a wrong rule takes otherwise."""

    shape: Shape
    controls: List[int]
    tolerance: int
    most: int


def told(dice: Dice, basis: int, number: int, wrong: Rule) -> Told:
    """A call of the basis that comes to the number, or to no refusal, and by the wrong rule to something else."""
    while True:
        shape, controls = dice.pick((any_outline, one_far))(dice, basis, dice.pick((40, 4000, CONTROL_LIMIT)))
        tolerance = dice.pick((1, 2, dice.between(1, 1500), just_too_little(shape, controls)))
        walk = Walk(RIGHT, shape, controls, tolerance, ANY_CUTS)
        for most in (walk.cuts, dice.below(walk.cuts + 1), dice.below(walk.cuts + 1)):
            came, other = (Walk(rule, shape, controls, tolerance, most) for rule in (RIGHT, wrong))
            if came.met == number and came.outcome() != other.outcome():
                return Told(shape, controls, tolerance, most)


def rules(script: Script) -> None:
    """Outlines of each basis that tell the wrong rules from the right one, where that one refuses and where not."""
    for basis in BASES_BEFORE:
        for number, wrong in ((ACCEPTED, ROUNDED), (ACCEPTED, ONLY_X), (ACCEPTED, ONLY_Y), (ACCEPTED, EXCHANGED),
                              (ACCEPTED, LAST_CUTS_FREE), (refusal.CUTS, FIRST_CUT_FREE),
                              (refusal.CUTS, ANEW_EACH_SPAN), (refusal.CUTS, RIGHT_FIRST),
                              (refusal.NOT_FLAT, RIGHT_FIRST), (refusal.NOT_FLAT, MOST_FIRST)):
            shape, controls, tolerance, most = told(script.dice, basis, number, wrong)
            lay_for(script, shape, controls, tolerance)
            cut(script, tolerance, most, wrong)


def walks(script: Script) -> None:
    """21 and 22 at one piece, and at two pieces in either order, in one span and in two."""
    for axis in AXES:
        tolerance = script.dice.between(1, 700)
        bend = script.dice.sign() * (flattest(tolerance, FINEST) + 1)
        lay_for(script, ONE_SPAN, on_axis(axis, times(bend, FIRST_BEND), STRAIGHT[BEZIER]), tolerance)
        met(script, refusal.CUTS, tolerance, 0)
        met(script, refusal.CUTS, tolerance, FINEST - 1)
        met(script, refusal.NOT_FLAT, tolerance, FINEST, MOST_FIRST, RIGHT_FIRST)
        met(script, refusal.NOT_FLAT, tolerance, FINEST + 1, RIGHT_FIRST)
        walk = lay_for(script, ONE_SPAN, on_axis(axis, times(bend, LAST_BEND), STRAIGHT[BEZIER]), tolerance)
        met(script, refusal.CUTS, tolerance, FINEST, RIGHT_FIRST)
        met(script, refusal.CUTS, tolerance, walk.cuts - 1, RIGHT_FIRST)
        met(script, refusal.NOT_FLAT, tolerance, walk.cuts, MOST_FIRST)
        met(script, refusal.NOT_FLAT, tolerance, walk.cuts + 1)
        two_spans(script, axis, tolerance, bend)


def two_spans(script: Script, axis: int, tolerance: int, bend: int) -> None:
    """A Line that stays bent and one half as long: the span that the walk comes to first decides."""
    long, short, shape = times(bend, LINE), times(bend // 2, LINE), ONE_SPAN._replace(count=2 * SPAN_RECORDS - 1)
    for first, then, number in ((long, short, refusal.NOT_FLAT), (short, long, refusal.CUTS)):
        there_and_back = [*first, *(first[-1] - back for back in then[1:])]
        lay_for(script, shape, on_axis(axis, there_and_back, [0] * shape.count), tolerance)
        met(script, number, tolerance, FINEST, RIGHT_FIRST)


def flat_spans(script: Script) -> None:
    """No tolerance: a span in equal steps is flat, one a micrometre off is not, and a Line is not."""
    dice = script.dice
    for basis in BASES_BEFORE:
        x, y = (times(dice.between(-1000, 1000), STRAIGHT[basis]) for _ in AXES)
        lay_for(script, Shape(basis, 0, SPAN_RECORDS), on_axis(X, x, y), 0)
        accepted(script, 0, 0, 0, STRICT)
        at = 2 * dice.below(SPAN_RECORDS) + dice.below(2)
        script.say(trials.SET_CONTROL, at, script.bench.controls[at] + dice.sign())
        met(script, refusal.CUTS, 0, 0)
        met(script, refusal.NOT_FLAT, 0, ANY_CUTS)
    for axis in AXES:
        lay_for(script, ONE_SPAN, on_axis(axis, times(3 * dice.sign(), LINE), [0] * SPAN_RECORDS), 0)
        met(script, refusal.CUTS, 0, FINEST - 1)
        met(script, refusal.NOT_FLAT, 0, FINEST, MOST_FIRST)


def thresholds(script: Script) -> None:
    """One second difference on one axis at the most that is flat after so many cuts; less tolerance, and more bend."""
    dice = script.dice
    for axis in AXES:
        for four, wrong in ((FIRST_BEND, ONLY_LAST), (LAST_BEND, ONLY_FIRST)):
            for depth in (0, 2, FINEST):
                tolerance, sign = 3 * dice.between(2, 200), dice.sign()
                bend = flattest(tolerance, depth)
                lay(script, ONE_SPAN, on_axis(axis, times(sign * bend, four), [0] * SPAN_RECORDS), room_after(depth))
                cut(script, tolerance - 1, ANY_CUTS, wrong, OTHER_AXIS_ALONE[axis])
                at_most = cut(script, tolerance, ANY_CUTS, STRICT, EXCHANGED)
                script.say(trials.SET_CONTROL, 2 * four.index(1) + axis, sign * (bend + 1))
                past = cut(script, tolerance, ANY_CUTS, wrong, OTHER_AXIS_ALONE[axis])
                assert at_most.met == ACCEPTED
                assert past.met == refusal.NOT_FLAT if depth == FINEST else past.cuts == at_most.cuts + 1


def room_after(depth: int) -> int:
    """Room for the points of one span whose pieces have at most one cut more."""
    return 2 * (2 ** min(depth + 1, FINEST) + 1)


def parabolas(script: Script) -> None:
    """Spans of each basis that bend alike all along, at the most that is flat after so many cuts; one axis past it."""
    dice = script.dice
    for basis in BASES_BEFORE:
        shape = Shape(basis, dice.below(DEEPEST_BEFORE + 1), SPAN_RECORDS)
        for depth in (1, FINEST):
            tolerance, cuts = 3 * dice.between(1, 20), 2 ** depth - 1
            bend = flattest(tolerance, depth)
            x, y = (times(dice.sign() * bend, PARABOLA[basis]) for _ in AXES)
            lay(script, shape, on_axis(X, x, y), room_after(depth))
            accepted(script, cuts, tolerance, cuts, STRICT, EXCHANGED, AXES_ADDED)
            axis = dice.pick(AXES)
            lay(script, shape, on_axis(axis, times(bend + 1, PARABOLA[basis]), (x, y)[1 - axis]), room_after(depth))
            if depth == FINEST:
                met(script, refusal.NOT_FLAT, tolerance, ANY_CUTS, OTHER_AXIS_ALONE[axis])
            else:
                accepted(script, 2 * cuts + 1, tolerance, ANY_CUTS, OTHER_AXIS_ALONE[axis])


def all_cut(script: Script) -> None:
    """Spans of which every piece above the finest is cut: the points are those of the even outline."""
    dice = script.dice
    for basis in BASES_BEFORE:
        shape, tolerance = Shape(basis, FINEST, SPAN_RECORDS), dice.between(1, 60)
        for bend in (flattest(tolerance, FINEST - 1) + 1, flattest(tolerance, FINEST)):
            other = times(dice.between(-1000, 1000), STRAIGHT[basis])
            lay(script, shape, on_axis(dice.pick(AXES), times(bend, PARABOLA[basis]), other), 2 * point_count(shape))
            met(script, refusal.CUTS, tolerance, ALL_CUTS - 1)
            accepted(script, ALL_CUTS, tolerance, ALL_CUTS)
            chosen = list(script.bench.points)
            script.show(trials.WEIGHTS, trials.SHOW_POINTS)
            assert script.bench.points == chosen


def longest(script: Script) -> None:
    """The most spans, each with all its cuts."""
    shape, tolerance, middle = Shape(B_SPLINE, FINEST, MOST_RECORDS), 1, MOST_RECORDS // 2
    bend = 3 * (flattest(tolerance, FINEST - 1) + 1)
    dip = [bend * (place - middle) ** 2 - CONTROL_LIMIT for place in range(MOST_RECORDS)]
    cuts = ALL_CUTS * spans(shape)
    script.lend(2 * MOST_RECORDS, 2 * point_count(shape), fill=script.dice.junk())
    script.read(shape, on_axis(Y, dip, [1000 * place for place in range(MOST_RECORDS)]))
    for most, number in ((cuts - 1, refusal.CUTS), (cuts, ACCEPTED)):
        script.say(trials.CUT, tolerance, most)
        assert script.last == number
        for span in (0, script.dice.below(spans(shape)), spans(shape) - 1):
            script.say(trials.VIEW, span)


def lines(script: Script) -> None:
    """Lines of the greatest length that a tolerance allows, and a micrometre longer; the longest Line there is."""
    dice = script.dice
    for tolerance in (1, 2, 3, dice.between(4, 700)):
        length = flattest(tolerance, FINEST)
        for axis in AXES:
            four = times(dice.sign() * length, LINE)
            lay_for(script, ONE_SPAN, on_axis(axis, four, dice.pick(((0, 0, 0, 0), four))), tolerance)
            cut(script, tolerance, ANY_CUTS, EXCHANGED)
            for record in (2, 3):
                script.say(trials.SET_CONTROL, 2 * record + axis, four[-1] + four[-1] // length)
            met(script, refusal.NOT_FLAT, tolerance, ANY_CUTS)


def roughest(script: Script) -> None:
    """The longest Line and the most bent span: the tolerance that allows it, and one less."""
    for four in ((-1, -1, 1, 1), (-1, 1, -1, 1)):
        for axis in AXES:
            controls = on_axis(axis, times(CONTROL_LIMIT, four), STRAIGHT[BEZIER])
            tolerance = just_too_little(ONE_SPAN, controls)
            lay_for(script, ONE_SPAN, controls, tolerance + 1)
            met(script, refusal.NOT_FLAT, tolerance, ANY_CUTS)
            assert cut(script, tolerance + 1, ANY_CUTS).met == ACCEPTED


def depths(script: Script) -> None:
    """Each depth up to the deepest before, and the next, over one outline: all come out alike."""
    dice = script.dice
    for basis in BASES_BEFORE:
        shape, controls = any_outline(dice, basis, 40_000)
        tolerance = dice.between(30, 300)
        came = lay_for(script, shape, controls, tolerance)
        for depth in range(DEEPEST_BEFORE + 1):
            script.shape(shape._replace(depth=depth))
            script.junk_points(1)
            assert cut(script, tolerance, ANY_CUTS).outcome() == came.outcome()
        script.shape(shape._replace(depth=DEEPEST_BEFORE + 1))
        script.say(trials.CUT, tolerance, ANY_CUTS)
        assert script.lines == [came.line()]


def roundings(script: Script) -> None:
    """Outlines of each basis with chosen points at halves, on both sides of zero on both axes."""
    dice = script.dice
    for basis in BASES_BEFORE:
        shape = Shape(basis, 0 if basis == B_SPLINE else 1, SPAN_RECORDS + STRIDE[basis])
        tolerance = dice.between(MOST_TOLERANCE // 2, MOST_TOLERANCE)
        controls = chosen_where(tolerance, shape, lambda: controls_at_halves(dice, shape),
                                lambda values: sides(values) == ALL_SIDES)
        for axis in MIRRORS:
            lay_for(script, shape, mirrored(controls, axis), tolerance)
            walk = cut(script, tolerance, ANY_CUTS)
            assert all(told_apart(walk.values[axis::2], script.bench.points[axis::2]) for axis in AXES)


def figures(script: Script) -> None:
    """Outlines of each basis whose figure of exact coordinates is unlike other counts of the chosen points."""
    dice = script.dice
    for basis in BASES_BEFORE:
        for tolerance in (1, dice.between(2, 500)):
            shape = Shape(basis, dice.between(2, 3), SPAN_RECORDS + STRIDE[basis])
            controls = chosen_where(tolerance, shape, lambda: grained(dice, shape, shape.count),
                                    lambda values: whole_values(values) not in other_counts(values))
            lay_for(script, shape, controls, tolerance)
            cut(script, tolerance, ANY_CUTS)


def chosen_where(tolerance: int, shape: Shape, controls: Callable[[], List[int]],
                 holds: Callable[[List[Fraction]], bool]) -> List[int]:
    """Controls of which some span is cut, and whose chosen points are as asked."""
    while True:
        tried = controls()
        walk = Walk(RIGHT, shape, tried, tolerance, ANY_CUTS)
        if walk.met == ACCEPTED and walk.cuts > 0 and holds(walk.values):
            return tried
