"""Trials of loops: drawn, viewed, cut by tolerance and refused (document 02, request 8).

Every call is seen to come to what the request says; where a wrong reading of the request
would show, the call is seen to come out otherwise by it.
"""

from typing import Collection, List, Set

import refusal
import trials
from checks import CONTROL_LIMIT
from curve import exact_outline
from make_trials import exact, tolerance
from make_trials.defects import COUNTS, EDITS, FULL, call, lend_room, spoil_controls
from make_trials.depths import TOO_DEEP, at_the_limits, comes_to, span_numbers, view
from make_trials.dice import Dice
from make_trials.halves import ALL_SIDES, AXES, Side, X, half_coordinate, sides, told_apart
from make_trials.loop_misreadings import (DRAWN_JOINT_ONCE, FOUR_REFUSED, FROM_THE_RECORD_BEFORE, NO_LOOPS,
                                          PARAMETER_LOOKED_AT, PREVIEW_OFFERED, ROUND_ONE_LESS, SIXTY_ONE_AT_MOST,
                                          STOPPED_AT_THE_END, THREE_ACCEPTED)
from make_trials.misreadings import told_from
from make_trials.outlines import WAYS
from make_trials.rules import (ANEW_EACH_SPAN, EXCHANGED, FIRST_CUT_FREE, LAST_CUTS_FREE, MOST_FIRST, ONLY_X, ONLY_Y,
                               RIGHT, RIGHT_FIRST, ROUNDED, Walk)
from make_trials.script import ACCEPTED, Script
from make_trials.tolerance import ANY_CUTS, lay, lay_for, on_axis, times
from outline import formula_points
from shape import B_SPLINE, DEEPEST, LOOP, MOST_RECORDS, SPAN_RECORDS, Shape, point_count, span_records, spans
from tolerance import FINEST, MOST_TOLERANCE

FEW = (4, 5, 6, 7)
NO_BASIS = (0, LOOP + 1, 255, 256, 256 + LOOP, 2 ** 31 + LOOP, 2 ** 32 - 1)
# What no loop looks at: a parameter as good as any, above one, and the greatest.
PARAMETERS = (0, 1, 64, 65, 255, 2 ** 31, 2 ** 32 - 1)
NO_COUNT = tuple(count for count in COUNTS if not SPAN_RECORDS <= count <= MOST_RECORDS)
# Up to this depth all points of a small loop are shown; past it views of its first and last span.
ALL_SHOWN = 3


def wide(dice: Dice, count: int) -> List[int]:
    """Records so far from each other that one of them in another's place is seen."""
    return [dice.sign() * dice.between(CONTROL_LIMIT // 8, CONTROL_LIMIT) for _ in range(2 * count)]


def lay_loop(script: Script, shape: Shape, controls: List[int], spare: int = 0) -> None:
    """A loop's shape, with a parameter that is not looked at, and its controls over points that held something else."""
    script.lend(2 * shape.count + spare, 2 * point_count(shape) + spare, fill=script.dice.junk())
    script.read(shape, controls)
    parameter = script.dice.pick(PARAMETERS)
    if parameter:
        script.shape(shape._replace(parameter=parameter))


def show_ends(script: Script, shape: Shape) -> None:
    """All points, or where they are many the first span and the last; in both the joint."""
    if shape.depth <= ALL_SHOWN:
        script.show(trials.SHOW_POINTS)
    else:
        for span in (0, spans(shape) - 1):
            view(script, span, span_numbers(shape.depth))


# ---- outlines


def every_way(script: Script) -> None:
    """Loops of few records at each depth in each way, with exact halves on both sides of zero on both axes at each."""
    dice = script.dice
    for depth in range(DEEPEST + 1):
        seen: Set[Side] = set()
        for count in FEW:
            shape = Shape(LOOP, depth, count)
            sign = -1 if count % 2 else 1
            seen |= one_at_halves(script, shape, times(sign, on_axis(X, *(axis_at_a_half(dice, shape) for _ in AXES))))
        while seen != ALL_SIDES:
            shape = Shape(LOOP, depth, SPAN_RECORDS)
            seen |= one_at_halves(script, shape, on_axis(X, *(axis_at_a_half(dice, shape) for _ in AXES)))


def axis_at_a_half(dice: Dice, shape: Shape) -> List[int]:
    """A loop's records on one axis, with the fourth such that a point of span 0 is an exact half; most are past the limits."""
    while True:
        step = dice.pick([step for step in range(1, 2 ** shape.depth + 1) if step % 2 and step % 3])
        three = [dice.coordinate() for _ in range(SPAN_RECORDS - 1)]
        last = half_coordinate(dice, shape, three, step)
        if abs(last) <= CONTROL_LIMIT:
            return [*three, last, *(dice.coordinate() for _ in range(shape.count - SPAN_RECORDS))]


def one_at_halves(script: Script, shape: Shape, controls: List[int]) -> Set[Side]:
    """The loop in each way, and the sides that its halves are on: below zero a half goes away from it."""
    values = exact_outline(shape, controls)
    lay_loop(script, shape, controls, script.dice.below(3))
    for way in WAYS:
        script.junk_points(1)
        comes_to(script, ACCEPTED, way)
        assert script.bench.points[:len(values)] == formula_points(shape, controls)
        assert script.bench.points[len(values) - 2:len(values)] == script.bench.points[:2]
        for axis in AXES:
            assert (axis, False) not in sides(values) or told_apart(values[axis::2], script.bench.points[axis::2])
        show_ends(script, shape)
    return sides(values)


def far_apart(script: Script) -> None:
    """Records far from each other: other records for a span, or another number of them, and the points are others."""
    dice = script.dice
    for count in (*FEW, 8):
        shape = Shape(LOOP, dice.between(1, 3), count)
        lay_loop(script, shape, wide(dice, count))
        for way in WAYS:
            script.junk_points(1)
            with told_from(script, ROUND_ONE_LESS, STOPPED_AT_THE_END, FROM_THE_RECORD_BEFORE, NO_LOOPS):
                comes_to(script, ACCEPTED, way)
            script.show(trials.SHOW_POINTS)


def as_open_outlines(script: Script) -> None:
    """A loop comes to what an open B-spline does with the first three records again at the end."""
    dice = script.dice
    for count, depth in ((4, 2), (5, 1), (6, 2), (7, 0), (9, 3)):
        controls = dice.numbers(count)
        answers = []
        for shape, numbers in ((Shape(LOOP, depth, count), controls),
                               (Shape(B_SPLINE, depth, count + 3), controls + controls[:6])):
            lay(script, shape, numbers, 2 * point_count(shape))
            comes_to(script, ACCEPTED, dice.pick(WAYS))
            answers.append((script.lines, list(script.bench.points)))
            show_ends(script, shape)
        assert answers[0] == answers[1]


def figures(script: Script) -> None:
    """Figures of exact coordinates that other counts would not give; the joint is two points of the list."""
    for count in (4, 5, 8):
        for depth in (0, 1, 3, 5):
            shape = Shape(LOOP, depth, count)
            with told_from(script, DRAWN_JOINT_ONCE):
                exact.every_way(script, shape, exact.told_apart(script.dice, shape))


def longest(script: Script) -> None:
    """The most records, all at the limits in every pattern of signs; a list that lacks a number, and then each depth."""
    dice = script.dice
    shape = Shape(LOOP, DEEPEST, MOST_RECORDS)
    controls, room = at_the_limits(dice, shape), 2 * point_count(shape)
    lay(script, shape, controls, room - 1)
    for way in WAYS:
        comes_to(script, refusal.POINTS_SHORT, way)
    view(script, MOST_RECORDS - 1, 0)
    lay(script, shape, controls, room)
    for depth in reversed(range(DEEPEST + 1)):
        script.shape(shape._replace(depth=depth, parameter=dice.pick(PARAMETERS)))
        for way in WAYS:
            script.say(trials.SET_POINT, dice.pick((0, 1, 2 ** depth * 128, 2 ** depth * 128 + 1)), dice.outside())
            with told_from(script, SIXTY_ONE_AT_MOST):
                comes_to(script, ACCEPTED, way)
            view(script, MOST_RECORDS - 1, span_numbers(depth))
        for span in (0, dice.between(1, MOST_RECORDS - 5), MOST_RECORDS - 3, MOST_RECORDS - 2):
            if depth < FINEST or span == 0:
                view(script, span, span_numbers(depth))
        view(script, MOST_RECORDS, 0)


def longest_list(script: Script) -> None:
    """The longest loop in the longest list: the numbers past the last point stay."""
    shape = Shape(LOOP, DEEPEST, MOST_RECORDS)
    lay(script, shape, script.dice.numbers(MOST_RECORDS), trials.MOST_POINTS)
    kept = script.bench.points[-1]
    comes_to(script, ACCEPTED, script.dice.pick(WAYS))
    assert script.bench.points[2 * point_count(shape):] == [kept] * (trials.MOST_POINTS - 2 * point_count(shape))
    assert script.bench.points[2 * point_count(shape) - 2:2 * point_count(shape)] == script.bench.points[:2]
    for span in (0, MOST_RECORDS - 1):
        view(script, span, span_numbers(DEEPEST))


def at_the_farthest(script: Script) -> None:
    """Every record at one limit, so that every point is; then one at the other, at each place round."""
    dice = script.dice
    for count in (4, 5, 7):
        shape = Shape(LOOP, 1, count)
        for limit in (CONTROL_LIMIT, -CONTROL_LIMIT):
            lay(script, shape, [limit] * (2 * count), 2 * point_count(shape))
            comes_to(script, ACCEPTED, dice.pick(WAYS))
            assert set(script.bench.points) == {limit}
            for record in range(count):
                at = 2 * record + dice.below(2)
                script.say(trials.SET_CONTROL, at, -limit)
                comes_to(script, ACCEPTED, dice.pick(WAYS))
                script.say(trials.SET_CONTROL, at, limit)
            script.show(trials.SHOW_POINTS)


def outside(script: Script) -> None:
    """One number a micrometre outside, in each record of a loop; then at the limit, and past the last record any number."""
    dice = script.dice
    for count in (4, 6):
        shape = Shape(LOOP, 0, count)
        for record in range(count):
            script.lend(2 * count + 2, 2 * point_count(shape), fill=dice.coordinate())
            script.say(trials.SET_CONTROL, 2 * count + dice.below(2), dice.outside())
            script.shape(shape)
            at, limit = 2 * record + dice.below(2), dice.sign() * CONTROL_LIMIT
            for number, found in ((limit + limit // CONTROL_LIMIT, refusal.LIMITS), (limit, ACCEPTED)):
                script.say(trials.SET_CONTROL, at, number)
                for op in (dice.pick(WAYS), trials.CUT):
                    comes_to(script, found, op, *([MOST_TOLERANCE, ANY_CUTS] if op == trials.CUT and found else ()))
                    assert found == ACCEPTED or script.lines == [f"refused {found} {record}"]
                    if found == ACCEPTED:
                        break


# ---- views and previews


def views(script: Script) -> None:
    """Every span of small loops and past them; a list that lacks a number; what is no loop."""
    dice = script.dice
    for count in (*FEW, 8):
        shape = Shape(LOOP, dice.between(0, 2), count)
        lay_loop(script, shape, dice.numbers(count))
        comes_to(script, ACCEPTED, dice.pick(WAYS))
        last = script.bench.points[-2:]
        for span in range(count):
            view(script, span, span_numbers(shape.depth))
        assert script.lines[1].split()[-2:] == [str(number) for number in last]
        for span in (count, count + 1, 2 ** 32, 2 ** 32 + count - 1, 2 ** 63 - 1):
            view(script, span, 0)
        for bad in (*(shape._replace(count=other) for other in (3, 2, 0, MOST_RECORDS + 1, 2 ** 32 - 1)),
                    *(shape._replace(basis=other) for other in NO_BASIS[:3]), shape._replace(depth=DEEPEST + 1)):
            script.shape(bad)
            view(script, 0, 0)
        for short, length in ((1, 0), (0, span_numbers(shape.depth))):
            script.lend(0, 2 * point_count(shape) - short, fill=dice.junk())
            script.shape(shape._replace(parameter=dice.pick(PARAMETERS)))
            with told_from(script, *[PARAMETER_LOOKED_AT] * (short == 0 and script.bench.shape.parameter > 64)):
                view(script, count - 1, length)


def previews(script: Script) -> None:
    """No preview of a loop: 4 comes after 1, 2 and 3, and before all that the lists hold."""
    dice = script.dice
    for count in (4, 7, MOST_RECORDS):
        shape = Shape(LOOP, dice.below(3), count)
        room = 2 * point_count(shape)
        for controls, numbers, fill in ((2 * count, room, 0), (2 * count - 1, room, 0), (0, 0, 0), (2 * count, room - 1, 0),
                                        (2 * count, room, CONTROL_LIMIT + 1)):
            script.lend(controls, 0, numbers, fill)
            for parameter in (0, dice.pick(PARAMETERS[1:])):
                script.shape(shape._replace(parameter=parameter))
                with told_from(script, PREVIEW_OFFERED, NO_LOOPS):
                    comes_to(script, refusal.NOT_OFFERED, trials.PREVIEW)
            for bad, number in ((shape._replace(basis=dice.pick(NO_BASIS)), refusal.BASIS),
                                (shape._replace(depth=dice.pick(TOO_DEEP)), refusal.DEPTH),
                                (shape._replace(count=dice.pick(NO_COUNT)), refusal.COUNT)):
                script.shape(bad)
                comes_to(script, number, trials.PREVIEW)
        script.show(trials.SHOW_PREVIEW if count == SPAN_RECORDS else trials.SHOW_CONTROLS)


# ---- refusals


# What can be wrong with a call, in the order in which it is found, and by which calls it is looked for where not by all.
FOUND = {"basis": refusal.BASIS, "depth": refusal.DEPTH, "count": refusal.COUNT, "place": refusal.PLACE,
         "records": refusal.RECORDS, "controls": refusal.CONTROLS_SHORT, "limit": refusal.LIMITS,
         "record": refusal.LIMITS, "points": refusal.POINTS_SHORT}
LOOKED_FOR_BY = {"place": EDITS, "records": FULL, "record": (trials.MOVE, trials.INSERT)}


def refusals(script: Script) -> None:
    """Each defect alone and each two of them, at a drawing and at each edit."""
    dice = script.dice
    for op in (trials.WEIGHTS, *EDITS):
        names = [name for name in FOUND if op in LOOKED_FOR_BY.get(name, (op,))]
        for first, name in enumerate(names):
            for other in names[first:]:
                one_call(script, dice.pick(WAYS) if op in WAYS else op, {name, other})


def one_call(script: Script, op: int, defects: Collection[str]) -> None:
    """A call with what is wrong; the order of the table decides."""
    dice = script.dice
    shape = sound_shape(dice, op, defects)
    controls = lend_room(script, op, shape, defects)
    if "limit" in defects and controls:
        spoil_controls(script, min(controls, 2 * shape.count))
    script.shape(bad_shape(dice, shape, defects))
    before = list(script.bench.controls), list(script.bench.points)
    call(script, op, shape, defects)
    assert script.last == next(number for name, number in FOUND.items() if name in defects)
    assert before == (script.bench.controls, script.bench.points)


def sound_shape(dice: Dice, op: int, defects: Collection[str]) -> Shape:
    """A good loop for the call, but for what row 6 finds."""
    full = "records" in defects
    count = FULL[op] if full else dice.pick((5, 6, 9) if op == trials.REMOVE else (4, 5, 8))
    return Shape(LOOP, 0 if full else dice.below(3), count, dice.pick(PARAMETERS))


def bad_shape(dice: Dice, shape: Shape, defects: Collection[str]) -> Shape:
    """The shape with what rows 1, 2 and 3 find."""
    return shape._replace(basis=dice.pick(NO_BASIS) if "basis" in defects else shape.basis,
                          depth=dice.pick(TOO_DEEP) if "depth" in defects else shape.depth,
                          count=dice.pick(NO_COUNT) if "count" in defects else shape.count)


def counts(script: Script) -> None:
    """Every count about the least and the greatest, and far ones, at each call."""
    dice = script.dice
    script.lend(2 * MOST_RECORDS + 4, 2 * (MOST_RECORDS + 2), 2 * (MOST_RECORDS + 2), dice.between(-9, 9))
    for count in (0, 1, 3, 4, 5, MOST_RECORDS - 2, MOST_RECORDS - 1, MOST_RECORDS, MOST_RECORDS + 1, 256 + 4, 2 ** 31 + 4,
                  2 ** 32 - 1):
        shape = Shape(LOOP, 0, count)
        good = SPAN_RECORDS <= count <= MOST_RECORDS
        for op in (*WAYS, trials.CUT, *EDITS):
            script.shape(shape)
            with told_from(script, *[FOUR_REFUSED] * (count == 4), *[THREE_ACCEPTED] * (count == 3),
                           *[SIXTY_ONE_AT_MOST] * (good and count > 61)):
                if op in EDITS:
                    script.edit(op, dice.below(max(min(count, MOST_RECORDS), 1)), (dice.between(-9, 9), 0))
                else:
                    script.say(op, *([MOST_TOLERANCE, ANY_CUTS] if op == trials.CUT else ()))
            full = FULL.get(op) == count
            assert script.last == ((refusal.RECORDS if full else ACCEPTED) if good else refusal.COUNT)


# ---- by tolerance


def by_tolerance(script: Script) -> None:
    """Loops of many sizes: with one cut too few, just enough, and cuts to spare; at one depth and another."""
    dice = script.dice
    for size in (9, 1000, 40_000, 1_000_000, CONTROL_LIMIT):
        shape, controls = tolerance.any_outline(dice, LOOP, size)
        allowed = dice.pick((1, dice.between(0, 1 + size // 400), dice.between(1, MOST_TOLERANCE)))
        walk = lay_for(script, shape, controls, allowed)
        script.shape(shape._replace(depth=dice.below(DEEPEST + 1), parameter=dice.pick(PARAMETERS)))
        for most in sorted({max(walk.cuts - 1, 0), walk.cuts}):
            assert (tolerance.cut(script, allowed, most).met == refusal.CUTS) == (most < walk.cuts)
        tolerance.cut(script, allowed, dice.pick((walk.cuts + 1, 2 ** 32, ANY_CUTS)))


def tolerances(script: Script) -> None:
    """One loop by many tolerances, from one that leaves a piece bent to the greatest; then records far apart."""
    dice = script.dice
    for count in (4, 6):
        shape = Shape(LOOP, dice.below(DEEPEST + 1), count)
        controls = wide(dice, count)
        least = tolerance.just_too_little(shape, controls)
        lay_for(script, shape, controls, least + 1)
        tolerance.met(script, refusal.NOT_FLAT, least, ANY_CUTS)
        for allowed in (least + 1, least + 2, MOST_TOLERANCE // 2, MOST_TOLERANCE):
            with told_from(script, ROUND_ONE_LESS, FROM_THE_RECORD_BEFORE, NO_LOOPS):
                assert tolerance.cut(script, allowed, ANY_CUTS).met == ACCEPTED
        for allowed in (MOST_TOLERANCE + 1, 2 ** 32, 2 ** 63 - 1):
            comes_to(script, refusal.TOLERANCE, trials.CUT, allowed, dice.pick((0, ANY_CUTS)))


def rooms_by_tolerance(script: Script) -> None:
    """Room for one number too few, for just enough, and for one more, which is kept."""
    dice = script.dice
    for count in (4, 5):
        shape, controls = Shape(LOOP, dice.below(DEEPEST + 1), count), wide(dice, count)
        needed = len(Walk(RIGHT, shape, controls, MOST_TOLERANCE, ANY_CUTS).values)
        for room, number in ((needed - 1, refusal.POINTS_SHORT), (needed, ACCEPTED), (needed + 1, ACCEPTED)):
            lay(script, shape, controls, room)
            comes_to(script, number, trials.CUT, MOST_TOLERANCE, ANY_CUTS)
            script.show(trials.SHOW_POINTS)


def rules(script: Script) -> None:
    """Loops that tell wrong rules of request 3 from its own, where that one refuses and where not."""
    for number, wrong in ((ACCEPTED, ROUNDED), (ACCEPTED, ONLY_X), (ACCEPTED, ONLY_Y), (ACCEPTED, EXCHANGED),
                          (ACCEPTED, LAST_CUTS_FREE), (refusal.CUTS, FIRST_CUT_FREE), (refusal.CUTS, ANEW_EACH_SPAN),
                          (refusal.CUTS, RIGHT_FIRST), (refusal.NOT_FLAT, RIGHT_FIRST), (refusal.NOT_FLAT, MOST_FIRST)):
        shape, controls, allowed, most = tolerance.told(script.dice, LOOP, number, wrong)
        lay_for(script, shape, controls, allowed)
        tolerance.cut(script, allowed, most, wrong)


def closing_pieces(script: Script) -> None:
    """Loops with all records but one in one place: the spans that use it are cut, wherever in the list they stand."""
    dice = script.dice
    for count in (4, 7):
        for far in (0, 1, 2, count - 1):
            shape, size = Shape(LOOP, 0, count), dice.sign() * dice.between(10_000, 90_000)
            controls = [size if at // 2 == far else 0 for at in range(2 * count)]
            allowed = dice.between(100, 900)
            walk = lay_for(script, shape, controls, allowed)
            assert tolerance.cut(script, allowed, walk.cuts).cuts > 0
            assert {span for span in range(count) if far in span_records(shape, span)} == {
                (far - back) % count for back in range(SPAN_RECORDS)}


def refusals_by_tolerance(script: Script) -> None:
    """Each defect of a cut alone and each two of them; and a basis that is none."""
    dice = script.dice
    names = [name for name in tolerance.DEFECTS if name not in ("basis", "depth")]
    for first, name in enumerate(names):
        for other in names[first:]:
            tolerance.one_call(script, Shape(LOOP, dice.below(DEEPEST + 1), SPAN_RECORDS, dice.pick(PARAMETERS)),
                               {name, other})
    for name in ("none", *names):
        tolerance.one_call(script, Shape(LOOP, dice.pick(TOO_DEEP), SPAN_RECORDS), {name})
        script.shape(Shape(dice.pick(NO_BASIS), dice.pick((0, *TOO_DEEP)), SPAN_RECORDS))
        comes_to(script, refusal.BASIS, trials.CUT, dice.pick((0, MOST_TOLERANCE + 1)), 0)
