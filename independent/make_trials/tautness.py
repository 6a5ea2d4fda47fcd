"""Trials of cardinal curves with a parameter, and of parameters that are not looked at (document 02, request 7).

Every call is seen to come to what the request says; where a wrong reading of the request
would show, the call is seen to come out otherwise by it.
"""

from typing import Dict, List, Sequence, Tuple

import refusal
import trials
from checks import CONTROL_LIMIT
from curve import exact_outline, parameter_value, whole_values
from make_trials import exact, halves, tolerance
from make_trials.defects import EDITS, bad_shape, call, lend_room, needs, spoil_controls
from make_trials.depths import (LOOKED_FOR_BY, TOO_DEEP, WRONG, at_the_limits, axis_at_a_half, comes_to, one_at_halves,
                                shape_for, span_numbers, view)
from make_trials.dice import BASES_BEFORE, Dice
from make_trials.halves import ALL_SIDES, AXES, MIRRORS, X, controls_at_halves, mirrored
from make_trials.misreadings import (AFTER_COUNT, ALWAYS_HALF, BEFORE_DEPTH, EDIT_AT_HALF, EDIT_LOSES,
                                     LOOKED_AT_ALWAYS, LOOKED_AT_IN_B_SPLINES, LOW_BYTE_ALONE, NEVER_REFUSED,
                                     REACH_AS_BEFORE, SIGNED, SIGNS_EXCHANGED, WHOLE_IS_HALF, WHOLE_REFUSED,
                                     ZERO_IS_NOUGHT, ZERO_REFUSED, Misreading, told_from)
from make_trials.outlines import WAYS
from make_trials.rules import STRICT
from make_trials.script import ACCEPTED, Script
from make_trials.tolerance import ANY_CUTS, flattest, lay, lay_for, on_axis, room_after, times
from outline import formula_points
from shape import (B_SPLINE, BEZIER, CARDINAL, DEEPEST, HERMITE, LOOP, MOST_RECORDS, ONE_HALF, SPAN_RECORDS, STRIDE,
                   WHOLE_PARAMETER, Shape, point_count, spans)
from tolerance import FINEST, MOST_TOLERANCE

HALF_WAY = WHOLE_PARAMETER // 2
HALVES = ONE_HALF, HALF_WAY
# The least, the whole, those beside it and beside the half, quarters, and one that is no power of two.
TAUT = (1, 3, 16, 31, 33, 48, 63, WHOLE_PARAMETER)
TOO_LARGE_BYTES = (WHOLE_PARAMETER + 1, WHOLE_PARAMETER + 2, 128, 255)
TOO_LARGE = (*TOO_LARGE_BYTES, 2 ** 8, 2 ** 8 + HALF_WAY, 2 ** 16 + HALF_WAY, 2 ** 31, 2 ** 31 + WHOLE_PARAMETER,
             2 ** 32 - WHOLE_PARAMETER, 2 ** 32 - 1)
# How far the curve goes at the most, and the records that bring it there.
FARTHEST = 6_000_000
FAR = (-1, 1, 1, -1)


def wide(dice: Dice, count: int) -> List[int]:
    """Records so far from each other that no two parameters but the halves draw them alike."""
    return [dice.sign() * dice.between(CONTROL_LIMIT // 4, CONTROL_LIMIT) for _ in range(2 * count)]


def set_parameter(script: Script, parameter: int) -> None:
    """What stands on the bench with another parameter."""
    script.shape(script.bench.shape._replace(parameter=parameter))


def after_parameter(shape: Shape, number: int) -> int:
    """This number, which comes after 24, or 24 where the basis is cardinal and the parameter above one."""
    return refusal.PARAMETER if shape.basis == CARDINAL and shape.parameter > WHOLE_PARAMETER else number


def drawn_otherwise(parameter: int) -> List[Misreading]:
    """The wrong readings by which a wide cardinal outline is another at this parameter."""
    wrong = [SIGNS_EXCHANGED]
    if parameter == ONE_HALF:
        wrong += [ZERO_IS_NOUGHT, ZERO_REFUSED]
    if parameter not in HALVES:
        wrong += [ALWAYS_HALF]
    if parameter == WHOLE_PARAMETER:
        wrong += [WHOLE_IS_HALF, WHOLE_REFUSED]
    return wrong


def not_refused(parameter: int) -> List[Misreading]:
    """The wrong readings by which this parameter of a cardinal shape, above one, is none too large."""
    wrong = [NEVER_REFUSED]
    if parameter % 2 ** 8 <= WHOLE_PARAMETER:
        wrong += [LOW_BYTE_ALONE]
    if parameter >= 2 ** 31:
        wrong += [SIGNED]
    return wrong


# ---- outlines


def every_parameter(script: Script) -> None:
    """Parameters 0 to 65 on one outline in each way: zero and 32 draw alike, all others otherwise, and 65 is refused."""
    shape = Shape(CARDINAL, 1, SPAN_RECORDS + 1)
    outline = slice(2 * point_count(shape))
    lay(script, shape, wide(script.dice, shape.count), outline.stop + 1)
    drawn: Dict[Tuple[int, ...], List[int]] = {}
    for parameter in range(WHOLE_PARAMETER + 1):
        set_parameter(script, parameter)
        for way in WAYS:
            script.junk_points(1)
            with told_from(script, *drawn_otherwise(parameter)):
                comes_to(script, ACCEPTED, way)
            script.show(trials.SHOW_POINTS)
        drawn.setdefault(tuple(script.bench.points[outline]), []).append(parameter)
    assert [*drawn.values()] == [[*HALVES], *([parameter] for parameter in range(1, WHOLE_PARAMETER + 1)
                                              if parameter != HALF_WAY)]
    set_parameter(script, WHOLE_PARAMETER + 1)
    for way in WAYS:
        with told_from(script, NEVER_REFUSED):
            comes_to(script, refusal.PARAMETER, way)
    script.show(trials.SHOW_POINTS)


def one_half(script: Script) -> None:
    """Zero and 32 come to the same in every answer, but for the parameter that is handed on; 64 does not."""
    shape, record = Shape(CARDINAL, 2, SPAN_RECORDS + 1), wide(script.dice, 1)
    controls = wide(script.dice, shape.count)
    zero, half, whole = (every_answer(script, shape._replace(parameter=parameter), controls, record)
                         for parameter in (*HALVES, WHOLE_PARAMETER))
    assert zero == half and all(answer != other for answer, other in zip(half, whole))


def every_answer(script: Script, shape: Shape, controls: Sequence[int], record: Sequence[int]) -> List[Tuple]:
    """What each call writes and leaves in the points, but for the parameter after an edit."""
    answers = []
    script.lend(2 * shape.count + 2, 2 * point_count(shape._replace(depth=FINEST)))
    script.read(shape, controls)
    for op, numbers in (*((way, ()) for way in WAYS), (trials.CUT, (MOST_TOLERANCE, ANY_CUTS)), (trials.LIST_FILE, ()),
                        (trials.MOVE, (2, *record)), (trials.INSERT, (3, *record)), (trials.REMOVE, (1,))):
        comes_to(script, ACCEPTED, op, *numbers)
        lines = [line.split()[:-1] if op in EDITS else line for line in script.lines]
        answers.append((lines, list(script.bench.points)))
    script.show(trials.SHOW_POINTS)
    return answers


def every_depth(script: Script) -> None:
    """One span at each depth, with another parameter in each way."""
    dice = script.dice
    for depth in range(1, DEEPEST + 1):
        shape = Shape(CARDINAL, depth, SPAN_RECORDS)
        lay(script, shape, wide(dice, shape.count), 2 * point_count(shape))
        for way in WAYS:
            set_parameter(script, dice.pick(TAUT))
            script.junk_points(1)
            with told_from(script, *drawn_otherwise(script.bench.shape.parameter)):
                comes_to(script, ACCEPTED, way)
            script.show(trials.SHOW_POINTS)


def too_large(script: Script) -> None:
    """Each call with a parameter above one: a cardinal shape is refused, and any other comes to what it does at zero."""
    dice = script.dice
    for basis in BASES_BEFORE:
        shape = Shape(basis, 1, SPAN_RECORDS + STRIDE[basis])
        controls = [dice.between(-MOST_TOLERANCE // 2, MOST_TOLERANCE // 2) for _ in range(2 * shape.count)]
        for parameter in TOO_LARGE if basis == CARDINAL else (WHOLE_PARAMETER + 1, dice.pick(TOO_LARGE), 2 ** 32 - 1):
            room = 2 * (point_count(shape) + 2)
            script.lend(2 * shape.count + 2, room, room, dice.junk())
            script.read(shape, controls)
            set_parameter(script, parameter)
            every_call(script, script.bench.shape, controls)


def every_call(script: Script, shape: Shape, controls: Sequence[int]) -> None:
    """Each call once; a wrong reading has 24 where there is none, or none where there is."""
    wrong = not_refused(shape.parameter) if shape.basis == CARDINAL else looked_at(shape)
    outline = formula_points(shape._replace(parameter=ONE_HALF), controls)
    for way in WAYS:
        script.say(trials.SET_POINT, 0, script.dice.outside())
        with told_from(script, *wrong):
            comes_to(script, after_parameter(shape, ACCEPTED), way)
        assert (script.bench.points[:len(outline)] == outline) == (shape.basis != CARDINAL)
    with told_from(script, *wrong):
        view(script, 1, 0 if shape.basis == CARDINAL else span_numbers(shape.depth))
    with told_from(script, *wrong):
        comes_to(script, after_parameter(shape, ACCEPTED), trials.CUT, MOST_TOLERANCE, ANY_CUTS)
    with told_from(script, *wrong):
        comes_to(script, after_parameter(shape, offered(trials.PREVIEW, shape)), trials.PREVIEW)
    for op in EDITS:
        with told_from(script, *wrong):
            script.edit(op, 2, script.dice.record())
        assert script.last == after_parameter(shape, offered(op, shape))
        assert script.bench.shape.parameter == shape.parameter
        script.shape(shape)
    script.show(trials.SHOW_CONTROLS, trials.SHOW_POINTS)


def looked_at(shape: Shape) -> List[Misreading]:
    """The wrong readings by which a parameter above one is refused though the basis is not cardinal."""
    return [LOOKED_AT_ALWAYS] + [LOOKED_AT_IN_B_SPLINES] * (shape.basis == B_SPLINE)


def offered(op: int, shape: Shape) -> int:
    """4, or none where the call is offered for the basis."""
    return ACCEPTED if shape.basis in LOOKED_FOR_BY["offered"].get(op, BASES_BEFORE) else refusal.NOT_OFFERED


def farthest(script: Script) -> None:
    """Records at the limits that bring a point to 6,000,000 on either side: drawn, by tolerance, and by each edit."""
    for sign in (1, -1):
        far = on_axis(X, times(sign * CONTROL_LIMIT, FAR), times(-sign * CONTROL_LIMIT, FAR))
        for depth in (1, 2, DEEPEST):
            shape = Shape(CARDINAL, depth, SPAN_RECORDS, WHOLE_PARAMETER)
            lay(script, shape, far, 2 * point_count(shape))
            for way in WAYS:
                script.junk_points(2)
                with told_from(script, REACH_AS_BEFORE, WHOLE_IS_HALF):
                    comes_to(script, ACCEPTED, way)
                script.show(trials.SHOW_POINTS)
                assert_farthest(script)
        just_enough = tolerance.just_too_little(shape, far) + 1
        lay_for(script, shape, far, just_enough)
        with told_from(script, REACH_AS_BEFORE):
            assert tolerance.cut(script, just_enough, ANY_CUTS).met == ACCEPTED
        assert_farthest(script)
        for op in EDITS:
            farthest_by_edit(script, op, far)


def farthest_by_edit(script: Script, op: int, far: List[int]) -> None:
    """An edit that comes to these records, over points that are no outline's."""
    new = Shape(CARDINAL, 1, SPAN_RECORDS, WHOLE_PARAMETER)
    if op == trials.INSERT:
        new = new._replace(count=SPAN_RECORDS + 1)
        far = far + [0, 0]
    before, place, record = halves.undone(script.dice, op, far, range(SPAN_RECORDS))
    old = new._replace(count=len(before) // 2)
    script.lend(*needs(op, old), fill=0)
    script.read(old, before)
    with told_from(script, REACH_AS_BEFORE, EDIT_AT_HALF, EDIT_LOSES):
        script.edit(op, place, record)
    assert script.last == ACCEPTED
    assert_farthest(script)
    script.show(trials.SHOW_POINTS)


def assert_farthest(script: Script) -> None:
    """The points go to 6,000,000 on both sides, and no further."""
    assert (min(script.bench.points), max(script.bench.points)) == (-FARTHEST, FARTHEST)


def longest(script: Script) -> None:
    """The most records at the deepest, all at the limits, in every pattern of signs."""
    dice = script.dice
    for parameter in (1, WHOLE_PARAMETER):
        shape = Shape(CARDINAL, DEEPEST, MOST_RECORDS, parameter)
        lay(script, shape, at_the_limits(dice, shape), 2 * point_count(shape))
        for way in WAYS:
            script.junk_points(3)
            comes_to(script, ACCEPTED, way)
            view(script, dice.below(spans(shape)), span_numbers(DEEPEST))


def at_halves(script: Script) -> None:
    """Exact halves on both sides of zero on both axes, in each way, with the mirrors; then at the deepest."""
    for parameter in (1, 3, 48, WHOLE_PARAMETER):
        for depth in (1, 3):
            shape = Shape(CARDINAL, depth, SPAN_RECORDS + 1, parameter)
            controls = controls_at_halves(script.dice, shape)
            for axis in MIRRORS:
                halves.every_way(script, shape, mirrored(controls, axis))
    for parameter in (16, WHOLE_PARAMETER):
        shape = Shape(CARDINAL, DEEPEST, SPAN_RECORDS, parameter)
        controls = on_axis(X, *(axis_at_a_half(script.dice, shape) for _ in AXES))
        seen = {side for sign in (1, -1) for side in one_at_halves(script, shape, times(sign, controls))}
        assert seen == ALL_SIDES


def figures(script: Script) -> None:
    """Figures of exact coordinates, of outlines and of edits, that other counts would not give, nor one half."""
    dice = script.dice
    for parameter in (1, 3, 48, WHOLE_PARAMETER):
        for depth in (1, 4):
            shape = Shape(CARDINAL, depth, SPAN_RECORDS + 2, parameter)
            exact.every_way(script, shape, unlike_half(dice, shape))
        exact.one_edit(script, dice.pick(EDITS), Shape(CARDINAL, dice.below(4), SPAN_RECORDS + 6, parameter))


def unlike_half(dice: Dice, shape: Shape) -> List[int]:
    """Controls whose figure is unlike other counts, and unlike that at one half."""
    while True:
        controls = exact.told_apart(dice, shape)
        taut, half = (whole_values(exact_outline(shape._replace(parameter=parameter), controls))
                      for parameter in (shape.parameter, ONE_HALF))
        if taut != half:
            return controls


def views(script: Script) -> None:
    """Views of the same points with each parameter: empty where the basis is cardinal and it is above one."""
    dice = script.dice
    for basis in BASES_BEFORE:
        shape = Shape(basis, 1, SPAN_RECORDS + STRIDE[basis])
        script.lend(0, 2 * point_count(shape), fill=dice.between(-9, 9))
        for parameter in (ONE_HALF, 1, WHOLE_PARAMETER, *TOO_LARGE_BYTES, 2 ** 32 - 1):
            given = shape._replace(parameter=parameter)
            script.shape(given)
            view(script, 1, 0 if after_parameter(given, ACCEPTED) else span_numbers(shape.depth))
            view(script, 2, 0)


def previews(script: Script) -> None:
    """A Bezier preview whatever the parameter; of a cardinal shape 24 comes before 4, and 2 before both."""
    dice = script.dice
    shape = Shape(BEZIER, 2, SPAN_RECORDS)
    script.lend(2 * shape.count, 0, 2 * point_count(shape), dice.junk())
    script.read(shape, dice.numbers(shape.count))
    for basis in BASES_BEFORE:
        for parameter in (1, WHOLE_PARAMETER, WHOLE_PARAMETER + 1, dice.pick(TOO_LARGE)):
            given = shape._replace(basis=basis, parameter=parameter)
            number = offered(trials.PREVIEW, given)
            for laid, found in ((given, after_parameter(given, number)),
                                (given._replace(depth=dice.pick(TOO_DEEP)), refusal.DEPTH),
                                (given._replace(count=3), after_parameter(given, refusal.COUNT))):
                script.shape(laid)
                comes_to(script, found, trials.PREVIEW)
    script.shape(shape._replace(parameter=2 ** 32 - 1))
    with told_from(script, LOOKED_AT_ALWAYS):
        comes_to(script, ACCEPTED, trials.PREVIEW)
    script.show(trials.SHOW_PREVIEW)


# ---- refusals


FOUND = {"none": ACCEPTED, "depth": refusal.DEPTH, **WRONG}


def refusals(script: Script) -> None:
    """Draws and edits with each defect and none: cardinal ones at a parameter of one and above it, others above it."""
    dice = script.dice
    for op in (*WAYS, *EDITS):
        for name in FOUND:
            if name != "offered" and op in LOOKED_FOR_BY.get(name, (op,)):
                for parameter in (WHOLE_PARAMETER, dice.pick(TOO_LARGE)):
                    one_call(script, op, shape_for(dice, op, {name})._replace(basis=CARDINAL, parameter=parameter), name)
            if op in LOOKED_FOR_BY.get(name, (op,)):
                other = not_cardinal(shape_for(dice, op, {name}))
                one_call(script, op, other._replace(parameter=dice.pick(TOO_LARGE)), name)


def not_cardinal(shape: Shape) -> Shape:
    """The shape, as a B-spline where it is cardinal."""
    return shape._replace(basis=B_SPLINE) if shape.basis == CARDINAL else shape


def one_call(script: Script, op: int, shape: Shape, name: str) -> None:
    """A call with what is wrong, and perhaps the parameter too: the order of the table decides.  A loop is a basis by now."""
    dice = script.dice
    lend_room(script, op, shape, {name})
    if name == "limit":
        spoil_controls(script, 2 * shape.count)
    laid = bad_shape(dice, shape, {name} - {"depth"})
    script.shape(laid._replace(depth=dice.pick(TOO_DEEP)) if name == "depth" else laid)
    with told_from(script, *ordered_otherwise(shape, name)):
        call(script, op, shape, {name})
    assert laid.basis == LOOP or script.last == first_found(shape, FOUND[name])


def first_found(shape: Shape, number: int) -> int:
    """The number of what else is wrong, or 24 where that comes before it."""
    return number if number in (refusal.BASIS, refusal.DEPTH) else after_parameter(shape, number)


def ordered_otherwise(shape: Shape, name: str) -> List[Misreading]:
    """The wrong readings by which another number is found first."""
    if shape.parameter <= WHOLE_PARAMETER or name == "basis":
        return []
    if shape.basis != CARDINAL:
        return [LOOKED_AT_ALWAYS] if name != "depth" else []
    return {"depth": [BEFORE_DEPTH], "count": [AFTER_COUNT]}.get(name, [NEVER_REFUSED])


# ---- by tolerance


def by_tolerance(script: Script) -> None:
    """Outlines with one cut too few and just enough; at one half they come to other points."""
    dice = script.dice
    for parameter in (*HALVES, *TAUT):
        shape, controls = tolerance.any_outline(dice, CARDINAL, 100_000)
        shape = shape._replace(parameter=parameter)
        allowed = 16 * (tolerance.just_too_little(shape, controls) + 1)
        walk = lay_for(script, shape, controls, allowed)
        tolerance.met(script, refusal.CUTS, allowed, walk.cuts - 1)
        with told_from(script, *drawn_otherwise(parameter)):
            tolerance.accepted(script, walk.cuts, allowed, walk.cuts)


def parabola(parameter: int, bend: int, more: int) -> List[int]:
    """One axis of a span whose second differences are both the bend, or a little over it with its ends so much farther."""
    end = 3 * bend / parameter_value(parameter)
    assert end.denominator == 1
    return [int(end) + more, 0, 0, int(end) + more]


def thresholds(script: Script) -> None:
    """Parabolas at the most that is flat after so many cuts, and with their ends a micrometre farther."""
    dice = script.dice
    for parameter in (1, 3, 48, WHOLE_PARAMETER):
        for depth in (1, FINEST):
            shape, allowed, cuts = Shape(CARDINAL, dice.below(3), SPAN_RECORDS, parameter), 3 * parameter, 2 ** depth - 1
            axis, still = dice.pick(AXES), [dice.coordinate()] * SPAN_RECORDS
            flat, bent = (parabola(parameter, flattest(allowed, depth), more) for more in (0, 1))
            lay(script, shape, on_axis(axis, flat, still), room_after(depth))
            with told_from(script, ALWAYS_HALF):
                tolerance.accepted(script, cuts, allowed, ANY_CUTS, STRICT)
            lay(script, shape, on_axis(axis, bent, still), room_after(depth))
            if depth == FINEST:
                tolerance.met(script, refusal.NOT_FLAT, allowed, ANY_CUTS)
            else:
                tolerance.accepted(script, 2 * cuts + 1, allowed, ANY_CUTS)


def refusals_by_tolerance(script: Script) -> None:
    """Each defect, and none, with a parameter of one, above it, and above it where it is not looked at."""
    dice = script.dice
    for name in ("none", *tolerance.DEFECTS):
        depth = dice.pick(TOO_DEEP) if name == "depth" else dice.below(DEEPEST + 1)
        for basis, parameter in ((CARDINAL, WHOLE_PARAMETER), (CARDINAL, dice.pick(TOO_LARGE)),
                                 (dice.pick((BEZIER, B_SPLINE, HERMITE)), dice.pick(TOO_LARGE))):
            shape = Shape(basis, depth, SPAN_RECORDS, parameter)
            with told_from(script, *ordered_otherwise(shape, name)):
                tolerance.one_call(script, shape, {name} - {"depth"})
