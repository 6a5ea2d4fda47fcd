"""Trials of depths 7 and 8, and of depths past them (document 02, request 10).

Every call is seen to come to what the request says: a depth of up to 8 is as good as any,
one above it is refused with 2, and the outline by tolerance cuts no deeper than before.
"""

from typing import Collection, List, Set

import refusal
import trials
from checks import CONTROL_LIMIT
from curve import exact_outline
from make_trials import exact, tolerance
from make_trials.defects import EDITS, FULL, OFFERED, bad_shape, call, lend_for, needs, sound_shape
from make_trials.dice import BASES_BEFORE, DEEPEST_BEFORE, GROWING_BEFORE, Dice
from make_trials.edits import edits_of
from make_trials.files import DEPTH_BYTE, PARAMETER_BYTE, ZERO_BYTES, spoil
from make_trials.halves import ALL_SIDES, AXES, Side, X, half_coordinate, sides, told_apart
from make_trials.outlines import WAYS
from make_trials.script import ACCEPTED, Script, file_of
from make_trials.tolerance import ALL_CUTS, ANY_CUTS, PARABOLA, flattest, lay, lay_for, on_axis, times
from shape import (B_SPLINE, BEZIER, CARDINAL, DEEPEST, LOOP, MOST_RECORDS, SPAN_RECORDS, STRIDE, Shape, point_count,
                   span_records, spans)
from tolerance import FINEST

DEEP = range(DEEPEST_BEFORE + 1, DEEPEST + 1)
TOO_DEEP = (DEEPEST + 1, DEEPEST + 2, 255, 2 ** 32 - 1)
# What a byte of a record file can hold of them.
TOO_DEEP_BYTES = TOO_DEEP[:3]


def comes_to(script: Script, number: int, op: int, *numbers: int) -> None:
    """A call that is refused with this number, or accepted."""
    script.say(op, *numbers)
    assert script.last == number


def after_depth(depth: int, number: int) -> int:
    """This number, which comes after 2, or 2 where the depth is past the deepest."""
    return number if depth <= DEEPEST else refusal.DEPTH


def view(script: Script, span: int, length: int) -> None:
    """A view of so many numbers."""
    script.say(trials.VIEW, span)
    assert script.lines[0] == f"view {length}"


def span_numbers(depth: int) -> int:
    """How many numbers the points of a span are, both ends included."""
    return 2 * (2 ** depth + 1)


# ---- outlines


def every_way(script: Script) -> None:
    """Each basis at each depth in each way, over points that held something else."""
    dice = script.dice
    for basis in BASES_BEFORE:
        for depth in DEEP:
            shape = Shape(basis, depth, SPAN_RECORDS)
            lay(script, shape, dice.numbers(shape.count), 2 * point_count(shape) + dice.below(3))
            for way in WAYS:
                script.junk_points(3)
                comes_to(script, ACCEPTED, way)
                script.show(trials.SHOW_POINTS)


def found_again(script: Script) -> None:
    """One outline, deeper and deeper: each point is found again at the next depth, with others between."""
    dice = script.dice
    for basis in BASES_BEFORE:
        shape = Shape(basis, DEEPEST_BEFORE, SPAN_RECORDS + STRIDE[basis])
        lay(script, shape, dice.numbers(shape.count), 2 * point_count(shape._replace(depth=DEEPEST)))
        comes_to(script, ACCEPTED, dice.pick(WAYS))
        view(script, 1, span_numbers(shape.depth))
        for depth in DEEP:
            before = script.bench.points[:2 * point_count(shape)]
            shape = shape._replace(depth=depth)
            script.shape(shape)
            comes_to(script, ACCEPTED, dice.pick(WAYS))
            after = script.bench.points[:2 * point_count(shape)]
            assert all(after[axis::4] == before[axis::2] for axis in AXES)
            view(script, 1, span_numbers(depth))


def at_halves(script: Script) -> None:
    """A span of each basis with an exact half on each axis, in each way; then mirrored on both."""
    for basis in BASES_BEFORE:
        for depth in DEEP:
            shape = Shape(basis, depth, SPAN_RECORDS)
            controls = on_axis(X, *(axis_at_a_half(script.dice, shape) for _ in AXES))
            seen = {side for sign in (1, -1) for side in one_at_halves(script, shape, times(sign, controls))}
            assert seen == ALL_SIDES


def axis_at_a_half(dice: Dice, shape: Shape) -> List[int]:
    """A span's records on one axis, the last such that a point is an exact half; most of those are past the limits."""
    while True:
        step = dice.pick([step for step in range(2 ** shape.depth) if step % 2 and step % 3])
        three = [dice.coordinate() for _ in range(SPAN_RECORDS - 1)]
        last = half_coordinate(dice, shape, three, step)
        if abs(last) <= CONTROL_LIMIT:
            return [*three, last]


def one_at_halves(script: Script, shape: Shape, controls: List[int]) -> Set[Side]:
    """The outline in each way, and the sides that its halves are on: below zero a half goes away from it."""
    values = exact_outline(shape, controls)
    lay(script, shape, controls, 2 * point_count(shape))
    for way in WAYS:
        script.junk_points(2)
        comes_to(script, ACCEPTED, way)
        script.show(trials.SHOW_POINTS)
        for axis in AXES:
            assert (axis, False) not in sides(values) or told_apart(values[axis::2], script.bench.points[axis::2])
    return sides(values)


def figures(script: Script) -> None:
    """Figures of exact coordinates that other counts would not give: of outlines, and of what an edit works afresh."""
    for basis in BASES_BEFORE:
        for depth in DEEP:
            shape = Shape(basis, depth, SPAN_RECORDS + STRIDE[basis])
            exact.every_way(script, shape, exact.told_apart(script.dice, shape))
    for basis in GROWING_BEFORE:
        for op in EDITS:
            exact.one_edit(script, op, Shape(basis, DEEPEST, SPAN_RECORDS + 4))


def longest(script: Script) -> None:
    """The most records of each basis at the deepest, all at the limits; the list lacks a number, or has none to spare."""
    dice = script.dice
    for basis in BASES_BEFORE:
        shape = Shape(basis, DEEPEST, MOST_RECORDS)
        controls, room = at_the_limits(dice, shape), 2 * point_count(shape)
        lay(script, shape, controls, room - 1)
        for way in WAYS:
            comes_to(script, refusal.POINTS_SHORT, way)
        view(script, 0, 0)
        lay(script, shape, controls, room)
        for way in WAYS:
            script.junk_points(6)
            comes_to(script, ACCEPTED, way)
            for span in (dice.below(spans(shape)), spans(shape) - 1):
                view(script, span, span_numbers(DEEPEST))
        view(script, spans(shape), 0)


def at_the_limits(dice: Dice, shape: Shape) -> List[int]:
    """Records at the limits, so that on each axis every pattern of four signs is some span's."""
    axes: List[List[int]] = []
    while len(axes) < len(AXES):
        signs = [dice.sign() for _ in range(shape.count)]
        patterns = {tuple(signs[record] for record in span_records(shape, span)) for span in range(spans(shape))}
        if len(patterns) == 2 ** SPAN_RECORDS:
            axes.append(times(CONTROL_LIMIT, signs))
    return on_axis(X, *axes)


def longest_list(script: Script) -> None:
    """The longest outline in the longest list, shown whole: the numbers past the last point stay."""
    shape = Shape(CARDINAL, DEEPEST, MOST_RECORDS)
    lay(script, shape, at_the_limits(script.dice, shape), trials.MOST_POINTS)
    kept = script.bench.points[-1]
    comes_to(script, ACCEPTED, script.dice.pick(WAYS))
    assert script.bench.points[2 * point_count(shape):] == [kept] * (trials.MOST_POINTS - 2 * point_count(shape))
    script.show(trials.SHOW_POINTS)


def views(script: Script) -> None:
    """Spans of an outline, and what is none: past the last, a list that lacks a number, a depth past the deepest."""
    dice = script.dice
    for basis in BASES_BEFORE:
        for depth in DEEP:
            shape = Shape(basis, depth, SPAN_RECORDS + STRIDE[basis])
            room = 2 * point_count(shape)
            lay(script, shape, [dice.between(-9, 9) for _ in range(2 * shape.count)], room)
            comes_to(script, ACCEPTED, dice.pick(WAYS))
            for span, length in ((0, span_numbers(depth)), (1, span_numbers(depth)), (2, 0), (2 ** 63 - 1, 0)):
                view(script, span, length)
            for short, length in ((1, 0), (0, span_numbers(depth))):
                script.lend(0, room - short, fill=dice.between(-9, 9))
                view(script, 1, length)
        script.lend(0, 2 * point_count(shape._replace(depth=TOO_DEEP[1])))
        for too_deep in TOO_DEEP:
            script.shape(shape._replace(depth=too_deep))
            view(script, 0, 0)


# ---- previews


def previews(script: Script) -> None:
    """One span in doubles: any controls, sums that come to zero, the limits."""
    dice = script.dice
    limits = [CONTROL_LIMIT, -CONTROL_LIMIT]
    for depth in DEEP:
        shape = Shape(BEZIER, depth, SPAN_RECORDS)
        for numbers in (dice.numbers(SPAN_RECORDS), [0, -8, 0, 8, 0, -8, 0, 8], limits * 2 + limits[::-1] * 2):
            script.lend(2 * shape.count, 0, 2 * point_count(shape) + dice.below(2), dice.junk())
            script.read(shape, numbers)
            comes_to(script, ACCEPTED, trials.PREVIEW)
            script.show(trials.SHOW_PREVIEW)


def longest_preview(script: Script) -> None:
    """The most spans in doubles; the list lacks a number, has none to spare, or is the longest, and is shown whole."""
    shape = Shape(BEZIER, DEEPEST, MOST_RECORDS)
    controls, room = at_the_limits(script.dice, shape), 2 * point_count(shape)
    for length, number in ((room - 1, refusal.POINTS_SHORT), (room, ACCEPTED), (trials.MOST_PREVIEW, ACCEPTED)):
        script.lend(2 * shape.count, 0, length, script.dice.junk())
        script.read(shape, controls)
        comes_to(script, number, trials.PREVIEW)
    script.show(trials.SHOW_PREVIEW)


# ---- edits


def edits(script: Script) -> None:
    """Each edit of each basis over points that are no outline's: fresh spans, and beside them kept and carried ones."""
    dice = script.dice
    for basis in BASES_BEFORE:
        for op in edits_of(basis):
            for depth in DEEP:
                shape = Shape(basis, depth, SPAN_RECORDS + 7 * STRIDE[basis])
                script.lend(*needs(op, shape), fill=dice.between(-9, 9))
                script.read(shape, dice.numbers(shape.count))
                script.junk_points(9)
                one_edit(script, op, shape.count // 2)


def one_edit(script: Script, op: int, place: int) -> None:
    """An edit with some spans fresh and some not: views of the first fresh one, and of those beside them all."""
    script.edit(op, place, script.dice.record())
    assert script.last == ACCEPTED
    shape = script.bench.shape
    first, fresh = (int(number) for number in script.lines[0].split()[4:6])
    assert 0 < first and 0 < fresh and first + fresh < spans(shape)
    for span in (first - 1, first, first + fresh):
        view(script, span, span_numbers(shape.depth))


def run_of_edits(script: Script) -> None:
    """A drawn outline of each basis stays that of its controls through a run of edits."""
    dice = script.dice
    for basis in BASES_BEFORE:
        shape = Shape(basis, DEEPEST, SPAN_RECORDS + 2 * STRIDE[basis])
        script.lend(2 * MOST_RECORDS, 2 * point_count(shape._replace(count=MOST_RECORDS)), fill=dice.junk())
        script.read(shape, dice.numbers(shape.count))
        comes_to(script, ACCEPTED, dice.pick(WAYS))
        for op in edits_of(basis) * 2:
            script.edit(op, dice.below(script.bench.shape.count), dice.record())
            assert script.last == ACCEPTED
        view(script, dice.below(spans(script.bench.shape)), span_numbers(DEEPEST))
        edited = list(script.bench.points)
        comes_to(script, ACCEPTED, dice.pick(WAYS))
        assert script.bench.points == edited


def longest_edits(script: Script) -> None:
    """The longest outlines that an edit comes to and comes from, over points that are no outline's."""
    dice = script.dice
    for basis in GROWING_BEFORE:
        shape = Shape(basis, DEEPEST, MOST_RECORDS)
        script.lend(2 * shape.count, 2 * point_count(shape), fill=dice.between(-9, 9))
        script.read(shape._replace(count=shape.count - 1), dice.numbers(shape.count - 1))
        for op in (trials.INSERT, trials.REMOVE):
            script.junk_points(9)
            one_edit(script, op, dice.between(8, MOST_RECORDS - 8))


# ---- refusals


WRONG = {"basis": refusal.BASIS, "count": refusal.COUNT, "offered": refusal.NOT_OFFERED, "place": refusal.PLACE,
         "records": refusal.RECORDS, "controls": refusal.CONTROLS_SHORT, "limit": refusal.LIMITS,
         "record": refusal.LIMITS, "points": refusal.POINTS_SHORT}
# What some calls alone look for.
LOOKED_FOR_BY = {"offered": OFFERED, "place": EDITS, "records": FULL, "record": (trials.MOVE, trials.INSERT)}


def refusals(script: Script) -> None:
    """Each call too deep: 2 comes after 1 and before all else; at depths 7 and 8 what else is wrong is found."""
    for op in (*WAYS, *EDITS, trials.PREVIEW):
        for depth in (*DEEP, *TOO_DEEP):
            one_call(script, op, depth, (), ACCEPTED)
        for name, number in WRONG.items():
            if op in LOOKED_FOR_BY.get(name, (op,)):
                for depth in (*DEEP, TOO_DEEP[0], script.dice.pick(TOO_DEEP[1:])):
                    one_call(script, op, depth, (name,), number)


def one_call(script: Script, op: int, depth: int, wrong: Collection[str], number: int) -> None:
    """A call that comes to this number, but to 2 where the depth is past the deepest and the basis is good.

    A loop, which is a basis by now, has other counts and lists; what it comes to is seen in loops.py.
    """
    dice = script.dice
    shape = shape_for(dice, op, wrong)._replace(depth=min(depth, DEEPEST))
    lend_for(script, op, shape, wrong)
    laid = bad_shape(dice, shape, wrong)._replace(depth=depth)
    script.shape(laid)
    call(script, op, shape, wrong)
    assert laid.basis == LOOP or script.last == (number if number == refusal.BASIS else after_depth(depth, number))


def shape_for(dice: Dice, op: int, wrong: Collection[str]) -> Shape:
    """A good shape for the call, but for what rows 4 and 6 find; row 6 finds something only where that is wrong."""
    shape = sound_shape(dice, op, wrong)
    if shape.count == FULL.get(op) and shape.basis in OFFERED[op] and "records" not in wrong:
        return shape._replace(count=shape.count + 1)
    return shape


# ---- by tolerance


def by_tolerance(script: Script) -> None:
    """One outline at depths 7 and 8 comes to what it does at depth 6, and past them to 2."""
    dice = script.dice
    for basis in BASES_BEFORE:
        shape, controls = tolerance.any_outline(dice, basis, 40_000)
        allowed = dice.between(30, 300)
        came = lay_for(script, shape, controls, allowed)
        for depth in (DEEPEST_BEFORE, *DEEP):
            script.shape(shape._replace(depth=depth))
            script.junk_points(1)
            assert tolerance.cut(script, allowed, ANY_CUTS).outcome() == came.outcome()
        for depth in TOO_DEEP:
            script.shape(shape._replace(depth=depth))
            comes_to(script, refusal.DEPTH, trials.CUT, allowed, ANY_CUTS)


def no_deeper(script: Script) -> None:
    """Parabolas of each basis that six cuts just make flat; and a micrometre more, which a seventh would."""
    for basis in BASES_BEFORE:
        for depth in DEEP:
            shape, allowed = Shape(basis, depth, SPAN_RECORDS), script.dice.between(1, 60)
            flat, bent = (times(flattest(allowed, FINEST) + more, PARABOLA[basis]) for more in (0, 1))
            lay(script, shape, on_axis(X, flat, flat), 2 * (ALL_CUTS + 2))
            tolerance.accepted(script, ALL_CUTS, allowed, ANY_CUTS)
            script.read(shape, on_axis(X, bent, flat))
            tolerance.met(script, refusal.NOT_FLAT, allowed, ANY_CUTS)


def refusals_by_tolerance(script: Script) -> None:
    """Each defect, and none, at depths 7 and 8 and past them."""
    for name in tolerance.DEFECTS:
        for depth in (*DEEP, *TOO_DEEP):
            tolerance.one_call(script, Shape(script.dice.pick(BASES_BEFORE), depth, SPAN_RECORDS), {name} - {"depth"})


# ---- record files


def files(script: Script) -> None:
    """Files of each basis and depth, read and listed; those too deep are refused."""
    dice = script.dice
    for basis in BASES_BEFORE:
        script.lend(2 * SPAN_RECORDS, 0, fill=dice.junk())
        for depth in (*DEEP, *TOO_DEEP_BYTES):
            script.put_file(file_of(Shape(basis, depth, SPAN_RECORDS), dice.numbers(SPAN_RECORDS)))
            for op in (trials.READ_FILE, trials.LIST_FILE):
                comes_to(script, after_depth(depth, ACCEPTED), op)
        script.show(trials.SHOW_CONTROLS)


def longest_listing(script: Script) -> None:
    """The longest outline there is, listed."""
    shape = Shape(B_SPLINE, DEEPEST, MOST_RECORDS)
    script.put_file(file_of(shape, [script.dice.between(-99, 99) for _ in range(2 * shape.count)]))
    comes_to(script, ACCEPTED, trials.LIST_FILE)
    assert len(script.lines) == point_count(shape) + 1


def damaged_files(script: Script) -> None:
    """Files with something else wrong, at depths 7 and 8 and past them: 13, 14, 15 and 1 come before 2; 3, 7 and 8 after."""
    dice = script.dice
    for depth in (*DEEP, *TOO_DEEP_BYTES):
        shape, numbers = Shape(dice.pick(BASES_BEFORE), depth, SPAN_RECORDS), dice.numbers(SPAN_RECORDS)
        good = file_of(shape, numbers)
        far = file_of(shape, numbers[:-1] + [dice.outside()])
        zero = dice.pick(ZERO_BYTES)
        for file, room, number in (
                (good[:-1], 8, refusal.FILE_LENGTH), (spoilt(good, zero, 1), 8, set_in_a_later_record(shape, zero)),
                (spoilt(good, DEPTH_BYTE, DEEPEST_BEFORE), 8, refusal.UNLIKE_FIRST),
                (file_of(shape._replace(basis=0), numbers), 8, refusal.BASIS),
                (good[:-12], 8, after_depth(depth, refusal.COUNT)),
                (good, 7, after_depth(depth, refusal.CONTROLS_SHORT)), (far, 8, after_depth(depth, refusal.LIMITS))):
            script.lend(room, 0)
            script.put_file(file)
            comes_to(script, number, trials.READ_FILE)


def set_in_a_later_record(shape: Shape, zero: int) -> int:
    """What a byte that is zero in record 0 gives: a cardinal record may have a parameter, but not one of its own."""
    return refusal.UNLIKE_FIRST if (shape.basis, zero) == (CARDINAL, PARAMETER_BYTE) else refusal.SPARE_BYTES


def spoilt(good: bytes, byte: int, value: int) -> bytes:
    """The file with another byte in its last record."""
    file = bytearray(good)
    spoil(file, SPAN_RECORDS - 1, byte, value)
    return bytes(file)
