"""Trials of shape calls and edits with none, one or several defects at once.

Where two rows of the refusal table hold, the order of the table decides; calls
with several defects show which row was looked at first.
"""

from typing import Collection, Tuple

import trials
from checks import CONTROL_LIMIT
from make_trials.dice import BASES_BEFORE, DEEPEST_BEFORE, GROWING_BEFORE, Dice
from make_trials.outlines import WAYS
from make_trials.script import ACCEPTED, Script
from shape import BEZIER, HERMITE, LOOP, MOST_RECORDS, SPAN_RECORDS, Shape, count_allowed, point_count

DEFECTS = ("basis", "depth", "count", "offered", "place", "records", "controls", "limit", "record", "points")
Defects = Collection[str]

EDITS = (trials.MOVE, trials.INSERT, trials.REMOVE)
OPS = WAYS + EDITS + (trials.VIEW, trials.PREVIEW)

OFFERED = {trials.PREVIEW: (BEZIER,), trials.INSERT: GROWING_BEFORE, trials.REMOVE: GROWING_BEFORE}
CHANGE = {trials.INSERT: 1, trials.REMOVE: -1}
FULL = {trials.INSERT: MOST_RECORDS, trials.REMOVE: SPAN_RECORDS}

# Past the deepest before: the first two are good depths by now, for which the lists lent here are too short.
DEEP = (DEEPEST_BEFORE + 1, DEEPEST_BEFORE + 2, 32, 64, 2 ** 32 - 1)
# Past the last basis before: the second is a good one by now, the loop's.
NO_BASIS = (0, HERMITE + 1, 256, 2 ** 32 - 1)
COUNTS = (0, 1, 2, 3, 5, 6, 9, MOST_RECORDS - 1, MOST_RECORDS + 1, MOST_RECORDS + 3, 2 ** 32 - 1)


def sound_shape(dice: Dice, op: int, defects: Defects) -> Shape:
    """A good shape for the call, but for what rows 4 and 6 find."""
    bases = OFFERED.get(op, BASES_BEFORE)
    if "offered" in defects and op in OFFERED:
        bases = tuple(basis for basis in BASES_BEFORE if basis not in bases)
    shape = dice.shape(bases, 2, dice.pick((4, 7, 8, 10)))
    if "records" in defects and op in FULL:
        return shape._replace(depth=0, count=FULL[op])
    return shape


def bad_shape(dice: Dice, shape: Shape, defects: Defects) -> Shape:
    """The shape with what rows 1, 2 and 3 find."""
    if "count" in defects:
        shape = shape._replace(count=dice.pick([n for n in COUNTS if not count_allowed(shape._replace(count=n))]))
    if "depth" in defects:
        shape = shape._replace(depth=dice.pick(DEEP))
    if "basis" in defects:
        shape = shape._replace(basis=dice.pick(NO_BASIS))
    return shape


def needs(op: int, shape: Shape) -> Tuple[int, int]:
    """How many controls and points numbers the call needs, for the old and the new shape."""
    other = shape._replace(count=shape.count + CHANGE.get(op, 0))
    shapes = [shape, other] if count_allowed(other) else [shape]
    return 2 * max(s.count for s in shapes), 2 * max(point_count(s) for s in shapes)


def one_call(script: Script, op: int, defects: Defects) -> None:
    shape = sound_shape(script.dice, op, defects)
    lend_for(script, op, shape, defects)
    script.shape(bad_shape(script.dice, shape, defects))
    call(script, op, shape, defects)
    show_result(script, op)


def lend_for(script: Script, op: int, shape: Shape, defects: Defects) -> None:
    """The lists that the call needs, with some controls unlike the others, but for rows 7, 8 and 9."""
    controls = lend_room(script, op, shape, defects)
    for _ in range(min(controls, 4)):
        script.say(trials.SET_CONTROL, script.dice.below(controls), script.dice.coordinate())
    if "limit" in defects and controls:
        spoil_controls(script, min(controls, 2 * shape.count))


def lend_room(script: Script, op: int, shape: Shape, defects: Defects) -> int:
    """Lists as long as the call needs, but for rows 7 and 9; how many controls numbers there are."""
    dice = script.dice
    controls, points = needs(op, shape)
    if "controls" in defects:
        controls -= dice.pick((1, 1, 2, controls))
    if "points" in defects:
        points -= dice.pick((1, 1, 2, points))
    script.lend(controls, points, points if op == trials.PREVIEW else 0, dice.coordinate())
    return controls


def spoil_controls(script: Script, controls: int) -> None:
    """One or two of so many controls numbers are outside the limits."""
    for _ in range(script.dice.between(1, 2)):
        script.say(trials.SET_CONTROL, script.dice.below(controls), script.dice.outside())


def call(script: Script, op: int, shape: Shape, defects: Defects) -> None:
    """The call itself, at a place in its range and with a good record, but for rows 5 and 8."""
    dice = script.dice
    if op == trials.VIEW:
        script.say(op, dice.below(4))
    elif op in EDITS:
        past_last = shape.count + (op == trials.INSERT)
        place = past_last + dice.pick((0, 0, 1, 2 ** 40)) if "place" in defects else dice.below(past_last)
        script.edit(op, place, dice.bad_record() if "record" in defects else dice.record())
    else:
        script.say(op)


def show_result(script: Script, op: int) -> None:
    """The lists, where the call was accepted, and one in four times where it was not.

    A loop may be accepted, but the records that follow are those of a basis that was none, for which all but a view was refused.
    """
    no_basis_before = script.bench.shape.basis == LOOP and op != trials.VIEW
    if script.last == ACCEPTED and not no_basis_before or script.dice.one_in(4):
        script.show(trials.SHOW_PREVIEW if op == trials.PREVIEW else trials.SHOW_POINTS)
        if op in EDITS:
            script.show(trials.SHOW_CONTROLS)


def every_pair(script: Script) -> None:
    """Each defect alone and each two of them, at every call."""
    for op in OPS:
        for first, defect in enumerate(DEFECTS):
            for other in DEFECTS[first:]:
                one_call(script, op, {defect, other})


def any_defects(script: Script) -> None:
    """Calls of every kind with up to four defects."""
    for _ in range(120):
        one_call(script, script.dice.pick(OPS), script.dice.some(DEFECTS, 4))


def at_the_limits(script: Script) -> None:
    """One number at a limit and then one beyond, in each record; numbers past the last control do not count."""
    dice = script.dice
    for op in WAYS + EDITS + (trials.PREVIEW,):
        shape = dice.shape(OFFERED.get(op, BASES_BEFORE), 0, 8)._replace(count=7 if op == trials.PREVIEW else 4)
        if op == trials.REMOVE:
            shape = shape._replace(count=5)
        for record in range(shape.count):
            place = dice.pick((record, dice.below(shape.count)))
            at, limit = 2 * record + dice.below(2), dice.sign() * CONTROL_LIMIT
            script.lend(2 * MOST_RECORDS, 20, 20)
            script.say(trials.SET_CONTROL, 2 * MOST_RECORDS - 1, dice.outside())
            for number in (limit + limit // CONTROL_LIMIT, limit):
                script.shape(shape)
                script.say(trials.SET_CONTROL, at, number)
                if op in EDITS:
                    script.edit(op, place, dice.record())
                else:
                    script.say(op)
        script.show(trials.SHOW_POINTS)
