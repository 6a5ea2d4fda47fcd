"""Trials of drawing steps: their numbers, whole drawings, and states that no drawing reaches."""

from math import ldexp
from typing import Collection, List, Tuple

import trials
from checks import CONTROL_LIMIT
from make_trials.dice import beside
from make_trials.script import ACCEPTED, Number, Script
from shape import BEZIER, MOST_RECORDS, Shape

STEP_NUMBERS = {trials.STEP_MOVE: 2, trials.STEP_LINE: 2, trials.STEP_CUBIC: 6, trials.STEP_CLOSE: 0}

LIMIT_MM = CONTROL_LIMIT / 1000
INFINITY = float("inf")
GREATEST = beside(INFINITY, -1)
LEAST_NORMAL = ldexp(1.0, -1022)
# The ends of the doubles, and of the subnormals among them.
ENDS = (beside(0.0, 1), beside(LEAST_NORMAL, -1), LEAST_NORMAL, GREATEST)
# Quiet and signalling, of either sign, with and without a payload: as whole
# numbers, so that each goes into the file bit by bit.
NANS = (0x7FF8000000000000, 0xFFF8000000000000 - 2 ** 64, 0x7FF0000000000001, 0xFFF0000000000001 - 2 ** 64,
        0x7FFFFFFFFFFFFFFF)
BAD_NUMBERS = (INFINITY, -INFINITY, NANS[0], NANS[1], 4000.0009765625, -4000.0009765625, GREATEST, 1e10)


def numbers_to_try(script: Script) -> List[Number]:
    """Ties and their neighbours, half thousandths, the limits, every size of double."""
    dice = script.dice
    sizes = [0.0, LIMIT_MM, INFINITY, *ENDS]
    sizes += [4000.00048828125, 4000.0009765625, 4000.0625, *(beside(4000.0005, step) for step in range(-2, 3))]
    ties = [(2 * tie + 1) / 16 for tie in (0, 1, 2, 3, dice.below(1000), dice.below(31_999), 31_999)]
    sizes += [beside(tie, step) for tie in ties for step in (-1, 0, 1)]
    sizes += [(2 * half + 1) / 2000 for half in (0, 1, 2, 3, 61, dice.below(2000), dice.below(CONTROL_LIMIT))]
    sizes += [ldexp(dice.between(2 ** 52, 2 ** 53 - 1), power - 52) for power in range(-70, 14)]
    sizes += [ldexp(1.0, power) for power in (-500, -100, -11, -10, -9, 12, 31, 32, 53, 63, 64, 100, 1023)]
    return [sign * size for size in sizes for sign in (1, -1)] + [*NANS]


def numbers(script: Script) -> None:
    """Each number by itself as a first Move's x or y, whatever start and current held."""
    dice = script.dice
    script.lend(2, 0)
    for number in numbers_to_try(script):
        script.say(trials.SET_STATE, 0, dice.junk(), dice.junk(), dice.junk(), dice.junk(), 0)
        tame = dice.millimetres()
        script.say(trials.STEP_MOVE, *dice.pick(((number, tame), (tame, number))))
    script.show(trials.SHOW_CONTROLS)


def number_places(script: Script) -> None:
    """Bad numbers at each index of each step, two at a time, so that the first one gives the refusal."""
    dice = script.dice
    script.lend(2 * MOST_RECORDS, 0)
    for op, count in ((trials.STEP_MOVE, 0), (trials.STEP_LINE, 1), (trials.STEP_CUBIC, 4)):
        for index in range(STEP_NUMBERS[op]):
            for _ in range(4):
                step: List[Number] = [dice.millimetres() for _ in range(STEP_NUMBERS[op])]
                step[dice.below(len(step))] = dice.pick(BAD_NUMBERS)
                step[index] = dice.pick(BAD_NUMBERS)
                script.say(trials.SET_STATE, count, 0, 0, 5, 5, 0)
                script.say(op, *step)


def any_step(script: Script) -> None:
    """A Line or a Cubic, and one time in thirty another Move."""
    dice = script.dice
    op = trials.STEP_MOVE if dice.one_in(30) else dice.pick((trials.STEP_LINE, trials.STEP_CUBIC))
    script.say(op, *(dice.millimetres() for _ in range(STEP_NUMBERS[op])))


def one_drawing(script: Script, length: int, steps: int) -> None:
    """A drawing step by step, closed at its start or away from it; then drawn and previewed."""
    dice = script.dice
    script.lend(length, 180, 180, dice.junk())
    script.say(trials.SET_STATE, 0, 0, 0, 0, 0, 0)
    script.say(trials.STEP_LINE, 1.0, 1.0)
    start = dice.millimetres(), dice.millimetres()
    script.say(trials.STEP_MOVE, *start)
    for _ in range(steps):
        any_step(script)
    if dice.one_in(2):
        script.say(trials.STEP_LINE, *start)
    script.show(trials.STEP_CLOSE, trials.STEP_CLOSE)
    any_step(script)
    script.shape(Shape(BEZIER, dice.below(3), script.bench.state.count))
    script.show(trials.SHOW_CONTROLS, trials.HALVING, trials.SHOW_POINTS, trials.PREVIEW)


def drawings(script: Script) -> None:
    """Drawings up to 64 records and past them, in lists of many lengths."""
    for length, steps in ((128, 30), (127, 24), (135, 26), (160, 20), (128, 19), (74, 14), (40, 8), (39, 8),
                          (14, 2), (8, 1), (8, 3), (7, 2), (2, 0), (2, 1), (1, 1), (0, 1)):
        one_drawing(script, length, steps)


def closings(script: Script) -> None:
    """Close where the start is already reached, and where one number of it is not."""
    start = script.dice.record()
    for count in (1, 4, 61, MOST_RECORDS):
        for current in (start, (start[0], 7), (7, start[1])):
            for length in (2 * count - 1, 2 * count, 2 * count + 5, 2 * count + 6):
                script.lend(length, 0)
                script.say(trials.SET_STATE, count, *start, *current, 0)
                script.say(trials.STEP_CLOSE)
                if count < MOST_RECORDS - 3:
                    script.show(trials.SHOW_CONTROLS)


DEFECTS = ("count", "empty", "closed", "start", "current", "turn", "number", "other", "full", "controls")
Defects = Collection[str]
NO_COUNT = (2, 3, 5, 6, 32, MOST_RECORDS - 1, MOST_RECORDS + 1, MOST_RECORDS + 3, 2 ** 32 - 1)


def one_state(script: Script, op: int, defects: Defects) -> None:
    """One step from a state set by hand, with none, one or several defects."""
    count, length = count_and_length(script, op, defects)
    script.lend(length, 0, fill=script.dice.junk())
    set_state(script, count, defects)
    script.say(op, *step_numbers(script, op, defects))
    if script.dice.one_in(3 if script.last == ACCEPTED else 12):
        script.show(trials.SHOW_CONTROLS)


def count_and_length(script: Script, op: int, defects: Defects) -> Tuple[int, int]:
    """A count that suits the step, and a list that suits the count, but for rows 6, 7 and 12."""
    dice = script.dice
    move = op == trials.STEP_MOVE
    count = 0 if move != ("turn" in defects) else dice.pick((1, 4, 7, 31, MOST_RECORDS - 3))
    if "full" in defects and count:
        count = MOST_RECORDS
    length = 2 * min(count + (1 if move else 3), MOST_RECORDS)
    if "controls" in defects:
        length -= min(dice.pick((1, 1, 2, 6, 7)), length)
    return count, length


def set_state(script: Script, count: int, defects: Defects) -> None:
    """The state with that count, but for rows 3, 8 and 12."""
    dice = script.dice
    start = dice.bad_record() if "start" in defects else dice.record()
    current = dice.bad_record() if "current" in defects else dice.pick((start, dice.record(), dice.record()))
    if "count" in defects:
        count = dice.pick(NO_COUNT)
    if "empty" in defects:
        count = 0
    script.say(trials.SET_STATE, count, *start, *current, int("closed" in defects))


def step_numbers(script: Script, op: int, defects: Defects) -> List[Number]:
    """The step's numbers, one or two of them bad where a defect says so."""
    dice = script.dice
    step: List[Number] = [dice.millimetres() for _ in range(STEP_NUMBERS[op])]
    for defect in ("number", "other"):
        if defect in defects and step:
            step[dice.below(len(step))] = dice.pick(BAD_NUMBERS)
    return step


def states(script: Script) -> None:
    """Each defect alone and each two of them, at every step; then up to two at any."""
    for op in STEP_NUMBERS:
        for first, defect in enumerate(DEFECTS):
            for other in DEFECTS[first:]:
                one_state(script, op, {defect, other})
    for _ in range(150):
        one_state(script, script.dice.pick(tuple(STEP_NUMBERS)), script.dice.some(DEFECTS, 2))
