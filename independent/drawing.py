"""Drawings: the state and its four kinds of step (document 01, "Preview and drawing")."""

from enum import Enum
from fractions import Fraction
from math import isfinite
from typing import List, NamedTuple, Sequence

import refusal
from checks import CONTROL_LIMIT, Record, check_controls_room, within
from curve import nearest
from refusal import Refusal
from shape import BEZIER, MOST_RECORDS, Shape, count_allowed

MICROMETRES_PER_MM = 1000


class Step(Enum):
    MOVE = "Move"
    LINE = "Line"
    CUBIC = "Cubic"
    CLOSE = "Close"


class State(NamedTuple):
    count: int
    start: Record
    current: Record
    closed: bool


NOTHING_DRAWN = State(0, (0, 0), (0, 0), False)


def micrometres(number: float, place: int) -> int:
    """A drawing number's exact value times 1,000, rounded once; 10 and 11."""
    if not isfinite(number):
        raise Refusal(refusal.NOT_FINITE, place)
    whole = nearest(Fraction(number) * MICROMETRES_PER_MM)
    if not within(CONTROL_LIMIT, [whole]):
        raise Refusal(refusal.NUMBER_LIMITS, place)
    return whole


def take(state: State, step: Step, numbers: Sequence[float], controls: List[int]) -> State:
    """Take one step: write the controls it adds and answer the next state."""
    check_state(state)
    check_turn(state, step)
    whole = [micrometres(number, place) for place, number in enumerate(numbers)]
    added = added_records(state, step, list(zip(whole[0::2], whole[1::2])))
    count = state.count + len(added)
    if count > MOST_RECORDS:
        raise Refusal(refusal.RECORDS)
    check_controls_room(controls, state.count, count)
    controls[2 * state.count:2 * count] = [number for record in added for number in record]
    return State(
        count,
        added[0] if step is Step.MOVE else state.start,
        added[-1] if added else state.current,
        state.closed or step is Step.CLOSE,
    )


def check_state(state: State) -> None:
    """3 and 8: a count that no drawing has; a start or current outside the limits."""
    if state.count == 0:
        if state.closed:
            raise Refusal(refusal.COUNT)
        return
    if state.count != 1 and not count_allowed(Shape(BEZIER, 0, state.count)):
        raise Refusal(refusal.COUNT)
    if not within(CONTROL_LIMIT, state.start + state.current):
        raise Refusal(refusal.LIMITS)


def check_turn(state: State, step: Step) -> None:
    """12: a Move that is not the first step, a first step that is no Move, a step after Close."""
    if state.closed or (step is Step.MOVE) != (state.count == 0):
        raise Refusal(refusal.STEP_ORDER)


def added_records(state: State, step: Step, records: List[Record]) -> List[Record]:
    """The controls that a step adds.  A Line from A to B adds A, B, B."""
    if step is Step.LINE:
        return [state.current, records[0], records[0]]
    if step is Step.CLOSE:
        there = state.current == state.start
        return [] if there else [state.current, state.start, state.start]
    return records
