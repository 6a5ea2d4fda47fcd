"""Rows of the refusal table that several calls share, each under its number.

A call names the rows that apply to it in document 01's order; the first that
holds is its refusal.  All of them come before anything is written.
"""

from typing import Sequence, Tuple

import refusal
from refusal import Refusal
from shape import CARDINAL, DEEPEST, STRIDE, WHOLE_PARAMETER, Shape, count_allowed, point_count

CONTROL_LIMIT = 4_000_000

Record = Tuple[int, int]


def within(limit: int, numbers: Sequence[int]) -> bool:
    return all(-limit <= number <= limit for number in numbers)


def check_basis(shape: Shape) -> None:
    """1: there is no such basis."""
    if shape.basis not in STRIDE:
        raise Refusal(refusal.BASIS)


def check_depth(shape: Shape) -> None:
    """2: the depth is past the deepest."""
    if shape.depth > DEEPEST:
        raise Refusal(refusal.DEPTH)


def check_parameter(shape: Shape) -> None:
    """24: the parameter is above one; for other bases than the cardinal it is not looked at."""
    if shape.basis == CARDINAL and shape.parameter > WHOLE_PARAMETER:
        raise Refusal(refusal.PARAMETER)


def check_count(shape: Shape) -> None:
    """3: the basis does not allow so many records."""
    if not count_allowed(shape):
        raise Refusal(refusal.COUNT)


SHAPE_CHECKS = (check_basis, check_depth, check_parameter, check_count)


def check_shape(shape: Shape) -> None:
    """1, 2, 24 and 3, in this order."""
    for check in SHAPE_CHECKS:
        check(shape)


def check_offered(shape: Shape, bases: Sequence[int]) -> None:
    """4: the call is not offered for the basis."""
    if shape.basis not in bases:
        raise Refusal(refusal.NOT_OFFERED)


def check_place(place: int, past_last: int) -> None:
    """5: the edit place is outside its range."""
    if place >= past_last:
        raise Refusal(refusal.PLACE, place)


def check_controls_room(controls: Sequence[int], *counts: int) -> None:
    """7: the controls list is shorter than one of the counts needs."""
    if len(controls) < 2 * max(counts):
        raise Refusal(refusal.CONTROLS_SHORT)


def check_limits(controls: Sequence[int], count: int) -> None:
    """8: the first of the controls, as they came, that is outside the limits."""
    for record in range(count):
        if not within(CONTROL_LIMIT, controls[2 * record:2 * record + 2]):
            raise Refusal(refusal.LIMITS, record)


def check_new_record(record: Record, count: int) -> None:
    """8: the new record of an edit; its place is the old count."""
    if not within(CONTROL_LIMIT, record):
        raise Refusal(refusal.LIMITS, count)


def check_points_room(points: Sequence, *shapes: Shape) -> None:
    """9: the points or preview list is shorter than one of the outlines needs."""
    if len(points) < 2 * max(point_count(shape) for shape in shapes):
        raise Refusal(refusal.POINTS_SHORT)
