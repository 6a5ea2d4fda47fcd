"""Editing an outline: document 01's section of that name, span by span.

Each edit says which spans of the new shape are worked afresh, and which old span each
of the others holds.  Where a fresh span meets another, the point is fresh.  In a loop
the fresh spans are counted round it, and its first and last points are one joint
(document 02, request 8).
"""

from fractions import Fraction
from typing import Callable, List, NamedTuple, Set

import refusal
from checks import (Record, check_controls_room, check_limits, check_new_record, check_offered, check_place,
                    check_points_room, check_shape)
from curve import exact_outline, whole_values
from outline import rounded
from refusal import Refusal
from shape import (B_SPLINE, CARDINAL, LOOP, MOST_RECORDS, SPAN_RECORDS, Shape, numbers_of, point_count, span_points,
                   span_records, spans)

# The old span that a span of the new shape holds, where it is not fresh.
Source = Callable[[int], int]

BASES_THAT_GROW = (B_SPLINE, CARDINAL, LOOP)


class Edited(NamedTuple):
    """The new shape, the first span worked afresh, how many, and how many of their coordinates are exact; 0, 0 and 0 for none."""

    shape: Shape
    first: int
    fresh: int
    exact: int


def move(shape: Shape, controls: List[int], points: List[int], place: int, record: Record) -> Edited:
    """Replace a record.  Every span that uses it is fresh; in a loop the run from j-3 to j, and so is all of the least."""
    check_shape(shape)
    check_place(place, shape.count)
    check_lists(shape, shape, controls, points, record)
    changed = controls[:2 * place] + [*record] + controls[2 * place + 2:2 * shape.count]
    fresh = run(shape, place - 3, place) if shape.basis == LOOP else users(shape, place)
    return accept(shape, controls, points, changed, fresh, lambda span: span)


def insert(shape: Shape, controls: List[int], points: List[int], place: int, record: Record) -> Edited:
    """Put a record before another.  Spans j-3 to j are fresh; of the others those past j held one number less."""
    check_shape(shape)
    check_offered(shape, BASES_THAT_GROW)
    check_place(place, shape.count + 1)
    check_not_most(shape)
    grown = shape._replace(count=shape.count + 1)
    check_lists(shape, grown, controls, points, record)
    changed = controls[:2 * place] + [*record] + controls[2 * place:2 * shape.count]
    fresh = run(grown, place - 3, place)
    return accept(grown, controls, points, changed, fresh, lambda span: span if span < place else span - 1)


def remove(shape: Shape, controls: List[int], points: List[int], place: int) -> Edited:
    """Take a record out.  Spans j-3 to j-1 are fresh; of the others those from j on held one number more."""
    check_shape(shape)
    check_offered(shape, BASES_THAT_GROW)
    check_place(place, shape.count)
    check_not_least(shape)
    shrunk = shape._replace(count=shape.count - 1)
    check_lists(shape, shrunk, controls, points)
    changed = controls[:2 * place] + controls[2 * place + 2:2 * shape.count]
    fresh = run(shrunk, place - 3, place - 1)
    return accept(shrunk, controls, points, changed, fresh, lambda span: span if span < place else span + 1)


def check_not_most(shape: Shape) -> None:
    """6: there are as many records as there may be."""
    if shape.count == MOST_RECORDS:
        raise Refusal(refusal.RECORDS)


def check_not_least(shape: Shape) -> None:
    """6: there are as few records as there may be."""
    if shape.count == SPAN_RECORDS:
        raise Refusal(refusal.RECORDS)


def check_lists(old: Shape, new: Shape, controls: List[int], points: List[int], *record: Record) -> None:
    """7, 8 and 9: both lists for both shapes; the controls as they came, then the new record."""
    check_controls_room(controls, old.count, new.count)
    check_limits(controls, old.count)
    for new_record in record:
        check_new_record(new_record, old.count)
    check_points_room(points, old, new)


def users(shape: Shape, place: int) -> List[int]:
    """The spans that use a record."""
    return [span for span in range(spans(shape)) if place in span_records(shape, span)]


def run(shape: Shape, first: int, last: int) -> List[int]:
    """The spans from one number to another, those that exist; in a loop all of them, counted round it, in order."""
    numbers = range(first, last + 1)
    if shape.basis == LOOP:
        return [number % spans(shape) for number in numbers]
    return [number for number in numbers if 0 <= number < spans(shape)]


def accept(shape: Shape, controls: List[int], points: List[int], changed: List[int], fresh: List[int],
           source: Source) -> Edited:
    """Write the changed controls, and the points of the new shape: fresh ones, and what the other spans held."""
    values = exact_outline(shape, changed)
    outline = rounded(values)
    old = list(points)
    for span in set(range(spans(shape))) - set(fresh):
        points[numbers_of(span_points(shape, span))] = old[numbers_of(span_points(shape, source(span)))]
    for number in numbers_at(fresh_points(shape, fresh)):
        points[number] = outline[number]
    controls[:len(changed)] = changed
    return Edited(shape, fresh[0] if fresh else 0, len(fresh), exact_numbers(shape, values, fresh))


def fresh_points(shape: Shape, fresh: List[int]) -> Set[int]:
    """The points of the fresh spans, both ends included; a loop's first and last point where its first or last span is fresh."""
    points = {point for span in fresh for point in span_points(shape, span)}
    if shape.basis == LOOP and {0, spans(shape) - 1} & set(fresh):
        points |= {0, point_count(shape) - 1}
    return points


def numbers_at(points: Set[int]) -> Set[int]:
    """Where the numbers of the points stand in their list, x then y."""
    return {number for point in points for number in (2 * point, 2 * point + 1)}


def exact_numbers(shape: Shape, values: List[Fraction], fresh: List[int]) -> int:
    """How many numbers of fresh points are exact, each counted once; a loop's first and last points are two."""
    return whole_values(values[number] for number in numbers_at(fresh_points(shape, fresh)))
