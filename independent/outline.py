"""The calls that read an outline's controls or points: draw, view and preview."""

from fractions import Fraction
from typing import List, NamedTuple, Sequence

from checks import check_controls_room, check_limits, check_offered, check_points_room, check_shape
from curve import exact_outline, nearest, whole_values
from refusal import Refusal
from shape import BEZIER, Shape, numbers_of, point_count, span_points, spans


def formula_points(shape: Shape, controls: Sequence[int]) -> List[int]:
    """The numbers of the outline that the formulas give."""
    return rounded(exact_outline(shape, controls))


def rounded(values: Sequence[Fraction]) -> List[int]:
    """The numbers of an outline from its exact values: each rounded once."""
    return [nearest(value) for value in values]


class Drawn(NamedTuple):
    """How many points there are, and how many of their coordinates are exact."""

    points: int
    exact: int


def draw(shape: Shape, controls: Sequence[int], points: List[int]) -> Drawn:
    """Fill the points with the outline and answer how many there are and how many coordinates are exact.

    Weights, halving and differences are three ways to this one result.
    """
    check_shape(shape)
    check_controls_room(controls, shape.count)
    check_limits(controls, shape.count)
    check_points_room(points, shape)
    values = exact_outline(shape, controls)
    points[:len(values)] = rounded(values)
    return Drawn(point_count(shape), whole_values(values))


def view(shape: Shape, points: Sequence[int], span: int) -> Sequence[int]:
    """The part of the points that is one span, or the empty part."""
    try:
        check_shape(shape)
        check_points_room(points, shape)
    except Refusal:
        return []
    return points[numbers_of(span_points(shape, span))] if span < spans(shape) else []


def preview(shape: Shape, controls: Sequence[int], doubles: List[float]) -> int:
    """Fill the preview with the unrounded outline of basis 1 and answer how many points."""
    check_shape(shape)
    check_offered(shape, (BEZIER,))
    check_controls_room(controls, shape.count)
    check_limits(controls, shape.count)
    check_points_room(doubles, shape)
    outline = exact_outline(shape, controls)
    written = [float(value) for value in outline]
    assert written == outline, "a preview value does not fit a double"
    doubles[:len(written)] = written
    return point_count(shape)
