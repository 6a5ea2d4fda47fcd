"""Shapes, their spans and their points: document 01, "What it draws, and what it leaves"."""

from typing import List, NamedTuple

BEZIER, B_SPLINE, CARDINAL, HERMITE = 1, 2, 3, 4
# Document 02, request 8: a B-spline whose records run round.
LOOP = 5

# Records from where a span starts to where the next one does.  With four
# records to a span this gives n = 3m+1, m+3, m+3 and 2m+2; round a loop it gives n = m.
STRIDE = {BEZIER: 3, B_SPLINE: 1, CARDINAL: 1, HERMITE: 2, LOOP: 1}
ALL_BASES = tuple(STRIDE)

SPAN_RECORDS = 4
MOST_RECORDS = 64
# Document 02, request 10; document 01 has 6.
DEEPEST = 8
# Document 02, request 7: a cardinal curve's parameter is so many 64ths, and zero is one half.
WHOLE_PARAMETER = 64
ONE_HALF = 0


class Shape(NamedTuple):
    """Basis, depth k, control count n and parameter; nothing is promised of the four."""

    basis: int
    depth: int
    count: int
    parameter: int = ONE_HALF


def count_allowed(shape: Shape) -> bool:
    """Whether n is one of the counts that the (good) basis allows."""
    past_first_span = shape.count - SPAN_RECORDS
    return 0 <= past_first_span <= MOST_RECORDS - SPAN_RECORDS and past_first_span % STRIDE[shape.basis] == 0


def spans(shape: Shape) -> int:
    """How many spans a good shape has; a loop has one for each record."""
    if shape.basis == LOOP:
        return shape.count
    return (shape.count - SPAN_RECORDS) // STRIDE[shape.basis] + 1


def span_records(shape: Shape, span: int) -> List[int]:
    """The numbers of the four records that a span uses; in a loop they are counted round the end."""
    first = STRIDE[shape.basis] * span
    numbers = [*range(first, first + SPAN_RECORDS)]
    return [number % shape.count for number in numbers] if shape.basis == LOOP else numbers


def span_points(shape: Shape, span: int) -> range:
    """The numbers of a span's points, both ends included."""
    steps = 2 ** shape.depth
    return range(span * steps, (span + 1) * steps + 1)


def point_count(shape: Shape) -> int:
    """How many points the outline of a good shape has."""
    return spans(shape) * 2 ** shape.depth + 1


def numbers_of(things: range) -> slice:
    """Where a run of records or points stands in its list, x then y."""
    return slice(2 * things.start, 2 * things.stop)
