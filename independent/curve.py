"""The curve, from the published basis matrices and in exact fractions.

Document 000, (8): a cubic is C(t) = [t^3 t^2 t 1] M G, where M is the matrix of
the basis and G holds the span's four records.  Nothing is rounded before the end.
"""

from fractions import Fraction
from functools import lru_cache
from math import floor
from typing import Iterable, List, Sequence, Tuple

from shape import (B_SPLINE, BEZIER, CARDINAL, HERMITE, LOOP, ONE_HALF, WHOLE_PARAMETER, Shape, point_count,
                   span_records, spans)

Matrix = Tuple[Tuple[Fraction, ...], ...]


def scaled(factor: Fraction, rows: Sequence[Sequence[Fraction]]) -> Matrix:
    return tuple(tuple(factor * entry for entry in row) for row in rows)


def cardinal_matrix(s: Fraction) -> Matrix:
    """Document 001, "Catmull-Rom Spline Matrix"; document 000, (20), with a for s."""
    return scaled(Fraction(1), (
        (-s, 2 - s, s - 2, s),
        (2 * s, s - 3, 3 - 2 * s, -s),
        (-s, 0, s, 0),
        (0, 1, 0, 0),
    ))


def parameter_value(parameter: int) -> Fraction:
    """What a cardinal shape's parameter stands for: 64ths, and zero for one half (document 02, request 7)."""
    return Fraction(1, 2) if parameter == ONE_HALF else Fraction(parameter, WHOLE_PARAMETER)


MATRIX = {
    # Document 000, (14); document 001, "The Bezier Spline Matrix".
    BEZIER: scaled(Fraction(1), (
        (-1, 3, -3, 1),
        (3, -6, 3, 0),
        (-3, 3, 0, 0),
        (1, 0, 0, 0),
    )),
    # Document 001, "B-Spline Basis".  Document 000, (22), leaves out the 1/6
    # that its own (23) to (25) need, and 002 prints another last row.
    B_SPLINE: scaled(Fraction(1, 6), (
        (-1, 3, -3, 1),
        (3, -6, 3, 0),
        (-3, 0, 3, 0),
        (1, 4, 1, 0),
    )),
    # Document 000, (9); document 001, "The Cubic Hermite Spline Equation".
    HERMITE: scaled(Fraction(1), (
        (2, -2, 1, 1),
        (-3, 3, -2, -1),
        (0, 0, 1, 0),
        (1, 0, 0, 0),
    )),
}
# Document 02, request 8: a loop's formula is the B-spline's.
MATRIX[LOOP] = MATRIX[B_SPLINE]


@lru_cache(maxsize=None)
def matrix(basis: int, parameter: int) -> Matrix:
    """The matrix of the basis; only the cardinal one has a parameter in it."""
    return cardinal_matrix(parameter_value(parameter)) if basis == CARDINAL else MATRIX[basis]


# Which of a span's records stands in each row of G.  The Hermite equation has
# both ends before both tangents; a record list has each end before its tangent.
GEOMETRY = {
    BEZIER: (0, 1, 2, 3),
    B_SPLINE: (0, 1, 2, 3),
    CARDINAL: (0, 1, 2, 3),
    HERMITE: (0, 2, 1, 3),
    LOOP: (0, 1, 2, 3),
}


def product(row: Sequence[Fraction], column: Sequence[Fraction]) -> Fraction:
    return sum((a * b for a, b in zip(row, column)), Fraction(0))


def cubic(basis: int, four: Sequence[int], parameter: int = ONE_HALF) -> List[Fraction]:
    """M G for one axis: the coefficients of t^3, t^2, t and 1."""
    geometry = [four[place] for place in GEOMETRY[basis]]
    return [product(row, geometry) for row in matrix(basis, parameter)]


@lru_cache(maxsize=1024)
def at_steps(axis: Tuple[Fraction, ...], depth: int) -> List[Fraction]:
    """A cubic at t = i/2^k for every i from 0 to 2^k; kept for a while, since most spans of an outline stay in an edit."""
    steps = 2 ** depth
    return [product(powers(Fraction(i, steps)), axis) for i in range(steps + 1)]


def powers(t: Fraction) -> Tuple[Fraction, ...]:
    return (t ** 3, t ** 2, t, Fraction(1))


def exact_outline(shape: Shape, controls: Sequence[int]) -> List[Fraction]:
    """The exact x and y of every point: number s*2^k + i is span s at t = i/2^k."""
    steps = 2 ** shape.depth
    curves = [[at_steps(tuple(axis), shape.depth) for axis in span_cubics(shape, controls, span)]
              for span in range(spans(shape))]
    values: List[Fraction] = []
    for point in range(point_count(shape)):
        span = min(point // steps, len(curves) - 1)
        values += (axis[point - span * steps] for axis in curves[span])
    return values


def span_cubics(shape: Shape, controls: Sequence[int], span: int) -> List[List[Fraction]]:
    """The cubic of a span in x and the one in y."""
    records = span_records(shape, span)
    return [cubic(shape.basis, [controls[2 * j + axis] for j in records], shape.parameter) for axis in (0, 1)]


def whole_values(values: Iterable[Fraction]) -> int:
    """How many of the values are whole numbers before anything is rounded (document 02, request 9)."""
    return sum(1 for value in values if value.denominator == 1)


def nearest(value: Fraction) -> int:
    """The nearest whole number, an exact half away from zero (document 02, request 1).

    The size is rounded, a half up, and the sign put back.
    """
    size = floor(abs(value) + Fraction(1, 2))
    return -size if value < 0 else size
