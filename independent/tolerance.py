"""The outline by tolerance: document 02, request 3.

A span is a tree of pieces: a piece is flat, or it is cut at its middle into a left
and a right one.  A piece is the span's cubic over a part of t, and its four Bezier
controls are solved for from that cubic; nothing is halved and nothing is rounded
before the points are chosen.
"""

from fractions import Fraction
from typing import List, NamedTuple, Sequence, Tuple

import refusal
from checks import check_controls_room, check_limits, check_shape
from curve import powers, product, span_cubics, whole_values
from outline import rounded
from refusal import Refusal
from shape import Shape, spans

MOST_TOLERANCE = 10_000
# The cuts after which a piece must be flat; not the depth that an outline may have.
FINEST = 6


class Piece(NamedTuple):
    """A span's cubics in x and y over one of the 2^depth equal parts of t, counted from 0 at the left."""

    cubics: Sequence[Sequence[Fraction]]
    depth: int
    part: int


def span_pieces(shape: Shape, controls: Sequence[int]) -> List[Piece]:
    """Every span as one piece."""
    return [Piece(span_cubics(shape, controls, span), 0, 0) for span in range(spans(shape))]


def halves(piece: Piece) -> Tuple[Piece, Piece]:
    """The left and the right piece that a cut makes."""
    left = piece._replace(depth=piece.depth + 1, part=2 * piece.part)
    return left, left._replace(part=left.part + 1)


def start(piece: Piece) -> List[Fraction]:
    """The exact x and y where the piece starts."""
    return exact_point(piece, Fraction(piece.part, 2 ** piece.depth))


def exact_point(piece: Piece, t: Fraction) -> List[Fraction]:
    return [product(powers(t), cubic) for cubic in piece.cubics]


def cubic_over(cubic: Sequence[Fraction], start: Fraction, width: Fraction) -> List[Fraction]:
    """The cubic at t = start + width v, as the coefficients of v^3, v^2, v and 1."""
    a, b, c, _ = cubic
    return [a * width ** 3, (3 * a * start + b) * width ** 2, (3 * a * start ** 2 + 2 * b * start + c) * width,
            product(powers(start), cubic)]


def bezier_controls(cubic: Sequence[Fraction]) -> List[Fraction]:
    """Document 000, (14), solved for the four points."""
    a, b, c, d = cubic
    return [d, d + c / 3, d + 2 * c / 3 + b / 3, d + c + b + a]


def piece_controls(piece: Piece) -> List[List[Fraction]]:
    """The piece's own Bezier controls, in x and in y."""
    width = Fraction(1, 2 ** piece.depth)
    return [bezier_controls(cubic_over(cubic, piece.part * width, width)) for cubic in piece.cubics]


def second_differences(four: Sequence[Fraction]) -> Tuple[Fraction, Fraction]:
    b0, b1, b2, b3 = four
    return b0 - 2 * b1 + b2, b1 - 2 * b2 + b3


def flat_on_axis(four: Sequence[Fraction], tolerance: int) -> bool:
    return 3 * max(abs(difference) for difference in second_differences(four)) <= 4 * tolerance


def flat(piece: Piece, tolerance: int) -> bool:
    return all(flat_on_axis(four, tolerance) for four in piece_controls(piece))


def flat_pieces(piece: Piece, tolerance: int, most: int, cuts: int) -> Tuple[List[Piece], int]:
    """The flat pieces of a piece's tree in order, and the cuts made when the walk leaves it, `cuts` of them before.

    21 and 22: the first that the walk from the left meets.
    """
    if flat(piece, tolerance):
        return [piece], cuts
    if piece.depth == FINEST:
        raise Refusal(refusal.NOT_FLAT)
    if cuts == most:
        raise Refusal(refusal.CUTS)
    left, right = halves(piece)
    earlier, cuts = flat_pieces(left, tolerance, most, cuts + 1)
    later, cuts = flat_pieces(right, tolerance, most, cuts)
    return earlier + later, cuts


def chosen(shape: Shape, controls: Sequence[int], tolerance: int, most: int) -> Tuple[List[Fraction], int]:
    """The exact x and y of every chosen point, and how many cuts chose them; 20, then 21 and 22.

    The points are the start of each flat piece in order, and the last end.
    """
    if tolerance > MOST_TOLERANCE:
        raise Refusal(refusal.TOLERANCE)
    wholes = span_pieces(shape, controls)
    values: List[Fraction] = []
    cuts = 0
    for whole in wholes:
        pieces, cuts = flat_pieces(whole, tolerance, most, cuts)
        values += (number for piece in pieces for number in start(piece))
    return values + exact_point(wholes[-1], Fraction(1)), cuts


class Cut(NamedTuple):
    """How many points there are, how many cuts were made, and how many coordinates are exact."""

    points: int
    cuts: int
    exact: int


def cut(shape: Shape, controls: Sequence[int], points: List[int], tolerance: int, most: int) -> Cut:
    """Fill the points with the outline that cuts only while needed.  The depth is checked, no more."""
    check_shape(shape)
    check_controls_room(controls, shape.count)
    check_limits(controls, shape.count)
    values, cuts = chosen(shape, controls, tolerance, most)
    if len(points) < len(values):
        raise Refusal(refusal.POINTS_SHORT)
    points[:len(values)] = rounded(values)
    return Cut(len(values) // 2, cuts, whole_values(values))
