"""Readings of request 3: its own, and wrong ones that the trials are seen to tell from it."""

from fractions import Fraction
from typing import Callable, List, NamedTuple, Sequence, Tuple

import refusal
from curve import whole_values
from make_trials.script import ACCEPTED
from outline import rounded
from refusal import Refusal
from shape import Shape
from tolerance import (FINEST, Piece, exact_point, flat, flat_on_axis, halves, piece_controls, second_differences,
                       span_pieces, start)


class Rule(NamedTuple):
    """When a piece is flat, and how the walk goes; unless said, as the request has it."""

    flat: Callable[[Piece, int], bool] = flat
    counts: Callable[[Piece], bool] = lambda piece: True
    right_first: bool = False
    most_first: bool = False
    anew_each_span: bool = False


def bends(piece: Piece) -> List[Tuple[Fraction, Fraction]]:
    """The sizes of the piece's two second differences, on each axis."""
    return [(abs(first), abs(last)) for first, last in map(second_differences, piece_controls(piece))]


RIGHT = Rule()
ONLY_X = Rule(flat=lambda piece, tolerance: flat_on_axis(piece_controls(piece)[0], tolerance))
ONLY_Y = Rule(flat=lambda piece, tolerance: flat_on_axis(piece_controls(piece)[1], tolerance))
ONLY_FIRST = Rule(flat=lambda piece, tolerance: all(3 * first <= 4 * tolerance for first, _ in bends(piece)))
ONLY_LAST = Rule(flat=lambda piece, tolerance: all(3 * last <= 4 * tolerance for _, last in bends(piece)))
AXES_ADDED = Rule(flat=lambda piece, tolerance: 3 * sum(max(both) for both in bends(piece)) <= 4 * tolerance)
EXCHANGED = Rule(flat=lambda piece, tolerance: all(4 * max(both) <= 3 * tolerance for both in bends(piece)))
STRICT = Rule(flat=lambda piece, tolerance: all(3 * max(both) < 4 * tolerance for both in bends(piece)))
ROUNDED = Rule(flat=lambda piece, tolerance: all(flat_on_axis(rounded(four), tolerance)
                                                 for four in piece_controls(piece)))
RIGHT_FIRST = Rule(right_first=True)
MOST_FIRST = Rule(most_first=True)
FIRST_CUT_FREE = Rule(counts=lambda piece: piece.depth > 0)
LAST_CUTS_FREE = Rule(counts=lambda piece: piece.depth < FINEST - 1)
ANEW_EACH_SPAN = Rule(anew_each_span=True)


class Walk:
    """A walk by a rule over the trees of all spans: the exact values of its points and its cuts, or what it met."""

    def __init__(self, rule: Rule, shape: Shape, controls: Sequence[int], tolerance: int, most: int) -> None:
        self.rule, self.tolerance, self.most = rule, tolerance, most
        self.order = -1 if rule.right_first else 1
        self.values: List[Fraction] = []
        self.cuts = self.not_counted = 0
        self.met = ACCEPTED
        wholes = span_pieces(shape, controls)
        try:
            pieces = self.in_order([self.span(whole) for whole in wholes[::self.order]])
            self.values = [number for piece in pieces for number in start(piece)] + exact_point(wholes[-1], Fraction(1))
        except Refusal as refused:
            self.met = refused.number

    def span(self, whole: Piece) -> List[Piece]:
        self.not_counted = self.cuts if self.rule.anew_each_span else 0
        return self.flat_pieces(whole)

    def flat_pieces(self, piece: Piece) -> List[Piece]:
        if self.rule.flat(piece, self.tolerance):
            return [piece]
        self.check(piece)
        self.cuts += self.rule.counts(piece)
        return self.in_order([self.flat_pieces(half) for half in halves(piece)[::self.order]])

    def in_order(self, parts: List[List[Piece]]) -> List[Piece]:
        """The pieces of the parts from left to right, whichever way they were walked."""
        return [piece for part in parts[::self.order] for piece in part]

    def check(self, piece: Piece) -> None:
        """21 and 22, at a piece that is not flat."""
        stops = [(piece.depth == FINEST, refusal.NOT_FLAT), (self.cuts - self.not_counted == self.most, refusal.CUTS)]
        for holds, number in stops[::-1] if self.rule.most_first else stops:
            if holds:
                raise Refusal(number)

    def line(self) -> str:
        """What the call writes."""
        if self.met != ACCEPTED:
            return str(Refusal(self.met))
        return f"cut {len(self.values) // 2} {self.cuts} {whole_values(self.values)}"

    def outcome(self) -> Tuple[str, List[int]]:
        """All that a caller sees of it."""
        return self.line(), rounded(self.values)
