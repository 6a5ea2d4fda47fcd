"""Chance for the trials file: the same on every machine, and weighted to edges."""

import struct
from typing import List, Sequence, TypeVar

from checks import CONTROL_LIMIT, Record
from shape import B_SPLINE, BEZIER, CARDINAL, DEEPEST, HERMITE, MOST_RECORDS, SPAN_RECORDS, STRIDE, Shape

Thing = TypeVar("Thing")

WORD = 2 ** 64 - 1
LOW_BITS = 11

# The bases before document 02's request 8, and those of them that can be inserted into and removed from.  The trials of
# the other requests go by them, so that their records stay what they were; loops.py and those beside it have the loops.
BASES_BEFORE = (BEZIER, B_SPLINE, CARDINAL, HERMITE)
GROWING_BEFORE = (B_SPLINE, CARDINAL)

# The deepest before document 02's request 10.  The trials of the other requests go by it, so that
# their records stay what they were; depths.py has the depths past it.
DEEPEST_BEFORE = 6


def beside(number: float, steps: int) -> float:
    """The double that many bit patterns farther from zero."""
    pattern = struct.unpack("<Q", struct.pack("<d", number))[0]
    return struct.unpack("<d", struct.pack("<Q", pattern + steps))[0]


class Dice:
    """Marsaglia's 64-bit xorshift (13, 7, 17), and choices made with it."""

    def __init__(self, seed: int) -> None:
        self.word = seed

    def roll(self) -> int:
        self.word ^= (self.word << 13) & WORD
        self.word ^= self.word >> 7
        self.word ^= (self.word << 17) & WORD
        return self.word

    def below(self, most: int) -> int:
        return (self.roll() >> LOW_BITS) % most

    def between(self, least: int, most: int) -> int:
        return least + self.below(most - least + 1)

    def one_in(self, chances: int) -> bool:
        return self.below(chances) == 0

    def sign(self) -> int:
        return self.pick((-1, 1))

    def pick(self, things: Sequence[Thing]) -> Thing:
        return things[self.below(len(things))]

    def some(self, things: Sequence[Thing], most: int) -> List[Thing]:
        """Up to so many of the things, each at most once."""
        left = list(things)
        return [left.pop(self.below(len(left))) for _ in range(self.between(0, most))]

    def coordinate(self) -> int:
        """A good coordinate: a limit, one inside it, a small number or any."""
        most = self.pick((0, 0, 1, 8, 8, 1000, CONTROL_LIMIT, CONTROL_LIMIT))
        if most == 0:
            return self.sign() * (CONTROL_LIMIT - self.below(2))
        return self.between(-most, most)

    def outside(self) -> int:
        """A 32-bit number beyond the limits, often by one."""
        return self.pick((CONTROL_LIMIT + 1, -CONTROL_LIMIT - 1, 2 ** 31 - 1, -2 ** 31,
                          self.sign() * self.between(CONTROL_LIMIT + 1, 2 ** 31 - 1)))

    def junk(self) -> int:
        """Any 32-bit number."""
        return self.pick((self.coordinate(), self.outside()))

    def record(self) -> Record:
        """A good record."""
        return self.coordinate(), self.coordinate()

    def bad_record(self) -> Record:
        """A record with one number outside the limits."""
        x, y = self.record()
        return self.pick(((x, self.outside()), (self.outside(), y)))

    def numbers(self, count: int) -> List[int]:
        """The numbers of that many good records."""
        return [self.coordinate() for _ in range(2 * count)]

    def count(self, basis: int, most: int = MOST_RECORDS) -> int:
        """A count that the basis allows."""
        return SPAN_RECORDS + STRIDE[basis] * self.below((most - SPAN_RECORDS) // STRIDE[basis] + 1)

    def shape(self, bases: Sequence[int] = BASES_BEFORE, deepest: int = DEEPEST, most: int = MOST_RECORDS) -> Shape:
        """A good shape."""
        basis = self.pick(bases)
        return Shape(basis, self.between(0, deepest), self.count(basis, most))

    def place(self, count: int) -> int:
        """An edit's place: near an end, past it, anywhere, or far out."""
        if self.one_in(25):
            return self.pick((2 ** 31, 2 ** 32, 2 ** 62, 2 ** 63 - 1))
        if self.one_in(3):
            return self.below(count + 2)
        return self.pick((0, 1, 2, 3, count - 4, count - 3, count - 2, count - 1, count, count + 1))

    def millimetres(self) -> float:
        """A good drawing number: a sixteenth (every odd one is a tie), a decimal length, or any."""
        if self.one_in(3):
            return self.between(-63_999, 63_999) / 16
        if self.one_in(3):
            return self.between(-400, 400) / self.pick((1, 10, 1000, 2000))
        return self.between(-CONTROL_LIMIT, CONTROL_LIMIT) / 1000
