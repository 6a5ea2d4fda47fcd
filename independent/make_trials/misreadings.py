"""Wrong readings of request 7, which the trials are seen to tell from its own.

By a wrong reading one part of the program is another, for as long as calls are made again.
"""

from contextlib import contextmanager
from copy import deepcopy
from fractions import Fraction
from functools import lru_cache
from types import ModuleType
from typing import Any, Callable, Iterator, List, NamedTuple, Sequence, Tuple

import checks
import curve
import edits
import outline
import record_file
import refusal
import trials
from checks import check_basis, check_count, check_depth, check_parameter
from curve import MATRIX, Matrix, cardinal_matrix, nearest, parameter_value
from edits import Edited, accept
from make_trials.script import Script
from record_file import read
from refusal import Refusal
from shape import B_SPLINE, CARDINAL, ONE_HALF, WHOLE_PARAMETER, Shape
from trials import Bench, Lines


class Misreading(NamedTuple):
    """A part of the program, by its module and name, and what it is by the wrong reading."""

    module: ModuleType
    name: str
    instead: Any

    @contextmanager
    def taken(self) -> Iterator[None]:
        right = getattr(self.module, self.name)
        setattr(self.module, self.name, self.instead)
        try:
            yield
        finally:
            setattr(self.module, self.name, right)


def outcome(bench: Bench, records: Sequence[bytes]) -> Tuple[List[Lines], dict]:
    """What the records write, and all that stands on the bench after them; the bench itself stays."""
    other = deepcopy(bench)
    return [other.play(record) for record in records], vars(other)


@contextmanager
def told_from(script: Script, *wrong: Misreading) -> Iterator[None]:
    """What is done within this comes out otherwise by each wrong reading."""
    if not wrong:
        yield
        return
    before, done = deepcopy(script.bench), len(script.records)
    yield
    came = outcome(before, script.records[done:])
    for reading in wrong:
        with reading.taken():
            assert outcome(before, script.records[done:]) != came, reading


# ---- what the parameter stands for


def standing_for(value: Callable[[int], Fraction]) -> Misreading:
    @lru_cache(maxsize=None)
    def matrix(basis: int, parameter: int) -> Matrix:
        return cardinal_matrix(value(parameter)) if basis == CARDINAL else MATRIX[basis]
    return Misreading(curve, "matrix", matrix)


ZERO_IS_NOUGHT = standing_for(lambda parameter: Fraction(parameter, WHOLE_PARAMETER))
WHOLE_IS_HALF = standing_for(lambda parameter: parameter_value(parameter % WHOLE_PARAMETER))
ALWAYS_HALF = standing_for(lambda parameter: Fraction(1, 2))
SIGNS_EXCHANGED = standing_for(lambda parameter: -parameter_value(parameter))


# ---- when it is refused, and where in the order


def in_order(*shape_checks: Callable[[Shape], None]) -> Misreading:
    return Misreading(checks, "SHAPE_CHECKS", shape_checks)


def refused_where(wrong: Callable[[Shape], bool]) -> Misreading:
    def check(shape: Shape) -> None:
        if wrong(shape):
            raise Refusal(refusal.PARAMETER)
    return in_order(check_basis, check_depth, check, check_count)


def large(parameter: int) -> bool:
    return parameter > WHOLE_PARAMETER


BEFORE_DEPTH = in_order(check_basis, check_parameter, check_depth, check_count)
AFTER_COUNT = in_order(check_basis, check_depth, check_count, check_parameter)
NEVER_REFUSED = in_order(check_basis, check_depth, check_count)
ZERO_REFUSED = refused_where(lambda shape: shape.basis == CARDINAL and not 0 < shape.parameter <= WHOLE_PARAMETER)
WHOLE_REFUSED = refused_where(lambda shape: shape.basis == CARDINAL and shape.parameter >= WHOLE_PARAMETER)
LOOKED_AT_IN_B_SPLINES = refused_where(lambda shape: shape.basis in (B_SPLINE, CARDINAL) and large(shape.parameter))
LOOKED_AT_ALWAYS = refused_where(lambda shape: large(shape.parameter))
LOW_BYTE_ALONE = refused_where(lambda shape: shape.basis == CARDINAL and large(shape.parameter % 2 ** 8))
SIGNED = refused_where(lambda shape: shape.basis == CARDINAL and WHOLE_PARAMETER < shape.parameter < 2 ** 31)


# ---- what an edit does with it


def edit_that_loses(shape: Shape, *rest: Any) -> Edited:
    """The answered shape is at one half."""
    answer = accept(shape, *rest)
    return answer._replace(shape=answer.shape._replace(parameter=ONE_HALF))


def edit_at_half(shape: Shape, *rest: Any) -> Edited:
    """The fresh spans are worked at one half."""
    return accept(shape._replace(parameter=ONE_HALF), *rest)._replace(shape=shape)


EDIT_LOSES = Misreading(edits, "accept", edit_that_loses)
EDIT_AT_HALF = Misreading(edits, "accept", edit_at_half)


# ---- bytes 2 and 3 of a record


READ_LOSES = Misreading(trials, "read", lambda file, controls: read(file, controls)._replace(parameter=ONE_HALF))


def by_bytes(may_carry: Callable[[tuple, tuple], bool], alike: int) -> Misreading:
    """14 by which records may carry a parameter, and 15 by the first so many bytes."""
    def check_record(record: tuple, first: tuple, place: int) -> None:
        _, _, parameter, spare = record[:4]
        if spare != 0 or parameter != 0 and not may_carry(record, first):
            raise Refusal(refusal.SPARE_BYTES, place)
        if record[:alike] != first[:alike]:
            raise Refusal(refusal.UNLIKE_FIRST, place)
    return Misreading(record_file, "check_record", check_record)


BOTH_BYTES_ZERO = by_bytes(lambda record, first: False, 3)
ANY_MAY_CARRY = by_bytes(lambda record, first: True, 3)
BY_FIRST_BASIS = by_bytes(lambda record, first: first[0] == CARDINAL, 3)
UNLIKE_IN_TWO_BYTES = by_bytes(lambda record, first: record[0] == CARDINAL, 2)


# ---- how far a cardinal curve may go


BEFORE_REACH = 5_000_000
REACH = 16


def within_reach(value: Fraction) -> int:
    if abs(nearest(value)) > BEFORE_REACH:
        raise Refusal(REACH)
    return nearest(value)


REACH_AS_BEFORE = Misreading(outline, "nearest", within_reach)
