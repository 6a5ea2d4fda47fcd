"""Trials of record files whose byte 2 is a parameter, or is none (document 02, request 7)."""

from typing import List, Sequence, Tuple

import refusal
import trials
from make_trials.depths import TOO_DEEP_BYTES, comes_to, spoilt
from make_trials.files import BASIS_BYTE, PARAMETER_BYTE, SPARE_BYTE, spoil
from make_trials.misreadings import (AFTER_COUNT, ALWAYS_HALF, ANY_MAY_CARRY, BEFORE_DEPTH, BOTH_BYTES_ZERO,
                                     BY_FIRST_BASIS, READ_LOSES, UNLIKE_IN_TWO_BYTES, WHOLE_REFUSED, Misreading,
                                     told_from)
from make_trials.outlines import WAYS
from make_trials.script import ACCEPTED, Script, file_of
from make_trials.tautness import (HALF_WAY, HALVES, TAUT, TOO_LARGE_BYTES, after_parameter, drawn_otherwise,
                                  not_refused, wide)
from record_file import RECORD
from shape import (B_SPLINE, BEZIER, CARDINAL, HERMITE, MOST_RECORDS, ONE_HALF, SPAN_RECORDS, WHOLE_PARAMETER, Shape,
                   point_count)


def files(script: Script) -> None:
    """Cardinal files with a parameter, read, drawn and listed; files of other bases with one are refused."""
    dice = script.dice
    for parameter in (*HALVES, *TAUT, *TOO_LARGE_BYTES):
        shape = Shape(CARDINAL, 2, SPAN_RECORDS, parameter)
        script.lend(2 * shape.count, 2 * point_count(shape), fill=dice.junk())
        one_file(script, file_of(shape, wide(dice, shape.count)), after_parameter(shape, ACCEPTED), 0,
                 *read_otherwise(parameter))
        if script.last == ACCEPTED:
            script.show(dice.pick(WAYS), trials.SHOW_POINTS)
            assert script.bench.shape == shape
    for basis in (BEZIER, B_SPLINE, HERMITE):
        for parameter in (1, HALF_WAY, WHOLE_PARAMETER, *TOO_LARGE_BYTES):
            shape = Shape(basis, 2, SPAN_RECORDS, parameter)
            one_file(script, file_of(shape, dice.numbers(shape.count)), refusal.SPARE_BYTES, 0, ANY_MAY_CARRY)


def read_otherwise(parameter: int) -> List[Misreading]:
    """The wrong readings by which a cardinal file with this parameter is another."""
    if parameter == ONE_HALF:
        return drawn_otherwise(parameter)
    return [BOTH_BYTES_ZERO, *([READ_LOSES] if parameter <= WHOLE_PARAMETER else not_refused(parameter))]


def one_file(script: Script, file: bytes, number: int, place: int, *wrong: Misreading) -> None:
    """A file that is read and listed, or refused both times with this number and place."""
    script.put_file(file)
    with told_from(script, *wrong):
        for op in (trials.READ_FILE, trials.LIST_FILE):
            comes_to(script, number, op)
            assert number == ACCEPTED or script.lines == [f"refused {number} {place}"]


# The head of all records but one, that one's head, what it gives, and the wrong readings that give something else.
MIXED = (
    ((CARDINAL, 1, 5, 0), (CARDINAL, 1, 6, 0), refusal.UNLIKE_FIRST, (UNLIKE_IN_TWO_BYTES, BOTH_BYTES_ZERO)),
    ((CARDINAL, 1, 5, 0), (CARDINAL, 1, 0, 0), refusal.UNLIKE_FIRST, (UNLIKE_IN_TWO_BYTES, BOTH_BYTES_ZERO)),
    ((CARDINAL, 1, 0, 0), (CARDINAL, 1, 32, 0), refusal.UNLIKE_FIRST, (UNLIKE_IN_TWO_BYTES, BOTH_BYTES_ZERO)),
    ((CARDINAL, 1, 32, 0), (CARDINAL, 1, 0, 0), refusal.UNLIKE_FIRST, (UNLIKE_IN_TWO_BYTES, BOTH_BYTES_ZERO)),
    ((CARDINAL, 1, 64, 0), (CARDINAL, 1, 65, 0), refusal.UNLIKE_FIRST, (UNLIKE_IN_TWO_BYTES, BOTH_BYTES_ZERO)),
    ((CARDINAL, 1, 65, 0), (CARDINAL, 1, 64, 0), refusal.UNLIKE_FIRST, (UNLIKE_IN_TWO_BYTES, BOTH_BYTES_ZERO)),
    ((CARDINAL, 1, 5, 0), (CARDINAL, 2, 5, 0), refusal.UNLIKE_FIRST, (BOTH_BYTES_ZERO,)),
    ((CARDINAL, 1, 5, 0), (CARDINAL, 1, 5, 1), refusal.SPARE_BYTES, (BOTH_BYTES_ZERO,)),
    ((CARDINAL, 1, 5, 0), (CARDINAL, 1, 6, 1), refusal.SPARE_BYTES, (BOTH_BYTES_ZERO,)),
    ((CARDINAL, 1, 65, 0), (CARDINAL, 1, 65, 9), refusal.SPARE_BYTES, (BOTH_BYTES_ZERO,)),
    ((CARDINAL, 1, 5, 0), (B_SPLINE, 1, 5, 0), refusal.SPARE_BYTES, (BY_FIRST_BASIS, ANY_MAY_CARRY)),
    ((CARDINAL, 1, 5, 0), (B_SPLINE, 1, 6, 0), refusal.SPARE_BYTES, (BY_FIRST_BASIS, ANY_MAY_CARRY)),
    ((CARDINAL, 1, 0, 0), (HERMITE, 1, 1, 0), refusal.SPARE_BYTES, (BY_FIRST_BASIS, ANY_MAY_CARRY)),
    ((CARDINAL, 1, 5, 0), (0, 1, 5, 0), refusal.SPARE_BYTES, (BY_FIRST_BASIS, ANY_MAY_CARRY)),
    ((CARDINAL, 1, 5, 0), (B_SPLINE, 1, 0, 0), refusal.UNLIKE_FIRST, (BOTH_BYTES_ZERO,)),
    ((B_SPLINE, 1, 0, 0), (CARDINAL, 1, 5, 0), refusal.UNLIKE_FIRST, (BY_FIRST_BASIS, BOTH_BYTES_ZERO)),
    ((BEZIER, 1, 0, 0), (CARDINAL, 1, 255, 0), refusal.UNLIKE_FIRST, (BY_FIRST_BASIS, BOTH_BYTES_ZERO)),
    ((0, 1, 0, 0), (CARDINAL, 1, 64, 0), refusal.UNLIKE_FIRST, (BY_FIRST_BASIS, BOTH_BYTES_ZERO)),
    ((B_SPLINE, 1, 0, 0), (CARDINAL, 1, 5, 3), refusal.SPARE_BYTES, ()),
    ((B_SPLINE, 1, 0, 0), (B_SPLINE, 1, 5, 0), refusal.SPARE_BYTES, (ANY_MAY_CARRY,)),
)


def mixed_files(script: Script) -> None:
    """Files with one record unlike the others: its own basis decides 14, and 15 looks at byte 2 too."""
    dice = script.dice
    script.lend(2 * SPAN_RECORDS, 0)
    for head, odd, number, wrong in MIXED:
        place = dice.between(1, SPAN_RECORDS - 1)
        heads = [odd if record == place else head for record in range(SPAN_RECORDS)]
        one_file(script, file_with(heads, dice.numbers(SPAN_RECORDS)), number, place, *wrong)


def file_with(heads: Sequence[Tuple[int, int, int, int]], numbers: Sequence[int]) -> bytes:
    return b"".join(RECORD.pack(*head, *numbers[2 * record:2 * record + 2]) for record, head in enumerate(heads))


def two_places(script: Script) -> None:
    """A byte 2 unlike the first's and what gives 14, at every two places: the earlier decides, and 14 at one place."""
    dice = script.dice
    script.lend(2 * SPAN_RECORDS, 0)
    for unlike in range(1, SPAN_RECORDS):
        for spare in range(SPAN_RECORDS):
            file = bytearray(file_of(Shape(CARDINAL, 1, SPAN_RECORDS, 9), dice.numbers(SPAN_RECORDS)))
            spoil(file, unlike, PARAMETER_BYTE, dice.pick((8, 10, WHOLE_PARAMETER + 1, 255)))
            spoil(file, spare, *dice.pick(((BASIS_BYTE, B_SPLINE), (SPARE_BYTE, dice.between(1, 255)))))
            if unlike < spare:
                one_file(script, bytes(file), refusal.UNLIKE_FIRST, unlike, UNLIKE_IN_TWO_BYTES)
            else:
                one_file(script, bytes(file), refusal.SPARE_BYTES, spare)


def damaged_files(script: Script) -> None:
    """Files with something else wrong: 3 for the length, 13, 14, 15 and 2 come before 24; 3 for the count, 7, 8 after."""
    dice = script.dice
    for parameter in (WHOLE_PARAMETER, *TOO_LARGE_BYTES):
        shape, numbers = Shape(CARDINAL, dice.below(3), SPAN_RECORDS, parameter), dice.numbers(SPAN_RECORDS)
        good, last, large = file_of(shape, numbers), SPAN_RECORDS - 1, parameter > WHOLE_PARAMETER
        script.lend(2 * SPAN_RECORDS, 0)
        one_file(script, b"", refusal.COUNT, 0)
        one_file(script, good * 16 + good[:RECORD.size], refusal.COUNT, 0)
        one_file(script, good[:-1], refusal.FILE_LENGTH, 0)
        one_file(script, spoilt(good, SPARE_BYTE, 1), refusal.SPARE_BYTES, last)
        one_file(script, spoilt(good, PARAMETER_BYTE, parameter - 1), refusal.UNLIKE_FIRST, last, UNLIKE_IN_TWO_BYTES)
        deep = shape._replace(depth=dice.pick(TOO_DEEP_BYTES))
        one_file(script, file_of(deep, numbers), refusal.DEPTH, 0, *[BEFORE_DEPTH] * large)
        one_file(script, good[:-RECORD.size], after_parameter(shape, refusal.COUNT), 0, *[AFTER_COUNT] * large)
        far = file_of(shape, numbers[:-1] + [dice.outside()])
        one_file(script, far, after_parameter(shape, refusal.LIMITS), 0 if large else last)
        script.lend(2 * SPAN_RECORDS - 1, 0)
        script.put_file(good)
        comes_to(script, after_parameter(shape, refusal.CONTROLS_SHORT), trials.READ_FILE)


def late_damage(script: Script) -> None:
    """Files of 64 records with another parameter far on."""
    dice = script.dice
    script.lend(2 * MOST_RECORDS, 0)
    for parameter, other in ((WHOLE_PARAMETER, ONE_HALF), (ONE_HALF, HALF_WAY), (1, 255)):
        file = bytearray(file_of(Shape(CARDINAL, 0, MOST_RECORDS, parameter), dice.numbers(MOST_RECORDS)))
        place = dice.between(MOST_RECORDS // 2, MOST_RECORDS - 1)
        spoil(file, place, PARAMETER_BYTE, other)
        one_file(script, bytes(file), refusal.UNLIKE_FIRST, place, UNLIKE_IN_TWO_BYTES)


def long_listing(script: Script) -> None:
    """The most records, at a parameter of one."""
    shape = Shape(CARDINAL, 4, MOST_RECORDS, WHOLE_PARAMETER)
    script.put_file(file_of(shape, wide(script.dice, shape.count)))
    with told_from(script, ALWAYS_HALF, WHOLE_REFUSED):
        comes_to(script, ACCEPTED, trials.LIST_FILE)
    assert len(script.lines) == point_count(shape) + 1
