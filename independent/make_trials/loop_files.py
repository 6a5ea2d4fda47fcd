"""Trials of record files of loops (document 02, request 8)."""

from typing import List

import refusal
import trials
from make_trials.depths import TOO_DEEP_BYTES, comes_to, spoilt
from make_trials.files import BASIS_BYTE, DEPTH_BYTE, PARAMETER_BYTE, SPARE_BYTE, spoil
from make_trials.loop_misreadings import (BYTE_2_CARRIES, FOUR_REFUSED, NO_LOOPS, ROUND_ONE_LESS, SIXTY_ONE_AT_MOST,
                                          THREE_ACCEPTED)
from make_trials.loops import wide
from make_trials.misreadings import Misreading
from make_trials.outlines import WAYS
from make_trials.script import ACCEPTED, Script, file_of
from make_trials.taut_files import file_with, one_file
from record_file import RECORD
from shape import (B_SPLINE, BEZIER, CARDINAL, DEEPEST, HERMITE, LOOP, MOST_RECORDS, SPAN_RECORDS, Shape, point_count)


def files(script: Script) -> None:
    """Files of each count about the least and the greatest, read, drawn and listed, or refused."""
    dice = script.dice
    for count, depth in ((4, 0), (4, 2), (5, 1), (6, 3), (MOST_RECORDS - 2, 0), (MOST_RECORDS - 1, 0), (MOST_RECORDS, 1)):
        shape = Shape(LOOP, depth, count)
        script.lend(2 * count + 1, 2 * point_count(shape), fill=dice.junk())
        one_file(script, file_of(shape, wide(dice, count)), ACCEPTED, 0, NO_LOOPS, *read_otherwise(count))
        assert script.bench.shape == shape and len(script.lines) == point_count(shape) + 1
        comes_to(script, ACCEPTED, dice.pick(WAYS))
        assert script.lines == [f"drawn {point_count(shape)} {script.lines[0].split()[2]}"]
        script.show(trials.SHOW_CONTROLS)
    for count in (1, 2, 3):
        one_file(script, file_of(Shape(LOOP, 1, count), dice.numbers(count)), refusal.COUNT, 0, NO_LOOPS,
                 *[THREE_ACCEPTED] * (count == 3))
    one_file(script, file_of(Shape(LOOP, 1, MOST_RECORDS + 1), dice.numbers(MOST_RECORDS + 1)), refusal.COUNT, 0)


def read_otherwise(count: int) -> List[Misreading]:
    """The wrong readings by which a file of so many records is refused, or listed otherwise."""
    return [ROUND_ONE_LESS] + [FOUR_REFUSED] * (count == 4) + [SIXTY_ONE_AT_MOST] * (count > 61)


def depths(script: Script) -> None:
    """A file at each depth, listed where it is short; past the deepest it is refused."""
    dice = script.dice
    script.lend(2 * SPAN_RECORDS, 0)
    for depth in (*range(DEEPEST + 1), *TOO_DEEP_BYTES):
        script.put_file(file_of(Shape(LOOP, depth, SPAN_RECORDS), dice.numbers(SPAN_RECORDS)))
        number = ACCEPTED if depth <= DEEPEST else refusal.DEPTH
        comes_to(script, number, trials.READ_FILE)
        if depth in (0, 1, 3, DEEPEST, *TOO_DEEP_BYTES):
            comes_to(script, number, trials.LIST_FILE)


# The head of all records but one, that one's head, and what it gives.
LOOP_HEAD, OPEN_HEAD = (LOOP, 1, 0, 0), (B_SPLINE, 1, 0, 0)
MIXED = (
    (LOOP_HEAD, OPEN_HEAD, refusal.UNLIKE_FIRST), (OPEN_HEAD, LOOP_HEAD, refusal.UNLIKE_FIRST),
    (LOOP_HEAD, (CARDINAL, 1, 0, 0), refusal.UNLIKE_FIRST), (LOOP_HEAD, (CARDINAL, 1, 7, 0), refusal.UNLIKE_FIRST),
    ((CARDINAL, 1, 7, 0), LOOP_HEAD, refusal.UNLIKE_FIRST), ((CARDINAL, 1, 7, 0), (LOOP, 1, 7, 0), refusal.SPARE_BYTES),
    (LOOP_HEAD, (LOOP, 2, 0, 0), refusal.UNLIKE_FIRST), (LOOP_HEAD, (LOOP + 1, 1, 0, 0), refusal.UNLIKE_FIRST),
    ((BEZIER, 1, 0, 0), LOOP_HEAD, refusal.UNLIKE_FIRST), ((HERMITE, 1, 0, 0), LOOP_HEAD, refusal.UNLIKE_FIRST),
    (LOOP_HEAD, (LOOP, 1, 1, 0), refusal.SPARE_BYTES), (LOOP_HEAD, (LOOP, 1, 255, 0), refusal.SPARE_BYTES),
    (LOOP_HEAD, (LOOP, 1, 0, 1), refusal.SPARE_BYTES), (LOOP_HEAD, (B_SPLINE, 1, 1, 0), refusal.SPARE_BYTES),
    (LOOP_HEAD, (LOOP, 2, 64, 0), refusal.SPARE_BYTES),
)


def mixed_files(script: Script) -> None:
    """Files with one record unlike the others, at some place after the first; then all with a byte 2."""
    dice = script.dice
    script.lend(2 * SPAN_RECORDS + 2, 0)
    for head, odd, number in MIXED:
        count = SPAN_RECORDS + dice.below(2) * (head[0] in (B_SPLINE, CARDINAL, LOOP))
        place = dice.between(1, count - 1)
        heads = [odd if record == place else head for record in range(count)]
        carries = [BYTE_2_CARRIES] * (odd[0] == LOOP and odd[2] > 0)
        one_file(script, file_with(heads, dice.numbers(count)), number, place, *carries)
    for parameter in (1, 32, 64, 65, 255):
        shape = Shape(LOOP, 1, SPAN_RECORDS, parameter)
        one_file(script, file_of(shape, dice.numbers(SPAN_RECORDS)), refusal.SPARE_BYTES, 0, BYTE_2_CARRIES)
    one_file(script, file_of(Shape(LOOP + 1, 1, SPAN_RECORDS), dice.numbers(SPAN_RECORDS)), refusal.BASIS, 0)


def damaged_files(script: Script) -> None:
    """Files with something wrong, and each with something that comes after it."""
    dice = script.dice
    shape, numbers = Shape(LOOP, 2, SPAN_RECORDS), dice.numbers(SPAN_RECORDS)
    good = file_of(shape, numbers)
    far = file_of(shape, numbers[:-1] + [dice.outside()])
    deep = file_of(shape._replace(depth=TOO_DEEP_BYTES[0]), numbers[:-1] + [dice.outside()])
    script.lend(2 * SPAN_RECORDS, 0)
    one_file(script, b"", refusal.COUNT, 0)
    one_file(script, good * 16 + good[:RECORD.size], refusal.COUNT, 0)
    one_file(script, good[:-1], refusal.FILE_LENGTH, 0)
    one_file(script, spoilt(far, SPARE_BYTE, 1)[:-1], refusal.FILE_LENGTH, 0)
    for byte in (PARAMETER_BYTE, SPARE_BYTE):
        one_file(script, spoilt(far, byte, 1), refusal.SPARE_BYTES, SPAN_RECORDS - 1)
    for byte, value in ((BASIS_BYTE, B_SPLINE), (DEPTH_BYTE, 3)):
        one_file(script, spoilt(far, byte, value), refusal.UNLIKE_FIRST, SPAN_RECORDS - 1)
    one_file(script, deep, refusal.DEPTH, 0)
    one_file(script, deep[:-RECORD.size], refusal.DEPTH, 0)
    one_file(script, far[:-RECORD.size], refusal.COUNT, 0)
    one_file(script, far, refusal.LIMITS, SPAN_RECORDS - 1)
    for room in (2 * SPAN_RECORDS - 1, 0):
        script.lend(room, 0)
        for file, number in ((far, refusal.CONTROLS_SHORT), (good[:-RECORD.size], refusal.COUNT)):
            script.put_file(file)
            comes_to(script, number, trials.READ_FILE)


def late_damage(script: Script) -> None:
    """Files of 64 records with a bad byte or a number outside far on."""
    dice = script.dice
    script.lend(2 * MOST_RECORDS, 0)
    for byte, value, number in ((BASIS_BYTE, B_SPLINE, refusal.UNLIKE_FIRST), (PARAMETER_BYTE, 32, refusal.SPARE_BYTES),
                                (DEPTH_BYTE, 1, refusal.UNLIKE_FIRST)):
        file = bytearray(file_of(Shape(LOOP, 0, MOST_RECORDS), dice.numbers(MOST_RECORDS)))
        place = dice.between(MOST_RECORDS // 2, MOST_RECORDS - 1)
        spoil(file, place, byte, value)
        one_file(script, bytes(file), number, place)


def long_listing(script: Script) -> None:
    """The most records, listed at a depth at which they are many."""
    shape = Shape(LOOP, 4, MOST_RECORDS)
    script.put_file(file_of(shape, wide(script.dice, shape.count)))
    comes_to(script, ACCEPTED, trials.LIST_FILE)
    assert len(script.lines) == point_count(shape) + 1
    assert script.lines[1].split()[1:] == script.lines[-1].split()[1:]
