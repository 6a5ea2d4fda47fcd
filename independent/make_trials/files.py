"""Trials of record files and their listings, good and damaged."""

from typing import Collection

import trials
from make_trials.dice import BASES_BEFORE, DEEPEST_BEFORE, GROWING_BEFORE
from make_trials.script import ACCEPTED, Script, file_of
from record_file import LONGEST, RECORD
from shape import B_SPLINE, CARDINAL, HERMITE, MOST_RECORDS, SPAN_RECORDS, Shape

DEFECTS = ("length", "spare", "unlike basis", "unlike depth", "basis", "depth", "count", "controls", "limit")
Defects = Collection[str]

BASIS_BYTE, DEPTH_BYTE, PARAMETER_BYTE, SPARE_BYTE = HEAD_BYTES = 0, 1, 2, 3
# Zero in every record, but for the parameter of a cardinal one.
ZERO_BYTES = PARAMETER_BYTE, SPARE_BYTE


def spoil(file: bytearray, record: int, byte: int, value: int) -> None:
    file[record * RECORD.size + byte] = value


def bad_shape(script: Script, shape: Shape, defects: Defects) -> Shape:
    """The shape that all records carry, but for rows 1, 2 and 3."""
    dice = script.dice
    if "count" in defects:
        shape = shape._replace(count=dice.pick((1, 2, 3) if shape.basis in GROWING_BEFORE else (1, 2, 3, 5, 9)))
    if "basis" in defects:
        shape = shape._replace(basis=dice.pick((0, HERMITE + 1, 128, 255)))
    if "depth" in defects:
        shape = shape._replace(depth=dice.pick((DEEPEST_BEFORE + 1, 128, 255)))
    return shape


def damaged_file(script: Script, sound: Shape, defects: Defects) -> bytes:
    dice = script.dice
    shape = bad_shape(script, sound, defects)
    numbers = dice.numbers(shape.count)
    if "limit" in defects:
        for _ in range(dice.between(1, 2)):
            numbers[dice.below(len(numbers))] = dice.outside()
    file = bytearray(file_of(shape, numbers))
    if "spare" in defects:
        spoil(file, dice.below(shape.count), dice.pick(ZERO_BYTES), dice.between(1, 255))
    if "unlike basis" in defects:
        spoil(file, dice.below(shape.count), BASIS_BYTE, dice.below(HERMITE + 2))
    if "unlike depth" in defects:
        spoil(file, dice.below(shape.count), DEPTH_BYTE, dice.below(DEEPEST_BEFORE + 2))
    if "length" in defects:
        file = file[:-dice.between(1, RECORD.size - 1)] if dice.one_in(2) else file + bytes(dice.between(1, 40))
    return bytes(file)


def one_file(script: Script, shape: Shape, defects: Defects) -> None:
    dice = script.dice
    length = 2 * shape.count + (-dice.pick((1, 2, 8)) if "controls" in defects else dice.below(3))
    script.lend(length, 0, fill=dice.junk())
    script.put_file(damaged_file(script, shape, defects))
    script.say(trials.READ_FILE)
    # A file with a depth of 7 is accepted, and one of a loop, but the records that follow are those of a defect.
    if script.last == ACCEPTED and not {"depth", "basis"} & {*defects} or dice.one_in(6):
        script.show(trials.SHOW_CONTROLS)
    if dice.one_in(3):
        script.show(trials.LIST_FILE)


def files(script: Script) -> None:
    """Good files of each basis; then each defect alone and each two of them; then up to three."""
    dice = script.dice
    for basis in BASES_BEFORE:
        for _ in range(4):
            one_file(script, dice.shape((basis,), 3, 10), ())
    for first, defect in enumerate(DEFECTS):
        for other in (*[defect] * 4, *DEFECTS[first:]):
            one_file(script, dice.shape(deepest=2, most=8), {defect, other})
    for _ in range(40):
        one_file(script, dice.shape(deepest=2, most=10), dice.some(DEFECTS, 3))


def lengths(script: Script) -> None:
    """Lengths about the least and the greatest, of good records and of zero bytes."""
    long = file_of(Shape(B_SPLINE, 0, MOST_RECORDS + 3), script.dice.numbers(MOST_RECORDS + 3))
    script.lend(2 * MOST_RECORDS, 0)
    for length in (0, 1, 11, 12, 13, 24, 36, 47, 48, 49, LONGEST - 12, LONGEST - 1, LONGEST, LONGEST + 1,
                   LONGEST + 12, trials.MOST_FILE):
        script.put_file(long[:length])
        script.show(trials.READ_FILE, trials.LIST_FILE)
    for length in (12, 48, 50):
        script.put_file(bytes(length))
        script.show(trials.READ_FILE, trials.LIST_FILE)
    script.show(trials.SHOW_CONTROLS)


def record_by_record(script: Script) -> None:
    """A byte that is zero set in one record and a head unlike the first in another, at every two places."""
    dice = script.dice
    shape = Shape(B_SPLINE, 1, SPAN_RECORDS)
    script.lend(2 * shape.count, 0)
    for spare in range(shape.count):
        for unlike in range(shape.count):
            file = bytearray(file_of(shape, dice.numbers(shape.count)))
            spoil(file, spare, dice.pick(ZERO_BYTES), dice.between(1, 255))
            spoil(file, unlike, *dice.pick(((BASIS_BYTE, CARDINAL), (DEPTH_BYTE, 2))))
            script.put_file(bytes(file))
            script.say(trials.READ_FILE)


def late_damage(script: Script) -> None:
    """Files of 64 records with up to two bad bytes far on, in either order."""
    dice = script.dice
    script.lend(2 * MOST_RECORDS, 0)
    for _ in range(12):
        shape = Shape(dice.pick(BASES_BEFORE), dice.below(DEEPEST_BEFORE + 1), MOST_RECORDS)
        file = bytearray(file_of(shape, dice.numbers(shape.count)))
        for byte in dice.some(HEAD_BYTES, 2):
            spoil(file, dice.below(MOST_RECORDS), byte, dice.between(5, 255))
        script.put_file(bytes(file))
        script.say(trials.READ_FILE)


def deep_listings(script: Script) -> None:
    """Listings at every depth, the last as long as can be."""
    dice = script.dice
    shapes = [dice.shape(deepest=0, most=7)._replace(depth=depth) for depth in range(DEEPEST_BEFORE + 1)]
    for shape in (*shapes, Shape(CARDINAL, DEEPEST_BEFORE, MOST_RECORDS)):
        script.put_file(file_of(shape, dice.numbers(shape.count)))
        script.show(trials.LIST_FILE)
