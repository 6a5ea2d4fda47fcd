"""The house record file and its two listings: document 01, "Record file" and "Sums to hold it to".

A file is listed evenly, or with points chosen by tolerance (document 02, request 3).  Byte 2
is a cardinal curve's parameter (request 7).
"""

import struct
from typing import List, Sequence

import refusal
from checks import check_controls_room, check_limits, check_shape
from outline import formula_points, rounded
from refusal import Refusal
from shape import CARDINAL, MOST_RECORDS, Shape, spans
from tolerance import chosen

# Basis, depth, parameter, a spare byte, x and y, low byte first.
RECORD = struct.Struct("<BBBBii")
HEAD_BYTES = 4
LONGEST = MOST_RECORDS * RECORD.size


def read(file: bytes, controls: List[int]) -> Shape:
    """Write a file's records to the controls and answer its shape."""
    if not 0 < len(file) <= LONGEST:
        raise Refusal(refusal.COUNT)
    if len(file) % RECORD.size:
        raise Refusal(refusal.FILE_LENGTH)
    records = list(RECORD.iter_unpack(file))
    for place, record in enumerate(records):
        check_record(record, records[0], place)
    basis, depth, parameter = records[0][:3]
    shape = Shape(basis, depth, len(records), parameter)
    numbers = [number for record in records for number in record[HEAD_BYTES:]]
    check_shape(shape)
    check_controls_room(controls, shape.count)
    check_limits(numbers, shape.count)
    controls[:len(numbers)] = numbers
    return shape


def check_record(record: tuple, first: tuple, place: int) -> None:
    """14 and then 15, at one record: its own basis says whether it may carry a parameter."""
    basis, _, parameter, spare = record[:HEAD_BYTES]
    if spare != 0 or basis != CARDINAL and parameter != 0:
        raise Refusal(refusal.SPARE_BYTES, place)
    if record[:3] != first[:3]:
        raise Refusal(refusal.UNLIKE_FIRST, place)


def listing(file: bytes) -> List[str]:
    """What outline-list writes for a file, line by line."""
    controls = [0] * (2 * MOST_RECORDS)
    try:
        shape = read(file, controls)
        outline = formula_points(shape, controls)
    except Refusal as refused:
        return [str(refused)]
    return [f"{shape.basis} {shape.depth} {spans(shape)} {len(outline) // 2}"] + point_lines(outline)


def cut_listing(file: bytes, tolerance: int, most: int) -> List[str]:
    """What outline-cut writes for a file, a tolerance and the most cuts, line by line."""
    controls = [0] * (2 * MOST_RECORDS)
    try:
        shape = read(file, controls)
        values, cuts = chosen(shape, controls, tolerance, most)
    except Refusal as refused:
        return [str(refused)]
    head = f"{shape.basis} {tolerance} {spans(shape)} {len(values) // 2} {cuts}"
    return [head] + point_lines(rounded(values))


def point_lines(outline: Sequence[int]) -> List[str]:
    """Each point's number, x and y."""
    return [f"{number} {x} {y}" for number, (x, y) in enumerate(zip(outline[0::2], outline[1::2]))]
