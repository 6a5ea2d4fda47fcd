"""Plays a trials file: the page TRIALS.md says what each record does and writes.

The bench keeps what the page names: a shape, three lists, a drawing state and a
file.  A record that does not fit ends the run with one last line.
"""

import struct
from typing import Callable, Dict, Iterable, Iterator, List, Sequence

from drawing import NOTHING_DRAWN, State, Step, take
from edits import Edited, insert, move, remove
from outline import draw, preview, view
from record_file import listing, read
from refusal import Refusal
from shape import Shape
from tolerance import cut

RECORD_BYTES = 56
WHOLES = struct.Struct("<B7x6q")
DOUBLES = struct.Struct("<8x6d")
FILE_BYTES_AT = 16
DOUBLE, PATTERN = struct.Struct("<d"), struct.Struct("<Q")

MOST_CONTROLS = 160
MOST_POINTS = 33_000
MOST_PREVIEW = 11_000
MOST_FILE = 800
MOST_MORE = 40

Lines = List[str]


class BadRecord(Exception):
    """A record that is cut short, unknown, or holds a number that does not fit."""


def fit(number: int, least: int, most: int) -> int:
    if not least <= number <= most:
        raise BadRecord
    return number


def index(number: int, numbers: Sequence) -> int:
    return fit(number, 0, len(numbers) - 1)


def unsigned_32(number: int) -> int:
    return fit(number, 0, 2 ** 32 - 1)


def signed_32(number: int) -> int:
    return fit(number, -2 ** 31, 2 ** 31 - 1)


def natural(number: int) -> int:
    return fit(number, 0, 2 ** 63 - 1)


def line(numbers: Iterable[int]) -> str:
    return " ".join(str(number) for number in numbers)


def pattern(number: float) -> int:
    return PATTERN.unpack(DOUBLE.pack(number))[0]


class Bench:
    """All that a trials file works on; `play` takes one record and answers its lines."""

    def __init__(self) -> None:
        self.shape = Shape(0, 0, 0)
        self.controls: List[int] = []
        self.points: List[int] = []
        self.preview: List[float] = []
        self.state = NOTHING_DRAWN
        self.file = b""

    def play(self, record: bytes) -> Lines:
        if len(record) != RECORD_BYTES:
            raise BadRecord
        op, *wholes = WHOLES.unpack(record)
        try:
            if op in PLAIN:
                return PLAIN[op](self, *wholes)
            if op in STEPS:
                return self.step(STEPS[op], DOUBLES.unpack(record))
            if op == MORE_FILE:
                return self.more_file(wholes[0], record[FILE_BYTES_AT:])
        except Refusal as refused:
            return [str(refused)]
        raise BadRecord

    def lend(self, controls: int, points: int, preview: int, fill: int, *_: int) -> Lines:
        self.controls = [signed_32(fill)] * fit(controls, 0, MOST_CONTROLS)
        self.points = [fill] * fit(points, 0, MOST_POINTS)
        self.preview = [float(fill)] * fit(preview, 0, MOST_PREVIEW)
        return []

    def set_shape(self, *numbers: int) -> Lines:
        self.shape = Shape(*(unsigned_32(number) for number in numbers[:4]))
        return []

    def set_control(self, at: int, number: int, *_: int) -> Lines:
        self.controls[index(at, self.controls)] = signed_32(number)
        return []

    def set_point(self, at: int, number: int, *_: int) -> Lines:
        self.points[index(at, self.points)] = signed_32(number)
        return []

    def empty_file(self, *_: int) -> Lines:
        self.file = b""
        return []

    def more_file(self, more: int, file_bytes: bytes) -> Lines:
        fit(more, 1, MOST_MORE)
        fit(len(self.file) + more, 0, MOST_FILE)
        self.file += file_bytes[:more]
        return []

    def draw(self, *_: int) -> Lines:
        return [f"drawn {line(draw(self.shape, self.controls, self.points))}"]

    def cut(self, tolerance: int, most: int, *_: int) -> Lines:
        return [f"cut {line(cut(self.shape, self.controls, self.points, natural(tolerance), natural(most)))}"]

    def move(self, place: int, x: int, y: int, *_: int) -> Lines:
        record = signed_32(x), signed_32(y)
        return self.edited(move(self.shape, self.controls, self.points, natural(place), record))

    def insert(self, place: int, x: int, y: int, *_: int) -> Lines:
        record = signed_32(x), signed_32(y)
        return self.edited(insert(self.shape, self.controls, self.points, natural(place), record))

    def remove(self, place: int, *_: int) -> Lines:
        return self.edited(remove(self.shape, self.controls, self.points, natural(place)))

    def edited(self, answer: Edited) -> Lines:
        basis, depth, count, parameter = self.shape = answer.shape
        return [f"edited {line((basis, depth, count, answer.first, answer.fresh, answer.exact, parameter))}"]

    def view(self, span: int, *_: int) -> Lines:
        part = view(self.shape, self.points, natural(span))
        return [f"view {len(part)}"] + ([line(part)] if part else [])

    def draw_preview(self, *_: int) -> Lines:
        return [f"previewed {preview(self.shape, self.controls, self.preview)}"]

    def set_state(self, count: int, *rest: int) -> Lines:
        start_x, start_y, current_x, current_y = (signed_32(number) for number in rest[:4])
        closed = fit(rest[4], 0, 1) == 1
        self.state = State(unsigned_32(count), (start_x, start_y), (current_x, current_y), closed)
        return []

    def step(self, step: Step, numbers: Sequence[float]) -> Lines:
        self.state = take(self.state, step, numbers[:NUMBERS[step]], self.controls)
        count, start, current, closed = self.state
        return [f"state {line((count, *start, *current, int(closed)))}"]

    def read_file(self, *_: int) -> Lines:
        self.shape = read(self.file, self.controls)
        return [f"read {line(self.shape)}"]

    def list_file(self, *_: int) -> Lines:
        return listing(self.file)

    def show_controls(self, *_: int) -> Lines:
        return [line(self.controls)]

    def show_points(self, *_: int) -> Lines:
        return [line(self.points)]

    def show_preview(self, *_: int) -> Lines:
        return [line(pattern(number) for number in self.preview)]


LEND, SET_SHAPE, SET_CONTROL, SET_POINT, EMPTY_FILE, MORE_FILE = 1, 2, 3, 4, 5, 6
WEIGHTS, HALVING, DIFFERENCES, CUT = 10, 11, 12, 13
MOVE, INSERT, REMOVE = 20, 21, 22
VIEW = 30
PREVIEW = 40
SET_STATE, STEP_MOVE, STEP_LINE, STEP_CUBIC, STEP_CLOSE = 50, 51, 52, 53, 54
READ_FILE, LIST_FILE = 55, 56
SHOW_CONTROLS, SHOW_POINTS, SHOW_PREVIEW = 60, 61, 62

PLAIN: Dict[int, Callable[..., Lines]] = {
    LEND: Bench.lend, SET_SHAPE: Bench.set_shape, SET_CONTROL: Bench.set_control, SET_POINT: Bench.set_point,
    EMPTY_FILE: Bench.empty_file,
    WEIGHTS: Bench.draw, HALVING: Bench.draw, DIFFERENCES: Bench.draw, CUT: Bench.cut,
    MOVE: Bench.move, INSERT: Bench.insert, REMOVE: Bench.remove,
    VIEW: Bench.view, PREVIEW: Bench.draw_preview,
    SET_STATE: Bench.set_state, READ_FILE: Bench.read_file, LIST_FILE: Bench.list_file,
    SHOW_CONTROLS: Bench.show_controls, SHOW_POINTS: Bench.show_points, SHOW_PREVIEW: Bench.show_preview,
}
STEPS = {STEP_MOVE: Step.MOVE, STEP_LINE: Step.LINE, STEP_CUBIC: Step.CUBIC, STEP_CLOSE: Step.CLOSE}
NUMBERS = {Step.MOVE: 2, Step.LINE: 2, Step.CUBIC: 6, Step.CLOSE: 0}


def play(file: bytes) -> Iterator[str]:
    """Every line that a trials file makes the program write."""
    bench = Bench()
    for number, start in enumerate(range(0, len(file), RECORD_BYTES)):
        try:
            yield from bench.play(file[start:start + RECORD_BYTES])
        except BadRecord:
            yield f"bad record {number}"
            return
