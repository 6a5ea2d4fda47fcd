"""A trials file in the making: each record is written down and played at once.

The bench that plays along tells the maker what shape and lists there are, and
the tally what the calls have answered so far.
"""

import struct
from collections import Counter
from typing import List, Sequence, Union

import trials
from checks import Record
from make_trials.dice import Dice
from record_file import RECORD
from shape import Shape

Number = Union[int, float]

NUMBERS = 6
# The operations that are calls, and no setting up or showing.
CALLS = frozenset(range(trials.WEIGHTS, trials.SHOW_CONTROLS)) - {trials.SET_STATE}
ACCEPTED = 0


def encode(op: int, numbers: Sequence[Number]) -> bytes:
    """One record of a trials file."""
    parts = [struct.pack("<d" if isinstance(number, float) else "<q", number) for number in numbers]
    return struct.pack("<B7x", op) + b"".join(parts) + bytes(8 * (NUMBERS - len(parts)))


def file_of(shape: Shape, numbers: Sequence[int]) -> bytes:
    """A record file; nothing says that it is a good one."""
    return b"".join(RECORD.pack(shape.basis, shape.depth, shape.parameter, 0, *numbers[2 * record:2 * record + 2])
                    for record in range(shape.count))


class Script:
    def __init__(self, seed: int) -> None:
        self.dice = Dice(seed)
        self.bench = trials.Bench()
        self.records: List[bytes] = []
        self.tally: Counter = Counter()
        self.last = ACCEPTED
        self.lines: List[str] = []

    def keep(self, record: bytes) -> None:
        """Write a record down, play it, and count what a call answered."""
        lines = self.lines = self.bench.play(record)
        self.records.append(record)
        op = record[0]
        if op in CALLS:
            refused = lines[0].startswith("refused ")
            self.last = int(lines[0].split()[1]) if refused else ACCEPTED
            self.tally[op, self.last] += 1

    def say(self, op: int, *numbers: Number) -> None:
        self.keep(encode(op, numbers))

    def show(self, *ops: int) -> None:
        """Operations that take no number."""
        for op in ops:
            self.say(op)

    def edit(self, op: int, place: int, record: Record) -> None:
        """An edit; a remove takes no record."""
        self.say(op, place, *(() if op == trials.REMOVE else record))

    def lend(self, controls: int, points: int, preview: int = 0, fill: int = 0) -> None:
        self.say(trials.LEND, controls, points, preview, fill)

    def shape(self, shape: Shape) -> None:
        self.say(trials.SET_SHAPE, *shape)

    def controls(self, numbers: Sequence[int]) -> None:
        """The controls list starts with these numbers."""
        for at, number in enumerate(numbers):
            self.say(trials.SET_CONTROL, at, number)

    def put_file(self, file: bytes) -> None:
        """The file becomes these bytes, in full portions or uneven ones."""
        self.say(trials.EMPTY_FILE)
        most = self.dice.pick((trials.MOST_MORE, trials.MOST_MORE, trials.MOST_MORE, self.dice.between(9, 39)))
        for start in range(0, len(file), most):
            more = file[start:start + most]
            head = struct.pack("<B7xq", trials.MORE_FILE, len(more))
            self.keep(head + more.ljust(trials.MOST_MORE, b"\0"))

    def read(self, shape: Shape, numbers: Sequence[int]) -> None:
        """The controls and the shape become a file's."""
        self.put_file(file_of(shape, numbers))
        self.say(trials.READ_FILE)

    def junk_points(self, most: int) -> None:
        """Up to so many of the lent points become any numbers."""
        for _ in range(most):
            self.say(trials.SET_POINT, self.dice.below(len(self.bench.points)), self.dice.junk())
