"""Every sum of document 01, "Sums to hold it to", but outline-list's own: one line each.

A sum is over one axis: its numbers are the x of records whose y is 0, and the x
of the points is what is written.  The limit of depth is that of document 02, request 10.
After them stand sums of request 7, cardinal curves with a parameter and what it is not looked at for, and of
request 8, loops and edits of them.
"""

from typing import Iterator, List, Sequence

from drawing import NOTHING_DRAWN, Step, take
from edits import Edited, insert, move, remove
from outline import draw
from refusal import Refusal
from shape import B_SPLINE, BEZIER, CARDINAL, DEEPEST, HERMITE, LOOP, ONE_HALF, Shape, point_count

NAME = {BEZIER: "Bezier", B_SPLINE: "B-spline", CARDINAL: "cardinal", HERMITE: "Hermite", LOOP: "loop"}

# Enough for the points of one span at the deepest, and so for 64 records.
ROOM = 2 * (2 ** DEEPEST + 1)
TO_EDIT = (0, 10, 20, 30, 40, 50)
LOOP_TO_EDIT = (0, 6, 12, 18, 24, 12)
LEAST_LOOP = (0, 12, 24, 12)


def words(numbers: Sequence[int]) -> str:
    return " ".join(str(number) for number in numbers)


def on_x(numbers: Sequence[int]) -> List[int]:
    """A controls list whose x are the numbers, zeros after them."""
    pairs = [coordinate for number in numbers for coordinate in (number, 0)]
    return pairs + [0] * (ROOM - len(pairs))


def drawn(basis: int, depth: int, numbers: Sequence[int], parameter: int = ONE_HALF) -> str:
    shape = Shape(basis, depth, len(numbers), parameter)
    points = [0] * ROOM
    answer = draw(shape, on_x(numbers), points)
    return f"{words(points[0:2 * answer.points:2])} exact {answer.exact}"


def outline_sum(label: str, basis: int, depth: int, numbers: Sequence[int]) -> str:
    return f"{label}{NAME[basis]} {words(numbers)} depth {depth}: {result(drawn, basis, depth, numbers)}"


def parameter_sum(basis: int, numbers: Sequence[int], parameter: int) -> str:
    told = result(drawn, basis, 1, numbers, parameter)
    return f"{NAME[basis]} {words(numbers)} depth 1 parameter {parameter}: {told}"


def only_counted(depth: int, count: int, controls: Sequence[int]) -> str:
    """How many points a Bezier shape has over a controls list, which need not be as long as the shape says."""
    answer = draw(Shape(BEZIER, depth, count), controls, [0] * ROOM)
    return f"drawn {answer.points} exact {answer.exact}"


def result(call, *arguments) -> str:
    """What a call says, or its refusal."""
    try:
        return call(*arguments)
    except Refusal as refused:
        return str(refused)


class EditSum:
    """The outline that each of P9 to P11 starts from, or another at depth 0."""

    def __init__(self, basis: int = CARDINAL, numbers: Sequence[int] = TO_EDIT) -> None:
        self.shape = Shape(basis, 0, len(numbers))
        self.controls = on_x(numbers)
        self.points = [0] * ROOM
        draw(self.shape, self.controls, self.points)

    def edited(self, edit, *arguments) -> str:
        answer: Edited = edit(self.shape, self.controls, self.points, *arguments)
        points = self.points[0:2 * point_count(answer.shape):2]
        return f"{words(points)} first {answer.first} count {answer.fresh} exact {answer.exact}"


def edit_sums() -> Iterator[str]:
    yield f"P9 insert 60 at 6: {EditSum().edited(insert, 6, (60, 0))}"
    removed = EditSum()
    yield f"P10 remove at 0: {removed.edited(remove, 0)} fourth {removed.points[2 * 3]}"
    yield f"P11 move 3 to 33: {EditSum().edited(move, 3, (33, 0))}"


def loop_sums() -> Iterator[str]:
    yield outline_sum("", LOOP, 1, LEAST_LOOP)
    yield outline_sum("", LOOP, 0, LOOP_TO_EDIT)
    for words_of_it, edit, *arguments in (("insert 30 at 0", insert, 0, (30, 0)), ("remove at 5", remove, 5),
                                          ("move 0 to 6", move, 0, (6, 0))):
        yield f"{words_of_it}: {EditSum(LOOP, LOOP_TO_EDIT).edited(edit, *arguments)}"
    yield outline_sum("", LOOP, 1, (0, 6, 12))
    yield f"{NAME[LOOP]} {words(LEAST_LOOP)} remove at 0: {result(EditSum(LOOP, LEAST_LOOP).edited, remove, 0)}"


def millimetres(number: float) -> str:
    return str(take(NOTHING_DRAWN, Step.MOVE, (number, 0.0), [0, 0]).current[0])


def sums() -> Iterator[str]:
    yield outline_sum("P1 ", BEZIER, 1, (0, 0, 0, 4))
    yield outline_sum("P2 ", BEZIER, 1, (0, 0, 0, -4))
    yield outline_sum("P3 ", B_SPLINE, 1, (0, 6, 12, 18))
    yield outline_sum("P4 ", B_SPLINE, 1, (0, 1, 0, 0))
    yield outline_sum("P5 ", CARDINAL, 1, (0, 1000, 1000, 0))
    yield outline_sum("P6 ", CARDINAL, 1, (-4000000, 4000000, 4000000, -4000000))
    yield outline_sum("P7 ", HERMITE, 2, (0, 0, 1000, 0))
    yield outline_sum("P8 ", HERMITE, 1, (0, 8, 0, -8))
    yield outline_sum("", CARDINAL, 0, TO_EDIT)
    yield from edit_sums()
    for number in (0.0625, -0.0625, 4000.00048828125, 4000.0009765625):
        yield f"P12 {number} mm: {result(millimetres, number)}"
    for depth in (6, 8, 9):
        yield f"Bezier 0 0 0 4 depth {depth}: {result(only_counted, depth, 4, on_x((0, 0, 0, 4)))}"
    for count in (64, 5, 2 ** 32):
        yield f"Bezier {count} records of 0 depth 1: {result(only_counted, 1, count, on_x(()))}"
    for coordinate in (4000000, 4000001):
        yield outline_sum("", BEZIER, 1, (0, 0, 0, coordinate))
    for parameter in (0, 16, 64, 65):
        yield parameter_sum(CARDINAL, (0, 1000, 1000, 0), parameter)
    for farthest in (4000000, -4000000):
        yield parameter_sum(CARDINAL, (-farthest, farthest, farthest, -farthest), 64)
    yield parameter_sum(B_SPLINE, (0, 6, 12, 18), 65)
    yield from loop_sums()
