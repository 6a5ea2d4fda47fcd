"""Wrong readings of request 8, which the trials are seen to tell from its own; each reads loops alone otherwise."""

from contextlib import ExitStack
from typing import Any, Callable, Dict, Iterator, List, Sequence, Set

import curve
import edits
import outline
import record_file
import refusal
import shape as shapes
import tolerance
import trials
from checks import check_basis, check_count, check_depth, check_parameter
from curve import exact_outline, whole_values
from edits import Edited, Source, accept, fresh_points, numbers_at, run
from make_trials.misreadings import Misreading, by_bytes, in_order, large, refused_where
from outline import Drawn, draw
from refusal import Refusal
from shape import B_SPLINE, CARDINAL, LOOP, SPAN_RECORDS, Shape, point_count, span_points, spans


def in_loops(module: Any, name: str, wrong: Callable) -> Misreading:
    """A part of the program that takes a shape first, and is another where that is a loop."""
    right = getattr(module, name)
    return Misreading(module, name, lambda shape, *rest: (wrong if shape.basis == LOOP else right)(shape, *rest))


def both(*readings: Misreading) -> List[Misreading]:
    """One wrong reading that takes several parts."""
    return [*readings]


# ---- spans and their records


def with_records(numbered: Callable[[Shape, int], int]) -> Misreading:
    """A span's records by what becomes of a number past the end, or of any."""
    def records(shape: Shape, span: int) -> List[int]:
        return [numbered(shape, number) for number in range(span, span + SPAN_RECORDS)]
    return in_loops(curve, "span_records", records)


ROUND_ONE_LESS = with_records(lambda shape, number: number % (shape.count - 1))
STOPPED_AT_THE_END = with_records(lambda shape, number: min(number, shape.count - 1))
FROM_THE_RECORD_BEFORE = with_records(lambda shape, number: (number - 1) % shape.count)


# ---- which spans are fresh


def run_of(fresh: Callable[[Shape, int, int], List[int]]) -> Misreading:
    return in_loops(edits, "run", fresh)


def clipped(shape: Shape, first: int, last: int) -> List[int]:
    return [span for span in range(first, last + 1) if 0 <= span < spans(shape)]


RUN_CLIPPED = run_of(clipped)
RUN_ROUND_ONE_LESS = run_of(lambda shape, first, last: [span % (spans(shape) - 1) for span in range(first, last + 1)])
RUN_A_SPAN_LONG = run_of(lambda shape, first, last: run(shape, first, last) + run(shape, last + 1, last + 1)
                         if spans(shape) > last - first + 1 else run(shape, first, last))


def accepted_with(wrong: Callable[..., Edited]) -> Misreading:
    return in_loops(edits, "accept", wrong)


def answered(change: Callable[[Edited, List[int]], Edited]) -> Misreading:
    """The answer of an edit, by what its fresh spans are."""
    return accepted_with(lambda shape, controls, points, changed, fresh, source:
                         change(accept(shape, controls, points, changed, fresh, source), fresh))


def whole_loop(answer: Edited) -> bool:
    return answer.fresh == spans(answer.shape)


FIRST_IS_LOWEST = answered(lambda answer, fresh: answer._replace(first=min(fresh)))
WHOLE_LOOP_FROM_NOUGHT = answered(lambda answer, fresh: answer._replace(first=0) if whole_loop(answer) else answer)
WHOLE_LOOP_NAMES_THREE = answered(lambda answer, fresh: answer._replace(fresh=3) if whole_loop(answer) else answer)


# ---- what the others hold


def held_by(source_of: Callable[[Shape, Source, int], int]) -> Misreading:
    """The old span that a span holds where it is not fresh."""
    def wrong(shape: Shape, controls: List[int], points: List[int], changed: List[int], fresh: List[int],
              source: Source) -> Edited:
        return accept(shape, controls, points, changed, fresh, lambda span: source_of(shape, source, span))
    return accepted_with(wrong)


CARRIED_BACK = held_by(lambda shape, source, span: (2 * span - source(span)) % spans(shape))
NOT_CARRIED = held_by(lambda shape, source, span: span)
ALL_CARRIED = held_by(lambda shape, source, span: (span + source(spans(shape)) - spans(shape)) % spans(shape))


def last_point_stays(shape: Shape, controls: List[int], points: List[int], changed: List[int], fresh: List[int],
                     source: Source) -> Edited:
    """Where neither end is fresh, the last point is what stood there."""
    last = slice(2 * point_count(shape) - 2, 2 * point_count(shape))
    stood = points[last]
    answer = accept(shape, controls, points, changed, fresh, source)
    if not {0, spans(shape) - 1} & {*fresh}:
        points[last] = stood
    return answer


LAST_POINT_STAYS = accepted_with(last_point_stays)


# ---- where the loop closes


def own_points(shape: Shape, fresh: Sequence[int]) -> Set[int]:
    """The points of the fresh spans, and no others."""
    return {point for span in fresh for point in span_points(shape, span)}


def with_ends(ends: Callable[[Shape, Sequence[int]], Set[int]]) -> Misreading:
    return in_loops(edits, "fresh_points", lambda shape, fresh: own_points(shape, fresh) | ends(shape, fresh))


def first_point(shape: Shape, fresh: Sequence[int]) -> Set[int]:
    return {0} if spans(shape) - 1 in fresh else set()


def last_point(shape: Shape, fresh: Sequence[int]) -> Set[int]:
    return {point_count(shape) - 1} if 0 in fresh else set()


FIRST_STAYS = with_ends(last_point)
LAST_STAYS = with_ends(first_point)
ENDS_APART = with_ends(lambda shape, fresh: set())
ENDS_ALWAYS_FRESH = with_ends(lambda shape, fresh: {0, point_count(shape) - 1})


def counted(counts: Callable[[Shape, Sequence[int]], Set[int]]) -> Misreading:
    """The figure of exact coordinates after an edit, by the points that it counts."""
    return in_loops(edits, "exact_numbers", lambda shape, values, fresh:
                    whole_values(values[number] for number in numbers_at(counts(shape, fresh))))


def joint_once(shape: Shape, fresh: Sequence[int]) -> Set[int]:
    points = fresh_points(shape, fresh)
    return points - {point_count(shape) - 1} if 0 in points else points


JOINT_COUNTED_ONCE = counted(joint_once)
OWN_POINTS_COUNTED = counted(own_points)


def drawn_joint_once(shape: Shape, controls: List[int], points: List[int]) -> Drawn:
    answer = draw(shape, controls, points)
    return answer._replace(exact=answer.exact - whole_values(exact_outline(shape, controls)[-2:]))


DRAWN_JOINT_ONCE = in_loops(trials, "draw", drawn_joint_once)


# ---- how many spans, and what is refused


WITH_SPANS = (shapes, curve, edits, outline, tolerance, record_file)
OPEN_SPANS = both(*(in_loops(module, "spans", lambda shape: shape.count - SPAN_RECORDS + 1) for module in WITH_SPANS))
NO_LOOPS = in_order(lambda shape: check_basis(shape._replace(basis=0) if shape.basis == LOOP else shape), check_depth,
                    check_parameter, check_count)


def with_counts(least: int, most: int) -> Misreading:
    """3, where a loop has from so many to so many records."""
    def check(shape: Shape) -> None:
        if shape.basis != LOOP:
            check_count(shape)
        elif not least <= shape.count <= most:
            raise Refusal(refusal.COUNT)
    return in_order(check_basis, check_depth, check_parameter, check)


FOUR_REFUSED = with_counts(5, 64)
THREE_ACCEPTED = with_counts(3, 64)
SIXTY_ONE_AT_MOST = with_counts(4, 61)


def full_at(name: str, counts: Sequence[int]) -> Misreading:
    """6, at these counts."""
    def check(shape: Shape) -> None:
        if shape.count in counts:
            raise Refusal(refusal.RECORDS)
    return in_loops(edits, name, check)


REMOVED_AT_FOUR = full_at("check_not_least", ())
NOT_REMOVED_AT_FIVE = full_at("check_not_least", (4, 5))
NOT_INSERTED_AT_63 = full_at("check_not_most", (63, 64))
NOT_OFFERED = Misreading(edits, "BASES_THAT_GROW", (B_SPLINE, CARDINAL))
PREVIEW_OFFERED = in_loops(outline, "check_offered", lambda shape, bases: None)
PARAMETER_LOOKED_AT = refused_where(lambda shape: shape.basis in (CARDINAL, LOOP) and large(shape.parameter))
BYTE_2_CARRIES = by_bytes(lambda record, first: record[0] in (CARDINAL, LOOP), 3)


WRONG: Dict[str, List[Misreading]] = {
    "a run that does not go round": [RUN_CLIPPED],
    "a run round one span less": [RUN_ROUND_ONE_LESS],
    "a run of a span more": [RUN_A_SPAN_LONG],
    "the lowest fresh span named": [FIRST_IS_LOWEST],
    "a move at four named from span 0": [WHOLE_LOOP_FROM_NOUGHT],
    "a move at four that names three": [WHOLE_LOOP_NAMES_THREE],
    "carried the wrong way": [CARRIED_BACK],
    "not carried": [NOT_CARRIED],
    "all carried": [ALL_CARRIED],
    "the last point not carried": [LAST_POINT_STAYS],
    "the last point not fresh with the first": [LAST_STAYS],
    "the first point not fresh with the last": [FIRST_STAYS],
    "neither fresh with the other": [ENDS_APART],
    "both ends always fresh": [ENDS_ALWAYS_FRESH],
    "after an edit the joint counted once": [JOINT_COUNTED_ONCE],
    "after an edit the fresh spans' own points counted": [OWN_POINTS_COUNTED],
    "in a drawing the joint counted once": [DRAWN_JOINT_ONCE],
    "records counted round n - 1": [ROUND_ONE_LESS],
    "records that stop at the end": [STOPPED_AT_THE_END],
    "records from the one before": [FROM_THE_RECORD_BEFORE],
    "n - 3 spans": OPEN_SPANS,
    "basis 5 refused with 1": [NO_LOOPS],
    "n = 4 refused": [FOUR_REFUSED],
    "n = 3 accepted": [THREE_ACCEPTED],
    "n above 61 refused": [SIXTY_ONE_AT_MOST],
    "remove at four accepted": [REMOVED_AT_FOUR],
    "remove at five refused": [NOT_REMOVED_AT_FIVE],
    "insert at 63 refused": [NOT_INSERTED_AT_63],
    "insert and remove not offered": [NOT_OFFERED],
    "the preview offered": [PREVIEW_OFFERED],
    "the parameter looked at": [PARAMETER_LOOKED_AT],
    "byte 2 carried": [BYTE_2_CARRIES],
}


def lines_changed(file: bytes) -> Iterator[str]:
    """For each wrong reading, how many lines of a trials file's answers it changes, record by record."""
    right = answers(file)
    for words, readings in WRONG.items():
        with ExitStack() as taken:
            for reading in readings:
                taken.enter_context(reading.taken())
            wrong = answers(file)
        yield f"{words}: {sum(unlike(lines, others) for lines, others in zip(right, wrong))}"


def answers(file: bytes) -> List[Sequence[str]]:
    """What each record writes; a record that cannot be played by a wrong reading writes a line that no other does."""
    bench, written = trials.Bench(), []
    for start in range(0, len(file), trials.RECORD_BYTES):
        try:
            written.append(bench.play(file[start:start + trials.RECORD_BYTES]))
        except Exception as trouble:  # a wrong reading may come to a shape that has no outline
            written.append([f"trouble: {type(trouble).__name__}"])
    return written


def unlike(lines: Sequence[str], others: Sequence[str]) -> int:
    """How many of the lines are not the others, or have none beside them."""
    same = sum(line == other for line, other in zip(lines, others))
    return max(len(lines), len(others)) - same
