"""How far the cut strays from the curve: document 02, request 13.

The cut goes straight from point to point, along a chord.  How far the curve is from a
chord at the same fraction is found here from the span's cubic in exact fractions, at
finer steps: those beside the places where the difference turns, to a 2^24th of the chord.
Nothing here knows why the request's bound holds.
"""

from fractions import Fraction
from math import ceil, floor, sqrt
from typing import Dict, Iterator, List, NamedTuple, Sequence, Tuple

from checks import CONTROL_LIMIT
from curve import cubic, nearest, parameter_value, powers, product, span_cubics
from make_trials.dice import BASES_BEFORE, Dice
from make_trials.tolerance import ANY_CUTS, any_outline
from record_file import read
from refusal import Refusal
from shape import (B_SPLINE, BEZIER, CARDINAL, DEEPEST, HERMITE, LOOP, MOST_RECORDS, ONE_HALF, WHOLE_PARAMETER, Shape,
                   spans)
from tolerance import Piece, bezier_controls, cubic_over, flat_pieces, second_differences, span_pieces

SEED = 1981
HALF = Fraction(1, 2)
FINE = 2 ** 24
NAMES = {BEZIER: "Bezier", B_SPLINE: "B-spline", CARDINAL: "cardinal", HERMITE: "Hermite", LOOP: "loop"}
# Cardinal curves are tried at one half and at these (document 02, request 7).
TAUT = (1, 3, 48, WHOLE_PARAMETER)

Cubic = Sequence[Fraction]


def differences(axis: Cubic) -> Tuple[Fraction, Fraction]:
    """The two second differences of a cubic's Bezier controls."""
    return second_differences(bezier_controls(axis))


def larger(axis: Cubic) -> Fraction:
    return max(abs(difference) for difference in differences(axis))


def bound(second: Fraction, depth: int) -> Fraction:
    """Three quarters of the larger second difference, divided by 4^depth."""
    return Fraction(3, 4) * second / 4 ** depth


def most(second: Fraction, depth: int) -> Fraction:
    """How far the cut strays at the most: half a micrometre more, since its points are rounded."""
    return bound(second, depth) + HALF


# ---- a record file's spans, for choosing a depth


def straight(axes: Sequence[Cubic]) -> bool:
    """Whether the Bezier controls of a span, in x and in y, lie on one line."""
    (x, *xs), (y, *ys) = map(bezier_controls, axes)
    return all((a - x) * (d - y) == (b - x) * (c - y) for a, c in zip(xs, ys) for b, d in zip(xs, ys))


def file_spans(file: bytes) -> Tuple[Shape, List[List[Cubic]]]:
    """The shape of a record file, and each span's cubics in x and in y."""
    controls = [0] * (2 * MOST_RECORDS)
    shape = read(file, controls)
    return shape, [span_cubics(shape, controls, span) for span in range(spans(shape))]


def shown(figure: Fraction) -> str:
    """Rounded up, so that it is never less: to hundredths below 100, and to a whole number from there on."""
    return f"{ceil(figure * 100) / 100:.2f}" if figure < 100 else f"{ceil(figure):,}"


def depths(file: bytes) -> Iterator[str]:
    """Each span's larger second difference and how far the cut strays at each depth; and the same of all curved ones."""
    try:
        _, every = file_spans(file)
    except Refusal as refused:
        yield str(refused)
        return
    seconds = [max(map(larger, axes)) for axes in every]
    curved = [second for second, axes in zip(seconds, every) if not straight(axes)]
    for span, axes in enumerate(every):
        yield f"span {span}, straight" if straight(axes) else depth_line(f"span {span}", seconds[span])
    if curved:
        yield depth_line("curved spans", max(curved))


def depth_line(name: str, second: Fraction) -> str:
    figures = "  ".join(shown(most(second, depth)) for depth in range(DEEPEST + 1))
    return f"{name}, second difference {ceil(second):,}: strays at most  {figures}"


# ---- the greatest stray of one chord


def turns(a: Fraction, b: Fraction, c: Fraction) -> List[float]:
    """Where 3av^2 + 2bv + c is nought, nearly."""
    if a == 0:
        return [] if b == 0 else [float(-c / (2 * b))]
    root = sqrt(max(b * b - 3 * a * c, 0))
    return [(-float(b) + root) / (3 * float(a)), (-float(b) - root) / (3 * float(a))]


def greatest_stray(axis: Cubic, ends: Sequence[Fraction]) -> Fraction:
    """How far the cubic from v = 0 to v = 1 goes from the line between two ends, at the same fraction."""
    a, b, c, d = axis
    off = [a, b, c - (ends[1] - ends[0]), d - ends[0]]
    steps = {0, FINE // 2, FINE}
    for v in turns(*off[:3]):
        steps |= {step for step in (floor(v * FINE), ceil(v * FINE)) if 0 <= step <= FINE}
    return max(abs(product(powers(Fraction(step, FINE)), off)) for step in steps)


def piece_strays(piece: Cubic) -> Tuple[Fraction, Fraction]:
    """From the chord between its exact ends, and from the one between its rounded ends."""
    ends = piece[3], sum(piece)
    return greatest_stray(piece, ends), greatest_stray(piece, [Fraction(nearest(end)) for end in ends])


# ---- spans to try


def parabola(basis: int, start: int, slope: int, second: int, parameter: int = ONE_HALF) -> List[int]:
    """Four records that make a parabola, both of whose second differences are the one given.

    For a cardinal curve they are so many times it as the numerator of its parameter says, so that the records are whole.
    """
    if basis == BEZIER:
        return [start, start + slope, start + 2 * slope + second, start + 3 * slope + 3 * second]
    if basis == HERMITE:
        return [start, slope, start + slope + 3 * second, slope + 6 * second]
    if basis == CARDINAL:
        over, under = parameter_value(parameter).as_integer_ratio()
        start = start + slope + 3 * second
        end = start + over * (slope + 9 * second)
        return [end - under * (slope + 6 * second), start, end, start + under * (slope + 12 * second)]
    return [start + slope * place + 3 * second * place ** 2 for place in range(4)]


def steepest(parameter: int) -> Tuple[int, int]:
    """The greatest slope and second difference of parabolas to try, less where the parameter sets records far apart."""
    apart = max(parameter_value(parameter).denominator // 2, 1)
    return 50_000 // apart, 100_000 // apart


def fours(dice: Dice, basis: int, parameter: int) -> Iterator[List[int]]:
    """Records at the limits in every way, any records, straight edges, parabolas, and those a micrometre off."""
    for signs in range(16):
        yield [CONTROL_LIMIT if signs >> place & 1 else -CONTROL_LIMIT for place in range(4)]
    for _ in range(60):
        yield [dice.coordinate() for _ in range(4)]
        start, end = dice.coordinate(), dice.coordinate()
        yield [start, start, end, end]
    slope, second = steepest(parameter)
    for _ in range(40):
        exact = parabola(basis, dice.coordinate() // 8, dice.between(-slope, slope), dice.between(-second, second),
                         parameter)
        yield exact
        off = dice.below(4)
        yield [number + dice.sign() * (place == off) for place, number in enumerate(exact)]


def chords(dice: Dice, basis: int, parameter: int = ONE_HALF) -> Iterator[Tuple[Cubic, int, Cubic]]:
    """Spans, a depth each, and one of the pieces that it makes."""
    for four in fours(dice, basis, parameter):
        span = cubic(basis, four, parameter)
        for depth in range(DEEPEST + 1):
            width = Fraction(1, 2 ** depth)
            yield span, depth, cubic_over(span, dice.below(2 ** depth) * width, width)


# ---- what is found


class Stray(NamedTuple):
    """How far a chord of a kind strays, and how far it may."""

    kind: str
    far: Fraction
    most: Fraction


def even(dice: Dice, basis: int, parameter: int) -> Iterator[Stray]:
    """Chords of even outlines, against the request's bound, and between rounded points half a micrometre more."""
    for span, depth, piece in chords(dice, basis, parameter):
        exact, rounded = piece_strays(piece)
        most = bound(larger(span), depth)
        yield Stray("alike" if len(set(differences(span))) == 1 else "unlike", exact, most)
        yield Stray("rounded", rounded, most + HALF)


def outlines(dice: Dice, basis: int, parameter: int) -> Iterator[Tuple[Shape, Sequence[int], int]]:
    """Outlines with a tolerance each, and parabolas with one that cuts them into pieces that stray just so far."""
    for _ in range(20):
        size = dice.pick((1000, 100_000, CONTROL_LIMIT))
        shape, controls = any_outline(dice, basis, size)
        yield shape._replace(parameter=parameter), controls, dice.between(1, 1 + size // 400)
    just_so_far = 3 * parameter_value(parameter).numerator if basis == CARDINAL else 3
    for slope in range(16):
        four = parabola(basis, 0, slope, 64, parameter)
        yield Shape(basis, 0, 4, parameter), [number for x in four for number in (x, -x)], just_so_far


def cubics_over(piece: Piece) -> List[Cubic]:
    """The piece's own cubics, in x and in y."""
    width = Fraction(1, 2 ** piece.depth)
    return [cubic_over(axis, piece.part * width, width) for axis in piece.cubics]


def chosen(dice: Dice, basis: int, parameter: int = ONE_HALF) -> Iterator[Stray]:
    """Chords of points chosen by tolerance, against the tolerance and half a micrometre more."""
    for shape, controls, tolerance in outlines(dice, basis, parameter):
        for span in span_pieces(shape, controls):
            try:
                pieces, _ = flat_pieces(span, tolerance, ANY_CUTS, 0)
            except Refusal:
                continue
            for axis in (axis for piece in pieces for axis in cubics_over(piece)):
                exact, rounded = piece_strays(axis)
                yield Stray("exact", exact, Fraction(tolerance))
                yield Stray("rounded", rounded, tolerance + HALF)


def largest(strays: Iterator[Stray]) -> Dict[str, str]:
    """The largest part of its bound that each kind comes to, in six places, cut off: 1.000000 is met.  None passes it."""
    parts: Dict[str, Fraction] = {}
    for kind, far, most in strays:
        if far > most:
            raise AssertionError(f"{kind}: {far} passes {most}")
        parts[kind] = max(parts.get(kind, Fraction(0)), far / most if most else Fraction(0))
    return {kind: f"{floor(part)}.{floor(part * 10 ** 6) % 10 ** 6:06d}" for kind, part in parts.items()}


def even_line(dice: Dice, name: str, basis: int, parameter: int) -> str:
    part = largest(even(dice, basis, parameter))
    return (f"{name}: the curve strays by up to {part['alike']} of the bound, {part['unlike']} where the second "
            f"differences are unlike; between rounded points by up to {part['rounded']} of the bound and a half")


def chosen_line(dice: Dice, name: str, basis: int, parameter: int) -> str:
    part = largest(chosen(dice, basis, parameter))
    return (f"{name} by tolerance: by up to {part['exact']} of the tolerance; "
            f"between rounded points by up to {part['rounded']} of the tolerance and a half")


def report(seed: int = SEED) -> Iterator[str]:
    """The largest parts, basis by basis, then of cardinal curves at other parameters than one half, and of loops."""
    dice = Dice(seed)
    halves = [(NAMES[basis], basis, ONE_HALF) for basis in BASES_BEFORE]
    taut = [(f"{NAMES[CARDINAL]} with parameter {parameter}", CARDINAL, parameter) for parameter in TAUT]
    for kinds in (halves, taut, [(NAMES[LOOP], LOOP, ONE_HALF)]):
        for line in (even_line, chosen_line):
            yield from (line(dice, *kind) for kind in kinds)
