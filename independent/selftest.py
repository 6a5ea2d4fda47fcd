"""The program's own tests: `python3 selftest.py`.

Document 01's sums stand here as they are printed there, P2 and P12 as document 02's
request 1 has them and the depths as its request 10.  The curve is computed again by other published formulas, a
cardinal one at every parameter of request 7, the
edits are read again point by point, a loop's round the ring of its points, the pieces of the outline by tolerance are made
again by halving, every call is made again in the mirror, and each bound of how far the
cut strays is seen to be none too large.
"""

import sys
import unittest
from fractions import Fraction
from typing import Iterator, List, Sequence, Tuple

sys.dont_write_bytecode = True

import refusal  # noqa: E402
import trials  # noqa: E402
from checks import CONTROL_LIMIT  # noqa: E402
from curve import cubic, exact_outline, nearest, powers, product  # noqa: E402
from drawing import NOTHING_DRAWN, State, Step, micrometres, take  # noqa: E402
from edits import BASES_THAT_GROW, insert, move, remove  # noqa: E402
from make_trials import (defects, drawings, edits, exact, files, loop_edits, loop_files, loops, taut_edits,  # noqa: E402
                         taut_files, tautness)
from make_trials.depths import refusals as too_deep  # noqa: E402
from make_trials.dice import BASES_BEFORE, GROWING_BEFORE, Dice  # noqa: E402
from make_trials.halves import ALL_SIDES, AXES, X, Y, mirrored, sides  # noqa: E402
from make_trials.script import ACCEPTED, CALLS, Script, encode, file_of  # noqa: E402
from make_trials.tolerance import ANY_CUTS, any_outline, refusals  # noqa: E402
from outline import draw, formula_points, preview, view  # noqa: E402
from record_file import cut_listing, listing, read  # noqa: E402
from refusal import Refusal  # noqa: E402
from shape import (ALL_BASES, B_SPLINE, BEZIER, CARDINAL, DEEPEST, HERMITE, LOOP, ONE_HALF, Shape,  # noqa: E402
                   point_count, span_points, span_records, spans)
from stray import HALF, TAUT, bound, chords, depths, differences, parabola, piece_strays  # noqa: E402
from stray import chosen as by_tolerance  # noqa: E402
from sums import sums  # noqa: E402
from tolerance import FINEST, MOST_TOLERANCE, chosen, cubic_over, cut  # noqa: E402

SUMS = """\
P1 Bezier 0 0 0 4 depth 1: 0 1 4 exact 5
P2 Bezier 0 0 0 -4 depth 1: 0 -1 -4 exact 5
P3 B-spline 0 6 12 18 depth 1: 6 9 12 exact 6
P4 B-spline 0 1 0 0 depth 1: 1 0 0 exact 3
P5 cardinal 0 1000 1000 0 depth 1: 1000 1125 1000 exact 6
P6 cardinal -4000000 4000000 4000000 -4000000 depth 1: 4000000 5000000 4000000 exact 6
P7 Hermite 0 0 1000 0 depth 2: 0 156 500 844 1000 exact 8
P8 Hermite 0 8 0 -8 depth 1: 0 2 0 exact 6
cardinal 0 10 20 30 40 50 depth 0: 10 20 30 40 exact 8
P9 insert 60 at 6: 10 20 30 40 50 first 3 count 1 exact 4
P10 remove at 0: 20 30 40 first 0 count 0 exact 0 fourth 40
P11 move 3 to 33: 10 20 33 40 first 0 count 3 exact 8
P12 0.0625 mm: 63
P12 -0.0625 mm: -63
P12 4000.00048828125 mm: 4000000
P12 4000.0009765625 mm: refused 11 0
Bezier 0 0 0 4 depth 6: drawn 65 exact 67
Bezier 0 0 0 4 depth 8: drawn 257 exact 259
Bezier 0 0 0 4 depth 9: refused 2 0
Bezier 64 records of 0 depth 1: drawn 43 exact 86
Bezier 5 records of 0 depth 1: refused 3 0
Bezier 4294967296 records of 0 depth 1: refused 3 0
Bezier 0 0 0 4000000 depth 1: 0 500000 4000000 exact 6
Bezier 0 0 0 4000001 depth 1: refused 8 3
cardinal 0 1000 1000 0 depth 1 parameter 0: 1000 1125 1000 exact 6
cardinal 0 1000 1000 0 depth 1 parameter 16: 1000 1063 1000 exact 5
cardinal 0 1000 1000 0 depth 1 parameter 64: 1000 1250 1000 exact 6
cardinal 0 1000 1000 0 depth 1 parameter 65: refused 24 0
cardinal -4000000 4000000 4000000 -4000000 depth 1 parameter 64: 4000000 6000000 4000000 exact 6
cardinal 4000000 -4000000 -4000000 4000000 depth 1 parameter 64: -4000000 -6000000 -4000000 exact 6
B-spline 0 6 12 18 depth 1 parameter 65: 6 9 12 exact 6
loop 0 12 24 12 depth 1: 12 18 20 18 12 7 4 7 12 exact 14
loop 0 6 12 18 24 12 depth 0: 6 12 18 21 12 3 6 exact 14
insert 30 at 0: 6 6 12 18 21 17 22 6 first 4 count 4 exact 12
remove at 5: 6 12 18 19 5 6 first 2 count 3 exact 10
move 0 to 6: 7 12 18 21 13 7 7 first 3 count 4 exact 12
loop 0 6 12 depth 1: refused 3 0
loop 0 12 24 12 remove at 0: refused 6 0
"""

SEED = 2024
JUNK = 77
POINT_LIMIT = {BEZIER: 4_000_000, B_SPLINE: 4_000_000, CARDINAL: 5_000_000, HERMITE: 5_000_000, LOOP: 4_000_000}
# Every parameter that is none too large, and each kind of curve: at one half, and cardinal ones at some others.
PARAMETERS = range(65)
KINDS = [(basis, ONE_HALF) for basis in ALL_BASES] + [(CARDINAL, parameter) for parameter in TAUT]


def de_casteljau(four: Sequence[Fraction], t: Fraction) -> Fraction:
    """Document 004, after (79): interpolations of interpolations of interpolations."""
    while len(four) > 1:
        four = [(1 - t) * p + t * q for p, q in zip(four, four[1:])]
    return four[0]


def bezier_of_hermite(start, start_tangent, end, end_tangent) -> List[Fraction]:
    """Document 000, (11), solved for the four points."""
    return [start, start + Fraction(start_tangent, 3), end - Fraction(end_tangent, 3), end]


def hermite_of_cardinal(p0, p1, p2, p3, a=Fraction(1, 2)) -> tuple:
    """Document 000, (18)."""
    return p1, a * (p2 - p0), p2, a * (p3 - p1)


def bezier_of_cardinal(p0, p1, p2, p3, parameter=ONE_HALF) -> List[Fraction]:
    """Document 02, request 7: a third of the parameter, in 64ths, times the differences; zero is 32."""
    third = Fraction(parameter or 32, 192)
    return [p1, p1 + third * (p2 - p0), p2 - third * (p3 - p1), p2]


def uniform(i: int, order: int, t: Fraction) -> Fraction:
    """Document 004, (94)."""
    if order == 1:
        return Fraction(i <= t < i + 1)
    return ((t - i) * uniform(i, order - 1, t) + (i + order - t) * uniform(i + 1, order - 1, t)) / (order - 1)


def by_recursion(four: Sequence[int], t: Fraction) -> Fraction:
    """Document 004, (88), over the one interval, from knot 3 on, where all four have a share."""
    return sum(p * uniform(i, 4, 3 + t) for i, p in enumerate(four))


OTHER_FORMULA = {
    BEZIER: de_casteljau,
    B_SPLINE: by_recursion,
    CARDINAL: lambda four, t: de_casteljau(bezier_of_hermite(*hermite_of_cardinal(*four)), t),
    HERMITE: lambda four, t: de_casteljau(bezier_of_hermite(*four), t),
    LOOP: by_recursion,
}


def at_limits() -> Iterator[List[int]]:
    """Four records on an axis, each at a limit, in every way."""
    for signs in range(16):
        yield [CONTROL_LIMIT if signs >> place & 1 else -CONTROL_LIMIT for place in range(4)]


class Curve(unittest.TestCase):
    def test_other_formulas_agree(self):
        dice = Dice(SEED)
        for basis in ALL_BASES:
            for _ in range(60):
                four = [dice.coordinate() for _ in range(4)]
                t = Fraction(dice.below(2 ** DEEPEST), 2 ** DEEPEST)
                value = product(powers(t), cubic(basis, four))
                self.assertEqual(value, OTHER_FORMULA[basis](four, t))

    def test_b_spline_ends(self):
        """Document 000, (23) to (25): position, tangent and curvature at t = 0."""
        p0, p1, p2, p3 = 5, -7, 12, 100
        _, b, c, d = cubic(B_SPLINE, (p0, p1, p2, p3))
        self.assertEqual((d, c, 2 * b), (Fraction(p0 + 4 * p1 + p2, 6), Fraction(p2 - p0, 2), p2 - 2 * p1 + p0))

    def test_spans_meet(self):
        for basis in ALL_BASES:
            stride = {BEZIER: 3, B_SPLINE: 1, CARDINAL: 1, HERMITE: 2, LOOP: 1}[basis]
            records = Dice(SEED).numbers(4)
            end = sum(cubic(basis, records[:4]))
            self.assertEqual(end, cubic(basis, records[stride:stride + 4])[3])

    def test_rounding(self):
        for quarters, whole in ((0, 0), (1, 0), (2, 1), (5, 1), (6, 2), (7, 2), (10, 3)):
            size = Fraction(quarters, 4)
            self.assertEqual((nearest(size), nearest(-size)), (whole, -whole))

    def test_boxes_and_bounds(self):
        """No point of basis 1, 2 or 5 leaves its controls' box; none of 3 or 4 passes the bound."""
        for four in at_limits():
            for basis in ALL_BASES:
                outline = formula_points(Shape(basis, DEEPEST, 4), [number for p in four for number in (p, p)])
                self.assertLessEqual(max(abs(number) for number in outline), POINT_LIMIT[basis])


class Parameters(unittest.TestCase):
    """Document 02, request 7: cardinal curves at each parameter by other formulas, and what looks at the parameter."""

    def setUp(self):
        self.dice = Dice(SEED)

    def fours(self):
        """Each parameter with any four records."""
        for parameter in PARAMETERS:
            yield parameter, Fraction(parameter or 32, 64), [self.dice.coordinate() for _ in range(4)]

    def test_other_formulas_agree(self):
        """Interpolations of interpolations of the request's Bezier controls, and the Hermite curve by its tangents."""
        for parameter, a, four in self.fours():
            span = cubic(CARDINAL, four, parameter)
            self.assertEqual(span, cubic(HERMITE, hermite_of_cardinal(*four, a)))
            for step in range(17):
                t = Fraction(step, 16)
                self.assertEqual(product(powers(t), span), de_casteljau(bezier_of_cardinal(*four, parameter), t))

    def test_ends_and_tangents(self):
        """Document 000, after (20)."""
        for parameter, a, (p0, p1, p2, p3) in self.fours():
            x, y, z, w = cubic(CARDINAL, (p0, p1, p2, p3), parameter)
            self.assertEqual((w, x + y + z + w), (p1, p2))
            self.assertEqual((z, 3 * x + 2 * y + z), (a * (p2 - p0), a * (p3 - p1)))

    def test_points(self):
        """Every point at every parameter is the nearest to the curve by its Bezier controls."""
        for parameter, _, four in self.fours():
            depth = self.dice.between(1, DEEPEST)
            outline = formula_points(Shape(CARDINAL, depth, 4, parameter), [number for p in four for number in (p, -p)])
            for i, number in enumerate(outline[X::2]):
                off = abs(de_casteljau(bezier_of_cardinal(*four, parameter), Fraction(i, 2 ** depth)) - number)
                self.assertLessEqual(off, HALF)
            self.assertEqual(outline[Y::2], [-number for number in outline[X::2]])

    def test_zero_is_one_half(self):
        """Zero and 32 come to one outline, with one figure of exact coordinates, and 64 to another outline."""
        for depth in range(1, 5):
            controls = self.dice.numbers(5)
            told = [(draw(shape, controls, points := [JUNK] * (2 * point_count(shape))), points)
                    for shape in (Shape(CARDINAL, depth, 5, parameter) for parameter in (0, 32, 64))]
            self.assertEqual(told[0], told[1])
            self.assertNotEqual(told[1][1], told[2][1])

    def test_bound(self):
        """No parameter takes a point past 6,000,000, and the whole one comes to it on both sides."""
        farthest = {}
        for four in at_limits():
            controls = [number for p in four for number in (p, -p)]
            for parameter in PARAMETERS:
                outline = formula_points(Shape(CARDINAL, 3, 4, parameter), controls)
                farthest[parameter] = max(farthest.get(parameter, 0), *map(abs, outline))
        self.assertEqual(farthest, {parameter: 4_000_000 + 31_250 * (parameter or 32) for parameter in PARAMETERS})
        self.assertEqual(max(farthest.values()), 6_000_000)

    def test_order_of_refusals(self):
        """1, 2, 24, 3, 4, 5, 6, 7, 8, 9: each is given where all that come after it hold as well."""
        far = [CONTROL_LIMIT + 1] * 8
        for shape, controls, text in (
                (Shape(6, 9, 3, 65), far[1:], "1 0"), (Shape(CARDINAL, 9, 3, 65), far[1:], "2 0"),
                (Shape(CARDINAL, 8, 3, 65), far[1:], "24 0"), (Shape(CARDINAL, 8, 3, 64), far[1:], "3 0"),
                (Shape(CARDINAL, 8, 4, 64), far[1:], "7 0"), (Shape(CARDINAL, 8, 4, 64), far, "8 0"),
                (Shape(CARDINAL, 8, 4, 64), [0] * 8, "9 0"), (Shape(CARDINAL, 8, 4, 2 ** 32 - 1), far[1:], "24 0")):
            self.assertEqual(answer(draw, shape, controls, []), f"refused {text}")
            self.assertEqual(list(view(shape, [], 0)), [])
        for shape, text in ((Shape(CARDINAL, 9, 4, 65), "2 0"), (Shape(CARDINAL, 8, 4, 65), "24 0"),
                            (Shape(CARDINAL, 8, 3, 64), "3 0"), (Shape(CARDINAL, 8, 4, 64), "4 0"),
                            (Shape(B_SPLINE, 8, 4, 65), "4 0"), (Shape(BEZIER, 8, 4, 65), "7 0")):
            self.assertEqual(answer(preview, shape, [], []), f"refused {text}")
        for edit, arguments in ((move, (99, (0, 0))), (insert, (99, (0, 0))), (remove, (99,))):
            for shape, text in ((Shape(CARDINAL, 9, 3, 65), "2 0"), (Shape(CARDINAL, 8, 3, 65), "24 0"),
                                (Shape(CARDINAL, 8, 3, 64), "3 0"), (Shape(CARDINAL, 8, 4, 64), "5 99"),
                                (Shape(B_SPLINE, 8, 4, 65), "5 99")):
                self.assertEqual(answer(edit, shape, [], [], *arguments), f"refused {text}")

    def test_other_bases_do_not_look_at_it(self):
        for basis in (BEZIER, B_SPLINE, HERMITE, LOOP):
            controls = self.dice.numbers(4)
            plain, other = ([JUNK] * (2 * point_count(Shape(basis, 2, 4))) for _ in range(2))
            draw(Shape(basis, 2, 4), controls, plain)
            for parameter in (1, 64, 65, 2 ** 32 - 1):
                shape = Shape(basis, 2, 4, parameter)
                draw(shape, controls, other)
                self.assertEqual(other, plain)
                self.assertEqual(list(view(shape, plain, 0)), plain[:10])
                self.assertEqual(move(shape, controls, other, 0, tuple(controls[:2])).shape, shape)


class Outline(unittest.TestCase):
    def test_numbers_past_the_last_point_stay(self):
        points = [JUNK] * 9
        self.assertEqual(draw(Shape(BEZIER, 1, 4), [0, 0, 0, 0, 0, 0, 4, 4], points), (3, 4))
        self.assertEqual(points, [0, 0, 1, 1, 4, 4, JUNK, JUNK, JUNK])

    def test_point_counts(self):
        most = {BEZIER: 21, B_SPLINE: 61, CARDINAL: 61, HERMITE: 31, LOOP: 64}
        for basis, m in most.items():
            self.assertEqual(spans(Shape(basis, 8, 64)), m)
            self.assertEqual(point_count(Shape(basis, 8, 64)), m * 256 + 1)

    def test_exact_coordinates(self):
        """A coordinate is exact where the exact value stands in the points, and nowhere else."""
        dice = Dice(SEED)
        for _ in range(200):
            shape = dice.shape(ALL_BASES, 3, 10)
            controls = exact.grained(dice, shape, shape.count)
            points = [JUNK] * (2 * point_count(shape))
            answer = draw(shape, controls, points)
            there = sum(1 for value, number in zip(exact_outline(shape, controls), points) if value == number)
            self.assertEqual(answer, (point_count(shape), there))

    def test_view(self):
        points = list(range(14))
        self.assertEqual(view(Shape(B_SPLINE, 1, 6), points, 1), [4, 5, 6, 7, 8, 9])
        for shape, span, lent in ((Shape(B_SPLINE, 1, 6), 3, points), (Shape(B_SPLINE, 1, 6), 0, points[:13]),
                                  (Shape(6, 1, 6), 0, points), (Shape(B_SPLINE, 9, 6), 0, [JUNK] * 4000)):
            self.assertEqual(list(view(shape, lent, span)), [])

    def test_preview(self):
        doubles = [float(JUNK)] * 7
        preview(Shape(BEZIER, 1, 4), [0, -8, 0, 8, 0, -8, 1, 8], doubles)
        self.assertEqual(doubles, [0.0, -8.0, 0.125, 0.0, 1.0, 8.0, JUNK])
        self.assertEqual(str(doubles[3]), "0.0")

    def test_preview_at_the_deepest(self):
        """Controls at the limits, and one inside them: every value is a double, and the least part of one counts."""
        shape = Shape(BEZIER, DEEPEST, 4)
        for four in at_limits():
            controls = [number for p in four for number in (p, p - p // CONTROL_LIMIT)]
            doubles = [float(JUNK)] * (2 * point_count(shape))
            preview(shape, controls, doubles)
            self.assertEqual([Fraction(double) for double in doubles], exact_outline(shape, controls))


class Depths(unittest.TestCase):
    """Document 02, request 10: what an outline of up to depth 6 was it is, and all of it is found again two depths on."""

    def outlines(self):
        """One span of each basis but the loop, with records at limits in every way and any others."""
        dice = Dice(SEED)
        for basis in BASES_BEFORE:
            for x in at_limits():
                y = [dice.coordinate() for _ in x]
                yield basis, [number for record in zip(x, y) for number in record]

    def test_points_stay(self):
        """Each number is nearest to the curve by another formula, and away from zero where two are."""
        for basis, controls in self.outlines():
            for depth in range(7):
                outline = [JUNK] * (2 * point_count(Shape(basis, depth, 4)))
                draw(Shape(basis, depth, 4), controls, outline)
                for axis in AXES:
                    for i, number in enumerate(outline[axis::2]):
                        value = OTHER_FORMULA[basis](controls[axis::2], Fraction(i, 2 ** depth))
                        off = abs(value - number)
                        self.assertTrue(off < HALF or off == HALF and abs(number) > abs(value))

    def test_found_again(self):
        """Point g is point 4g two depths deeper, also where that is a depth that document 01 does not have."""
        for basis, controls in self.outlines():
            for depth in range(7):
                outline, deeper = (formula_points(Shape(basis, k, 4), controls) for k in (depth, depth + 2))
                for axis in AXES:
                    self.assertEqual(deeper[axis::8], outline[axis::2])

    def test_deepest(self):
        for basis in ALL_BASES:
            controls, room = [0] * 8, [JUNK] * (2 * 1025)
            for depth in (9, 2 ** 32 - 1):
                self.assertEqual(answer(draw, Shape(basis, depth, 4), controls, room), "refused 2 0")
            self.assertEqual(room, [JUNK] * (2 * 1025))
            for depth in range(9):
                shape = Shape(basis, depth, 4)
                self.assertEqual(draw(shape, controls, room).points, (4 if basis == LOOP else 1) * 2 ** depth + 1)


def point_by_point(old: List[int], shape: Shape, outline: List[int], fresh: range, carried: int,
                   shift: int) -> List[int]:
    """The points after an edit: fresh, or from span `carried` on moved by whole spans, or as they were."""
    steps = 2 ** shape.depth
    points = list(old)
    for point in range(point_count(shape)):
        source, at = old, point
        if fresh and fresh.start * steps <= point <= fresh.stop * steps:
            source = outline
        elif point >= carried * steps:
            at = point + shift * steps
        points[2 * point:2 * point + 2] = source[2 * at:2 * at + 2]
    return points


def exact_between(shape: Shape, controls: List[int], outline: List[int], fresh: range) -> int:
    """How many numbers from the first fresh span's start to the last one's end stand at their exact values."""
    if not fresh:
        return 0
    steps = 2 ** shape.depth
    part = slice(2 * fresh.start * steps, 2 * fresh.stop * steps + 2)
    return sum(1 for value, number in zip(exact_outline(shape, controls)[part], outline[part]) if value == number)


class Edits(unittest.TestCase):
    def setUp(self):
        self.dice = Dice(SEED)

    def test_any_contents(self):
        for _ in range(150):
            shape = self.dice.shape(GROWING_BEFORE, 2, 12)._replace(parameter=self.dice.below(65))
            controls = exact.grained(self.dice, shape, shape.count + 2)
            points = [self.dice.junk() for _ in range(2 * point_count(shape._replace(count=shape.count + 2)))]
            self.one_insert(shape, list(controls), list(points))
            if shape.count > 4:
                self.one_remove(shape, controls, points)

    def one_insert(self, shape, controls, points):
        place, record = self.dice.below(shape.count + 1), self.dice.record()
        before, kept = list(points), controls[2 * shape.count + 2:]
        wanted = controls[:2 * place] + list(record) + controls[2 * place:2 * shape.count] + kept
        answer = insert(shape, controls, points, place, record)
        self.assertEqual(answer.shape, shape._replace(count=shape.count + 1))
        fresh = range(max(place - 3, 0), min(place + 1, spans(answer.shape)))
        self.assertEqual((answer.first, answer.fresh), (fresh.start, len(fresh)))
        self.assertEqual(controls, wanted)
        outline = formula_points(answer.shape, controls)
        self.assertEqual(answer.exact, exact_between(answer.shape, controls, outline, fresh))
        self.assertEqual(points, point_by_point(before, answer.shape, outline, fresh, place + 1, -1))

    def one_remove(self, shape, controls, points):
        place = self.dice.below(shape.count)
        before, kept = list(points), controls[2 * shape.count - 2:]
        wanted = controls[:2 * place] + controls[2 * place + 2:2 * shape.count] + kept
        answer = remove(shape, controls, points, place)
        self.assertEqual(answer.shape, shape._replace(count=shape.count - 1))
        fresh = range(max(place - 3, 0), min(place, spans(answer.shape)))
        self.assertEqual((answer.first, answer.fresh), (fresh.start, len(fresh)) if fresh else (0, 0))
        self.assertEqual(controls, wanted)
        outline = formula_points(answer.shape, controls)
        self.assertEqual(answer.exact, exact_between(answer.shape, controls, outline, fresh))
        self.assertEqual(points, point_by_point(before, answer.shape, outline, fresh, place, 1))

    def test_drawn_outlines_stay_drawn(self):
        for basis, parameter in KINDS:
            shape = Shape(basis, 2, 10, parameter)
            controls = self.dice.numbers(20)
            points = [JUNK] * (2 * point_count(shape._replace(count=19 if basis == BEZIER else 20)))
            draw(shape, controls, points)
            for _ in range(40):
                shape = self.any_edit(shape, controls, points)
                outline = formula_points(shape, controls)
                self.assertEqual(points[:len(outline)], outline)

    def any_edit(self, shape, controls, points):
        edit = self.dice.pick((move, insert, remove) if shape.basis in BASES_THAT_GROW else (move,))
        record = () if edit is remove else (self.dice.record(),)
        try:
            return edit(shape, controls, points, self.dice.place(shape.count), *record).shape
        except Refusal:
            return shape

    def test_move_of_a_joint_works_both_spans(self):
        controls, points = [0] * 14, [JUNK] * 10
        answer = move(Shape(BEZIER, 1, 7), controls, points, 3, (8, 8))
        self.assertEqual((answer.first, answer.fresh), (0, 2))
        self.assertEqual(points, [0, 0, 1, 1, 8, 8, 1, 1, 0, 0])


class Loops(unittest.TestCase):
    """Document 02, request 8: a loop as an open B-spline, and its edits read again round the ring of its points."""

    def setUp(self):
        self.dice = Dice(SEED)

    def loops(self, deepest=3, deepest_of_most=1):
        """Loops of few records and of the most, with records of which many points are exact."""
        for count in (*range(4, 10), 63, 64):
            for depth in range((deepest if count < 10 else deepest_of_most) + 1):
                shape = Shape(LOOP, depth, count, self.dice.pick((0, 65, 2 ** 32 - 1)))
                yield shape, exact.grained(self.dice, shape, count)

    def test_open_outline(self):
        """The first three records again at the end, and no loop: the same exact values, in and of each span."""
        for shape, controls in self.loops():
            open_shape = Shape(B_SPLINE, shape.depth, shape.count + 3)
            self.assertEqual(exact_outline(shape, controls), exact_outline(open_shape, controls + controls[:6]))
            self.assertEqual(point_count(shape), shape.count * 2 ** shape.depth + 1)

    def test_ends_meet(self):
        for shape, controls in self.loops():
            values = exact_outline(shape, controls)
            self.assertEqual(values[-2:], values[:2])
            points = [JUNK] * (len(values) + 3)
            self.assertEqual(draw(shape, controls, points).points, point_count(shape))
            self.assertEqual((points[-5:-3], points[-3:]), (points[:2], [JUNK] * 3))

    def test_other_start(self):
        """From another record on the outline starts so many spans later; in the other order it goes the other way."""
        for shape, controls in self.loops(2):
            outline, start = formula_points(shape, controls), self.dice.below(shape.count)
            steps = 2 ** shape.depth
            ring = pairs(outline)[:-1]
            turned = formula_points(shape, controls[2 * start:] + controls[:2 * start])
            self.assertEqual(pairs(turned)[:-1], ring[start * steps:] + ring[:start * steps])
            back = formula_points(shape, unpaired(pairs(controls)[::-1]))
            wanted = [ring[((shape.count - 3) * steps - point) % len(ring)] for point in range(len(ring))]
            self.assertEqual(pairs(back)[:-1], wanted)

    def test_boxes(self):
        """Every point of a span lies in the box of its four records, counted round."""
        for shape, controls in self.loops():
            values = exact_outline(shape, controls)
            for span in range(shape.count):
                for axis in AXES:
                    four = [controls[2 * ((span + at) % shape.count) + axis] for at in range(4)]
                    for point in span_points(shape, span):
                        self.assertTrue(min(four) <= values[2 * point + axis] <= max(four))

    def test_small_loop(self):
        """Four records, worked out by hand: (p0 + 4p1 + p2) / 6 and so on round."""
        points = [JUNK] * 10
        self.assertEqual(draw(Shape(LOOP, 0, 4), [0, 0, 12, -6, 24, 0, 12, 6], points), (5, 10))
        self.assertEqual(points, [12, -4, 20, 0, 12, 4, 4, 0, 12, -4])
        self.assertEqual(list(view(Shape(LOOP, 0, 4), points, 3)), [4, 0, 12, -4])
        self.assertEqual(list(view(Shape(LOOP, 0, 4), points, 4)), [])

    def edits_of(self, shape):
        """Each edit at each place, with the old place that a new span's start stood at where it is not fresh."""
        for place in range(shape.count):
            yield move, shape, place, (self.dice.record(),), 0
            if shape.count > 4:
                yield remove, shape._replace(count=shape.count - 1), place, (), 1
        for place in range(shape.count + 1):
            if shape.count < 64:
                yield insert, shape._replace(count=shape.count + 1), place, (self.dice.record(),), -1

    def test_edits(self):
        """At each place, over any contents and over a drawn outline, which stays one."""
        for shape, controls in self.loops(2, 0):
            for edit, new, place, record, shift in self.edits_of(shape):
                lent = controls + [JUNK] * 4
                changed = pairs(controls)
                changed[place:place + (edit is not insert)] = record
                for contents in (self.dice.junk, None):
                    points = [JUNK] * (2 * point_count(new._replace(count=shape.count + 1)) + 1)
                    if contents:
                        points = [contents() for _ in points]
                    else:
                        draw(shape, controls, points)
                    values = exact_outline(new, unpaired(changed))
                    self.one_edit(shape, list(lent), points, edit, new, place, record, shift, unpaired(changed), values)
                    if not contents:
                        self.assertEqual(points[:len(values)], [nearest(value) for value in values])

    def one_edit(self, shape, controls, points, edit, new, place, record, shift, changed, values):
        """Point by point round the ring: a point is fresh up to so many steps after the run's start."""
        before, kept = list(points), controls[len(changed):]
        answer = edit(shape, controls, points, place, *record)
        first, fresh = ring_run(edit, new, place)
        self.assertEqual((answer.shape, answer.first, answer.fresh), (new, first, fresh))
        self.assertEqual(controls, changed + kept)
        steps, exactly = 2 ** shape.depth, 0
        for point in range(point_count(new)):
            if (point - first * steps) % (new.count * steps) <= fresh * steps:
                wanted = [nearest(value) for value in values[2 * point:2 * point + 2]]
                exactly += sum(value == nearest(value) for value in values[2 * point:2 * point + 2])
            else:
                at = point if point < place * steps else point + shift * steps
                wanted = before[2 * at:2 * at + 2]
            self.assertEqual(points[2 * point:2 * point + 2], wanted)
        self.assertEqual(points[2 * point_count(new):], before[2 * point_count(new):])
        self.assertEqual(answer.exact, exactly)

    def test_runs(self):
        """A move at four names all four, from the span in which the record stands last."""
        for place in range(4):
            self.assertEqual(ring_run(move, Shape(LOOP, 0, 4), place), ((place + 1) % 4, 4))
        for place, told in ((0, (5, 3)), (1, (6, 3)), (2, (7, 3)), (3, (0, 3)), (8, (5, 3))):
            self.assertEqual(ring_run(remove, Shape(LOOP, 0, 8), place), told)

    def test_order_of_refusals(self):
        """1, 2, 3, 4, 5, 6, 7, 8, 9; 24 is no loop's."""
        far = [0] * 6 + [CONTROL_LIMIT + 1] * 2
        for shape, controls, text in (
                (Shape(6, 9, 3, 65), far[1:], "1 0"), (Shape(LOOP, 9, 3, 65), far[1:], "2 0"),
                (Shape(LOOP, 8, 3, 65), far[1:], "3 0"), (Shape(LOOP, 8, 65, 65), far[1:], "3 0"),
                (Shape(LOOP, 8, 0, 65), far[1:], "3 0"), (Shape(LOOP, 8, 2 ** 32 - 1, 65), far[1:], "3 0"),
                (Shape(LOOP, 8, 4, 65), far[1:], "7 0"), (Shape(LOOP, 8, 4, 65), far, "8 3"),
                (Shape(LOOP, 8, 4, 65), [0] * 8, "9 0")):
            self.assertEqual(answer(draw, shape, controls, []), f"refused {text}")
            self.assertEqual(list(view(shape, [], 0)), [])
        for shape, text in ((Shape(6, 9, 3), "1 0"), (Shape(LOOP, 9, 3), "2 0"), (Shape(LOOP, 8, 3), "3 0"),
                            (Shape(LOOP, 8, 4, 65), "4 0")):
            self.assertEqual(answer(preview, shape, [], []), f"refused {text}")
        for edit, record, full in ((insert, ((0, 0),), 64), (remove, (), 4)):
            for shape, place, text in ((Shape(LOOP, 9, 3), 99, "2 0"), (Shape(LOOP, 8, 3), 99, "3 0"),
                                       (Shape(LOOP, 8, full), 99, "5 99"), (Shape(LOOP, 8, full), 0, "6 0"),
                                       (Shape(LOOP, 8, 5), 0, "7 0")):
                self.assertEqual(answer(edit, shape, [], [], place, *record), f"refused {text}")
        for count, text in ((63, "7 0"), (64, "6 0")):
            self.assertEqual(answer(insert, Shape(LOOP, 0, count), [0] * 126, [0] * 200, count, (0, 0)), f"refused {text}")

    def test_rooms(self):
        """9 looks at the old outline and at the new one; one number less than the longer needs is too short."""
        for edit, record, count in ((move, ((0, 0),), 4), (insert, ((0, 0),), 5), (remove, (), 5)):
            shape, room = Shape(LOOP, 1, 5 if edit is remove else 4), 2 * (2 * count + 1)
            self.assertEqual(answer(edit, shape, [0] * 10, [0] * (room - 1), 0, *record), "refused 9 0")
            self.assertNotIsInstance(answer(edit, shape, [0] * 10, [0] * room, 0, *record), str)

    def test_files(self):
        """A loop's byte 2 is zero, and its records are of one basis."""
        heads = {"5": b"\5\1\0\0", "2": b"\2\1\0\0", "p": b"\5\1\1\0", "s": b"\5\1\0\1", "6": b"\6\1\0\0"}
        for letters, text in (("555", "3 0"), ("555p", "14 3"), ("s555", "14 0"), ("5525", "15 2"), ("2225", "15 3"),
                              ("6666", "1 0"), ("pppp", "14 0")):
            file = b"".join(heads[letter] + bytes(8) for letter in letters)
            self.assertEqual(listing(file), [f"refused {text}"])
        file = file_of(Shape(LOOP, 0, 4), [0, 0, 12, -6, 24, 0, 12, 6])
        self.assertEqual(listing(file), ["5 0 4 5", "0 12 -4", "1 20 0", "2 12 4", "3 4 0", "4 12 -4"])
        self.assertEqual(cut_listing(file, 3, 0)[0], "5 3 4 5 0")
        self.assertEqual([line.split(",")[0] for line in depths(file)], [*(f"span {span}" for span in range(4)), "curved spans"])


def pairs(numbers: Sequence[int]) -> List[Tuple[int, int]]:
    """The records or points of a list of numbers."""
    return [*zip(numbers[::2], numbers[1::2])]


def unpaired(records: Sequence[Tuple[int, int]]) -> List[int]:
    return [number for record in records for number in record]


def ring_run(edit, new: Shape, place: int) -> Tuple[int, int]:
    """The first fresh span and how many, by the records of each span of the new loop.

    After a move or an insert they are the spans with the record in them, and the first has it last; after a removal those
    with the gap between two of their records, and the first has it before its last.
    """
    spans_records = [[(span + at) % new.count for at in range(4)] for span in range(new.count)]
    if edit is not remove:
        fresh = [four for four in spans_records if place in four]
        return next(four[0] for four in fresh if four[3] == place), len(fresh)
    gap = [(place - 1) % new.count, place % new.count]
    fresh = [four for four in spans_records if gap in ([*two] for two in zip(four, four[1:]))]
    return next(four[0] for four in fresh if four[2:] == gap), len(fresh)


class Drawing(unittest.TestCase):
    def test_numbers(self):
        for number, whole in ((0.0005, 1), (-0.0005, -1), (0.0, 0), (-0.0, 0), (5e-324, 0), (-5e-324, 0),
                              (3999.9375, 3999938), (-3999.9375, -3999938), (4000.0, 4000000)):
            self.assertEqual(micrometres(number, 0), whole)

    def test_line_and_close(self):
        controls = [JUNK] * 20
        state = take(NOTHING_DRAWN, Step.MOVE, (0.001, 0.002), controls)
        state = take(state, Step.LINE, (0.003, 0.004), controls)
        state = take(state, Step.CLOSE, (), controls)
        self.assertEqual(state, (7, (1, 2), (1, 2), True))
        self.assertEqual(controls[:14], [1, 2, 1, 2, 3, 4, 3, 4, 3, 4, 1, 2, 1, 2])
        self.assertEqual(controls[14:], [JUNK] * 6)

    def test_close_at_the_start_adds_nothing(self):
        controls = [JUNK] * 2
        state = take(NOTHING_DRAWN, Step.MOVE, (1.0, 1.0), controls)
        self.assertEqual(take(state, Step.CLOSE, (), controls), (1, (1000, 1000), (1000, 1000), True))


def answer(call, *arguments):
    """What a call answers, or its refusal."""
    try:
        return call(*arguments)
    except Refusal as refused:
        return str(refused)


def mirrored_state(state, axis):
    """A drawing state in the mirror, or a refusal as it is."""
    if isinstance(state, str):
        return state
    start, current = (tuple(mirrored(record, axis)) for record in (state.start, state.current))
    return State(state.count, start, current, state.closed)


class Mirror(unittest.TestCase):
    """Document 02, request 1: what goes in mirrored on an axis comes out so, and is refused alike."""

    def setUp(self):
        self.dice = Dice(SEED)

    def numbers(self, count):
        """Good records, in two of three cases so small that many points are exact halves."""
        return [self.dice.between(-9, 9) for _ in range(2 * count)] if self.dice.below(3) else self.dice.numbers(count)

    def test_outlines(self):
        for basis in ALL_BASES:
            seen = set()
            for _ in range(120):
                parameter = self.dice.pick((0, 16, 48, 64, self.dice.below(65)))
                shape = self.dice.shape((basis,), 3, 10)._replace(parameter=parameter)
                controls = self.numbers(shape.count)
                outline = formula_points(shape, controls)
                for axis in AXES:
                    self.assertEqual(formula_points(shape, mirrored(controls, axis)), mirrored(outline, axis))
                seen |= sides(exact_outline(shape, controls))
            self.assertEqual(seen, ALL_SIDES)

    def test_edits(self):
        """Runs of edits, refused ones among them, over any contents."""
        for basis in ALL_BASES:
            for axis in AXES:
                shape = self.dice.shape((basis,), 2, 10)._replace(parameter=self.dice.below(65))
                controls = self.numbers(12)
                points = [self.dice.junk() for _ in range(2 * point_count(shape._replace(count=13)))]
                others = mirrored(controls, axis), mirrored(points, axis)
                for _ in range(40):
                    shape = self.one_edit(shape, (controls, points), others, axis)

    def one_edit(self, shape, lists, others, axis):
        edit, place = self.dice.pick((move, insert, remove)), self.dice.place(shape.count)
        record = self.dice.bad_record() if self.dice.one_in(10) else self.numbers(1)
        records = ([], []) if edit is remove else ([record], [mirrored(record, axis)])
        told, in_mirror = (answer(edit, shape, *held, place, *new) for held, new in zip((lists, others), records))
        self.assertEqual(in_mirror, told)
        self.assertEqual(others, tuple(mirrored(numbers, axis) for numbers in lists))
        return shape if isinstance(told, str) else told.shape

    def test_drawings(self):
        """Steps in any order, some with bad numbers: the states and the controls."""
        for _ in range(60):
            for axis in AXES:
                controls = [self.dice.junk() for _ in range(40)]
                other = mirrored(controls, axis)
                state = NOTHING_DRAWN
                for step in (Step.MOVE, *(self.dice.pick(list(Step)) for _ in range(8))):
                    numbers = [self.millimetres() for _ in range(trials.NUMBERS[step])]
                    in_mirror = answer(take, mirrored_state(state, axis), step, mirrored(numbers, axis), other)
                    told = answer(take, state, step, numbers, controls)
                    self.assertEqual((in_mirror, other), (mirrored_state(told, axis), mirrored(controls, axis)))
                    state = state if isinstance(told, str) else told

    def millimetres(self):
        return self.dice.pick((0.0, 4000.00048828125, 4000.0009765625, float("nan"), float("inf"))
                              if self.dice.one_in(8) else (self.dice.millimetres(),))

    def test_previews(self):
        """Bit by bit, so that zero is positive zero on both sides."""
        zeros = 0
        for _ in range(60):
            shape = self.dice.shape((BEZIER,), 3, 10)
            controls = self.numbers(shape.count)
            doubles, others = ([float(JUNK)] * (2 * point_count(shape)) for _ in range(2))
            preview(shape, controls, doubles)
            for axis in AXES:
                preview(shape, mirrored(controls, axis), others)
                wanted = [number + 0.0 for number in mirrored(doubles, axis)]
                self.assertEqual([*map(trials.pattern, others)], [*map(trials.pattern, wanted)])
            zeros += doubles.count(0.0)
        self.assertGreater(zeros, 0)


def bezier_of_b_spline(p0, p1, p2, p3) -> List[Fraction]:
    """Document 01, "The curve, exactly", without the six."""
    return [Fraction(six, 6) for six in (p0 + 4 * p1 + p2, 4 * p1 + 2 * p2, 2 * p1 + 4 * p2, p1 + 4 * p2 + p3)]


BEZIER_OF = {
    BEZIER: lambda *four: [Fraction(number) for number in four],
    B_SPLINE: bezier_of_b_spline,
    HERMITE: bezier_of_hermite,
    LOOP: bezier_of_b_spline,
}


def bezier_of_span(shape: Shape, four: Sequence[int]) -> List[Fraction]:
    return bezier_of_cardinal(*four, shape.parameter) if shape.basis == CARDINAL else BEZIER_OF[shape.basis](*four)


Fours = List[List[Fraction]]


def midpoint_halves(four: Sequence[Fraction]) -> Tuple[List[Fraction], List[Fraction]]:
    """Document 003: midpoints of midpoints of midpoints."""
    left, right = [], []
    while four:
        left.append(four[0])
        right.append(four[-1])
        four = [(p + q) / 2 for p, q in zip(four, four[1:])]
    return left, right[::-1]


def flat_fours(fours: Fours, tolerance: int, depth: int = 0) -> List[Fours]:
    """The flat pieces of a span's tree, each as its Bezier controls in x and in y."""
    bends = [abs(p - 2 * q + r) for four in fours for p, q, r in zip(four, four[1:], four[2:])]
    if max(bends) <= Fraction(4 * tolerance, 3):
        return [fours]
    if depth == FINEST:
        raise Refusal(refusal.NOT_FLAT)
    left, right = zip(*map(midpoint_halves, fours))
    return flat_fours(left, tolerance, depth + 1) + flat_fours(right, tolerance, depth + 1)


def by_halving(shape: Shape, controls: Sequence[int], tolerance: int) -> Tuple[List[Fraction], int]:
    """The chosen points by midpoints, and the cuts that give so many pieces."""
    pieces: List[Fours] = []
    for span in range(spans(shape)):
        records = span_records(shape, span)
        fours = [bezier_of_span(shape, [controls[2 * j + axis] for j in records]) for axis in AXES]
        pieces += flat_fours(fours, tolerance)
    starts = [four[0] for fours in pieces for four in fours]
    return starts + [four[-1] for four in pieces[-1]], len(pieces) - spans(shape)


class Tolerance(unittest.TestCase):
    """Document 02, request 3: the tree by halving, and what follows from the tree."""

    def setUp(self):
        self.dice = Dice(SEED)

    def calls(self):
        """Outlines of every basis and size with a tolerance each, and spans with all their records at limits."""
        for basis, parameter in KINDS:
            for _ in range(15):
                size = self.dice.pick((9, 1000, 100_000, CONTROL_LIMIT))
                shape, controls = any_outline(self.dice, basis, size)
                yield shape._replace(parameter=parameter), controls, self.dice.between(0, 1 + size // 400)
            for _ in range(5):
                controls = [self.dice.sign() * CONTROL_LIMIT for _ in range(8)]
                yield Shape(basis, 0, 4, parameter), controls, self.dice.pick((0, 1000, 2929, 2930, MOST_TOLERANCE))

    def test_halving_gives_the_same_tree(self):
        refused = 0
        for shape, controls, tolerance in self.calls():
            told = answer(chosen, shape, controls, tolerance, ANY_CUTS)
            self.assertEqual(told, answer(by_halving, shape, controls, tolerance))
            refused += isinstance(told, str)
        self.assertTrue(20 < refused < 120)

    def test_counts_and_points(self):
        """One point more than pieces, each of them a point of the even outline, and all past them kept."""
        for shape, controls, tolerance in self.calls():
            even = formula_points(shape._replace(depth=FINEST), controls)
            lent = [JUNK] * (len(even) + 1)
            told = answer(cut, shape, controls, lent, tolerance, ANY_CUTS)
            if isinstance(told, str):
                self.assertEqual((told, lent), ("refused 21 0", [JUNK] * len(lent)))
                continue
            self.assertEqual(told.points, spans(shape) + told.cuts + 1)
            written, kept = lent[:2 * told.points], lent[2 * told.points:]
            evenly = iter(zip(even[::2], even[1::2]))
            self.assertTrue(all(point in evenly for point in zip(written[::2], written[1::2])))
            self.assertEqual((written[-2:], set(kept)), (even[-2:], {JUNK}))
            self.assertEqual(cut(shape, controls, lent, tolerance, told.cuts), told)
            for fewer in range(told.cuts)[-1:]:
                self.assertEqual(answer(cut, shape, controls, lent, tolerance, fewer), "refused 22 0")

    def test_more_tolerance_never_more_cuts(self):
        for shape, controls, _ in self.calls():
            cuts = [chosen(shape, controls, tolerance, ANY_CUTS)[1] for tolerance in (2930, 3500, 6000, MOST_TOLERANCE)]
            self.assertEqual(cuts, sorted(cuts, reverse=True))

    def test_mirror(self):
        for shape, controls, tolerance in self.calls():
            lent = [JUNK] * (2 * point_count(shape._replace(depth=FINEST)))
            told = answer(cut, shape, controls, lent, tolerance, ANY_CUTS)
            for axis in AXES:
                other = mirrored([JUNK] * len(lent), axis)
                self.assertEqual(answer(cut, shape, mirrored(controls, axis), other, tolerance, ANY_CUTS), told)
                self.assertEqual(other, mirrored(lent, axis))

    def test_order_of_refusals(self):
        line, far = [0, 0, 0, 0, 5462, 0, 5462, 0], [0, 0, 0, 0, 5462, 0, 5462, CONTROL_LIMIT + 1]
        good, endless = Shape(BEZIER, 8, 4), 2 ** 99
        for shape, controls, tolerance, most, text in (
                (Shape(6, 9, 5), far[1:], 10_001, 0, "1 0"), (Shape(BEZIER, 9, 5), far[1:], 10_001, 0, "2 0"),
                (Shape(CARDINAL, 9, 3, 65), far[1:], 10_001, 0, "2 0"),
                (Shape(CARDINAL, 8, 3, 65), far[1:], 10_001, 0, "24 0"),
                (Shape(BEZIER, 8, 5), far[1:], 10_001, 0, "3 0"), (good, far[1:], 10_001, 0, "7 0"),
                (good, far, 10_001, 0, "8 3"), (good, line, 10_001, 0, "20 0"), (good, line, endless, endless, "20 0"),
                (good, line, 1, 5, "22 0"), (good, line, 1, 6, "21 0"), (good, line, 1, endless, "21 0"),
                (good, line, 2, endless, "9 0")):
            self.assertEqual(answer(cut, shape, controls, [], tolerance, most), f"refused {text}")


class Strays(unittest.TestCase):
    """Document 02, request 13: points found again, and bounds that nothing smaller could take the place of."""

    def setUp(self):
        self.dice = Dice(SEED)

    def test_found_again(self):
        for _ in range(60):
            shape = self.dice.shape(ALL_BASES, 3, 10)._replace(parameter=self.dice.below(65))
            controls = self.dice.numbers(shape.count)
            outline = formula_points(shape, controls)
            for more in range(4):
                deeper = formula_points(shape._replace(depth=shape.depth + more), controls)
                for axis in AXES:
                    self.assertEqual(deeper[axis::2 << more], outline[axis::2])

    def test_parabolas_meet_it(self):
        for basis, parameter in KINDS:
            span = cubic(basis, parabola(basis, 7, -3, 20, parameter), parameter)
            second = 20 * Fraction(parameter, 64).numerator if parameter else 20
            self.assertEqual(differences(span), (second, second))
            for depth in range(DEEPEST + 1):
                for part in range(2 ** depth):
                    piece = cubic_over(span, Fraction(part, 2 ** depth), Fraction(1, 2 ** depth))
                    self.assertEqual(piece_strays(piece)[0], bound(Fraction(second), depth))

    def test_depths_of_a_file(self):
        file = file_of(Shape(BEZIER, 1, 7), [0, 0, 0, 0, 8, 8, 8, 8, 8, 8, 9, 12, 8, 16])
        self.assertEqual([*depths(file)], [
            "span 0, straight",
            "span 1, second difference 4: strays at most  3.50  1.25  0.69  0.55  0.52  0.51  0.51  0.51  0.51",
            "curved spans, second difference 4: strays at most  3.50  1.25  0.69  0.55  0.52  0.51  0.51  0.51  0.51"])
        self.assertEqual([*depths(file[:-1])], ["refused 13 0"])

    def test_depths_of_a_taut_file(self):
        """The second differences are those of the file's own parameter: 4, 2 and 1 a third of it."""
        for parameter, figures in ((64, "4: strays at most  3.50  1.25"), (32, "2: strays at most  2.00  0.88"),
                                   (0, "2: strays at most  2.00  0.88"), (16, "1: strays at most  1.25  0.69")):
            told = [*depths(file_of(Shape(CARDINAL, 1, 4, parameter), [0, 12, 0, 0, 1, 0, 1, 12]))]
            self.assertTrue(told[0].startswith(f"span 0, second difference {figures}"))
        self.assertEqual([*depths(file_of(Shape(CARDINAL, 1, 4, 65), [0] * 8))], ["refused 24 0"])

    def test_nothing_smaller_would_do(self):
        """Five eighths, the smaller second difference, more than a quarter less with each depth, and no half for rounding."""
        for basis, parameter in KINDS:
            tried = [(differences(span), depth, *piece_strays(piece))
                     for span, depth, piece in chords(self.dice, basis, parameter)]
            for smaller in (lambda first, last, depth: Fraction(5, 6) * bound(max(first, last), depth),
                            lambda first, last, depth: bound(min(first, last), depth),
                            lambda first, last, depth: bound(max(first, last), depth) * Fraction(7, 8) ** depth):
                passed = [depth for (first, last), depth, exact, _ in tried if exact > smaller(abs(first), abs(last), depth)]
                self.assertGreater(max(passed), 0)
            self.assertTrue(any(rounded > bound(max(map(abs, both)), depth) for both, depth, _, rounded in tried))
            self.assertTrue(any(stray.kind == "rounded" and stray.far > stray.most - HALF
                                for stray in by_tolerance(self.dice, basis, parameter)))


class RecordFile(unittest.TestCase):
    def test_listing(self):
        file = file_of(Shape(BEZIER, 1, 4), [0, 0, 0, 8, 8, 8, 8, 0])
        self.assertEqual(listing(file), ["1 1 1 3", "0 0 0", "1 4 6", "2 8 0"])

    def test_cut_listing(self):
        file = file_of(Shape(BEZIER, 1, 4), [0, 0, 0, 8, 8, 8, 8, 0])
        self.assertEqual(cut_listing(file, 6, 0), ["1 6 1 2 0", "0 0 0", "1 8 0"])
        self.assertEqual(cut_listing(file, 5, 1), ["1 5 1 3 1", "0 0 0", "1 4 6", "2 8 0"])
        self.assertEqual(cut_listing(file, 5, 0), ["refused 22 0"])
        self.assertEqual(cut_listing(file, 0, 6), ["refused 21 0"])
        self.assertEqual(cut_listing(file, 10_001, 6), ["refused 20 0"])
        self.assertEqual(cut_listing(file[:-1], 10_001, 6), ["refused 13 0"])

    def test_order_of_refusals(self):
        good = file_of(Shape(BEZIER, 1, 4), [0] * 8)
        for file, text in ((b"", "refused 3 0"), (bytes(769), "refused 3 0"), (good[:-1], "refused 13 0"),
                           (good[:36] + b"\2\1\0\1" + good[40:], "refused 14 3"),
                           (good[:24] + b"\2\1\0\0" + good[28:], "refused 15 2"),
                           (bytes(48), "refused 1 0"), (good[:36], "refused 3 0")):
            self.assertEqual(listing(file), [text])

    def test_parameters(self):
        """The byte is the shape's parameter as it stands; the listing's first line does not say it."""
        for parameter, middle in ((0, 9), (1, 8), (16, 9), (32, 9), (64, 10)):
            shape, controls = Shape(CARDINAL, 1, 4, parameter), [JUNK] * 8
            file = file_of(shape, [0, 0, 8, -8, 8, -8, 0, 0])
            self.assertEqual(read(file, controls), shape)
            self.assertEqual(listing(file), ["3 1 1 3", "0 8 -8", f"1 {middle} {-middle}", "2 8 -8"])

    def test_bytes_2_and_3(self):
        """Byte 2 is looked at by the record's own basis, and then against record 0's."""
        heads = {"5": b"\3\1\5\0", "6": b"\3\1\6\0", "0": b"\3\1\0\0", "!": b"\3\1\5\1", "A": b"\3\1\x41\0",
                 "D": b"\3\x09\x41\0", "b": b"\2\1\0\0", "B": b"\2\1\5\0", "n": b"\0\1\0\0", "N": b"\0\1\5\0"}
        for letters, text in (("5556", "15 3"), ("5505", "15 2"), ("0055", "15 2"), ("555!", "14 3"), ("55B5", "14 2"),
                              ("5b55", "15 1"), ("bb5b", "15 2"), ("bbBb", "14 2"), ("B555", "14 0"), ("N555", "14 0"),
                              ("n555", "15 1"), ("56B5", "15 1"), ("5B65", "14 1"), ("AAAA", "24 0"), ("AAA5", "15 3"),
                              ("DDDD", "2 0"), ("AAA", "24 0"), ("555", "3 0"), ("nnnn", "1 0")):
            file = b"".join(heads[letter] + bytes(8) for letter in letters)
            self.assertEqual(listing(file), [f"refused {text}"])

    def test_short_controls(self):
        with self.assertRaises(Refusal) as refused:
            read(file_of(Shape(BEZIER, 1, 4), [4000001] * 8), [0] * 7)
        self.assertEqual(refused.exception.number, 7)


class WatchedScript(Script):
    """A script that sees to it that a refusal leaves everything as it was."""

    def keep(self, record):
        before = self.standing()
        super().keep(record)
        if record[0] in CALLS and self.last != ACCEPTED:
            assert before == self.standing()

    def standing(self):
        bench = self.bench
        return (bench.shape, list(bench.controls), list(bench.points), list(bench.preview), bench.state, bench.file)


class Trials(unittest.TestCase):
    def test_refusals_change_nothing(self):
        script = WatchedScript(SEED)
        for section in (defects.any_defects, edits.rooms, drawings.states, files.files, refusals, too_deep,
                        tautness.refusals, taut_edits.stale_points, taut_files.damaged_files,
                        loops.refusals, loops.previews, loop_edits.least_and_most, loop_files.damaged_files):
            section(script)
        self.assertGreater(sum(times for (_, number), times in script.tally.items() if number != ACCEPTED), 700)

    def test_bad_records(self):
        lend, show = encode(trials.LEND, (8, 2, 2, JUNK)), encode(trials.SHOW_POINTS, ())
        for bad in (encode(7, ()), encode(0, ()), encode(trials.LEND, (161,)), encode(trials.LEND, (-1,)),
                    encode(trials.LEND, (0, 33_001)), encode(trials.LEND, (0, 0, 11_001)),
                    encode(trials.SET_CONTROL, (8, 0)), encode(trials.SET_POINT, (0, 2 ** 31)),
                    encode(trials.MORE_FILE, (41,)), encode(trials.MORE_FILE, (0,)),
                    encode(trials.CUT, (-1, 0)), encode(trials.CUT, (0, -1)),
                    encode(trials.MOVE, (-1, 0, 0)), encode(trials.MOVE, (0, 0, -2 ** 31 - 1)),
                    encode(trials.SET_STATE, (0, 0, 0, 0, 0, 2)), encode(trials.SET_SHAPE, (1, 2 ** 32, 4)),
                    encode(trials.SET_SHAPE, (3, 0, 4, 2 ** 32)), encode(trials.SET_SHAPE, (1, 0, 4, -1))):
            self.assertEqual(list(trials.play(lend + show + bad + show)), [f"{JUNK} {JUNK}", "bad record 2"])
        self.assertEqual(list(trials.play(lend + show[:-1])), ["bad record 1"])

    def test_parameters(self):
        """The shape's fourth number comes back after an edit and with a file, as it came."""
        lend = encode(trials.LEND, (10, 4, 0, 0))
        for basis, parameter in ((CARDINAL, 0), (CARDINAL, 7), (CARDINAL, 64), (B_SPLINE, 2 ** 32 - 1)):
            shape = encode(trials.SET_SHAPE, (basis, 0, 4, parameter))
            edits_of_it = encode(trials.MOVE, (0, 0, 0)) + encode(trials.INSERT, (4, 0, 0)) + encode(trials.REMOVE, (0,))
            self.assertEqual(list(trials.play(lend + shape + edits_of_it)), [
                f"edited {basis} 0 4 0 1 4 {parameter}", "refused 9 0", "refused 6 0"])
        script = Script(SEED)
        script.lend(8, 0)
        script.read(Shape(CARDINAL, 2, 4, 48), [0] * 8)
        self.assertEqual(script.lines, ["read 3 2 4 48"])

    def test_longest_lists(self):
        shows = [encode(op, ()) for op in (trials.SHOW_CONTROLS, trials.SHOW_POINTS, trials.SHOW_PREVIEW)]
        shown = trials.play(encode(trials.LEND, (160, 33_000, 11_000, -2 ** 31)) + b"".join(shows))
        self.assertEqual([len(line.split()) for line in shown], [160, 33_000, 11_000])

    def test_shows(self):
        file = encode(trials.SHOW_CONTROLS, ()) + encode(trials.LEND, (1, 0, 2, -1)) + encode(trials.SHOW_PREVIEW, ())
        self.assertEqual(list(trials.play(file)), ["", "13830554455654793216 13830554455654793216"])


class Sums(unittest.TestCase):
    def test_every_sum(self):
        self.assertEqual("".join(f"{line}\n" for line in sums()), SUMS)


if __name__ == "__main__":
    unittest.main()
