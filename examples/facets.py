"""Draws a Bezier piece at two depths: `python3 examples/facets.py NAME COARSE.txt FINE.txt < NAME.rec > NAME-facets.svg`.

Above is the whole piece.  Below is the stretch of its edge where the coarser cut strays
the most, larger across than along, as it looks to someone who sights along the edge.
The thin line there is the curve itself, worked out from the records; what lies between
it and the cut is filled, and a dot marks each point.
"""

import struct
import sys
from fractions import Fraction
from math import ceil, hypot

sys.dont_write_bytecode = True

from beside import read  # noqa: E402
from picture import INK, JOINT, LINE, PAPER, WOOD  # noqa: E402

PANEL, BOX, MARGIN, STRIP, CAPTION = 400, 320, 40, 150, 100
LEFT, TOP = (PANEL - BOX) // 2, MARGIN + BOX + MARGIN
WIDTH, HEIGHT, FOOT = 2 * PANEL, TOP + STRIP + CAPTION, TOP + STRIP
# The steps of the coarser depth that are shown below, how much larger across than along, and the wood over their ends.
STEPS, ACROSS, OVER = 3, 12, 22
# In how many parts of a step the curve is looked at for its stray, and in how many of the stretch it is drawn.
PARTS, DRAWN = 8, 96
# The two measures beside a stretch, in millimetres.
BAR_ALONG, BAR_ACROSS = 20, 1
CUT = f'stroke="{LINE}" stroke-width="1.2" stroke-linejoin="round"'
CURVE = f'stroke="{JOINT}" stroke-width="0.8"'
SMALL = 'font-size="12"'


def spans_of(file):
    """The four records of each span, in micrometres."""
    records = list(struct.iter_unpack("<4xii", file))
    return [records[first:first + 4] for first in range(0, len(records) - 1, 3)]


def curve(spans, spot):
    """The exact point of the curve at a spot from 0, its start, to the number of its spans, its end."""
    span = min(int(spot), len(spans) - 1)
    t = spot - span
    weights = (1 - t) ** 3, 3 * t * (1 - t) ** 2, 3 * t ** 2 * (1 - t), t ** 3
    return [sum(weight * number for weight, number in zip(weights, axis)) for axis in zip(*spans[span])]


def strays(spans, points, depth):
    """How far the curve is from each straight cut, on either axis, at the same fraction of the way."""
    def off(step, part):
        there = curve(spans, (step + part) / 2 ** depth)
        return max(abs(start + (end - start) * part - exact) for start, end, exact in zip(*points[step:step + 2], there))

    parts = [Fraction(part, PARTS) for part in range(PARTS)]
    return [max(off(step, part) for part in parts) for step in range(len(points) - 1)]


def stretch(far, depth):
    """The spots where the stretch starts and ends: around the greatest stray, within its span."""
    span, step = divmod(far.index(max(far)), 2 ** depth)
    first = min(max(step - STEPS // 2, 0), 2 ** depth - STEPS)
    return [span + Fraction(end, 2 ** depth) for end in (first, first + STEPS)]


def upright(points):
    """A map from micrometres to the box above, y up."""
    xs, ys = zip(*points)
    scale = BOX / max(max(xs) - min(xs), max(ys) - min(ys))
    left = (PANEL - (max(xs) - min(xs)) * scale) / 2
    return lambda x, y: (left + (x - min(xs)) * scale, MARGIN + (max(ys) - y) * scale)


def sighted(start, end):
    """A map from micrometres to the strip below, the start on its left and the end on its right; and its scale along."""
    long = hypot(end[0] - start[0], end[1] - start[1])
    ahead, aside, scale = (end[0] - start[0]) / long, (end[1] - start[1]) / long, BOX / long

    def place(x, y):
        x, y = x - start[0], y - start[1]
        return LEFT + (x * ahead + y * aside) * scale, TOP + OVER - (y * ahead - x * aside) * scale * ACROSS

    return place, scale


def line(points, look, fill="none"):
    path = " ".join(f"{x:.2f},{y:.2f}" for x, y in points)
    return f'<polyline points="{path}" fill="{fill}" {look}/>'


def text(x, y, words, look='text-anchor="middle" font-size="15"'):
    return f'<text x="{x:.0f}" y="{y:.0f}" font-family="Georgia, serif" {look} fill="{INK}">{words}</text>'


def above(points, ends):
    """The whole piece, with a ring around the stretch."""
    place = upright(points)
    yield line((place(*point) for point in points), CUT, WOOD)
    (x, y), (z, w) = (place(*end) for end in ends)
    yield f'<circle cx="{(x + z) / 2:.2f}" cy="{(y + w) / 2:.2f}" r="{hypot(z - x, w - y) / 2 + 4:.2f}" fill="none" stroke="{JOINT}"/>'


def below(cut, true):
    """The stretch: the wood over the cut, what lies between the cut and the curve, both lines, and the points."""
    yield line([(LEFT, TOP), *cut, (LEFT + BOX, TOP)], 'stroke="none"', WOOD)
    yield line([*cut, *reversed(true)], 'fill-opacity="0.4"', JOINT)
    yield line(cut, CUT)
    yield line(true, CURVE)
    for x, y in cut:
        yield f'<circle cx="{x:.2f}" cy="{y:.2f}" r="2.4" fill="{JOINT}"/>'


def legend(scale):
    """Under the stretch, on the left how long a millimetre is each way, and on the right what the lines are."""
    right, top = LEFT + BAR_ALONG * 1000 * scale, FOOT - BAR_ACROSS * 1000 * scale * ACROSS
    yield line([(LEFT, top), (LEFT, FOOT), (right, FOOT)], f'stroke="{INK}"')
    yield text(LEFT + 6, (top + FOOT) / 2, f"{BAR_ACROSS} mm", SMALL)
    yield text(right + 6, FOOT + 4, f"{BAR_ALONG} mm", SMALL)
    for up, look, words in ((18, CUT, "the cut"), (0, CURVE, "the curve")):
        yield line([(LEFT + BOX - 84, FOOT - up), (LEFT + BOX - 64, FOOT - up)], look)
        yield text(LEFT + BOX - 58, FOOT - up + 4, words, SMALL)


def panel(spans, points, depth, spots, far):
    """One depth: the piece, the stretch, and the figures."""
    first, last = (int(spot * 2 ** depth) for spot in spots)
    place, scale = sighted(points[first], points[last])
    width = (spots[1] - spots[0]) / DRAWN
    yield from above(points, (points[first], points[last]))
    yield from below([place(*point) for point in points[first:last + 1]],
                     [place(*curve(spans, spots[0] + part * width)) for part in range(DRAWN + 1)])
    yield from legend(scale)
    yield text(PANEL / 2, HEIGHT - 66, f"depth {depth}: {len(points):,} points")
    yield text(PANEL / 2, HEIGHT - 46, f"strays by up to {ceil(max(far))} micrometres")


def svg(name, coarse, fine, file):
    title = name.replace("-", " ").capitalize()
    spans = spans_of(file)
    depths = [(points, head[1]) for head, points in (read(coarse), read(fine))]
    far = [strays(spans, *listed) for listed in depths]
    spots = stretch(far[0], depths[0][1])
    yield f'<svg xmlns="http://www.w3.org/2000/svg" width="{WIDTH}" height="{HEIGHT}" viewBox="0 0 {WIDTH} {HEIGHT}">'
    yield f"<title>{title}: its facets</title>"
    yield f'<rect width="{WIDTH}" height="{HEIGHT}" rx="6" fill="{PAPER}"/>'
    for side, listed in enumerate(depths):
        yield f'<g transform="translate({side * PANEL} 0)">'
        yield from panel(spans, *listed, spots, far[side])
        yield "</g>"
    yield text(PANEL, HEIGHT - 18, f"{title}, and the ringed part of its edge: across, {ACROSS} times as large as along")
    yield "</svg>"


if __name__ == "__main__":
    sys.stdout.reconfigure(encoding="utf-8", newline="\n")
    for row in svg(*sys.argv[1:], sys.stdin.buffer.read()):
        print(row)
