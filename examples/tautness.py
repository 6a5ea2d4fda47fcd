"""Draws one cardinal piece at several parameters: `python3 examples/tautness.py NAME NAME-16.rec NAME-32.rec .. > NAME.svg`.

The parameter is byte 2 of a record file, in 64ths, and the outline is in the listing
beside it.  A ring marks each record, and the dotted lines go straight from record to
record; what lies between the tautest outline and the slackest is filled.
"""

import struct
import sys
from math import ceil, hypot
from pathlib import Path

sys.dont_write_bytecode = True

from beside import read  # noqa: E402
from facets import line, text  # noqa: E402
from picture import INK, JOINT, LINE, PAPER, WOOD  # noqa: E402

WIDTH, MARGIN, CAPTION, LEGEND = 560, 40, 60, 320
# One half, in 64ths; a byte of zero means it as well.
HALF = 32
# The measure under the piece, in millimetres.
BAR = 100
# The outlines, from the first file to the last.
LOOKS = [f'stroke="{colour}" stroke-width="{width}" stroke-dasharray="{dashes}" stroke-linejoin="round"'
         for colour, width, dashes in ((JOINT, 1.2, "none"), (LINE, 1.8, "none"), (LINE, 1.2, "9 3"), (JOINT, 1.2, "3 3"))]
STRAIGHT = f'stroke="{INK}" stroke-width="0.8" stroke-dasharray="1 3"'
SMALL, PLAIN = 'font-size="12"', 'font-size="15"'
MIDDLE, RIGHT = 'text-anchor="middle"', 'text-anchor="end"'


def outline(path):
    """A file's parameter, how many steps its spans have, and its listed points."""
    head, points = read(path.with_suffix(".txt"))
    return path.read_bytes()[2] or HALF, 2 ** head[1], points


def records_of(file):
    """The records, in micrometres."""
    return list(struct.iter_unpack("<4xii", file))


def across(point, start, end):
    """How far a point is from the straight line through two others."""
    x, y = end[0] - start[0], end[1] - start[1]
    return abs(x * (point[1] - start[1]) - y * (point[0] - start[0])) / hypot(x, y)


def greatest_off(steps, points):
    """The most that a point is off the straight line between the records where its span starts and ends."""
    return max(across(point, *points[at - at % steps::steps][:2]) for at, point in enumerate(points[:-1]))


def page(marks):
    """A map from micrometres to the page, y up, its scale, and the page's height."""
    xs, ys = zip(*marks)
    scale = (WIDTH - 2 * MARGIN) / (max(xs) - min(xs))
    height = round((max(ys) - min(ys)) * scale) + 2 * MARGIN + CAPTION
    return lambda x, y: (MARGIN + (x - min(xs)) * scale, MARGIN + (max(ys) - y) * scale), scale, height


def drawn(outlines, records, place):
    """What lies between the first outline and the last, the straight lines, the outlines, and the records."""
    paths = [[place(*point) for point in points] for _, _, points in outlines]
    rings = [place(*record) for record in records]
    yield line([*paths[0], *reversed(paths[-1])], 'fill-opacity="0.6"', WOOD)
    yield line(rings[1:-1], STRAIGHT)
    for path, look in zip(paths, LOOKS):
        yield line(path, look)
    for x, y in rings:
        yield f'<circle cx="{x:.2f}" cy="{y:.2f}" r="3" fill="{PAPER}" stroke="{INK}"/>'


def legend(outlines, top):
    """Of each outline its line, its parameter, and how far it stands off, in millimetres rounded up to tenths."""
    left, right = (WIDTH - LEGEND) / 2, (WIDTH + LEGEND) / 2
    yield text(left + 44, top, "parameter", SMALL)
    yield text(right, top, "off the straight line, up to", f"{RIGHT} {SMALL}")
    for row, ((parameter, steps, points), look) in enumerate(zip(outlines, LOOKS), 1):
        y = top + 26 * row
        yield line([(left, y - 5), (left + 34, y - 5)], look)
        yield text(left + 44, y, f"{parameter}/64{' (one half)' if parameter == HALF else ''}", PLAIN)
        yield text(right, y, f"{ceil(greatest_off(steps, points) / 100) / 10} mm", f"{RIGHT} {PLAIN}")


def bar(scale, y):
    """How long a measure is."""
    half = BAR * 1000 * scale / 2
    yield line([(WIDTH / 2 + x, y + up) for x, up in ((-half, -5), (-half, 0), (half, 0), (half, -5))], f'stroke="{INK}"')
    yield text(WIDTH / 2, y + 18, f"{BAR} mm", f"{MIDDLE} {SMALL}")


def svg(name, *paths):
    title = name.replace("-", " ").capitalize()
    outlines = [outline(Path(path)) for path in paths]
    records = records_of(Path(paths[0]).read_bytes())
    place, scale, height = page([*records, *(point for _, _, points in outlines for point in points)])
    yield f'<svg xmlns="http://www.w3.org/2000/svg" width="{WIDTH}" height="{height}" viewBox="0 0 {WIDTH} {height}">'
    yield f"<title>{title}: its parameters</title>"
    yield f'<rect width="{WIDTH}" height="{height}" rx="6" fill="{PAPER}"/>'
    yield from drawn(outlines, records, place)
    yield from legend(outlines, height / 4)
    yield from bar(scale, height - MARGIN - CAPTION)
    yield text(WIDTH / 2, height - 44, f"{title}: the same records, and the outline at each parameter")
    yield text(WIDTH / 2, height - 22, "A ring is a record; the first and the last only give the ends their directions.",
               f"{MIDDLE} {SMALL}")
    yield "</svg>"


if __name__ == "__main__":
    sys.stdout.reconfigure(encoding="utf-8", newline="\n")
    for row in svg(*sys.argv[1:]):
        print(row)
