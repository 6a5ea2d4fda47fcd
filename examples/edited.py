"""Draws a closed loop before and after an edit: `python3 examples/edited.py NAME BEFORE.rec AFTER.rec > NAME-edit.svg`.

The two record files differ by one record that was moved, put in or taken out; which one
it was is found from them, and the outlines are in the listings beside them.  The spans
that the edit works afresh are drawn in red, counted round the new loop, and each of the
others has to have the points that it had before, in place or carried by one span.  Each
span has its number: outside the outline where the edit changes it, inside where not.
"""

import sys
from math import hypot
from pathlib import Path

sys.dont_write_bytecode = True

from beside import read  # noqa: E402
from facets import line, text  # noqa: E402
from picture import INK, JOINT, LINE, PAPER, WOOD  # noqa: E402
from tautness import MIDDLE, PLAIN, SMALL, records_of  # noqa: E402

WIDTH, MARGIN, HEAD, LEGEND, CAPTION = 640, 44, 48, 62, 112
LOOP = 5
# The spans that an edit works afresh: from three below its place on, one fewer where a record is taken out.
BELOW, MOST = 3, 4
# The measure under the piece, in millimetres; how far from the outline a span's number stands.
BAR, ASIDE = 20, 12
KEPT = f'stroke="{LINE}" stroke-width="1.6" stroke-linejoin="round" stroke-linecap="round"'
FRESH = f'stroke="{JOINT}" stroke-width="2.4" stroke-linejoin="round" stroke-linecap="round"'
GONE = f'stroke="{INK}" stroke-width="1.1" stroke-dasharray="4 3"'
POLYGON = f'stroke="{INK}" stroke-width="0.6" stroke-dasharray="1 3"'


class Outline:
    """A loop: its records and its listed points, in micrometres, and how many steps its spans have."""

    def __init__(self, path):
        file = path.read_bytes()
        self.records = records_of(file)
        (basis, depth, spans, _), self.points = read(path.with_suffix(".txt"))
        self.steps = 2 ** depth
        check(basis == file[0] == LOOP and spans == len(self.records), f"{path} is no loop with its listing beside it")
        check(self.points[0] == self.points[-1], f"{path}: the outline does not end where it starts")

    def span(self, number):
        """All the points of a span, those at its two ends as well."""
        return self.points[number * self.steps:(number + 1) * self.steps + 1]


def check(holds, words):
    if not holds:
        sys.exit(words)


def edit(old, new):
    """The place of the one record by which two lists differ, and how many records the list gained: 1, 0 or -1."""
    gained = len(new) - len(old)
    place = next((at for at, (before, after) in enumerate(zip(old, new)) if before != after), min(len(old), len(new)))
    put = new[place:place + (gained >= 0)]
    check(old != new and old[:place] + put + old[place + (gained <= 0):] == new, "the two files do not differ by one record")
    return place, gained


def run_of(place, gained, spans):
    """The spans worked afresh, in order, counted round the new loop."""
    return [(place - BELOW + step) % spans for step in range(MOST - (gained < 0))]


def kept_from(place, gained, spans):
    """Each other span of the new loop, and the span of the old one that held its points."""
    others = sorted({*range(spans)} - {*run_of(place, gained, spans)})
    return {span: span - gained if span >= place else span for span in others}


def page(*outlines):
    """For a height on the page a map from micrometres, y up; its scale; and the heights where the outlines start and the last one ends."""
    xs, ys = zip(*(mark for outline in outlines for mark in (*outline.points, *outline.records)))
    scale = (WIDTH - 2 * MARGIN) / (max(xs) - min(xs))
    tall = (max(ys) - min(ys)) * scale
    tops = [HEAD, HEAD + tall + HEAD, 2 * (HEAD + tall)]
    return lambda top: lambda x, y: (MARGIN + (x - min(xs)) * scale, top + (max(ys) - y) * scale), scale, tops


def inner_side(points):
    """1 where the loop goes round clockwise, y up, and -1 where it goes the other way: the inside is to its right or its left."""
    return 1 if sum(x * w - y * z for (x, y), (z, w) in zip(points, points[1:])) < 0 else -1


def number(outline, span, place, look):
    """A span's number, beside its middle: inside the outline where the span is kept."""
    points = outline.span(span)
    (a, b), (x, y), (c, d) = (place(*point) for point in (points[0], points[outline.steps // 2], points[-1]))
    long, side = hypot(c - a, d - b), inner_side(outline.points) * (ASIDE if look == KEPT else -ASIDE)
    colour = JOINT if look == FRESH else INK
    at = f'x="{x - (d - b) / long * side:.1f}" y="{y + (c - a) / long * side + 4:.1f}"'
    return f'<text {at} {MIDDLE} font-family="Georgia, serif" font-size="11" fill="{colour}">{span}</text>'


def ring(x, y, fill=PAPER, edge=INK):
    return f'<circle cx="{x:.2f}" cy="{y:.2f}" r="3" fill="{fill}" stroke="{edge}"/>'


def diamond(x, y):
    return line([(x - 5, y), (x, y - 5), (x + 5, y), (x, y + 5), (x - 5, y)], f'stroke="{LINE}"', PAPER)


def drawn(outline, place, marked, looks, gone=()):
    """One loop: its wood, what is gone, its spans with their looks and numbers, its records, one marked, and its first and last point."""
    rings = [place(*record) for record in outline.records]
    yield line((place(*point) for point in outline.points), 'stroke="none"', WOOD)
    yield line([*rings, rings[0]], POLYGON)
    for points in gone:
        yield line((place(*point) for point in points), GONE)
    for span, look in enumerate(looks):
        yield line((place(*point) for point in outline.span(span)), look)
        yield number(outline, span, place, look)
    for at, (x, y) in enumerate(rings):
        yield ring(x, y, *[JOINT, JOINT] if at == marked else [])
    yield diamond(*place(*outline.points[0]))


def counts(words, outline, top):
    """Over a loop, how much there is of it."""
    return text(MARGIN, top - 16, f"{words}: {len(outline.records)} records and spans, {len(outline.points)} points", SMALL)


def ranges(numbers):
    """`0 to 4 and 9 to 15`."""
    starts = [at for at in numbers if at - 1 not in numbers]
    ends = [at for at in numbers if at + 1 not in numbers]
    return " and ".join(f"{start}" if start == end else f"{start} to {end}" for start, end in zip(starts, ends))


def captions(title, place, gained, fresh, kept):
    """What the edit was, its run, and what became of the other spans."""
    yield f"{title}: {('a record taken out', 'a record moved', 'a record put in')[gained + 1]} at place {place}", PLAIN
    around = ", going round the end" if fresh != sorted(fresh) else ""
    yield f"Worked afresh: {len(fresh)} spans from span {fresh[0]} on{around}: {', '.join(map(str, fresh))}.", SMALL
    stay, carried = ([span for span in kept if (kept[span] == span) == same] for same in (True, False))
    held = f"spans {ranges(carried)} hold the points that spans {ranges([kept[span] for span in carried])} held" if carried else "none"
    yield f"Kept in place: {f'spans {ranges(stay)}' if stay else 'none'}. Carried by one: {held}.", SMALL
    ends = "worked afresh" if {0, len(fresh) + len(kept) - 1} & {*fresh} else "kept"
    yield f"The last point is the first one again: both are {ends}.", SMALL


def legend(top, scale, gained):
    """What the lines and the marks are, and how long a measure is."""
    lines = ((FRESH, "worked afresh"), (KEPT, "kept"), (GONE, "as it was"))
    marks = ((ring, "a record"), (lambda x, y: ring(x, y, JOINT, JOINT), ("the record taken out", "the record moved", "the new record")[gained + 1]),
             (diamond, "first and last point"))
    for column, ((look, words), (mark, meaning)) in enumerate(zip(lines, marks)):
        left = MARGIN + 10 + column * 145
        yield line([(left - 10, top + 10), (left + 10, top + 10)], look)
        yield text(left + 18, top + 14, words, SMALL)
        yield mark(left, top + 34)
        yield text(left + 18, top + 38, meaning, SMALL)
    right, long = WIDTH - MARGIN, BAR * 1000 * scale
    yield line([(right - long, top + 15), (right - long, top + 20), (right, top + 20), (right, top + 15)], f'stroke="{INK}"')
    yield text(right - long / 2, top + 38, f"{BAR} mm", f"{MIDDLE} {SMALL}")


def svg(name, before, after):
    title = name.replace("-", " ").capitalize()
    old, new = Outline(Path(before)), Outline(Path(after))
    place, gained = edit(old.records, new.records)
    fresh, kept = run_of(place, gained, len(new.records)), kept_from(place, gained, len(new.records))
    check(old.steps == new.steps and all(new.span(span) == old.span(was) for span, was in kept.items()),
          "a span that is not worked afresh has other points than before")
    on_page, scale, (first, second, end) = page(old, new)
    height = round(end) + LEGEND + CAPTION
    yield f'<svg xmlns="http://www.w3.org/2000/svg" width="{WIDTH}" height="{height}" viewBox="0 0 {WIDTH} {height}">'
    yield f"<title>{title}: an edit of a closed loop</title>"
    yield f'<rect width="{WIDTH}" height="{height}" rx="6" fill="{PAPER}"/>'
    old_looks = [KEPT if span in kept.values() else GONE for span in range(len(old.records))]
    new_looks = [KEPT if span in kept else FRESH for span in range(len(new.records))]
    gone = [old.span(span) for span, look in enumerate(old_looks) if look == GONE]
    yield counts("before", old, first)
    yield from drawn(old, on_page(first), place if gained < 1 else None, old_looks)
    yield counts("after", new, second)
    yield from drawn(new, on_page(second), place if gained > -1 else None, new_looks, gone)
    yield from legend(end + 16, scale, gained)
    for row, (words, look) in enumerate(captions(title, place, gained, fresh, kept)):
        yield text(WIDTH / 2, height - 86 + 22 * row, words, f"{MIDDLE} {look}")
    yield "</svg>"


if __name__ == "__main__":
    sys.stdout.reconfigure(encoding="utf-8", newline="\n")
    for row in svg(*sys.argv[1:]):
        print(row)
