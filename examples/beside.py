"""Draws two listings of one piece side by side: `python3 examples/beside.py NAME EVEN.txt CUT.txt > NAME-cut.svg`.

On the left are the points of the even outline, on the right those chosen by
tolerance, both at one scale; a dot marks each point.
"""

import sys

sys.dont_write_bytecode = True

from picture import INK, JOINT, LINE, PAPER, WOOD  # noqa: E402

PANEL, BOX, MARGIN, CAPTION = 330, 640, 40, 40


def read(path):
    """The numbers of a listing's first line, and its points in micrometres."""
    with open(path, encoding="ascii") as listing:
        head, *rows = ([int(word) for word in row.split()] for row in listing)
    return head, [(x, y) for _, x, y in rows]


def page(points):
    """A map from micrometres to a panel, y up, and the page's height."""
    xs, ys = zip(*points)
    scale = min((PANEL - MARGIN) / (max(xs) - min(xs)), BOX / (max(ys) - min(ys)))
    left = (PANEL - (max(xs) - min(xs)) * scale) / 2

    def place(point, panel):
        x, y = point
        return f"{panel * PANEL + left + (x - min(xs)) * scale:.2f}", f"{MARGIN + (max(ys) - y) * scale:.2f}"

    return place, round((max(ys) - min(ys)) * scale) + 2 * MARGIN + CAPTION


def drawn(points, place, panel):
    """The outline in its panel, and a dot at each of its points."""
    path = " ".join(",".join(place(point, panel)) for point in points)
    fill = WOOD if points[0] == points[-1] else "none"
    yield f'<polyline points="{path}" fill="{fill}" stroke="{LINE}" stroke-width="0.8" stroke-linejoin="round"/>'
    for x, y in (place(point, panel) for point in points):
        yield f'<circle cx="{x}" cy="{y}" r="1.5" fill="{JOINT}"/>'


def captions(title, even, cut, height):
    """What each panel shows, and how many points it has."""
    for panel, first, second in ((0, f"{title}, evenly at depth {even[1]}", f"{even[3]} points"),
                                 (1, f"by tolerance, {cut[1]} micrometres", f"{cut[3]} points, {cut[4]} cuts")):
        for words, up in ((first, 42), (second, 20)):
            yield (f'<text x="{panel * PANEL + PANEL // 2}" y="{height - up}" text-anchor="middle" '
                   f'font-family="Georgia, serif" font-size="15" fill="{INK}">{words}</text>')


def svg(name, even_path, cut_path):
    title = name.replace("-", " ").capitalize()
    (even, evenly), (cut, chosen) = read(even_path), read(cut_path)
    place, height = page(evenly)
    size = f'width="{2 * PANEL}" height="{height}"'
    yield f'<svg xmlns="http://www.w3.org/2000/svg" {size} viewBox="0 0 {2 * PANEL} {height}">'
    yield f"<title>{title} by tolerance</title>"
    yield f'<rect {size} rx="6" fill="{PAPER}"/>'
    yield from drawn(evenly, place, 0)
    yield from drawn(chosen, place, 1)
    yield from captions(title, even, cut, height)
    yield "</svg>"


if __name__ == "__main__":
    sys.stdout.reconfigure(encoding="utf-8", newline="\n")
    for row in svg(*sys.argv[1:]):
        print(row)
