"""Draws a listing: `python3 examples/picture.py NAME < NAME.txt > NAME.svg`.

The line joins the listed points; a dot marks each joint of two spans.  A piece
whose outline ends where it starts is shown as solid wood.  Listings one after
another are drawn on one page, each piece in its place.
"""

import sys

WIDTH, BOX, MARGIN, CAPTION = 480, 400, 40, 34
# The numbers on the first line of a listing; the others have three.
HEAD = 4
PAPER, WOOD, LINE, JOINT, INK = "#fbf9f4", "#ead9bd", "#5b3d22", "#b5482f", "#6b6258"


def read(listings):
    """Of each piece, how many points it is from joint to joint, and all its points in micrometres."""
    pieces = []
    for row in listings:
        numbers = [int(word) for word in row.split()]
        if len(numbers) == HEAD:
            pieces.append((2 ** numbers[1], []))
        else:
            pieces[-1][1].append(tuple(numbers[1:]))
    return pieces


def page(points):
    """A map from micrometres to the page, y up, and the page's height."""
    xs, ys = zip(*points)
    size = max(max(xs) - min(xs), max(ys) - min(ys))
    left = (WIDTH - (max(xs) - min(xs)) * BOX / size) / 2
    tall = (max(ys) - min(ys)) * BOX / size

    def place(point):
        x, y = point
        return f"{left + (x - min(xs)) * BOX / size:.2f}", f"{MARGIN + (max(ys) - y) * BOX / size:.2f}"

    return place, round(tall) + 2 * MARGIN + CAPTION


def drawn(steps, points, place):
    """One piece: its line, and a dot at each joint."""
    path = " ".join(",".join(place(point)) for point in points)
    fill = WOOD if points[0] == points[-1] else "none"
    yield f'<polyline points="{path}" fill="{fill}" stroke="{LINE}" stroke-width="1.5" stroke-linejoin="round"/>'
    for x, y in map(place, points[::steps]):
        yield f'<circle cx="{x}" cy="{y}" r="2.4" fill="{JOINT}"/>'


def svg(name, listings):
    title = name.replace("-", " ").capitalize()
    pieces = read(listings)
    together = [point for _, points in pieces for point in points]
    place, height = page(together)
    xs, ys = zip(*together)
    measure = f"{(max(xs) - min(xs)) / 1000:.0f} × {(max(ys) - min(ys)) / 1000:.0f} mm"
    text = f'font-family="Georgia, serif" font-size="15" fill="{INK}" y="{height - 20}"'
    yield f'<svg xmlns="http://www.w3.org/2000/svg" width="{WIDTH}" height="{height}" viewBox="0 0 {WIDTH} {height}">'
    yield f"<title>{title}</title>"
    yield f'<rect width="{WIDTH}" height="{height}" rx="6" fill="{PAPER}"/>'
    for steps, points in pieces:
        yield from drawn(steps, points, place)
    yield f'<text x="{MARGIN}" {text}>{title}</text>'
    yield f'<text x="{WIDTH - MARGIN}" text-anchor="end" {text}>{measure}</text>'
    yield "</svg>"


if __name__ == "__main__":
    sys.stdout.reconfigure(encoding="utf-8", newline="\n")
    for row in svg(sys.argv[1], sys.stdin):
        print(row)
