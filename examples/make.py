"""Writes the example record files beside this script: `python3 examples/make.py`.

The pieces are measured in millimetres, x to the right and y up; a record holds
whole micrometres.
"""

import struct
from functools import partial
from pathlib import Path

BEZIER, B_SPLINE, CARDINAL, HERMITE, LOOP = 1, 2, 3, 4, 5

# Distance of the inner controls along the tangents of a quarter circle, as a part of its radius.
QUARTER = 0.5523


def line(start, end):
    """The three Bezier records after `start` that draw a straight edge."""
    return [start, end, end]


def mirrored(records):
    """The same records on the other side of x = 0, in the other order."""
    return [(-x, y) for x, y in reversed(records)]


def other_hand(basis, depth, records):
    """The same piece on the other side of x = 0, record by record, so that like numbers name mirrored points."""
    return basis, depth, [(-x, y) for x, y in records]


def arched_door():
    """A door leaf, 826 mm by 2040 mm, under a half-round arch."""
    half, spring, top = 413, 1627, 2040
    reach = QUARTER * half
    foot, jamb, crown = (half, 0), (half, spring), (0, top)
    right_arch = [(half, spring + reach), (reach, top), crown]
    left_arch = mirrored([jamb, *right_arch])[1:]
    return BEZIER, 4, [(-half, 0), *line((-half, 0), foot), *line(foot, jamb), *right_arch, *left_arch,
                       *line((-half, spring), (-half, 0))]


def left_door():
    """The left-hand door of a pair, 726 mm by 2040 mm, under one basket arch.

    x is from the middle line, with 3 mm between the two doors.  In x, points 4 and
    12 of the foot and the middle points of both spans of the arch, 40 and 56, are
    exact halves of a micrometre.  A half to the greater number would cut the two
    doors a micrometre apart there; a half away from zero does not.
    """
    hinges, meeting, spring, top = -727.5, -1.5, 1620, 2040
    start, foot, jamb, crown = (meeting, 0), (hinges, 0), (hinges, spring), (meeting, top)
    arch = [(hinges, 1731.5), (-651.5, 1838), (-515, 1917),     # up from the jamb to the haunch
            (-378.5, 1996), (-194.5, top), crown]               # and over to the middle
    return BEZIER, 4, [start, *line(start, foot), *line(foot, jamb), *arch, *line(crown, start)]


def right_door():
    """The right-hand door of the pair: the left-hand one in the mirror."""
    return other_hand(*left_door())


def vase_splat():
    """The splat of a chair back, 430 mm high, shaped like a vase."""
    right = [
        (62, 0), (62, 26), (26, 34), (26, 66),        # foot, drawn in to the stem
        (26, 122), (92, 150), (92, 222),              # belly
        (92, 282), (30, 286), (30, 338),              # shoulder and neck
        (30, 380), (78, 382), (78, 430),              # lip, flared to meet the rail
    ]
    left = mirrored(right)
    return BEZIER, 4, [*right, *line(right[-1], left[0]), *left[1:], *line(left[-1], right[0])]


def bracket():
    """A shelf bracket, 220 mm by 260 mm: each joint and the tangent there; none at a corner."""
    corner = (0, 0)
    joints = [
        ((0, 0), corner), ((220, 0), corner),         # under the shelf
        ((220, -24), corner),                         # square nose
        ((150, -44), (-130, 10)),                     # ogee: the hollow
        ((92, -118), (-70, -150)),                    # and where it turns
        ((34, -196), (-80, -60)),                     # into the swell
        ((24, -260), corner),                         # toe
        ((0, -260), corner), ((0, 0), corner),        # along the wall
    ]
    return HERMITE, 4, [record for joint in joints for record in joint]


def scalloped_apron():
    """The lower edge of a table's apron, 900 mm long: five lobes, each a quarter as deep as it is wide."""
    lobe = [(0.0, 0.0), (0.07, -0.56), (0.24, -0.91), (0.5, -1.0), (0.76, -0.91), (0.93, -0.56)]
    edge, x = [], 0
    for width in (150, 180, 240, 180, 150):
        edge += [(x + across * width, down * width / 4) for across, down in lobe]
        x += width
    # The curve passes through every record but the first and the last.
    return CARDINAL, 3, [(-10, -21), *edge, (x, 0), (x + 10, -21)]


def cabriole_leg():
    """The leg of a footstool, 320 mm high: from the post down the knee to the foot, and up the back."""
    front = [(0, 320), (0, 298), (-5, 274), (-24, 254), (-41, 224), (-43, 188), (-31, 148), (-11, 108), (4, 74),
             (0, 48), (-22, 34), (-44, 24)]
    foot = [(-44, 10), (-26, 1), (4, 0), (34, 1), (56, 10)]
    back = [(58, 26), (50, 48), (46, 78), (45, 112), (41, 150), (34, 184), (33, 216), (44, 244), (57, 268),
            (60, 296), (60, 320)]
    return CARDINAL, 4, [(0, 342), *front, *foot, *back, (60, 344)]


def chair_back(parameter):
    """A balloon back over the seat, 450 mm by 500 mm at its records, from its left foot round the crest to its right.

    Five records a side and one at the crest are all it has, so that the curve between
    them shows its parameter, in 64ths.  At the widest place it goes straight up: the
    waist and the shoulder lie in one plumb line.
    """
    left = [(-200, -70),                              # under the seat, for the direction at the foot alone
            (-185, 0), (-145, 130), (-225, 310),      # foot, waist, and the widest place
            (-145, 452)]                              # shoulder
    return CARDINAL, 5, [*left, (0, 500), *mirrored(left)], parameter


def crest_rail():
    """The top rail of a chair back, half a metre wide; its first three records come again to join the ends."""
    right = [(60, 104), (130, 97), (190, 82), (232, 86), (268, 78), (266, 44), (226, 36), (160, 34), (90, 26),
             (40, 14)]
    around = [(0, 108), *right, (0, 10), *mirrored(right)]
    return B_SPLINE, 4, around + around[:3]


def mirror_frame():
    """The frame of a mirror, 600 mm by 800 mm: a crest over a long oval, and a drop under it.

    The records run round, the first at the middle of the crest; none comes again.
    """
    right = [(78, 388), (116, 334), (194, 338),                        # crest, and the hollow beside it
             (266, 276), (296, 160), (303, 20), (292, -124), (250, -248),
             (172, -324), (88, -340), (44, -382)]                      # lower hollow, into the drop
    return LOOP, 4, [(0, 411), *right, (0, -404), *mirrored(right)]


def drawer_handle():
    """A bow handle, 128 mm by 34 mm, as it stands on the drawer's front: over the bow, round a foot, and back under it.

    Three records of a foot lie in one line, so that it sits flat at its middle.
    """
    right = [(20, 34), (46, 32), (63.5, 20),          # bow
             (65.3, 0), (55.6, 0), (45.9, 0),         # foot
             (40, 20), (14, 25)]                      # under the bow
    return LOOP, 4, [*mirrored(right[:1]), *right, *mirrored(right[1:])]


def drawer_handle_edited():
    """The same handle with a swell in the middle of its bow: one record put in at place 1."""
    basis, depth, records = drawer_handle()
    return basis, depth, [records[0], (0, 40), *records[1:]]


def stair_string():
    """The string of a stair, laid out flat: the board that carries the treads, 13 risings of 200 mm and 12 goings of 240 mm.

    It is level at the foot and at the landing and steepest between, where the steps
    wind.  Each edge is one span of four metres; the ends are cut plumb.  The upper edge
    bends tighter than the lower at the foot and wider at the landing, so that the board
    stays nearly 300 mm wide.
    """
    going, rise, plumb = 12 * 240, 13 * 200, 300
    easing, tighter = 1000, 200
    foot, landing = (0, 0), (going, rise)
    over_foot, over_landing = (0, plumb), (going, rise + plumb)
    lower = [(easing, 0), (going - easing, rise), landing]
    upper = [(going - easing - tighter, rise + plumb), (easing - tighter, plumb), over_foot]
    return BEZIER, 8, [foot, *lower, *line(landing, over_landing), *upper, *line(over_foot, foot)]


def stair_string_depth_6():
    """The same string in 64 steps a span, where it shows facets."""
    basis, _, records = stair_string()
    return basis, 6, records


PIECES = {
    "arched-door": arched_door,
    "bracket": bracket,
    "cabriole-leg": cabriole_leg,
    **{f"chair-back-{parameter}": partial(chair_back, parameter) for parameter in (16, 32, 48, 64)},
    "crest-rail": crest_rail,
    "drawer-handle": drawer_handle,
    "drawer-handle-edited": drawer_handle_edited,
    "left-door": left_door,
    "mirror-frame": mirror_frame,
    "right-door": right_door,
    "scalloped-apron": scalloped_apron,
    "stair-string": stair_string,
    "stair-string-depth-6": stair_string_depth_6,
    "vase-splat": vase_splat,
}


def record_file(basis, depth, records, parameter=0):
    """The bytes of a piece; a cardinal one may have a parameter, in 64ths, and 0 is one half."""
    return b"".join(struct.pack("<BBBxii", basis, depth, parameter, round(x * 1000), round(y * 1000)) for x, y in records)


if __name__ == "__main__":
    for name, piece in PIECES.items():
        (Path(__file__).parent / f"{name}.rec").write_bytes(record_file(*piece()))
