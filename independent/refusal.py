"""Refusals: the numbers of document 01, "Refusal numbers", and of document 02, and how a call gives one."""

BASIS = 1
DEPTH = 2
COUNT = 3
NOT_OFFERED = 4
PLACE = 5
RECORDS = 6
CONTROLS_SHORT = 7
LIMITS = 8
POINTS_SHORT = 9
NOT_FINITE = 10
NUMBER_LIMITS = 11
STEP_ORDER = 12
FILE_LENGTH = 13
SPARE_BYTES = 14
UNLIKE_FIRST = 15
TOLERANCE = 20
NOT_FLAT = 21
CUTS = 22
PARAMETER = 24


class Refusal(Exception):
    """A call turned away: its number, and its place (0 unless the table says)."""

    def __init__(self, number: int, place: int = 0):
        super().__init__(number, place)
        self.number = number
        self.place = place

    def __str__(self) -> str:
        return f"refused {self.number} {self.place}"
