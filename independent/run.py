"""The command line, standard input to standard output: `python3 run.py` and one of

list | cut TOLERANCE MOST | trials | sums | make-trials [SEED] | misreadings [RECORD] | stray [SEED] | depths
"""

import sys

sys.dont_write_bytecode = True

from make_trials import make_trials  # noqa: E402
from make_trials.loop_misreadings import lines_changed  # noqa: E402
from record_file import cut_listing, listing  # noqa: E402
from stray import depths, report  # noqa: E402
from sums import sums  # noqa: E402
from trials import RECORD_BYTES, play  # noqa: E402

USAGE = ("usage: run.py list | cut TOLERANCE MOST | trials | sums | make-trials [SEED] | misreadings [RECORD] | "
         "stray [SEED] | depths")


def text(lines) -> bytes:
    return "".join(f"{line}\n" for line in lines).encode("ascii")


def seeded(make):
    """The same with other chances for each number from 1 to 2^64 - 1."""
    def made(seed: int) -> bytes:
        return make(seed) if 0 < seed < 2 ** 64 else sys.exit(USAGE)
    return made


def strays(*seed: int) -> bytes:
    return text(report(*seed))


def misreadings(record: int = 0) -> bytes:
    """The trials file from this record on, by each wrong reading of request 8."""
    return text(lines_changed(sys.stdin.buffer.read()[RECORD_BYTES * record:]))


# Each command by its name and how many numbers follow it.
COMMANDS = {
    ("list", 0): lambda: text(listing(sys.stdin.buffer.read())),
    ("cut", 2): lambda tolerance, most: text(cut_listing(sys.stdin.buffer.read(), tolerance, most)),
    ("trials", 0): lambda: text(play(sys.stdin.buffer.read())),
    ("sums", 0): lambda: text(sums()),
    ("make-trials", 0): make_trials,
    ("make-trials", 1): seeded(make_trials),
    ("misreadings", 0): misreadings,
    ("misreadings", 1): misreadings,
    ("stray", 0): strays,
    ("stray", 1): seeded(strays),
    ("depths", 0): lambda: text(depths(sys.stdin.buffer.read())),
}


def number(digits: str) -> int:
    """A number of any length, digit by digit: Python reads only so many at once."""
    if not (digits.isascii() and digits.isdigit()):
        sys.exit(USAGE)
    value = 0
    for digit in digits:
        value = 10 * value + int(digit)
    return value


def main() -> None:
    name, *numbers = sys.argv[1:] or [""]
    command = COMMANDS.get((name, len(numbers)))
    if command is None:
        sys.exit(USAGE)
    sys.stdout.buffer.write(command(*map(number, numbers)))


if __name__ == "__main__":
    main()
