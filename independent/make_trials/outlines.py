"""Trials of draw, view and preview."""

import trials
from checks import CONTROL_LIMIT
from make_trials.dice import BASES_BEFORE, DEEPEST_BEFORE
from make_trials.script import Script
from shape import BEZIER, MOST_RECORDS, SPAN_RECORDS, Shape, point_count, spans

WAYS = (trials.WEIGHTS, trials.HALVING, trials.DIFFERENCES)


def every_way(script: Script) -> None:
    """Each basis at each depth in each way, over points that held something else."""
    dice = script.dice
    for basis in BASES_BEFORE:
        for depth in range(DEEPEST_BEFORE + 1):
            shape = Shape(basis, depth, dice.count(basis, SPAN_RECORDS if depth > 4 else 8))
            spare = dice.below(4)
            script.lend(2 * shape.count + spare, 2 * point_count(shape) + spare, fill=dice.outside())
            script.shape(shape)
            script.controls(dice.numbers(shape.count))
            for way in WAYS:
                script.junk_points(3)
                script.show(way, trials.SHOW_POINTS)


def ties(script: Script) -> None:
    """Controls so small that many points are exact halves, on both sides of zero."""
    for basis in BASES_BEFORE:
        for _ in range(6):
            shape = script.dice.shape((basis,), 3, 10)
            script.lend(2 * shape.count, 2 * point_count(shape))
            script.shape(shape)
            script.controls([script.dice.between(-4, 4) for _ in range(2 * shape.count)])
            for way in WAYS:
                script.show(way)
                script.say(trials.VIEW, script.dice.below(spans(shape)))
            script.show(trials.SHOW_POINTS)


def longest(script: Script) -> None:
    """The most records of each basis at the deepest, in lists with no number to spare."""
    dice = script.dice
    for basis in BASES_BEFORE:
        shape = Shape(basis, DEEPEST_BEFORE, MOST_RECORDS)
        script.lend(2 * MOST_RECORDS, 2 * point_count(shape), fill=dice.junk())
        script.read(shape, dice.numbers(shape.count))
        script.show(dice.pick(WAYS), trials.SHOW_POINTS)
        for way in WAYS:
            script.junk_points(6)
            script.say(way)
            for span in (0, dice.below(spans(shape)), spans(shape) - 1, spans(shape)):
                script.say(trials.VIEW, span)


def views(script: Script) -> None:
    """Every span of an outline and some beyond it; then bad shapes and short lists."""
    dice = script.dice
    for basis in BASES_BEFORE:
        shape = dice.shape((basis,), 3, 12)
        script.lend(2 * shape.count, 2 * point_count(shape) + dice.below(3))
        script.read(shape, dice.numbers(shape.count))
        script.say(dice.pick(WAYS))
        script.junk_points(2)
        for span in (*range(spans(shape) + 2), 2 ** 31, 2 ** 58, 2 ** 63 - 1):
            script.say(trials.VIEW, span)
        for bad in (shape._replace(basis=0), shape._replace(depth=DEEPEST_BEFORE + 1), shape._replace(count=3),
                    shape._replace(basis=5), shape._replace(count=MOST_RECORDS + 1)):
            script.shape(bad)
            script.say(trials.VIEW, 0)
        for short in (1, 2, 0):
            script.lend(0, 2 * point_count(shape) - short, fill=dice.junk())
            script.shape(shape)
            script.say(trials.VIEW, spans(shape) - 1)


def previews(script: Script) -> None:
    """One span in doubles at every depth: any controls, sums that come to zero, the limits."""
    dice = script.dice
    limits = [CONTROL_LIMIT, -CONTROL_LIMIT]
    for depth in range(DEEPEST_BEFORE + 1):
        shape = Shape(BEZIER, depth, SPAN_RECORDS)
        for numbers in (dice.numbers(SPAN_RECORDS), [0, -8, 0, 8, 0, -8, 0, 8], limits * 2 + limits[::-1] * 2):
            script.lend(2 * shape.count, 0, 2 * point_count(shape) + dice.below(2), dice.junk())
            script.shape(shape)
            script.controls(numbers)
            script.show(trials.PREVIEW, trials.SHOW_PREVIEW)


def long_previews(script: Script) -> None:
    """Several spans in doubles, in a list with no number to spare and in one that lacks one."""
    dice = script.dice
    for depth, count in ((0, MOST_RECORDS), (2, 10), (3, 13), (DEEPEST_BEFORE, MOST_RECORDS)):
        shape = Shape(BEZIER, depth, count)
        for short in (0, 1):
            script.lend(2 * MOST_RECORDS, 0, 2 * point_count(shape) - short, dice.junk())
            script.read(shape, dice.numbers(shape.count))
            script.say(trials.PREVIEW)
            if depth < DEEPEST_BEFORE:
                script.show(trials.SHOW_PREVIEW)
