"""Makes a trials file: every kind of call from one seed, weighted to edges.  The stored file's seed is fixed."""

from collections import Counter

import refusal
from make_trials import (defects, depths, drawings, edits, exact, files, halves, loop_edits, loop_files, loops, outlines,
                         taut_edits, taut_files, tautness, tolerance)
from make_trials.script import Script

SEED = 0x0123_4567_89AB_CDEF
FEWEST_CALLS = 2000
FEWEST_OF_EACH_REFUSAL = 3
GIVEN = (*range(refusal.BASIS, refusal.UNLIKE_FIRST + 1), *range(refusal.TOLERANCE, refusal.CUTS + 1), refusal.PARAMETER)

SECTIONS = (
    outlines.every_way, outlines.ties, outlines.longest, outlines.views, outlines.previews, outlines.long_previews,
    defects.every_pair, defects.any_defects, defects.at_the_limits,
    edits.every_place, edits.rooms, edits.runs, edits.deep,
    drawings.numbers, drawings.number_places, drawings.drawings, drawings.closings, drawings.states,
    files.files, files.lengths, files.record_by_record, files.late_damage, files.deep_listings,
    halves.points, halves.edits, halves.numbers, halves.drawings,
    exact.outlines, exact.edits, exact.none_fresh,
    tolerance.outlines, tolerance.refusals, tolerance.rooms, tolerance.numbers, tolerance.rules, tolerance.walks,
    tolerance.flat_spans, tolerance.thresholds, tolerance.parabolas, tolerance.all_cut, tolerance.longest,
    tolerance.lines, tolerance.roughest, tolerance.depths, tolerance.roundings, tolerance.figures,
    depths.every_way, depths.found_again, depths.at_halves, depths.figures, depths.longest, depths.longest_list,
    depths.views, depths.previews, depths.longest_preview, depths.edits, depths.run_of_edits, depths.longest_edits,
    depths.refusals, depths.by_tolerance, depths.no_deeper, depths.refusals_by_tolerance,
    depths.files, depths.longest_listing, depths.damaged_files,
    tautness.every_parameter, tautness.one_half, tautness.every_depth, tautness.too_large, tautness.farthest,
    tautness.longest, tautness.at_halves, tautness.figures, tautness.views, tautness.previews,
    taut_edits.every_place, taut_edits.half_edits, taut_edits.runs, taut_edits.stale_points,
    taut_edits.drawn_outlines_stay_drawn, taut_edits.handed_on,
    tautness.refusals, tautness.by_tolerance, tautness.thresholds, tautness.refusals_by_tolerance,
    taut_files.files, taut_files.mixed_files, taut_files.two_places, taut_files.damaged_files, taut_files.late_damage,
    taut_files.long_listing,
    loops.every_way, loops.far_apart, loops.as_open_outlines, loops.figures, loops.longest, loops.longest_list,
    loops.at_the_farthest, loops.outside, loops.views, loops.previews, loops.refusals, loops.counts,
    loops.by_tolerance, loops.tolerances, loops.rooms_by_tolerance, loops.rules, loops.closing_pieces,
    loops.refusals_by_tolerance,
    loop_edits.stale_places, loop_edits.stale_places_of_the_most, loop_edits.drawn_places,
    loop_edits.drawn_places_of_the_most, loop_edits.least_and_most, loop_edits.joints, loop_edits.figures,
    loop_edits.half_edits, loop_edits.runs, loop_edits.handed_on, loop_edits.rooms, loop_edits.deep,
    loop_edits.deep_places,
    loop_files.files, loop_files.depths, loop_files.mixed_files, loop_files.damaged_files, loop_files.late_damage,
    loop_files.long_listing,
)


def make_trials(seed: int = SEED) -> bytes:
    """The file, with every refusal of the table given at least a few times."""
    script = Script(seed)
    for section in SECTIONS:
        section(script)
    given: Counter = Counter()
    for (_, number), times in script.tally.items():
        given[number] += times
    assert sum(given.values()) >= FEWEST_CALLS
    assert all(given[number] >= FEWEST_OF_EACH_REFUSAL for number in GIVEN)
    return b"".join(script.records)
