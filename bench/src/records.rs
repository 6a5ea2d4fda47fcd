//! Records to draw outlines from, as the library takes them: x and y in whole micrometres.

use crate::shape::MOST_RECORDS;
use std::f64::consts::TAU;

/// How far from nought a coordinate may be.
const FURTHEST: i32 = 4_000_000;

/// Records all over the place that the library allows, the same at every run: Marsaglia's xorshift generator.
pub fn wild() -> Vec<i32> {
    let mut state: u64 = 88_172_645_463_325_252;
    let coordinate = || {
        state ^= state << 13;
        state ^= state >> 7;
        state ^= state << 17;
        (state % (2 * FURTHEST as u64 + 1)) as i32 - FURTHEST
    };
    std::iter::repeat_with(coordinate)
        .take(2 * MOST_RECORDS)
        .collect()
}

/// Records round a table top of some four metres by three, with a slight swell: a loop that a router would cut, and that few cuts make flat.
pub fn table_top() -> Vec<i32> {
    let record = |i: usize| {
        let angle = TAU * i as f64 / MOST_RECORDS as f64;
        let swell = 1.0 + 0.05 * (3.0 * angle).cos();
        [
            2_000_000.0 * swell * angle.cos(),
            1_500_000.0 * swell * angle.sin(),
        ]
    };
    (0..MOST_RECORDS)
        .flat_map(record)
        .map(|coordinate| coordinate as i32)
        .collect()
}
