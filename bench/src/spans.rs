//! The spans of an outline as the peers take them: four Bezier controls each, in doubles, ready before any time is taken.

use crate::shape::{Basis, Shape};

/// A point in doubles.
#[repr(C)]
#[derive(Clone, Copy, Debug, Default, PartialEq)]
pub struct Point {
    pub x: f64,
    pub y: f64,
}

pub type Span = [Point; 4];

/// What each Bezier control of a span takes of the span's four records, in sixths; a cardinal outline's with the parameter one half.
fn sixths(basis: Basis) -> [[f64; 4]; 4] {
    match basis {
        Basis::Bezier => [
            [6.0, 0.0, 0.0, 0.0],
            [0.0, 6.0, 0.0, 0.0],
            [0.0, 0.0, 6.0, 0.0],
            [0.0, 0.0, 0.0, 6.0],
        ],
        Basis::BSpline | Basis::Loop => [
            [1.0, 4.0, 1.0, 0.0],
            [0.0, 4.0, 2.0, 0.0],
            [0.0, 2.0, 4.0, 0.0],
            [0.0, 1.0, 4.0, 1.0],
        ],
        Basis::Cardinal => [
            [0.0, 6.0, 0.0, 0.0],
            [-1.0, 6.0, 1.0, 0.0],
            [0.0, 1.0, 6.0, -1.0],
            [0.0, 0.0, 6.0, 0.0],
        ],
        Basis::Hermite => [
            [6.0, 0.0, 0.0, 0.0],
            [6.0, 2.0, 0.0, 0.0],
            [0.0, 0.0, 6.0, -2.0],
            [0.0, 0.0, 6.0, 0.0],
        ],
    }
}

/// The four records of a span; a loop counts them round its end.
fn four_records(shape: Shape, records: &[i32], span: usize) -> Span {
    [0, 1, 2, 3].map(|i| {
        let record = (shape.basis.stride() * span + i) % shape.count;
        Point {
            x: f64::from(records[2 * record]),
            y: f64::from(records[2 * record + 1]),
        }
    })
}

/// One control. Its sum is exact; the one division rounds.
fn control(taken: [f64; 4], records: Span) -> Point {
    let sum = |axis: fn(&Point) -> f64| -> f64 {
        taken
            .iter()
            .zip(&records)
            .map(|(sixth, record)| sixth * axis(record))
            .sum()
    };
    Point {
        x: sum(|record| record.x) / 6.0,
        y: sum(|record| record.y) / 6.0,
    }
}

/// All spans of an outline.
pub fn bezier_spans(shape: Shape, records: &[i32]) -> Vec<Span> {
    (0..shape.spans())
        .map(|span| four_records(shape, records, span))
        .map(|four| sixths(shape.basis).map(|taken| control(taken, four)))
        .collect()
}
