//! Plain doubles by forward differences: three additions from point to point on each axis.

use crate::spans::{Point, Span};

/// A coordinate at a step, and its three differences.
#[derive(Clone, Copy)]
pub struct Differences {
    value: f64,
    first: f64,
    second: f64,
    third: f64,
}

impl Differences {
    /// At the start of a curve with the given controls, for steps of the given length.
    fn begin(controls: [f64; 4], step: f64) -> Differences {
        let [a, b, c, d] = controls;
        let linear = 3.0 * (b - a) * step;
        let square = 3.0 * (a - 2.0 * b + c) * step * step;
        let cubic = (d - a + 3.0 * (b - c)) * step * step * step;
        Differences {
            value: a,
            first: linear + square + cubic,
            second: 2.0 * square + 6.0 * cubic,
            third: 6.0 * cubic,
        }
    }

    fn next(self) -> Differences {
        Differences {
            value: self.value + self.first,
            first: self.first + self.second,
            second: self.second + self.third,
            third: self.third,
        }
    }
}

/// Not rounded.
pub fn step(spans: &[Span], steps: usize, points: &mut [Point]) {
    let step = 1.0 / steps as f64;
    for (span, starts) in spans.iter().zip(points.chunks_exact_mut(steps)) {
        let mut x = Differences::begin(span.map(|control| control.x), step);
        let mut y = Differences::begin(span.map(|control| control.y), step);
        for start in starts {
            *start = Point {
                x: x.value,
                y: y.value,
            };
            (x, y) = (x.next(), y.next());
        }
    }
    points[spans.len() * steps] = spans[spans.len() - 1][3];
}
