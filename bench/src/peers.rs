//! The peers: others' code, and plain code, that draws the same outlines in doubles.

pub mod agg;
pub mod differences;
pub mod halving;
pub mod kurbo;
pub mod lyon;

/// Every point of an outline from its spans: `point` has that of a span at a time from 0 to 1. The step is a 32-bit number, which becomes a double at less cost than a `usize` does.
fn at_even_steps<S, P>(spans: &[S], steps: usize, points: &mut [P], point: impl Fn(&S, f64) -> P) {
    let length = 1.0 / steps as f64;
    for (span, starts) in spans.iter().zip(points.chunks_exact_mut(steps)) {
        for (step, start) in (0_i32..).zip(starts) {
            *start = point(span, f64::from(step) * length);
        }
    }
    points[spans.len() * steps] = point(&spans[spans.len() - 1], 1.0);
}
