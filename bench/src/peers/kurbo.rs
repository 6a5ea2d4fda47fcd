//! kurbo evaluates a span at a time: `CubicBez::eval`, by Bernstein's polynomials.

use super::at_even_steps;
use crate::spans::{Point, Span};
use kurbo::{CubicBez, ParamCurve};

pub fn ready(spans: &[Span]) -> Vec<CubicBez> {
    let point = |p: Point| kurbo::Point::new(p.x, p.y);
    spans
        .iter()
        .map(|s| CubicBez::new(point(s[0]), point(s[1]), point(s[2]), point(s[3])))
        .collect()
}

/// Not rounded: the unit of all ratios.
pub fn eval(spans: &[CubicBez], steps: usize, points: &mut [Point]) {
    at_even_steps(spans, steps, points, |span, t| {
        let kurbo::Point { x, y } = span.eval(t);
        Point { x, y }
    });
}

/// Rounded as the language offers it: the same job as the library's.
pub fn eval_and_round(spans: &[CubicBez], steps: usize, points: &mut [[i32; 2]]) {
    at_even_steps(spans, steps, points, |span, t| {
        let point = span.eval(t);
        [point.x.round() as i32, point.y.round() as i32]
    });
}

/// Rounded as cheaply as is right.
pub fn eval_and_cut_off(spans: &[CubicBez], steps: usize, points: &mut [[i32; 2]]) {
    at_even_steps(spans, steps, points, |span, t| {
        let point = span.eval(t);
        [nearest(point.x), nearest(point.y)]
    });
}

/// The largest double below one half.
const BELOW_HALF: f64 = 0.499_999_999_999_999_94;

/// The nearest whole number, an exact half away from zero, as `round` has it. Nearly a half is added, with the value's sign, and the fraction cut off. From an exact half on, the sum as a double is
/// the next whole number or past it; from the double before, it is short of it. Had a half itself been added, the largest double below one half would become 1.
pub fn nearest(value: f64) -> i32 {
    let lifted = value + BELOW_HALF.copysign(value);
    // SAFETY: controls are within ±4,000,000, and their curves within twice that: the value fits.
    unsafe { lifted.to_int_unchecked() }
}
