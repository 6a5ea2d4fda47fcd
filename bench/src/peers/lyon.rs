//! lyon_geom evaluates a span at a time: `CubicBezierSegment::sample`.

use super::at_even_steps;
use crate::spans::{Point, Span};
use lyon_geom::{euclid::default::Point2D, CubicBezierSegment};

pub fn ready(spans: &[Span]) -> Vec<CubicBezierSegment<f64>> {
    let point = |p: Point| Point2D::new(p.x, p.y);
    spans
        .iter()
        .map(|s| CubicBezierSegment {
            from: point(s[0]),
            ctrl1: point(s[1]),
            ctrl2: point(s[2]),
            to: point(s[3]),
        })
        .collect()
}

/// Not rounded.
pub fn sample(spans: &[CubicBezierSegment<f64>], steps: usize, points: &mut [Point]) {
    at_even_steps(spans, steps, points, |span, t| {
        let point = span.sample(t);
        Point {
            x: point.x,
            y: point.y,
        }
    });
}
