//! AGG walks a span vertex by vertex: `agg::curve4_inc`, by forward differences.

use crate::spans::{Point, Span};

/// A span's controls, and the scale at which AGG takes as many steps as it should.
#[repr(C)]
pub struct ScaledSpan {
    controls: Span,
    scale: f64,
}

extern "C" {
    fn agg_vertices(span: *const ScaledSpan) -> usize;
    fn agg_points(spans: *const ScaledSpan, count: usize, points: *mut Point);
}

/// AGG takes no fewer steps a span.
pub const FEWEST_STEPS: usize = 4;

/// AGG's steps are a quarter of the length of the controls' polygon, times the scale, rounded.
fn scaled(controls: Span, steps: usize) -> ScaledSpan {
    let side = |ends: &[Point]| (ends[1].x - ends[0].x).hypot(ends[1].y - ends[0].y);
    let length: f64 = controls.windows(2).map(side).sum();
    ScaledSpan {
        controls,
        scale: 4.0 * steps as f64 / length,
    }
}

pub fn ready(spans: &[Span], steps: usize) -> Vec<ScaledSpan> {
    let ready: Vec<_> = spans.iter().map(|&span| scaled(span, steps)).collect();
    for span in &ready {
        // SAFETY: one span is lent.
        let vertices = unsafe { agg_vertices(span) };
        assert_eq!(vertices, steps + 1, "AGG takes other steps");
    }
    ready
}

/// Not rounded.
pub fn walk(spans: &[ScaledSpan], steps: usize, points: &mut [Point]) {
    assert!(points.len() > spans.len() * steps);
    // SAFETY: by `ready` there is a point for each step, and the last end, and there is room for them.
    unsafe { agg_points(spans.as_ptr(), spans.len(), points.as_mut_ptr()) }
}
