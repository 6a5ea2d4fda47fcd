//! Plain doubles by halving: a span is cut at its middle again and again, and the pieces' starts are the points.

use crate::spans::{Point, Span};

impl Point {
    fn middle(self, other: Point) -> Point {
        Point {
            x: 0.5 * (self.x + other.x),
            y: 0.5 * (self.y + other.y),
        }
    }
}

/// The starts of the 2^left pieces of a piece.
fn halve(points: &mut [Point], left: usize, a: Point, b: Point, c: Point, d: Point) {
    if left == 0 {
        points[0] = a;
        return;
    }
    let (ab, bc, cd) = (a.middle(b), b.middle(c), c.middle(d));
    let (abc, bcd) = (ab.middle(bc), bc.middle(cd));
    let middle = abc.middle(bcd);
    let (starts, ends) = points.split_at_mut(1 << (left - 1));
    halve(starts, left - 1, a, ab, abc, middle);
    halve(ends, left - 1, middle, bcd, cd, d);
}

/// Not rounded.
pub fn halve_spans(spans: &[Span], depth: usize, points: &mut [Point]) {
    for (&[a, b, c, d], starts) in spans.iter().zip(points.chunks_exact_mut(1 << depth)) {
        halve(starts, depth, a, b, c, d);
    }
    points[spans.len() << depth] = spans[spans.len() - 1][3];
}
