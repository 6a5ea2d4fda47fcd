//! What a point of a preview costs beside a plain halving of doubles.

use crate::library;
use crate::peers::halving::halve_spans;
use crate::race::{race, Racer};
use crate::shape::{Basis, Shape, DEEPEST};
use crate::spans::{bezier_spans, Point};
use crate::table;
use std::hint::black_box;

fn shapes() -> impl Iterator<Item = Shape> {
    (0..=DEEPEST).map(|depth| Shape {
        depth,
        ..Shape::full(Basis::Bezier)
    })
}

/// The preview is the plain halving, number for number.
pub fn check(records: &[i32]) {
    for shape in shapes() {
        let mut plain = vec![Point::default(); shape.points()];
        halve_spans(&bezier_spans(shape, records), shape.depth, &mut plain);
        let plain: Vec<f64> = plain.iter().flat_map(|point| [point.x, point.y]).collect();
        let mut points = vec![0.0; 2 * shape.points()];
        let answer = library::preview(shape, records, &mut points);
        assert_eq!(answer.points, shape.points(), "{shape:?}");
        assert!(points == plain, "{shape:?}");
    }
}

fn plain(shape: Shape, records: &[i32]) -> Racer<'_> {
    let spans = bezier_spans(shape, records);
    let mut points = vec![Point::default(); shape.points()];
    Racer::new(move || halve_spans(black_box(&spans), shape.depth, black_box(&mut points)))
}

fn preview(shape: Shape, records: &[i32]) -> Racer<'_> {
    let mut points = vec![0.0; 2 * shape.points()];
    Racer::new(move || {
        black_box(library::preview(shape, records, &mut points));
    })
}

/// What a point costs at a depth, in nanoseconds.
pub struct Costs {
    pub depth: usize,
    plain: f64,
    preview: f64,
}

impl Costs {
    /// Of the plain halving.
    pub fn ratio(&self) -> f64 {
        self.preview / self.plain
    }

    fn row(&self) -> Vec<String> {
        let times = table::beside_the_first(&[self.plain, self.preview]);
        [vec![self.depth.to_string()], times].concat()
    }
}

pub fn time(records: &[i32]) -> Vec<Costs> {
    let racers = |shape| [plain(shape, records), preview(shape, records)];
    let times = race(shapes().flat_map(racers).collect());
    let costs = |(shape, times): (Shape, &[f64])| Costs {
        depth: shape.depth,
        plain: times[0] / shape.points() as f64,
        preview: times[1] / shape.points() as f64,
    };
    shapes().zip(times.chunks(2)).map(costs).collect()
}

pub fn print(costs: &[Costs]) {
    let spans = Shape::full(Basis::Bezier).spans();
    table::print(
        &format!("Preview: Bezier, {spans} spans"),
        "Nanoseconds a point; in brackets, of the plain halving.",
        &["depth", "plain halving of doubles", "preview"],
        costs.iter().map(Costs::row),
    );
}
