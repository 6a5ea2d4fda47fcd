//! What a point costs: everyone at every basis, and kurbo and the library at every depth and from one span to the most.

use crate::drawers::{Drawer, EVERYONE, KURBO_AND_OURS};
use crate::race::race;
use crate::shape::{Basis, Shape, BASES, DEEPEST, DEPTH};
use crate::table;

/// What a point of a shape costs each drawer, in nanoseconds.
pub struct Costs {
    pub shape: Shape,
    costs: Vec<(Drawer, f64)>,
}

impl Costs {
    pub fn of(&self, drawer: Drawer) -> f64 {
        let found = self.costs.iter().find(|cost| cost.0 == drawer);
        found.expect("a drawer that was timed").1
    }

    fn row(&self, size: String) -> Vec<String> {
        let costs: Vec<f64> = self.costs.iter().map(|cost| cost.1).collect();
        [vec![size], table::beside_the_first(&costs)].concat()
    }
}

pub fn every_basis() -> Vec<Shape> {
    BASES.map(Shape::full).to_vec()
}

/// B-splines of all spans at each depth, and of fewer spans at the depth at which most is timed.
pub fn every_size() -> Vec<Shape> {
    let full = Shape::full(Basis::BSpline);
    let depths = (0..=DEEPEST).map(|depth| Shape { depth, ..full });
    let lengths = [1, 2, 4, 8, 16, 32].map(|spans| Shape {
        count: spans + 3,
        ..full
    });
    depths.chain(lengths).collect()
}

/// All of them in one race.
fn time(shapes: &[Shape], drawers: &[Drawer], records: &[i32]) -> Vec<Costs> {
    let racers = shapes
        .iter()
        .flat_map(|&shape| {
            drawers
                .iter()
                .map(move |drawer| drawer.racer(shape, records))
        })
        .collect();
    let times = race(racers);
    let costs = |(&shape, times): (&Shape, &[f64])| {
        let a_point = times.iter().map(|time| time / shape.points() as f64);
        Costs {
            shape,
            costs: drawers.iter().copied().zip(a_point).collect(),
        }
    };
    shapes
        .iter()
        .zip(times.chunks(drawers.len()))
        .map(costs)
        .collect()
}

pub fn time_bases(records: &[i32]) -> Vec<Costs> {
    time(&every_basis(), &EVERYONE, records)
}

pub fn time_sizes(records: &[i32]) -> Vec<Costs> {
    time(&every_size(), &KURBO_AND_OURS, records)
}

fn columns(first: &'static str, drawers: &[Drawer]) -> Vec<&'static str> {
    let names = drawers.iter().map(|drawer| drawer.name());
    std::iter::once(first).chain(names).collect()
}

const WORDS: &str = "Nanoseconds a point; in brackets, of kurbo eval.";

pub fn print_bases(costs: &[Costs]) {
    let row = |costs: &Costs| {
        let (basis, spans) = (costs.shape.basis, costs.shape.spans());
        costs.row(format!("{}, {spans} spans", basis.name()))
    };
    table::print(
        &format!("Every basis at depth {DEPTH}"),
        WORDS,
        &columns("outline", &EVERYONE),
        costs.iter().map(row),
    );
}

pub fn print_sizes(costs: &[Costs]) {
    let full = Shape::full(Basis::BSpline);
    let depths = costs.iter().filter(|costs| costs.shape.count == full.count);
    table::print(
        &format!("Every depth: B-spline, {} spans", full.spans()),
        WORDS,
        &columns("depth", &KURBO_AND_OURS),
        depths.map(|costs| costs.row(costs.shape.depth.to_string())),
    );
    let mut lengths: Vec<&Costs> = costs
        .iter()
        .filter(|costs| costs.shape.depth == DEPTH)
        .collect();
    lengths.sort_by_key(|costs| costs.shape.spans());
    table::print(
        &format!("One span and more: B-spline, depth {DEPTH}"),
        WORDS,
        &columns("spans", &KURBO_AND_OURS),
        lengths
            .iter()
            .map(|costs| costs.row(costs.shape.spans().to_string())),
    );
}
