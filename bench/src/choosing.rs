//! What a point costs that a tolerance chooses, and what a cut does.

use crate::alike::outline;
use crate::library;
use crate::linked::Choosing;
use crate::race::{race, Racer};
use crate::shape::{Basis, Shape};
use crate::table;
use std::hint::black_box;

/// In micrometres.
const TOLERANCES: [usize; 3] = [10, 100, 1000];

/// More cuts than any of the tolerances takes.
const MOST_CUTS: usize = 10_000;

/// A loop. The call chooses among the points of depth 6, whatever depth it is told.
fn shape() -> Shape {
    Shape::full(Basis::Loop)
}

fn choose(tolerance: usize, records: &[i32], points: &mut [i32]) -> Choosing {
    library::choose(shape(), tolerance, MOST_CUTS, records, points)
}

/// Room for whatever may be chosen.
fn room() -> Vec<i32> {
    vec![0; 2 * shape().points()]
}

/// The chosen points stand in the even outline, in their order, both its ends among them; and with every cut comes a point.
pub fn check(records: &[i32]) {
    let even = outline(shape(), records);
    for tolerance in TOLERANCES {
        let mut points = room();
        let answer = choose(tolerance, records, &mut points);
        assert_eq!(answer.points, shape().spans() + answer.cuts + 1);
        let chosen = &points[..2 * answer.points];
        assert_eq!(chosen[..2], even[..2], "{tolerance}: the start");
        assert!(
            even.ends_with(&chosen[chosen.len() - 2..]),
            "{tolerance}: the end"
        );
        let mut rest = even.chunks_exact(2);
        for point in chosen.chunks_exact(2) {
            assert!(rest.any(|other| other == point), "{tolerance}: {point:?}");
        }
    }
}

/// What a call costs at a tolerance, in nanoseconds, and what it chose.
pub struct Costs {
    tolerance: usize,
    chosen: Choosing,
    call: f64,
}

impl Costs {
    fn row(&self) -> Vec<String> {
        let Choosing { points, cuts, .. } = self.chosen;
        vec![
            self.tolerance.to_string(),
            points.to_string(),
            cuts.to_string(),
            table::nanoseconds(self.call),
            table::nanoseconds(self.call / points as f64),
            table::nanoseconds(self.call / cuts as f64),
        ]
    }
}

pub fn time(records: &[i32]) -> Vec<Costs> {
    let racer = |tolerance| {
        let mut points = room();
        Racer::new(move || {
            black_box(choose(tolerance, records, &mut points));
        })
    };
    let times = race(TOLERANCES.into_iter().map(racer).collect());
    let costs = |(tolerance, call)| Costs {
        tolerance,
        chosen: choose(tolerance, records, &mut room()),
        call,
    };
    TOLERANCES.into_iter().zip(times).map(costs).collect()
}

pub fn print(costs: &[Costs]) {
    table::print(
        &format!("Steps chosen by tolerance: loop, {} spans", shape().spans()),
        "Nanoseconds a call, a chosen point and a cut; each is the whole call's time, over the points and over the cuts.",
        &["tolerance", "points", "cuts", "a call", "a point", "a cut"],
        costs.iter().map(Costs::row),
    );
}
