//! Everyone who draws an outline: the peers, and the library's three ways.

use crate::library::{self, Way};
use crate::peers::{agg, differences, kurbo, lyon};
use crate::race::Racer;
use crate::shape::Shape;
use crate::spans::bezier_spans;
use std::hint::black_box;

#[derive(Clone, Copy, Debug, PartialEq)]
pub enum Drawer {
    KurboEval,
    KurboRound,
    KurboCutOff,
    LyonSample,
    Agg,
    PlainDifferences,
    Ours(Way),
}

pub const EVERYONE: [Drawer; 9] = [
    Drawer::KurboEval,
    Drawer::KurboRound,
    Drawer::KurboCutOff,
    Drawer::LyonSample,
    Drawer::Agg,
    Drawer::PlainDifferences,
    Drawer::Ours(Way::Weights),
    Drawer::Ours(Way::Halving),
    Drawer::Ours(Way::Differences),
];

pub const KURBO_AND_OURS: [Drawer; 4] = [
    Drawer::KurboEval,
    Drawer::Ours(Way::Weights),
    Drawer::Ours(Way::Halving),
    Drawer::Ours(Way::Differences),
];

impl Drawer {
    pub fn name(self) -> &'static str {
        match self {
            Drawer::KurboEval => "kurbo eval",
            Drawer::KurboRound => "kurbo and round()",
            Drawer::KurboCutOff => "kurbo and cheapest rounding",
            Drawer::LyonSample => "lyon_geom sample",
            Drawer::Agg => "AGG curve4_inc",
            Drawer::PlainDifferences => "doubles by differences",
            Drawer::Ours(way) => way.name(),
        }
    }

    /// The drawing of an outline, over and over: a peer from spans that are ready, the library from the records.
    pub fn racer(self, shape: Shape, records: &[i32]) -> Racer<'_> {
        let spans = bezier_spans(shape, records);
        match self {
            Drawer::KurboEval => peer(shape, kurbo::ready(&spans), kurbo::eval),
            Drawer::KurboRound => peer(shape, kurbo::ready(&spans), kurbo::eval_and_round),
            Drawer::KurboCutOff => peer(shape, kurbo::ready(&spans), kurbo::eval_and_cut_off),
            Drawer::LyonSample => peer(shape, lyon::ready(&spans), lyon::sample),
            Drawer::Agg => peer(shape, agg::ready(&spans, shape.steps()), agg::walk),
            Drawer::PlainDifferences => peer(shape, spans, differences::step),
            Drawer::Ours(way) => ours(way, shape, records),
        }
    }
}

fn peer<'a, S: 'a, P: Clone + Default + 'a>(
    shape: Shape,
    spans: Vec<S>,
    draw: fn(&[S], usize, &mut [P]),
) -> Racer<'a> {
    let mut points = vec![P::default(); shape.points()];
    Racer::new(move || draw(black_box(&spans), shape.steps(), black_box(&mut points)))
}

fn ours(way: Way, shape: Shape, records: &[i32]) -> Racer<'_> {
    let mut points = vec![0; 2 * shape.points()];
    Racer::new(move || {
        black_box(library::draw(way, shape, black_box(records), &mut points));
    })
}
