//! What the library is held to. A figure is that of the outline that comes off worst.

use crate::drawers::Drawer;
use crate::library::{Edit, Way, WAYS};
use crate::shape::{Basis, Shape, DEPTH};
use crate::{drawing, editing, previewing, table};

/// The times that demands look at.
pub struct Times {
    pub bases: Vec<drawing::Costs>,
    pub sizes: Vec<drawing::Costs>,
    pub edits: Vec<editing::Costs>,
    pub previews: Vec<previewing::Costs>,
}

enum Bound {
    AtMost(f64),
    AtLeast(f64),
    Below(f64),
}

impl Bound {
    fn holds(&self, figure: f64) -> bool {
        match *self {
            Bound::AtMost(bound) => figure <= bound,
            Bound::AtLeast(bound) => figure >= bound,
            Bound::Below(bound) => figure < bound,
        }
    }

    fn words(&self) -> String {
        match self {
            Bound::AtMost(bound) => format!("at most {bound:.2}"),
            Bound::AtLeast(bound) => format!("at least {bound:.2}"),
            Bound::Below(bound) => format!("below {bound:.2}"),
        }
    }
}

struct Demand {
    words: String,
    bound: Bound,
    figure: f64,
}

impl Demand {
    fn met(&self) -> bool {
        self.bound.holds(self.figure)
    }

    fn row(&self) -> Vec<String> {
        vec![
            self.words.clone(),
            self.bound.words(),
            format!("{:.3}", self.figure),
            String::from(if self.met() { "yes" } else { "no" }),
        ]
    }
}

fn greatest(figures: impl Iterator<Item = f64>) -> f64 {
    figures.fold(f64::NEG_INFINITY, f64::max)
}

/// A point by a way, of a peer's, at the basis where it is dearest.
fn dearest(times: &Times, way: Way, peer: Drawer) -> f64 {
    let ratio = |costs: &drawing::Costs| costs.of(Drawer::Ours(way)) / costs.of(peer);
    greatest(times.bases.iter().map(ratio))
}

fn unrounded(times: &Times) -> impl Iterator<Item = Demand> + '_ {
    let bounds = [
        (Way::Differences, 1.0),
        (Way::Weights, 1.5),
        (Way::Halving, 2.5),
    ];
    bounds.into_iter().map(|(way, bound)| Demand {
        words: format!("{}, of kurbo eval", way.name()),
        bound: Bound::AtMost(bound),
        figure: dearest(times, way, Drawer::KurboEval),
    })
}

fn rounded(times: &Times) -> impl Iterator<Item = Demand> + '_ {
    let round = [Way::Differences, Way::Weights].map(|way| Demand {
        words: format!("{}, times faster than kurbo and round()", way.name()),
        bound: Bound::AtLeast(3.0),
        figure: 1.0 / dearest(times, way, Drawer::KurboRound),
    });
    let cheapest = Demand {
        words: String::from("differences, of kurbo and cheapest rounding"),
        bound: Bound::Below(1.0),
        figure: dearest(times, Way::Differences, Drawer::KurboCutOff),
    };
    round.into_iter().chain([cheapest])
}

fn edits(times: &Times) -> impl Iterator<Item = Demand> + '_ {
    let bounds = [
        ("move in the middle", Edit::Move, 0.12),
        ("insert at the front", Edit::Insert, 0.25),
    ];
    bounds.into_iter().map(|(words, edit, bound)| Demand {
        words: format!("{words}, of a redraw by differences"),
        bound: Bound::AtMost(bound),
        figure: greatest(times.edits.iter().map(|costs| costs.ratio(edit))),
    })
}

fn preview(times: &Times) -> Demand {
    let at_depth = times.previews.iter().filter(|costs| costs.depth == DEPTH);
    Demand {
        words: format!("preview at depth {DEPTH}, of plain halving"),
        bound: Bound::AtMost(1.0),
        figure: greatest(at_depth.map(previewing::Costs::ratio)),
    }
}

/// From here on the cost of a point is to be flat.
const FLAT_FROM_SPANS: usize = 8;
const FLAT_FROM_DEPTH: usize = 4;

/// How far the cost of a point by a way is from that of the full outline, as a part of the latter.
fn unevenness(times: &Times, way: Way) -> f64 {
    let full = Shape::full(Basis::BSpline);
    let cost = |costs: &drawing::Costs| costs.of(Drawer::Ours(way));
    let of_full = times
        .sizes
        .iter()
        .find(|costs| costs.shape == full)
        .map(cost);
    let of_full = of_full.expect("the full outline is timed");
    let flat = times.sizes.iter().filter(|costs| {
        costs.shape.spans() >= FLAT_FROM_SPANS && costs.shape.depth >= FLAT_FROM_DEPTH
    });
    greatest(flat.map(|costs| (cost(costs) / of_full - 1.0).abs()))
}

fn flat(times: &Times) -> impl Iterator<Item = Demand> + '_ {
    WAYS.into_iter().map(|way| Demand {
        words: format!("{}, unevenness", way.name()),
        bound: Bound::AtMost(0.2),
        figure: unevenness(times, way),
    })
}

/// Prints the demands, and answers whether all are met.
pub fn print(times: &Times) -> bool {
    let demands: Vec<Demand> = unrounded(times)
        .chain(rounded(times))
        .chain(edits(times))
        .chain([preview(times)])
        .chain(flat(times))
        .collect();
    let words = format!(
        "A figure is that of the outline that comes off worst. Unevenness is how far the cost of a point is, from {FLAT_FROM_SPANS} spans and from depth {FLAT_FROM_DEPTH} on, from that of the full outline at depth {DEPTH}."
    );
    table::print(
        "Demands",
        &words,
        &["demand", "bound", "figure", "met"],
        demands.iter().map(Demand::row),
    );
    demands.iter().all(Demand::met)
}
