//! That everyone draws the same outline: seen before any time is taken.

use crate::library::{self, WAYS};
use crate::peers::{agg, differences, kurbo, lyon};
use crate::shape::Shape;
use crate::spans::{bezier_spans, Point};

/// How far from the curve a double may be that is evaluated by itself: some units in the last place of numbers as large as the controls.
const EVALUATED: f64 = 1e-8;

/// The same where errors add up from step to step.
const STEPPED: f64 = 1e-6;

/// At most one coordinate of so many may be rounded otherwise than the library rounds it.
const FEW: usize = 1000;

/// How many of kurbo's coordinates were rounded, and how many otherwise than the library rounds them.
#[derive(Default)]
pub struct Rounded {
    pub coordinates: usize,
    pub different: usize,
}

/// Everyone draws these shapes alike. Kurbo's points are rounded alike too, but where the curve is so near to a half that a double cannot know its side.
pub fn check(shapes: &[Shape], records: &[i32]) -> Rounded {
    check_nearest();
    let mut rounded = Rounded::default();
    for &shape in shapes {
        let ours = outline(shape, records);
        check_peers(shape, records, &ours);
        check_rounded(shape, records, &ours, &mut rounded);
    }
    assert!(rounded.different * FEW <= rounded.coordinates);
    rounded
}

/// The outline of a shape, which all three ways draw alike, and of which they count as many coordinates exact.
pub fn outline(shape: Shape, records: &[i32]) -> Vec<i32> {
    let [weights, halving, differences] = WAYS.map(|way| {
        let mut points = vec![0; 2 * shape.points()];
        let answer = library::draw(way, shape, records, &mut points);
        (answer, points)
    });
    assert_eq!(weights.0.points, shape.points(), "{shape:?}");
    assert!(weights == halving, "weights and halving: {shape:?}");
    assert!(halving == differences, "halving and differences: {shape:?}");
    weights.1
}

fn drawn<S, P: Clone + Default>(
    shape: Shape,
    spans: &[S],
    draw: fn(&[S], usize, &mut [P]),
) -> Vec<P> {
    let mut points = vec![P::default(); shape.points()];
    draw(spans, shape.steps(), &mut points);
    points
}

/// Each coordinate of a peer beside the library's.
fn beside<'a>(theirs: &'a [Point], ours: &'a [i32]) -> impl Iterator<Item = (f64, i32)> + 'a {
    let coordinates = theirs.iter().flat_map(|point| [point.x, point.y]);
    coordinates.zip(ours.iter().copied())
}

/// What is not rounded is at most half a micrometre, and its own error, from what is.
fn check_near(peer: &str, theirs: &[Point], ours: &[i32], error: f64) {
    for (their, our) in beside(theirs, ours) {
        let apart = (their - f64::from(our)).abs();
        assert!(apart <= 0.5 + error, "{peer}: {their} beside {our}");
    }
}

fn check_peers(shape: Shape, records: &[i32], ours: &[i32]) {
    let spans = bezier_spans(shape, records);
    let eval = drawn(shape, &kurbo::ready(&spans), kurbo::eval);
    check_near("kurbo", &eval, ours, EVALUATED);
    let sample = drawn(shape, &lyon::ready(&spans), lyon::sample);
    check_near("lyon_geom", &sample, ours, EVALUATED);
    let stepped = drawn(shape, &spans, differences::step);
    check_near("doubles by differences", &stepped, ours, STEPPED);
    if shape.steps() >= agg::FEWEST_STEPS {
        let walked = drawn(shape, &agg::ready(&spans, shape.steps()), agg::walk);
        check_near("AGG", &walked, ours, STEPPED);
    }
}

fn check_rounded(shape: Shape, records: &[i32], ours: &[i32], rounded: &mut Rounded) {
    let spans = kurbo::ready(&bezier_spans(shape, records));
    let round = drawn(shape, &spans, kurbo::eval_and_round);
    let cut_off = drawn(shape, &spans, kurbo::eval_and_cut_off);
    assert!(round == cut_off, "the two roundings differ: {shape:?}");
    let eval = drawn(shape, &spans, kurbo::eval);
    rounded.coordinates += ours.len();
    for ((value, our), their) in beside(&eval, ours).zip(round.into_iter().flatten()) {
        if their != our {
            let apart = (value - f64::from(our)).abs();
            assert!(apart >= 0.5 - EVALUATED, "kurbo: {value} beside {our}");
            rounded.different += 1;
        }
    }
}

/// The cheapest rounding is `round`: at whole numbers and halves, small ones and as large as a curve's, and at the doubles next to them on both sides.
fn check_nearest() {
    for twice in (0..1_000).chain(15_999_000..16_000_000) {
        let value = 0.5 * f64::from(twice);
        let above = f64::from_bits(value.to_bits() + 1);
        let below = f64::from_bits(value.to_bits().saturating_sub(1));
        for value in [below, value, above, -below, -value, -above] {
            assert_eq!(kurbo::nearest(value), value.round() as i32, "{value}");
        }
    }
}
