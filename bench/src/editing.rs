//! What an edit costs beside a redraw: a move in the middle, an insert at the front and a removal at the end.

use crate::alike::outline;
use crate::drawers::Drawer;
use crate::library::{self, Edit, Way};
use crate::race::{race, Racer};
use crate::shape::{Basis, Shape, DEPTH, MOST_RECORDS};
use crate::table;
use std::hint::black_box;

const EDITED: [Basis; 2] = [Basis::BSpline, Basis::Loop];

const EDITS: [Edit; 3] = [Edit::Move, Edit::Insert, Edit::Remove];

/// An edit at a place: the shape before it and after it, one of which is full.
#[derive(Clone, Copy)]
struct Asked {
    edit: Edit,
    place: usize,
    before: Shape,
    after: Shape,
}

fn ask(edit: Edit, basis: Basis) -> Asked {
    let full = Shape::full(basis);
    let shorter = Shape {
        count: MOST_RECORDS - 1,
        ..full
    };
    let (place, before, after) = match edit {
        Edit::Move => (MOST_RECORDS / 2, full, full),
        Edit::Insert => (0, shorter, full),
        Edit::Remove => (MOST_RECORDS - 1, full, shorter),
    };
    Asked {
        edit,
        place,
        before,
        after,
    }
}

impl Asked {
    fn make(self, record: [i32; 2], controls: &mut [i32], points: &mut [i32]) {
        let answer = library::edit(self.edit, self.before, self.place, record, controls, points);
        assert_eq!(answer.count, self.after.count, "{:?}", self.edit);
    }

    /// The records that should come of it.
    fn edited(self, records: &[i32], record: [i32; 2]) -> Vec<i32> {
        let mut edited = records[..2 * self.before.count].to_vec();
        let at = 2 * self.place;
        match self.edit {
            Edit::Move => drop(edited.splice(at..at + 2, record)),
            Edit::Insert => drop(edited.splice(at..at, record)),
            Edit::Remove => drop(edited.drain(at..at + 2)),
        }
        edited
    }

    /// It leaves those records, and the points that a drawing of them has.
    fn check(self, records: &[i32], record: [i32; 2]) {
        let mut controls = records.to_vec();
        let mut points = outline(self.before, records);
        points.resize(2 * Shape::full(self.before.basis).points(), 0);
        self.make(record, &mut controls, &mut points);
        let edited = self.edited(records, record);
        let drawn = outline(self.after, &edited);
        assert!(controls.starts_with(&edited), "{:?}: records", self.edit);
        assert!(points.starts_with(&drawn), "{:?}: points", self.edit);
    }

    /// It is made over and over on the same lists, each time with another record, so that the outline stays as wild as it was.
    fn racer(self, records: &[i32]) -> Racer<'_> {
        let mut controls = records.to_vec();
        let mut points = vec![0; 2 * Shape::full(self.before.basis).points()];
        let mut places = (0..MOST_RECORDS).cycle();
        Racer::new(move || {
            let other = 2 * places.next().expect("places without end");
            self.make(
                [records[other], records[other + 1]],
                &mut controls,
                &mut points,
            );
            black_box(&mut points);
        })
    }
}

pub fn check(records: &[i32]) {
    for basis in EDITED {
        for edit in EDITS {
            ask(edit, basis).check(records, [1_234_567, -765_432]);
        }
    }
}

/// What a redraw and the edits of an outline cost, in nanoseconds.
pub struct Costs {
    basis: Basis,
    times: Vec<f64>,
}

impl Costs {
    /// Of a redraw.
    pub fn ratio(&self, edit: Edit) -> f64 {
        self.times[1 + edit as usize] / self.times[0]
    }

    fn row(&self) -> Vec<String> {
        let spans = self.basis.spans(MOST_RECORDS);
        let size = format!("{}, {spans} spans", self.basis.name());
        [vec![size], table::beside_the_first(&self.times)].concat()
    }
}

pub fn time(records: &[i32]) -> Vec<Costs> {
    let racers = |basis| {
        let redraw = Drawer::Ours(Way::Differences).racer(Shape::full(basis), records);
        let edits = EDITS.map(|edit| ask(edit, basis).racer(records));
        std::iter::once(redraw).chain(edits)
    };
    let times = race(EDITED.into_iter().flat_map(racers).collect());
    let times = times.chunks(1 + EDITS.len()).map(<[f64]>::to_vec);
    EDITED
        .into_iter()
        .zip(times)
        .map(|(basis, times)| Costs { basis, times })
        .collect()
}

pub fn print(costs: &[Costs]) {
    table::print(
        &format!("Edits at depth {DEPTH}"),
        "Nanoseconds a call; in brackets, of a redraw by differences.",
        &[
            "outline",
            "redraw by differences",
            "move in the middle",
            "insert at the front",
            "remove at the end",
        ],
        costs.iter().map(Costs::row),
    );
}
