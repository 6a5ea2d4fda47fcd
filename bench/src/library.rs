//! The library's public calls. The bench asks for nothing that is refused, and stops where a call is.

use crate::linked::{self, Choosing, Drawing, Editing, Previewing};
use crate::shape::Shape;

/// Nought: the parameter of a cardinal outline is then one half, and no other basis has one.
const PARAMETER: usize = 0;

/// The three ways to draw.
#[derive(Clone, Copy, Debug, PartialEq)]
pub enum Way {
    Weights,
    Halving,
    Differences,
}

pub const WAYS: [Way; 3] = [Way::Weights, Way::Halving, Way::Differences];

impl Way {
    pub fn name(self) -> &'static str {
        match self {
            Way::Weights => "weights",
            Way::Halving => "halving",
            Way::Differences => "differences",
        }
    }
}

/// The edits: what becomes of a record.
#[derive(Clone, Copy, Debug, PartialEq)]
pub enum Edit {
    Move,
    Insert,
    Remove,
}

fn accept(number: usize, place: usize) {
    assert!(number == 0, "refused {number} {place}");
}

// SAFETY, of each call below: the lists are lent for the call, each by its own pointer and length.

pub fn draw(way: Way, shape: Shape, controls: &[i32], points: &mut [i32]) -> Drawing {
    let call = match way {
        Way::Weights => linked::quorilanth_by_weights,
        Way::Halving => linked::quorilanth_by_halving,
        Way::Differences => linked::quorilanth_by_differences,
    };
    let answer = unsafe {
        call(
            shape.basis as usize,
            shape.depth,
            shape.count,
            PARAMETER,
            controls.as_ptr(),
            controls.len(),
            points.as_mut_ptr(),
            points.len(),
        )
    };
    accept(answer.number, answer.place);
    answer
}

pub fn choose(
    shape: Shape,
    tolerance: usize,
    most: usize,
    controls: &[i32],
    points: &mut [i32],
) -> Choosing {
    let answer = unsafe {
        linked::quorilanth_by_tolerance(
            shape.basis as usize,
            shape.depth,
            shape.count,
            PARAMETER,
            tolerance,
            most,
            controls.as_ptr(),
            controls.len(),
            points.as_mut_ptr(),
            points.len(),
        )
    };
    accept(answer.number, answer.place);
    answer
}

/// What is moved or put in comes to stand at (x, y); a removal has no use for it.
pub fn edit(
    edit: Edit,
    shape: Shape,
    place: usize,
    [x, y]: [i32; 2],
    controls: &mut [i32],
    points: &mut [i32],
) -> Editing {
    let call = match edit {
        Edit::Move => linked::quorilanth_move,
        Edit::Insert => linked::quorilanth_insert,
        Edit::Remove => return remove(shape, place, controls, points),
    };
    let answer = unsafe {
        call(
            shape.basis as usize,
            shape.depth,
            shape.count,
            PARAMETER,
            place,
            x,
            y,
            controls.as_mut_ptr(),
            controls.len(),
            points.as_mut_ptr(),
            points.len(),
        )
    };
    accept(answer.number, answer.place);
    answer
}

fn remove(shape: Shape, place: usize, controls: &mut [i32], points: &mut [i32]) -> Editing {
    let answer = unsafe {
        linked::quorilanth_remove(
            shape.basis as usize,
            shape.depth,
            shape.count,
            PARAMETER,
            place,
            controls.as_mut_ptr(),
            controls.len(),
            points.as_mut_ptr(),
            points.len(),
        )
    };
    accept(answer.number, answer.place);
    answer
}

pub fn preview(shape: Shape, controls: &[i32], points: &mut [f64]) -> Previewing {
    let answer = unsafe {
        linked::quorilanth_preview(
            shape.basis as usize,
            shape.depth,
            shape.count,
            PARAMETER,
            controls.as_ptr(),
            controls.len(),
            points.as_mut_ptr(),
            points.len(),
        )
    };
    accept(answer.number, answer.place);
    answer
}
