//! The library's C interface (crates/linked), declared as it stands there: a slice is a pointer and a length, and an answer's `number` is that of a refusal, or 0.

#[repr(C)]
#[derive(Debug, PartialEq)]
pub struct Drawing {
    pub number: usize,
    pub place: usize,
    pub points: usize,
    pub exact: usize,
}

#[repr(C)]
#[derive(Debug, PartialEq)]
pub struct Choosing {
    pub number: usize,
    pub place: usize,
    pub points: usize,
    pub cuts: usize,
    pub exact: usize,
}

#[repr(C)]
#[derive(Debug, PartialEq)]
pub struct Editing {
    pub number: usize,
    pub place: usize,
    pub count: usize,
    pub first: usize,
    pub fresh: usize,
    pub exact: usize,
}

#[repr(C)]
#[derive(Debug, PartialEq)]
pub struct Previewing {
    pub number: usize,
    pub place: usize,
    pub points: usize,
}

extern "C" {
    pub fn quorilanth_by_weights(
        basis: usize,
        depth: usize,
        count: usize,
        parameter: usize,
        controls: *const i32,
        controls_len: usize,
        points: *mut i32,
        points_len: usize,
    ) -> Drawing;

    pub fn quorilanth_by_halving(
        basis: usize,
        depth: usize,
        count: usize,
        parameter: usize,
        controls: *const i32,
        controls_len: usize,
        points: *mut i32,
        points_len: usize,
    ) -> Drawing;

    pub fn quorilanth_by_differences(
        basis: usize,
        depth: usize,
        count: usize,
        parameter: usize,
        controls: *const i32,
        controls_len: usize,
        points: *mut i32,
        points_len: usize,
    ) -> Drawing;

    pub fn quorilanth_by_tolerance(
        basis: usize,
        depth: usize,
        count: usize,
        parameter: usize,
        tolerance: usize,
        most: usize,
        controls: *const i32,
        controls_len: usize,
        points: *mut i32,
        points_len: usize,
    ) -> Choosing;

    pub fn quorilanth_move(
        basis: usize,
        depth: usize,
        count: usize,
        parameter: usize,
        place: usize,
        x: i32,
        y: i32,
        controls: *mut i32,
        controls_len: usize,
        points: *mut i32,
        points_len: usize,
    ) -> Editing;

    pub fn quorilanth_insert(
        basis: usize,
        depth: usize,
        count: usize,
        parameter: usize,
        place: usize,
        x: i32,
        y: i32,
        controls: *mut i32,
        controls_len: usize,
        points: *mut i32,
        points_len: usize,
    ) -> Editing;

    pub fn quorilanth_remove(
        basis: usize,
        depth: usize,
        count: usize,
        parameter: usize,
        place: usize,
        controls: *mut i32,
        controls_len: usize,
        points: *mut i32,
        points_len: usize,
    ) -> Editing;

    pub fn quorilanth_preview(
        basis: usize,
        depth: usize,
        count: usize,
        parameter: usize,
        controls: *const i32,
        controls_len: usize,
        points: *mut f64,
        points_len: usize,
    ) -> Previewing;
}
