//! The shapes of outlines: a basis, a depth and how many records.

/// The bases by the numbers that the library knows them by.
#[derive(Clone, Copy, Debug, PartialEq)]
pub enum Basis {
    Bezier = 1,
    BSpline = 2,
    Cardinal = 3,
    Hermite = 4,
    Loop = 5,
}

pub const BASES: [Basis; 5] = [
    Basis::Bezier,
    Basis::BSpline,
    Basis::Cardinal,
    Basis::Hermite,
    Basis::Loop,
];

/// The most records that an outline may have.
pub const MOST_RECORDS: usize = 64;

/// The deepest depth that the library draws.
pub const DEEPEST: usize = 8;

/// The depth at which the bases, the edits and the numbers of spans are timed.
pub const DEPTH: usize = 6;

impl Basis {
    /// How many spans so many records make.
    pub fn spans(self, count: usize) -> usize {
        match self {
            Basis::Bezier => (count - 1) / 3,
            Basis::BSpline | Basis::Cardinal => count - 3,
            Basis::Hermite => (count - 2) / 2,
            Basis::Loop => count,
        }
    }

    /// From the first record of a span to that of the next.
    pub fn stride(self) -> usize {
        match self {
            Basis::Bezier => 3,
            Basis::Hermite => 2,
            Basis::BSpline | Basis::Cardinal | Basis::Loop => 1,
        }
    }

    pub fn name(self) -> &'static str {
        match self {
            Basis::Bezier => "Bezier",
            Basis::BSpline => "B-spline",
            Basis::Cardinal => "cardinal",
            Basis::Hermite => "Hermite",
            Basis::Loop => "loop",
        }
    }
}

#[derive(Clone, Copy, Debug, PartialEq)]
pub struct Shape {
    pub basis: Basis,
    pub depth: usize,
    pub count: usize,
}

impl Shape {
    /// As many records as an outline may have, at the depth at which most is timed.
    pub fn full(basis: Basis) -> Shape {
        Shape {
            basis,
            depth: DEPTH,
            count: MOST_RECORDS,
        }
    }

    pub fn spans(self) -> usize {
        self.basis.spans(self.count)
    }

    /// How many steps a span has.
    pub fn steps(self) -> usize {
        1 << self.depth
    }

    /// The start of every step, and the end of the last.
    pub fn points(self) -> usize {
        self.spans() * self.steps() + 1
    }
}
