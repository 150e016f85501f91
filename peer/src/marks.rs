//! A mark of the first drawing carried to the second. 02, K1.
//!
//! 02 weighs the corners of a wedge by areas. Here the weights are solved for: from the wedge's
//! centre, so much of the way to one corner and so much of the way to the other lead to the mark,
//! which is an equation for x and one for y. The same parts of the ways of the second drawing lead
//! to the place.

use crate::cutting;
use crate::desk::{self, refused, Outcome, Search};
use crate::drawing::{self, in_range, turn, Corner};
use crate::fraction::Fraction;
use crate::telling::Piece;

#[derive(Clone, Copy, Debug, PartialEq, Eq)]
pub struct Mark {
    pub x: i32,
    pub y: i32,
}

/// The refusal of a mark out of range, after those of 01.
pub const OUT_OF_RANGE: u8 = 10;

/// One axis of a place: whole steps, rounded down also below zero, and the rest of a step.
#[derive(Clone, Copy, Debug)]
pub struct Axis {
    pub step: i64,
    pub rest: f64,
}

/// To the last bit of the rest.
impl PartialEq for Axis {
    fn eq(&self, other: &Axis) -> bool {
        self.step == other.step && self.rest.to_bits() == other.rest.to_bits()
    }
}

impl Eq for Axis {}

/// The result: that of the pair's answer or number 10, and the place, x and y. Without a place the
/// mark is on no piece.
#[derive(Clone, Copy, Debug, PartialEq, Eq)]
pub struct Carried {
    pub outcome: Outcome,
    pub place: Option<[Axis; 2]>,
}

/// Carries a mark. The room is used as by the answer, whether the mark lands or not; a refusal
/// leaves every byte.
pub fn carry(first: &[i32], second: &[i32], mark: Mark, room: &mut [u8]) -> Carried {
    carry_by(cutting::first_smallest, first, second, mark, room)
}

/// The same by the answer that another search gives.
pub fn carry_by(
    search: Search,
    first: &[i32],
    second: &[i32],
    mark: Mark,
    room: &mut [u8],
) -> Carried {
    let mut answered = room.to_vec();
    let outcome = desk::answer_by(search, first, second, &mut answered);
    let mark = Corner::at(i64::from(mark.x), i64::from(mark.y));
    if outcome.number != 0 {
        return Carried { outcome, place: None };
    }
    if !in_range(&mark) {
        return Carried { outcome: refused(OUT_OF_RANGE), place: None };
    }
    room.copy_from_slice(&answered);
    let wedges = wedges(&desk::told(&room[..outcome.bytes]));
    let drawings = [drawing::corners(first), drawing::corners(second)];
    let holder = wedges.into_iter().find(|wedge| holds(at(&drawings[0], wedge), mark));
    let place = holder.map(|wedge| place(&drawings, &wedge, mark).map(axis));
    Carried { outcome, place }
}

/// A wedge: the number of a piece's centre, then those of two other corners that follow each other
/// round the piece.
pub type Wedge = [usize; 3];

/// All wedges: piece after piece, in a piece from its first two corners on to the last with the
/// first.
pub fn wedges(pieces: &[Piece]) -> Vec<Wedge> {
    let mut wedges = Vec::new();
    for Piece { centre, corners } in pieces {
        let nexts = corners.iter().cycle().skip(1);
        let twos = corners.iter().zip(nexts).filter(|(a, b)| *a != centre && *b != centre);
        wedges.extend(twos.map(|(&a, &b)| [*centre, a, b]));
    }
    wedges
}

/// The wedge's corners in a drawing.
pub fn at(drawing: &[Corner], wedge: &Wedge) -> [Corner; 3] {
    wedge.map(|i| drawing[i])
}

/// Whether a wedge with these corners has area and the mark lies in or on it: along its sides, one
/// after another, the mark is never on the right, or never on the left.
pub fn holds([c, a, b]: [Corner; 3], mark: Corner) -> bool {
    let turns = [turn(c, a, mark), turn(a, b, mark), turn(b, c, mark)];
    let one_way = turns.iter().all(|&t| t >= 0) || turns.iter().all(|&t| t <= 0);
    turn(c, a, b) != 0 && one_way
}

/// Where the wedge, which has area in the first drawing, puts the mark in the second: x and y.
pub fn place([first, second]: &[Vec<Corner>; 2], wedge: &Wedge, mark: Corner) -> [Fraction; 2] {
    let parts = parts(at(first, wedge), mark);
    let [c, a, b] = at(second, wedge);
    AXES.map(|along| {
        let way = |to: Corner| Fraction::whole(along(to) - along(c));
        Fraction::whole(along(c)) + parts[0] * way(a) + parts[1] * way(b)
    })
}

const AXES: [fn(Corner) -> i64; 2] = [|p| p.x, |p| p.y];

/// How much of the way from c to a and how much of that from c to b lead from c to the mark. In
/// lowest terms what stands under each divides the doubled area, at most 8 * 10^12, and no product
/// comes near the end of i128.
fn parts([c, a, b]: [Corner; 3], mark: Corner) -> [Fraction; 2] {
    let row =
        |along: fn(Corner) -> i64| [a, b, mark].map(|to| Fraction::whole(along(to) - along(c)));
    let [mut one, mut other] = AXES.map(row);
    if one[0] == Fraction::whole(0) {
        std::mem::swap(&mut one, &mut other);
    }
    // The first unknown goes out of the other equation.
    let times = other[0] / one[0];
    let to_b = (other[2] - times * one[2]) / (other[1] - times * one[1]);
    [(one[2] - to_b * one[1]) / one[0], to_b]
}

/// n/d as s and k/d with n = s*d + k and 0 <= k < d. In lowest terms the d of a place divides the
/// wedge's doubled area: k and d are below 2^53, f64 holds both, and the quotient is rounded once.
pub fn axis(Fraction { over: n, under: d }: Fraction) -> Axis {
    let (step, k) = (n.div_euclid(d) as i64, n.rem_euclid(d));
    Axis { step, rest: k as f64 / d as f64 }
}

/// The result as the call for C has it: `lands` is 1 with a place, and without one it and the axes
/// are zeros.
#[derive(Clone, Copy, Debug, PartialEq, Eq)]
pub struct Flat {
    pub outcome: Outcome,
    pub lands: u8,
    pub axes: [Axis; 2],
}

impl From<Carried> for Flat {
    fn from(Carried { outcome, place }: Carried) -> Flat {
        let nowhere = [Axis { step: 0, rest: 0.0 }; 2];
        Flat { outcome, lands: u8::from(place.is_some()), axes: place.unwrap_or(nowhere) }
    }
}
