//! Drawings, pairs, marks, lists, calls and inputs to try, made from a seed.

pub mod calls;
pub mod damage;
pub mod dice;
pub mod lists;
pub mod marks;
pub mod partners;
pub mod rules;
pub mod shapes;
pub mod squared;
pub mod streams;
pub mod traced;

use crate::drawing::{Corner, FEWEST_CORNERS, MOST_CORNERS};
use crate::frames::{frame, FIRST, HIGHEST, LOWEST, SECOND};
use dice::Dice;
use shapes::{Shape, SHAPES};

/// Two lists, as they are handed to the desk.
#[derive(Clone, Debug, PartialEq, Eq)]
pub struct Pair {
    pub first: Vec<i32>,
    pub second: Vec<i32>,
}

impl Pair {
    pub fn of([first, second]: &[Vec<Corner>; 2]) -> Pair {
        Pair { first: list(first), second: list(second) }
    }

    /// The pair's two lines, if it can be told in frames.
    pub fn frames(&self) -> Option<Vec<u8>> {
        let told = |list: &[i32]| {
            let fits = |number: &i32| (LOWEST..=HIGHEST).contains(number);
            list.len().is_multiple_of(2) && list.len() <= 2 * MOST_CORNERS && list.iter().all(fits)
        };
        let both = told(&self.first) && told(&self.second);
        both.then(|| [frame(FIRST, &self.first), frame(SECOND, &self.second)].concat())
    }
}

/// The list of a drawing: x0, y0, x1, y1 and so on.
pub fn list(corners: &[Corner]) -> Vec<i32> {
    let numbers = corners.iter().flat_map(|c| [c.x as i32, c.y as i32]);
    numbers.collect()
}

/// What a pair is made from.
#[derive(Clone, Copy, Debug, PartialEq, Eq)]
pub enum Kind {
    /// A sound first drawing of this shape with a sound second one.
    Shaped(Shape),
    /// A pair of any shape, damaged in some way that frames can tell.
    Damaged,
    /// A pair damaged in a way that only lists can be.
    Lists,
    /// Any of these but the last.
    Mixed,
}

/// The kinds whose pairs can be told in frames, by name.
pub const KINDS: [(&str, Kind); 15] = [
    ("grid", Kind::Shaped(Shape::Grid)),
    ("wide", Kind::Shaped(Shape::Wide)),
    ("spiral", Kind::Shaped(Shape::Spiral)),
    ("comb", Kind::Shaped(Shape::Comb)),
    ("rectilinear", Kind::Shaped(Shape::Rectilinear)),
    ("rectangle", Kind::Shaped(Shape::Rectangle)),
    ("battlements", Kind::Shaped(Shape::Battlements)),
    ("stairs", Kind::Shaped(Shape::Stairs)),
    ("levels", Kind::Shaped(Shape::Levels)),
    ("star", Kind::Shaped(Shape::Star)),
    ("convex", Kind::Shaped(Shape::Convex)),
    ("blob", Kind::Shaped(Shape::Blob)),
    ("limb", Kind::Shaped(Shape::Limb)),
    ("damaged", Kind::Damaged),
    ("mixed", Kind::Mixed),
];

/// A pair of the kind, with few corners more often than with many.
pub fn pair(dice: &mut Dice, kind: Kind) -> Pair {
    let most = dice.pick(&[6, 8, 8, 10, 12, 16, 24, 40, 64]);
    pair_up_to(dice, kind, most)
}

/// A pair of the kind with at most so many corners, save where the damage adds some.
pub fn pair_up_to(dice: &mut Dice, kind: Kind, most: usize) -> Pair {
    match kind {
        Kind::Shaped(shape) => Pair::of(&sound(dice, shape, most)),
        Kind::Damaged => {
            let mut drawings = some_sound(dice, most);
            damage::damage(dice, &mut drawings);
            Pair::of(&drawings)
        }
        Kind::Lists => {
            let mut pair = Pair::of(&some_sound(dice, most));
            damage::damage_lists(dice, &mut pair);
            pair
        }
        Kind::Mixed if dice.once_in(5) => pair_up_to(dice, Kind::Damaged, most),
        Kind::Mixed => Pair::of(&some_sound(dice, most)),
    }
}

fn some_sound(dice: &mut Dice, most: usize) -> [Vec<Corner>; 2] {
    let shape = dice.pick(&SHAPES);
    sound(dice, shape, most)
}

/// Two sound drawings: the second made for the first, either of them perhaps stretched to the
/// border of the range, and corner 0 any of theirs.
fn sound(dice: &mut Dice, shape: Shape, most: usize) -> [Vec<Corner>; 2] {
    let least = if dice.once_in(16) { most } else { FEWEST_CORNERS };
    let n = dice.between(least as i64, most as i64) as usize;
    let first = shapes::drawing(dice, shape, n);
    let second = partners::partner(dice, &first);
    let k = dice.below(n);
    [first, second].map(|drawing| {
        let stretched = dice.once_in(8).then(|| rules::stretched(dice, &drawing));
        rules::renumbered(&stretched.flatten().unwrap_or(drawing), k)
    })
}
