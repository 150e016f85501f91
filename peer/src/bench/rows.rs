//! The kinds of pairs that are measured.

use crate::drawing::{Corner, MOST_CORNERS};
use crate::pairs::dice::Dice;
use crate::pairs::shapes::{self, Shape};
use crate::pairs::{squared, Pair};

const SEED: u64 = 1;

/// How many pairs a kind has that is drawn by chance.
const PAIRS: usize = 16;

/// A kind of pairs: its name, and its pairs of n corners.
pub type Kind = (&'static str, fn(usize) -> Vec<Pair>);

pub const KINDS: [Kind; 12] = [
    ("convex with itself", convex),
    ("spiral, sheared copy", spiral),
    ("two stars", two_stars),
    ("star with itself", |n| with_itself(Shape::Star, n)),
    ("comb with itself", |n| with_itself(Shape::Comb, n)),
    ("wall on squared paper", wall),
    ("rectangle, straight corners", rectangle),
    ("comb on squares", comb_on_squares),
    ("corners on one line", one_line),
    ("traced blob", |n| with_itself(Shape::Blob, n)),
    ("traced limb", |n| with_itself(Shape::Limb, n)),
    ("grown by chance", |n| with_itself(Shape::Wide, n)),
];

/// The numbers of corners that are measured.
pub fn sizes() -> impl Iterator<Item = usize> {
    [8, 16, 32, 64, 128].into_iter().filter(|&n| n <= MOST_CORNERS)
}

/// Corners on a parabola: every corner sees every other.
fn convex(n: usize) -> Vec<Pair> {
    let drawing: Vec<Corner> = (0..n as i64).map(|t| Corner::at(t, t * t)).collect();
    vec![Pair::of(&[drawing.clone(), drawing])]
}

fn spiral(n: usize) -> Vec<Pair> {
    let drawing = shapes::spiral(n, 2, 4);
    let sheared = drawing.iter().map(|c| Corner::at(c.x + c.y, c.y));
    vec![Pair::of(&[drawing.clone(), sheared.collect()])]
}

/// A wall one square high with battlements of one square, and along its foot as many corners as are
/// left. Of the lines between two of 64 corners 42 in a hundred touch a third.
///
/// ```text
///      _   _   _
///     | |_| |_| |
///     |_._._._._|
/// ```
fn wall(n: usize) -> Vec<Pair> {
    let merlons = (n + 2).div_ceil(6) as i64;
    let width = 2 * merlons - 1;
    let along = n as i64 - 4 * merlons;
    let mut drawing: Vec<Corner> = (0..=along).map(|x| Corner::at(x, 0)).collect();
    drawing.push(Corner::at(width, 0));
    for left in (0..merlons).rev().map(|k| 2 * k) {
        let corners = [(left + 1, 1), (left + 1, 2), (left, 2), (left, 1)];
        let bends = |&(x, y): &(i64, i64)| y == 2 || 0 < x && x < width;
        drawing.extend(corners.iter().filter(|c| bends(c)).map(|&(x, y)| Corner::at(x, y)));
    }
    vec![Pair::of(&[drawing.clone(), drawing])]
}

/// A square with a straight corner at each step: n/4 corners a side.
fn rectangle(n: usize) -> Vec<Pair> {
    let side = n as i64 / 4;
    let steps = || 0..side;
    let lower = steps().map(|k| Corner::at(k, 0)).chain(steps().map(|k| Corner::at(side, k)));
    let upper = steps().map(|k| Corner::at(side - k, side));
    let left = steps().map(|k| Corner::at(0, side - k));
    let drawing: Vec<Corner> = lower.chain(upper).chain(left).collect();
    vec![Pair::of(&[drawing.clone(), drawing])]
}

/// Teeth three squares high: lines along their tops touch them from outside, lines along the gaps
/// between them from inside.
fn comb_on_squares(n: usize) -> Vec<Pair> {
    let drawing = squared::battlements(n / 4, 3);
    vec![Pair::of(&[drawing.clone(), drawing])]
}

/// All corners but one.
fn one_line(n: usize) -> Vec<Pair> {
    let along = n as i64 - 1;
    let mut drawing: Vec<Corner> = (0..along).map(|x| Corner::at(x, 0)).collect();
    drawing.push(Corner::at(along / 2, along));
    vec![Pair::of(&[drawing.clone(), drawing])]
}

/// Two star-shaped drawings have next to no sight in common.
fn two_stars(n: usize) -> Vec<Pair> {
    let mut dice = Dice::new(SEED);
    let mut pair = || Pair::of(&[0, 1].map(|_| shapes::drawing(&mut dice, Shape::Star, n)));
    (0..PAIRS).map(|_| pair()).collect()
}

/// Drawings of the shape, each with itself.
fn with_itself(shape: Shape, n: usize) -> Vec<Pair> {
    let mut dice = Dice::new(SEED);
    let mut pair = || {
        let drawing = shapes::drawing(&mut dice, shape, n);
        Pair::of(&[drawing.clone(), drawing])
    };
    (0..PAIRS).map(|_| pair()).collect()
}
