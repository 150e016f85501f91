//! Drawings on squared paper: straight corners, and lines that touch many corners, from inside and
//! from outside.

use super::dice::Dice;
use super::shapes::with_corners;
use crate::drawing::{turn, Corner};
use std::collections::{BTreeMap, BTreeSet};

/// A rectangle whose sides have straight corners, as many as are wanted.
pub fn rectangle(dice: &mut Dice, n: usize) -> Option<Vec<Corner>> {
    let (width, height) = (dice.between(1, n as i64), dice.between(1, n as i64));
    let corners = [(0, 0), (width, 0), (width, height), (0, height)];
    with_corners(dice, corners.map(|(x, y)| Corner::at(x, y)).to_vec(), n)
}

/// A wall with teeth, and straight corners where they fall.
pub fn some_battlements(dice: &mut Dice, n: usize) -> Option<Vec<Corner>> {
    let teeth = dice.between(1, (n as i64 / 4).max(1)) as usize;
    let height = dice.between(1, 4);
    with_corners(dice, battlements(teeth, height), n)
}

/// A wall of height 1 with teeth one square wide and so many high, one square apart: four corners
/// for each of them. A line from tooth to tooth along their tops runs outside, and one along the
/// gaps between them inside.
///
/// ```text
///      _   _   _
///     | | | | | |
///     | |_| |_| |
///     |_________|
/// ```
pub fn battlements(teeth: usize, height: i64) -> Vec<Corner> {
    let last = teeth as i64 - 1;
    let mut corners = vec![Corner::at(0, 0), Corner::at(2 * last + 1, 0)];
    for tooth in (0..=last).rev() {
        let (left, right) = (2 * tooth, 2 * tooth + 1);
        if tooth < last {
            corners.push(Corner::at(right, 1));
        }
        corners.extend([Corner::at(right, 1 + height), Corner::at(left, 1 + height)]);
        if tooth > 0 {
            corners.push(Corner::at(left, 1));
        }
    }
    corners
}

/// Stairs that rise from right to left: their outer corners are on one line, and their inner ones
/// on another.
pub fn stairs(dice: &mut Dice, n: usize) -> Option<Vec<Corner>> {
    let steps = dice.between(1, (n as i64 / 2 - 1).max(1));
    let (width, height) = (dice.between(1, 2), dice.between(1, 2));
    let mut corners = vec![Corner::at(0, 0)];
    for step in 0..steps {
        let x = width * (steps - step);
        corners.extend([Corner::at(x, height * step), Corner::at(x, height * (step + 1))]);
    }
    corners.push(Corner::at(0, height * steps));
    with_corners(dice, corners, n)
}

/// Corners on two level lines: all but one on the lower, or as many as there are, any distance
/// apart.
pub fn levels(dice: &mut Dice, n: usize) -> Vec<Corner> {
    let upper = if dice.once_in(3) { 1 } else { 1 + dice.below(n - 2) };
    let most = dice.pick(&[1, 2, 5]);
    let height = dice.between(1, 5);
    let mut row = |count: usize, y: i64| {
        let mut x = dice.between(-3, 3);
        let mut corners = Vec::new();
        for _ in 0..count {
            corners.push(Corner::at(x, y));
            x += dice.between(1, most);
        }
        corners
    };
    let (lower, upper) = (row(n - upper, 0), row(upper, height));
    lower.into_iter().chain(upper.into_iter().rev()).collect()
}

/// The outline of squares joined side to side, with or without its straight corners.
pub fn rectilinear(dice: &mut Dice, n: usize) -> Option<Vec<Corner>> {
    let mut squares = BTreeSet::from([(0, 0)]);
    let mut outline = outline_of(&squares)?;
    let straight = dice.once_in(2);
    for _ in 0..4 * n {
        let side = dice.below(outline.len());
        let square = square_beyond(outline[side], outline[(side + 1) % outline.len()]);
        squares.insert(square);
        let fits = |grown: &Vec<Corner>| {
            grown.len() <= n || !straight && without_straight(grown).len() <= n
        };
        match outline_of(&squares).filter(fits) {
            Some(grown) => outline = grown,
            None => {
                squares.remove(&square);
            }
        }
    }
    if !straight {
        outline = without_straight(&outline);
    }
    with_corners(dice, outline, n)
}

/// The square, named by its lower left corner, on the outer side of a step of the outline.
fn square_beyond(a: Corner, b: Corner) -> (i64, i64) {
    let (dx, dy) = (b.x - a.x, b.y - a.y);
    let twice = (a.x + b.x + dy, a.y + b.y - dx);
    ((twice.0 - 1).div_euclid(2), (twice.1 - 1).div_euclid(2))
}

/// The outline in steps of one, if it is one loop that does not touch itself.
fn outline_of(squares: &BTreeSet<(i64, i64)>) -> Option<Vec<Corner>> {
    let mut steps = BTreeMap::new();
    for &(x, y) in squares {
        let corners = [(x, y), (x + 1, y), (x + 1, y + 1), (x, y + 1)];
        let beyond = [(x, y - 1), (x + 1, y), (x, y + 1), (x - 1, y)];
        for side in (0..4).filter(|&side| !squares.contains(&beyond[side])) {
            if steps.insert(corners[side], corners[(side + 1) % 4]).is_some() {
                return None;
            }
        }
    }
    let (&start, &(mut at)) = steps.first_key_value()?;
    let mut outline = vec![start];
    while at != start {
        outline.push(at);
        at = steps[&at];
    }
    let corner = |(x, y)| Corner::at(x, y);
    (outline.len() == steps.len()).then(|| outline.into_iter().map(corner).collect())
}

fn without_straight(drawing: &[Corner]) -> Vec<Corner> {
    let n = drawing.len();
    let bends = |k: &usize| turn(drawing[(k + n - 1) % n], drawing[*k], drawing[(k + 1) % n]) != 0;
    (0..n).filter(bends).map(|k| drawing[k]).collect()
}
