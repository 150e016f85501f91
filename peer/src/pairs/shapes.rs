//! Sound drawings of many shapes. Each shape is asked for n corners and gives just so many.

use super::dice::Dice;
use super::{squared, traced};
use crate::drawing::{
    doubled_area, in_range, judge, share_a_point, share_only, turn, Corner, Judged, FARTHEST,
};

#[derive(Clone, Copy, Debug, PartialEq, Eq)]
pub enum Shape {
    /// Grown on a small grid: grazing lines, straight corners, ties.
    Grid,
    /// Grown over the whole coordinate range.
    Wide,
    Spiral,
    Comb,
    /// Squares joined side to side.
    Rectilinear,
    /// A rectangle with straight corners.
    Rectangle,
    /// A wall with teeth of squares.
    Battlements,
    Stairs,
    /// Corners on two level lines, all but one of them on one line perhaps.
    Levels,
    Star,
    Convex,
    /// Something round, traced from a photograph.
    Blob,
    /// An arm or a tail, traced from a photograph.
    Limb,
}

pub const SHAPES: [Shape; 13] = [
    Shape::Grid,
    Shape::Wide,
    Shape::Spiral,
    Shape::Comb,
    Shape::Rectilinear,
    Shape::Rectangle,
    Shape::Battlements,
    Shape::Stairs,
    Shape::Levels,
    Shape::Star,
    Shape::Convex,
    Shape::Blob,
    Shape::Limb,
];

/// A sound drawing of the shape with n corners, at least 3.
pub fn drawing(dice: &mut Dice, shape: Shape, n: usize) -> Vec<Corner> {
    loop {
        let shaped = match shape {
            Shape::Grid => grid(dice, n),
            Shape::Wide => grow(dice, n, FARTHEST),
            Shape::Spiral => some_spiral(dice, n),
            Shape::Comb => comb(dice, n),
            Shape::Rectilinear => squared::rectilinear(dice, n),
            Shape::Rectangle => squared::rectangle(dice, n),
            Shape::Battlements => squared::some_battlements(dice, n),
            Shape::Stairs => squared::stairs(dice, n),
            Shape::Levels => Some(squared::levels(dice, n)),
            Shape::Star => star(dice, n),
            Shape::Convex => convex(dice, n),
            Shape::Blob => Some(traced::blob(dice, n)),
            Shape::Limb => Some(traced::limb(dice, n)),
        };
        if let Some(shaped) = shaped {
            if judge(&shaped) == Judged::Sound {
                return shaped;
            }
        }
    }
}

fn some_corner(dice: &mut Dice, reach: i64) -> Corner {
    let mut coordinate = || match dice.below(24) {
        0 => reach,
        1 => -reach,
        _ => dice.between(-reach, reach),
    };
    Corner::at(coordinate(), coordinate())
}

fn anticlockwise(mut drawing: Vec<Corner>) -> Vec<Corner> {
    if doubled_area(&drawing) < 0 {
        drawing.reverse();
    }
    drawing
}

fn grid(dice: &mut Dice, n: usize) -> Option<Vec<Corner>> {
    let least = (1..).find(|r| (2 * r + 1) * (2 * r + 1) >= 2 * n).unwrap_or(1) as i64;
    let reach = least + dice.between(0, 3);
    grow(dice, n, reach)
}

/// Grows a triangle by one corner after another, wherever the drawing stays simple.
fn grow(dice: &mut Dice, n: usize, reach: i64) -> Option<Vec<Corner>> {
    let mut drawing: Vec<Corner> = (0..3).map(|_| some_corner(dice, reach)).collect();
    if judge(&drawing) == Judged::NotSimple {
        return None;
    }
    let mut tries = 0;
    while drawing.len() < n {
        tries += 1;
        if tries > 20 * n {
            return None;
        }
        let corner = some_corner(dice, reach);
        let start = dice.below(drawing.len());
        let mut sides = (start..drawing.len()).chain(0..start);
        if let Some(side) = sides.find(|&side| takes(&drawing, side, corner)) {
            drawing.insert(side + 1, corner);
        }
    }
    Some(anticlockwise(drawing))
}

/// Whether a simple drawing stays simple when the corner is put into the side.
fn takes(drawing: &[Corner], side: usize, corner: Corner) -> bool {
    let n = drawing.len();
    let at = |k: usize| drawing[(side + k) % n];
    let (a, b) = (at(0), at(1));
    let apart =
        |c: Corner, d: Corner| !share_a_point(a, corner, c, d) && !share_a_point(corner, b, c, d);
    corner != a
        && corner != b
        && share_only(corner, a, b)
        && share_only(a, at(n - 1), corner)
        && share_only(b, at(2), corner)
        && !share_a_point(corner, b, at(n - 1), a)
        && !share_a_point(a, corner, b, at(2))
        && (2..n - 1).all(|k| apart(at(k), at(k + 1)))
}

/// A corridor that winds outwards and turns as often as n corners allow.
fn some_spiral(dice: &mut Dice, n: usize) -> Option<Vec<Corner>> {
    let gap = dice.between(1, 3);
    let width = dice.between(1, 4 * gap - 1);
    with_corners(dice, spiral(n, gap, width), n)
}

/// The spiral of 2m+4 corners, at most n but at least 4: arms at distances that rise by `gap`,
/// each as wide as `width`, which is below four gaps.
pub fn spiral(n: usize, gap: i64, width: i64) -> Vec<Corner> {
    let turns = n.saturating_sub(4) / 2;
    let inner = |arm: usize| gap * (arm as i64 + 1);
    let outer = |arm: usize| inner(arm) + width;
    let mut corners = vec![arm_corner(0, outer(0), 0)];
    corners.extend((0..turns).map(|k| arm_corner(k, outer(k), outer(k + 1))));
    corners.push(arm_corner(turns, outer(turns), inner(turns + 1)));
    corners.push(arm_corner(turns, inner(turns), inner(turns + 1)));
    corners.extend((0..turns).rev().map(|k| arm_corner(k, inner(k), inner(k + 1))));
    corners.push(arm_corner(0, inner(0), 0));
    corners
}

/// Arms run right, up, left, down in turn; `across` is an arm's distance from the middle.
fn arm_corner(arm: usize, across: i64, along: i64) -> Corner {
    let (x, y) = match arm % 4 {
        0 => (along, -across),
        1 => (across, along),
        2 => (-along, across),
        _ => (-across, -along),
    };
    Corner::at(x, y)
}

/// A back along the bottom, and teeth that rise and fall from right to left.
fn comb(dice: &mut Dice, n: usize) -> Option<Vec<Corner>> {
    let (step, depth) = (dice.between(1, 6), dice.pick(&[3, 10, 1000]));
    let even = dice.once_in(2);
    let width = step * n as i64;
    let mut corners = vec![Corner::at(0, 0), Corner::at(width, 0)];
    for k in 2..n {
        let low = if even { 1 } else { dice.between(1, depth) };
        let y = if k % 2 == 0 { depth + low } else { low };
        let x = width - step * (k as i64 - 2);
        corners.push(Corner::at(x, y));
    }
    Some(corners)
}

/// Corners in all directions, taken in turn.
fn star(dice: &mut Dice, n: usize) -> Option<Vec<Corner>> {
    let reach = dice.pick(&[6, 12, 100, 10_000, FARTHEST]).max(2 * n as i64);
    let mut corners: Vec<Corner> = (0..4 * n).map(|_| some_corner(dice, reach)).collect();
    let centre = Corner::at(0, 0);
    corners.retain(|&c| c != centre);
    corners.truncate(n + n / 4);
    in_turn(&mut corners);
    corners.dedup_by(|b, a| !share_only(centre, *a, *b));
    while corners.len() > n {
        corners.remove(dice.below(corners.len()));
    }
    (corners.len() == n).then_some(corners)
}

/// Sorts by direction from (0,0), which is none of the corners, anticlockwise from the right.
fn in_turn(corners: &mut [Corner]) {
    let origin = Corner::at(0, 0);
    let lower = |c: &Corner| c.y < 0 || c.y == 0 && c.x < 0;
    corners.sort_by(|a, b| lower(a).cmp(&lower(b)).then(0.cmp(&turn(origin, *a, *b))));
}

/// Random steps that add up to nothing, taken in the order of their directions.
fn convex(dice: &mut Dice, n: usize) -> Option<Vec<Corner>> {
    let reach = dice.pick(&[8, 50, 1000, FARTHEST / 64]);
    let mut steps: Vec<Corner> = (1..n).map(|_| some_corner(dice, reach)).collect();
    let last = Corner::at(
        -steps.iter().map(|s| s.x).sum::<i64>(),
        -steps.iter().map(|s| s.y).sum::<i64>(),
    );
    steps.push(last);
    if steps.contains(&Corner::at(0, 0)) {
        return None;
    }
    in_turn(&mut steps);
    let mut at = Corner::at(0, 0);
    let mut corners = Vec::new();
    for step in steps {
        corners.push(at);
        at = Corner::at(at.x + step.x, at.y + step.y);
    }
    Some(corners)
}

/// The drawing with n corners: some left out, or straight ones put into its sides.
pub fn with_corners(dice: &mut Dice, mut drawing: Vec<Corner>, n: usize) -> Option<Vec<Corner>> {
    let mut tries = 0;
    while drawing.len() != n {
        tries += 1;
        if tries > 20 * n {
            return None;
        }
        let at = dice.below(drawing.len());
        if drawing.len() > n {
            let mut fewer = drawing.clone();
            fewer.remove(at);
            if judge(&fewer) == Judged::Sound {
                drawing = fewer;
            }
        } else if let Some(corner) =
            inner_point(dice, drawing[at], drawing[(at + 1) % drawing.len()])
        {
            drawing.insert(at + 1, corner);
        } else if tries % 8 == 0 {
            drawing = doubled(&drawing)?;
        }
    }
    Some(drawing)
}

/// A whole-number point between the ends of a side.
pub fn inner_point(dice: &mut Dice, a: Corner, b: Corner) -> Option<Corner> {
    let (dx, dy) = (b.x - a.x, b.y - a.y);
    let parts = common_divisor(dx.abs(), dy.abs());
    (parts > 1).then(|| {
        let k = dice.between(1, parts - 1);
        Corner::at(a.x + dx / parts * k, a.y + dy / parts * k)
    })
}

pub fn common_divisor(a: i64, b: i64) -> i64 {
    if b == 0 {
        a
    } else {
        common_divisor(b, a % b)
    }
}

/// The drawing at twice the size, if that is in range.
fn doubled(drawing: &[Corner]) -> Option<Vec<Corner>> {
    let doubled = drawing.iter().map(|c| Corner::at(2 * c.x, 2 * c.y));
    let doubled: Vec<Corner> = doubled.collect();
    doubled.iter().all(in_range).then_some(doubled)
}
