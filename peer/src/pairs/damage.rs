//! Faults of every kind for the two drawings of a pair. Some leave a drawing sound by chance, so
//! that the border between sound and unsound is tried from both sides.

use super::dice::Dice;
use super::shapes::common_divisor;
use super::Pair;
use crate::drawing::{Corner, FARTHEST, MOST_CORNERS};
use crate::frames::{HIGHEST, LOWEST};

/// A fault in one drawing.
type Fault = fn(&mut Dice, &mut [Corner]);

const FAULTS: [Fault; 12] = [
    crossing,
    repeated,
    repeated_next,
    all_on_a_line,
    there_and_back,
    all_one_point,
    corner_on_side,
    spike,
    clockwise,
    just_out_of_range,
    far_out_of_range,
    nudged,
];

/// Damages one of the drawings, or both, or their counts, in a way that frames can tell.
pub fn damage(dice: &mut Dice, drawings: &mut [Vec<Corner>; 2]) {
    let one = dice.below(2);
    match dice.below(16) {
        0 => drop(drawings[one].pop()),
        1 => {
            let n = dice.below(3);
            drawings.iter_mut().for_each(|drawing| drawing.truncate(n));
        }
        2 | 3 => {
            for drawing in drawings {
                dice.pick(&FAULTS)(dice, drawing);
            }
        }
        _ => dice.pick(&FAULTS)(dice, &mut drawings[one]),
    }
}

/// Damages a pair as only lists can be: odd ones, a corner too many, numbers that three bytes do not hold.
pub fn damage_lists(dice: &mut Dice, pair: &mut Pair) {
    let mut lists = [&mut pair.first, &mut pair.second];
    let one = dice.below(2);
    match dice.below(6) {
        0 => lists[one].push(1),
        1 => drop(lists[one].pop()),
        2 => lists.iter_mut().for_each(|list| list.push(1)),
        3 => lists.iter_mut().for_each(|list| list.resize(2 * (MOST_CORNERS + 1), 7)),
        4 => beyond_three_bytes(dice, lists[one]),
        _ => lists.iter_mut().for_each(|list| beyond_three_bytes(dice, list)),
    }
}

fn beyond_three_bytes(dice: &mut Dice, list: &mut [i32]) {
    let at = dice.below(list.len());
    list[at] = dice.pick(&[i32::MIN, i32::MAX, (1 << 24) + list[at], -(1 << 30)]);
}

/// Two corners change places.
fn crossing(dice: &mut Dice, drawing: &mut [Corner]) {
    let (i, j) = (dice.below(drawing.len()), dice.below(drawing.len()));
    drawing.swap(i, j);
}

/// A corner entered twice.
fn repeated(dice: &mut Dice, drawing: &mut [Corner]) {
    let (i, j) = (dice.below(drawing.len()), dice.below(drawing.len()));
    drawing[i] = drawing[j];
}

/// A side with equal ends.
fn repeated_next(dice: &mut Dice, drawing: &mut [Corner]) {
    let i = dice.below(drawing.len());
    drawing[(i + 1) % drawing.len()] = drawing[i];
}

fn all_on_a_line(dice: &mut Dice, drawing: &mut [Corner]) {
    let (dx, dy) = (dice.between(-3, 3), dice.between(-3, 3));
    for (k, corner) in (0..).zip(drawing) {
        *corner = Corner::at(k * dx, k * dy);
    }
}

fn there_and_back(dice: &mut Dice, drawing: &mut [Corner]) {
    let (n, dy) = (drawing.len() as i64, dice.between(-1, 1));
    for (k, corner) in (0..).zip(drawing) {
        let x = n.min(2 * k).min(2 * (n - k));
        *corner = Corner::at(x, x * dy);
    }
}

fn all_one_point(_: &mut Dice, drawing: &mut [Corner]) {
    drawing.fill(drawing[0]);
}

/// A corner on a side, or on the line of it one step beyond.
fn corner_on_side(dice: &mut Dice, drawing: &mut [Corner]) {
    let n = drawing.len();
    let (i, side) = (dice.below(n), dice.below(n));
    let (a, b) = (drawing[side], drawing[(side + 1) % n]);
    let (dx, dy) = (b.x - a.x, b.y - a.y);
    let parts = common_divisor(dx.abs(), dy.abs()).max(1);
    let k = dice.between(-1, parts + 1);
    drawing[i] = Corner::at(a.x + dx / parts * k, a.y + dy / parts * k);
}

/// The outline turns back on the side by which it came, and ends within it, at its start or
/// beyond that.
fn spike(dice: &mut Dice, drawing: &mut [Corner]) {
    let n = drawing.len();
    let i = dice.below(n);
    let (a, b) = (drawing[i], drawing[(i + 1) % n]);
    let parts = common_divisor((b.x - a.x).abs(), (b.y - a.y).abs()).max(1);
    let k = dice.between(1, parts + 1);
    drawing[(i + 2) % n] = Corner::at(b.x - (b.x - a.x) / parts * k, b.y - (b.y - a.y) / parts * k);
}

fn clockwise(dice: &mut Dice, drawing: &mut [Corner]) {
    drawing.reverse();
    drawing.rotate_right(dice.below(2));
}

/// A coordinate on the border of the range or just beyond.
fn just_out_of_range(dice: &mut Dice, drawing: &mut [Corner]) {
    let far = (FARTHEST + dice.between(0, 1)) * dice.pick(&[-1, 1]);
    *some_coordinate(dice, drawing) = far;
}

fn far_out_of_range(dice: &mut Dice, drawing: &mut [Corner]) {
    let far = dice.pick(&[LOWEST, HIGHEST, 4_000_000, -2_000_000]);
    *some_coordinate(dice, drawing) = i64::from(far);
}

/// A coordinate changed by one.
fn nudged(dice: &mut Dice, drawing: &mut [Corner]) {
    let by = dice.pick(&[-1, 1]);
    *some_coordinate(dice, drawing) += by;
}

fn some_coordinate<'a>(dice: &mut Dice, drawing: &'a mut [Corner]) -> &'a mut i64 {
    let corner = &mut drawing[dice.below(drawing.len())];
    if dice.once_in(2) {
        &mut corner.x
    } else {
        &mut corner.y
    }
}
