//! Outlines as they are traced from a photograph: many short sides, and a little noise. Whole
//! numbers only, so that a seed gives the same outline on every machine.

use super::dice::Dice;
use crate::drawing::Corner;

/// Something round: a border that swells and shrinks slowly about the middle.
pub fn blob(dice: &mut Dice, n: usize) -> Vec<Corner> {
    let swells: Vec<i64> = (0..3 + dice.below(5)).map(|_| dice.between(2000, 7000)).collect();
    let corner = |k: usize| {
        let (swell, rest) = (k * swells.len() / n, k * swells.len() % n);
        let (from, to) = (swells[swell], swells[(swell + 1) % swells.len()]);
        let reach = from + (to - from) * eased(rest as i64 * ONE / n as i64) / ONE;
        let way = round_square(k as i64 * 8 * ONE / n as i64);
        noisy(dice, way.x * reach / ONE, way.y * reach / ONE)
    };
    (0..n).map(corner).collect()
}

/// An arm or a tail: a stroke of even width that bends this way and that, there along its right
/// border and back along its left.
pub fn limb(dice: &mut Dice, n: usize) -> Vec<Corner> {
    const STEP: i64 = 300;
    const HALF_WIDTH: i64 = 240;
    let (mut at, mut way, mut bend) = (Corner::at(0, 0), Corner::at(STEP, 0), 0);
    let (mut right, mut left) = (Vec::new(), Vec::new());
    for k in 0..n.div_ceil(2) {
        if k % 5 == 0 {
            bend = dice.between(-ONE / 3, ONE / 3);
        }
        let (x, y) = (-way.y * HALF_WIDTH / STEP, way.x * HALF_WIDTH / STEP);
        right.push(noisy(dice, at.x - x, at.y - y));
        left.push(noisy(dice, at.x + x, at.y + y));
        at = Corner::at(at.x + way.x, at.y + way.y);
        let (x, y) = (way.x - way.y * bend / ONE, way.y + way.x * bend / ONE);
        let length = (x * x + y * y).isqrt();
        way = Corner::at(x * STEP / length, y * STEP / length);
    }
    left.truncate(n / 2);
    right.into_iter().chain(left.into_iter().rev()).collect()
}

fn noisy(dice: &mut Dice, x: i64, y: i64) -> Corner {
    Corner::at(x + dice.between(-20, 20), y + dice.between(-20, 20))
}

/// The unit of the fractions below.
const ONE: i64 = 1 << 12;

/// A rise from 0 to 1 that begins and ends level.
fn eased(t: i64) -> i64 {
    t * t / ONE * (3 * ONE - 2 * t) / ONE
}

/// The point of the square of half side 1 after so long a way round it, which is below 8.
fn round_square(way: i64) -> Corner {
    let along = way % (2 * ONE) - ONE;
    match way / (2 * ONE) {
        0 => Corner::at(ONE, along),
        1 => Corner::at(-along, ONE),
        2 => Corner::at(-ONE, -along),
        _ => Corner::at(along, -ONE),
    }
}
