//! Sound second drawings for a sound first one, with as many corners.

use super::dice::Dice;
use super::rules;
use super::shapes::{self, Shape, SHAPES};
use crate::drawing::{judge, Corner, Judged};

#[derive(Clone, Copy, Debug, PartialEq, Eq)]
enum Partner {
    Same,
    Sheared,
    /// Turned, moved and stretched by a whole-number rule.
    Sent,
    /// Some corners moved a little.
    Perturbed,
    /// The same outline with its corners numbered from another on.
    Shifted,
    Convex,
    /// A drawing of any shape.
    Other,
}

const PARTNERS: [Partner; 9] = [
    Partner::Same,
    Partner::Sheared,
    Partner::Sent,
    Partner::Perturbed,
    Partner::Perturbed,
    Partner::Perturbed,
    Partner::Shifted,
    Partner::Convex,
    Partner::Other,
];

/// Some second drawing for the first.
pub fn partner(dice: &mut Dice, first: &[Corner]) -> Vec<Corner> {
    let n = first.len();
    let second = match dice.pick(&PARTNERS) {
        Partner::Same => None,
        Partner::Sheared => rules::sheared(dice, first),
        Partner::Sent => rules::sent(dice, first),
        Partner::Perturbed => Some(perturbed(dice, first)),
        Partner::Shifted => Some(rules::renumbered(first, dice.below(n))),
        Partner::Convex => Some(shapes::drawing(dice, Shape::Convex, n)),
        Partner::Other => {
            let shape = dice.pick(&SHAPES);
            Some(shapes::drawing(dice, shape, n))
        }
    };
    second.unwrap_or_else(|| first.to_vec())
}

/// The drawing with some corners moved, as far as it stays sound.
fn perturbed(dice: &mut Dice, drawing: &[Corner]) -> Vec<Corner> {
    let reach = dice.pick(&[1, 2, 3, 50, 100_000]);
    let mut copy = drawing.to_vec();
    for _ in 0..dice.between(1, 1 + drawing.len() as i64 / 2) {
        let k = dice.below(copy.len());
        let kept = copy[k];
        copy[k].x += dice.between(-reach, reach);
        copy[k].y += dice.between(-reach, reach);
        if judge(&copy) != Judged::Sound {
            copy[k] = kept;
        }
    }
    copy
}
