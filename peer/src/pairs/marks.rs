//! Marks to try on a pair: where its wedges meet, in them and beside them, and as far out as
//! numbers go.

use super::dice::Dice;
use super::shapes::inner_point;
use super::Pair;
use crate::desk::{self, needed_room};
use crate::drawing::{corners, Corner, FARTHEST, MOST_CORNERS};
use crate::marks::{at, wedges, Mark};

/// Where a mark is put.
type Spot = fn(&mut Dice, &[[Corner; 3]]) -> Corner;

const SPOTS: [Spot; 10] = [
    on_corner,
    on_line,
    on_line,
    off_line,
    inside,
    inside,
    near,
    anywhere,
    on_border,
    out_of_range,
];

/// So many marks for the pair.
pub fn marks(dice: &mut Dice, pair: &Pair, count: usize) -> Vec<Mark> {
    let wedges = threes(dice, pair);
    let fits = |number: i64| number.clamp(i64::from(i32::MIN), i64::from(i32::MAX)) as i32;
    let mut mark = || {
        let Corner { x, y } = dice.pick(&SPOTS)(dice, &wedges);
        Mark { x: fits(x), y: fits(y) }
    };
    (0..count).map(|_| mark()).collect()
}

/// The wedges of the pair's answer in the first drawing. Where there is no answer, any three of its
/// corners, or the origin where it has none.
fn threes(dice: &mut Dice, pair: &Pair) -> Vec<[Corner; 3]> {
    let first = corners(&pair.first);
    let mut room = [0; needed_room(MOST_CORNERS)];
    let outcome = desk::answer(&pair.first, &pair.second, &mut room);
    let wedges = wedges(&desk::told(&room[..outcome.bytes]));
    if !wedges.is_empty() {
        wedges.iter().map(|wedge| at(&first, wedge)).collect()
    } else if !first.is_empty() {
        vec![[(); 3].map(|()| dice.pick(&first))]
    } else {
        vec![[Corner::at(0, 0); 3]]
    }
}

fn on_corner(dice: &mut Dice, wedges: &[[Corner; 3]]) -> Corner {
    let wedge = dice.pick(wedges);
    dice.pick(&wedge)
}

/// A whole-number point between the ends of a spoke, a cut or a side. Many lines have none: some
/// are tried, and then it is a corner.
fn on_line(dice: &mut Dice, wedges: &[[Corner; 3]]) -> Corner {
    let point = (0..8).find_map(|_| {
        let [c, a, b] = dice.pick(wedges);
        let [from, to] = dice.pick(&[[c, a], [c, b], [a, b]]);
        inner_point(dice, from, to)
    });
    point.unwrap_or_else(|| on_corner(dice, wedges))
}

/// One step beside such a point.
fn off_line(dice: &mut Dice, wedges: &[[Corner; 3]]) -> Corner {
    let Corner { x, y } = on_line(dice, wedges);
    Corner::at(x + dice.between(-1, 1), y + dice.between(-1, 1))
}

/// In a wedge, or just beside it where it is narrow.
fn inside(dice: &mut Dice, wedges: &[[Corner; 3]]) -> Corner {
    const WHOLE: i64 = 1000;
    let [c, a, b] = dice.pick(wedges);
    let to_a = dice.between(0, WHOLE);
    let to_b = dice.between(0, WHOLE - to_a);
    let axis = |c: i64, a: i64, b: i64| c + ((a - c) * to_a + (b - c) * to_b) / WHOLE;
    Corner::at(axis(c.x, a.x, b.x), axis(c.y, a.y, b.y))
}

/// As far from a corner as another, any way.
fn near(dice: &mut Dice, wedges: &[[Corner; 3]]) -> Corner {
    let (here, [a, b, _]) = (on_corner(dice, wedges), dice.pick(wedges));
    let reach = (b.x - a.x).abs().max((b.y - a.y).abs());
    Corner::at(here.x + dice.between(-reach, reach), here.y + dice.between(-reach, reach))
}

fn anywhere(dice: &mut Dice, _: &[[Corner; 3]]) -> Corner {
    Corner::at(dice.between(-FARTHEST, FARTHEST), dice.between(-FARTHEST, FARTHEST))
}

/// One coordinate at the end of the range, the other that of some corner.
fn on_border(dice: &mut Dice, wedges: &[[Corner; 3]]) -> Corner {
    let end = dice.pick(&[-FARTHEST, FARTHEST]);
    with_one(dice, wedges, end)
}

/// One coordinate just beyond the range, or as far as it goes.
fn out_of_range(dice: &mut Dice, wedges: &[[Corner; 3]]) -> Corner {
    let [low, high] = [i32::MIN, i32::MAX].map(i64::from);
    let far = dice.pick(&[-FARTHEST - 1, FARTHEST + 1, low, high]);
    with_one(dice, wedges, far)
}

/// Some corner with this number for its x or its y.
fn with_one(dice: &mut Dice, wedges: &[[Corner; 3]], number: i64) -> Corner {
    let Corner { x, y } = on_corner(dice, wedges);
    dice.pick(&[Corner::at(number, y), Corner::at(x, number)])
}
