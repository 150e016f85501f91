//! Whole-number rules (01, "What comes back", on demand 3) and renumbering.

use super::dice::Dice;
use crate::drawing::{in_range, Corner, FARTHEST};

/// Sends (x,y) to (ax+by+e, cx+dy+f); ad-bc is above zero.
#[derive(Clone, Copy, Debug, PartialEq, Eq)]
pub struct Rule {
    pub a: i64,
    pub b: i64,
    pub c: i64,
    pub d: i64,
    pub e: i64,
    pub f: i64,
}

impl Rule {
    /// The drawing sent by the rule, if it stays in range.
    pub fn send(&self, drawing: &[Corner]) -> Option<Vec<Corner>> {
        let sent = self.image(drawing);
        sent.iter().all(in_range).then_some(sent)
    }

    fn image(&self, drawing: &[Corner]) -> Vec<Corner> {
        let send = |p: &Corner| {
            Corner::at(self.a * p.x + self.b * p.y + self.e, self.c * p.x + self.d * p.y + self.f)
        };
        drawing.iter().map(send).collect()
    }

    /// A move by (e, f) after the rule.
    fn then_move(self, e: i64, f: i64) -> Rule {
        let (e, f) = (self.e + e, self.f + f);
        Rule { e, f, ..self }
    }
}

const fn linear(a: i64, b: i64, c: i64, d: i64) -> Rule {
    let (e, f) = (0, 0);
    Rule { a, b, c, d, e, f }
}

/// Leaves a drawing as it is, or turns it by quarters.
const QUARTERS: [Rule; 4] =
    [linear(1, 0, 0, 1), linear(0, -1, 1, 0), linear(-1, 0, 0, -1), linear(0, 1, -1, 0)];

/// The drawing sheared along one axis.
pub fn sheared(dice: &mut Dice, drawing: &[Corner]) -> Option<Vec<Corner>> {
    let by = dice.between(1, 5) * dice.pick(&[-1, 1]);
    let rule = if dice.once_in(2) { linear(1, by, 0, 1) } else { linear(1, 0, by, 1) };
    moved(dice, rule, drawing)
}

/// The drawing sent by some rule, if one is found that keeps it in range.
pub fn sent(dice: &mut Dice, drawing: &[Corner]) -> Option<Vec<Corner>> {
    (0..8).find_map(|_| {
        let rule = any(dice);
        moved(dice, rule, drawing)
    })
}

/// The drawing stretched as far as the range allows, its extreme corners on the border of it.
pub fn stretched(dice: &mut Dice, drawing: &[Corner]) -> Option<Vec<Corner>> {
    let (low, high) = extent(drawing);
    let widest = (high.x - low.x).max(high.y - low.y);
    let by = 2 * FARTHEST / widest.max(1);
    let rule = linear(by, 0, 0, by);
    let (e, f) = if dice.once_in(2) {
        (-FARTHEST - by * low.x, -FARTHEST - by * low.y)
    } else {
        (FARTHEST - by * high.x, FARTHEST - by * high.y)
    };
    rule.then_move(e, f).send(drawing)
}

/// The same drawing with corner k as its corner 0.
pub fn renumbered<T: Copy>(corners: &[T], k: usize) -> Vec<T> {
    [&corners[k..], &corners[..k]].concat()
}

fn any(dice: &mut Dice) -> Rule {
    if dice.once_in(4) {
        return dice.pick(&QUARTERS);
    }
    let reach = dice.pick(&[2, 5, 40]);
    loop {
        let mut entry = || dice.between(-reach, reach);
        let (a, b, c, d) = (entry(), entry(), entry(), entry());
        if a * d - b * c > 0 {
            return linear(a, b, c, d);
        }
    }
}

/// The drawing sent by the rule and then moved, by little or by as much as the range allows.
fn moved(dice: &mut Dice, rule: Rule, drawing: &[Corner]) -> Option<Vec<Corner>> {
    let (low, high) = extent(&rule.image(drawing));
    let near = dice.once_in(2);
    let mut some_move = |low: i64, high: i64| {
        let (least, most) = (-FARTHEST - low, FARTHEST - high);
        if least > most {
            None
        } else if near {
            Some(dice.between(-5, 5).clamp(least, most))
        } else {
            Some(dice.between(least, most))
        }
    };
    let (e, f) = (some_move(low.x, high.x)?, some_move(low.y, high.y)?);
    rule.then_move(e, f).send(drawing)
}

/// The least and the greatest coordinates.
fn extent(drawing: &[Corner]) -> (Corner, Corner) {
    let fold = |take: fn(i64, i64) -> i64| {
        Corner::at(
            drawing.iter().map(|p| p.x).reduce(take).unwrap_or(0),
            drawing.iter().map(|p| p.y).reduce(take).unwrap_or(0),
        )
    };
    (fold(i64::min), fold(i64::max))
}
