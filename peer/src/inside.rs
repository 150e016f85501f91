//! What lies in or on a drawing. 01, "A sound drawing".

use crate::drawing::{after, Corner};
use std::cmp::Ordering;

/// A point: a pair of whole numbers over one whole r > 0.
#[derive(Clone, Copy, Debug, PartialEq, Eq)]
pub struct Point {
    pub x: i128,
    pub y: i128,
    pub r: i64,
}

/// 01: a point lies in or on a sound drawing "when it is on a side, or when an odd number of sides
/// have one end higher than it, the other end not higher, and pass at its height strictly to its
/// right (larger x)". For the points that `centre_sight` asks about, r is at most 1.6 * 10^13 and x
/// and y are at most r * 10^6 in size: no product below is above 1.3 * 10^26, and i128 holds 10^38.
pub fn in_or_on(drawing: &[Corner], point: &Point) -> bool {
    let n = drawing.len();
    let (x, y) = (Coordinate::of(point.x, point.r), Coordinate::of(point.y, point.r));
    let mut passed = 0;
    for k in 0..n {
        let (a, b) = (drawing[k], drawing[after(n, k)]);
        let heights = [y.compared(a.y), y.compared(b.y)];
        if beyond(heights).is_some() {
            continue;
        }
        let right = match beyond([x.compared(a.x), x.compared(b.x)]) {
            Some(way) => way == Ordering::Greater,
            None => match turn_to(a, b, point) {
                0 => return true,
                // What is left of a side that rises is on its left, of one that falls on its right.
                turn => (turn > 0) == (heights[1] == Ordering::Greater),
            },
        };
        let one_end_higher = (heights[0] == Ordering::Greater) != (heights[1] == Ordering::Greater);
        passed += usize::from(one_end_higher && right);
    }
    passed % 2 == 1
}

/// On which side of the point both ends lie, on one axis, if they do so strictly.
fn beyond(ends: [Ordering; 2]) -> Option<Ordering> {
    Some(ends[0]).filter(|&way| way == ends[1] && way != Ordering::Equal)
}

/// A point's coordinate, so that a corner's is compared with it without a product: rounded down, and
/// whether there was nothing to round.
struct Coordinate {
    down: i64,
    whole: bool,
}

impl Coordinate {
    fn of(over: i128, r: i64) -> Coordinate {
        let down = over.div_euclid(i128::from(r)) as i64;
        Coordinate { down, whole: times(r, down) == over }
    }

    /// How a corner's coordinate compares with this one.
    fn compared(&self, corner: i64) -> Ordering {
        match corner.cmp(&self.down) {
            Ordering::Equal if !self.whole => Ordering::Less,
            other => other,
        }
    }
}

fn times(r: i64, coordinate: i64) -> i128 {
    i128::from(r) * i128::from(coordinate)
}

/// 01's Turn(a, b, point), r times as large.
fn turn_to(a: Corner, b: Corner, point: &Point) -> i128 {
    let (x, y) = (point.x - times(point.r, a.x), point.y - times(point.r, a.y));
    i128::from(b.x - a.x) * y - i128::from(b.y - a.y) * x
}
