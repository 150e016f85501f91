//! The sight of a centre. 02, K3: "for a centre, sight holds when every point of the segment lies in
//! or on the outline".
//!
//! The segment is parted at every point in which a side crosses or touches it, and where a side
//! that runs along it begins and ends:
//!
//! ```text
//!     i ------+-----------+=========+---- j
//! ```
//!
//! These points are on a side. Of a stretch between two of them that follow each other either every
//! point is on a side that runs along it, or none is on any side. In the latter case the number of
//! sides that pass to the right changes only at the height of a corner, and there by two or not at
//! all: of the sides before and after it (level ones are never counted) both come, both go, or one
//! takes the other's place. Odd stays odd. So one point tells for the whole stretch.

use crate::drawing::{after, turn, Corner};
use crate::inside::{in_or_on, Point};
use std::cmp::Ordering;

/// A place on the segment ab: `over`/`under` of the way from a to b, with `under` above zero.
#[derive(Clone, Copy)]
struct Place {
    over: i64,
    under: i64,
}

impl Place {
    /// Which place comes first. A product is at most 6.4 * 10^25.
    fn compare(&self, other: &Place) -> Ordering {
        let over = |one: &Place, two: &Place| i128::from(one.over) * i128::from(two.under);
        over(self, other).cmp(&over(other, self))
    }

    /// A place strictly between two that differ: the sums of their parts. It serves as well as the
    /// middle, and its numbers stay small.
    fn between(&self, other: &Place) -> Place {
        Place { over: self.over + other.over, under: self.under + other.under }
    }

    fn point(&self, a: Corner, b: Corner) -> Point {
        let at = |a: i64, b: i64| {
            i128::from(a) * i128::from(self.under) + i128::from(b - a) * i128::from(self.over)
        };
        Point { x: at(a.x, b.x), y: at(a.y, b.y), r: self.under }
    }
}

/// Whether every point of the segment ij lies in or on the drawing, which is sound.
pub fn centre_sees(drawing: &[Corner], i: usize, j: usize) -> bool {
    if i == j {
        // One point, which is a corner.
        return true;
    }
    let (a, b) = (drawing[i], drawing[j]);
    let mut places = shared_places(drawing, a, b);
    places.sort_unstable_by(Place::compare);
    places.dedup_by(|one, other| one.compare(other).is_eq());
    let mut stretches = places.windows(2).map(|ends| ends[0].between(&ends[1]));
    stretches.all(|place| in_or_on(drawing, &place.point(a, b)))
}

/// The places on the segment ab, whose ends are corners, that part it; both ends are among them.
/// In range, what stands under is at most 8 * 10^12: a product of two ways of at most 2 * 10^6 on
/// each axis.
fn shared_places(drawing: &[Corner], a: Corner, b: Corner) -> Vec<Place> {
    let n = drawing.len();
    let mut places = Vec::new();
    let mut of_d = turn(a, b, drawing[0]);
    for k in 0..n {
        let (c, d) = (drawing[k], drawing[after(n, k)]);
        let of_c = std::mem::replace(&mut of_d, turn(a, b, d));
        if of_c.signum() * of_d.signum() > 0 {
            continue;
        }
        if of_c == 0 && of_d == 0 {
            // The side's end d is where the next one begins, which finds it.
            places.extend(along(a, b, c));
            continue;
        }
        // How far a and b lie off the line cd, each on its own side of it or on it.
        let (of_a, of_b) = (turn(c, d, a), turn(c, d, b));
        if of_a.signum() * of_b.signum() <= 0 {
            places.push(Place { over: of_a.abs(), under: of_a.abs() + of_b.abs() });
        }
    }
    places
}

/// The place of a corner of the line ab, if it is on the segment.
fn along(a: Corner, b: Corner, corner: Corner) -> Option<Place> {
    let product = |p: Corner, q: Corner| (p.x - a.x) * (q.x - a.x) + (p.y - a.y) * (q.y - a.y);
    let (over, under) = (product(corner, b), product(b, b));
    (0 <= over && over <= under).then_some(Place { over, under })
}
