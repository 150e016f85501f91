//! From the costs that a search has found to the first smallest cutting, told. 01, "Cuttings".
//!
//! A cut is seen in both drawings by the strict rule, and a centre sees in both by its own (02, K3).
//! The cost of a line i-j is the fewest pieces that the range i..j under it takes (none for a
//! side). A road for a centre x is a rising chain of corners that x sees, each joined to the next
//! by a side or a cut; its cost is that of its lines. A piece with centre x on the closing line
//! i-j is a road from i to j that goes through x. A road is followed by its first step: of equally
//! cheap ones the one with the smallest next corner is told first.

use crate::drawing::MOST_CORNERS;
use crate::sight::Sight;

/// A piece: its corners in rising order and its centre, the lowest-numbered one.
#[derive(Clone, Debug, PartialEq, Eq)]
pub struct Piece {
    pub centre: usize,
    pub corners: Vec<usize>,
}

/// A count of pieces: below `NONE`, and `NONE` with itself and one more still fits.
pub type Cost = u8;

/// The cost of what cannot be had.
pub const NONE: Cost = 127;

const _: () = assert!(MOST_CORNERS - 2 < NONE as usize);

/// The costs that a search has found. A road is asked for only where it ends at its centre or
/// begins there or later: x is j, or x is at most i.
pub trait Costs {
    fn seen(&self) -> &Seen;

    /// The cost of the line i-j, i < j.
    fn line(&self, i: usize, j: usize) -> Cost;

    /// The cost of the cheapest road from i to j for the centre x.
    fn road(&self, x: usize, i: usize, j: usize) -> Cost;
}

/// Who sees whom in both drawings: along what may be cut, and what centres see, in rows for both
/// ways of asking.
pub struct Seen {
    n: usize,
    /// Whether the line i-j may be cut along, at i*n + j.
    cuts: Vec<bool>,
    /// Whether x, as a centre, sees y, at x*n + y.
    from: Vec<bool>,
    /// Whether x, as a centre, sees y, at y*n + x.
    to: Vec<bool>,
}

impl Seen {
    pub fn in_both(first: &Sight, second: &Sight) -> Seen {
        let n = first.corners();
        let cut = |i: usize, j: usize| first.sees(i, j) && second.sees(i, j);
        let both = |x: usize, y: usize| first.centre_sees(x, y) && second.centre_sees(x, y);
        let cuts = (0..n * n).map(|at| cut(at / n, at % n)).collect();
        let from = (0..n * n).map(|at| both(at / n, at % n)).collect();
        let to = (0..n * n).map(|at| both(at % n, at / n)).collect();
        Seen { n, cuts, from, to }
    }

    pub fn corners(&self) -> usize {
        self.n
    }

    /// Whether x, as a centre, sees y.
    pub fn sees(&self, x: usize, y: usize) -> bool {
        self.from[x * self.n + y]
    }

    /// For each x whether it, as a centre, sees y.
    pub fn viewers(&self, y: usize) -> &[bool] {
        &self.to[y * self.n..][..self.n]
    }

    /// Whether i < j are the ends of a range: joined by a cut, or the first corner and the last.
    pub fn closes(&self, i: usize, j: usize) -> bool {
        self.cuts[i * self.n + j] || i == 0 && j + 1 == self.n
    }
}

/// The cost of the cheapest road, given that of each first step and that of the rest after it.
pub fn cheapest(steps: &[Cost], rests: &[Cost]) -> Cost {
    let costs = steps.iter().zip(rests).map(|(step, rest)| step + rest);
    costs.fold(NONE, Cost::min)
}

/// The first smallest valid cutting in telling order, if there is a valid one.
pub fn first_smallest(costs: &impl Costs) -> Option<Vec<Piece>> {
    let last = costs.seen().corners() - 1;
    if costs.line(0, last) >= NONE {
        return None;
    }
    let mut pieces = Vec::new();
    tell(costs, 0, last, &mut pieces);
    Some(pieces)
}

/// The lowest-numbered corner of the piece that sees all its corners.
pub fn lowest_centre(corners: &[usize], sees: impl Fn(usize, usize) -> bool) -> Option<usize> {
    let centre = |&x: &usize| corners.iter().all(|&c| sees(x, c));
    corners.iter().copied().find(centre)
}

/// Tells the range i..j: first its piece, then the ranges under its lines from left to right.
fn tell(costs: &impl Costs, i: usize, j: usize, pieces: &mut Vec<Piece>) {
    let corners = first_piece(costs, i, j);
    let centre = lowest_centre(&corners, |x, y| costs.seen().sees(x, y));
    let centre = centre.expect("a piece found by its centre");
    pieces.push(Piece { centre, corners: corners.clone() });
    for line in corners.windows(2) {
        if line[0] + 1 < line[1] {
            tell(costs, line[0], line[1], pieces);
        }
    }
}

/// The piece of the range i..j in the first of its smallest cuttings. Pieces of one range end
/// in the same corner, the highest, so none begins another, and the ranges under a piece do
/// not touch each other: the first run begins with the first piece.
fn first_piece(costs: &impl Costs, i: usize, j: usize) -> Vec<usize> {
    let under = costs.line(i, j) - 1;
    let cheapest = (i..=j).filter(|&x| under_piece(costs, x, i, j) == under);
    let first = cheapest.map(|x| piece(costs, x, i, j, under)).min();
    first.expect("a range that can be cut")
}

/// The fewest pieces under the other lines of a piece with centre x on the closing line i-j.
fn under_piece(costs: &impl Costs, x: usize, i: usize, j: usize) -> Cost {
    if i < x && x < j {
        return costs.road(x, i, x) + costs.road(x, x, j);
    }
    let bent = (i + 1..j).map(|b| costs.line(i, b) + costs.road(x, b, j)).min();
    bent.filter(|_| costs.seen().sees(x, i)).unwrap_or(NONE)
}

/// The first of the pieces with centre x on the closing line i-j that have so many under them.
fn piece(costs: &impl Costs, x: usize, i: usize, j: usize, under: Cost) -> Vec<usize> {
    let mut corners = vec![i];
    if i < x && x < j {
        walk(costs, x, x, &mut corners);
    } else {
        corners.push(step(costs, x, i, i + 1..j, j, under));
    }
    walk(costs, x, j, &mut corners);
    corners
}

/// Follows the first of the cheapest roads for x from the last corner to `end`.
fn walk(costs: &impl Costs, x: usize, end: usize, corners: &mut Vec<usize>) {
    let mut at = corners[corners.len() - 1];
    while at < end {
        at = step(costs, x, at, at + 1..end + 1, end, costs.road(x, at, end));
        corners.push(at);
    }
}

/// The smallest next corner that makes a road from `at` to `end` of the given cost.
fn step(
    costs: &impl Costs,
    x: usize,
    at: usize,
    mut nexts: std::ops::Range<usize>,
    end: usize,
    cost: Cost,
) -> usize {
    let next = nexts.find(|&b| costs.line(at, b) + costs.road(x, b, end) == cost);
    next.expect("a road of that cost")
}
