//! Whether a list of pieces that was made elsewhere is a valid cutting of a pair, or what is wrong
//! with it first. 02, K4.
//!
//! Number 22 is decided by walking. The pieces of a set of uncrossed pairs have exactly the pairs of
//! the set for lines, beside sides: each pair has a piece on either side of it. So there is only one
//! set whose pieces those of the list can be, that of their own lines that are no sides. Where none
//! of it cross, a walk round each region of it tells its pieces:
//!
//! ```text
//!     a --> b      Come from a to b, go on to the corner that lies furthest round from b
//!          /       among those that b is joined to, short of a: the region lies on the left,
//!         c        and no other line begins between the two.
//! ```

use crate::centre_sight::centre_sees;
use crate::desk;
use crate::drawing::{after, sees, Corner, FEWEST_CORNERS};
use crate::exhaustive::{cross, Cut};
use crate::telling::Piece;

/// 02's number; with 23 and 24 the drawing, 1 or 2, and the piece's place in the list, from 0. Zeros
/// where there is none.
#[derive(Clone, Copy, Debug, PartialEq, Eq)]
pub struct Verdict {
    pub number: u8,
    pub drawing: u8,
    pub place: usize,
}

/// The numbers that are 02's own.
pub const NO_LIST: u8 = 21;
pub const NO_CUTTING: u8 = 22;
pub const UNSEEN: u8 = 23;
pub const MISSES: u8 = 24;

fn says(number: u8) -> Verdict {
    Verdict { number, drawing: 0, place: 0 }
}

pub fn check(first: &[i32], second: &[i32], list: &[u8]) -> Verdict {
    // No room is lent, so number 2 has no meaning here: there is enough.
    let (first, second) = match desk::accept(first, second, usize::MAX) {
        Err(number) => return says(number),
        Ok(drawings) => drawings,
    };
    let Some(pieces) = pieces(first.len(), list) else {
        return says(NO_LIST);
    };
    if !is_cutting(first.len(), &pieces) {
        return says(NO_CUTTING);
    }
    first_fault([&first, &second], &pieces).unwrap_or(says(0))
}

/// The pieces of a list of n corners: k, the centre, the k corners, again and again. None if it is
/// empty or cut short, or if a k, a corner or a centre is not allowed.
pub fn pieces(n: usize, list: &[u8]) -> Option<Vec<Piece>> {
    let mut pieces = Vec::new();
    let mut bytes = list.iter().map(|&byte| usize::from(byte));
    while let Some(k) = bytes.next() {
        let centre = bytes.next()?;
        let corners: Vec<usize> = bytes.by_ref().take(k).collect();
        let rising = corners.windows(2).all(|two| two[0] < two[1]);
        let allowed = (FEWEST_CORNERS..=n).contains(&k) && rising;
        if corners.len() < k || !allowed || corners[k - 1] >= n || !corners.contains(&centre) {
            return None;
        }
        pieces.push(Piece { centre, corners });
    }
    (!pieces.is_empty()).then_some(pieces)
}

/// The lines of a piece: from each corner to the next, and from the first to the last.
pub fn lines(piece: &Piece) -> Vec<Cut> {
    let corners = &piece.corners;
    let steps = corners.windows(2).map(|two| [two[0], two[1]]);
    steps.chain([[corners[0], corners[corners.len() - 1]]]).collect()
}

/// The lines of all pieces that are no sides, each once.
pub fn inner_lines(n: usize, pieces: &[Piece]) -> Vec<Cut> {
    let no_side = |&[a, b]: &Cut| after(n, a) != b && after(n, b) != a;
    let mut inner: Vec<Cut> = pieces.iter().flat_map(lines).filter(no_side).collect();
    inner.sort_unstable();
    inner.dedup();
    inner
}

/// Whether the pieces are those of one set of uncrossed pairs, each once.
pub fn is_cutting(n: usize, pieces: &[Piece]) -> bool {
    let inner = inner_lines(n, pieces);
    if inner.iter().any(|&one| inner.iter().any(|&other| cross(one, other))) {
        return false;
    }
    let mut corners: Vec<&Vec<usize>> = pieces.iter().map(|piece| &piece.corners).collect();
    corners.sort_unstable();
    let mut regions = regions(n, &inner);
    regions.sort_unstable();
    corners.into_iter().eq(&regions)
}

/// The regions of a set of pairs, none a side and no two of which cross: each is walked round once.
pub fn regions(n: usize, pairs: &[Cut]) -> Vec<Vec<usize>> {
    // Whether a walk may go from i to j: along a side one way, along a pair both ways.
    let mut open = vec![false; n * n];
    for i in 0..n {
        open[i * n + after(n, i)] = true;
    }
    for &[a, b] in pairs {
        open[a * n + b] = true;
        open[b * n + a] = true;
    }
    let mut walked = vec![false; n * n];
    let mut regions = Vec::new();
    for start in (0..n * n).filter(|&start| open[start]) {
        let (mut a, mut b) = (start / n, start % n);
        let mut region = Vec::new();
        while !walked[a * n + b] {
            walked[a * n + b] = true;
            region.push(a);
            let mut furthest_first = (1..(a + n - b) % n).rev().map(|far| (b + far) % n);
            let next = furthest_first.find(|&c| open[b * n + c]);
            (a, b) = (b, next.expect("the side from b to the next corner"));
        }
        if !region.is_empty() {
            region.sort_unstable();
            regions.push(region);
        }
    }
    regions
}

/// The first piece at fault in the list: 23 for an unseen line or else 24 for a centre, and of the
/// drawings in which that is so the first.
fn first_fault(drawings: [&[Corner]; 2], pieces: &[Piece]) -> Option<Verdict> {
    let fault = |(place, piece): (usize, &Piece)| {
        let in_some = |number: u8, fails: &dyn Fn(&[Corner]) -> bool| {
            let at = drawings.iter().position(|drawing| fails(drawing))?;
            Some(Verdict { number, drawing: at as u8 + 1, place })
        };
        in_some(UNSEEN, &|drawing| !unseen(drawing, piece).is_empty())
            .or_else(|| in_some(MISSES, &|drawing| !missed(drawing, piece).is_empty()))
    };
    pieces.iter().enumerate().find_map(fault)
}

/// The lines of the piece that are unseen in the drawing, by the strict rule.
pub fn unseen(drawing: &[Corner], piece: &Piece) -> Vec<Cut> {
    lines(piece).into_iter().filter(|&[i, j]| !sees(drawing, i, j)).collect()
}

/// The corners of the piece that its centre misses in the drawing, by a centre's sight.
pub fn missed(drawing: &[Corner], piece: &Piece) -> Vec<usize> {
    let misses = |&y: &usize| !centre_sees(drawing, piece.centre, y);
    piece.corners.iter().copied().filter(misses).collect()
}
