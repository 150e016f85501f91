//! The same answer as `cutting` for few corners, directly from the definitions: every set of
//! uncrossed cuts, its regions, their centres, its told run. 01, "Cuttings"; cuts and centres each by
//! their own sight, 02, K3.

use crate::sight::Sight;
use crate::telling::{lowest_centre, Piece};

/// Beyond this many corners there are too many cuttings to try.
pub const MOST_CORNERS: usize = 10;

/// Two corner numbers, the lower first.
pub type Cut = [usize; 2];

/// The first smallest valid cutting in telling order, if there is a valid one.
pub fn first_smallest(first: &Sight, second: &Sight) -> Option<Vec<Piece>> {
    let n = first.corners();
    let may_cut = |i: usize, j: usize| first.sees(i, j) && second.sees(i, j);
    let sees = |x: usize, y: usize| first.centre_sees(x, y) && second.centre_sees(x, y);
    let mut best: Option<(usize, Vec<usize>, Vec<Piece>)> = None;
    for cutting in cuttings(n, &may_cut) {
        if let Some(pieces) = valid_pieces(n, &cutting, &sees) {
            let run = pieces.iter().flat_map(|p| p.corners.clone()).collect();
            let found = (pieces.len(), run, pieces);
            if best.as_ref().is_none_or(|b| (found.0, &found.1) < (b.0, &b.1)) {
                best = Some(found);
            }
        }
    }
    best.map(|(_, _, pieces)| pieces)
}

/// All sets of cuts no two of which cross.
pub fn cuttings(n: usize, may_cut: &dyn Fn(usize, usize) -> bool) -> Vec<Vec<Cut>> {
    let mut sets = vec![Vec::new()];
    for cut in cuts(n, may_cut) {
        let with_cut = |set: &Vec<Cut>| {
            let free = set.iter().all(|&other| !cross(other, cut));
            free.then(|| set.iter().copied().chain([cut]).collect())
        };
        let more: Vec<Vec<Cut>> = sets.iter().filter_map(with_cut).collect();
        sets.extend(more);
    }
    sets
}

/// A cut is a pair that is no side and whose corners see each other in both drawings, by the strict
/// rule.
pub fn cuts(n: usize, may_cut: &dyn Fn(usize, usize) -> bool) -> Vec<Cut> {
    let pairs = (0..n).flat_map(|a| (a + 1..n).map(move |b| [a, b]));
    let no_side = |&[a, b]: &Cut| b - a != 1 && b - a != n - 1;
    pairs.filter(no_side).filter(|&[a, b]| may_cut(a, b)).collect()
}

pub fn cross([a, b]: Cut, [c, d]: Cut) -> bool {
    a < c && c < b && b < d || c < a && a < d && d < b
}

/// The pieces of a cutting in telling order, if each has a centre.
fn valid_pieces(
    n: usize,
    cutting: &[Cut],
    sees: &dyn Fn(usize, usize) -> bool,
) -> Option<Vec<Piece>> {
    let regions = regions(n, cutting);
    let mut told = Vec::new();
    tell(&regions, 0, n - 1, &mut told);
    let piece = |corners: Vec<usize>| {
        let centre = lowest_centre(&corners, sees)?;
        Some(Piece { centre, corners })
    };
    told.into_iter().map(piece).collect()
}

/// The regions left by the cuts, made as with scissors: each cut parts the one region that has
/// both its ends.
pub fn regions(n: usize, cutting: &[Cut]) -> Vec<Vec<usize>> {
    let mut regions: Vec<Vec<usize>> = vec![(0..n).collect()];
    for &[a, b] in cutting {
        let holds = |region: &Vec<usize>| region.contains(&a) && region.contains(&b);
        let at = regions.iter().position(holds);
        let whole = regions.swap_remove(at.expect("uncrossed cuts"));
        let between = |c: &usize| a <= *c && *c <= b;
        let beyond = |c: &usize| *c <= a || b <= *c;
        regions.push(whole.iter().copied().filter(between).collect());
        regions.push(whole.iter().copied().filter(beyond).collect());
    }
    regions
}

/// Tells the range i..j: the region on its closing line, then the ranges under its other lines.
fn tell(regions: &[Vec<usize>], i: usize, j: usize, told: &mut Vec<Vec<usize>>) {
    let closes = |r: &&Vec<usize>| r[0] == i && r[r.len() - 1] == j;
    let region = regions.iter().find(closes).expect("a closing line");
    told.push(region.clone());
    for line in region.windows(2) {
        if line[0] + 1 < line[1] {
            tell(regions, line[0], line[1], told);
        }
    }
}
