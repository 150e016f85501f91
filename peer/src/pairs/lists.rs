//! Lists of pieces to try on a pair (02, K4): cuttings of any number of pieces, with lines and
//! centres that are seen in both drawings, in one or in none, and lists that are spoiled.

use super::dice::Dice;
use super::Pair;
use crate::checker::inner_lines;
use crate::desk::{self, accept, needed_room};
use crate::drawing::{FEWEST_CORNERS, MOST_CORNERS};
use crate::exhaustive::{cross, cuts, regions, Cut};
use crate::sight::{sight, Sight};
use crate::telling::Piece;

/// So many lists for the pair.
pub fn lists(dice: &mut Dice, pair: &Pair, count: usize) -> Vec<Vec<u8>> {
    let known = Known::of(pair);
    (0..count).map(|_| known.list(dice)).collect()
}

/// What the lists of a pair are made of. Where the pair is refused, all counts as seen, and its
/// corners as so many as a drawing may have.
struct Known {
    n: usize,
    seen: Option<[Sight; 2]>,
    /// The cuts of the pair's own answer, if it has one.
    answer: Option<Vec<Cut>>,
}

/// In which drawings something has to be seen.
#[derive(Clone, Copy)]
enum Where {
    Both,
    /// The first, or the second.
    One(usize),
    Nowhere,
}

const PLACES: [Where; 7] = [
    Where::Both,
    Where::Both,
    Where::Both,
    Where::One(0),
    Where::One(0),
    Where::One(1),
    Where::Nowhere,
];

impl Known {
    fn of(pair: &Pair) -> Known {
        let Ok((first, second)) = accept(&pair.first, &pair.second, usize::MAX) else {
            let n = (pair.first.len() / 2).clamp(FEWEST_CORNERS, MOST_CORNERS);
            return Known { n, seen: None, answer: None };
        };
        let n = first.len();
        let mut room = [0; needed_room(MOST_CORNERS)];
        let outcome = desk::answer(&pair.first, &pair.second, &mut room);
        let told = desk::told(&room[..outcome.bytes]);
        let answer = (outcome.number == 0).then(|| inner_lines(n, &told));
        Known { n, seen: Some([sight(&first), sight(&second)]), answer }
    }

    /// Whether it is so in these drawings.
    fn holds(&self, place: Where, seen: impl Fn(&Sight) -> bool) -> bool {
        match (place, &self.seen) {
            (Where::Both, Some(both)) => both.iter().all(seen),
            (Where::One(at), Some(both)) => seen(&both[at]),
            (Where::Nowhere, _) | (_, None) => true,
        }
    }

    /// A cutting, right or not, which may then be spoiled.
    fn list(&self, dice: &mut Dice) -> Vec<u8> {
        let cuts = self.cutting(dice);
        let centres = dice.pick(&PLACES);
        let mut pieces = self.pieces(dice, &cuts, centres);
        if !dice.once_in(4) {
            dice.shuffle(&mut pieces);
        }
        if dice.once_in(4) {
            dice.pick(&FAULTS)(dice, self.n, &mut pieces);
        }
        let mut bytes = laid(&pieces);
        if dice.once_in(8) {
            dice.pick(&SPOILS)(dice, &mut bytes);
        }
        bytes
    }

    /// An uncrossed set: the answer's or a new one, with none, some or as many more as it takes.
    fn cutting(&self, dice: &mut Dice) -> Vec<Cut> {
        let own = self.answer.as_ref().filter(|_| dice.once_in(2));
        let mut set = own.cloned().unwrap_or_default();
        let more = [0, 1, 1 + dice.below(self.n), self.n];
        let more = dice.pick(if own.is_some() { &more[..3] } else { &more[1..] });
        let seen = dice.pick(&PLACES);
        let may_cut = |i: usize, j: usize| self.holds(seen, |sight| sight.sees(i, j));
        let mut candidates = cuts(self.n, &may_cut);
        dice.shuffle(&mut candidates);
        let most = set.len() + more;
        for cut in candidates {
            let free = set.iter().all(|&other| other != cut && !cross(other, cut));
            if free && set.len() < most {
                set.push(cut);
            }
        }
        set
    }

    /// The pieces of the set, each with a centre that sees all of it there, or with any corner where
    /// none does.
    fn pieces(&self, dice: &mut Dice, cuts: &[Cut], place: Where) -> Vec<Piece> {
        let piece = |corners: Vec<usize>| {
            let sees_all = |&&x: &&usize| {
                corners.iter().all(|&y| self.holds(place, |sight| sight.centre_sees(x, y)))
            };
            let allowed: Vec<usize> = corners.iter().filter(sees_all).copied().collect();
            let centre = dice.pick(if allowed.is_empty() { &corners } else { &allowed });
            Piece { centre, corners }
        };
        regions(self.n, cuts).into_iter().map(piece).collect()
    }
}

/// 01's layout: k, the centre, the k corners.
pub fn laid(pieces: &[Piece]) -> Vec<u8> {
    let numbers = pieces.iter().flat_map(|piece| {
        let head = [piece.corners.len(), piece.centre];
        head.into_iter().chain(piece.corners.iter().copied())
    });
    numbers.map(|number| number as u8).collect()
}

/// A fault in pieces of so many corners.
type Fault = fn(&mut Dice, usize, &mut Vec<Piece>);

const FAULTS: [Fault; 12] = [
    doubled,
    doubled_about_another,
    left_out,
    joined,
    parted,
    another,
    corner_less,
    corner_more,
    corner_moved,
    too_many_corners,
    centre_elsewhere,
    many_times,
];

fn doubled(dice: &mut Dice, _: usize, pieces: &mut Vec<Piece>) {
    let again = pieces[dice.below(pieces.len())].clone();
    pieces.insert(dice.below(pieces.len() + 1), again);
}

/// A piece twice, about two of its corners.
fn doubled_about_another(dice: &mut Dice, n: usize, pieces: &mut Vec<Piece>) {
    doubled(dice, n, pieces);
    for piece in pieces {
        piece.centre = dice.pick(&piece.corners);
    }
}

/// Where there was one piece nothing is left.
fn left_out(dice: &mut Dice, _: usize, pieces: &mut Vec<Piece>) {
    pieces.remove(dice.below(pieces.len()));
}

/// A piece that takes in another, which stays.
fn joined(dice: &mut Dice, _: usize, pieces: &mut Vec<Piece>) {
    let (one, other) = (dice.below(pieces.len()), dice.below(pieces.len()));
    let taken = pieces[other].corners.clone();
    let corners = &mut pieces[one].corners;
    corners.extend(taken);
    corners.sort_unstable();
    corners.dedup();
}

/// A piece beside one that is part of it.
fn parted(dice: &mut Dice, _: usize, pieces: &mut Vec<Piece>) {
    let Piece { corners, .. } = &pieces[dice.below(pieces.len())];
    let k = FEWEST_CORNERS + dice.below(corners.len() - FEWEST_CORNERS + 1);
    let from = dice.below(corners.len() - k + 1);
    let corners = corners[from..from + k].to_vec();
    pieces.push(Piece { centre: corners[0], corners });
}

/// Any three corners more.
fn another(dice: &mut Dice, n: usize, pieces: &mut Vec<Piece>) {
    let mut corners: Vec<usize> = (0..n).collect();
    dice.shuffle(&mut corners);
    corners.truncate(FEWEST_CORNERS);
    corners.sort_unstable();
    pieces.insert(dice.below(pieces.len() + 1), Piece { centre: corners[0], corners });
}

/// A triangle then has two.
fn corner_less(dice: &mut Dice, _: usize, pieces: &mut Vec<Piece>) {
    let Piece { centre, corners } = some(dice, pieces);
    corners.remove(dice.below(corners.len()));
    *centre = dice.pick(corners);
}

/// Perhaps one that is there already, or the first that is none.
fn corner_more(dice: &mut Dice, n: usize, pieces: &mut Vec<Piece>) {
    let more = dice.below(n + 1);
    let Piece { corners, .. } = some(dice, pieces);
    let at = corners.partition_point(|&corner| corner < more);
    corners.insert(at, more);
}

fn corner_moved(dice: &mut Dice, n: usize, pieces: &mut Vec<Piece>) {
    let to = dice.below(n + 1);
    let Piece { centre, corners } = some(dice, pieces);
    let at = dice.below(corners.len());
    corners[at] = to;
    if !dice.once_in(3) {
        corners.sort_unstable();
        *centre = dice.pick(corners);
    }
}

/// All corners and one more that is none, or one of them twice.
fn too_many_corners(dice: &mut Dice, n: usize, pieces: &mut Vec<Piece>) {
    let Piece { centre, corners } = some(dice, pieces);
    *corners = (0..n).chain([dice.pick(&[n, n - 1])]).collect();
    *centre = dice.below(n);
}

fn centre_elsewhere(dice: &mut Dice, n: usize, pieces: &mut Vec<Piece>) {
    let any = dice.below(n);
    let centre = dice.pick(&[0, n - 1, n, 255, any]);
    some(dice, pieces).centre = centre;
}

/// More pieces than a byte counts, perhaps with a last one that is none.
fn many_times(dice: &mut Dice, _: usize, pieces: &mut Vec<Piece>) {
    let whole = pieces.clone();
    while pieces.len() <= 256 {
        pieces.extend(whole.iter().cloned());
    }
    if dice.once_in(3) {
        pieces.push(Piece { centre: 0, corners: vec![0, 1] });
    }
}

fn some<'a>(dice: &mut Dice, pieces: &'a mut [Piece]) -> &'a mut Piece {
    let at = dice.below(pieces.len());
    &mut pieces[at]
}

/// A fault in the bytes.
type Spoil = fn(&mut Dice, &mut Vec<u8>);

const SPOILS: [Spoil; 7] =
    [byte_changed, byte_more, byte_less, cut_short, longer, noise, |_, bytes| bytes.clear()];

fn byte_changed(dice: &mut Dice, bytes: &mut Vec<u8>) {
    if !bytes.is_empty() {
        let at = dice.below(bytes.len());
        let near = bytes[at].wrapping_add(dice.pick(&[1, 255]));
        let any = dice.below(256) as u8;
        bytes[at] = dice.pick(&[near, near, any]);
    }
}

fn byte_more(dice: &mut Dice, bytes: &mut Vec<u8>) {
    bytes.insert(dice.below(bytes.len() + 1), dice.below(8) as u8);
}

fn byte_less(dice: &mut Dice, bytes: &mut Vec<u8>) {
    if !bytes.is_empty() {
        bytes.remove(dice.below(bytes.len()));
    }
}

/// It may end between two pieces.
fn cut_short(dice: &mut Dice, bytes: &mut Vec<u8>) {
    bytes.truncate(dice.below(bytes.len() + 1));
}

fn longer(dice: &mut Dice, bytes: &mut Vec<u8>) {
    let more = dice.pick(&[1, 2, 3, 5, 400]);
    bytes.extend((0..more).map(|_| dice.below(5) as u8));
}

fn noise(dice: &mut Dice, bytes: &mut Vec<u8>) {
    let (most, below) = (dice.pick(&[3, 12, 60]), dice.pick(&[4, 8, 256]));
    *bytes = (0..dice.below(most)).map(|_| dice.below(below) as u8).collect();
}
