//! The answer to a pair. 01, "What comes back".

use crate::cutting;
use crate::drawing::{self, Corner, Judged};
use crate::sight::{sight, Sight};
use crate::telling::Piece;

/// The result: the number, the count of pieces and the count of bytes used.
#[derive(Clone, Copy, Debug, PartialEq, Eq)]
pub struct Outcome {
    pub number: u8,
    pub pieces: usize,
    pub bytes: usize,
}

/// A search for the first smallest valid cutting in telling order.
pub type Search = fn(&Sight, &Sight) -> Option<Vec<Piece>>;

/// Answers a pair in the room lent: the bytes stand in its beginning, all others keep their values.
pub fn answer(first: &[i32], second: &[i32], room: &mut [u8]) -> Outcome {
    answer_by(cutting::first_smallest, first, second, room)
}

/// The answer as another search gives it.
pub fn answer_by(search: Search, first: &[i32], second: &[i32], room: &mut [u8]) -> Outcome {
    match accept(first, second, room.len()) {
        Err(number) => refused(number),
        Ok((first, second)) => cut_by(search, &sight(&first), &sight(&second), room),
    }
}

/// Number 0 or 9, as the search gives it; there is room enough.
pub fn cut_by(search: Search, first: &Sight, second: &Sight, room: &mut [u8]) -> Outcome {
    match search(first, second) {
        Some(pieces) => given(&pieces, room),
        None => refused(9),
    }
}

pub fn refused(number: u8) -> Outcome {
    Outcome { number, pieces: 0, bytes: 0 }
}

/// The most bytes that any cutting of n corners takes.
pub const fn needed_room(n: usize) -> usize {
    5 * n - 10
}

/// The two drawings, or the number of the first line of the table from 1 to 8 that applies.
pub fn accept(
    first: &[i32],
    second: &[i32],
    room: usize,
) -> Result<(Vec<Corner>, Vec<Corner>), u8> {
    let n = first.len() / 2;
    let odd = first.len() % 2 == 1 || second.len() % 2 == 1;
    let allowed = drawing::FEWEST_CORNERS..=drawing::MOST_CORNERS;
    if odd || first.len() != second.len() || !allowed.contains(&n) {
        return Err(1);
    }
    if room < needed_room(n) {
        return Err(2);
    }
    Ok((sound(first, 3)?, sound(second, 6)?))
}

/// A sound drawing, or its number; the numbers of its drawing begin with `out_of_range`.
fn sound(list: &[i32], out_of_range: u8) -> Result<Vec<Corner>, u8> {
    let corners = drawing::corners(list);
    match drawing::judge(&corners) {
        Judged::Sound => Ok(corners),
        Judged::OutOfRange => Err(out_of_range),
        Judged::NotSimple => Err(out_of_range + 1),
        Judged::NotAnticlockwise => Err(out_of_range + 2),
    }
}

/// The pieces that an answer's bytes tell.
pub fn told(bytes: &[u8]) -> Vec<Piece> {
    let mut pieces = Vec::new();
    let mut rest = bytes;
    while let [k, centre, after @ ..] = rest {
        let (corners, later) = after.split_at(usize::from(*k));
        let corners = corners.iter().map(|&corner| usize::from(corner)).collect();
        pieces.push(Piece { centre: usize::from(*centre), corners });
        rest = later;
    }
    pieces
}

/// Writes each piece as k, the centre, the k corners.
fn given(pieces: &[Piece], room: &mut [u8]) -> Outcome {
    let mut bytes = 0;
    for piece in pieces {
        let head = [piece.corners.len(), piece.centre];
        for &number in head.iter().chain(&piece.corners) {
            room[bytes] = number as u8;
            bytes += 1;
        }
    }
    Outcome { number: 0, pieces: pieces.len(), bytes }
}
