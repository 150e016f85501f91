//! Calls to try on a desk's library: whatever a slice can hold, in any length.

use super::dice::Dice;
use super::{lists, marks, pair_up_to, Kind, Pair};
use crate::desks::{Desk, Peer, CELLS, ROW};
use crate::marks::Mark;
use crate::sight;

/// How many marks of a pair are carried in a round.
const MARKS: usize = 2;

/// How many lists of pieces are checked against it.
const LISTS: usize = 4;

/// A call with its arguments, those that are lent among them.
#[derive(Clone, Debug)]
pub enum Call {
    Answer { pair: Pair, room: Vec<u8> },
    Judge { list: Vec<i32> },
    Sight { list: Vec<i32>, cells: Vec<u8> },
    Cut { n: usize, first: Vec<u8>, second: Vec<u8>, room: Vec<u8> },
    Carry { pair: Pair, mark: Mark, room: Vec<u8> },
    Check { pair: Pair, list: Vec<u8> },
}

impl Call {
    /// What is lent to the call, to be written to.
    pub fn lent(&self) -> &[u8] {
        match self {
            Call::Answer { room, .. } | Call::Cut { room, .. } | Call::Carry { room, .. } => room,
            Call::Sight { cells, .. } => cells,
            Call::Judge { .. } | Call::Check { .. } => &[],
        }
    }
}

/// A pair's answer; its drawings judged and looked at; a cutting from their sight and one from
/// cells that come from no drawing; marks of the pair carried; lists of pieces checked.
pub fn round(dice: &mut Dice, most: usize) -> Vec<Call> {
    let kind = dice.pick(&[Kind::Mixed, Kind::Mixed, Kind::Mixed, Kind::Lists]);
    let pair = pair_up_to(dice, kind, most);
    let n = pair.first.len() / 2;
    let mut calls = vec![Call::Answer { pair: pair.clone(), room: some_room(dice, n) }];
    for list in [&pair.first, &pair.second] {
        calls.push(Call::Judge { list: list.clone() });
        let length = some_length(dice);
        calls.push(Call::Sight { list: list.clone(), cells: noise(dice, length) });
    }
    let sights = [&pair.first, &pair.second].map(|list| sight_of(dice, list));
    calls.push(cut(dice, n, sights));
    let any = 3 + dice.below(most - 2);
    let of_ten = dice.pick(&[4, 7, 8, 9]);
    let cells = [(); 2].map(|()| any_cells(dice, of_ten));
    calls.push(cut(dice, any, cells));
    for mark in marks::marks(dice, &pair, MARKS) {
        calls.push(Call::Carry { pair: pair.clone(), mark, room: some_room(dice, n) });
    }
    for list in lists::lists(dice, &pair, LISTS) {
        calls.push(Call::Check { pair: pair.clone(), list });
    }
    calls
}

/// A cutting of n corners, or once in a while of another number, from the cells or part of them.
fn cut(dice: &mut Dice, n: usize, [mut first, mut second]: [Vec<u8>; 2]) -> Call {
    let others = [0, 1, 2, ROW + 1, 2 * ROW, usize::MAX];
    let n = if dice.once_in(16) { dice.pick(&others) } else { n };
    first.truncate(some_length(dice));
    second.truncate(some_length(dice));
    Call::Cut { n, first, second, room: some_room(dice, n.min(ROW)) }
}

/// Often just enough for n corners, or just too small.
fn some_room(dice: &mut Dice, n: usize) -> Vec<u8> {
    let needed = (5 * n).saturating_sub(10);
    let sizes = [needed, needed, needed + 1, needed.saturating_sub(1), 0, 1000];
    let size = dice.pick(&sizes);
    noise(dice, size)
}

/// How many cells are lent: mostly just enough.
fn some_length(dice: &mut Dice) -> usize {
    let lengths = [CELLS, CELLS, CELLS, CELLS, CELLS, CELLS, CELLS + 7, CELLS - 1, 0];
    dice.pick(&lengths)
}

fn noise(dice: &mut Dice, length: usize) -> Vec<u8> {
    (0..length).map(|_| dice.below(256) as u8).collect()
}

/// The cells of the drawing's sight, if it has one, among noise.
fn sight_of(dice: &mut Dice, list: &[i32]) -> Vec<u8> {
    let mut cells = noise(dice, CELLS + 7);
    Peer.sight(list, &mut cells);
    cells
}

/// Cells of any value that say so many times in ten that one corner sees another, the strict kind
/// and the centre's each by itself; each way has its own cell.
fn any_cells(dice: &mut Dice, of_ten: usize) -> Vec<u8> {
    let mut cell = || {
        let [strict, centre] = [(); 2].map(|()| dice.below(10) < of_ten);
        4 * dice.below(64) as u8 + sight::cell(strict, centre)
    };
    (0..CELLS + 7).map(|_| cell()).collect()
}
