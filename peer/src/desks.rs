//! The calls that a desk's library has, and the trials of a library against the peer.

use crate::checker::{self, Verdict};
use crate::cutting;
use crate::desk::{self, needed_room, refused, Outcome};
use crate::drawing::{self, Judged, FEWEST_CORNERS, MOST_CORNERS};
use crate::marks::{self, Flat, Mark};
use crate::pairs::calls::{self, Call};
use crate::pairs::dice::Dice;
use crate::sight::{self, Sight};

/// Cells stand in rows of 64, whatever the number of corners: cell i*64+j tells how i sees j, 1 for
/// the strict sight plus 2 for a centre's.
pub const ROW: usize = MOST_CORNERS;
pub const CELLS: usize = ROW * ROW;

/// A desk and its stages. Any lists, cells and rooms may be handed in.
pub trait Desk {
    /// 01, "What comes back".
    fn answer(&self, first: &[i32], second: &[i32], room: &mut [u8]) -> Outcome;

    /// The number that a first drawing gets by itself: 0, 1, 3, 4 or 5.
    fn judge(&self, list: &[i32]) -> u8;

    /// Puts 0 to 3 into the cells of two corners. False where the list is no sound drawing or the
    /// cells are fewer than `CELLS`: then nothing is written.
    fn sight(&self, list: &[i32], cells: &mut [u8]) -> bool;

    /// Number 0 or 9 from the sight of two drawings, where an odd cell tells the strict kind and an
    /// odd half of a cell, rounded down, the centre's, whatever the cell is besides; or 1, where n
    /// or the cells are not served, or 2, where the room is too small.
    fn cut(&self, n: usize, first: &[u8], second: &[u8], room: &mut [u8]) -> Outcome;

    /// 02, K1: where a mark lands.
    fn carry(&self, first: &[i32], second: &[i32], mark: Mark, room: &mut [u8]) -> Flat;

    /// 02, K4: what is wrong with a list of pieces that was made elsewhere.
    fn check(&self, first: &[i32], second: &[i32], list: &[u8]) -> Verdict;
}

pub struct Peer;

impl Desk for Peer {
    fn answer(&self, first: &[i32], second: &[i32], room: &mut [u8]) -> Outcome {
        desk::answer(first, second, room)
    }

    fn judge(&self, list: &[i32]) -> u8 {
        if !shaped(list) {
            return 1;
        }
        match drawing::judge(&drawing::corners(list)) {
            Judged::Sound => 0,
            Judged::OutOfRange => 3,
            Judged::NotSimple => 4,
            Judged::NotAnticlockwise => 5,
        }
    }

    fn sight(&self, list: &[i32], cells: &mut [u8]) -> bool {
        if cells.len() < CELLS || self.judge(list) != 0 {
            return false;
        }
        let sight = sight::sight(&drawing::corners(list));
        for i in 0..sight.corners() {
            for j in 0..sight.corners() {
                cells[i * ROW + j] = sight.cell(i, j);
            }
        }
        true
    }

    fn cut(&self, n: usize, first: &[u8], second: &[u8], room: &mut [u8]) -> Outcome {
        let corners = FEWEST_CORNERS..=MOST_CORNERS;
        let cells = first.len().min(second.len());
        if !corners.contains(&n) || cells < CELLS {
            return refused(1);
        }
        if room.len() < needed_room(n) {
            return refused(2);
        }
        let [first, second] =
            [first, second].map(|cells| Sight::from_cells(n, |i, j| cells[i * ROW + j]));
        desk::cut_by(cutting::first_smallest, &first, &second, room)
    }

    fn carry(&self, first: &[i32], second: &[i32], mark: Mark, room: &mut [u8]) -> Flat {
        marks::carry(first, second, mark, room).into()
    }

    fn check(&self, first: &[i32], second: &[i32], list: &[u8]) -> Verdict {
        checker::check(first, second, list)
    }
}

/// Whether a list has an even length and as many corners as a drawing may have.
fn shaped(list: &[i32]) -> bool {
    list.len().is_multiple_of(2) && (FEWEST_CORNERS..=MOST_CORNERS).contains(&(list.len() / 2))
}

/// What came back from a call, and what was lent to it, afterwards.
#[derive(Debug, PartialEq, Eq)]
struct Reply {
    said: Said,
    lent: Vec<u8>,
}

#[derive(Debug, PartialEq, Eq)]
enum Said {
    Outcome(Outcome),
    Number(u8),
    Served(bool),
    Carried(Flat),
    Checked(Verdict),
}

/// Makes the call.
fn reply(desk: &impl Desk, call: &Call) -> Reply {
    let mut lent = call.lent().to_vec();
    let said = match call {
        Call::Answer { pair, .. } => {
            Said::Outcome(desk.answer(&pair.first, &pair.second, &mut lent))
        }
        Call::Judge { list } => Said::Number(desk.judge(list)),
        Call::Sight { list, .. } => Said::Served(desk.sight(list, &mut lent)),
        Call::Cut { n, first, second, .. } => Said::Outcome(desk.cut(*n, first, second, &mut lent)),
        Call::Carry { pair, mark, .. } => {
            Said::Carried(desk.carry(&pair.first, &pair.second, *mark, &mut lent))
        }
        Call::Check { pair, list } => Said::Checked(desk.check(&pair.first, &pair.second, list)),
    };
    Reply { said, lent }
}

/// Makes the call to the desk and to the peer, and tells whether what came back or a byte that was
/// lent differs.
pub fn compare_call(desk: &impl Desk, call: &Call) -> Result<(), String> {
    let (theirs, ours) = (reply(desk, call), reply(&Peer, call));
    if theirs == ours {
        Ok(())
    } else {
        Err(format!("the calls differ for\n{call:?}\ndesk: {theirs:?}\npeer: {ours:?}"))
    }
}

/// Makes that many rounds of calls, one of each kind or more a round, with any lists, cells, marks,
/// pieces and rooms, and counts the calls. Few corners come more often than many.
pub fn compare_calls(
    desk: &impl Desk,
    seed: u64,
    rounds: usize,
    most: usize,
) -> Result<usize, String> {
    let mut dice = Dice::new(seed);
    let mut made = 0;
    for _ in 0..rounds {
        let most = dice.pick(&[8, 12, 16, 24, 40, MOST_CORNERS]).min(most);
        for call in calls::round(&mut dice, most) {
            compare_call(desk, &call)?;
            made += 1;
        }
    }
    Ok(made)
}
