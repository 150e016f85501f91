//! What carrying a mark takes over the answer to its pair.
//!
//! The product's archive of marks has an answer of its own, which its compiler has put together
//! with the rest. So the answer is measured twice: by its own call, and by that of a mark out of
//! range, which is refused after the answer and before any wedge is looked at.
//!
//! What is looked for is smaller than what the machine's speed moves by within a second. So the
//! three are held against each other within each turn, and the middle one of these ratios counts.

use super::contestants::{Work, ROOM};
use super::race::{turn_by_turn, Turns};
use super::table::{line, middle, percent_over, told};
use crate::desk;
use crate::desks::{compare_call, Desk};
use crate::drawing::{corners, FARTHEST};
use crate::library::Library;
use crate::marks::{at, holds, wedges, Mark, Wedge};
use crate::pairs::calls::Call;
use crate::pairs::Pair;
use std::hint::black_box;

/// Out of range, by one step.
const BEYOND: Mark = Mark { x: FARTHEST as i32 + 1, y: 0 };

/// For one turn of the other tables there are so many here.
const MORE: usize = 8;

/// Microseconds a pair, in one turn: its answer, a mark out of range, a mark carried.
pub type Times = [f64; 3];

/// A line of the table: the kind of the pairs, their number of corners, and the times of each turn.
pub struct Row {
    pub kind: &'static str,
    pub n: usize,
    pub turns: Vec<Times>,
}

/// The times on those of the pairs that get a cutting, turn by turn, if there are any. What is
/// measured is first held to the peer.
pub fn measure(turns: Turns, library: &Library, pairs: &[Pair]) -> Result<Vec<Times>, String> {
    let marked = |pair: &Pair| Some((pair.clone(), last_mark(pair)?));
    let marked: Vec<(Pair, Mark)> = pairs.iter().filter_map(marked).collect();
    for (pair, mark) in &marked {
        for mark in [*mark, BEYOND] {
            let room = vec![0; ROOM];
            compare_call(library, &Call::Carry { pair: pair.clone(), mark, room })?;
        }
    }
    Ok(turn_by_turn(turns, MORE * turns.count, works(library, &marked), marked.len()))
}

/// The corner that the answer's wedges come to last, those without area being passed over. None
/// without an answer.
pub fn last_mark(pair: &Pair) -> Option<Mark> {
    let mut room = [0; ROOM];
    let outcome = desk::answer(&pair.first, &pair.second, &mut room);
    let wedges = wedges(&desk::told(&room[..outcome.bytes]));
    let first = corners(&pair.first);
    let reached = |i: usize| {
        let held = |wedge: &Wedge| holds(at(&first, wedge), first[i]);
        Some((wedges.iter().position(held)?, i))
    };
    let (_, last) = (0..first.len()).filter_map(reached).max()?;
    Some(Mark { x: pair.first[2 * last], y: pair.first[2 * last + 1] })
}

fn works<'a>(library: &'a Library, marked: &'a [(Pair, Mark)]) -> [Work<'a>; 3] {
    let [mut answered, mut refused, mut carried] = [[0; ROOM]; 3];
    [
        Box::new(move |k| {
            let (Pair { first, second }, _) = &marked[k];
            black_box(library.answer(first, second, &mut answered));
        }),
        Box::new(move |k| {
            let (Pair { first, second }, _) = &marked[k];
            black_box(library.carry(first, second, BEYOND, &mut refused));
        }),
        Box::new(move |k| {
            let (Pair { first, second }, mark) = &marked[k];
            black_box(library.carry(first, second, *mark, &mut carried));
        }),
    ]
}

/// The table: the times of the middle, and in the last two columns how much longer carrying takes.
pub fn table(rows: &[Row]) -> String {
    let heading =
        ["pairs", "n", "answer", "out of range", "carried", "over answer", "over out of range"];
    let mut lines = vec![line(&heading.map(String::from)), line(&heading.map(|_| "---".into()))];
    for Row { kind, n, turns } in rows {
        let time = |who: usize| told(middle(turns, |times| times[who]));
        let over = |who: usize| {
            let ratio = middle(turns, |times| times[2] / times[who]);
            ratio.map_or("-".into(), percent_over)
        };
        let [one, two, three] = [0, 1, 2].map(time);
        lines.push(line(&[kind.to_string(), n.to_string(), one, two, three, over(0), over(1)]));
    }
    lines.concat()
}
