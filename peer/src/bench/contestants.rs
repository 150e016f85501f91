//! Who takes part, and what each does in each stage.

use super::STAGES;
use crate::desks::{Desk, CELLS};
use crate::drawing::{self, MOST_CORNERS};
use crate::library::Library;
use crate::pairs::Pair;
use crate::sight::{sight, Sight};
use crate::{cutting, desk, rival};
use std::hint::black_box;

/// The room of a pair, as the program gives it; it is not cleared between calls.
pub const ROOM: usize = desk::needed_room(MOST_CORNERS);

/// What is done with pair k in a stage.
pub type Work<'a> = Box<dyn FnMut(usize) + 'a>;

/// The work in each stage that a contestant has.
pub type Works<'a> = [Option<Work<'a>>; STAGES.len()];

/// The peer keeps corners and sight in forms of its own, which are made as its answer makes them.
pub fn peer(pairs: &[Pair]) -> Works<'_> {
    let (cut, whole) = search(pairs, cutting::first_smallest);
    let judge = |list: &[i32]| drawing::judge(&drawing::corners(list));
    [
        Some(Box::new(move |k| {
            black_box((judge(&pairs[k].first), judge(&pairs[k].second)));
        })),
        Some(Box::new(|k| {
            black_box(sights(&pairs[k]));
        })),
        Some(cut),
        Some(whole),
    ]
}

/// The rival is a search: the stages before it are the peer's.
pub fn rival(pairs: &[Pair]) -> Works<'_> {
    let (cut, whole) = search(pairs, rival::first_smallest);
    [None, None, Some(cut), Some(whole)]
}

/// The work of a search by itself and in a whole answer.
fn search(pairs: &[Pair], search: desk::Search) -> (Work<'_>, Work<'_>) {
    let seen: Vec<[Sight; 2]> = pairs.iter().map(sights).collect();
    let (mut cut_room, mut room) = ([0; ROOM], [0; ROOM]);
    let cut = move |k: usize| {
        let [first, second] = &seen[k];
        black_box(desk::cut_by(search, first, second, &mut cut_room));
    };
    let whole = move |k: usize| {
        black_box(desk::answer_by(search, &pairs[k].first, &pairs[k].second, &mut room));
    };
    (Box::new(cut), Box::new(whole))
}

fn sights(pair: &Pair) -> [Sight; 2] {
    [&pair.first, &pair.second].map(|list| sight(&drawing::corners(list)))
}

/// A library that serves the pairs. Its cells are its own matter: what it puts into them is only
/// handed back to it.
pub fn library<'a>(library: &'a Library, pairs: &'a [Pair]) -> Works<'a> {
    let cells = |list: &[i32]| {
        let mut cells = vec![0; CELLS];
        library.sight(list, &mut cells);
        cells
    };
    let seen: Vec<[Vec<u8>; 2]> =
        pairs.iter().map(|pair| [&pair.first, &pair.second].map(|list| cells(list))).collect();
    let mut lent = [vec![0; CELLS], vec![0; CELLS]];
    let (mut cut_room, mut room) = ([0; ROOM], [0; ROOM]);
    let judging: Work = Box::new(move |k| {
        black_box((library.judge(&pairs[k].first), library.judge(&pairs[k].second)));
    });
    [
        library.judges().then_some(judging),
        Some(Box::new(move |k| {
            library.sight(&pairs[k].first, &mut lent[0]);
            library.sight(&pairs[k].second, &mut lent[1]);
            black_box(&lent);
        })),
        Some(Box::new(move |k| {
            let n = pairs[k].first.len() / 2;
            black_box(library.cut(n, &seen[k][0], &seen[k][1], &mut cut_room));
        })),
        Some(Box::new(move |k| {
            black_box(library.answer(&pairs[k].first, &pairs[k].second, &mut room));
        })),
    ]
}
