//! What checking a pair's own answer takes: over the sight of the pair, beside the answer itself, and
//! beside the peer's check. The product looks at all pairs of corners first, the peer only at the
//! lines that a piece has.

use super::contestants::{Work, ROOM};
use super::race::{turn_by_turn, Turns};
use super::table::{line, middle, percent_over, told};
use crate::checker;
use crate::desk;
use crate::desks::{compare_call, Desk, CELLS};
use crate::library::Library;
use crate::pairs::calls::Call;
use crate::pairs::Pair;
use std::hint::black_box;

/// Microseconds a pair, in one turn: the sight of both drawings, the answer, the check, the peer's.
pub type Times = [f64; 4];

/// A line of the table: the kind of the pairs, their number of corners, and the times of each turn.
pub struct Row {
    pub kind: &'static str,
    pub n: usize,
    pub turns: Vec<Times>,
}

/// The times on those of the pairs that get a cutting, turn by turn, if there are any. What is
/// measured is first held to the peer.
pub fn measure(turns: Turns, library: &Library, pairs: &[Pair]) -> Result<Vec<Times>, String> {
    let listed = |pair: &Pair| Some((pair.clone(), own_answer(pair)?));
    let listed: Vec<(Pair, Vec<u8>)> = pairs.iter().filter_map(listed).collect();
    for (pair, list) in &listed {
        compare_call(library, &Call::Check { pair: pair.clone(), list: list.clone() })?;
    }
    Ok(turn_by_turn(turns, turns.count, works(library, &listed), listed.len()))
}

/// The bytes of the pair's answer, if it gets a cutting.
pub fn own_answer(pair: &Pair) -> Option<Vec<u8>> {
    let mut room = [0; ROOM];
    let outcome = desk::answer(&pair.first, &pair.second, &mut room);
    (outcome.number == 0).then(|| room[..outcome.bytes].to_vec())
}

fn works<'a>(library: &'a Library, listed: &'a [(Pair, Vec<u8>)]) -> [Work<'a>; 4] {
    let mut lent = [vec![0; CELLS], vec![0; CELLS]];
    let mut room = [0; ROOM];
    [
        Box::new(move |k| {
            let (Pair { first, second }, _) = &listed[k];
            library.sight(first, &mut lent[0]);
            library.sight(second, &mut lent[1]);
            black_box(&lent);
        }),
        Box::new(move |k| {
            let (Pair { first, second }, _) = &listed[k];
            black_box(library.answer(first, second, &mut room));
        }),
        Box::new(move |k| {
            let (Pair { first, second }, list) = &listed[k];
            black_box(library.check(first, second, list));
        }),
        Box::new(move |k| {
            let (Pair { first, second }, list) = &listed[k];
            black_box(checker::check(first, second, list));
        }),
    ]
}

/// The table: the times of the middle; how much longer checking takes than the sight; and how many
/// times as fast it is as the answer and as the peer's check.
pub fn table(rows: &[Row]) -> String {
    let heading = [
        "pairs",
        "n",
        "sight",
        "answer",
        "check",
        "peer: check",
        "over sight",
        "ratio to answer",
        "ratio to peer",
    ];
    let mut lines = vec![line(&heading.map(String::from)), line(&heading.map(|_| "---".into()))];
    for Row { kind, n, turns } in rows {
        let [sight, answer, check, peers] = [0, 1, 2, 3].map(|who| told(middle(turns, |t| t[who])));
        let over = middle(turns, |times| times[2] / times[0]).map_or("-".into(), percent_over);
        let [to_answer, to_peer] = [1, 3].map(|who| told(middle(turns, |t| t[who] / t[2])));
        let (kind, n) = (kind.to_string(), n.to_string());
        lines.push(line(&[kind, n, sight, answer, check, peers, over, to_answer, to_peer]));
    }
    lines.concat()
}
