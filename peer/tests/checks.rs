//! Cuttings from elsewhere (02, K4): the recorded calls, the definition of number 22 by trying every
//! set of pairs, and what the lists that are made for the trials are.

// Lists have a file of their own.
#[allow(dead_code)]
mod recorded;

use peer::checker::{check, inner_lines, is_cutting, regions, Verdict};
use peer::desk;
use peer::exhaustive::{self, cuttings};
use peer::pairs::calls::{self, Call};
use peer::pairs::dice::Dice;
use peer::pairs::lists::laid;
use peer::pairs::{pair_up_to, Kind};
use peer::telling::Piece;
use std::collections::{BTreeMap, BTreeSet};

const ROOM: usize = 310;

#[test]
fn recorded_calls() {
    let calls = recorded::checks();
    assert_eq!(calls.len(), 452);
    for call in calls {
        assert_eq!(check(&call.first, &call.second, &call.list), call.verdict, "{}", call.name);
    }
}

/// All rising lists of three or more of n corners.
fn all_pieces(n: usize) -> Vec<Vec<usize>> {
    let chosen = |set: u32| (0..n).filter(|i| set >> i & 1 == 1).collect::<Vec<usize>>();
    (0..1 << n).map(chosen).filter(|corners| corners.len() >= 3).collect()
}

fn pieces(corners: &[&Vec<usize>]) -> Vec<Piece> {
    let piece = |corners: &&Vec<usize>| {
        let corners = corners.to_vec();
        Piece { centre: corners[0], corners }
    };
    corners.iter().map(piece).collect()
}

/// The pieces of each uncrossed set of pairs of n corners, made as with scissors, in rising order.
fn all_cuttings(n: usize) -> BTreeSet<Vec<Vec<usize>>> {
    let of_set = |set: Vec<[usize; 2]>| {
        let mut regions = exhaustive::regions(n, &set);
        regions.sort();
        regions
    };
    cuttings(n, &|_, _| true).into_iter().map(of_set).collect()
}

/// Number 22 says what its words say: of every choice of pieces, some of them twice perhaps, it is
/// asked whether they are those of an uncrossed set of pairs, by trying all sets.
#[test]
fn every_choice_of_pieces() {
    for (n, most) in [(3, 4), (4, 4), (5, 5), (6, 4)] {
        let cuttings = all_cuttings(n);
        let all = all_pieces(n);
        let (mut tried, mut found) = (0, 0);
        let mut choices: Vec<Vec<usize>> = vec![Vec::new()];
        while let Some(choice) = choices.pop() {
            let corners: Vec<&Vec<usize>> = choice.iter().map(|&k| &all[k]).collect();
            let mut sorted: Vec<Vec<usize>> = corners.iter().map(|&c| c.clone()).collect();
            sorted.sort();
            let due = cuttings.contains(&sorted);
            assert_eq!(is_cutting(n, &pieces(&corners)), due, "{n} corners: {corners:?}");
            tried += 1;
            found += usize::from(due);
            if choice.len() < most {
                let from = choice.last().copied().unwrap_or(0);
                choices.extend((from..all.len()).map(|k| [&choice[..], &[k]].concat()));
            }
        }
        assert_eq!(found, cuttings.len(), "{n} corners, {tried} choices");
    }
}

/// A walk round the regions finds those that scissors make, and their lines are the set again.
#[test]
fn regions_by_walking_and_by_scissors() {
    for n in 3..=9 {
        for set in cuttings(n, &|_, _| true) {
            let mut walked = regions(n, &set);
            let mut made = exhaustive::regions(n, &set);
            walked.sort();
            made.sort();
            assert_eq!(walked, made, "{n} corners: {set:?}");
            let mut set = set;
            set.sort();
            assert_eq!(inner_lines(n, &pieces(&made.iter().collect::<Vec<_>>())), set);
        }
    }
}

/// Every answer of the desk is accepted, in any order of its pieces.
#[test]
fn answers_are_accepted() {
    let mut dice = Dice::new(31);
    let mut accepted = 0;
    for _ in 0..1500 {
        let pair = pair_up_to(&mut dice, Kind::Mixed, 24);
        let mut room = [0; ROOM];
        let outcome = desk::answer(&pair.first, &pair.second, &mut room);
        if outcome.number == 0 {
            let mut told = desk::told(&room[..outcome.bytes]);
            dice.shuffle(&mut told);
            let verdict = check(&pair.first, &pair.second, &laid(&told));
            assert_eq!(verdict, Verdict { number: 0, drawing: 0, place: 0 }, "{pair:?}");
            accepted += 1;
        } else {
            // What is wrong with the pair comes before the list.
            let number = check(&pair.first, &pair.second, &[]).number;
            assert_eq!(number, if outcome.number == 9 { 21 } else { outcome.number }, "{pair:?}");
        }
    }
    assert!(accepted > 500, "{accepted}");
}

/// The lists that are made: every number comes often, with 23 and 24 each drawing and places beyond
/// the first; some lists are longer than any cutting, and some have more pieces than a byte counts.
#[test]
fn calls_check_and_refuse() {
    let mut dice = Dice::new(32);
    let mut counts = BTreeMap::new();
    let (mut later, mut long, mut many) = (0, 0, 0);
    for call in (0..700).flat_map(|_| calls::round(&mut dice, 24)) {
        if let Call::Check { pair, list } = call {
            let verdict = check(&pair.first, &pair.second, &list);
            *counts.entry((verdict.number, verdict.drawing)).or_insert(0) += 1;
            later += usize::from(verdict.place > 0);
            let most = (5 * pair.first.len() / 2).saturating_sub(10);
            let no_cutting = verdict.number == 22;
            long += usize::from(no_cutting && list.len() > most);
            many += usize::from(no_cutting && begun_pieces(&list) > 256);
        }
    }
    for (key, least) in [
        ((0, 0), 300),
        ((1, 0), 30),
        ((3, 0), 10),
        ((4, 0), 30),
        ((5, 0), 10),
        ((6, 0), 10),
        ((7, 0), 30),
        ((8, 0), 10),
        ((21, 0), 200),
        ((22, 0), 200),
        ((23, 1), 50),
        ((23, 2), 50),
        ((24, 1), 50),
        ((24, 2), 50),
    ] {
        assert!(counts.get(&key).is_some_and(|&count| count >= least), "{key:?}: {counts:?}");
    }
    assert_eq!(counts.len(), 14, "{counts:?}");
    assert!(later > 50 && long > 20 && many > 10, "{later} {long} {many}");
}

/// How many pieces the bytes begin to tell.
fn begun_pieces(mut list: &[u8]) -> usize {
    let mut pieces = 0;
    while let [k, _, rest @ ..] = list {
        list = rest.get(usize::from(*k)..).unwrap_or_default();
        pieces += 1;
    }
    pieces
}
