//! The benchmark: what it measures, and how.

use peer::bench::contestants::{Work, Works, ROOM};
use peer::bench::measure::before_agrees;
use peer::bench::race::{race, Turns};
use peer::bench::rates::{rates, Run};
use peer::bench::rows::{sizes, KINDS};
use peer::bench::table::{sight_table, table, Row};
use peer::bench::{carrying, checking};
use peer::checker::Verdict;
use peer::desk::Outcome;
use peer::desks::{Desk, Peer, ROW};
use peer::drawing::{corners, share_a_point};
use peer::frames;
use peer::marks::{Flat, Mark};
use peer::pairs::Pair;
use std::cell::RefCell;
use std::time::Duration;

fn number(pair: &Pair) -> u8 {
    Peer.answer(&pair.first, &pair.second, &mut [0; ROOM]).number
}

#[test]
fn every_pair_that_is_measured_is_sound() {
    for (kind, pairs) in KINDS {
        for n in sizes() {
            let pairs = pairs(n);
            assert!(pairs.iter().all(|pair| pair.first.len() == 2 * n), "{kind}, {n} corners");
            assert!(pairs.iter().all(|pair| [0, 9].contains(&number(pair))), "{kind}, {n} corners");
        }
    }
}

/// A search that ends in nothing is one kind of many.
#[test]
fn most_kinds_have_something_told() {
    for (kind, pairs) in KINDS.into_iter().filter(|(kind, _)| *kind != "two stars") {
        for n in sizes() {
            assert!(pairs(n).iter().any(|pair| number(pair) == 0), "{kind}, {n} corners");
        }
    }
}

/// docs/PERFORMANCE.md has the figure.
#[test]
fn many_lines_of_the_wall_touch_a_third_corner() {
    let (_, wall) = KINDS.into_iter().find(|(kind, _)| *kind == "wall on squared paper").unwrap();
    let drawing = corners(&wall(64)[0].first);
    let n = drawing.len();
    let lines = (0..n).flat_map(|i| (i + 2..n).map(move |j| (i, j)));
    let lines: Vec<(usize, usize)> = lines.filter(|&(i, j)| j - i < n - 1).collect();
    let touches = |&&(i, j): &&(usize, usize)| {
        let on = |k: usize| share_a_point(drawing[i], drawing[j], drawing[k], drawing[k]);
        (0..n).any(|k| k != i && k != j && on(k))
    };
    assert_eq!(100 * lines.iter().filter(touches).count() / lines.len(), 42);
}

#[test]
fn a_program_that_answers_too_little_has_no_rate() {
    let runs: Vec<Run> = vec![Box::new(frames::run), Box::new(|_| Vec::new())];
    let input = include_bytes!("../../crates/test_wire/data/fig8.hex");
    let rates = rates(2, &runs, input);
    assert!(rates[0].is_some_and(|rate| rate > 0.0) && rates[1].is_none(), "{rates:?}");
}

#[test]
fn contestants_take_turns() {
    let log = RefCell::new(String::new());
    let note = |who: char| -> Option<Work<'_>> {
        let log = &log;
        Some(Box::new(move |pair| log.borrow_mut().push_str(&format!("{who}{pair} "))))
    };
    let works: [Works; 3] =
        [[None, note('a'), None, note('c')], Works::default(), [None, note('b'), None, note('d')]];
    let times = race(Turns { count: 2, length: Duration::ZERO }, works, 2);
    let learned = "a0 a1 c0 c1 b0 b1 d0 d1 ";
    let turn = "a0 a1 b0 b1 c0 c1 d0 d1 ";
    assert_eq!(*log.borrow(), [learned, turn, turn].concat());
    let measured = times.map(|times| times.map(|time| time.is_some()));
    let two = [false, true, false, true];
    assert_eq!(measured, [two, [false; 4], two]);
}

#[test]
fn a_table_has_the_stages_of_its_first_contestant() {
    let row = |n, rival, product| Row {
        kind: "convex",
        n,
        cut: "1/1".into(),
        times: [[None, None, Some(rival), None], [Some(1.0), Some(2.0), Some(3.0), Some(product)]],
    };
    let expected = "\
| pairs | n | cut | rival: cutting | product: cutting | ratio: cutting | growth |
| --- | --- | --- | --- | --- | --- | --- |
| convex | 8 | 1/1 | 6.00 | 3.00 | 2.00 |  |
| convex | 16 | 1/1 | 1.50 | 3.00 | 0.50 | 4.0x |
";
    assert_eq!(table(["rival", "product"], &[row(8, 6.0, 10.0), row(16, 1.5, 40.0)]), expected);
}

/// Beside a call of sight that judges stands one that does not, with its judging.
#[test]
fn a_table_of_sight_adds_the_judging_that_a_call_leaves_out() {
    let row = |n, judging, sight| Row {
        kind: "convex",
        n,
        cut: "1/1".into(),
        times: [[judging, Some(6.0), None, None], [Some(9.0), sight, None, None]],
    };
    let rows = [row(8, Some(2.0), Some(4.0)), row(16, None, Some(4.0)), row(32, Some(2.0), None)];
    let expected = "\
| pairs | n | before: judging + sight | after: sight | ratio |
| --- | --- | --- | --- | --- |
| convex | 8 | 8.00 | 4.00 | 2.00 |
| convex | 16 | - | 4.00 | - |
| convex | 32 | 8.00 | - | - |
";
    assert_eq!(sight_table(["before", "after"], [false, true], &rows), expected);
    let both = sight_table(["before", "after"], [true, true], &rows);
    assert!(
        both.contains("| before: sight | after: sight |")
            && both.contains("| 6.00 | 4.00 | 1.50 |")
    );
}

/// The library of an earlier checkout: its cells tell the strict kind alone, and its answers are
/// others. Perhaps a number or a cell is wrong.
struct Earlier {
    wrong_number: bool,
    wrong_cell: bool,
}

impl Desk for Earlier {
    fn answer(&self, _: &[i32], _: &[i32], _: &mut [u8]) -> Outcome {
        Outcome { number: 9, pieces: 0, bytes: 0 }
    }

    fn judge(&self, list: &[i32]) -> u8 {
        Peer.judge(list) + u8::from(self.wrong_number)
    }

    fn sight(&self, list: &[i32], cells: &mut [u8]) -> bool {
        Peer.sight(list, cells);
        cells.iter_mut().for_each(|cell| *cell %= 2);
        cells[ROW + 2] ^= u8::from(self.wrong_cell);
        true
    }

    fn cut(&self, _: usize, _: &[u8], _: &[u8], _: &mut [u8]) -> Outcome {
        Outcome { number: 9, pieces: 0, bytes: 0 }
    }

    fn carry(&self, _: &[i32], _: &[i32], _: Mark, _: &mut [u8]) -> Flat {
        panic!("no mark is asked for")
    }

    fn check(&self, _: &[i32], _: &[i32], _: &[u8]) -> Verdict {
        panic!("no list is asked for")
    }
}

#[test]
fn of_an_earlier_library_only_judging_and_strict_sight_are_compared() {
    let (_, rectangle) = KINDS.into_iter().find(|(kind, _)| kind.starts_with("rectangle")).unwrap();
    let pair = &rectangle(16)[0];
    let agrees = |wrong_number, wrong_cell, judges| {
        before_agrees(&Earlier { wrong_number, wrong_cell }, judges, pair).is_ok()
    };
    assert!(agrees(false, false, true) && agrees(true, false, false));
    assert!(!agrees(true, false, true) && !agrees(false, true, true));
}

/// The mark that is measured is in the last wedge of the answer: a convex drawing has its last
/// corner there.
#[test]
fn a_mark_in_the_last_wedge_is_measured() {
    let (_, convex) = KINDS[0];
    for n in sizes() {
        let pair = &convex(n)[0];
        let mark = carrying::last_mark(pair).expect("a cutting");
        assert_eq!([mark.x, mark.y], pair.first[2 * n - 2..]);
    }
    let none = Pair { first: vec![0; 8], second: vec![0; 8] };
    assert_eq!(carrying::last_mark(&none), None);
}

#[test]
fn a_table_of_marks_has_what_carrying_takes_over_the_answer() {
    // The machine is twice as slow in the second turn, and stops for a while in the third.
    let turns = vec![[100.0, 102.0, 102.0], [200.0, 204.0, 203.99], [100.0, 100.0, 900.0]];
    let expected = "\
| pairs | n | answer | out of range | carried | over answer | over out of range |
| --- | --- | --- | --- | --- | --- | --- |
| convex | 64 | 100.00 | 102.00 | 203.99 | 2.0 % | 0.0 % |
";
    assert_eq!(carrying::table(&[carrying::Row { kind: "convex", n: 64, turns }]), expected);
}

/// The list that is measured is the pair's own answer, and it is accepted.
#[test]
fn a_pairs_own_answer_is_checked() {
    for (kind, pairs) in KINDS {
        let accepted = |pair: &Pair| {
            let list = checking::own_answer(pair)?;
            Some(Peer.check(&pair.first, &pair.second, &list).number)
        };
        let pairs = pairs(16);
        assert!(pairs.iter().filter_map(accepted).all(|number| number == 0), "{kind}");
        let cut = pairs.iter().filter(|pair| number(pair) == 0).count();
        assert_eq!(pairs.iter().filter_map(accepted).count(), cut, "{kind}");
    }
}

#[test]
fn a_table_of_lists_has_what_checking_takes() {
    // The machine is twice as slow in the second turn, and stops for a while in the third.
    let turns =
        vec![[20.0, 100.0, 22.0, 11.0], [40.0, 200.0, 44.0, 22.0], [20.0, 100.0, 900.0, 11.0]];
    let expected = "\
| pairs | n | sight | answer | check | peer: check | over sight | ratio to answer | ratio to peer |
| --- | --- | --- | --- | --- | --- | --- | --- | --- |
| convex | 64 | 20.00 | 100.00 | 44.00 | 11.00 | 10.0 % | 4.55 | 0.50 |
";
    assert_eq!(checking::table(&[checking::Row { kind: "convex", n: 64, turns }]), expected);
}
