//! The search that tries every cutting, and the two in time n^4 against it.

use peer::cutting;
use peer::desk;
use peer::exhaustive;
use peer::pairs::dice::Dice;
use peer::pairs::{pair_up_to, Kind};
use peer::rival;
use peer::sight::{cell, Sight};

/// The sets of uncrossed diagonals of a convex polygon are counted by Schröder's numbers.
#[test]
fn all_cuttings_are_tried() {
    for (n, count) in [(3, 1), (4, 3), (5, 11), (6, 45), (7, 197), (8, 903), (9, 4279)] {
        assert_eq!(exhaustive::cuttings(n, &|_, _| true).len(), count);
    }
}

/// 01, "Cuttings": there is one piece more than there are cuts, and each cut is on two of them.
#[test]
fn there_is_one_piece_more_than_cuts() {
    for cutting in exhaustive::cuttings(8, &|_, _| true) {
        let regions = exhaustive::regions(8, &cutting);
        assert_eq!(regions.len(), cutting.len() + 1);
        let corners: usize = regions.iter().map(Vec::len).sum();
        assert_eq!(corners, 8 + 2 * cutting.len());
        assert!(regions.iter().all(|region| region.len() >= 3 && region.is_sorted()));
    }
}

#[test]
fn the_searches_agree_on_pairs() {
    let mut dice = Dice::new(11);
    let mut numbers = [0; 10];
    for _ in 0..6000 {
        let most = dice.pick(&[5, 6, 7, 8, 8, 9]);
        let pair = pair_up_to(&mut dice, Kind::Mixed, most);
        let (mut room, mut tried) = ([0xAA; 310], [0xAA; 310]);
        let outcome = desk::answer(&pair.first, &pair.second, &mut room);
        let every = exhaustive::first_smallest;
        let by_trying = desk::answer_by(every, &pair.first, &pair.second, &mut tried);
        assert_eq!((outcome, room), (by_trying, tried), "{pair:?}");
        numbers[usize::from(outcome.number)] += 1;
    }
    assert_eq!(numbers[2], 0);
    assert!((0..10).all(|k| k == 2 || numbers[k] > 5), "{numbers:?}");
}

/// The lines of a random cutting of the range i..j into triangles.
fn triangles(dice: &mut Dice, i: usize, j: usize, lines: &mut Vec<(usize, usize)>) {
    if j - i >= 2 {
        let k = i + 1 + dice.below(j - i - 1);
        lines.extend([(i, k), (k, j)]);
        triangles(dice, i, k, lines);
        triangles(dice, k, j, lines);
    }
}

/// A table of sight that need not come from any drawing: neighbours see each other, and other
/// pairs do that are among the lines, or so many times in ten. Some are seen by a centre only, and
/// some may only be cut along.
fn some_sight(dice: &mut Dice, n: usize, lines: &[(usize, usize)], of_ten: usize) -> Sight {
    Sight::from_rule(n, |i, j| {
        let near = j - i <= 1 || j - i == n - 1 || lines.contains(&(i, j));
        let seen = dice.below(10) < of_ten;
        cell(near || seen && !dice.once_in(4), near || seen && !dice.once_in(8))
    })
}

#[test]
fn the_searches_agree_on_any_sight() {
    let mut dice = Dice::new(12);
    let mut pieces = [0; 10];
    for _ in 0..6000 {
        let (n, of_ten) = (3 + dice.below(7), dice.below(9));
        let mut lines = Vec::new();
        if !dice.once_in(4) {
            triangles(&mut dice, 0, n - 1, &mut lines);
        }
        let first = some_sight(&mut dice, n, &lines, of_ten);
        let second = some_sight(&mut dice, n, &lines, 7);
        pieces[agreed(&first, &second)] += 1;
    }
    assert!(pieces[..4].iter().all(|&count| count > 50), "{pieces:?}");
}

/// One corner may see another that does not see it, and need not see itself.
#[test]
fn the_searches_agree_on_any_cells() {
    let mut dice = Dice::new(13);
    let mut pieces = [0; 10];
    for _ in 0..6000 {
        let (n, of_ten) = (3 + dice.below(7), dice.pick(&[5, 8, 9]));
        let mut sight = || {
            let mut seen = || (dice.below(10) < of_ten, dice.below(10) < of_ten);
            let cells: Vec<(bool, bool)> = (0..n * n).map(|_| seen()).collect();
            Sight::from_cells(n, |i, j| cell(cells[i * n + j].0, cells[i * n + j].1))
        };
        pieces[agreed(&sight(), &sight())] += 1;
    }
    assert!(pieces[..4].iter().all(|&count| count > 50), "{pieces:?}");
}

/// A cut needs the strict kind and a centre its own, in both drawings: a square of which one pair of
/// opposite corners is told in all four ways.
#[test]
fn each_kind_of_sight_for_its_own() {
    let square = |told: u8| {
        Sight::from_rule(4, |i, j| match (i, j) {
            (0, 2) => told,
            (1, 3) => 0,
            _ => 3,
        })
    };
    let pieces = |first: u8, second: u8| agreed(&square(first), &square(second));
    for first in 0..4 {
        for second in 0..4 {
            // With the centre's kind 0 is a centre; with the other alone two triangles are left.
            let expected = match first & second {
                0 => 0,
                1 => 2,
                _ => 1,
            };
            assert_eq!(pieces(first, second), expected, "{first} {second}");
        }
    }
    assert_eq!(pieces(4, 255), 0);
    assert_eq!(pieces(254, 255), 1);
}

/// The count of pieces that all searches find, with the same cutting; 0 for none.
fn agreed(first: &Sight, second: &Sight) -> usize {
    let found = exhaustive::first_smallest(first, second);
    assert_eq!(cutting::first_smallest(first, second), found, "{first:?} {second:?}");
    assert_eq!(rival::first_smallest(first, second), found, "{first:?} {second:?}");
    found.map_or(0, |pieces| pieces.len())
}

#[test]
fn the_rival_agrees_on_many_corners() {
    let mut dice = Dice::new(14);
    for _ in 0..600 {
        let pair = pair_up_to(&mut dice, Kind::Mixed, 64);
        let mut rooms = [[0xAA; 310]; 2];
        let [peers, rivals] = &mut rooms;
        let outcome = desk::answer(&pair.first, &pair.second, peers);
        let search = rival::first_smallest;
        assert_eq!(desk::answer_by(search, &pair.first, &pair.second, rivals), outcome);
        assert_eq!(peers, rivals, "{pair:?}");
    }
}
