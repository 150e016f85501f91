//! Marks carried across (02, K1): the recorded calls, and what must hold of marks that are made.

// Marks have a file of their own.
#[allow(dead_code)]
mod recorded;

use peer::desk::{self, refused, Outcome};
use peer::drawing::{corners, in_range, turn, Corner};
use peer::fraction::Fraction;
use peer::inside::{in_or_on, Point};
use peer::marks::{self, axis, carry, holds, place, wedges, Axis, Carried, Flat, Mark, Wedge};
use peer::pairs::dice::Dice;
use peer::pairs::rules::Rule;
use peer::pairs::shapes::{self, inner_point, SHAPES};
use peer::pairs::{marks as made, pair, Kind, Pair, KINDS};

const ROOM: usize = 310;

/// In every number, byte and bit of a rest.
#[test]
fn recorded_calls() {
    let calls = recorded::marks();
    assert_eq!(calls.len(), 346);
    for call in calls {
        let before: Vec<u8> = (0..call.room).map(|k| (7 * k + 3) as u8).collect();
        let mut room = before.clone();
        let carried = carry(&call.first, &call.second, call.mark, &mut room);
        let (number, pieces, bytes) = (call.number, call.pieces, call.bytes.len());
        let outcome = Outcome { number, pieces, bytes };
        let due = Flat { outcome, lands: call.lands, axes: call.axes };
        assert_eq!(Flat::from(carried), due, "{}", call.name);
        assert_eq!(room[..bytes], call.bytes, "{}", call.name);
        assert_eq!(room[bytes..], before[bytes..], "{}", call.name);
    }
}

/// A pair that gets a cutting.
struct Cut {
    pair: Pair,
    drawings: [Vec<Corner>; 2],
    wedges: Vec<Wedge>,
}

impl Cut {
    fn of(pair: Pair) -> Option<Cut> {
        let mut room = [0; ROOM];
        let outcome = desk::answer(&pair.first, &pair.second, &mut room);
        let wedges = wedges(&desk::told(&room[..outcome.bytes]));
        let drawings = [corners(&pair.first), corners(&pair.second)];
        (outcome.number == 0).then_some(Cut { pair, drawings, wedges })
    }

    fn carry(&self, mark: Corner) -> Carried {
        let mark = Mark { x: mark.x as i32, y: mark.y as i32 };
        carry(&self.pair.first, &self.pair.second, mark, &mut [0; ROOM])
    }

    /// Whether no wedge is without area in the first drawing. 02, K3, promises one place for the
    /// marks of such answers only.
    fn all_have_area(&self) -> bool {
        let area = |wedge: &Wedge| {
            let [c, a, b] = marks::at(&self.drawings[0], wedge);
            turn(c, a, b) != 0
        };
        self.wedges.iter().all(area)
    }

    /// The exact place of the mark by each wedge that holds it.
    fn places(&self, mark: Corner) -> Vec<[Fraction; 2]> {
        let holds = |wedge: &&Wedge| holds(marks::at(&self.drawings[0], wedge), mark);
        self.wedges.iter().filter(holds).map(|wedge| place(&self.drawings, wedge, mark)).collect()
    }
}

/// Pairs of every kind that get a cutting, of so many made of each.
fn cut_pairs(seed: u64, made: usize) -> Vec<Cut> {
    let mut dice = Dice::new(seed);
    let kinds = KINDS.into_iter().flat_map(|(_, kind)| vec![kind; made]);
    kinds.filter_map(|kind| Cut::of(pair(&mut dice, kind))).collect()
}

fn whole(corner: Corner) -> Option<[Axis; 2]> {
    Some([corner.x, corner.y].map(|step| Axis { step, rest: 0.0 }))
}

#[test]
fn a_mark_on_a_corner_lands_on_that_corner() {
    let mut landed = 0;
    for cut in cut_pairs(11, 15).into_iter().filter(Cut::all_have_area) {
        let [first, second] = &cut.drawings;
        for (&from, &to) in first.iter().zip(second) {
            assert_eq!(cut.carry(from).place, whole(to), "{from:?} of {:?}", cut.pair);
            landed += 1;
        }
    }
    assert!(landed > 1_000, "{landed}");
}

/// A spoke and a cut have a wedge on either side, which both hold a point of it. What comes back is
/// from the first.
#[test]
fn a_mark_on_a_line_has_one_place() {
    let mut dice = Dice::new(12);
    let mut shared = 0;
    for cut in cut_pairs(12, 18).into_iter().filter(Cut::all_have_area) {
        for [c, a, b] in cut.wedges.iter().map(|wedge| marks::at(&cut.drawings[0], wedge)) {
            for [from, to] in [[c, a], [a, b], [b, c]] {
                let Some(mark) = inner_point(&mut dice, from, to) else {
                    continue;
                };
                let places = cut.places(mark);
                assert!(places.iter().all(|p| *p == places[0]), "{mark:?} of {:?}", cut.pair);
                assert_eq!(cut.carry(mark).place, Some(places[0].map(axis)));
                shared += usize::from(places.len() > 1);
            }
        }
    }
    assert!(shared > 1_000, "{shared}");
}

/// 02, K3: a wedge may have no area, and is passed over. The rectangle's corners 1 and 2 are on the
/// line from its centre to 3: a mark there is on the wedge of 3 and 4, which says where it lands.
#[test]
fn a_wedge_without_area_is_passed_over() {
    let first = vec![0, 0, 1, 0, 2, 0, 3, 0, 3, 3, 2, 3, 1, 3, 0, 3];
    let second = vec![0, 0, 2, 0, 4, 0, 9, 0, 9, 3, 2, 3, 1, 3, 0, 3];
    let cut = Cut::of(Pair { first, second }).expect("a cutting");
    assert!(!cut.all_have_area());
    assert_eq!(cut.wedges[..3], [[0, 1, 2], [0, 2, 3], [0, 3, 4]]);
    for (mark, x) in [(1, 3), (2, 6), (3, 9)] {
        assert_eq!(cut.carry(Corner::at(mark, 0)).place, whole(Corner::at(x, 0)));
    }
    let flat = cut_pairs(19, 15).into_iter().filter(|cut| !cut.all_have_area()).count();
    assert!(flat > 20, "{flat}");
}

/// The wedges make up the drawing: a mark lands exactly when it is in or on it.
#[test]
fn a_mark_lands_in_or_on_the_drawing() {
    let mut dice = Dice::new(13);
    let mut landed = [0, 0];
    for cut in cut_pairs(13, 20) {
        for mark in made::marks(&mut dice, &cut.pair, 20) {
            let mark = Corner::at(i64::from(mark.x), i64::from(mark.y));
            let point = Point { x: i128::from(mark.x), y: i128::from(mark.y), r: 1 };
            let lands = in_range(&mark) && in_or_on(&cut.drawings[0], &point);
            assert_eq!(cut.carry(mark).place.is_some(), lands, "{mark:?} of {:?}", cut.pair);
            landed[usize::from(lands)] += 1;
        }
    }
    assert!(landed[0] > 1_000 && landed[1] > 1_000, "{landed:?}");
}

/// A drawing and what a whole-number rule makes of it: the mark goes where the rule sends it,
/// whatever the wedges are.
#[test]
fn a_rule_sends_a_mark_as_it_sends_the_corners() {
    let mut dice = Dice::new(14);
    let rule = Rule { a: 3, b: -5, c: 2, d: 4, e: -700, f: 41 };
    let mut landed = 0;
    for shape in SHAPES {
        for n in (3..40).step_by(2) {
            let drawing = shapes::drawing(&mut dice, shape, n);
            let cut = rule.send(&drawing).and_then(|sent| Cut::of(Pair::of(&[drawing, sent])));
            let Some(cut) = cut else {
                continue;
            };
            for mark in made::marks(&mut dice, &cut.pair, 20) {
                let mark = Corner::at(i64::from(mark.x), i64::from(mark.y));
                if let Some(place) = cut.carry(mark).place {
                    let x = rule.a * mark.x + rule.b * mark.y + rule.e;
                    let y = rule.c * mark.x + rule.d * mark.y + rule.f;
                    assert_eq!(Some(place), whole(Corner::at(x, y)), "{mark:?}");
                    landed += 1;
                }
            }
        }
    }
    assert!(landed > 1_000, "{landed}");
}

/// For every kind of pair and of mark: the answer's own result and bytes, or 10 where only the mark
/// is out of range, and a refusal leaves the room and has no place.
#[test]
fn the_result_is_that_of_the_answer_or_ten() {
    let mut dice = Dice::new(15);
    let damaged = [Kind::Damaged, Kind::Damaged, Kind::Damaged, Kind::Damaged, Kind::Lists];
    let kinds = KINDS.map(|(_, kind)| kind).into_iter().chain(damaged);
    let mut numbers = [0; 11];
    for kind in kinds.flat_map(|kind| vec![kind; 40]) {
        let pair = pair(&mut dice, kind);
        for mark in made::marks(&mut dice, &pair, 4) {
            let before = vec![0xA5; dice.pick(&[0, 9, 30, ROOM, ROOM, ROOM, ROOM + 1])];
            let (mut answered, mut room) = (before.clone(), before.clone());
            let answer = desk::answer(&pair.first, &pair.second, &mut answered);
            let Carried { outcome, place } = carry(&pair.first, &pair.second, mark, &mut room);
            let beyond = !in_range(&Corner::at(i64::from(mark.x), i64::from(mark.y)));
            let ten = answer.number == 0 && beyond;
            assert_eq!(outcome, if ten { refused(marks::OUT_OF_RANGE) } else { answer });
            assert_eq!(room, if outcome.number == 0 { answered } else { before });
            assert!(outcome.number == 0 || place.is_none());
            numbers[usize::from(outcome.number)] += 1;
        }
    }
    assert!(numbers.iter().all(|&count| count > 10), "{numbers:?}");
}

/// 02: the rest is from 0 to below 1, and within 2^-53 of the fraction.
#[test]
fn rests_are_near() {
    let mut dice = Dice::new(16);
    for _ in 0..20_000 {
        let most = dice.pick(&[1, 2, 3, 10, 1_000, 1_000_000, 8_000_000_000_000]);
        let d = i128::from(dice.between(1, most));
        let step = i128::from(dice.between(-1_000_000, 1_000_000));
        let n = step * d + dice.below(d as usize) as i128;
        let Axis { step, rest } = axis(Fraction::of(n, d));
        let k = n - i128::from(step) * d;
        assert!(0 <= k && k < d && (0.0..1.0).contains(&rest));
        // In parts of 2^-96, of which the float is a whole number, the fraction lies from `low` to
        // below one more.
        let high = (k << 53) / d;
        let low = (high << 43) + (((k << 53) % d) << 43) / d;
        let parts = (rest * 2f64.powi(96)) as i128;
        assert_eq!(parts as f64, rest * 2f64.powi(96));
        assert!(low + 1 - (1 << 43) <= parts && parts <= low + (1 << 43), "{n}/{d}: {rest}");
    }
}
