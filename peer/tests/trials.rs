//! The trials themselves: what they try is what it should be, they pass the peer, and they find
//! faults put into it.

use peer::centre_sight::centre_sees;
use peer::checker::{self, missed, Verdict};
use peer::desk::{self, Outcome};
use peer::desks::{compare_calls, Desk, Peer, CELLS, ROW};
use peer::drawing::{corners, judge, sees, share_a_point, turn, Corner, Judged};
use peer::exhaustive;
use peer::marks::{self, Flat, Mark};
use peer::pairs::calls::{self, Call};
use peer::pairs::dice::Dice;
use peer::pairs::shapes::{self, Shape, SHAPES};
use peer::sight::Sight;
use std::process::{Command, Output};

const PEER: &str = env!("CARGO_BIN_EXE_peer");

fn compare(words: &[&str]) -> Output {
    let compare = env!("CARGO_BIN_EXE_compare");
    Command::new(compare).args(words).output().unwrap()
}

#[test]
fn the_peer_passes() {
    let output = compare(&[PEER, "0", "5"]);
    let line = String::from_utf8(output.stdout).unwrap();
    assert!(output.status.success(), "{line}");
    assert!(line.starts_with("same answers: ") && line.ends_with("seed 5\n"), "{line}");
}

/// A fault that a filter puts into the program's output, or into its input.
fn finds(fault: &str) {
    let output = compare(&[PEER, "0", "5", "--", "sh", "-c", fault]);
    let line = String::from_utf8(output.stdout).unwrap();
    assert_eq!(output.status.code(), Some(1), "{fault}: {line}");
    assert!(line.contains("differ") && line.ends_with("seed 5\n"), "{fault}: {line}");
}

#[test]
fn faults_are_found() {
    finds(r#""$0" | sed s/^A003/A004/"#);
    finds(r#""$0" | sed /EF/d"#);
    finds(r#""$0"; echo EF"#);
    finds(r#"tr a-f A-F | "$0""#);
}

#[test]
fn a_library_that_is_not_there_is_named() {
    let output = compare(&[PEER, "0", "5", "--library", "no/such.so"]);
    let said = String::from_utf8(output.stderr).unwrap();
    assert_eq!(output.status.code(), Some(2));
    assert!(said.starts_with("compare: no/such.so: "), "{said}");
    let output = compare(&[PEER, "--library"]);
    assert!(output.status.code() == Some(2) && output.stderr.starts_with(b"compare PROGRAM"));
}

#[test]
fn generated_frames_are_those_of_the_seed() {
    let generate = |kind: &str, seed: &str| {
        let words = [kind, "20", seed];
        let output = Command::new(env!("CARGO_BIN_EXE_generate")).args(words).output();
        output.unwrap().stdout
    };
    for (kind, _) in peer::pairs::KINDS {
        let frames = generate(kind, "3");
        assert_eq!(frames.iter().filter(|&&byte| byte == b'\n').count(), 40);
        assert_eq!(frames, generate(kind, "3"));
        assert_ne!(frames, generate(kind, "4"));
    }
    assert_eq!(generate("malformed", "3"), generate("malformed", "3"));
}

/// Where a desk may be wrong.
#[derive(Clone, Copy, Debug, PartialEq, Eq)]
enum Fault {
    /// A byte of the room behind those used, or one where there are none.
    AnswerGiven,
    AnswerRefused,
    /// The number of a drawing.
    Judged,
    /// A cell of two corners in either kind, one of no corners, one where nothing is served, and the
    /// result.
    Seen,
    SeenByCentre,
    KeptBeside,
    KeptRefused,
    Served,
    /// A drawing is served that is not sound, and not written.
    ServedUnsound,
    /// The same for a cutting as for an answer.
    CutGiven,
    CutRefused,
    /// Cuts by a centre's sight, centres by the strict one, and a cell above 3 that says all.
    CutsByCentre,
    StrictCentres,
    AllInHighCells,
    /// The same for a mark.
    CarryGiven,
    CarryRefused,
    /// The last bit of a rest, and its sign where there is no place.
    Rest,
    SignOfNothing,
    /// A mark out of range is refused before the pair is looked at.
    TenFirst,
    /// Places from 1, the second drawing asked first, the centre before the lines.
    PlacesFromOne,
    SecondAsked,
    CentreAsked,
    /// A piece twice is let through, and so is what is left of a list cut short.
    Twice,
    CutShort,
    /// No list, before the pair is looked at; as many corners as there are and one more.
    ListFirst,
    OneCornerMore,
    /// A place or a drawing where there is none.
    PlaceOfNothing,
    DrawingOfNothing,
}

/// The desk by the search that tries every cutting, with a fault in it or without.
struct Other {
    fault: Option<Fault>,
}

impl Other {
    /// Spoils the byte if this is the fault.
    fn spoil(&self, fault: Fault, byte: Option<&mut u8>) {
        if let Some(byte) = byte.filter(|_| self.fault == Some(fault)) {
            *byte ^= 1;
        }
    }

    fn spoil_room(&self, [given, refused]: [Fault; 2], outcome: &Outcome, room: &mut [u8]) {
        let fault = if outcome.number == 0 { given } else { refused };
        self.spoil(fault, room.get_mut(outcome.bytes));
    }
}

impl Desk for Other {
    fn answer(&self, first: &[i32], second: &[i32], room: &mut [u8]) -> Outcome {
        let outcome = desk::answer_by(exhaustive::first_smallest, first, second, room);
        self.spoil_room([Fault::AnswerGiven, Fault::AnswerRefused], &outcome, room);
        outcome
    }

    fn judge(&self, list: &[i32]) -> u8 {
        let mut number = Peer.judge(list);
        self.spoil(Fault::Judged, Some(&mut number));
        number
    }

    fn sight(&self, list: &[i32], cells: &mut [u8]) -> bool {
        let served = Peer.sight(list, cells);
        if served {
            self.spoil(Fault::Seen, cells.get_mut(ROW + 2));
            self.spoil(Fault::KeptBeside, cells.last_mut());
            if self.fault == Some(Fault::SeenByCentre) {
                cells[ROW + 2] ^= 2;
            }
        } else {
            self.spoil(Fault::KeptRefused, cells.first_mut());
        }
        let unsound = cells.len() >= CELLS && (3..=5).contains(&Peer.judge(list));
        match self.fault {
            Some(Fault::Served) => !served,
            Some(Fault::ServedUnsound) => served || unsound,
            _ => served,
        }
    }

    fn cut(&self, n: usize, first: &[u8], second: &[u8], room: &mut [u8]) -> Outcome {
        let mut outcome = Peer.cut(n, first, second, &mut room.to_vec());
        if [0, 9].contains(&outcome.number) {
            let read = |cell: u8| match self.fault {
                Some(Fault::CutsByCentre) => cell / 2 % 2 * 3,
                Some(Fault::StrictCentres) => cell % 2 * 3,
                Some(Fault::AllInHighCells) if cell > 3 => 3,
                _ => cell,
            };
            let sight = |c: &[u8]| Sight::from_cells(n, |i, j| read(c[i * ROW + j]));
            let search = exhaustive::first_smallest;
            outcome = desk::cut_by(search, &sight(first), &sight(second), room);
        }
        self.spoil_room([Fault::CutGiven, Fault::CutRefused], &outcome, room);
        outcome
    }

    fn carry(&self, first: &[i32], second: &[i32], mark: Mark, room: &mut [u8]) -> Flat {
        let search = exhaustive::first_smallest;
        let mut flat = Flat::from(marks::carry_by(search, first, second, mark, room));
        self.spoil_room([Fault::CarryGiven, Fault::CarryRefused], &flat.outcome, room);
        let rest = &mut flat.axes[1].rest;
        match self.fault {
            Some(Fault::Rest) if *rest > 0.0 => *rest = rest.next_down(),
            Some(Fault::SignOfNothing) if flat.lands == 0 => *rest = -*rest,
            Some(Fault::TenFirst) if mark.x.unsigned_abs() > 1_000_000 => {
                flat.outcome = desk::refused(marks::OUT_OF_RANGE);
            }
            _ => {}
        }
        flat
    }

    fn check(&self, first: &[i32], second: &[i32], list: &[u8]) -> Verdict {
        match self.fault {
            Some(fault) => misjudged(fault, first, second, list),
            None => checker::check(first, second, list),
        }
    }
}

/// What is wrong with a list without each piece whose corners another before it has, and without what
/// follows the last whole piece.
fn mended(first: &[i32], second: &[i32], list: &[u8]) -> [Verdict; 2] {
    let (mut once, mut whole, mut known) = (Vec::new(), Vec::new(), Vec::new());
    let mut rest = list;
    while let [k, _, after @ ..] = rest {
        let Some((corners, later)) = after.split_at_checked(usize::from(*k)) else {
            break;
        };
        let piece = &rest[..2 + corners.len()];
        if !known.contains(&corners) {
            known.push(corners);
            once.extend(piece);
        }
        whole.extend(piece);
        rest = later;
    }
    [once, whole].map(|list| checker::check(first, second, &list))
}

/// A verdict with a fault in it, if it is one of lists.
fn misjudged(fault: Fault, first: &[i32], second: &[i32], list: &[u8]) -> Verdict {
    let verdict = checker::check(first, second, list);
    let [once, whole] = mended(first, second, list);
    match (fault, verdict.number) {
        (Fault::PlacesFromOne, 23 | 24) => Verdict { place: verdict.place + 1, ..verdict },
        (Fault::SecondAsked, 23 | 24) => {
            let exchanged = checker::check(second, first, list);
            Verdict { drawing: 3 - exchanged.drawing, ..exchanged }
        }
        (Fault::CentreAsked, 23) => {
            let drawing = corners(if verdict.drawing == 1 { first } else { second });
            let piece = &desk::told(list)[verdict.place];
            let number = if missed(&drawing, piece).is_empty() { 23 } else { 24 };
            Verdict { number, ..verdict }
        }
        (Fault::Twice, 22) => once,
        (Fault::CutShort, 21) => whole,
        (Fault::ListFirst, 3..=8) if list.is_empty() => Verdict { number: 21, ..verdict },
        (Fault::OneCornerMore, 21) if list.first() == Some(&(first.len() as u8 / 2 + 1)) => {
            Verdict { number: 22, ..verdict }
        }
        (Fault::PlaceOfNothing, 0) => Verdict { place: 1, ..verdict },
        (Fault::DrawingOfNothing, 6..=8) => Verdict { drawing: 2, ..verdict },
        _ => verdict,
    }
}

#[test]
fn calls_compare_every_byte_lent() {
    let compare = |fault: Option<Fault>| compare_calls(&Other { fault }, 1, 600, 8);
    assert_eq!(compare(None), Ok(600 * 13));
    for fault in [
        Fault::AnswerGiven,
        Fault::AnswerRefused,
        Fault::Judged,
        Fault::Seen,
        Fault::SeenByCentre,
        Fault::KeptBeside,
        Fault::KeptRefused,
        Fault::Served,
        Fault::ServedUnsound,
        Fault::CutGiven,
        Fault::CutRefused,
        Fault::CutsByCentre,
        Fault::StrictCentres,
        Fault::AllInHighCells,
        Fault::CarryGiven,
        Fault::CarryRefused,
        Fault::Rest,
        Fault::SignOfNothing,
        Fault::TenFirst,
        Fault::PlacesFromOne,
        Fault::SecondAsked,
        Fault::CentreAsked,
        Fault::Twice,
        Fault::CutShort,
        Fault::ListFirst,
        Fault::OneCornerMore,
        Fault::PlaceOfNothing,
        Fault::DrawingOfNothing,
    ] {
        assert!(compare(Some(fault)).is_err(), "{fault:?}");
    }
}

/// The cuttings that are asked for, with how many pieces they end.
#[test]
fn calls_cut_and_refuse() {
    let mut dice = Dice::new(6);
    let mut numbers = [0; 10];
    let mut most = 0;
    for call in (0..300).flat_map(|_| calls::round(&mut dice, 64)) {
        if let Call::Cut { n, first, second, mut room } = call {
            let outcome = Peer.cut(n, &first, &second, &mut room);
            numbers[usize::from(outcome.number)] += 1;
            most = most.max(outcome.pieces);
        }
    }
    assert!([0, 1, 9].iter().all(|&k| numbers[k] > 50) && most > 10, "{numbers:?} {most}");
}

/// The marks that are made: every number comes, and marks land on whole places, between them, and
/// on no piece.
#[test]
fn calls_carry_and_refuse() {
    let mut dice = Dice::new(7);
    let mut numbers = [0; 11];
    let (mut nowhere, mut whole, mut between) = (0, 0, 0);
    for call in (0..1200).flat_map(|_| calls::round(&mut dice, 16)) {
        if let Call::Carry { pair, mark, mut room } = call {
            let carried = marks::carry(&pair.first, &pair.second, mark, &mut room);
            numbers[usize::from(carried.outcome.number)] += 1;
            match carried.place {
                Some(axes) if axes.iter().all(|axis| axis.rest == 0.0) => whole += 1,
                Some(_) => between += 1,
                None => nowhere += usize::from(carried.outcome.number == 0),
            }
        }
    }
    assert!(numbers.iter().all(|&count| count > 0), "{numbers:?}");
    assert!([nowhere, whole, between].iter().all(|&count| count > 50));
}

#[test]
fn every_shape_has_the_corners_asked_for() {
    let mut dice = Dice::new(4);
    for shape in SHAPES {
        for n in 3..=64 {
            let drawing = shapes::drawing(&mut dice, shape, n);
            assert_eq!((drawing.len(), judge(&drawing)), (n, Judged::Sound), "{shape:?}");
        }
    }
}

/// Whether a line touches a third corner, and no side crosses it between the side's ends.
fn only_touches(drawing: &[Corner], i: usize, j: usize) -> bool {
    let (a, b) = (drawing[i], drawing[j]);
    let n = drawing.len();
    let third = |k: usize| k != i && k != j && share_a_point(a, b, drawing[k], drawing[k]);
    let crosses = |k: usize| {
        let (c, d) = (drawing[k], drawing[(k + 1) % n]);
        let across = turn(a, b, c).signum() * turn(a, b, d).signum() < 0;
        across && share_a_point(a, b, c, d)
    };
    (0..n).any(third) && !(0..n).any(crosses)
}

/// Shapes on squared paper have lines that touch a corner from inside, which a centre sees along,
/// and lines that do so from outside, which nobody sees along.
#[test]
fn lines_touch_corners_from_inside_and_from_outside() {
    let mut dice = Dice::new(20);
    let mut both = |shape: Shape| {
        let mut touched = [0, 0];
        for n in 8..24 {
            let drawing = shapes::drawing(&mut dice, shape, n);
            for (i, j) in (0..n).flat_map(|i| (i + 1..n).map(move |j| (i, j))) {
                if only_touches(&drawing, i, j) {
                    assert!(!sees(&drawing, i, j));
                    touched[usize::from(centre_sees(&drawing, i, j))] += 1;
                }
            }
        }
        touched
    };
    for shape in [Shape::Grid, Shape::Comb, Shape::Rectilinear, Shape::Battlements, Shape::Stairs] {
        let touched = both(shape);
        assert!(touched[0] > 5 && touched[1] > 20, "{shape:?}: {touched:?}");
    }
    for shape in [Shape::Rectangle, Shape::Levels] {
        let touched = both(shape);
        assert!(touched[0] == 0 && touched[1] > 100, "{shape:?}: {touched:?}");
    }
}

/// Sight is asked of drawings that are not sound, with room for the cells, and of sound ones.
#[test]
fn calls_ask_for_sight_of_every_judgement() {
    let mut dice = Dice::new(21);
    let mut numbers = [0; 6];
    for call in (0..900).flat_map(|_| calls::round(&mut dice, 12)) {
        if let Call::Sight { list, cells } = call {
            if cells.len() >= CELLS {
                numbers[usize::from(Peer.judge(&list))] += 1;
            }
        }
    }
    assert!([0, 1, 3, 4, 5].iter().all(|&k| numbers[k] > 5), "{numbers:?}");
}
