//! The peer on recorded answers and on the outlines of 01.

// Marks are carried in a test of their own.
#[allow(dead_code)]
mod recorded;

use peer::desk::{self, Outcome};
use peer::desks::{Desk, Peer, CELLS, ROW};
use peer::drawing::{corners, judge, Judged};
use peer::frames;
use peer::sight::sight;
use recorded::{Frames, BIG, EDGE, FIG8, MID, SMALL};

fn same_output(recorded: &Frames) {
    let written = String::from_utf8(frames::run(recorded.input.as_bytes())).unwrap();
    for (k, (line, expected)) in written.lines().zip(recorded.output.lines()).enumerate() {
        assert_eq!(line, expected, "pair {k}");
    }
    assert_eq!(written, recorded.output);
}

#[test]
fn frames_of_few_corners() {
    same_output(&SMALL);
}

#[test]
fn frames_of_more_corners() {
    same_output(&MID);
}

#[test]
fn frames_of_many_corners() {
    same_output(&BIG);
}

#[test]
fn frames_of_corner_cases() {
    same_output(&EDGE);
}

#[test]
fn frames_on_which_figure_8_fails() {
    same_output(&FIG8);
}

#[test]
fn malformed_inputs() {
    let inputs = recorded::malformed();
    assert_eq!(inputs.len(), 110);
    for whole in inputs {
        assert_eq!(frames::run(whole.input), whole.output, "{}", whole.name);
    }
}

#[test]
fn long_lines() {
    for length in [2, 4, 6, 770, 772, 774, 100_000, 200_002] {
        let mut input = b"10".to_vec();
        input.resize(length, b'0');
        assert_eq!(frames::run(&input), b"EF\n");
        input.push(b'\n');
        assert_eq!(frames::run(&input), b"EF\n");
    }
}

/// The outcome of a call, and its room afterwards where it was not what it had been.
fn call(first: &[i32], second: &[i32], room: usize) -> (Outcome, Vec<u8>) {
    let before: Vec<u8> = (0..room).map(|k| (7 * k + 3) as u8).collect();
    let mut after = before.clone();
    let outcome = desk::answer(first, second, &mut after);
    assert_eq!(after[outcome.bytes..], before[outcome.bytes..]);
    after.truncate(outcome.bytes);
    (outcome, after)
}

#[test]
fn calls_with_any_lists_and_room() {
    let calls = recorded::calls();
    assert_eq!(calls.len(), 22 + 289);
    for recorded in calls {
        let (outcome, used) = call(&recorded.first, &recorded.second, recorded.room);
        assert_eq!(outcome.number, recorded.number, "{}", recorded.name);
        assert_eq!(outcome.pieces, recorded.pieces, "{}", recorded.name);
        assert_eq!(used, recorded.bytes, "{}", recorded.name);
    }
}

#[test]
fn cuttings_of_tables() {
    let cuttings = recorded::cuttings();
    assert!(cuttings.len() >= 27);
    for recorded in cuttings {
        let mut room = vec![250; recorded.room];
        let outcome = Peer.cut(recorded.corners, &recorded.first, &recorded.second, &mut room);
        assert_eq!(outcome.number, recorded.number, "{}", recorded.name);
        assert_eq!(outcome.pieces, recorded.pieces, "{}", recorded.name);
        assert_eq!(room[..outcome.bytes], recorded.bytes, "{}", recorded.name);
    }
}

#[test]
fn judgements_and_sight() {
    let sights = recorded::sights();
    assert_eq!(sights.len(), 646);
    for recorded in sights {
        let drawing = corners(&recorded.drawing);
        let judged = match judge(&drawing) {
            Judged::Sound => "sound",
            Judged::OutOfRange => "out-of-range",
            Judged::NotSimple => "not-simple",
            Judged::NotAnticlockwise => "not-anticlockwise",
        };
        assert_eq!(judged, recorded.judgement, "{:?}", recorded.drawing);
        let n = if judged == "sound" { drawing.len() } else { 0 };
        assert_eq!(recorded.rows.len(), n);
        let mut cells = vec![7; CELLS];
        assert_eq!(Peer.sight(&recorded.drawing, &mut cells), n > 0);
        for (i, row) in recorded.rows.iter().enumerate() {
            let told = cells[i * ROW..][..n].iter().map(u8::to_string);
            assert_eq!(*row, told.collect::<String>(), "row {i} of {:?}", recorded.drawing);
        }
        let beside = |at: &usize| at / ROW >= n || at % ROW >= n;
        assert!((0..CELLS).filter(beside).all(|at| cells[at] == 7), "{:?}", recorded.drawing);
    }
}

const S: [i32; 8] = [0, 0, 4, 0, 4, 4, 0, 4];
const D: [i32; 8] = [0, 1, 3, -2, 0, 4, -3, -2];
const E: [i32; 8] = [-3, -2, 0, 1, 3, -2, 0, 4];
const Z: [i32; 12] = [0, 0, 10, 0, 4, 2, 10, 10, 0, 10, 6, 8];
const H: [i32; 12] = [2, 0, 6, 0, 8, 4, 6, 8, 2, 8, 0, 4];
const CROSSED: [i32; 8] = [0, 0, 4, 4, 4, 0, 0, 4];
const BACKWARDS: [i32; 8] = [0, 0, 0, 4, 4, 4, 4, 0];
const RECTANGLE: [i32; 16] = [0, 0, 1, 0, 2, 0, 3, 0, 3, 3, 2, 3, 1, 3, 0, 3];

fn given(first: &[i32], second: &[i32]) -> Vec<u8> {
    let (outcome, used) = call(first, second, 310);
    assert_eq!(outcome.number, 0);
    used
}

fn number(first: &[i32], second: &[i32]) -> u8 {
    call(first, second, 310).0.number
}

/// 01, "Outlines to try".
#[test]
fn outlines_to_try() {
    assert_eq!(given(&S, &S), [4, 0, 0, 1, 2, 3]);
    assert_eq!(call(&S, &S, 10).0.number, 0);
    assert_eq!(call(&S, &S, 9).0.number, 2);
    assert_eq!(number(&D, &E), 9);
    assert_eq!(given(&D, &D), [4, 0, 0, 1, 2, 3]);
    assert_eq!(given(&E, &E), [4, 1, 0, 1, 2, 3]);
    assert_eq!(given(&S, &D), [4, 0, 0, 1, 2, 3]);
    let two = [5, 0, 0, 1, 2, 3, 5, 3, 3, 3, 4, 5];
    assert_eq!(given(&Z, &H), two);
    assert_eq!(given(&H, &Z), two);
    let z = sight(&corners(&Z));
    assert!(z.sees(0, 3) && !z.sees(0, 4) && !z.sees(1, 3));
    assert!(z.centre_sees(0, 3) && !z.centre_sees(0, 4) && !z.centre_sees(1, 3));
    assert_eq!(number(&CROSSED, &S), 4);
    assert_eq!(number(&BACKWARDS, &S), 5);
    assert_eq!(number(&S, &BACKWARDS), 8);
    assert_eq!(number(&[0, 0, 1, 0], &[0, 0, 1, 0]), 1);
    assert_eq!(number(&[0; 130], &[0; 130]), 1);
    assert_eq!(call(&[0, 0, 1, 0, 0, 1], &[0, 0, 9, 1, 5, 7], 5).0.number, 0);
    let (border, beyond) = ([0, 0, 1_000_000, 0, 0, 4], [0, 0, 1_000_001, 0, 0, 4]);
    assert_eq!(number(&border, &border), 0);
    assert_eq!((number(&beyond, &border), number(&border, &beyond)), (3, 6));
    assert_eq!(number(&[0, 0, 2, 0, 4, 0], &[0, 0, 2, 0, 4, 1]), 4);
    assert_eq!(number(&[0, 0, 4, 0, 4, 4, 4, 0], &S), 4);
    // 02, K3; in 01 it is two pieces.
    assert_eq!(given(&RECTANGLE, &RECTANGLE), [8, 0, 0, 1, 2, 3, 4, 5, 6, 7]);
}

#[test]
fn empty_input_writes_nothing() {
    assert!(frames::run(b"").is_empty());
}
