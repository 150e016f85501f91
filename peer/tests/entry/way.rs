//! Which way round drawings run.

use crate::{entered, pair, refused, Wishes, PLAIN, TRIANGLE};

const TURNED: Wishes = Wishes { scale: 1, anticlockwise: true };

const LEFT: &str = "0 0\n4 0\n0 3\n";
const RIGHT: &str = "0 0\n0 3\n4 0\n";
const FLAT: &str = "0 0\n1 0\n2 0\n";
const BACKWARDS: [i32; 6] = [0, 0, 0, 3, 4, 0];

fn both(first: &str, second: &str) -> String {
    format!("{first}\n{second}")
}

#[test]
fn two_clockwise_drawings_are_turned_round() {
    let found = entered(&both(RIGHT, RIGHT), TURNED);
    assert_eq!(found.frames, pair(&TRIANGLE, &TRIANGLE));
    assert!(found.remarks.is_empty());
}

#[test]
fn corner_0_stays() {
    let square = "4 4\n4 0\n0 0\n0 4\n";
    let turned = [4, 4, 0, 4, 0, 0, 4, 0];
    assert_eq!(entered(&both(square, square), TURNED).frames, pair(&turned, &turned));
}

#[test]
fn two_anticlockwise_drawings_stay() {
    let found = entered(&both(LEFT, LEFT), TURNED);
    assert_eq!(found.frames, pair(&TRIANGLE, &TRIANGLE));
    assert_eq!(
        found.remarks,
        ["both drawings run anticlockwise already: nothing was turned round"]
    );
}

#[test]
fn one_is_not_turned_alone() {
    let reason = "alone runs clockwise: list its points the other way round";
    assert_eq!(refused(&both(RIGHT, LEFT), TURNED), format!("line 1: the first drawing {reason}"));
    assert_eq!(refused(&both(LEFT, RIGHT), TURNED), format!("line 5: the second drawing {reason}"));
    let flat = "line 5: the second drawing has no area and runs no way round";
    assert_eq!(refused(&both(RIGHT, FLAT), TURNED), flat);
}

#[test]
fn without_the_wish_all_stay_and_it_is_said() {
    for (first, second, frames, remark) in [
        (LEFT, LEFT, [TRIANGLE, TRIANGLE], None),
        (
            RIGHT,
            RIGHT,
            [BACKWARDS, BACKWARDS],
            Some("both drawings run clockwise: --anticlockwise turns them round"),
        ),
        (
            RIGHT,
            LEFT,
            [BACKWARDS, TRIANGLE],
            Some("the first drawing alone runs clockwise: list its points the other way round"),
        ),
        (
            LEFT,
            RIGHT,
            [TRIANGLE, BACKWARDS],
            Some("the second drawing alone runs clockwise: list its points the other way round"),
        ),
        (LEFT, FLAT, [TRIANGLE, [0, 0, 1, 0, 2, 0]], None),
    ] {
        let found = entered(&both(first, second), PLAIN);
        assert_eq!(found.frames, pair(&frames[0], &frames[1]));
        assert_eq!(found.remarks, Vec::from_iter(remark));
    }
}
