//! Questions to the product's second program (src/ask.rs).

use peer::ask::{mark, where_a_mark_lands};
use peer::frames::{frame, FIRST, SECOND};
use peer::marks::{carry, Mark};
use std::path::Path;

const S: [i32; 8] = [0, 0, 4, 0, 4, 4, 0, 4];

#[test]
fn a_question_for_each_pair() {
    let input =
        [frame(FIRST, &S), frame(SECOND, &S), frame(FIRST, &[]), frame(SECOND, &[-1, 2])].concat();
    let expected = "1 8 0 0 4 0 4 4 0 4 8 0 0 4 0 4 4 0 4 -5 6\n1 0 2 -1 2 -5 6\n";
    assert_eq!(where_a_mark_lands(&input, Mark { x: -5, y: 6 }), expected);
    assert_eq!(where_a_mark_lands(b"", Mark { x: 0, y: 0 }), "");
}

#[test]
fn marks_as_people_write_them() {
    let read = |word: &str| mark(word).map(|mark| [mark.x, mark.y]);
    assert_eq!(read("76,-250"), Some([76, -250]));
    assert_eq!(read("2147483648,-99999999999999999999"), Some([i32::MAX, i32::MIN]));
    for word in ["", "76", "76,", ",1", "76,x", "76,1.5", "76,1,2", "+1,2", "7 6,1", "--1,2", "1,-"]
    {
        assert_eq!(read(word), None, "{word}");
    }
}

/// The run that the gate compares (crates/questions): the peer answers each question alike.
#[test]
fn the_recorded_run() {
    let crates = Path::new(concat!(env!("CARGO_MANIFEST_DIR"), "/../crates/questions"));
    let Ok(questions) = std::fs::read_to_string(crates.join("stdin")) else {
        return;
    };
    let answers = std::fs::read_to_string(crates.join("stdout")).unwrap();
    assert_eq!(questions.lines().count(), answers.lines().count());
    for (question, answer) in questions.lines().zip(answers.lines()) {
        assert_eq!(reply(question).unwrap_or("?".into()), answer, "{question}");
    }
}

/// The answer to a question about a mark.
fn reply(question: &str) -> Option<String> {
    let words: Vec<i32> =
        question.split_ascii_whitespace().map(|word| word.parse().ok()).collect::<Option<_>>()?;
    let (&kind, rest) = words.split_first()?;
    let (first, rest) = list(rest)?;
    let (second, &[x, y]) = list(rest)? else {
        return None;
    };
    if kind != 1 || question.len() >= 4096 {
        return None;
    }
    let carried = carry(first, second, Mark { x, y }, &mut [0; 310]);
    let axes = carried.place.into_iter().flatten();
    let place = axes.map(|axis| format!(" {} {}", axis.step, axis.rest.to_bits()));
    Some(carried.outcome.number.to_string() + &place.collect::<String>())
}

/// A list with its length first, and what follows it.
fn list(words: &[i32]) -> Option<(&[i32], &[i32])> {
    let (&length, rest) = words.split_first()?;
    rest.split_at_checked(usize::try_from(length).ok().filter(|&length| length <= 128)?)
}
