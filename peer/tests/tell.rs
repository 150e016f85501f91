//! The answers in words (src/tell.rs).

use peer::ask::where_a_mark_lands;
use peer::frames::{self, frame, FIRST, SECOND};
use peer::marks::{carry, Mark};
use peer::tell::{carried, tell};
use std::io::Write;
use std::path::Path;
use std::process::{Command, Stdio};

/// Outlines of 01, and one that crosses itself.
const S: [i32; 8] = [0, 0, 4, 0, 4, 4, 0, 4];
const Z: [i32; 12] = [0, 0, 10, 0, 4, 2, 10, 10, 0, 10, 6, 8];
const H: [i32; 12] = [2, 0, 6, 0, 8, 4, 6, 8, 2, 8, 0, 4];
const CROSSED: [i32; 8] = [0, 0, 4, 4, 4, 0, 0, 4];

fn pair(first: &[i32], second: &[i32]) -> Vec<u8> {
    [frame(FIRST, first), frame(SECOND, second)].concat()
}

/// What is told of the input and of the peer's answers to it.
fn told(input: &[u8]) -> String {
    tell(input, &frames::run(input))
}

#[test]
fn pieces_and_refusals() {
    let input = [pair(&Z, &H), pair(&S, &CROSSED)].concat();
    let expected = "\
Pair 1
0: the cutting is given: 2 pieces
A: centre 0, corners 0, 1, 2, 3, 5
B: centre 3, corners 3, 4, 5

Pair 2
7: the second drawing is not simple
";
    assert_eq!(told(&input), expected);
    assert_eq!(told(b""), "");
}

/// The fish of docs/pictures, in the words that the README quotes.
#[test]
fn the_fish() {
    let above = Path::new(concat!(env!("CARGO_MANIFEST_DIR"), "/.."));
    let Ok(fish) = std::fs::read(above.join("docs/pictures/fish.hex")) else {
        return;
    };
    let words = std::fs::read_to_string(above.join("docs/pictures/fish.txt")).unwrap();
    assert_eq!(told(&fish), words);
    let readme = std::fs::read_to_string(above.join("README.md")).unwrap();
    for line in words.lines() {
        assert!(readme.contains(line), "README.md lacks: {line}");
    }
}

#[test]
fn the_run_ends() {
    let square = "Pair 1\n0: the cutting is given: 1 piece\nA: centre 0, corners 0, 1, 2, 3\n\n";
    for (rest, stop) in [
        (frame(FIRST, &S), "The frames end after a first drawing."),
        (frame(SECOND, &S), "Line 3 of the frames is out of turn."),
        (b"100\n".to_vec(), "Line 3 of the frames is of another form."),
        (
            b"<svg>\n".to_vec(),
            "Line 3 of the frames looks like SVG: desk frames makes frames of it.",
        ),
    ] {
        let told = told(&[pair(&S, &S), rest].concat());
        assert_eq!(told, format!("{square}{stop}\nEF: the program ended the run here.\n"));
    }
}

#[test]
fn answers_that_are_none() {
    let input = pair(&S, &S);
    for (answers, words) in [
        ("", "There is no answer to this pair.\n"),
        ("EF\n", "EF: the program ended the run here.\n"),
        ("A0\n", "This is no answer: A0\n"),
        ("A0020300000102\n", "This is no answer: A0020300000102\n"),
        ("A0010300000102\n", "The answer does not fit the pair.\n"),
        ("E001\nE001\n", "1: a list has odd length, "),
    ] {
        let told = tell(&input, answers.as_bytes());
        assert!(told.starts_with(&format!("Pair 1\n{words}")), "{told}");
    }
    assert!(tell(&input, b"E001\nE001\n").ends_with("\n\nThe answers go on for 1 line more.\n"));
}

/// The program: frames on standard input, answers from a file, the words on standard output.
#[test]
fn the_program() {
    let answers = Path::new(env!("CARGO_TARGET_TMPDIR")).join("answers to tell");
    std::fs::write(&answers, "E009\n").unwrap();
    let run = |words: &[&str]| {
        let mut command = Command::new(env!("CARGO_BIN_EXE_tell"));
        command.args(words).stdin(Stdio::piped()).stdout(Stdio::piped()).stderr(Stdio::piped());
        let mut child = command.spawn().unwrap();
        // A program that does not like its words ends without reading.
        let _ = child.stdin.take().unwrap().write_all(&pair(&S, &S));
        let output = child.wait_with_output().unwrap();
        (output.status.code(), String::from_utf8(output.stdout).unwrap())
    };
    let words = "Pair 1\n9: no valid cutting exists\n";
    assert_eq!(run(&["--answers", answers.to_str().unwrap()]), (Some(0), words.into()));
    assert_eq!(run(&["--answers", "no such file"]), (Some(1), String::new()));
    for words in [&[][..], &["--answers"], &["answers"], &["--answers", "a", "b"]] {
        assert_eq!(run(words), (Some(2), String::new()));
    }
}

/// The fox's eye, in the words of docs/pictures that the README quotes, where the peer puts it.
#[test]
fn the_eye() {
    let above = Path::new(concat!(env!("CARGO_MANIFEST_DIR"), "/.."));
    let Ok(fox) = std::fs::read(above.join("docs/pictures/fox.hex")) else {
        return;
    };
    let eye = Mark { x: 76, y: 250 };
    let question = where_a_mark_lands(&fox, eye);
    let words: Vec<i32> = question.split(' ').map(|word| word.trim().parse().unwrap()).collect();
    let (first, second) = (&words[2..48], &words[49..95]);
    let place = carry(first, second, eye, &mut [0; 310]).place.expect("an eye in the head");
    let [x, y] = place.map(|axis| format!("{} {}", axis.step, axis.rest.to_bits()));
    let told = carried(&fox, eye, format!("0 {x} {y}\n").as_bytes());
    assert_eq!(told, std::fs::read_to_string(above.join("docs/pictures/eye.txt")).unwrap());
    let readme = std::fs::read_to_string(above.join("README.md")).unwrap();
    for line in told.lines() {
        assert!(readme.contains(line), "README.md lacks: {line}");
    }
}

/// Where a mark lands, in words: the place whole, and what else can be said of it.
#[test]
fn a_mark_carried() {
    let input = [pair(&Z, &H), pair(&S, &CROSSED), pair(&S, &S)].concat();
    let quarter = 0.25_f64.to_bits();
    let lines = format!("0 -1234 {quarter} 4 0\n7\n0\n");
    let told = carried(&input, Mark { x: 4, y: -2 }, lines.as_bytes());
    let expected = "\
Pair 1
The mark at (4; -2) lands at x -1,234 and 0.25 of a step, y 4 and 0 of a step.

Pair 2
7: the second drawing is not simple

Pair 3
The mark at (4; -2) is on no piece.
";
    assert_eq!(told, expected);
    for (line, words) in [
        ("10\n", "10: the mark has a coordinate out of range\n"),
        ("?\n", "This says nothing of a mark: ?\n"),
        ("", "Nothing is said of the mark in this pair.\n"),
    ] {
        let told = carried(&pair(&S, &S), Mark { x: 0, y: 0 }, line.as_bytes());
        assert_eq!(told, format!("Pair 1\n{words}"));
    }
    let ended = carried(b"100\n", Mark { x: 0, y: 0 }, b"");
    assert_eq!(ended, "Line 1 of the frames is of another form.\n");
}
