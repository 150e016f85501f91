//! The program, and the fish of docs/pictures.

use std::io::Write;
use std::path::Path;
use std::process::{Command, Stdio};

/// The exit status, and what was written to standard output and to standard error.
fn run(words: &[&str], input: &str) -> (Option<i32>, String, String) {
    let mut command = Command::new(env!("CARGO_BIN_EXE_frames"));
    command.args(words).stdin(Stdio::piped()).stdout(Stdio::piped()).stderr(Stdio::piped());
    let mut child = command.spawn().unwrap();
    let mut stdin = child.stdin.take().unwrap();
    // A program that does not like its words ends without reading.
    let _ = stdin.write_all(input.as_bytes());
    drop(stdin);
    let output = child.wait_with_output().unwrap();
    let text = |bytes: Vec<u8>| String::from_utf8(bytes).unwrap();
    (output.status.code(), text(output.stdout), text(output.stderr))
}

const TEXT: &str = "0 0\n4 0\n4 4\n0 4\n\n0 0\n4 0\n4 4\n0 4\n";
const SQUARES: &str = "\
1004000000000000000004000000000004000004000000000004
2004000000000000000004000000000004000004000000000004
";

#[test]
fn frames_come_out() {
    assert_eq!(run(&[], TEXT), (Some(0), SQUARES.into(), String::new()));
    let halves = TEXT.replace('4', "2");
    assert_eq!(run(&["--scale", "2"], &halves), (Some(0), SQUARES.into(), String::new()));
    let said = "desk: both drawings run anticlockwise already: nothing was turned round\n";
    assert_eq!(run(&["--anticlockwise"], TEXT), (Some(0), SQUARES.into(), said.into()));
}

#[test]
fn nothing_comes_out_where_it_is_refused() {
    let said = "desk: line 2: 'four' is no number\n";
    assert_eq!(run(&[], &TEXT.replacen('4', "four", 1)), (Some(1), String::new(), said.into()));
    let said = "desk: line 1: no drawing: the input is empty\n";
    assert_eq!(run(&[], ""), (Some(1), String::new(), said.into()));
}

#[test]
fn other_words_are_answered_with_the_usage() {
    let scale = |word| format!("--scale takes a whole number from 1 to 1000000, not '{word}'");
    for (words, reason) in [
        (&["--help"][..], "what it takes:".into()),
        (
            &["drawing.svg"],
            "'drawing.svg' is not understood; the drawing comes on standard input".into(),
        ),
        (&["--scale"], scale("")),
        (&["--scale", "0"], scale("0")),
        (&["--scale", "1000001"], scale("1000001")),
        (&["--scale", "1.5"], scale("1.5")),
        (&["--scale", "2", "--scale", "2"], "--scale stands twice".to_string()),
        (&["--anticlockwise", "--anticlockwise"], "--anticlockwise stands twice".into()),
    ] {
        let (status, output, said) = run(words, TEXT);
        assert_eq!((status, output), (Some(2), String::new()), "{words:?}");
        let usage = "desk frames [--scale K] [--anticlockwise] < drawing > frames\n";
        assert!(said.starts_with(&format!("desk: {reason}\n{usage}")), "{said}");
    }
}

#[test]
fn the_fish() {
    let folder = Path::new(concat!(env!("CARGO_MANIFEST_DIR"), "/../docs/pictures"));
    let Ok(fish) = std::fs::read_to_string(folder.join("fish.svg")) else {
        return;
    };
    let frames = std::fs::read_to_string(folder.join("fish.hex")).unwrap();
    assert_eq!(run(&[], &fish), (Some(0), frames, String::new()));
}
