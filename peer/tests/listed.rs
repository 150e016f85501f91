//! Pairs with lists of pieces (02, K4): how an input of them is read, what is said of them in words,
//! and the programs.

use peer::checker::{check, pieces, Verdict};
use peer::desks::Peer;
use peer::frames::{frame, FIRST, SECOND};
use peer::pairs::dice::Dice;
use peer::pairs::lists::lists;
use peer::pairs::{pair_up_to, Kind};
use peer::show::{has_lists, verdicts_of, words};
use peer::tell::checked;
use std::io::Write;
use std::path::Path;
use std::process::{Command, Stdio};

/// Outlines of 01, and one that crosses itself.
const S: [i32; 8] = [0, 0, 4, 0, 4, 4, 0, 4];
const D: [i32; 8] = [0, 1, 3, -2, 0, 4, -3, -2];
const Z: [i32; 12] = [0, 0, 10, 0, 4, 2, 10, 10, 0, 10, 6, 8];
const H: [i32; 12] = [2, 0, 6, 0, 8, 4, 6, 8, 2, 8, 0, 4];
const CROSSED: [i32; 8] = [0, 0, 4, 4, 4, 0, 0, 4];

fn pair(first: &[i32], second: &[i32]) -> Vec<u8> {
    [frame(FIRST, first), frame(SECOND, second)].concat()
}

/// A pair with the line of its list.
fn listed(first: &[i32], second: &[i32], list: &str) -> Vec<u8> {
    [&pair(first, second)[..], list.as_bytes(), b"\n"].concat()
}

fn hexadecimal(list: &[u8]) -> String {
    list.iter().map(|byte| format!("{byte:02X}")).collect()
}

/// What is told of the input and of the peer's verdicts on it, and whether all of it was read.
fn told(input: &[u8]) -> (String, bool) {
    checked(input, verdicts_of(&Peer, input).as_bytes())
}

/// Of one pair the verdict is told in this line, and then what is at fault.
fn says(first: &[i32], second: &[i32], list: &str, line: &str, fault: &str) {
    let lines =
        [line, fault].map(|line| if line.is_empty() { "".into() } else { format!("{line}\n") });
    let due = format!("Pair 1\n{}", lines.concat());
    assert_eq!(told(&listed(first, second, list)), (due, true), "{list}");
}

#[test]
fn accepted_and_refused_with_the_pair() {
    let z_h = "050000010203050303030405";
    says(&S, &S, "040200010203", "0: the list is a valid cutting: 1 piece", "");
    says(&Z, &H, z_h, "0: the list is a valid cutting: 2 pieces", "");
    says(&S, &Z, z_h, words::line(1), "");
    says(&S, &CROSSED, "", "7: the second drawing is not simple", "");
}

#[test]
fn bytes_that_are_no_list() {
    let why = |list: &str, fault: &str| says(&S, &S, list, words::line_of_list(21), fault);
    let first = |list: &str, fault: &str| {
        why(list, &format!("Piece 1 (A), from byte 0 on (the first is byte 0), {fault}."));
    };
    let second = |list: &str, fault: &str| {
        why(list, &format!("Piece 2 (B), from byte 5 on (the first is byte 0), {fault}."));
    };
    why("", "The list is empty.");
    first("020001020304", "has 2 corners, and 3 are the fewest");
    first("00", "has 0 corners, and 3 are the fewest");
    first("05000001020304", "has 5 corners, and the drawings have 4");
    first("FF", "has 255 corners, and the drawings have 4");
    first("0300000201", "has corners that do not rise: 1 after 2");
    first("0300000101", "has corners that do not rise: 1 after 1");
    first("0300000104", "has a corner 4, and the last of the drawings is 3");
    first("0303000102", "has the centre 3, which is no corner of it");
    second("030000010203", "is cut short before its centre");
    second("03000001020300", "is cut short after 0 of its 3 corners");
    second("030000010203000002", "is cut short after 2 of its 3 corners");
}

#[test]
fn pieces_that_are_no_cutting() {
    let why = |list: &str, fault: &str| says(&S, &S, list, words::line_of_list(22), fault);
    why(
        "040000010203040100010203",
        "Piece 1 (A) and piece 2 (B) have the same corners: 0, 1, 2, 3.",
    );
    why("03000001020301010203", "The line 0-2 of piece 1 (A) crosses the line 1-3 of piece 2 (B).");
    why(
        "04000001020303000001020300000203",
        "Piece 1 (A) is parted by the line 0-2 of piece 2 (B).",
    );
    why("0300000102", "The pieces leave out one, with the corners 0, 2, 3.");
}

#[test]
fn a_piece_at_fault() {
    let unseen = "23: a line of the piece is unseen: ";
    let first = "piece 1 of the list (A, place 0), in the ";
    says(
        &S,
        &D,
        "03000001030301010203",
        &format!("{unseen}{first}second drawing"),
        "A: centre 0, corners 0, 1, 3\nUnseen in the second drawing: 1-3.",
    );
    says(
        &D,
        &D,
        "03000001030301010203",
        &format!("{unseen}{first}first drawing"),
        "A: centre 0, corners 0, 1, 3\nUnseen in the first drawing: 1-3.\n\
         Unseen in the second drawing: 1-3.",
    );
    let misses = "24: the centre of the piece misses a corner: ";
    says(
        &S,
        &D,
        "040300010203",
        &format!("{misses}{first}second drawing"),
        "A: centre 3, corners 0, 1, 2, 3\nMissed from 3 in the second drawing: 1.",
    );
    says(
        &Z,
        &H,
        "030303040505010001020305",
        &format!("{misses}piece 2 of the list (B, place 1), in the first drawing"),
        "B: centre 1, corners 0, 1, 2, 3, 5\nMissed from 1 in the first drawing: 3, 5.",
    );
}

/// A paragraph for each pair.
#[test]
fn a_paragraph_for_each_pair() {
    let input = [listed(&S, &S, "040000010203"), listed(&S, &S, "")].concat();
    let due = "\
Pair 1
0: the list is a valid cutting: 1 piece

Pair 2
21: the bytes are no list of pieces
The list is empty.
";
    assert_eq!(told(&input), (due.into(), true));
    assert_eq!(told(b""), (String::new(), true));
}

/// What is said beside a verdict holds of it: bytes that are no list and pieces that are no cutting
/// have a reason, and in the drawing that is named something is unseen or missed, but nothing in the
/// first if it is the second.
#[test]
fn what_is_added_holds_to_the_verdict() {
    let mut dice = Dice::new(41);
    let mut counts = [0; 25];
    for _ in 0..700 {
        let most = dice.pick(&[6, 8, 12, 24]);
        let pair = pair_up_to(&mut dice, Kind::Mixed, most);
        let Some(frames) = pair.frames() else {
            continue;
        };
        for list in lists(&mut dice, &pair, 4) {
            let verdict = check(&pair.first, &pair.second, &list);
            let input = [&frames[..], hexadecimal(&list).as_bytes(), b"\n"].concat();
            let (told, whole) = told(&input);
            let lines: Vec<&str> = told.lines().skip(2).collect();
            assert!(whole && holds(verdict, &lines), "{told}");
            counts[usize::from(verdict.number)] += 1;
        }
    }
    assert!([0, 4, 7, 21, 22, 23, 24].iter().all(|&k| counts[k] > 30), "{counts:?}");
}

/// Whether the lines after the verdict are those that it wants.
fn holds(Verdict { number, drawing, .. }: Verdict, lines: &[&str]) -> bool {
    let faults = lines.get(1..).unwrap_or_default();
    let in_drawing = |which: &str| faults.iter().any(|line| line.contains(which));
    let named = [in_drawing("first drawing: "), in_drawing("second drawing: ")];
    let some = match number {
        23 => faults.iter().all(|line| line.starts_with("Unseen in the ")),
        24 => faults.iter().all(|line| line.starts_with("Missed from ")),
        _ => false,
    };
    match (number, drawing) {
        (21 | 22, 0) => lines.len() == 1,
        (23 | 24, 1) => some && named[0],
        (23 | 24, 2) => some && named == [false, true],
        _ => lines.is_empty(),
    }
}

/// What is handed in is told, whether it is right or not; what is not found is not said.
#[test]
fn verdicts_of_others() {
    let input = listed(&S, &S, "040000010203");
    for (line, said) in [
        ("22\n", "22: the pieces are not those of one set of uncrossed pairs, each once\n"),
        ("21\n", "21: the bytes are no list of pieces\n"),
        ("4\n", "4: the first drawing is not simple\n"),
        (
            "24 7 1\n",
            "24: the centre of the piece misses a corner: piece 8 of the list (H, place 7), in the first drawing\n",
        ),
        ("", "Nothing is said of the list of this pair.\n"),
        ("\n", "This says nothing of a list: \n"),
        ("2\n", "This says nothing of a list: 2\n"),
        ("9\n", "This says nothing of a list: 9\n"),
        ("23\n", "This says nothing of a list: 23\n"),
        ("23 0 3\n", "This says nothing of a list: 23 0 3\n"),
        ("23 99999999999 1\n", "This says nothing of a list: 23 99999999999 1\n"),
        ("23 0\n", "This says nothing of a list: 23 0\n"),
        ("0 0 0\n", "This says nothing of a list: 0 0 0\n"),
        ("-1\n", "This says nothing of a list: -1\n"),
    ] {
        assert_eq!(checked(&input, line.as_bytes()), (format!("Pair 1\n{said}"), true));
    }
}

/// A third line that is missing or no hexadecimal is told with its pair; a frame at fault by its
/// line. What came before is told.
#[test]
fn the_run_ends() {
    let square = listed(&S, &S, "040000010203");
    let before = "Pair 1\n0: the list is a valid cutting: 1 piece\n\n";
    let list = |list: &str| listed(&S, &S, list);
    let short = [&pair(&S, &S)[..], b"0400"].concat();
    let no_hexadecimal = "is no hexadecimal (digits 0-9 and A-F, two for a byte)";
    for (rest, stop) in [
        (pair(&S, &S), "Pair 2\nThe list of this pair is missing: the input ends.".to_string()),
        (
            [pair(&S, &S), list("040000010203")].concat(),
            "Pair 2\nThe list of this pair is missing: line 6 begins the next pair.".into(),
        ),
        (list("0G"), format!("Pair 2\nLine 6, the list of this pair, {no_hexadecimal}: 0G")),
        (list("040"), format!("Pair 2\nLine 6, the list of this pair, {no_hexadecimal}: 040")),
        (list("0a"), format!("Pair 2\nLine 6, the list of this pair, {no_hexadecimal}: 0a")),
        (list("04\r"), format!("Pair 2\nLine 6, the list of this pair, {no_hexadecimal}: 04?")),
        (short, "Pair 2\nLine 6, the list of this pair, is not ended by a line feed.".into()),
        (frame(FIRST, &S), "The frames end after a first drawing.".into()),
        (frame(SECOND, &S), "Line 4 of the frames is out of turn.".into()),
        (b"10\n".to_vec(), "Line 4 of the frames is of another form.".into()),
    ] {
        let input = [&square[..], &rest].concat();
        assert_eq!(told(&input), (format!("{before}{stop}\n"), false));
    }
}

/// Whether the third line is a list or a frame. Any list of bytes is one that is no frame.
#[test]
fn inputs_with_lists_and_without() {
    for list in ["040000010203", "", "FF", "10", "1000010203", "2004000000"] {
        assert!(has_lists(&listed(&S, &S, list)), "{list}");
    }
    let two = [listed(&S, &S, "04"), listed(&S, &S, "")].concat();
    assert!(has_lists(&two));
    for frames in [
        Vec::new(),
        pair(&S, &S),
        [pair(&S, &S), pair(&Z, &H)].concat(),
        // An input that ends after a 10, one with a 10 or a 20 too many, one with another line.
        [pair(&S, &S), frame(FIRST, &S)].concat(),
        [pair(&S, &S), frame(FIRST, &S), pair(&S, &S)].concat(),
        [pair(&S, &S), frame(SECOND, &S)].concat(),
        [&pair(&S, &S)[..], b"<svg>\n"].concat(),
        [&pair(&S, &S)[..], b"04"].concat(),
        [frame(SECOND, &S), frame(FIRST, &S), b"04\n".to_vec()].concat(),
    ] {
        assert!(!has_lists(&frames), "{}", String::from_utf8_lossy(&frames));
    }
}

/// Corners on a parabola: every corner sees every other.
fn convex(n: i32) -> Vec<i32> {
    (0..n).flat_map(|t| [t, t * t]).collect()
}

/// A cutting of twenty corners whose list is a frame of four corners as well: with it the input is
/// one of lists, unless a second drawing follows, with which it is one of frames.
#[test]
fn a_list_that_is_a_frame_as_well() {
    let twenty = convex(20);
    let bytes: Vec<u8> = [&[16, 4][..], &(0..15).collect::<Vec<u8>>(), &[19, 6, 14]].concat();
    let bytes = [bytes, (14..20).collect()].concat();
    let list = hexadecimal(&bytes);
    assert!(pieces(20, &bytes).is_some() && list.starts_with("1004") && bytes.len() == 2 + 6 * 4);
    let one = listed(&twenty, &twenty, &list);
    assert!(has_lists(&one) && has_lists(&one.repeat(2)));
    assert_eq!(told(&one).0, "Pair 1\n0: the list is a valid cutting: 2 pieces\n");
    assert_eq!(told(&one.repeat(2)).0.matches("0: the list").count(), 2);
    let frames = [one, frame(SECOND, &S)].concat();
    assert!(!has_lists(&frames));
    let stop = "Pair 1\nThe list of this pair is missing: line 3 begins the next pair.\n";
    assert_eq!(told(&frames), (stop.into(), false));
}

/// Runs a program of this project.
fn run(program: &str, words: &[&str], input: &[u8]) -> (Option<i32>, String, String) {
    let mut command = Command::new(program);
    command.args(words).stdin(Stdio::piped()).stdout(Stdio::piped()).stderr(Stdio::piped());
    let mut child = command.spawn().unwrap();
    // A program that does not like its words ends without reading.
    let _ = child.stdin.take().unwrap().write_all(input);
    let output = child.wait_with_output().unwrap();
    let [out, err] = [output.stdout, output.stderr].map(|text| String::from_utf8(text).unwrap());
    (output.status.code(), out, err)
}

#[test]
fn the_programs() {
    let tell = |words: &[&str], input: &[u8]| run(env!("CARGO_BIN_EXE_tell"), words, input);
    let check = |words: &[&str], input: &[u8]| run(env!("CARGO_BIN_EXE_check"), words, input);
    let file = Path::new(env!("CARGO_TARGET_TMPDIR")).join("verdicts to tell");
    let name = file.to_str().unwrap();
    std::fs::write(&file, "22\n").unwrap();
    let input = listed(&S, &S, "0300000102");
    let (code, said, _) = tell(&["--verdicts", name], &input);
    assert_eq!((code, said), (Some(0), told(&input).0));
    // All that could be read is told, and the exit status says that it was not all.
    let more = [&input[..], &pair(&S, &S)].concat();
    let (code, said, _) = tell(&["--verdicts", name], &more);
    assert_eq!((code, said), (Some(1), told(&more).0));
    assert_eq!(tell(&["--verdicts", "no such file"], &input).0, Some(1));
    assert_eq!(tell(&["--verdicts"], &input).0, Some(2));
    assert_eq!(check(&["--lists"], &input).0, Some(0));
    assert_eq!(check(&["--lists"], &pair(&S, &S)).0, Some(1));
    let (code, said, why) = check(&["--library", "no/such.so"], &input);
    assert_eq!((code, said), (Some(2), String::new()));
    assert!(why.starts_with("check: no/such.so: "), "{why}");
    for words in [&[][..], &["--library"], &["--lists", "x"], &["no/such.so"]] {
        assert_eq!(check(words, &input).0, Some(2));
    }
}
