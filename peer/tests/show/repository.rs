//! The program, and what other files say of it: the README's words, the pictures.

use crate::answers::drawn;
use crate::sheet::assert_sound;
use crate::{pair, H, TWO, Z};
use peer::desks::Peer;
use peer::frames;
use peer::marks::{carry, Mark};
use peer::pairs::list;
use peer::show::{has_lists, page, page_of_lists, page_with_mark, verdicts_of, words};
use peer::tell::checked;
use std::io::Write;
use std::path::Path;
use std::process::{Command, Stdio};

/// The program: frames on standard input, answers from a file, the page on standard output.
#[test]
fn the_program() {
    let answers = Path::new(env!("CARGO_TARGET_TMPDIR")).join("answers");
    std::fs::write(&answers, TWO).unwrap();
    let run = |words: &[&str]| {
        let mut command = Command::new(env!("CARGO_BIN_EXE_show"));
        command.args(words).stdin(Stdio::piped()).stdout(Stdio::piped()).stderr(Stdio::piped());
        let mut child = command.spawn().unwrap();
        let mut input = child.stdin.take().unwrap();
        // A program that does not like its words ends without reading.
        let _ = input.write_all(&pair(&Z, &H));
        drop(input);
        let output = child.wait_with_output().unwrap();
        (output.status.code(), String::from_utf8(output.stdout).unwrap())
    };
    let page = |answers: Option<&str>| page(&pair(&Z, &H), answers.map(str::as_bytes));
    assert_eq!(run(&["--answers", answers.to_str().unwrap()]), (Some(0), page(Some(TWO))));
    assert_eq!(run(&[]), (Some(0), page(None)));
    assert_eq!(run(&["--answers", "no such file"]), (Some(1), String::new()));
    let landings = Path::new(env!("CARGO_TARGET_TMPDIR")).join("landings");
    std::fs::write(&landings, "0 8 0 4 0\n").unwrap();
    let [answers, landings] = [&answers, &landings].map(|path| path.to_str().unwrap());
    let mark = Mark { x: -4, y: 2 };
    let marked = page_with_mark(&pair(&Z, &H), Some(TWO.as_bytes()), mark, b"0 8 0 4 0\n");
    let words = ["--mark", "-4,2", "--answers", answers, "--landings", landings];
    assert_eq!(run(&words), (Some(0), marked));
    assert_eq!(run(&["--mark", "4,2", "--landings", "no such file"]), (Some(1), String::new()));
    for words in [
        &["--answers"][..],
        &["page.svg"],
        &["--answers", "a", "b"],
        &["--answers", answers, "--answers", answers],
        &["--mark", "4,2"],
        &["--landings", landings],
        &["--mark", "4", "--landings", landings],
        &["--mark", "4,0.5", "--landings", landings],
        &["--mark", "4,+2", "--landings", landings],
    ] {
        assert_eq!(run(words), (Some(2), String::new()), "{words:?}");
    }
}

#[test]
fn words_for_every_number() {
    for (number, line) in words::lines().enumerate() {
        assert!(line.starts_with(&format!("{number}: ")), "{line}");
        assert_eq!(words::line(number as u8), line);
    }
    assert_eq!(words::lines().count(), 10);
    assert_eq!(words::line(4), "4: the first drawing is not simple");
    let of_lists: Vec<&str> = words::lines_of_lists().collect();
    for (number, line) in [0, 21, 22, 23, 24].into_iter().zip(&of_lists) {
        assert!(line.starts_with(&format!("{number}: ")), "{line}");
        assert_eq!(words::line_of_list(number), *line);
    }
    assert_eq!(of_lists.len(), 5);
    assert_eq!(words::line_of_list(4), words::line(4));
}

/// The folder that holds the peer.
fn above() -> &'static Path {
    Path::new(concat!(env!("CARGO_MANIFEST_DIR"), "/.."))
}

#[test]
fn the_readme_quotes_the_words() {
    let Ok(readme) = std::fs::read_to_string(above().join("README.md")) else {
        return;
    };
    let of_lists = words::lines_of_lists().filter(|_| readme.contains("./desk check"));
    for line in words::lines().chain(of_lists) {
        assert!(readme.contains(line), "README.md lacks: {line}");
    }
}

/// The pictures in docs/ are what the page of their frames is now.
#[test]
fn the_pictures_are_of_today() {
    let pictures =
        [("fox", "5 pieces"), ("refused", words::line(7)), ("rectangle", "0 cuts, 1 piece")];
    for (name, said) in pictures {
        let file = |ending: &str| above().join("docs/pictures").join(format!("{name}.{ending}"));
        let Ok(input) = std::fs::read(file("hex")) else {
            continue;
        };
        let page = page(&input, Some(&frames::run(&input)));
        assert_sound(&page);
        assert!(page.contains(said));
        assert!(std::fs::read_to_string(file("svg")).unwrap() == page, "{name}.svg is another");
    }
}

/// The fox with a cutting from elsewhere: a line of its ears is unseen in the second pose. The words
/// and the picture are what is made of them now, with the peer's verdict.
#[test]
fn the_list_is_of_today() {
    let file = |ending: &str| above().join("docs/pictures").join(format!("checked.{ending}"));
    let Ok(input) = std::fs::read(file("hex")) else {
        return;
    };
    assert!(has_lists(&input));
    let verdicts = verdicts_of(&Peer, &input);
    assert_eq!(verdicts, "23 3 2\n");
    let (words, page) =
        (checked(&input, verdicts.as_bytes()), page_of_lists(&input, verdicts.as_bytes()));
    assert_sound(&page);
    assert_eq!(words, (std::fs::read_to_string(file("txt")).unwrap(), true));
    assert!(std::fs::read_to_string(file("svg")).unwrap() == page, "checked.svg is another");
}

/// The fox's eye, carried from pose to pose, is where the peer puts it.
#[test]
fn the_eye_is_of_today() {
    let file = |name: &str| above().join("docs/pictures").join(name);
    let Ok(fox) = std::fs::read_to_string(file("fox.hex")) else {
        return;
    };
    let lists: Vec<Vec<i32>> = drawn(&fox).iter().map(|drawing| list(drawing)).collect();
    let eye = Mark { x: 76, y: 250 };
    let place = carry(&lists[0], &lists[1], eye, &mut [0; 310]).place.expect("an eye in the head");
    let [x, y] = place.map(|axis| format!("{} {}", axis.step, axis.rest.to_bits()));
    let (answers, line) = (frames::run(fox.as_bytes()), format!("0 {x} {y}\n"));
    let page = page_with_mark(fox.as_bytes(), Some(&answers), eye, line.as_bytes());
    assert_sound(&page);
    assert!(page.contains("The mark at (76; 250), drawn as a diamond, lands at (85.16; 151.22)."));
    assert!(std::fs::read_to_string(file("eye.svg")).unwrap() == page, "eye.svg is another");
}
