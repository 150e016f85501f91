//! tell --answers FILE < frames: says in words what the program answered to the pairs of an input.
//! tell --mark X,Y --landings FILE < frames: where a mark of the first drawings lands.
//! tell --verdicts FILE < pairs with lists: what is wrong with their lists of pieces. The files hold the
//! programs' lines.

use peer::ask::mark;
use peer::tell::{carried, checked, tell};
use std::io::{self, Read, Write};
use std::process::ExitCode;

const USAGE: &str = "tell --answers FILE < frames, tell --mark X,Y --landings FILE < frames, or \
                     tell --verdicts FILE < pairs with lists";

fn main() -> ExitCode {
    let words: Vec<String> = std::env::args().skip(1).collect();
    let words: Vec<&str> = words.iter().map(String::as_str).collect();
    let told = match words[..] {
        ["--answers", file] => Some(of(file, |input, lines| (tell(input, lines), true))),
        ["--verdicts", file] => Some(of(file, checked)),
        ["--mark", word, "--landings", file] => {
            mark(word).map(|mark| of(file, |input, lines| (carried(input, mark, lines), true)))
        }
        _ => None,
    };
    match told {
        Some(Ok(true)) => ExitCode::SUCCESS,
        Some(Ok(false)) => ExitCode::FAILURE,
        Some(Err(error)) => {
            eprintln!("tell: {error}");
            ExitCode::FAILURE
        }
        None => {
            eprintln!("{USAGE}");
            ExitCode::from(2)
        }
    }
}

/// Writes what is told of the input and of the lines in the file, and hands on whether the input was
/// all read.
fn of(file: &str, told: impl Fn(&[u8], &[u8]) -> (String, bool)) -> io::Result<bool> {
    let lines = std::fs::read(file)?;
    let mut input = Vec::new();
    io::stdin().read_to_end(&mut input)?;
    let (told, whole) = told(&input, &lines);
    io::stdout().write_all(told.as_bytes())?;
    Ok(whole)
}
