//! check --library OBJECT < pairs with lists > verdicts: asks the product's library in the shared
//! object about the list of each pair, as far as the input can be read; a line for each.
//! check --lists < input: whether the input has lists, by the exit status.

use peer::library::Library;
use peer::show;
use std::io::{self, Read, Write};
use std::path::Path;
use std::process::ExitCode;

const USAGE: &str = "\
check --library OBJECT < pairs with lists > verdicts
check --lists < input
  a verdict is its number, and with 23 and 24 the place, from 0, and the drawing, 1 or 2
  with --lists the exit status is 0 where the input has lists, and 1 where it has not";

fn main() -> ExitCode {
    let words: Vec<String> = std::env::args().skip(1).collect();
    let words: Vec<&str> = words.iter().map(String::as_str).collect();
    let done = match words[..] {
        ["--library", object] => check(Path::new(object)).map(|()| true),
        ["--lists"] => input().map(|input| show::has_lists(&input)),
        _ => {
            eprintln!("{USAGE}");
            return ExitCode::from(2);
        }
    };
    match done {
        Ok(true) => ExitCode::SUCCESS,
        Ok(false) => ExitCode::FAILURE,
        Err(error) => {
            eprintln!("check: {error}");
            ExitCode::from(2)
        }
    }
}

fn input() -> Result<Vec<u8>, String> {
    let mut input = Vec::new();
    io::stdin().read_to_end(&mut input).map_err(|error| error.to_string())?;
    Ok(input)
}

fn check(object: &Path) -> Result<(), String> {
    let library = Library::load(object)?;
    let verdicts = show::verdicts_of(&library, &input()?);
    io::stdout().write_all(verdicts.as_bytes()).map_err(|error| error.to_string())
}
