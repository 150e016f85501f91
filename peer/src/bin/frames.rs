//! frames [--scale K] [--anticlockwise] < drawing > frames: makes the two frames of a pair from an
//! SVG file or from a plain text of coordinates. A drawing that cannot be taken is refused with its
//! line; then nothing is written, and the exit status is 1.

use peer::entry::{enter, Wishes, MOST_SCALE};
use std::io::{self, Read, Write};
use std::process::ExitCode;

const USAGE: &str = "\
desk frames [--scale K] [--anticlockwise] < drawing > frames
  An input that begins with < is SVG: two polygon or closed path elements of straight lines; its y
  runs down and is turned up. Any other is coordinates: x and y a line, y upwards, and an empty line
  between the two drawings.
  --scale K         K steps to a unit of the drawing, 1 to 1000000; 1 if not told
  --anticlockwise   turns both drawings round where both run clockwise; corner 0 stays corner 0";

fn main() -> ExitCode {
    let words: Vec<String> = std::env::args().skip(1).collect();
    let wishes = match wishes(&words) {
        Ok(wishes) => wishes,
        Err(reason) => {
            eprintln!("desk: {reason}\n{USAGE}");
            return ExitCode::from(2);
        }
    };
    match frames(wishes) {
        Ok(()) => ExitCode::SUCCESS,
        Err(reason) => {
            eprintln!("desk: {reason}");
            ExitCode::FAILURE
        }
    }
}

/// What the words ask for, each at most once, or what is wrong with them.
fn wishes(words: &[String]) -> Result<Wishes, String> {
    let (mut scale, mut anticlockwise) = (None, None);
    let mut words = words.iter().map(String::as_str);
    while let Some(word) = words.next() {
        let again = match word {
            "--scale" => scale.replace(steps(words.next().unwrap_or_default())?).is_some(),
            "--anticlockwise" => anticlockwise.replace(true).is_some(),
            "--help" => return Err("what it takes:".into()),
            _ => {
                return Err(format!(
                    "'{word}' is not understood; the drawing comes on standard input"
                ))
            }
        };
        if again {
            return Err(format!("{word} stands twice"));
        }
    }
    Ok(Wishes { scale: scale.unwrap_or(1), anticlockwise: anticlockwise.unwrap_or(false) })
}

fn steps(word: &str) -> Result<u32, String> {
    let steps = word.parse().ok().filter(|steps| (1..=MOST_SCALE).contains(steps));
    steps
        .ok_or_else(|| format!("--scale takes a whole number from 1 to {MOST_SCALE}, not '{word}'"))
}

fn frames(wishes: Wishes) -> Result<(), String> {
    let mut input = Vec::new();
    io::stdin().read_to_end(&mut input).map_err(|error| error.to_string())?;
    let entered = enter(&input, wishes)?;
    for remark in entered.remarks {
        eprintln!("desk: {remark}");
    }
    io::stdout().write_all(&entered.frames).map_err(|error| error.to_string())
}
