//! generate KIND COUNT SEED: prints the frames of COUNT pairs, or, for the kind `malformed`, one
//! input of COUNT pairs with a fault.

use peer::pairs::dice::Dice;
use peer::pairs::{pair, streams, KINDS};
use std::io::{self, Write};
use std::process::ExitCode;

fn main() -> ExitCode {
    let words: Vec<String> = std::env::args().skip(1).collect();
    match frames(&words) {
        Some(input) => match io::stdout().write_all(&input) {
            Ok(()) => ExitCode::SUCCESS,
            Err(_) => ExitCode::FAILURE,
        },
        None => {
            let names: Vec<&str> = KINDS.iter().map(|(name, _)| *name).collect();
            eprintln!("generate KIND COUNT SEED, KIND one of {} malformed", names.join(" "));
            ExitCode::from(2)
        }
    }
}

/// What is asked for, if it is asked for rightly.
fn frames(words: &[String]) -> Option<Vec<u8>> {
    let [kind, count, seed] = words else {
        return None;
    };
    let (count, seed): (usize, u64) = (count.parse().ok()?, seed.parse().ok()?);
    let mut dice = Dice::new(seed);
    let input = if kind == "malformed" {
        streams::malformed(&mut dice, count.max(1))
    } else {
        let (_, kind) = KINDS.into_iter().find(|(name, _)| name == kind)?;
        let frames = (0..count).filter_map(|_| pair(&mut dice, kind).frames());
        frames.flatten().collect()
    };
    eprintln!("seed {seed}");
    Some(input)
}
