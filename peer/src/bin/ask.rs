//! ask --mark X,Y < frames > questions: what the product's program is asked of the pairs of an input.

use std::io::{self, Read, Write};
use std::process::ExitCode;

fn main() -> ExitCode {
    let words: Vec<String> = std::env::args().skip(1).collect();
    let words: Vec<&str> = words.iter().map(String::as_str).collect();
    let ["--mark", word] = words[..] else {
        eprintln!("ask --mark X,Y < frames > questions");
        return ExitCode::from(2);
    };
    let Some(mark) = peer::ask::mark(word) else {
        eprintln!("desk: the mark {word} is no two whole numbers with a comma between them, such as 76,250");
        return ExitCode::from(2);
    };
    let mut frames = Vec::new();
    let asked = io::stdin().read_to_end(&mut frames).and_then(|_| {
        io::stdout().write_all(peer::ask::where_a_mark_lands(&frames, mark).as_bytes())
    });
    match asked {
        Ok(()) => ExitCode::SUCCESS,
        Err(error) => {
            eprintln!("ask: {error}");
            ExitCode::FAILURE
        }
    }
}
