//! Reads frames on standard input and writes their answers, as the desk program does.

use std::io::{self, Read, Write};

fn main() -> io::Result<()> {
    let mut input = Vec::new();
    io::stdin().read_to_end(&mut input)?;
    io::stdout().write_all(&peer::frames::run(&input))
}
