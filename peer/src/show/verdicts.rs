//! What the product said of lists of pieces, pair by pair: a line of decimal numbers for each, the
//! number, and with 23 and 24 the place and the drawing. 02, K4.

use super::lists::lists;
use super::reading::{lines, printable};
use crate::checker::{Verdict, MISSES, NO_CUTTING, NO_LIST, UNSEEN};
use crate::desks::Desk;
use crate::pairs::list;

/// A line about one pair.
pub enum Said {
    Verdict(Verdict),
    /// A line of another form, as far as it can be printed.
    Unclear(String),
}

pub fn verdicts(output: &[u8]) -> Vec<Said> {
    let said = |line: &[u8]| {
        let line = line.strip_suffix(b"\n").unwrap_or(line);
        verdict(line).map_or_else(|| Said::Unclear(printable(line)), Said::Verdict)
    };
    lines(output).map(said).collect()
}

fn verdict(line: &[u8]) -> Option<Verdict> {
    let words: Vec<&str> = std::str::from_utf8(line).ok()?.split(' ').collect();
    let number = words[0].parse().ok()?;
    match (number, &words[1..]) {
        (0 | 1 | 3..=8 | NO_LIST | NO_CUTTING, []) => {
            Some(Verdict { number, drawing: 0, place: 0 })
        }
        (UNSEEN | MISSES, [place, drawing]) => {
            let drawing = drawing.parse().ok().filter(|drawing| [1, 2].contains(drawing))?;
            let place: u32 = place.parse().ok()?;
            Some(Verdict { number, drawing, place: place as usize })
        }
        _ => None,
    }
}

/// What a desk says of the lists of an input, a line for each, as far as the input can be read.
pub fn verdicts_of(desk: &impl Desk, input: &[u8]) -> String {
    let asked = lists(input).pairs.into_iter().map(|listed| {
        let [first, second] = listed.pair.map(|drawing| list(&drawing));
        line(desk.check(&first, &second, &listed.list))
    });
    asked.collect()
}

/// The line of a verdict.
fn line(Verdict { number, drawing, place }: Verdict) -> String {
    match number {
        UNSEEN | MISSES => format!("{number} {place} {drawing}\n"),
        _ => format!("{number}\n"),
    }
}
