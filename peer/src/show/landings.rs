//! Where a mark lands, pair by pair: what the product's program said of it. 02, K1. The page only
//! draws it.

use super::reading::printable;
use super::words::{self, grouped, rounded};
use crate::drawing::Corner;
use crate::marks::{Axis, OUT_OF_RANGE};

/// A line about one pair.
pub enum Landing {
    /// The place, x and y.
    Place([Axis; 2]),
    OnNoPiece,
    Refused(u8),
    /// A line of another form, as far as it can be printed.
    Unclear(String),
}

pub fn landings(output: &[u8]) -> Vec<Landing> {
    output.split_inclusive(|&byte| byte == b'\n').map(landing).collect()
}

/// A number, and with number 0 the whole steps and the rest of a step for x and for y, if the mark
/// lands.
fn landing(line: &[u8]) -> Landing {
    let line = line.strip_suffix(b"\n").unwrap_or(line);
    let words: Vec<&str> = std::str::from_utf8(line).map_or(Vec::new(), |l| l.split(' ').collect());
    let read = match words[..] {
        ["0"] => Some(Landing::OnNoPiece),
        ["0", x_step, x_rest, y_step, y_rest] => place([[x_step, x_rest], [y_step, y_rest]]),
        [number] => {
            number.parse().ok().filter(|k| (1..=OUT_OF_RANGE).contains(k)).map(Landing::Refused)
        }
        _ => None,
    };
    read.unwrap_or_else(|| Landing::Unclear(printable(line)))
}

fn place(axes: [[&str; 2]; 2]) -> Option<Landing> {
    let [x, y] = axes.map(axis);
    Some(Landing::Place([x?, y?]))
}

/// Steps, and the 64 bits of a rest from 0 to below 1.
fn axis([step, rest]: [&str; 2]) -> Option<Axis> {
    let step: i32 = step.parse().ok()?;
    let rest = rest.parse().ok().map(f64::from_bits).filter(|rest| (0.0..1.0).contains(rest))?;
    Some(Axis { step: i64::from(step), rest })
}

/// The place as two numbers, to be drawn.
pub fn drawn(place: &[Axis; 2]) -> [f64; 2] {
    place.each_ref().map(|axis| axis.step as f64 + axis.rest)
}

/// What is said of a mark beside the drawings of a pair that gets a cutting.
pub fn said(mark: Corner, landing: Option<&Landing>) -> String {
    let at = format!("({}; {})", grouped(mark.x), grouped(mark.y));
    match landing {
        Some(Landing::Place(place)) => {
            let [x, y] = drawn(place).map(rounded);
            format!("The mark at {at}, drawn as a diamond, lands at ({x}; {y}).")
        }
        Some(Landing::Refused(number)) if *number != OUT_OF_RANGE => words::UNFIT_LANDING.into(),
        landing => told(mark, landing),
    }
}

/// The same in words alone: the place whole, steps and rest, and a pair's refusal by its number.
pub fn told(mark: Corner, landing: Option<&Landing>) -> String {
    let at = format!("({}; {})", grouped(mark.x), grouped(mark.y));
    match landing {
        Some(Landing::Place(place)) => {
            let axis = |axis: &Axis| format!("{} and {} of a step", grouped(axis.step), axis.rest);
            let [x, y] = place.each_ref().map(axis);
            format!("The mark at {at} lands at x {x}, y {y}.")
        }
        Some(Landing::OnNoPiece) => format!("The mark at {at} is on no piece."),
        Some(Landing::Refused(OUT_OF_RANGE)) => words::MARK_OUT_OF_RANGE.into(),
        Some(Landing::Refused(number)) => words::line(*number).into(),
        Some(Landing::Unclear(line)) => words::unclear_landing(line),
        None => words::MISSING_LANDING.into(),
    }
}
