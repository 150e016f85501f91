//! Pairs with lists of pieces, a 10, a 20 and a line of hexadecimal for each: what a cutting that was
//! made elsewhere comes in. 02, K4. Reading goes as far as it can and says in words why it went no
//! further.

use super::reading::{bytes, drawing, frame, lines, printable, Drawing, AFTER_A_FIRST};
use super::words::grouped;
use crate::checker;
use crate::frames::{FIRST, SECOND};

/// A pair with the bytes that are to be its cutting.
pub struct Listed {
    pub pair: [Drawing; 2],
    pub list: Vec<u8>,
}

/// The pairs of an input, up to the line that ends the run.
#[derive(Default)]
pub struct Lists {
    pub pairs: Vec<Listed>,
    /// A first drawing alone, or a pair of which the list cannot be read.
    pub rest: Vec<Drawing>,
    /// Why the run ends before the input does.
    pub stop: Option<String>,
}

pub fn lists(input: &[u8]) -> Lists {
    let lines: Vec<&[u8]> = lines(input).collect();
    let mut found = Lists::default();
    for (k, line) in lines.iter().enumerate() {
        let turn = match found.rest.len() {
            0 => FIRST,
            1 => SECOND,
            _ => match list(k, line, lines.get(k + 1)) {
                Err(stop) => return Lists { stop: Some(stop), ..found },
                Ok(list) => {
                    let drawings: Result<[Drawing; 2], _> = found.rest.split_off(0).try_into();
                    let pair = drawings.expect("two drawings before a list");
                    found.pairs.push(Listed { pair, list });
                    continue;
                }
            },
        };
        match drawing(k, line, turn) {
            Err(stop) => return Lists { stop: Some(stop), ..found },
            Ok(drawing) => found.rest.push(drawing),
        }
    }
    found.stop = match found.rest.len() {
        0 => None,
        1 => Some(AFTER_A_FIRST.into()),
        _ => Some("The list of this pair is missing: the input ends.".into()),
    };
    found
}

/// The list on line k, from 0; else what the line is. After a list comes a first drawing or nothing:
/// a first and a second in its place are the next pair.
fn list(k: usize, line: &[u8], next: Option<&&[u8]>) -> Result<Vec<u8>, String> {
    let number = grouped(k as i64 + 1);
    let place = format!("Line {number}, the list of this pair,");
    if is_frame(line, FIRST) && next.is_some_and(|next| is_frame(next, SECOND)) {
        return Err(format!(
            "The list of this pair is missing: line {number} begins the next pair."
        ));
    }
    let Some(digits) = line.strip_suffix(b"\n") else {
        return Err(format!("{place} is not ended by a line feed."));
    };
    bytes(digits).ok_or_else(|| {
        let found = printable(digits);
        format!("{place} is no hexadecimal (digits 0-9 and A-F, two for a byte): {found}")
    })
}

fn is_frame(line: &[u8], tag: u8) -> bool {
    frame(line).is_some_and(|(begins, _)| begins == tag)
}

/// Whether an input is to be read as pairs with lists, where it may be frames alone: after the first
/// two drawings stands a line of hexadecimal that is no frame. A list may be a frame as well: sixteen
/// corners about 4 and six corners more are 26 bytes that begin with 10 04, as a frame of four
/// corners does. So a frame counts as a list if it is one of pieces of the pair, and no second drawing
/// follows it. No input that is right by one reading is taken by the other: as frames, what follows
/// that line is a second drawing, and after a list none can come.
pub fn has_lists(input: &[u8]) -> bool {
    let lines: Vec<&[u8]> = lines(input).take(4).collect();
    let [first, second, third, ref later @ ..] = lines[..] else {
        return false;
    };
    let (Ok(first), Ok(_)) = (drawing(0, first, FIRST), drawing(1, second, SECOND)) else {
        return false;
    };
    let list = third.strip_suffix(b"\n").and_then(bytes);
    let second_follows = later.iter().any(|line| is_frame(line, SECOND));
    match frame(third) {
        None => list.is_some(),
        Some(_) => {
            let pieces = list.and_then(|list| checker::pieces(first.len(), &list));
            pieces.is_some() && !second_follows
        }
    }
}
