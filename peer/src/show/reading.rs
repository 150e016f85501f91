//! What is shown: the drawings of an input and the program's answers to them. 01, "The frames on
//! the wire". Reading goes as far as it can and says in words why it went no further.

use super::words::grouped;
use crate::drawing::{corners, Corner, MOST_CORNERS};
use crate::frames::{FIRST, SECOND};
use crate::telling::Piece;

pub type Drawing = Vec<Corner>;

/// The drawings of an input, up to the line that ends the run.
#[derive(Default)]
pub struct Frames {
    pub pairs: Vec<[Drawing; 2]>,
    /// A first drawing that no second one follows.
    pub lone: Option<Drawing>,
    /// Why the run ends before the input does.
    pub stop: Option<String>,
}

pub fn frames(input: &[u8]) -> Frames {
    let mut found = Frames::default();
    for (k, line) in lines(input).enumerate() {
        let turn = if found.lone.is_some() { SECOND } else { FIRST };
        match drawing(k, line, turn) {
            Err(stop) => return Frames { stop: Some(stop), ..found },
            Ok(drawing) => match found.lone.take() {
                None => found.lone = Some(drawing),
                Some(first) => found.pairs.push([first, drawing]),
            },
        }
    }
    if found.lone.is_some() {
        found.stop = Some(AFTER_A_FIRST.into());
    }
    found
}

pub const AFTER_A_FIRST: &str = "The frames end after a first drawing.";

/// The lines of an input, each with its line feed if it has one.
pub fn lines(input: &[u8]) -> impl Iterator<Item = &[u8]> {
    input.split_inclusive(|&byte| byte == b'\n')
}

/// The drawing of line k, from 0, whose frame has to begin with this byte; else why the run ends.
pub fn drawing(k: usize, line: &[u8], turn: u8) -> Result<Drawing, String> {
    let place = format!("Line {} of the frames", grouped(k as i64 + 1));
    match frame(line) {
        None if line.trim_ascii_start().starts_with(b"<") => {
            Err(format!("{place} looks like SVG: desk frames makes frames of it."))
        }
        None => Err(format!("{place} is of another form.")),
        Some((tag, _)) if tag != turn => Err(format!("{place} is out of turn.")),
        Some((_, drawing)) => Ok(drawing),
    }
}

/// The byte that begins the frame, and its drawing.
pub fn frame(line: &[u8]) -> Option<(u8, Drawing)> {
    let bytes = bytes(line.strip_suffix(b"\n")?)?;
    let [tag @ (FIRST | SECOND), n, ref numbers @ ..] = bytes[..] else {
        return None;
    };
    if usize::from(n) > MOST_CORNERS || numbers.len() != 6 * usize::from(n) {
        return None;
    }
    let number = |b: &[u8]| i32::from_be_bytes([b[0], b[1], b[2], 0]) >> 8;
    let list: Vec<i32> = numbers.chunks_exact(3).map(number).collect();
    Some((tag, corners(&list)))
}

/// The bytes that a line of hexadecimal tells, without its line feed.
pub fn bytes(line: &[u8]) -> Option<Vec<u8>> {
    let digit = |symbol: u8| match symbol {
        b'0'..=b'9' => Some(symbol - b'0'),
        b'A'..=b'F' => Some(symbol - b'A' + 10),
        _ => None,
    };
    let byte = |pair: &[u8]| Some(16 * digit(pair[0])? + digit(*pair.get(1)?)?);
    line.chunks(2).map(byte).collect()
}

/// An answer line of the program.
pub enum Answer {
    Cut(Vec<Piece>),
    Refused(u8),
    /// EF: the run ends.
    Ended,
    /// A line of another form, as far as it can be printed.
    Unclear(String),
}

pub fn answers(output: &[u8]) -> Vec<Answer> {
    lines(output).map(answer).collect()
}

fn answer(line: &[u8]) -> Answer {
    let line = line.strip_suffix(b"\n").unwrap_or(line);
    let read = bytes(line).and_then(|bytes| match bytes[..] {
        [0xEF] => Some(Answer::Ended),
        [0xE0, number @ 1..=9] => Some(Answer::Refused(number)),
        [0xA0, count, ref told @ ..] => pieces(count, told).map(Answer::Cut),
        _ => None,
    });
    read.unwrap_or_else(|| Answer::Unclear(printable(line)))
}

/// The pieces told, if they are so many, each with rising corners and its centre among them.
fn pieces(count: u8, told: &[u8]) -> Option<Vec<Piece>> {
    let mut pieces = Vec::new();
    let mut rest = told;
    while let [k, centre, ref after @ ..] = *rest {
        let (corners, later) = after.split_at_checked(usize::from(k))?;
        let rising = corners.windows(2).all(|two| two[0] < two[1]);
        if corners.len() < 3 || !rising || !corners.contains(&centre) {
            return None;
        }
        pieces.push(Piece {
            centre: usize::from(centre),
            corners: corners.iter().map(|&c| usize::from(c)).collect(),
        });
        rest = later;
    }
    (rest.is_empty() && pieces.len() == usize::from(count) && count > 0).then_some(pieces)
}

/// The beginning of the line, with a question mark for each byte that is no plain symbol.
pub fn printable(line: &[u8]) -> String {
    let most = 40;
    let plain = |&byte: &u8| match byte {
        b' '..=b'~' => char::from(byte),
        _ => '?',
    };
    let text: String = line.iter().take(most).map(plain).collect();
    text + if line.len() > most { "..." } else { "" }
}

/// Whether the pieces can be those of a pair: the corners are there in both drawings, and the
/// pieces are as many and as large as a cutting of so many corners has them.
pub fn fits(pieces: &[Piece], [first, second]: &[Drawing; 2]) -> bool {
    let n = first.len();
    let there = |piece: &Piece| piece.corners.iter().all(|&corner| corner < n);
    let triangles: usize = pieces.iter().map(|piece| piece.corners.len() - 2).sum();
    second.len() == n && pieces.iter().all(there) && triangles + 2 == n
}
