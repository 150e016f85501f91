//! Whole inputs and whole outputs: lines of hexadecimal. 01, "The frames on the wire".
//!
//! Where 01 leaves it open: an input that ends inside a line, an empty line and a count above 40
//! hexadecimal are lines of another form; counts 00 to 02, and two counts that differ, make a
//! pair, which is refused with number 1.

use crate::desk;
use crate::drawing::MOST_CORNERS;

/// The byte that begins a frame of the first, and of the second drawing.
pub const FIRST: u8 = 0x10;
pub const SECOND: u8 = 0x20;

/// The least and the greatest number that three bytes hold.
pub const LOWEST: i32 = -(1 << 23);
pub const HIGHEST: i32 = (1 << 23) - 1;

/// The room of each pair.
const ROOM: usize = 310;

/// What the program writes for the whole input.
pub fn run(input: &[u8]) -> Vec<u8> {
    let mut output = Vec::new();
    let mut rest = input;
    while !rest.is_empty() {
        let Some((first, second)) = next_pair(&mut rest) else {
            output.extend(hexadecimal(&[0xEF]));
            break;
        };
        output.extend(answer_line(&first, &second));
    }
    output
}

/// The line that answers a pair.
pub fn answer_line(first: &[i32], second: &[i32]) -> Vec<u8> {
    let mut room = [0; ROOM];
    let outcome = desk::answer(first, second, &mut room);
    if outcome.number == 0 {
        let head = [0xA0, outcome.pieces as u8];
        hexadecimal(&[&head, &room[..outcome.bytes]].concat())
    } else {
        hexadecimal(&[0xE0, outcome.number])
    }
}

/// The line of one drawing of at most 64 corners whose numbers fit three bytes each.
pub fn frame(tag: u8, list: &[i32]) -> Vec<u8> {
    let mut bytes = vec![tag, (list.len() / 2) as u8];
    for number in list {
        bytes.extend(&number.to_be_bytes()[1..]);
    }
    hexadecimal(&bytes)
}

/// Takes a 10 and a 20 off the input; none if it does not begin with them.
fn next_pair(rest: &mut &[u8]) -> Option<(Vec<i32>, Vec<i32>)> {
    let first = next_frame(rest, FIRST)?;
    let second = next_frame(rest, SECOND)?;
    Some((first, second))
}

/// Takes a line off the input; none if it is not ended, or not a frame that begins with the tag.
fn next_frame(rest: &mut &[u8], tag: u8) -> Option<Vec<i32>> {
    let end = rest.iter().position(|&byte| byte == b'\n')?;
    let bytes = bytes_of(&rest[..end])?;
    *rest = &rest[end + 1..];
    let (head, numbers) = bytes.split_at_checked(2)?;
    let n = usize::from(head[1]);
    if head[0] != tag || n > MOST_CORNERS || numbers.len() != 6 * n {
        return None;
    }
    Some(numbers.chunks_exact(3).map(number).collect())
}

/// Three bytes, high byte first, two's complement.
fn number(bytes: &[u8]) -> i32 {
    i32::from_be_bytes([bytes[0], bytes[1], bytes[2], 0]) >> 8
}

/// The bytes that a line of hexadecimal tells, if it is one.
fn bytes_of(line: &[u8]) -> Option<Vec<u8>> {
    if line.len() % 2 == 1 {
        return None;
    }
    let byte = |pair: &[u8]| Some(16 * digit(pair[0])? + digit(pair[1])?);
    line.chunks_exact(2).map(byte).collect()
}

fn digit(symbol: u8) -> Option<u8> {
    match symbol {
        b'0'..=b'9' => Some(symbol - b'0'),
        b'A'..=b'F' => Some(symbol - b'A' + 10),
        _ => None,
    }
}

/// The bytes as a line of hexadecimal, with its line feed.
fn hexadecimal(bytes: &[u8]) -> Vec<u8> {
    const DIGITS: &[u8; 16] = b"0123456789ABCDEF";
    let digits = |byte: &u8| [DIGITS[usize::from(byte >> 4)], DIGITS[usize::from(byte & 15)]];
    let mut line: Vec<u8> = bytes.iter().flat_map(digits).collect();
    line.push(b'\n');
    line
}
