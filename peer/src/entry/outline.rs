//! An outline as it is written: the points of a `polygon` and the data of a `path`.

use super::cursor::{refuse, Cursor, Refusal};
use super::number::{begins, number, Exact};

/// A point and where in the input it stands.
#[derive(Clone, Copy, Debug)]
pub struct Point {
    pub x: Exact,
    pub y: Exact,
    pub at: usize,
}

#[derive(Debug)]
pub struct Outline {
    pub points: Vec<Point>,
    /// Where in the input it begins.
    pub at: usize,
}

/// The list of a polygon: x and y of each point.
pub fn polygon(cursor: &mut Cursor) -> Result<Vec<Point>, Refusal> {
    let mut points = Vec::new();
    cursor.skip_spaces();
    let mut more = cursor.peek().is_some();
    while more {
        let at = cursor.at;
        let (x, y) = (number(cursor)?, second(cursor)?);
        points.push(Point { x, y, at });
        more = another(cursor)?;
    }
    match cursor.peek() {
        None => Ok(points),
        Some(_) => refuse(cursor.at, format!("{} is no number", cursor.quoted())),
    }
}

/// The data of a path that is one closed outline of straight lines.
pub fn path(cursor: &mut Cursor) -> Result<Vec<Point>, Refusal> {
    let mut points: Vec<Point> = Vec::new();
    cursor.skip_spaces();
    loop {
        let at = cursor.at;
        let Some(letter) = cursor.peek() else {
            return refuse(at, "the path is not closed: it does not end with Z");
        };
        check_letter(letter, at, points.is_empty(), cursor)?;
        cursor.at += letter.len_utf8();
        cursor.skip_spaces();
        if letter.eq_ignore_ascii_case(&'z') {
            break;
        }
        lines(letter, cursor, &mut points)?;
    }
    match cursor.peek() {
        None => Ok(points),
        Some(_) => {
            refuse(cursor.at, "a path goes on after Z: each drawing is an element of its own")
        }
    }
}

/// Whether the command can come here: M first and only there, then straight lines and Z.
fn check_letter(letter: char, at: usize, first: bool, cursor: &Cursor) -> Result<(), Refusal> {
    match letter.to_ascii_uppercase() {
        'M' if first => Ok(()),
        'M' => refuse(at, "a path begins again with M: each drawing is an element of its own"),
        'L' | 'H' | 'V' | 'Z' if !first => Ok(()),
        'L' | 'H' | 'V' | 'Z' => refuse(at, format!("a path begins with M, not with {letter}")),
        'C' | 'S' | 'Q' | 'T' | 'A' => refuse(
            at,
            format!("a curve ({letter}): only straight lines can be taken, so flatten it"),
        ),
        _ => refuse(at, format!("{} is no command of a path", cursor.quoted())),
    }
}

/// The numbers after a command; further numbers repeat it, and repeat M as L.
fn lines(letter: char, cursor: &mut Cursor, points: &mut Vec<Point>) -> Result<(), Refusal> {
    let relative = letter.is_ascii_lowercase();
    loop {
        let at = cursor.at;
        let origin = Point { x: 0, y: 0, at };
        let here = points.last().copied().unwrap_or(origin);
        let from = if relative { here } else { origin };
        let (x, y) = match letter.to_ascii_uppercase() {
            'H' => (from.x + number(cursor)?, here.y),
            'V' => (here.x, from.y + number(cursor)?),
            _ => (from.x + number(cursor)?, from.y + second(cursor)?),
        };
        points.push(Point { x, y, at });
        if !another(cursor)? {
            return Ok(());
        }
    }
}

/// The y that an x needs.
fn second(cursor: &mut Cursor) -> Result<Exact, Refusal> {
    let at = cursor.at;
    if another(cursor)? {
        return number(cursor);
    }
    match cursor.peek() {
        Some(_) => refuse(cursor.at, format!("a y is missing before {}", cursor.quoted())),
        None => refuse(at, "an x without its y"),
    }
}

/// Takes the space and the comma before a further number, if one comes.
fn another(cursor: &mut Cursor) -> Result<bool, Refusal> {
    cursor.skip_spaces();
    let at = cursor.at;
    let comma = cursor.eat(",");
    cursor.skip_spaces();
    let comes = cursor.peek().is_some_and(begins);
    if comma && !comes {
        return refuse(at, "no number follows the comma");
    }
    Ok(comes)
}
