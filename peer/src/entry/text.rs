//! The drawings of a plain text: a corner a line, x and y, and an empty line between the drawings.

use super::cursor::{refuse, Cursor, Refusal};
use super::number::number;
use super::outline::{Outline, Point};

/// The outlines as they are written, y upwards.
pub fn outlines(input: &str) -> Result<[Outline; 2], Refusal> {
    let mut outlines: Vec<Outline> = Vec::new();
    let mut between = true;
    let mut at = 0;
    for line in input.split_inclusive('\n') {
        let begun = outlines.len();
        match (point(input, at, line)?, outlines.last_mut()) {
            (None, _) => between = true,
            (Some(point), Some(drawing)) if !between => drawing.points.push(point),
            (Some(_), _) if begun == 2 => return refuse(at, "a third drawing: there must be two"),
            (Some(point), _) => {
                outlines.push(Outline { points: vec![point], at });
                between = false;
            }
        }
        at += line.len();
    }
    <[Outline; 2]>::try_from(outlines).or_else(|few| match few.first() {
        None => refuse(0, "no drawing: the input is empty"),
        Some(only) => {
            refuse(only.at, "one drawing only: there must be two, an empty line between them")
        }
    })
}

/// The point of a line; none for an empty one.
fn point(input: &str, at: usize, line: &str) -> Result<Option<Point>, Refusal> {
    let mut cursor = Cursor::over(input, at, at + line.len());
    cursor.skip_spaces();
    if cursor.peek().is_none() {
        return Ok(None);
    }
    let x = word(&mut cursor)?;
    if cursor.peek().is_none() {
        return refuse(at, "an x without its y");
    }
    let y = word(&mut cursor)?;
    if cursor.peek().is_some() {
        return refuse(at, "more than x and y in a line");
    }
    Ok(Some(Point { x, y, at }))
}

/// A number that ends with a space or with the line.
fn word(cursor: &mut Cursor) -> Result<i128, Refusal> {
    let start = cursor.clone();
    let number = number(cursor)?;
    let after = cursor.peek();
    if after.is_some_and(|symbol| !symbol.is_ascii_whitespace()) {
        return refuse(start.at, format!("{} is no number", start.quoted()));
    }
    cursor.skip_spaces();
    Ok(number)
}
