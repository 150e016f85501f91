//! Entering a drawing: the frames of a pair from an SVG file or from a plain text of coordinates.
//! What is drawn is taken as it stands, or it is refused, with its line.
//!
//! `cursor` reads on and names places, `number` reads numbers exactly; `xml` reads tags, `svg` finds
//! outlines among them and `outline` reads one; `text` reads the plain form; `grid` rounds, and
//! `way` turns drawings round.

mod cursor;
mod grid;
mod number;
mod outline;
mod svg;
mod text;
mod way;
mod xml;

use crate::drawing::Corner;
use crate::frames::{frame, FIRST, SECOND};
use cursor::{refuse, Refusal};
use grid::Rounding;
use outline::Outline;

/// The greatest scale.
pub const MOST_SCALE: u32 = 1_000_000;

/// The mark that some programs write before a text.
const MARK: &str = "\u{feff}";

const NAMES: [&str; 2] = ["the first drawing", "the second drawing"];

/// How a drawing is to be entered.
#[derive(Clone, Copy)]
pub struct Wishes {
    /// How many steps of the grid a unit of the drawing is, 1 to `MOST_SCALE`.
    pub scale: u32,
    /// Whether both drawings are turned round where they run clockwise.
    pub anticlockwise: bool,
}

/// The two frames, and what is to be said of how they were made.
#[derive(Debug)]
pub struct Entered {
    pub frames: Vec<u8>,
    pub remarks: Vec<String>,
}

/// Enters a pair of drawings, or says in which line it cannot be taken, and why.
pub fn enter(input: &[u8], wishes: Wishes) -> Result<Entered, String> {
    let input = input.strip_prefix(MARK.as_bytes()).unwrap_or(input);
    let text = String::from_utf8_lossy(input);
    let entered = match std::str::from_utf8(input) {
        Ok(text) => entered(text, wishes),
        Err(error) => refuse(error.valid_up_to(), "this is no text in UTF-8"),
    };
    entered.map_err(|Refusal { at, reason }| format!("line {}: {reason}", cursor::line(&text, at)))
}

fn entered(input: &str, wishes: Wishes) -> Result<Entered, Refusal> {
    let (outlines, mut remarks) = outlines(input)?;
    let starts = outlines.each_ref().map(|outline| outline.at);
    let mut rounding = Rounding::default();
    let mut drawings = [Vec::new(), Vec::new()];
    for (k, mut outline) in outlines.into_iter().enumerate() {
        remarks.extend(closed(input, &mut outline, NAMES[k]));
        drawings[k] = grid::corners(&outline, NAMES[k], wishes.scale, &mut rounding)?;
    }
    remarks.extend(rounding.told(input));
    let [first, second] = drawings.each_ref().map(Vec::len);
    if first != second {
        let reason = format!(
            "the first drawing has {first} corners and the second {second}: both need equally many"
        );
        return refuse(starts[1], reason);
    }
    remarks.extend(way::turn(&mut drawings, starts, wishes.anticlockwise)?);
    Ok(Entered { frames: frames(&drawings), remarks })
}

/// Both outlines, and what is to be said of the input. An SVG file begins with a tag.
fn outlines(input: &str) -> Result<([Outline; 2], Vec<String>), Refusal> {
    if input.trim_start().starts_with('<') {
        svg::outlines(input)
    } else if input.lines().next().is_some_and(is_frame) {
        refuse(0, "a frame already: hand it to desk itself, or to desk tell or show")
    } else {
        text::outlines(input).map(|outlines| (outlines, Vec::new()))
    }
}

/// Leaves out a last point that repeats the first: it closes the outline, which is closed anyway,
/// and is no corner.
fn closed(input: &str, outline: &mut Outline, name: &str) -> Option<String> {
    let [first, .., last] = outline.points[..] else {
        return None;
    };
    if (first.x, first.y) != (last.x, last.y) {
        return None;
    }
    outline.points.pop();
    let line = cursor::line(input, last.at);
    Some(format!("line {line}: the last point of {name} repeats the first: left out"))
}

fn frames([first, second]: &[Vec<Corner>; 2]) -> Vec<u8> {
    let list = |drawing: &[Corner]| -> Vec<i32> {
        drawing.iter().flat_map(|corner| [corner.x as i32, corner.y as i32]).collect()
    };
    [frame(FIRST, &list(first)), frame(SECOND, &list(second))].concat()
}

/// Whether a line is what this tool would make, and no coordinates: digits of at least a triangle.
fn is_frame(line: &str) -> bool {
    line.starts_with("10")
        && line.len() >= 4 + 12 * 3
        && line.bytes().all(|c| c.is_ascii_hexdigit())
}
