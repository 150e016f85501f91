//! Entering drawings (src/entry).

mod accepted;
mod program;
mod refused;
mod trials;
mod way;

use peer::entry::{enter, Entered, Wishes};
use peer::frames::{frame, FIRST, SECOND};

const PLAIN: Wishes = Wishes { scale: 1, anticlockwise: false };

/// A triangle, y upwards, and the same triangle as a polygon, y down.
const TRIANGLE: [i32; 6] = [0, 0, 4, 0, 0, 3];
const POLYGON: &str = "<polygon points='0 0 4 0 0 -3'/>";

fn svg(elements: &str) -> String {
    format!("<svg xmlns=\"http://www.w3.org/2000/svg\">\n{elements}\n</svg>\n")
}

fn pair(first: &[i32], second: &[i32]) -> Vec<u8> {
    [frame(FIRST, first), frame(SECOND, second)].concat()
}

fn entered(input: &str, wishes: Wishes) -> Entered {
    enter(input.as_bytes(), wishes).unwrap_or_else(|reason| panic!("{input}\n{reason}"))
}

fn refused(input: &str, wishes: Wishes) -> String {
    match enter(input.as_bytes(), wishes) {
        Ok(entered) => panic!("{input}\nwas taken: {:?}", entered.remarks),
        Err(reason) => reason,
    }
}
