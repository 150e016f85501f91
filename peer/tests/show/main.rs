//! The page that shows drawings and answers (src/show).

mod answers;
mod carried;
mod hostile;
mod listed;
mod outlines;
// Pages are drawn of the frames only.
#[allow(dead_code)]
#[path = "../recorded/mod.rs"]
mod recorded;
mod repository;
mod sheet;

use peer::frames::{frame, FIRST, SECOND};
use peer::show::page;

/// Outlines of 01, and the answers to S with S and to Z with H.
const S: [i32; 8] = [0, 0, 4, 0, 4, 4, 0, 4];
const D: [i32; 8] = [0, 1, 3, -2, 0, 4, -3, -2];
const E: [i32; 8] = [-3, -2, 0, 1, 3, -2, 0, 4];
const Z: [i32; 12] = [0, 0, 10, 0, 4, 2, 10, 10, 0, 10, 6, 8];
const H: [i32; 12] = [2, 0, 6, 0, 8, 4, 6, 8, 2, 8, 0, 4];
const CROSSED: [i32; 8] = [0, 0, 4, 4, 4, 0, 0, 4];
const BACKWARDS: [i32; 8] = [0, 0, 0, 4, 4, 4, 4, 0];
const ONE: &str = "A001040000010203\n";
const TWO: &str = "A002050000010203050303030405\n";

fn pair(first: &[i32], second: &[i32]) -> Vec<u8> {
    [frame(FIRST, first), frame(SECOND, second)].concat()
}

/// The page of a pair and its answer.
fn shown(first: &[i32], second: &[i32], answer: &str) -> String {
    let page = page(&pair(first, second), Some(answer.as_bytes()));
    sheet::assert_sound(&page);
    page
}
