//! Questions to the product's second program, `questions`: lines of decimal numbers, made of frames.

use crate::marks::Mark;
use crate::pairs::list;
use crate::show::reading;

/// Where a mark of the first drawing lands, asked of each pair of the frames: 1, the two lists, each
/// with its length first, and the mark.
pub fn where_a_mark_lands(frames: &[u8], mark: Mark) -> String {
    let question = |pair: &[reading::Drawing; 2]| {
        let [first, second] = pair.each_ref().map(|drawing| numbers(&list(drawing)));
        format!("1 {first} {second} {} {}\n", mark.x, mark.y)
    };
    reading::frames(frames).pairs.iter().map(question).collect()
}

/// A list with its length first.
fn numbers(list: &[i32]) -> String {
    let words = [list.len() as i32].into_iter().chain(list.iter().copied());
    words.map(|number| number.to_string()).collect::<Vec<_>>().join(" ")
}

/// A mark as people write it, such as 76,250. What 32 bits do not hold is as far out of range as the
/// last number that they do.
pub fn mark(word: &str) -> Option<Mark> {
    let (x, y) = word.split_once(',')?;
    Some(Mark { x: whole(x)?, y: whole(y)? })
}

fn whole(word: &str) -> Option<i32> {
    let digits = word.strip_prefix('-').unwrap_or(word);
    if digits.is_empty() || !digits.bytes().all(|byte| byte.is_ascii_digit()) {
        return None;
    }
    let farthest = if word.starts_with('-') { i32::MIN } else { i32::MAX };
    Some(word.parse().unwrap_or(farthest))
}
