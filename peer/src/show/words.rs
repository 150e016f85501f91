//! The words for the numbers of 01, "What comes back", and for those of a list that was made
//! elsewhere (02, K4): two tables, which the README quotes.

use crate::checker::{Verdict, MISSES, UNSEEN};

const TABLE: &str = include_str!("words.txt");
const OF_LISTS: &str = include_str!("words-of-lists.txt");

/// The line of each number from 0, such as "4: the first drawing is not simple".
pub fn lines() -> impl Iterator<Item = &'static str> {
    TABLE.lines()
}

/// The line of a number; nothing for a number that 01 does not have.
pub fn line(number: u8) -> &'static str {
    lines().nth(usize::from(number)).unwrap_or_default()
}

/// The lines of the numbers that a list gets beside those of its pair, such as "21: ..", and of 0.
pub fn lines_of_lists() -> impl Iterator<Item = &'static str> {
    OF_LISTS.lines()
}

/// The line of a number that a list gets.
pub fn line_of_list(number: u8) -> &'static str {
    let of_list = lines_of_lists().find(|line| line.starts_with(&format!("{number}: ")));
    of_list.unwrap_or_else(|| line(number))
}

/// A verdict on a list of so many pieces.
pub fn verdict(verdict: Verdict, pieces: usize) -> String {
    let line = line_of_list(verdict.number);
    match verdict.number {
        0 => format!("{line}: {}", counted(pieces, "piece")),
        UNSEEN | MISSES => {
            let (place, letter) = (verdict.place, letters(verdict.place));
            let which = WHICH[usize::from(verdict.drawing != 1)];
            let piece = format!("piece {} of the list ({letter}, place {place})", place + 1);
            format!("{line}: {piece}, in the {which} drawing")
        }
        _ => line.into(),
    }
}

/// The names of the drawings.
pub const WHICH: [&str; 2] = ["first", "second"];

/// What is said where there is no verdict.
pub const MISSING_VERDICT: &str = "Nothing is said of the list of this pair.";

pub fn unclear_verdict(line: &str) -> String {
    format!("This says nothing of a list: {line}")
}

/// What is said of an answer that is none to its pair, and of the line EF.
pub const UNFIT: &str = "The answer does not fit the pair.";
pub const MISSING: &str = "There is no answer to this pair.";
pub const ENDED: &str = "EF: the program ended the run here.";

pub fn unclear(line: &str) -> String {
    format!("This is no answer: {line}")
}

/// What is said of a mark that does not land, and of a line that is none for its pair.
pub const MARK_OUT_OF_RANGE: &str = "10: the mark has a coordinate out of range";
pub const UNFIT_LANDING: &str = "What is said of the mark does not fit the pair.";
pub const MISSING_LANDING: &str = "Nothing is said of the mark in this pair.";

pub fn unclear_landing(line: &str) -> String {
    format!("This says nothing of a mark: {line}")
}

/// Says that there are so many answers more than pairs.
pub fn surplus(lines: usize) -> String {
    format!("The answers go on for {} more.", counted(lines, "line"))
}

/// A count with its noun: "1 piece", "2 pieces".
pub fn counted(count: usize, noun: &str) -> String {
    let ending = if count == 1 { "" } else { "s" };
    format!("{} {noun}{ending}", grouped(count as i64))
}

/// A whole number in groups of three digits: 1,000,000.
pub fn grouped(number: i64) -> String {
    let digits = number.unsigned_abs().to_string();
    let mut text = String::from(if number < 0 { "-" } else { "" });
    for (k, digit) in digits.chars().enumerate() {
        if k > 0 && (digits.len() - k).is_multiple_of(3) {
            text.push(',');
        }
        text.push(digit);
    }
    text
}

/// A number with two decimals at most, its whole part in groups of three digits.
pub fn rounded(number: f64) -> String {
    let hundredths = (number * 100.0).round() as i64;
    let sign = if hundredths < 0 { "-" } else { "" };
    let (whole, part) = (hundredths.abs() / 100, hundredths.abs() % 100);
    let decimals = format!(".{part:02}");
    let decimals = decimals.trim_end_matches('0').trim_end_matches('.');
    format!("{sign}{}{decimals}", grouped(whole))
}

/// Rising numbers, three and more that follow each other as a span: "0-3, 5".
pub fn spans(numbers: &[usize]) -> String {
    let mut parts = Vec::new();
    let mut rest = numbers;
    while let Some(&low) = rest.first() {
        let follow = rest.iter().zip(low..).take_while(|(a, b)| **a == *b);
        let (now, later) = rest.split_at(follow.count());
        if now.len() > 2 {
            parts.push(format!("{low}\u{2013}{}", now[now.len() - 1]));
        } else {
            parts.extend(now.iter().map(usize::to_string));
        }
        rest = later;
    }
    parts.join(", ")
}

/// How many pieces have a name of their own.
pub const MOST_LETTERS: usize = 26 + 26 * 26;

/// The name of a piece: A to Z, then AA, AB and so on.
pub fn letters(piece: usize) -> String {
    let letter = |k: usize| char::from(b'A' + (k % 26) as u8);
    match piece / 26 {
        0 => letter(piece).to_string(),
        more => format!("{}{}", letter(more - 1), letter(piece)),
    }
}

/// The text in lines of at most so many characters, broken at spaces.
pub fn wrapped(text: &str, most: usize) -> Vec<String> {
    let mut lines = vec![String::new()];
    for word in text.split(' ') {
        let last = lines.len() - 1;
        if lines[last].is_empty() {
            lines[last].push_str(word);
        } else if lines[last].chars().count() + 1 + word.chars().count() <= most {
            lines[last].push(' ');
            lines[last].push_str(word);
        } else {
            lines.push(word.to_string());
        }
    }
    lines
}
