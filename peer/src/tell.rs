//! The answers to an input in words: the pieces of each pair, or its refusal; or where a mark lands;
//! or what is wrong with a cutting that was made elsewhere. The answers are the program's, and the
//! words are those of the page (`show`).

use crate::checker::{MISSES, UNSEEN};
use crate::drawing::Corner;
use crate::marks::Mark;
use crate::show::faults;
use crate::show::landings::{self, Landing};
use crate::show::lists::{lists, Listed};
use crate::show::reading::{self, fits, Answer, Drawing};
use crate::show::verdicts::{verdicts, Said};
use crate::show::words::{self, counted, letters, ENDED};
use crate::telling::Piece;

/// What the program wrote for the frames, in words: a paragraph for each pair, and one for the end
/// if the run ends early.
pub fn tell(frames: &[u8], answers: &[u8]) -> String {
    let frames = reading::frames(frames);
    let answers = reading::answers(answers);
    let beyond = &answers[frames.pairs.len().min(answers.len())..];
    let paragraph = |(k, pair)| format!("Pair {}\n{}\n", k + 1, told(pair, answers.get(k)));
    let mut paragraphs: Vec<String> = frames.pairs.iter().enumerate().map(paragraph).collect();
    paragraphs.extend(end(frames.stop, beyond));
    paragraphs.join("\n")
}

/// Where a mark lands in each pair, by the lines given, and why there is no more.
pub fn carried(frames: &[u8], mark: Mark, lines: &[u8]) -> String {
    let frames = reading::frames(frames);
    let landings: Vec<Landing> = landings::landings(lines);
    let mark = Corner::at(i64::from(mark.x), i64::from(mark.y));
    let said = |k: usize| landings::told(mark, landings.get(k));
    let paragraph = |k: usize| format!("Pair {}\n{}\n", k + 1, said(k));
    let mut paragraphs: Vec<String> = (0..frames.pairs.len()).map(paragraph).collect();
    paragraphs.extend(frames.stop.map(|stop| stop + "\n"));
    paragraphs.join("\n")
}

/// What is wrong with the list of each pair, by the lines given, and why there is no more; and
/// whether all of the input was read.
pub fn checked(input: &[u8], lines: &[u8]) -> (String, bool) {
    let lists = lists(input);
    let verdicts = verdicts(lines);
    let paragraph = |k: usize, said: String| format!("Pair {}\n{said}\n", k + 1);
    let pairs = lists.pairs.iter().enumerate();
    let mut paragraphs: Vec<String> =
        pairs.map(|(k, listed)| paragraph(k, found(listed, verdicts.get(k)))).collect();
    let whole = lists.stop.is_none();
    paragraphs.extend(lists.stop.map(|stop| match lists.rest.len() {
        2 => paragraph(lists.pairs.len(), stop),
        _ => stop + "\n",
    }));
    (paragraphs.join("\n"), whole)
}

/// The verdict, then the piece that it names, and what is at fault.
fn found(listed: &Listed, said: Option<&Said>) -> String {
    let verdict = match said {
        Some(Said::Verdict(verdict)) => *verdict,
        Some(Said::Unclear(line)) => return words::unclear_verdict(line),
        None => return words::MISSING_VERDICT.into(),
    };
    let checked = faults::of(listed, verdict);
    let mut lines = vec![words::verdict(verdict, checked.pieces.len())];
    if [UNSEEN, MISSES].contains(&verdict.number) {
        lines.extend(checked.pieces.get(verdict.place).map(|piece| line(verdict.place, piece)));
    }
    lines.extend(faults::words(&checked));
    lines.join("\n")
}

fn told(pair: &[Drawing; 2], answer: Option<&Answer>) -> String {
    match answer {
        Some(Answer::Cut(pieces)) if fits(pieces, pair) => given(pieces),
        Some(Answer::Cut(_)) => words::UNFIT.into(),
        Some(Answer::Refused(number)) => words::line(*number).into(),
        Some(Answer::Ended) => ENDED.into(),
        Some(Answer::Unclear(line)) => words::unclear(line),
        None => words::MISSING.into(),
    }
}

fn given(pieces: &[Piece]) -> String {
    let mut lines = vec![format!("{}: {}", words::line(0), counted(pieces.len(), "piece"))];
    lines.extend(pieces.iter().enumerate().map(|(k, piece)| line(k, piece)));
    lines.join("\n")
}

/// A piece by its letter.
fn line(k: usize, Piece { centre, corners }: &Piece) -> String {
    let corners: Vec<String> = corners.iter().map(usize::to_string).collect();
    format!("{}: centre {centre}, corners {}", letters(k), corners.join(", "))
}

/// Why there is no more, and what the program wrote beyond the pairs, if there is any of it.
fn end(stop: Option<String>, beyond: &[Answer]) -> Option<String> {
    let ended = stop.is_some() && matches!(beyond, [Answer::Ended, ..]);
    let surplus = beyond.len() - usize::from(ended);
    let mut lines: Vec<String> = stop.into_iter().collect();
    if ended {
        lines.push(ENDED.into());
    }
    if surplus > 0 {
        lines.push(words::surplus(surplus));
    }
    (!lines.is_empty()).then(|| lines.join("\n") + "\n")
}
