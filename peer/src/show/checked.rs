//! The page of pairs with lists of pieces, and of what the product said of each: the pieces of the
//! list, and what is wrong with them. 02, K4.

use super::colours;
use super::faults::{self, Checked, Wrong};
use super::figure::Content;
use super::grazing;
use super::lists::{lists, Listed, Lists};
use super::marks::Marks;
use super::page::{Page, MOST_PAIRS};
use super::verdicts::{verdicts, Said};
use super::words::{self, counted};
use crate::checker::Verdict;
use crate::telling::Piece;

/// The most pieces of a list that are drawn and told. A cutting has fewer.
const MOST_PIECES: usize = 64;

/// The page of an input with lists, and of the product's line for each.
pub fn page_of_lists(input: &[u8], lines: &[u8]) -> String {
    let (lists, verdicts) = (lists(input), verdicts(lines));
    let shown = lists.pairs.iter().zip(&verdicts).take(MOST_PAIRS);
    let shown: Vec<(&Listed, Verdict, Checked)> = shown.filter_map(with_pieces).collect();
    let mut page = Page::default();
    title(&mut page, lists.pairs.len());
    key(&mut page, &shown);
    for (k, listed) in lists.pairs.iter().enumerate().take(MOST_PAIRS) {
        page.begin(&format!("Pair {}", k + 1));
        pair(&mut page, listed, verdicts.get(k));
    }
    end(&mut page, &lists);
    page.finish()
}

/// A pair of which the pieces of the list are drawn, with its verdict.
fn with_pieces<'a>((listed, said): (&'a Listed, &Said)) -> Option<(&'a Listed, Verdict, Checked)> {
    let Said::Verdict(verdict) = said else {
        return None;
    };
    let checked = faults::of(listed, *verdict);
    (!checked.pieces.is_empty()).then_some((listed, *verdict, checked))
}

/// What the signs mean that are on the page.
fn key(page: &mut Page, shown: &[(&Listed, Verdict, Checked)]) {
    let accepted = || shown.iter().filter(|(_, verdict, _)| verdict.number == 0);
    if accepted().next().is_some() {
        page.key();
    }
    if accepted().any(|(listed, _, checked)| grazing::any(&listed.pair, &checked.pieces)) {
        page.key_of_grazing();
    }
    if accepted().count() < shown.len() {
        let wrong: Vec<Wrong> =
            shown.iter().flat_map(|(_, _, checked)| faults::marked(checked)).collect();
        let lines = wrong.iter().any(|wrong| !wrong.lines.is_empty());
        let missed = wrong.iter().any(|wrong| !wrong.missed.is_empty());
        page.key_of_faults(lines, missed);
    }
}

fn title(page: &mut Page, pairs: usize) {
    let lists = if pairs == 1 { "its list" } else { "their lists" };
    let pairs = counted(pairs, "pair");
    page.entitle(format!("Iravikkon: {pairs} of drawings with {lists} of pieces"));
}

fn pair(page: &mut Page, listed: &Listed, said: Option<&Said>) {
    let [first, second] = &listed.pair;
    let plain = [Content::Refused(&Marks::Nothing); 2];
    let verdict = match said {
        Some(Said::Verdict(verdict)) => *verdict,
        Some(Said::Unclear(line)) => {
            page.say("refusal", &words::unclear_verdict(line));
            return page.drawings([Some(first), Some(second)], plain);
        }
        None => {
            page.say("refusal", words::MISSING_VERDICT);
            return page.drawings([Some(first), Some(second)], plain);
        }
    };
    if (1..=8).contains(&verdict.number) {
        return page.refused(verdict.number, &listed.pair);
    }
    let checked = faults::of(listed, verdict);
    let class = if verdict.number == 0 { "given" } else { "refusal" };
    page.say(class, &words::verdict(verdict, checked.pieces.len()));
    for sentence in faults::words(&checked) {
        page.note(&sentence);
    }
    if checked.pieces.is_empty() {
        return page.drawings([Some(first), Some(second)], plain);
    }
    let pieces = &checked.pieces[..checked.pieces.len().min(MOST_PIECES)];
    let colours = colours::numbers(pieces);
    let wrong = faults::marked(&checked).map(|wrong| among(pieces, wrong));
    let contents = wrong.each_ref().map(|wrong| match verdict.number {
        0 => Content::Cut(pieces, &colours, None),
        _ => Content::Wrong(pieces, &colours, wrong),
    });
    page.drawings([Some(first), Some(second)], contents);
    let at_fault = |k: usize| verdict.number == 0 || wrong[0].pieces.contains(&k);
    page.pieces(pieces, &colours, &|k| if at_fault(k) { "sample" } else { "sample pale" });
    if checked.pieces.len() > pieces.len() {
        let more = counted(checked.pieces.len() - pieces.len(), "more piece");
        page.note(&format!("The list has {more}: a page shows {MOST_PIECES}."));
    }
}

/// What is wrong, without pieces that are not drawn.
fn among(pieces: &[Piece], mut wrong: Wrong) -> Wrong {
    wrong.pieces.retain(|&k| k < pieces.len());
    wrong
}

/// What follows the pairs, and why there is no more.
fn end(page: &mut Page, lists: &Lists) {
    if lists.pairs.len() > MOST_PAIRS {
        page.begin("More");
        let pairs = counted(lists.pairs.len() - MOST_PAIRS, "more pair");
        let line = 3 * MOST_PAIRS + 1;
        let words = format!("{pairs} from line {line} of the input on: a page shows {MOST_PAIRS}.");
        return page.say("given", &words);
    }
    let Some(stop) = &lists.stop else {
        return;
    };
    match lists.rest.len() {
        2 => page.begin(&format!("Pair {}", lists.pairs.len() + 1)),
        _ => page.begin("End"),
    }
    page.say("refusal", stop);
    if let [first, rest @ ..] = &lists.rest[..] {
        let plain = [Content::Refused(&Marks::Nothing); 2];
        page.drawings([Some(first), rest.first()], plain);
    }
}
