//! What is at fault in a list of pieces, so that the verdict on it can be seen. It follows the
//! product's verdict and is worked out here; where nothing of the kind is found, nothing is said.
//! 02, K4.

use super::lists::Listed;
use super::words::{letters, MOST_LETTERS, WHICH};
use crate::checker::{
    inner_lines, lines, missed, pieces, regions, unseen, Verdict, MISSES, NO_CUTTING, NO_LIST,
    UNSEEN,
};
use crate::drawing::{judge, Judged, FEWEST_CORNERS};
use crate::exhaustive::{cross, Cut};
use crate::telling::Piece;
use std::collections::BTreeMap;

/// The pieces of a list, if it is one and its pair is sound, and what is wrong with them.
pub struct Checked {
    pub pieces: Vec<Piece>,
    pub fault: Fault,
}

pub enum Fault {
    Nothing,
    /// The bytes are no list, and why.
    Broken(String),
    /// Two pieces, by their places, have the same corners.
    Twice([usize; 2]),
    /// Lines of two pieces cross.
    Crossing([(usize, Cut); 2]),
    /// A piece is parted by a line of another.
    Parted {
        piece: usize,
        other: usize,
        line: Cut,
    },
    /// The lines of the pieces leave these corners, and no piece has them.
    LeftOut(Vec<usize>),
    /// The lines of a piece that are unseen in the first drawing and in the second.
    Unseen(usize, [Vec<Cut>; 2]),
    /// The corners of a piece that its centre misses in either.
    Misses(usize, [Vec<usize>; 2]),
}

/// What there is to say of a list on which this is the verdict.
pub fn of(Listed { pair, list }: &Listed, verdict: Verdict) -> Checked {
    let n = pair[0].len();
    let sound = pair.iter().all(|drawing| judge(drawing) == Judged::Sound);
    let pieces = pieces(n, list).filter(|_| sound && pair[1].len() == n);
    let Some(pieces) = pieces else {
        let broken = (verdict.number == NO_LIST).then(|| broken(n, list)).flatten();
        let fault = broken.map_or(Fault::Nothing, Fault::Broken);
        return Checked { pieces: Vec::new(), fault };
    };
    let place = verdict.place;
    let fault = match (verdict.number, pieces.get(place)) {
        (NO_CUTTING, _) => no_cutting(n, &pieces),
        (UNSEEN, Some(piece)) => Fault::Unseen(place, pair.each_ref().map(|d| unseen(d, piece))),
        (MISSES, Some(piece)) => Fault::Misses(place, pair.each_ref().map(|d| missed(d, piece))),
        _ => Fault::Nothing,
    };
    Checked { pieces, fault }
}

/// Why bytes are no list of pieces of n corners, in words: what is wrong first.
fn broken(n: usize, list: &[u8]) -> Option<String> {
    if list.is_empty() {
        return Some("The list is empty.".into());
    }
    let mut at = 0;
    for place in 0.. {
        let [k, ref rest @ ..] = list[at..] else {
            return None;
        };
        let k = usize::from(k);
        if let Some(why) = broken_piece(n, k, rest) {
            let here = format!("from byte {at} on (the first is byte 0)");
            return Some(begun(&format!("{}, {here}, {why}.", piece_at(place))));
        }
        at += 2 + k;
    }
    None
}

/// Why a k and the bytes after it are no piece.
fn broken_piece(n: usize, k: usize, rest: &[u8]) -> Option<String> {
    if k < FEWEST_CORNERS {
        return Some(format!("has {k} corners, and {FEWEST_CORNERS} are the fewest"));
    }
    if k > n {
        return Some(format!("has {k} corners, and the drawings have {n}"));
    }
    let [centre, ref corners @ ..] = *rest else {
        return Some("is cut short before its centre".into());
    };
    let corners = &corners[..k.min(corners.len())];
    if corners.len() < k {
        return Some(format!("is cut short after {} of its {k} corners", corners.len()));
    }
    if let Some([a, b]) = corners.windows(2).find(|two| two[0] >= two[1]) {
        return Some(format!("has corners that do not rise: {b} after {a}"));
    }
    if let Some(corner) = corners.iter().find(|&&corner| usize::from(corner) >= n) {
        return Some(format!("has a corner {corner}, and the last of the drawings is {}", n - 1));
    }
    (!corners.contains(&centre))
        .then(|| format!("has the centre {centre}, which is no corner of it"))
}

/// Why pieces are not those of one set of uncrossed pairs, each once: what is found first. Distinct
/// pieces whose lines do not cross are regions of these lines unless a line parts them, and where
/// all are, some region is left out.
fn no_cutting(n: usize, pieces: &[Piece]) -> Fault {
    let (mut known, mut owners) = (BTreeMap::new(), BTreeMap::new());
    for (place, piece) in pieces.iter().enumerate() {
        if let Some(before) = known.insert(&piece.corners, place) {
            return Fault::Twice([before, place]);
        }
        for line in lines(piece) {
            owners.entry(line).or_insert(place);
        }
    }
    let inner = inner_lines(n, pieces);
    for &line in &inner {
        if let Some(&other) = inner.iter().find(|&&other| cross(line, other)) {
            return Fault::Crossing([line, other].map(|line| (owners[&line], line)));
        }
    }
    for (place, piece) in pieces.iter().enumerate() {
        let ends = |line: &Cut| line.iter().all(|corner| piece.corners.contains(corner));
        let own = lines(piece);
        if let Some(line) = inner.iter().find(|line| ends(line) && !own.contains(line)) {
            return Fault::Parted { piece: place, other: owners[line], line: *line };
        }
    }
    let mut regions = regions(n, &inner);
    regions.sort_unstable();
    let left_out = regions.into_iter().find(|region| !known.contains_key(region));
    left_out.map_or(Fault::Nothing, Fault::LeftOut)
}

/// What is at fault, in sentences.
pub fn words(Checked { pieces, fault }: &Checked) -> Vec<String> {
    match fault {
        Fault::Nothing => Vec::new(),
        Fault::Broken(why) => vec![why.clone()],
        Fault::Twice([one, other]) => {
            let corners = numbers(&pieces[*one].corners);
            let (one, other) = (piece_at(*one), piece_at(*other));
            vec![begun(&format!("{one} and {other} have the same corners: {corners}."))]
        }
        Fault::Crossing([(one, line), (other, across)]) => {
            let (line, across) = (told(line), told(across));
            let (one, other) = (piece_at(*one), piece_at(*other));
            vec![format!("The line {line} of {one} crosses the line {across} of {other}.")]
        }
        Fault::Parted { piece, other, line } => {
            let (piece, other) = (piece_at(*piece), piece_at(*other));
            vec![begun(&format!("{piece} is parted by the line {} of {other}.", told(line)))]
        }
        Fault::LeftOut(corners) => {
            vec![format!("The pieces leave out one, with the corners {}.", numbers(corners))]
        }
        Fault::Unseen(_, lines) => in_each(lines, |lines, which| {
            let lines: Vec<String> = lines.iter().map(told).collect();
            format!("Unseen in the {which} drawing: {}.", lines.join(", "))
        }),
        Fault::Misses(place, corners) => in_each(corners, |corners, which| {
            let centre = pieces[*place].centre;
            format!("Missed from {centre} in the {which} drawing: {}.", numbers(corners))
        }),
    }
}

/// What is marked in one drawing.
#[derive(Clone, Default)]
pub struct Wrong {
    /// The pieces at fault, by their places.
    pub pieces: Vec<usize>,
    /// The lines at fault, or those of a piece that is left out.
    pub lines: Vec<Cut>,
    /// From a centre to corners that it misses.
    pub missed: Vec<Cut>,
}

impl Wrong {
    pub fn all_lines(&self) -> Vec<Cut> {
        [&self.lines[..], &self.missed].concat()
    }
}

/// The marks in the first and in the second drawing.
pub fn marked(Checked { pieces, fault }: &Checked) -> [Wrong; 2] {
    let both = |pieces: Vec<usize>, lines: Vec<Cut>| {
        let wrong = Wrong { pieces, lines, missed: Vec::new() };
        [wrong.clone(), wrong]
    };
    match fault {
        Fault::Nothing | Fault::Broken(_) => both(Vec::new(), Vec::new()),
        Fault::Twice(places) => both(places.to_vec(), lines(&pieces[places[0]])),
        Fault::Crossing([(one, line), (other, across)]) => {
            both(vec![*one, *other], vec![*line, *across])
        }
        Fault::Parted { piece, line, .. } => both(vec![*piece], vec![*line]),
        Fault::LeftOut(corners) => {
            let piece = Piece { centre: corners[0], corners: corners.clone() };
            both(Vec::new(), lines(&piece))
        }
        Fault::Unseen(place, lines) => lines.each_ref().map(|lines| Wrong {
            pieces: vec![*place],
            lines: lines.clone(),
            missed: Vec::new(),
        }),
        Fault::Misses(place, corners) => corners.each_ref().map(|corners| {
            let from = pieces[*place].centre;
            let missed = corners.iter().map(|&to| [from, to]).collect();
            Wrong { pieces: vec![*place], lines: Vec::new(), missed }
        }),
    }
}

/// A sentence for each drawing in which there is something.
fn in_each<T>(found: &[Vec<T>; 2], sentence: impl Fn(&[T], &str) -> String) -> Vec<String> {
    let some = found.iter().zip(WHICH).filter(|(found, _)| !found.is_empty());
    some.map(|(found, which)| sentence(found, which)).collect()
}

/// A piece by its number from 1, and by the letter that the page has for it.
pub fn piece_at(place: usize) -> String {
    match place {
        0..MOST_LETTERS => format!("piece {} ({})", place + 1, letters(place)),
        _ => format!("piece {}", place + 1),
    }
}

/// A sentence with its first letter as sentences have it.
fn begun(sentence: &str) -> String {
    sentence[..1].to_uppercase() + &sentence[1..]
}

fn told([a, b]: &Cut) -> String {
    format!("{a}-{b}")
}

fn numbers(corners: &[usize]) -> String {
    corners.iter().map(usize::to_string).collect::<Vec<_>>().join(", ")
}
