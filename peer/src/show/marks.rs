//! What is marked in a refused drawing, so that the refusal can be seen. The marks follow the
//! program's number; where there is nothing to mark, none is drawn.

use super::grazing::{touched, Grazing};
use super::reading::Drawing;
use super::words::{counted, grouped};
use crate::drawing::{in_range, judge, turn, Corner, Judged, FARTHEST};
use crate::sight::sight;

/// How many marks are told in words, the others being counted.
const MOST_TOLD: usize = 3;

pub enum Marks {
    Nothing,
    /// Corners that are out of range.
    Corners(Vec<usize>),
    /// Points that sides share and should not.
    Meetings(Vec<Meeting>),
    /// The way round that the corners run.
    Way,
    /// What this drawing sees and the other does not: lines by the strict rule, and others that only
    /// a centre sees.
    Seen(Vec<[usize; 2]>, Vec<Grazing>),
}

/// Two sides, told by the corners where they begin, that share a point: how far along the first.
pub struct Meeting {
    pub sides: [usize; 2],
    pub along: f64,
}

/// The marks in the first and in the second drawing of a pair refused with the number.
pub fn of(number: u8, [first, second]: &[Drawing; 2]) -> [Marks; 2] {
    match number {
        3..=5 => [of_one(number, first), Marks::Nothing],
        6..=8 => [Marks::Nothing, of_one(number - 3, second)],
        9 => [seen(first, second), seen(second, first)],
        _ => [Marks::Nothing, Marks::Nothing],
    }
}

fn of_one(number: u8, drawing: &[Corner]) -> Marks {
    match number {
        3 => Marks::Corners((0..drawing.len()).filter(|&i| !in_range(&drawing[i])).collect()),
        4 => Marks::Meetings(meetings(drawing)),
        _ => Marks::Way,
    }
}

/// The marks in words.
pub fn words(marks: &Marks, which: &str, drawing: &[Corner]) -> Option<String> {
    let n = drawing.len();
    match marks {
        Marks::Corners(corners) => told(corners, "corner", |&i| {
            let [x, y] = [drawing[i].x, drawing[i].y].map(grouped);
            format!("corner {i} at ({x}; {y})")
        })
        .map(|list| format!("Beyond {} in the {which} drawing: {list}.", grouped(FARTHEST))),
        Marks::Meetings(meetings) => told(meetings, "pair", |meeting| {
            let [a, b] = meeting.sides.map(|i| format!("{i}\u{2013}{}", (i + 1) % n));
            format!("{a} and {b}")
        })
        .map(|list| format!("Sides of the {which} drawing that meet: {list}.")),
        Marks::Seen(lines, grazing) => {
            let lines = counted(lines.len(), "line");
            let more = grazing.len();
            let dashed = match more {
                0 => String::new(),
                _ => format!(
                    "; dashed, {} that touch{} a third corner, which only its centres see",
                    counted(more, "line"),
                    if more == 1 { "es" } else { "" }
                ),
            };
            Some(format!(
                "Drawn in the {which}: {lines} that it sees and the other does not{dashed}."
            ))
        }
        Marks::Way => Some(format!("Arrows show how the {which} drawing runs.")),
        Marks::Nothing => None,
    }
}

fn told<T>(marks: &[T], noun: &str, one: impl Fn(&T) -> String) -> Option<String> {
    let mut list: Vec<String> = marks.iter().take(MOST_TOLD).map(one).collect();
    if marks.len() > MOST_TOLD {
        list.push(format!("{} more", counted(marks.len() - MOST_TOLD, noun)));
    }
    (!list.is_empty()).then(|| list.join(", "))
}

/// What one drawing sees and the other does not. 01, "Sight", and 02, K3. Only sound drawings are
/// looked at: a program may say 9 of others.
fn seen(one: &[Corner], other: &[Corner]) -> Marks {
    if one.len() != other.len() || [one, other].iter().any(|d| judge(d) != Judged::Sound) {
        return Marks::Seen(Vec::new(), Vec::new());
    }
    let (here, there) = (sight(one), sight(other));
    let lines = (0..one.len()).flat_map(|i| (i + 1..one.len()).map(move |j| [i, j]));
    let strict = |&[i, j]: &[usize; 2]| here.sees(i, j) && !there.sees(i, j);
    let grazing = |&[i, j]: &[usize; 2]| here.cell(i, j) == 2 && !there.centre_sees(i, j);
    let touching = |ends| Grazing { ends, touched: touched(one, ends) };
    Marks::Seen(
        lines.clone().filter(strict).collect(),
        lines.filter(grazing).map(touching).collect(),
    )
}

/// For any two sides that share a point other than a common corner, one such point.
fn meetings(drawing: &[Corner]) -> Vec<Meeting> {
    let n = drawing.len();
    let sides = (0..n).flat_map(|i| (i + 1..n).map(move |j| [i, j]));
    let meeting = |sides| meet(drawing, sides).map(|along| Meeting { sides, along });
    sides.filter_map(meeting).collect()
}

fn meet(drawing: &[Corner], [i, j]: [usize; 2]) -> Option<f64> {
    let n = drawing.len();
    let (a, b) = (drawing[i], drawing[(i + 1) % n]);
    let (c, d) = (drawing[j], drawing[(j + 1) % n]);
    let (from_c, from_d) = (turn(c, d, a), turn(c, d, b));
    if from_c == from_d {
        // Sides of one direction, or one of a single point: an end of one may be on the other.
        let common = |k: usize| (j == i + 1 && k == j) || ((j + 1) % n == i && k == i);
        let on = |k: usize, p: Corner, q: Corner| !common(k) && between(drawing[k], p, q);
        return if on(j, a, b) {
            Some(part(a, b, c))
        } else if on((j + 1) % n, a, b) {
            Some(part(a, b, d))
        } else if on(i, c, d) {
            Some(0.0)
        } else if on((i + 1) % n, c, d) {
            Some(1.0)
        } else {
            None
        };
    }
    let neighbours = j == i + 1 || (j + 1) % n == i;
    let apart = |one: i64, other: i64| one.signum() * other.signum() > 0;
    if neighbours || apart(from_c, from_d) || apart(turn(a, b, c), turn(a, b, d)) {
        return None;
    }
    Some(from_c as f64 / (from_c - from_d) as f64)
}

/// Whether the corner is on the segment pq.
fn between(corner: Corner, p: Corner, q: Corner) -> bool {
    let in_extent = (p.x.min(q.x)..=p.x.max(q.x)).contains(&corner.x)
        && (p.y.min(q.y)..=p.y.max(q.y)).contains(&corner.y);
    in_extent && turn(p, q, corner) == 0
}

/// How far along pq a corner on it is.
fn part(p: Corner, q: Corner, corner: Corner) -> f64 {
    let (whole, here) = ((q.x - p.x, q.y - p.y), (corner.x - p.x, corner.y - p.y));
    let square = whole.0 * whole.0 + whole.1 * whole.1;
    if square == 0 {
        return 0.0;
    }
    (whole.0 * here.0 + whole.1 * here.1) as f64 / square as f64
}
