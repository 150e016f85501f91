//! From an outline as it is written to corners on the whole-number grid. 01, "A sound drawing".

use super::cursor::{self, refuse, Refusal};
use super::number::{self, Exact, ONE};
use super::outline::{Outline, Point};
use crate::drawing::{in_range, Corner, FARTHEST, FEWEST_CORNERS, MOST_CORNERS};
use crate::show::words::grouped;

/// What was rounded: of how many coordinates how many, by how much at most, and where first.
#[derive(Default)]
pub struct Rounding {
    pub all: usize,
    pub rounded: usize,
    pub most: Exact,
    pub first: usize,
}

impl Rounding {
    /// The nearest whole number, of two the upper one: a drawing that is moved by whole units is
    /// rounded alike.
    fn whole(&mut self, number: Exact, at: usize) -> i64 {
        let whole = (number + ONE / 2).div_euclid(ONE);
        let by = (number - whole * ONE).abs();
        if by > 0 && self.rounded == 0 {
            self.first = at;
        }
        self.all += 1;
        self.rounded += usize::from(by > 0);
        self.most = self.most.max(by);
        whole as i64
    }

    /// What was rounded, in words, if anything was.
    pub fn told(&self, input: &str) -> Option<String> {
        let Rounding { all, rounded, most, first } = *self;
        let (most, line) = (number::told(most), cursor::line(input, first));
        let words = format!(
            "rounded: {rounded} of {all} coordinates, by up to {most}, the first on line {line}; \
             --scale makes the grid finer"
        );
        (rounded > 0).then_some(words)
    }
}

/// The corners, `scale` to a unit of the drawing, and what was rounded on the way.
pub fn corners(
    outline: &Outline,
    name: &str,
    scale: u32,
    rounding: &mut Rounding,
) -> Result<Vec<Corner>, Refusal> {
    let points = &outline.points[..];
    let n = points.len();
    if !(FEWEST_CORNERS..=MOST_CORNERS).contains(&n) {
        let allowed = format!("{FEWEST_CORNERS} to {MOST_CORNERS} can be taken");
        return refuse(outline.at, format!("{name} has {n} corners: {allowed}"));
    }
    let mut corners: Vec<Corner> = Vec::new();
    for (i, point) in points.iter().enumerate() {
        let [x, y] = [point.x, point.y].map(|number| {
            let scaled = number * Exact::from(scale);
            rounding.whole(scaled, point.at)
        });
        let corner = Corner::at(x, y);
        if !in_range(&corner) {
            let far = grouped(FARTHEST);
            return refuse(point.at, format!("corner {i} of {name} is out of range: beyond {far}"));
        }
        if let Some(k) = corners.iter().position(|earlier| *earlier == corner) {
            return refuse(point.at, together(&points[k], point, [k, i], name));
        }
        corners.push(corner);
    }
    Ok(corners)
}

fn together(earlier: &Point, later: &Point, [k, i]: [usize; 2], name: &str) -> String {
    if (earlier.x, earlier.y) == (later.x, later.y) {
        format!("corner {i} of {name} is where corner {k} is")
    } else {
        format!("corner {i} of {name} is rounded to where corner {k} is: --scale makes it finer")
    }
}
