//! Where the numbers of corners stand: outwards of their corner, clear of the outline and of each
//! other as far as there is room.

use super::plane::{distance, gap, inside, point, sides, Point};

/// What keeps a label from a place: for each unit of clear space that is missing, and as a whole.
/// A unit further out costs 1, a step aside `ASIDE`.
const FROM_OUTLINE: f64 = 4.0;
const FROM_LABEL: f64 = 8.0;
const FROM_SPOT: f64 = 3.0;
const INSIDE: f64 = 18.0;
const OUT_OF_BOX: f64 = 60.0;
const ASIDE: f64 = 1.5;

/// The clear space that a label should have about it.
const CLEAR: f64 = 2.5;

/// The radius of a corner with its dot.
const DOT: f64 = 2.0;

pub struct Label {
    pub middle: Point,
    /// Half its width and half its height.
    half: Point,
}

impl Label {
    fn of(number: usize, middle: Point, font: f64) -> Label {
        let digits = number.to_string().len() as f64;
        let half = point(0.32 * font * digits, 0.37 * font);
        Label { middle, half }
    }

    /// A label is a segment as wide as it, with round ends.
    fn core(&self) -> [Point; 2] {
        let reach = (self.half.x - self.half.y).max(0.0);
        [-reach, reach].map(|x| point(self.middle.x + x, self.middle.y))
    }

    pub fn distance(&self, p: Point) -> f64 {
        distance(p, self.core()) - self.half.y
    }

    /// How much clear space a segment with round ends of this radius takes from the label. Most
    /// are far off, which is seen by their extents.
    fn missing(&self, [a, b]: [Point; 2], radius: f64) -> f64 {
        let reach = self.half.x + radius + CLEAR;
        let off =
            |a: f64, b: f64, middle: f64| a.min(b) - reach > middle || a.max(b) + reach < middle;
        if off(a.x, b.x, self.middle.x) || off(a.y, b.y, self.middle.y) {
            return 0.0;
        }
        (CLEAR + self.half.y + radius - gap(self.core(), [a, b])).max(0.0)
    }
}

/// The size of the numbers of an outline of so many corners.
pub fn font(n: usize) -> f64 {
    match n {
        0..=12 => 13.0,
        13..=24 => 11.5,
        25..=40 => 9.5,
        _ => 8.0,
    }
}

/// How far from its corner a label stands at least.
fn reach(font: f64) -> f64 {
    0.55 * font + 4.0
}

/// The line from a corner to its label, up to the label's clear space, if it stands far off.
pub fn leader(corner: Point, label: &Label, font: f64) -> Option<[Point; 2]> {
    let way = corner.to(label.middle);
    let end = way.length() - label.half.y - CLEAR;
    (way.length() > reach(font) + 7.0).then(|| [corner, corner.moved(way.unit(), end)])
}

/// What the labels of an outline stand among.
pub struct Surroundings<'a> {
    pub outline: &'a [Point],
    pub anticlockwise: bool,
    /// Middles and radii of what else to keep off, and lines.
    pub rings: &'a [(Point, f64)],
    pub lines: &'a [[Point; 2]],
    /// The upper left and the lower right of the box to keep to.
    pub bounds: [Point; 2],
}

impl Surroundings<'_> {
    /// The label of each corner.
    pub fn labels(&self) -> Vec<Label> {
        let font = font(self.outline.len());
        let corners = || self.outline.iter().copied().enumerate();
        let near = |(i, corner): (usize, Point)| {
            Label::of(i, corner.moved(self.outwards(i), reach(font)), font)
        };
        let mut labels: Vec<Label> = corners().map(near).collect();
        // The first round finds a place for each among labels that may still move.
        for _ in 0..2 {
            for (i, corner) in corners() {
                let tried = places(corner, self.outwards(i), font).map(|(middle, cost)| {
                    let label = Label::of(i, middle, font);
                    let cost = cost + self.cost(&label, i, &labels);
                    (label, cost)
                });
                let best = tried.min_by(|a, b| a.1.total_cmp(&b.1));
                labels[i] = best.expect("places are tried").0;
            }
        }
        labels
    }

    /// The direction away from the outline at corner i: square to the way through it.
    fn outwards(&self, i: usize) -> Point {
        let n = self.outline.len();
        let [before, here, after] = [i + n - 1, i, i + 1].map(|k| self.outline[k % n]);
        let (come, go) = (before.to(here).unit(), here.to(after).unit());
        let through = point(come.x + go.x, come.y + go.y);
        // Anticlockwise on paper, y up, the outside is to the right; the page's y runs downwards.
        let side = if self.anticlockwise { 1.0 } else { -1.0 };
        if through.length() > 1e-6 {
            point(-side * through.unit().y, side * through.unit().x)
        } else if come.length() > 0.0 {
            come
        } else {
            point(0.0, -1.0)
        }
    }

    /// What keeps the label of corner i from its place.
    fn cost(&self, label: &Label, i: usize, labels: &[Label]) -> f64 {
        let lines = sides(self.outline).chain(self.lines.iter().copied());
        let from_outline = lines.map(|line| label.missing(line, 0.0));
        let others = (0..labels.len()).filter(|&j| j != i).map(|j| &labels[j]);
        let from_labels = others.map(|other| label.missing(other.core(), other.half.y));
        let corners = self.outline.iter().map(|&corner| (corner, DOT));
        let spots = corners.chain(self.rings.iter().copied());
        let from_spots = spots.map(|(middle, radius)| label.missing([middle; 2], radius));
        FROM_OUTLINE * from_outline.sum::<f64>()
            + FROM_LABEL * from_labels.sum::<f64>()
            + FROM_SPOT * from_spots.sum::<f64>()
            + if inside(label.middle, self.outline) { INSIDE } else { 0.0 }
            + if self.keeps_to_box(label) { 0.0 } else { OUT_OF_BOX }
    }

    fn keeps_to_box(&self, Label { middle, half }: &Label) -> bool {
        let [upper_left, lower_right] = self.bounds;
        upper_left.x <= middle.x - half.x
            && upper_left.y <= middle.y - half.y
            && middle.x + half.x <= lower_right.x
            && middle.y + half.y <= lower_right.y
    }
}

/// The places tried for a label, with what each costs by itself: up to a right angle aside, in
/// steps of 15 degrees.
fn places(corner: Point, out: Point, font: f64) -> impl Iterator<Item = (Point, f64)> {
    let step = point(0.9659258262890683, 0.25881904510252074);
    let further = [0.0, 2.5, 5.0, 8.0, 11.0, 15.0];
    let mut turned = point(1.0, 0.0);
    (0..=6).flat_map(move |steps| {
        let ways = [turned, point(turned.x, -turned.y)];
        turned = turned.turned(step);
        ways.into_iter().flat_map(move |way| {
            further.into_iter().map(move |more| {
                let middle = corner.moved(out.turned(way), reach(font) + more);
                (middle, ASIDE * f64::from(steps) + more)
            })
        })
    })
}
