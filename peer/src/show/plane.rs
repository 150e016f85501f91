//! Points on the page, in its units, y downwards: how a drawing is scaled into a box, and the
//! distances that placing labels needs. Only operations that every machine rounds alike are used,
//! so that a page is the same everywhere.

use super::words::grouped;
use crate::drawing::Corner;

#[derive(Clone, Copy, Debug, PartialEq)]
pub struct Point {
    pub x: f64,
    pub y: f64,
}

pub fn point(x: f64, y: f64) -> Point {
    Point { x, y }
}

impl Point {
    pub fn to(self, other: Point) -> Point {
        point(other.x - self.x, other.y - self.y)
    }

    /// This point moved by so many times a direction.
    pub fn moved(self, direction: Point, times: f64) -> Point {
        point(self.x + times * direction.x, self.y + times * direction.y)
    }

    pub fn length(self) -> f64 {
        dot(self, self).sqrt()
    }

    /// The direction of length 1, or no direction for no length.
    pub fn unit(self) -> Point {
        let length = self.length();
        if length > 0.0 {
            point(self.x / length, self.y / length)
        } else {
            self
        }
    }

    /// This direction turned by the angle whose direction from the x axis is given.
    pub fn turned(self, angle: Point) -> Point {
        point(angle.x * self.x - angle.y * self.y, angle.y * self.x + angle.x * self.y)
    }
}

/// How far a drawing may be longer one way than the other; beyond that it is stretched, which
/// keeps what is straight, what crosses and who sees whom.
const MOST_UNEQUAL: f64 = 6.0;

/// The scale at which a drawing just fits a square.
#[derive(Clone, Copy, Debug)]
pub struct Scale {
    left: i64,
    top: i64,
    /// The extent in drawing units.
    pub extent: [i64; 2],
    /// Page units to a drawing unit, each way.
    by: [f64; 2],
}

impl Scale {
    pub fn of(drawing: &[Corner], square: f64) -> Scale {
        let (left, right) = range(drawing.iter().map(|c| c.x));
        let (bottom, top) = range(drawing.iter().map(|c| c.y));
        let extent = [right - left, top - bottom];
        let longer = extent[0].max(extent[1]) as f64;
        let by = extent.map(|length| match length as f64 {
            0.0 => 0.0,
            length => square / longer.min(MOST_UNEQUAL * length),
        });
        Scale { left, top, extent, by }
    }

    /// The extent on the page.
    pub fn size(&self) -> Point {
        point(self.extent[0] as f64 * self.by[0], self.extent[1] as f64 * self.by[1])
    }

    /// How the drawing is stretched, in words.
    pub fn stretched(&self) -> Option<String> {
        let [x, y] = self.by;
        let (times, way) = if y > x { (y / x, "high") } else { (x / y, "wide") };
        let times = grouped(times.round() as i64);
        (x > 0.0 && y > 0.0 && x != y).then(|| format!("drawn {times} times as {way}"))
    }

    /// The drawing with the upper left of its extent at the origin given.
    pub fn place(&self, drawing: &[Corner], origin: Point) -> Vec<Point> {
        let placed = |c: &Corner| {
            point(
                origin.x + (c.x - self.left) as f64 * self.by[0],
                origin.y + (self.top - c.y) as f64 * self.by[1],
            )
        };
        drawing.iter().map(placed).collect()
    }

    /// Any point of the drawing's plane, with the same origin, unless it is further off the drawing
    /// than the margin.
    pub fn spot(&self, [x, y]: [f64; 2], origin: Point, margin: f64) -> Option<Point> {
        let (size, right) = (self.size(), (x - self.left as f64) * self.by[0]);
        let down = (self.top as f64 - y) * self.by[1];
        let near = |at: f64, length: f64| -margin <= at && at <= length + margin;
        (near(right, size.x) && near(down, size.y))
            .then(|| point(origin.x + right, origin.y + down))
    }
}

/// The least and the greatest; 0 and 0 of none.
fn range(numbers: impl Iterator<Item = i64> + Clone) -> (i64, i64) {
    let low = numbers.clone().min().unwrap_or(0);
    (low, numbers.max().unwrap_or(0))
}

fn cross(a: Point, b: Point) -> f64 {
    a.x * b.y - a.y * b.x
}

pub fn dot(a: Point, b: Point) -> f64 {
    a.x * b.x + a.y * b.y
}

/// The distance of a point from a segment.
pub fn distance(p: Point, [a, b]: [Point; 2]) -> f64 {
    let way = a.to(b);
    let square = dot(way, way);
    let along = if square > 0.0 { (dot(a.to(p), way) / square).clamp(0.0, 1.0) } else { 0.0 };
    p.to(a.moved(way, along)).length()
}

/// The distance of two segments: none if they cross.
pub fn gap(one: [Point; 2], other: [Point; 2]) -> f64 {
    let apart = |[a, b]: [Point; 2], [c, d]: [Point; 2]| {
        cross(a.to(b), a.to(c)) * cross(a.to(b), a.to(d)) >= 0.0
    };
    if !apart(one, other) && !apart(other, one) {
        return 0.0;
    }
    let ends = [
        distance(one[0], other),
        distance(one[1], other),
        distance(other[0], one),
        distance(other[1], one),
    ];
    ends.into_iter().fold(f64::INFINITY, f64::min)
}

/// The sides of an outline: each corner with the next one round it.
pub fn sides(outline: &[Point]) -> impl Iterator<Item = [Point; 2]> + Clone + '_ {
    let nexts = outline.iter().cycle().skip(1);
    outline.iter().zip(nexts).map(|(&a, &b)| [a, b])
}

/// Whether the outline goes round the point an odd number of times.
pub fn inside(p: Point, outline: &[Point]) -> bool {
    let passed = |[a, b]: &[Point; 2]| {
        (a.y > p.y) != (b.y > p.y) && p.x < a.x + (p.y - a.y) / (b.y - a.y) * (b.x - a.x)
    };
    sides(outline).filter(passed).count() % 2 == 1
}

/// The place inside the outline with the most room round it, of those on a grid, and that room.
pub fn roomiest(outline: &[Point], room: impl Fn(Point) -> f64) -> Option<(Point, f64)> {
    const STEPS: usize = 24;
    let low = |way: fn(&Point) -> f64| outline.iter().map(way).fold(f64::INFINITY, f64::min);
    let high = |way: fn(&Point) -> f64| outline.iter().map(way).fold(f64::NEG_INFINITY, f64::max);
    let (left, right) = (low(|p| p.x), high(|p| p.x));
    let (top, bottom) = (low(|p| p.y), high(|p| p.y));
    let step = |k: usize| (k as f64 + 0.5) / STEPS as f64;
    let grid = (0..STEPS * STEPS).map(|k| {
        point(left + step(k % STEPS) * (right - left), top + step(k / STEPS) * (bottom - top))
    });
    let places = grid.filter(|&p| inside(p, outline)).map(|p| (p, room(p)));
    places.max_by(|a, b| a.1.total_cmp(&b.1))
}
