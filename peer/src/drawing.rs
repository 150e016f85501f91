//! A drawing: the judgement whether it is sound, and which corners see each other by the strict
//! rule. 01, "A sound drawing" and "Sight".

/// 01, "A sound drawing": n is 3 to 64, a coordinate -1,000,000 to 1,000,000.
pub const FEWEST_CORNERS: usize = 3;
pub const MOST_CORNERS: usize = 64;
pub const FARTHEST: i64 = 1_000_000;

/// A corner. In range, a difference of coordinates is at most 2 * 10^6 and a turn at most
/// 8 * 10^12 in size, so i64 is exact.
#[derive(Clone, Copy, Debug, PartialEq, Eq)]
pub struct Corner {
    pub x: i64,
    pub y: i64,
}

impl Corner {
    pub const fn at(x: i64, y: i64) -> Corner {
        Corner { x, y }
    }
}

/// What is wrong with a drawing first, in the order of 01, "What comes back".
#[derive(Clone, Copy, Debug, PartialEq, Eq)]
pub enum Judged {
    Sound,
    OutOfRange,
    NotSimple,
    NotAnticlockwise,
}

/// The corners of a list x0, y0, x1, y1 and so on, of even length.
pub fn corners(list: &[i32]) -> Vec<Corner> {
    let corner = |xy: &[i32]| Corner::at(i64::from(xy[0]), i64::from(xy[1]));
    list.chunks_exact(2).map(corner).collect()
}

pub fn judge(drawing: &[Corner]) -> Judged {
    if !drawing.iter().all(in_range) {
        Judged::OutOfRange
    } else if !simple(drawing) {
        Judged::NotSimple
    } else if doubled_area(drawing) <= 0 {
        Judged::NotAnticlockwise
    } else {
        Judged::Sound
    }
}

pub fn in_range(corner: &Corner) -> bool {
    corner.x.abs() <= FARTHEST && corner.y.abs() <= FARTHEST
}

/// The number of the corner after i, round the drawing.
pub fn after(n: usize, i: usize) -> usize {
    if i + 1 == n {
        0
    } else {
        i + 1
    }
}

/// The number of the corner before i, round the drawing.
fn before(n: usize, i: usize) -> usize {
    if i == 0 {
        n - 1
    } else {
        i - 1
    }
}

/// Every side has two different ends, neighbouring sides share only their common corner, other
/// sides share no point.
fn simple(drawing: &[Corner]) -> bool {
    let n = drawing.len();
    (0..n).all(|i| drawing[i] != drawing[after(n, i)])
        && (0..n).all(|i| (i + 1..n).all(|j| sides_agree(drawing, i, j)))
}

/// Whether sides i < j share no more than a simple drawing lets them.
fn sides_agree(drawing: &[Corner], i: usize, j: usize) -> bool {
    let n = drawing.len();
    let (a, b) = (drawing[i], drawing[after(n, i)]);
    let (c, d) = (drawing[j], drawing[after(n, j)]);
    if after(n, i) == j {
        share_only(b, a, d)
    } else if after(n, j) == i {
        share_only(a, b, c)
    } else {
        !share_a_point(a, b, c, d)
    }
}

/// The sum of x_i*y_(i+1) - x_(i+1)*y_i over all sides.
pub fn doubled_area(drawing: &[Corner]) -> i128 {
    let n = drawing.len();
    let term = |i: usize| {
        let (a, b) = (drawing[i], drawing[after(n, i)]);
        i128::from(a.x) * i128::from(b.y) - i128::from(b.x) * i128::from(a.y)
    };
    (0..n).map(term).sum()
}

/// 01, "Sight": Turn(a,b,c) = (bx-ax)(cy-ay) - (by-ay)(cx-ax).
pub fn turn(a: Corner, b: Corner, c: Corner) -> i64 {
    (b.x - a.x) * (c.y - a.y) - (b.y - a.y) * (c.x - a.x)
}

/// Whether the segments ab and cd share a point. 01 defines this by whole p, q, r; the quick test
/// asks that neither segment lies strictly on one side of the other's line, and that their
/// extents meet, which decides between segments of one line and for segments of one point.
pub fn share_a_point(a: Corner, b: Corner, c: Corner, d: Corner) -> bool {
    straddles(a, b, c, d) && straddles(c, d, a, b) && extents_meet(a, b, c, d)
}

/// Whether c and d do not lie strictly on one side of the line ab.
fn straddles(a: Corner, b: Corner, c: Corner, d: Corner) -> bool {
    turn(a, b, c).signum() * turn(a, b, d).signum() <= 0
}

fn extents_meet(a: Corner, b: Corner, c: Corner, d: Corner) -> bool {
    a.x.min(b.x) <= c.x.max(d.x)
        && c.x.min(d.x) <= a.x.max(b.x)
        && a.y.min(b.y) <= c.y.max(d.y)
        && c.y.min(d.y) <= a.y.max(b.y)
}

/// Whether the segments from `common` to a and to b share only that end: they share more exactly
/// when they run the same way. A segment of one point runs no way (the product is zero).
pub fn share_only(common: Corner, a: Corner, b: Corner) -> bool {
    let along = (a.x - common.x) * (b.x - common.x) + (a.y - common.y) * (b.y - common.y);
    turn(common, a, b) != 0 || along <= 0
}

/// 01, "Sight", of a drawing in range. The angles need fewer products than the sides and are asked
/// first.
pub fn sees(drawing: &[Corner], i: usize, j: usize) -> bool {
    let n = drawing.len();
    if i == j || after(n, i) == j || after(n, j) == i {
        return true;
    }
    inside_angle(drawing, i, j)
        && inside_angle(drawing, j, i)
        && (0..n).all(|k| side_leaves_clear(drawing, k, i, j))
}

/// Whether j lies inside the angle at i.
fn inside_angle(drawing: &[Corner], i: usize, j: usize) -> bool {
    let n = drawing.len();
    let (p, q) = (drawing[before(n, i)], drawing[after(n, i)]);
    let (i, j) = (drawing[i], drawing[j]);
    if turn(p, i, q) > 0 {
        turn(i, q, j) > 0 && turn(i, j, p) > 0
    } else {
        !(turn(i, p, j) >= 0 && turn(i, j, q) >= 0)
    }
}

/// Whether the segment ij, no side, shares no point with side k, or only the corner at which
/// side k ends.
fn side_leaves_clear(drawing: &[Corner], k: usize, i: usize, j: usize) -> bool {
    let next = after(drawing.len(), k);
    let (a, b) = (drawing[k], drawing[next]);
    if k == i || k == j {
        share_only(a, b, drawing[i + j - k])
    } else if next == i || next == j {
        share_only(b, a, drawing[i + j - next])
    } else {
        !share_a_point(drawing[i], drawing[j], a, b)
    }
}
