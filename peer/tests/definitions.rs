//! The quick tests of `drawing`, `centre_sight` and `marks` against the documents' own definitions.

use peer::centre_sight::centre_sees;
use peer::drawing::{judge, sees, share_a_point, share_only, turn, Corner, Judged};
use peer::inside::{in_or_on, Point};
use peer::marks::holds;
use peer::pairs::dice::Dice;
use peer::pairs::shapes::{self, Shape, SHAPES};

fn small_corners() -> Vec<Corner> {
    let corner = |k: i64| Corner::at(k / 3, k % 3);
    (0..9).map(corner).collect()
}

/// The shared points of two segments for whole p, q and a given r, by the definition. On a grid of
/// three by three, what shares a point does so with some r up to 8.
fn shared_points(a: Corner, b: Corner, c: Corner, d: Corner, r: i64) -> Vec<(i64, i64)> {
    let at = |s: Corner, t: Corner, k: i64| (r * s.x + k * (t.x - s.x), r * s.y + k * (t.y - s.y));
    let on_ab = (0..=r).map(|p| at(a, b, p));
    on_ab.filter(|point| (0..=r).any(|q| at(c, d, q) == *point)).collect()
}

#[test]
fn sharing_a_point_is_as_defined() {
    let corners = small_corners();
    for &a in &corners {
        for &b in &corners {
            for &c in &corners {
                for &d in &corners {
                    let defined = (1..=8).any(|r| !shared_points(a, b, c, d, r).is_empty());
                    assert_eq!(share_a_point(a, b, c, d), defined, "{a:?} {b:?} {c:?} {d:?}");
                }
            }
        }
    }
}

#[test]
fn sharing_only_an_end_is_as_defined() {
    let corners = small_corners();
    for &end in &corners {
        for &a in &corners {
            for &b in &corners {
                let other = |r: i64| {
                    let shared = shared_points(end, a, end, b, r);
                    shared.iter().any(|&point| point != (r * end.x, r * end.y))
                };
                assert_eq!(share_only(end, a, b), !(1..=8).any(other), "{end:?} {a:?} {b:?}");
            }
        }
    }
}

/// In a sound drawing two corners that are no neighbours see each other exactly when their segment
/// meets the outline in its two ends alone and its middle is in the drawing.
#[test]
fn sight_is_a_clear_line_inside() {
    let mut dice = Dice::new(3);
    let mut seen = [0, 0];
    for _ in 0..900 {
        let (shape, n) = (dice.pick(&SHAPES), 4 + dice.below(11));
        let drawing = shapes::drawing(&mut dice, shape, n);
        assert_eq!(judge(&drawing), Judged::Sound);
        for i in 0..n {
            for j in (i + 2..n).filter(|j| j - i < n - 1) {
                let (a, b) = (drawing[i], drawing[j]);
                let middle = Point { x: i128::from(a.x + b.x), y: i128::from(a.y + b.y), r: 2 };
                let clear = meets_ends_alone(&drawing, i, j) && in_or_on(&drawing, &middle);
                assert_eq!(sees(&drawing, i, j), clear, "{i} {j} of {drawing:?}");
                assert_eq!(sees(&drawing, j, i), clear);
                seen[usize::from(clear)] += 1;
            }
        }
    }
    assert!(seen[0] > 10_000 && seen[1] > 10_000);
}

/// Points of the plane on a grid of halves, by 01's sentence written out: on a side, or a side passes
/// at the height, which is solved for.
#[test]
fn in_or_on_is_as_defined() {
    let mut dice = Dice::new(17);
    let mut held = [0, 0];
    for _ in 0..300 {
        let (shape, n) = (dice.pick(&[Shape::Grid, Shape::Rectilinear, Shape::Stairs]), 8);
        let drawing = shapes::drawing(&mut dice, shape, n);
        for (x, y) in (-12..=12).flat_map(|x| (-12..=12).map(move |y| (x, y))) {
            let side = |k: usize| (drawing[k], drawing[(k + 1) % n]);
            let on = |k: &usize| {
                let (a, b) = side(*k);
                let [a, b] = [a, b].map(|c| Corner::at(2 * c.x, 2 * c.y));
                share_a_point(a, b, Corner::at(x, y), Corner::at(x, y))
            };
            let passes = |k: &usize| {
                let (a, b) = side(*k);
                let (low, high) = if a.y < b.y { (a, b) } else { (b, a) };
                // At height y/2 the side has this x, over twice its rise.
                let rise = high.y - low.y;
                let at = 2 * low.x * rise + (y - 2 * low.y) * (high.x - low.x);
                2 * high.y > y && 2 * low.y <= y && at > x * rise
            };
            let odd = (0..n).filter(passes).count() % 2 == 1;
            let defined = (0..n).any(|k| on(&k)) || odd;
            let point = Point { x: x.into(), y: y.into(), r: 2 };
            assert_eq!(in_or_on(&drawing, &point), defined, "({x}, {y}) / 2 of {drawing:?}");
            held[usize::from(defined)] += 1;
        }
    }
    assert!(held[0] > 10_000 && held[1] > 10_000, "{held:?}");
}

/// 02, K3: "every point of the segment lies in or on the outline". On a grid of four by four what a
/// segment shares with a side is over 18 at most, and between two such points there is one over 36
/// at most: so these are all points that count.
#[test]
fn a_centre_sees_along_what_is_in_or_on_the_drawing() {
    let mut dice = Dice::new(18);
    let mut kinds = [0; 4];
    for _ in 0..400 {
        let n = 4 + dice.below(6);
        let Some(drawing) = on_small_grid(&mut dice, n) else { continue };
        for (i, j) in (0..n).flat_map(|i| (0..n).map(move |j| (i, j))) {
            let (a, b) = (drawing[i], drawing[j]);
            let at = |a: i64, b: i64, p: i64, r: i64| i128::from(r * a + p * (b - a));
            let point = |p, r| Point { x: at(a.x, b.x, p, r), y: at(a.y, b.y, p, r), r };
            let over = |r: i64| (0..=r).all(|p| in_or_on(&drawing, &point(p, r)));
            let defined = (1..=36).all(over);
            assert_eq!(centre_sees(&drawing, i, j), defined, "{i} {j} of {drawing:?}");
            kinds[usize::from(sees(&drawing, i, j)) + 2 * usize::from(defined)] += 1;
        }
    }
    // What is seen strictly is seen by a centre too.
    assert!(kinds[1] == 0 && [0, 2, 3].iter().all(|&k| kinds[k] > 500), "{kinds:?}");
}

/// A sound drawing with coordinates from 0 to 3, if one is found.
fn on_small_grid(dice: &mut Dice, n: usize) -> Option<Vec<Corner>> {
    (0..200).find_map(|_| {
        let drawing = shapes::drawing(dice, Shape::Grid, n);
        let low = drawing.iter().fold((i64::MAX, i64::MAX), |l, c| (l.0.min(c.x), l.1.min(c.y)));
        let moved: Vec<Corner> =
            drawing.iter().map(|c| Corner::at(c.x - low.0, c.y - low.1)).collect();
        moved.iter().all(|c| c.x <= 3 && c.y <= 3).then_some(moved)
    })
}

/// The corners of the whole range: the longest segments, and stretches between points that hardly
/// differ.
#[test]
fn a_centre_sees_across_the_whole_range() {
    let far = 1_000_000;
    let list = [(-far, -far), (far, 1 - far), (far, far), (far - 1, far - 1), (1 - far, far - 2)];
    let drawing: Vec<Corner> = list.iter().map(|&(x, y)| Corner::at(x, y)).collect();
    assert_eq!(judge(&drawing), Judged::Sound);
    let seen = |i: usize| -> Vec<bool> { (0..5).map(|j| centre_sees(&drawing, i, j)).collect() };
    // 0, 3 and 2 are on one line, and 3 is between them.
    assert_eq!(seen(0), [true; 5]);
    assert!(!sees(&drawing, 0, 2) && sees(&drawing, 0, 3));
    // Beyond 3 the line from 4 leaves the drawing, by less than one step.
    assert_eq!(seen(4), [true, true, false, true, true]);
}

/// A wedge with area holds what 01 has in or on it as a drawing of three corners, whichever way
/// they turn.
#[test]
fn a_wedge_holds_what_is_in_or_on_it() {
    let corners = small_corners();
    let mut held = [0, 0];
    for &c in &corners {
        for &a in &corners {
            for &b in &corners {
                for x in -1..=3 {
                    for y in -1..=3 {
                        let point = Point { x: i128::from(x), y: i128::from(y), r: 1 };
                        let defined = turn(c, a, b) != 0 && in_or_on(&[c, a, b], &point);
                        let holds = holds([c, a, b], Corner::at(x, y));
                        assert_eq!(holds, defined, "({x}, {y}) in {c:?} {a:?} {b:?}");
                        held[usize::from(holds)] += 1;
                    }
                }
            }
        }
    }
    assert!(held[0] > 1_000 && held[1] > 1_000, "{held:?}");
}

fn meets_ends_alone(drawing: &[Corner], i: usize, j: usize) -> bool {
    let n = drawing.len();
    let clear = |k: usize| {
        let ends = [k, (k + 1) % n];
        let (a, b) = (drawing[i], drawing[j]);
        let (c, d) = (drawing[ends[0]], drawing[ends[1]]);
        if ends.contains(&i) || ends.contains(&j) {
            let (common, far) = if ends.contains(&i) { (a, b) } else { (b, a) };
            share_only(common, far, if c == common { d } else { c })
        } else {
            !share_a_point(a, b, c, d)
        }
    };
    (0..n).all(clear)
}
