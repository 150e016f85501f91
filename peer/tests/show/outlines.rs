//! The outlines of 01 and others made for the purpose: pieces, lines, marks, numbers and words.

use crate::sheet::{between, count, drawings, hundredths, outline, polygons, segments, values};
use crate::{pair, shown, BACKWARDS, CROSSED, D, E, H, ONE, S, TWO, Z};
use peer::drawing::Corner;
use peer::frames;
use peer::show::{page, words};

#[test]
fn a_square() {
    let page = shown(&S, &S, ONE);
    assert!(page.contains("0: the cutting is given (4 corners, 0 cuts, 1 piece)"));
    assert!(page.contains("A: centre 0, corners 0\u{2013}3"));
    let drawings = drawings(&page);
    assert_eq!(drawings.len(), 2);
    for drawing in drawings {
        assert_eq!(polygons(drawing, "piece"), [outline(drawing)]);
        assert_eq!(between(drawing, "font-size=\"13\">", "<"), ["A", "0", "1", "2", "3"]);
        assert_eq!((count(drawing, "cut"), count(drawing, "wedge")), (0, 1));
        let o = outline(drawing);
        assert_eq!(segments(drawing, "sight"), [[o[0], o[1]], [o[0], o[2]], [o[0], o[3]]]);
        // Anticlockwise from the lower left, on a page whose y runs downwards.
        assert!(o[0].x < o[1].x && o[0].y == o[1].y && o[2].y < o[1].y && o[3].x == o[0].x);
    }
}

/// The wedge at a centre fills the angle of the piece, which may be more than half a turn.
#[test]
fn wedges() {
    for (drawing, arc) in [(&S, "A13 13 0 0 0"), (&D, "A13 13 0 1 0")] {
        for path in values(&shown(drawing, drawing, ONE), "wedge", "d") {
            assert!(path.contains(arc), "{path}");
        }
    }
}

#[test]
fn two_pieces() {
    for (first, second) in [(&Z, &H), (&H, &Z)] {
        let page = shown(first, second, TWO);
        assert!(page.contains("0: the cutting is given (6 corners, 1 cut, 2 pieces)"));
        let fills = drawings(&page).into_iter().map(|drawing| {
            assert_eq!(polygons(drawing, "piece").len(), 2);
            assert_eq!((count(drawing, "number"), count(drawing, "corner")), (6, 6));
            assert_eq!((count(drawing, "wedge"), count(drawing, "centre")), (2, 2));
            let o = outline(drawing);
            assert_eq!(segments(drawing, "cut"), [[o[3], o[5]]]);
            let sight = [[0, 1], [0, 2], [0, 3], [0, 5], [3, 4], [3, 5]];
            assert_eq!(segments(drawing, "sight"), sight.map(|ends| ends.map(|i| o[i])));
            values(drawing, "piece", "fill")
        });
        let fills: Vec<_> = fills.collect();
        assert_eq!(fills[0], fills[1], "the same colours in both");
        assert_ne!(fills[0][0], fills[0][1]);
    }
}

/// 02, K3: the rectangle is one piece, whose centre sees 2 and 3 along a side, by 1 and 2. Such lines
/// are drawn apart, with a dot on each corner that they touch, and the key says what they are.
#[test]
fn lines_that_touch_a_corner() {
    let rectangle = [0, 0, 1, 0, 2, 0, 3, 0, 3, 3, 2, 3, 1, 3, 0, 3];
    let page = shown(&rectangle, &rectangle, "A00108000001020304050607\n");
    assert_eq!(page.matches(KEY_OF_GRAZING).count(), 1);
    for drawing in drawings(&page) {
        let o = outline(drawing);
        assert_eq!(segments(drawing, "grazing"), [[o[0], o[2]], [o[0], o[3]]]);
        assert_eq!(segments(drawing, "sight"), [1, 4, 5, 6, 7].map(|i| [o[0], o[i]]));
        let dots = ["cx", "cy"].map(|name| {
            values(drawing, "touched", name).into_iter().map(hundredths).collect::<Vec<_>>()
        });
        assert_eq!(dots, [[o[1].x, o[2].x], [o[1].y, o[2].y]]);
    }
    // In one drawing of a pair alone: the other has no corner on the line.
    let bent = [0, 0, 1, -1, 2, -1, 3, 0, 3, 3, 2, 4, 1, 4, 0, 3];
    let page = shown(&bent, &rectangle, "A00108000001020304050607\n");
    let touching = drawings(&page).into_iter().map(|drawing| segments(drawing, "grazing").len());
    assert_eq!(touching.collect::<Vec<_>>(), [0, 2]);
    assert_eq!(page.matches(KEY_OF_GRAZING).count(), 1);
    // A program may say that a corner is a centre which sees less: that is drawn as it is said.
    let page = shown(&Z, &Z, "A0010601000102030405\n");
    assert!(!page.contains("grazing") && !page.contains("touched"));
}

const KEY_OF_GRAZING: &str =
    ">a line of sight that touches the corner with the dot: no cut may follow it<";

/// Nothing of them is on a page without such a line, the style neither.
#[test]
fn no_lines_that_touch_a_corner() {
    let pages = [
        shown(&S, &S, ONE),
        shown(&Z, &H, TWO),
        shown(&D, &E, "E009\n"),
        shown(&CROSSED, &CROSSED, ONE),
        shown(&CROSSED, &CROSSED, "E009\n"),
    ];
    for page in pages {
        assert!(!page.contains("grazing") && !page.contains("touched"));
    }
}

/// The answer shown is the program's, whatever the peer would say.
#[test]
fn another_answer() {
    let page = shown(&S, &S, "A00203000001020300000203\n");
    assert!(page.contains("(4 corners, 1 cut, 2 pieces)"));
    for drawing in [&S[..], &Z] {
        let refused = shown(drawing, drawing, "E004\n");
        assert!(refused.contains("4: the first drawing is not simple"));
        assert_eq!((count(&refused, "piece"), count(&refused, "mark")), (0, 0));
    }
    let unsound = shown(&CROSSED, &S, ONE);
    assert_eq!(count(&unsound, "piece"), 2);
}

#[test]
fn lines_that_one_drawing_sees() {
    let page = shown(&D, &E, "E009\n");
    assert!(page.contains("9: no valid cutting exists"));
    assert!(page.contains("Drawn in the first: 1 line that it sees and the other does not."));
    assert!(page.contains("Drawn in the second: 1 line that it sees and the other does not."));
    for (drawing, [i, j]) in drawings(&page).into_iter().zip([[0, 2], [1, 3]]) {
        let o = outline(drawing);
        assert_eq!(segments(drawing, "seen"), [[o[i], o[j]]]);
        assert_eq!((count(drawing, "number"), count(drawing, "piece")), (4, 0));
    }
}

/// A line that only a centre sees, and in one drawing only, is drawn apart. The first drawing has 1
/// on the line from 0 to 2; the second has it as a notch.
#[test]
fn lines_that_only_centres_of_one_drawing_see() {
    let first = [0, 0, 2, 0, 4, 0, 4, 4, 0, 4];
    let second = [0, 0, 2, 1, 4, 0, 4, 4, 0, 4];
    let page = shown(&first, &second, "E009\n");
    assert!(page.contains("Drawn in the second: 0 lines that it sees and the other does not."));
    let told: Vec<&str> = between(&page, "<desc id=\"told\">", "<");
    assert!(told[0].contains(
        "Drawn in the first: 0 lines that it sees and the other does not; dashed, 1 line that \
         touches a third corner, which only its centres see."
    ));
    let [one, two] = [drawings(&page)[0], drawings(&page)[1]];
    let o = outline(one);
    assert_eq!(segments(one, "grazing"), [[o[0], o[2]]]);
    assert_eq!((count(one, "touched"), count(two, "grazing"), count(two, "touched")), (1, 0, 0));
    assert!(page.contains(KEY_OF_GRAZING));
}

/// The marks of a class in the first and in the second drawing.
fn marked(page: &str, class: &str) -> Vec<usize> {
    assert_eq!(count(page, "piece"), 0);
    drawings(page).into_iter().map(|drawing| count(drawing, class)).collect()
}

#[test]
fn refused_outlines() {
    let page = shown(&CROSSED, &S, "E004\n");
    assert!(page.contains("4: the first drawing is not simple"));
    assert!(page.contains("Sides of the first drawing that meet: 0\u{2013}1 and 2\u{2013}3."));
    assert_eq!(marked(&page, "mark"), [1, 0]);
    let o = outline(drawings(&page)[0]);
    let middle = Corner { x: (o[0].x + o[1].x) / 2, y: (o[0].y + o[1].y) / 2 };
    let ring = ["cx", "cy"].map(|name| hundredths(values(&page, "mark", name)[0]));
    assert_eq!(ring, [middle.x, middle.y]);

    let page = shown(&BACKWARDS, &S, "E005\n");
    assert!(page.contains("5: the first drawing does not run anticlockwise"));
    assert_eq!(marked(&page, "arrow"), [4, 0]);
    let page = shown(&S, &BACKWARDS, "E008\n");
    assert!(page.contains("8: the second drawing does not run anticlockwise"));
    assert_eq!(marked(&page, "arrow"), [0, 4]);

    let beyond = [0, 0, 1_000_001, 0, 0, 4];
    let page = shown(&beyond, &[0, 0, 1, 0, 0, 4], "E003\n");
    assert!(page.contains("3: the first drawing has a coordinate out of range"));
    assert!(page.contains("corner 1 at (1,000,001; 0)"));
    assert!(page.contains("times as high"));
    assert_eq!(marked(&page, "mark"), [1, 0]);

    let page = shown(&S, &Z, "E001\n");
    assert!(page.contains(words::line(1)));
    assert_eq!(marked(&page, "number"), [4, 6]);
}

/// All ways in which sides meet that should not: a side of one point, a side that runs back on
/// its neighbour, sides of one line, a corner on a side, a corner entered twice.
#[test]
fn where_sides_meet() {
    let meet = |drawing: &[i32]| {
        let page = shown(drawing, &vec![0; drawing.len()], "E004\n");
        assert!(count(drawings(&page)[0], "mark") > 0, "{drawing:?}");
        page
    };
    let page = meet(&[0, 0, 2, 0, 4, 0]);
    assert!(page.contains("0\u{2013}1 and 2\u{2013}0, 1\u{2013}2 and 2\u{2013}0."));
    meet(&[0, 0, 4, 0, 4, 4, 4, 0]);
    meet(&[0, 0, 0, 0, 4, 4]);
    meet(&[0, 0, 6, 0, 6, 6, 3, 0, 0, 6]);
    meet(&[0, 0, 9, 0, 9, 3, 6, 0, 3, 0, 0, 3]);
    meet(&[0, 0, 0, 0, 0, 0, 0, 0]);
    let page = meet(&[5; 128]);
    assert!(page.contains("0\u{2013}1 and 3\u{2013}4, 2,013 pairs more."));
    assert_eq!(count(drawings(&page)[0], "mark"), 64);
}

/// A drawing looks the same at 4 units and at a million.
#[test]
fn the_same_at_every_size() {
    let look = |times: i32| {
        let scaled: Vec<i32> = Z.iter().map(|number| number * times).collect();
        let page = shown(&scaled, &H, TWO);
        drawings(&page)[0].to_string()
    };
    for times in [40, 400, 4_000, 100_000] {
        assert_eq!(look(1), look(times));
    }
}

/// Corners in a circle about the origin, anticlockwise.
fn circle(n: usize, radius: f64) -> Vec<i32> {
    let turn = |i: usize| std::f64::consts::TAU * i as f64 / n as f64;
    let corner = |i: usize| [radius * turn(i).cos(), radius * turn(i).sin()];
    (0..n).flat_map(corner).map(|number| number.round() as i32).collect()
}

/// The numbers' boxes in hundredths: left, right, top, bottom.
fn boxes(drawing: &str) -> Vec<[i64; 4]> {
    let value = |name: &str| -> Vec<i64> {
        values(drawing, "number", name).into_iter().map(hundredths).collect()
    };
    let (x, y, size) = (value("x"), value("y"), value("font-size"));
    let digits = |i: usize| i.to_string().len() as i64;
    let half = |i: usize| 30 * size[i] * digits(i) / 100;
    let sized = |i: usize| [x[i] - half(i), x[i] + half(i), y[i] - 70 * size[i] / 100, y[i]];
    (0..x.len()).map(sized).collect()
}

/// Numbers stand clear of each other, of the outline and of the page's edge, from 3 corners to 64.
#[test]
fn numbers_that_can_be_read() {
    for n in 3..=64 {
        let radii = if n % 20 == 4 { vec![200.0, 2_000.0, 1_000_000.0] } else { vec![200.0] };
        for radius in radii {
            let list = circle(n, radius);
            let page = page(&pair(&list, &list), Some(&frames::run(&pair(&list, &list))));
            let drawing = drawings(&page)[0];
            let (boxes, outline) = (boxes(drawing), outline(drawing));
            assert_eq!(boxes.len(), n);
            for (i, &[left, right, top, bottom]) in boxes.iter().enumerate() {
                assert!(left > 0 && right < 64_000 && top > 0);
                let apart = |other: &[i64; 4]| {
                    other[1] < left || right < other[0] || other[3] < top || bottom < other[2]
                };
                assert!(boxes[i + 1..].iter().all(apart), "{n} corners, number {i}");
                // The outline is convex: a box clear of it has a side of it, or an edge of its
                // own, between them.
                let ends = [(left, top), (left, bottom), (right, top), (right, bottom)];
                let outside = |k: usize| {
                    let (a, b) = (outline[k], outline[(k + 1) % n]);
                    let turn =
                        |(x, y): (i64, i64)| (b.x - a.x) * (y - a.y) - (b.y - a.y) * (x - a.x);
                    ends.into_iter().all(|end| turn(end) > 0)
                };
                let beside = outline.iter().all(|c| c.x < left)
                    || outline.iter().all(|c| c.x > right)
                    || outline.iter().all(|c| c.y < top)
                    || outline.iter().all(|c| c.y > bottom);
                assert!(beside || (0..n).any(outside), "{n} corners, number {i} on the outline");
            }
        }
    }
}
