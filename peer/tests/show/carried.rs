//! A mark on the page: drawn where the lines say that it lands, whether that is right or not.

use crate::sheet::{assert_sound, count, drawings, outline, polygons};
use crate::{pair, H, ONE, S, TWO, Z};
use peer::drawing::Corner;
use peer::marks::Mark;
use peer::show::{page, page_with_mark, words};

/// The page of Z with H, and of a mark with the line about it.
fn shown(mark: [i32; 2], landing: &str) -> String {
    let mark = Mark { x: mark[0], y: mark[1] };
    let page = page_with_mark(&pair(&Z, &H), Some(TWO.as_bytes()), mark, landing.as_bytes());
    assert_sound(&page);
    page
}

/// A line with a place: for x and for y a step and a rest.
fn place(x: (i32, f64), y: (i32, f64)) -> String {
    format!("0 {} {} {} {}\n", x.0, x.1.to_bits(), y.0, y.1.to_bits())
}

/// The middles of the diamonds in each drawing.
fn diamonds(page: &str) -> Vec<Vec<Corner>> {
    let middle = |points: Vec<Corner>| {
        assert_eq!(points.len(), 4);
        assert_eq!((points[0].x, points[1].y), (points[2].x, points[3].y));
        Corner::at(points[0].x, points[1].y)
    };
    let middles = |drawing| polygons(drawing, "carried").into_iter().map(middle).collect();
    drawings(page).into_iter().map(middles).collect()
}

#[test]
fn a_corner_carried() {
    let page = shown([4, 2], "0 8 0 4 0\n");
    assert!(page.contains("The mark at (4; 2), drawn as a diamond, lands at (8; 4)."));
    let corners = drawings(&page).into_iter().map(|drawing| vec![outline(drawing)[2]]);
    assert_eq!(diamonds(&page), corners.collect::<Vec<_>>());
}

/// The place is drawn between corners 0 and 1 of H, a fourth of the way and three fourths of it, to
/// a hundredth.
#[test]
fn a_place_between_steps() {
    for (x, parts) in [((3, 0.0), [1, 4]), ((5, 0.0), [3, 4]), ((2, 0.5), [1, 8])] {
        let page = shown([1, 0], &place(x, (0, 0.0)));
        let o = outline(drawings(&page)[1]);
        let due = o[0].x + (o[1].x - o[0].x) * parts[0] / parts[1];
        let [diamond] = diamonds(&page)[1][..] else {
            panic!("one diamond");
        };
        assert!((diamond.x - due).abs() <= 1 && diamond.y == o[0].y, "{diamond:?} {due}");
    }
}

#[test]
fn places_in_words() {
    for (line, said) in [
        (place((2, 0.25), (1, 0.5)), "(2.25; 1.5)."),
        (place((-4, 0.6666666666666666), (-1, 0.999)), "(-3.33; 0)."),
        (place((-1, 0.5), (1_234_567, 0.0625)), "(-0.5; 1,234,567.06)."),
    ] {
        assert!(shown([1, 1], &line).contains(&format!("lands at {said}")), "{line}");
    }
}

/// A mark on no piece is drawn if it is near enough to the drawing, and in the first only.
#[test]
fn on_no_piece() {
    let page = shown([0, 4], "0\n");
    assert!(page.contains("The mark at (0; 4) is on no piece."));
    assert_eq!(diamonds(&page).iter().map(Vec::len).collect::<Vec<_>>(), [1, 0]);
    let page = shown([1_000_000, -1_000_000], "0\n");
    assert!(page.contains("The mark at (1,000,000; -1,000,000) is on no piece."));
    assert_eq!(count(&page, "carried"), 0);
}

#[test]
fn lines_that_give_no_place() {
    for (line, said) in [
        ("10\n", words::MARK_OUT_OF_RANGE),
        ("4\n", words::UNFIT_LANDING),
        ("", words::MISSING_LANDING),
        ("\n", "This says nothing of a mark: "),
        ("0 8 0\n", "This says nothing of a mark: 0 8 0"),
        ("0 8 0.5 4 0\n", "This says nothing of a mark: 0 8 0.5 4 0"),
        // The bits of 1, of what is no number, and of -0.5.
        (
            "0 8 4607182418800017408 4 0\n",
            "This says nothing of a mark: 0 8 4607182418800017408 4 0",
        ),
        (
            "0 8 9221120237041090560 4 0\n",
            "This says nothing of a mark: 0 8 9221120237041090560 4 0",
        ),
        (
            "0 8 13826050856027422720 4 0\n",
            "This says nothing of a mark: 0 8 13826050856027422720 4 0",
        ),
        ("?\n", "This says nothing of a mark: ?"),
        ("0 9999999999 0 4 0\n", "This says nothing of a mark: 0 9999999999 0 4 0"),
        ("11\n", "This says nothing of a mark: 11"),
        ("<g>\n", "This says nothing of a mark: &lt;g&gt;"),
    ] {
        let page = shown([4, 2], line);
        assert!(page.contains(said), "{line:?}");
        assert_eq!((count(&page, "carried"), count(&page, "piece")), (0, 4));
    }
}

/// A place that no mark can have is not drawn off the page.
#[test]
fn a_place_far_off() {
    let page = shown([4, 2], &place((2_147_483_647, 0.5), (-2_147_483_648, 0.0)));
    assert_eq!(diamonds(&page).iter().map(Vec::len).collect::<Vec<_>>(), [1, 0]);
}

/// Each pair has its line; one that gets no cutting shows its refusal and no mark.
#[test]
fn a_line_for_each_pair() {
    let input = [pair(&S, &S), pair(&S, &Z), pair(&Z, &H)].concat();
    let answers = [ONE, "E001\n", TWO].concat();
    let mark = Mark { x: 4, y: 2 };
    let landings = b"0 4 0 2 0\n1\n0 8 0 4 0\n";
    let page = page_with_mark(&input, Some(answers.as_bytes()), mark, landings);
    assert_sound(&page);
    let drawn: Vec<usize> =
        drawings(&page).iter().map(|drawing| count(drawing, "carried")).collect();
    assert_eq!(drawn, [1, 1, 0, 0, 1, 1]);
}

/// A page without a mark has no trace of one.
#[test]
fn no_mark() {
    assert!(!page(&pair(&Z, &H), Some(TWO.as_bytes())).contains("carried"));
}
