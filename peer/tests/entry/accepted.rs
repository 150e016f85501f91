//! Drawings that are taken, as they are written.

use crate::{entered, pair, svg, Wishes, PLAIN, POLYGON, TRIANGLE};
use peer::drawing::MOST_CORNERS;

/// The frames of an element beside the triangle, without a remark.
fn assert_triangle(element: &str) {
    let found = entered(&svg(&format!("{element}\n{POLYGON}")), PLAIN);
    assert_eq!(found.frames, pair(&TRIANGLE, &TRIANGLE), "{element}");
    assert!(found.remarks.is_empty(), "{element}: {:?}", found.remarks);
}

#[test]
fn polygons() {
    assert_triangle("<polygon points='0 0 4 0 0 -3'/>");
    assert_triangle("<polygon id=\"a\"\n  points=\"\n0,0\t4 , 0\n  0,-3 \"\n></polygon >");
    assert_triangle("<polygon points='0-0+4-0-0-3'/>");
    assert_triangle("<polygon points='0.0.0 4e0.0 .0 -.3e1'/>");
    assert_triangle("<polygon points='0,0 400E-2,00 0,-3.000000000000000000000000'/>");
}

#[test]
fn paths_of_straight_lines() {
    assert_triangle("<path d='M 0 0 L 4 0 L 0 -3 Z'/>");
    assert_triangle("<path d='M0,0 4,0 0,-3z'/>");
    assert_triangle("<path d=' m 0 0 l 4 0 l -4 -3 z '/>");
    assert_triangle("<path d='m0 0 4 0-4-3z'/>");
    assert_triangle("<path d='M0 0H4L0-3Z'/>");
    assert_triangle("<path d='M0 0h4l-4,-3Z'/>");
}

#[test]
fn horizontal_and_vertical_lines() {
    let square = [0, 0, 4, 0, 4, 4, 0, 4];
    for d in ["M0 0H4V-4H0Z", "m0 0h4v-4h-4z", "M0 0 h 4 V-4 h-4 z", "M0,0 H 4 L4-4 h-4 Z"] {
        let path = format!("<path d=\"{d}\"/>");
        let found = entered(&svg(&format!("{path}{path}")), PLAIN);
        assert_eq!(found.frames, pair(&square, &square), "{d}");
    }
    let stairs = "<path d='M0 0 H 1 3 V -1 -3 h-1-2 z'/>";
    let corners = [0, 0, 1, 0, 3, 0, 3, 1, 3, 3, 2, 3, 0, 3];
    let found = entered(&svg(&format!("{stairs}{stairs}")), PLAIN);
    assert_eq!(found.frames, pair(&corners, &corners));
}

#[test]
fn groups_comments_and_instructions() {
    assert_triangle(
        "<g id='pose'><g style='fill:red; stroke:none'><polygon points='0 0 4 0 0 -3'/></g></g>",
    );
    assert_triangle(
        "<!-- <path d='C'/> > -->\n<polygon points='0 0 4 0 0 -3'><title>a > b</title></polygon>",
    );
    assert_triangle("<style><![CDATA[ .a:hover { text-transform: none } ]]></style>\n<polygon points='0 0 4 0 0 -3'/>");
    let head = "<?xml version=\"1.0\"?>\n<!DOCTYPE svg PUBLIC \"-//W3C//DTD SVG 1.1//EN\" \"svg11.dtd\">\n";
    let input = format!("\u{feff}{head}{}<!-- end -->\n", svg(&POLYGON.repeat(2)));
    assert_eq!(entered(&input, PLAIN).frames, pair(&TRIANGLE, &TRIANGLE));
}

#[test]
fn what_is_not_read_is_said() {
    let others = "<rect width='9' height='9'/><text>a</text><rect width='1' height='1'/>";
    let found = entered(&svg(&format!("{others}{POLYGON}{POLYGON}")), PLAIN);
    assert_eq!(found.frames, pair(&TRIANGLE, &TRIANGLE));
    assert_eq!(found.remarks, ["not read: rect, text (only polygon and path are)"]);
}

#[test]
fn coordinates() {
    for input in [
        "0 0\n4 0\n0 3\n\n0 0\n4 0\n0 3\n",
        "0 0\r\n4\t0\r\n 0 3 \r\n\r\n0 0\r\n4 0\r\n0 3",
        "\n\n0 0\n+4 -0\n0e9 .3e1\n \n\n0 0\n4 0\n0 3\n\n",
        "\u{feff}0 0\n4 0\n0 3\n\n0 0\n4 0\n0 3\n",
    ] {
        let found = entered(input, PLAIN);
        assert_eq!(found.frames, pair(&TRIANGLE, &TRIANGLE), "{input}");
        assert!(found.remarks.is_empty(), "{:?}", found.remarks);
    }
}

#[test]
fn a_last_point_that_repeats_the_first_is_left_out() {
    let path = "<path d='M 0 0 L 4 0\nL 0 -3\nL 0 0 Z'/>";
    let polygon = "<polygon points='0,0 4,0 0,-3 0.0,0'/>";
    let found = entered(&svg(&format!("{path}\n{polygon}")), PLAIN);
    assert_eq!(found.frames, pair(&TRIANGLE, &TRIANGLE));
    assert_eq!(
        found.remarks,
        [
            "line 4: the last point of the first drawing repeats the first: left out",
            "line 5: the last point of the second drawing repeats the first: left out",
        ]
    );
}

#[test]
fn rounding_is_told() {
    let first = "0 0\n4.5 -0.5\n0.25 3\n";
    let second = "0 0\n4 0\n0 3\n";
    let input = format!("{first}\n{second}");
    let found = entered(&input, PLAIN);
    assert_eq!(found.frames, pair(&[0, 0, 5, 0, 0, 3], &TRIANGLE));
    let words = "rounded: 3 of 12 coordinates, by up to 0.5, the first on line 2; \
                 --scale makes the grid finer";
    assert_eq!(found.remarks, [words]);
    let finer = entered(&input, Wishes { scale: 4, ..PLAIN });
    assert_eq!(finer.frames, pair(&[0, 0, 18, -2, 1, 12], &[0, 0, 16, 0, 0, 12]));
    assert!(finer.remarks.is_empty());
}

/// A half goes up, also below zero and after y was turned: what is moved by whole units is rounded alike.
#[test]
fn halves_go_up() {
    let found = entered(&svg(&"<polygon points='-1.5 1.5 4.5 0 .5 -3.5'/>".repeat(2)), PLAIN);
    assert_eq!(found.frames, pair(&[-1, -1, 5, 0, 1, 4], &[-1, -1, 5, 0, 1, 4]));
}

/// Steps are added before they are rounded.
#[test]
fn relative_steps_are_exact() {
    let steps = "<path d='m0 0 h.1 .1 .1 .1 .1 .1 .1 .1 .1 .1 v-1 z'/>";
    let found = entered(&svg(&steps.repeat(2)), Wishes { scale: 10, ..PLAIN });
    let along = (0..=10).flat_map(|k| [k, 0]);
    let corners: Vec<i32> = along.chain([10, 10]).collect();
    assert_eq!(found.frames, pair(&corners, &corners));
    assert!(found.remarks.is_empty());
}

#[test]
fn the_whole_range() {
    let far = [-1_000_000, -1_000_000, 1_000_000, -1_000_000, 1_000_000, 1_000_000];
    let text = "-1 -1\n1 -1\n1 1\n";
    let found = entered(&format!("{text}\n{text}"), Wishes { scale: 1_000_000, ..PLAIN });
    assert_eq!(found.frames, pair(&far, &far));
}

#[test]
fn the_most_corners() {
    let bowl: Vec<i32> = (0..MOST_CORNERS as i32).flat_map(|k| [k, k * k]).collect();
    let text: String = bowl.chunks(2).map(|c| format!("{} {}\n", c[0], c[1])).collect();
    assert_eq!(entered(&format!("{text}\n{text}"), PLAIN).frames, pair(&bowl, &bowl));
}
