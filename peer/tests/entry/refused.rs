//! Inputs that cannot be taken: the line and the reason.

use crate::{refused, svg, Wishes, PLAIN, POLYGON};
use peer::drawing::{FEWEST_CORNERS, MOST_CORNERS};

/// The reason for an element on line 2 of a file with a sound drawing beside it.
fn element(element: &str) -> String {
    refused(&svg(&format!("{element}\n{POLYGON}")), PLAIN)
}

#[test]
fn paths_that_are_no_closed_outlines_of_lines() {
    for (d, reason) in [
        ("", "line 2: the path is not closed: it does not end with Z"),
        ("M0 0 L4 0\n0 -3", "line 3: the path is not closed: it does not end with Z"),
        ("M0 0 4 0 0 -3 0 0", "line 2: the path is not closed: it does not end with Z"),
        (
            "M0 0 L4 0\n\nC 1 1 2 2 3 3 Z",
            "line 4: a curve (C): only straight lines can be taken, so flatten it",
        ),
        (
            "M0 0 4 0 a1 1 0 0 0 3 3z",
            "line 2: a curve (a): only straight lines can be taken, so flatten it",
        ),
        (
            "M0 0 4 0 0-3z\nM9 9 8 8 9 8z",
            "line 3: a path goes on after Z: each drawing is an element of its own",
        ),
        (
            "M0 0 4 0 M0-3z",
            "line 2: a path begins again with M: each drawing is an element of its own",
        ),
        ("L0 0 4 0 0-3z", "line 2: a path begins with M, not with L"),
        ("z", "line 2: a path begins with M, not with z"),
        ("0 0 4 0 0-3z", "line 2: '0' is no command of a path"),
        ("M0 0 4 0 X 0-3z", "line 2: 'X' is no command of a path"),
        ("M0 0 4px 0 0-3z", "line 2: '4px' has a unit: plain numbers only"),
        ("M0 0 4 Z", "line 2: a y is missing before 'Z'"),
        ("M0 0 L Z", "line 2: 'Z' is no number"),
        ("M0 0,, 4 0z", "line 2: no number follows the comma"),
        ("M,0 0 4 0z", "line 2: ',0' is no number"),
        ("M0 0 4 0, z", "line 2: no number follows the comma"),
        ("M0 0 4 0 0 - 3z", "line 2: '-' is no number"),
        ("M0 0 4 0 0 &#45;3z", "line 2: a y is missing before '&#45;3z'"),
    ] {
        let found = element(&format!("<path d=\"{d}\"/>"));
        assert_eq!(found, reason, "{d}");
    }
}

#[test]
fn points_that_are_no_list() {
    for (points, reason) in [
        ("0 0 4 0 0", "line 2: an x without its y"),
        ("0 0\n4 0\n0 three", "line 4: a y is missing before 'three'"),
        ("0 0\n4mm 0 0 3", "line 3: '4mm' has a unit: plain numbers only"),
        ("0 0 50% 0 0 3", "line 2: '50%' has a unit: plain numbers only"),
        ("0 0 4 0 0 3 Z", "line 2: 'Z' is no number"),
        ("0 0 4 0 0 3,", "line 2: no number follows the comma"),
        ("0 0 4 0 0 1.", "line 2: '1.' is no number"),
        ("0 0 4 0 0 ..5", "line 2: '..5' is no number"),
        ("0 0 4 0 0 NaN", "line 2: a y is missing before 'NaN'"),
        ("0 0 4 0 0 3;", "line 2: ';' is no number"),
        ("0 0 4 0 0 2147483648", "line 2: '2147483648' is too large"),
        ("0 0 4 0 0 1e99999999999999999999", "line 2: '1e999999999999999999...' is too large"),
        ("0 0 4 0 0 1e-21", "line 2: '1e-21' has more than 20 decimals"),
    ] {
        let found = element(&format!("<polygon points=\"{points}\"/>"));
        assert_eq!(found, reason, "{points}");
    }
}

#[test]
fn drawings_that_are_moved() {
    let triangle = "points='0 0 4 0 0 -3'";
    for (element, reason) in [
        (
            format!("<polygon {triangle}\n transform='scale(2)'/>"),
            "line 3: a transform (of polygon)",
        ),
        (format!("<g transform=''>\n<polygon {triangle}/></g>"), "line 2: a transform (of g)"),
        (
            format!("<g style='fill:red;Rotate : 3deg'><polygon {triangle}/></g>"),
            "line 2: a style that may move",
        ),
        (
            format!("<style>\npolygon{{fill:red;transform:none}}</style><polygon {triangle}/>"),
            "line 2: a style that may move",
        ),
        (
            format!("<polygon {triangle}><animateTransform/></polygon>"),
            "line 2: an animation (animateTransform)",
        ),
        (
            format!("<defs>\n<polygon {triangle}/></defs>"),
            "line 3: a polygon within defs cannot be taken",
        ),
        (
            format!("<g><svg>\n<g><polygon {triangle}/></g></svg></g>"),
            "line 3: a polygon within svg cannot be taken",
        ),
        (format!("<svg:polygon {triangle}/>"), "line 2: the prefix of svg:polygon cannot be taken"),
    ] {
        let found = super::refused(&svg(&format!("{element}{POLYGON}")), PLAIN);
        assert!(found.starts_with(reason), "{element}: {found}");
    }
    let root = svg(&POLYGON.repeat(2)).replace("xmlns", "transform='none' xmlns");
    assert!(refused(&root, PLAIN).starts_with("line 1: a transform (of svg)"));
}

#[test]
fn fewer_or_more_than_two_drawings() {
    for (elements, reason) in [
        ("<rect/>", "line 1: no drawing: there is no polygon and no path"),
        ("\n<path d='M0 0 4 0 0-3z'/>", "line 3: one drawing only: there must be two"),
        (
            &format!("{POLYGON}\n{POLYGON}\n{POLYGON}"),
            "line 4: a third drawing (polygon): there must be two",
        ),
        ("<polygon/>", "line 2: a polygon without points"),
        ("<path/>", "line 2: a path without d"),
    ] {
        let found = refused(&svg(elements), PLAIN);
        assert!(found.starts_with(reason), "{elements}: {found}");
    }
}

#[test]
fn files_that_are_no_svg() {
    let two = POLYGON.repeat(2);
    for (input, reason) in [
        ("<html>\n</html>", "line 1: the outermost element is html, not svg"),
        ("<svg>\n<g>", "line 2: <g is not closed"),
        ("<svg>\n<g></svg>", "line 2: </svg> closes nothing that is open"),
        ("<svg/>\n</svg>", "line 2: </svg> closes nothing that is open"),
        ("<svg/>\n<svg/>", "line 2: <svg stands after the end of the svg element"),
        ("<svg/>\nmore", "line 2: text outside the svg element"),
        ("<svg>\n<polygon points='0 0", "line 2: the value of points does not end"),
        ("<svg>\n<polygon points='0 0\n<g/>'/></svg>", "line 2: the value of points does not end"),
        ("<svg>\n<polygon points=0/></svg>", "line 2: the value of points has no quotes"),
        ("<svg>\n<polygon\npoints/></svg>", "line 3: the attribute points has no value"),
        (
            "<svg>\n<polygon id='a'id='b'/></svg>",
            "line 2: 'id='b'/></svg>' in the tag <polygon is misplaced",
        ),
        ("<svg>\n<polygon id='a'\nid='b'/></svg>", "line 3: <polygon has the attribute id twice"),
        ("<svg>\n<polygon ='a'/></svg>", "line 2: '='a'/></svg>' is no attribute"),
        ("<svg>\n<polygon ", "line 2: the tag <polygon does not end"),
        ("<svg>\n</svg", "line 2: the tag </svg does not end"),
        ("<svg>\n< svg/></svg>", "line 2: a < that begins no tag"),
        ("<svg>\n<!-- a comment", "line 2: a comment does not end"),
        ("<svg>\n<![CDATA[", "line 2: a CDATA section does not end"),
        ("<?xml", "line 1: an instruction does not end"),
        (
            "\n<!DOCTYPE svg [ <!ENTITY a '1'> ]>",
            "line 2: a document type with declarations of its own",
        ),
        ("\n<?xml-stylesheet href='a.css'?><svg/>", "line 2: a style sheet of its own file"),
        ("<svg><style>\n@import 'a.css'</style></svg>", "line 1: a style that may move drawings"),
        ("<!DOCTYPE svg", "line 1: a declaration does not end"),
    ] {
        let found = refused(input, PLAIN);
        assert!(found.starts_with(reason), "{input}: {found}");
    }
    assert!(refused(&format!("<svg>{two}"), PLAIN).starts_with("line 1: <svg is not closed"));
}

#[test]
fn texts_that_are_no_coordinates() {
    for (input, reason) in [
        ("", "line 1: no drawing: the input is empty"),
        (" \n\n", "line 1: no drawing: the input is empty"),
        (
            "0 0\n4 0\n0 3\n",
            "line 1: one drawing only: there must be two, an empty line between them",
        ),
        ("0 0\n\n4 0\n\n\n0 3\n", "line 6: a third drawing: there must be two"),
        ("0 0\n4\n", "line 2: an x without its y"),
        ("0 0\n4 0 0\n", "line 2: more than x and y in a line"),
        ("0 0\n4,0\n", "line 2: '4' is no number"),
        ("0 0\n4 0mm\n", "line 2: '0mm' has a unit: plain numbers only"),
        ("0 0\n4 0x10\n", "line 2: '0x10' is no number"),
        ("first pose\n0 0\n", "line 1: 'first' is no number"),
        ("0 0\n4 \u{2212}3\n", "line 2: '\u{2212}3' is no number"),
        (
            "1004000000000000000004000000000004000004000000000004\n",
            "line 1: a frame already: hand it to desk itself, or to desk tell or show",
        ),
    ] {
        assert_eq!(refused(input, PLAIN), reason, "{input}");
    }
    let other = peer::entry::enter(b"0 0\n4 0\n\xff\n", PLAIN);
    assert_eq!(other.unwrap_err(), "line 3: this is no text in UTF-8");
}

/// A drawing of so many corners on a parabola.
fn bowl(n: usize) -> String {
    (0..n).map(|k| format!("{k} {}\n", k * k)).collect()
}

#[test]
fn drawings_of_other_counts() {
    let (few, many) = (FEWEST_CORNERS - 1, MOST_CORNERS + 1);
    let allowed = format!("corners: {FEWEST_CORNERS} to {MOST_CORNERS} can be taken");
    for (first, second, reason) in [
        (few, few, format!("line 1: the first drawing has {few} {allowed}")),
        (3, many, format!("line 5: the second drawing has {many} {allowed}")),
        (
            3,
            4,
            "line 5: the first drawing has 3 corners and the second 4: both need equally many"
                .into(),
        ),
    ] {
        assert_eq!(refused(&format!("{}\n{}", bowl(first), bowl(second)), PLAIN), reason);
    }
}

#[test]
fn corners_out_of_range() {
    let far = "is out of range: beyond 1,000,000";
    let second = format!("{}\n0 0\n1000001 0\n0 3\n", bowl(3));
    assert_eq!(refused(&second, PLAIN), format!("line 6: corner 1 of the second drawing {far}"));
    let first = format!("0 -1000000.6\n4 0\n0 3\n\n{}", bowl(3));
    assert_eq!(refused(&first, PLAIN), format!("line 1: corner 0 of the first drawing {far}"));
    let scaled = refused(&format!("{0}\n{0}", bowl(3)), Wishes { scale: 1_000_000, ..PLAIN });
    assert_eq!(scaled, format!("line 3: corner 2 of the first drawing {far}"));
}

#[test]
fn corners_in_one_place() {
    let finer = "--scale makes it finer";
    for (first, reason) in [
        (
            "0 0\n4 0\n4 0\n0 3\n",
            "line 3: corner 2 of the first drawing is where corner 1 is".into(),
        ),
        (
            "0 0\n4 0\n0 3\n0 0\n0 0\n",
            "line 4: corner 3 of the first drawing is where corner 0 is".into(),
        ),
        (
            "0 0\n4 0\n4 3\n4.1 0\n",
            format!(
                "line 4: corner 3 of the first drawing is rounded to where corner 1 is: {finer}"
            ),
        ),
    ] {
        assert_eq!(refused(&format!("{first}\n{}", bowl(4)), PLAIN), reason);
    }
}
