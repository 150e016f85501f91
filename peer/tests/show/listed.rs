//! Pages of pairs with lists of pieces (02, K4): the pieces of the list are drawn, and what is wrong
//! with them by the verdict that is handed in.

use crate::sheet::{assert_sound, between, count, drawings, outline, polygons, segments, values};
use crate::{pair, CROSSED, D, H, S, Z};
use peer::checker::check;
use peer::desks::Peer;
use peer::frames;
use peer::pairs::dice::Dice;
use peer::pairs::lists::lists;
use peer::pairs::{pair_up_to, Kind};
use peer::show::{page, page_of_lists, verdicts_of, words, MOST_PAIRS};

/// A pair with the line of its list.
fn listed(first: &[i32], second: &[i32], list: &str) -> Vec<u8> {
    [&pair(first, second)[..], list.as_bytes(), b"\n"].concat()
}

/// The page of a pair with its list and of the peer's verdict, which is this line.
fn shown(first: &[i32], second: &[i32], list: &str, verdict: &str) -> String {
    let input = listed(first, second, list);
    assert_eq!(verdicts_of(&Peer, &input), format!("{verdict}\n"));
    let page = page_of_lists(&input, verdict.as_bytes());
    assert_sound(&page);
    page
}

/// A list that is accepted is drawn as an answer is.
#[test]
fn a_cutting() {
    let page_of_list = shown(&Z, &H, "050000010203050303030405", "0");
    assert!(page_of_list.contains("Iravikkon: 1 pair of drawings with its list of pieces"));
    assert!(page_of_list.contains("0: the list is a valid cutting: 2 pieces"));
    let page_of_answer = page(&pair(&Z, &H), Some(&frames::run(&pair(&Z, &H))));
    assert_eq!(drawings(&page_of_list), drawings(&page_of_answer));
    assert!(!page_of_list.contains("pale") && !page_of_list.contains("at fault"));
}

/// An unseen line is marked in the drawings in which it is unseen, and its piece in both.
#[test]
fn an_unseen_line() {
    let list = "03000001030301010203";
    let page = shown(&S, &D, list, "23 0 2");
    assert!(page.contains("Unseen in the second drawing: 1-3."));
    assert!(page.contains(">a piece at fault<") && page.contains(">a line at fault<"));
    assert!(!page.contains("missed corner"));
    let [one, two] = [drawings(&page)[0], drawings(&page)[1]];
    for drawing in [one, two] {
        let o = outline(drawing);
        assert_eq!(polygons(drawing, "piece"), [vec![o[0], o[1], o[3]]]);
        assert_eq!(polygons(drawing, "piece pale"), [vec![o[1], o[2], o[3]]]);
        assert_eq!((count(drawing, "mark"), count(drawing, "missed")), (0, 0));
    }
    let o = outline(two);
    assert!(segments(one, "wrong").is_empty());
    assert_eq!(segments(two, "wrong"), [[o[1], o[3]]]);
    let both = shown(&D, &D, list, "23 0 1");
    assert!(drawings(&both).iter().all(|drawing| segments(drawing, "wrong").len() == 1));
}

/// A centre is drawn with what it sees, and with a ring about what it misses.
#[test]
fn a_missed_corner() {
    let page = shown(&S, &D, "040300010203", "24 0 2");
    assert!(page.contains("Missed from 3 in the second drawing: 1."));
    assert!(page.contains(">a missed corner<") && !page.contains("line at fault"));
    let [one, two] = [drawings(&page)[0], drawings(&page)[1]];
    assert_eq!((count(one, "mark"), count(one, "missed")), (0, 0));
    let o = outline(two);
    assert_eq!(segments(two, "missed"), [[o[3], o[1]]]);
    assert_eq!(segments(two, "sight"), [[o[3], o[0]], [o[3], o[2]]]);
    assert_eq!((count(two, "mark"), count(two, "centre"), count(two, "wedge")), (1, 1, 1));
    let ring = ["cx", "cy"].map(|name| values(two, "mark", name)[0].to_string());
    let corner = [o[1].x, o[1].y].map(|number| (number as f64 / 100.0).to_string());
    assert_eq!(ring, corner);
}

/// What is no cutting is marked in both drawings.
#[test]
fn no_cutting() {
    for (list, said, pieces, lines) in [
        ("040000010203040100010203", "have the same corners: 0, 1, 2, 3.", 2, 4),
        ("03000001020301010203", "crosses the line 1-3 of piece 2 (B).", 2, 2),
        ("04000001020303000001020300000203", "is parted by the line 0-2 of piece 2 (B).", 1, 1),
        ("0300000102", "leave out one, with the corners 0, 2, 3.", 0, 3),
    ] {
        let page = shown(&S, &S, list, "22");
        let told = between(&page, "<desc id=\"told\">", "<");
        assert!(told[0].contains(said), "{told:?}");
        for drawing in drawings(&page) {
            assert_eq!(polygons(drawing, "piece").len(), pieces, "{list}");
            assert_eq!(segments(drawing, "wrong").len(), lines, "{list}");
        }
    }
}

/// Where there are no pieces to draw the drawings stand alone, with the marks of their own refusal.
#[test]
fn no_pieces() {
    let page = shown(&S, &S, "05", "21");
    assert!(page.contains("has 5 corners, and the drawings have 4."));
    assert_eq!((count(&page, "piece"), count(&page, "number")), (0, 8));
    let page = shown(&S, &CROSSED, "040000010203", "7");
    assert!(page.contains("7: the second drawing is not simple"));
    assert_eq!((count(&page, "piece"), count(&page, "mark")), (0, 1));
    let page = shown(&S, &Z, "040000010203", "1");
    assert!(page.contains(words::line(1)) && count(&page, "number") == 10);
}

/// A verdict that is none, or that fits nothing, is told, and nothing is marked.
#[test]
fn verdicts_of_others() {
    let input = listed(&S, &S, "040000010203");
    for (line, said) in [
        ("", words::MISSING_VERDICT),
        ("<g>\n", "This says nothing of a list: &lt;g&gt;"),
        ("22\n", words::line_of_list(22)),
        ("23 0 1\n", "23: a line of the piece is unseen: piece 1 of the list (A, place 0),"),
        ("24 99 2\n", "24: the centre of the piece misses a corner: piece 100 of the"),
    ] {
        let page = page_of_lists(&input, line.as_bytes());
        assert_sound(&page);
        assert!(page.contains(said), "{line}");
        let marks = ["wrong", "missed", "mark"].map(|class| {
            drawings(&page).iter().map(|drawing| count(drawing, class)).sum::<usize>()
        });
        assert_eq!(marks, [0; 3]);
    }
}

/// The end of a run, with the drawings that have been read.
#[test]
fn the_run_ends() {
    let square = listed(&S, &S, "040000010203");
    let shown = |rest: &[u8]| {
        let page = page_of_lists(&[&square[..], rest].concat(), b"0\n");
        assert_sound(&page);
        page
    };
    let page = shown(&pair(&S, &S));
    assert!(
        page.contains(">Pair 2<") && page.contains("The list of this pair is missing: the input")
    );
    assert_eq!(drawings(&page).len(), 4);
    let page = shown(&pair(&S, &S)[..53]);
    assert!(page.contains(">End<") && page.contains("The frames end after a first drawing."));
    assert_eq!(drawings(&page).len(), 3);
    let page = shown(b"10\n");
    assert!(page.contains("Line 4 of the frames is of another form."));
    assert_eq!(drawings(&page).len(), 2);
    let page = page_of_lists(b"", b"");
    assert_sound(&page);
    assert!(page.contains("0 pairs of drawings with their lists of pieces"));
}

#[test]
fn no_more_than_a_page_holds() {
    let pairs = MOST_PAIRS + 7;
    let input = listed(&S, &S, "040000010203").repeat(pairs);
    let page = page_of_lists(&input, "0\n".repeat(pairs).as_bytes());
    assert_eq!(drawings(&page).len(), 2 * MOST_PAIRS);
    assert!(page.contains("7 more pairs from line 301 of the input on"));
    // A list of a thousand pieces is drawn in part.
    let page = shown(&S, &S, &"040000010203".repeat(1000), "22");
    assert!(page.contains("The list has 936 more pieces: a page shows 64."));
    assert!(page.len() < 100_000);
}

/// Pages of lists of every kind are sound, and those at fault have something marked.
#[test]
fn lists_of_every_kind() {
    let mut dice = Dice::new(42);
    let mut marked = [0; 25];
    for _ in 0..150 {
        let most = dice.pick(&[6, 8, 12, 24, 64]);
        let pair = pair_up_to(&mut dice, Kind::Mixed, most);
        let frames = pair.frames().expect("a pair of this kind can be told in frames");
        for list in lists(&mut dice, &pair, 3) {
            let line: String = list.iter().map(|byte| format!("{byte:02X}")).collect();
            let input = [&frames[..], line.as_bytes(), b"\n"].concat();
            let page = page_of_lists(&input, verdicts_of(&Peer, &input).as_bytes());
            assert_sound(&page);
            let verdict = check(&pair.first, &pair.second, &list);
            let number = usize::from(verdict.number);
            let signs = drawings(&page);
            let signs = signs.iter().map(|d| count(d, "wrong") + count(d, "missed"));
            assert_eq!(signs.sum::<usize>() > 0, (22..=24).contains(&number), "{verdict:?}");
            marked[number] += 1;
        }
    }
    assert!([0, 21, 22, 23, 24].iter().all(|&k| marked[k] > 5), "{marked:?}");
}
