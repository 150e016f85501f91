//! Inputs and answers of any kind, and such as do not fit each other.

use crate::sheet::{assert_sound, count, drawings};
use crate::{pair, shown, H, ONE, S, TWO, Z};
use peer::frames::{frame, FIRST, HIGHEST, LOWEST, SECOND};
use peer::show::{page, MOST_PAIRS};

#[test]
fn nothing() {
    let page = page(b"", Some(b""));
    assert_sound(&page);
    assert!(page.contains("0 pairs of drawings") && page.contains("nothing to show"));
}

#[test]
fn a_drawing_alone() {
    let input = [pair(&S, &S), frame(FIRST, &Z)].concat();
    let page = page(&input, Some(format!("{ONE}EF\n").as_bytes()));
    assert_sound(&page);
    assert!(page.contains("The frames end after a first drawing."));
    assert!(page.contains("EF: the program ended the run here."));
    let drawings = drawings(&page);
    assert_eq!((drawings.len(), count(drawings[2], "number")), (3, 6));
}

#[test]
fn lines_that_end_the_run() {
    let twice = [pair(&S, &S), frame(SECOND, &S)].concat();
    assert!(page(&twice, None).contains("Line 3 of the frames is out of turn."));
    let other = [&pair(&S, &S)[..], b"100\n"].concat();
    assert!(page(&other, None).contains("Line 3 of the frames is of another form."));
    let open = &pair(&S, &S)[..103];
    assert!(page(open, None).contains("Line 2 of the frames is of another form."));
}

#[test]
fn answers_that_are_missing_or_do_not_fit() {
    let input = [pair(&S, &S), pair(&Z, &H)].concat();
    let none = page(&input, None);
    assert!(none.contains("No answers were handed in"));
    assert_eq!(count(&none, "number"), 20);
    let fewer = page(&input, Some(ONE.as_bytes()));
    assert!(fewer.contains("There is no answer to this pair."));
    assert_eq!((count(&fewer, "piece"), count(&fewer, "number")), (2, 20));
    let more = page(&input, Some(format!("{ONE}{TWO}{TWO}").as_bytes()));
    assert!(more.contains("The answers go on for 1 line more."));
    let exchanged = page(&input, Some(format!("{TWO}{ONE}").as_bytes()));
    assert_eq!(exchanged.matches("class=\"refusal\"").count(), 2);
    assert_eq!(exchanged.matches(">The answer does not fit the pair.<").count(), 2);
    let early = page(&input, Some(b"EF\n"));
    assert!(early.contains("EF: the program ended the run here."));
    assert!(early.contains("There is no answer to this pair."));
    for page in [none, fewer, more, exchanged, early] {
        assert_sound(&page);
    }
}

#[test]
fn answers_of_another_form() {
    let wrong = "A0 A000 A0010400000102 A001040400010203 A001040000010302 A0010200000103020103 \
                 A002040000010203 A00104000001020300 E000 E00A E0 EF00 a001040000010203 \
                 A00104000001020 A001040000010203\r";
    for line in wrong.split(' ').chain([""]) {
        let page = shown(&S, &S, &format!("{line}\n"));
        assert!(page.contains("This is no answer: "), "{line:?}");
        assert_eq!((count(&page, "piece"), count(&page, "number")), (0, 8));
    }
    let page = shown(&S, &S, "<script>alert(\"&'\")</script>]]>\u{0}\u{fffe}\n");
    assert!(page.contains("&lt;script&gt;alert(&quot;&amp;&#39;&quot;)&lt;/script&gt;]]&gt;????"));
    let long = shown(&S, &S, &"A".repeat(1_000_000));
    assert!(long.len() < 20_000);
}

/// Whatever the coordinates are, a page has its size.
#[test]
fn extreme_coordinates() {
    let ends = [LOWEST, HIGHEST, -1, 0, 1, 1_000_000];
    let mut lists = vec![vec![], vec![7, 7], vec![LOWEST, LOWEST, HIGHEST, HIGHEST]];
    for n in [3, 5, 64] {
        lists.push((0..2 * n).map(|k| ends[(k * k + k / 3) % ends.len()]).collect());
        lists.push((0..2 * n).map(|k| if k % 2 == 0 { LOWEST } else { k as i32 }).collect());
        lists.push(vec![HIGHEST; 2 * n]);
    }
    let seconds = lists.iter().cycle().skip(5);
    for (k, (first, second)) in lists.iter().zip(seconds).enumerate() {
        for (first, second) in [(first, first), (first, second)] {
            let number = k % 9 + 1;
            for answer in ["E003\n", "E004\n", "E005\n", "E009\n", &format!("E00{number}\n")] {
                let page = shown(first, second, answer);
                assert!(page.len() < 200_000);
                assert_eq!(count(&page, "number"), (first.len() + second.len()) / 2);
            }
        }
    }
}

#[test]
fn no_more_pairs_than_a_page_holds() {
    let pairs = MOST_PAIRS + 7;
    let page = page(&pair(&S, &S).repeat(pairs), Some(ONE.repeat(pairs).as_bytes()));
    assert_sound(&page);
    assert_eq!(drawings(&page).len(), 2 * MOST_PAIRS);
    assert!(page.contains("7 more pairs from line 201 of the frames on"));
}
