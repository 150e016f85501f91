//! Reads a page back: its elements by their class, in hundredths of the page's unit.

use peer::drawing::Corner;

/// What stands between each place where `from` is and the next `to`.
pub fn between<'a>(text: &'a str, from: &str, to: &str) -> Vec<&'a str> {
    let after = text.split(from).skip(1);
    after.map(|rest| rest.split_once(to).expect("an end").0).collect()
}

pub fn drawings(page: &str) -> Vec<&str> {
    between(page, "<g class=\"drawing\">", "</g>")
}

/// How many elements of the class there are.
pub fn count(text: &str, class: &str) -> usize {
    text.matches(&format!("class=\"{class}\"")).count()
}

/// The value in each element of the class.
pub fn values<'a>(text: &'a str, class: &str, name: &str) -> Vec<&'a str> {
    let elements = between(text, &format!("class=\"{class}\""), ">");
    let value = |element: &&'a str| between(element, &format!(" {name}=\""), "\"").first().copied();
    elements.iter().filter_map(value).collect()
}

/// A number of the page in hundredths, which is all that it has.
pub fn hundredths(number: &str) -> i64 {
    let (whole, part) = number.split_once('.').unwrap_or((number, ""));
    let digits = format!("{whole}{part:0<2}");
    assert!(part.len() <= 2, "{number}");
    digits.parse().expect("a number")
}

fn points(list: &str) -> Vec<Corner> {
    let point = |pair: &str| {
        let (x, y) = pair.split_once(',').expect("x,y");
        Corner { x: hundredths(x), y: hundredths(y) }
    };
    list.split_whitespace().map(point).collect()
}

pub fn polygons(drawing: &str, class: &str) -> Vec<Vec<Corner>> {
    values(drawing, class, "points").into_iter().map(points).collect()
}

pub fn outline(drawing: &str) -> Vec<Corner> {
    let coarse = polygons(drawing, "outline");
    let fine = polygons(drawing, "outline fine");
    [coarse, fine].concat().pop().expect("an outline")
}

/// The ends of the segments in each path of the class.
pub fn segments(drawing: &str, class: &str) -> Vec<[Corner; 2]> {
    let mut found = Vec::new();
    for path in values(drawing, class, "d") {
        for line in path.split('M').skip(1) {
            let list = line.replace(' ', ",").replace('L', " ");
            found.push(points(&list).try_into().expect("two ends"));
        }
    }
    found
}

/// The elements and the values that a page is made of.
const ELEMENTS: &str = "svg title desc style g rect path polygon circle text";
const VALUES: &str =
    "xmlns role aria-labelledby width height viewBox id class fill stroke points d \
                      cx cy r x y font-size";

/// A page is self-contained and sound: it is made of known elements, all closed, and known values;
/// its numbers are finite and small, and nothing in it runs or is fetched.
pub fn assert_sound(page: &str) {
    let mut open = Vec::new();
    for tag in between(page, "<", ">") {
        let name = tag.split([' ', '/']).find(|word| !word.is_empty()).expect("a name");
        assert!(ELEMENTS.split(' ').any(|known| known == name), "{tag}");
        if tag.starts_with('/') {
            assert_eq!(open.pop(), Some(name));
        } else if !tag.ends_with('/') {
            open.push(name);
        }
        for (value, _) in tag.split_whitespace().filter_map(|word| word.split_once('=')) {
            assert!(VALUES.split_whitespace().any(|known| known == value), "{tag}");
        }
    }
    assert!(open.is_empty());
    assert_eq!(page.matches("http").count(), 1, "the name of SVG alone");
    for never in ["NaN", "inf", "url(", "@import", "href", "&amp;amp;"] {
        assert!(!page.contains(never), "{never}");
    }
    for (class, name) in [("number", "x"), ("number", "y"), ("corner", "cx"), ("corner", "cy")] {
        for value in values(page, class, name) {
            assert!(hundredths(value).abs() < 10_000_000, "{value}");
        }
    }
}
