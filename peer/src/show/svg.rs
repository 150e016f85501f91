//! Elements of the page as text. Every number is finite and has at most two decimals, and every
//! text is escaped.

use super::plane::Point;

/// The text with each symbol that means something to a reader of SVG told by its name.
pub fn escaped(text: &str) -> String {
    let mut told = String::new();
    for symbol in text.chars() {
        match symbol {
            '&' => told.push_str("&amp;"),
            '<' => told.push_str("&lt;"),
            '>' => told.push_str("&gt;"),
            '"' => told.push_str("&quot;"),
            '\'' => told.push_str("&#39;"),
            _ => told.push(symbol),
        }
    }
    told
}

pub fn number(value: f64) -> String {
    let finite = if value.is_finite() { value } else { 0.0 };
    // Through a whole number, which has no negative zero.
    let hundredths = (finite * 100.0).round() as i64;
    (hundredths as f64 / 100.0).to_string()
}

/// "x,y" for each point.
fn points(points: &[Point]) -> String {
    let pair = |p: &Point| format!("{},{}", number(p.x), number(p.y));
    points.iter().map(pair).collect::<Vec<_>>().join(" ")
}

/// An element without content. Values are numbers and colours.
pub fn element(name: &str, class: &str, values: &[(&str, &str)]) -> String {
    let value = |(name, value): &(&str, &str)| format!(" {name}=\"{value}\"");
    let values: String = values.iter().map(value).collect();
    format!("<{name} class=\"{class}\"{values}/>\n")
}

pub fn polygon(class: &str, corners: &[Point]) -> String {
    element("polygon", class, &[("points", &points(corners))])
}

/// A filled polygon; a browser shows its title when it is pointed at.
pub fn titled_polygon(class: &str, colour: &str, corners: &[Point], title: &str) -> String {
    let (corners, title) = (points(corners), escaped(title));
    format!(
        "<polygon class=\"{class}\" fill=\"{colour}\" points=\"{corners}\">\
         <title>{title}</title></polygon>\n"
    )
}

/// One path of separate segments, if there are any.
pub fn segments(class: &str, ends: &[[Point; 2]]) -> String {
    if ends.is_empty() {
        return String::new();
    }
    element("path", class, &[("d", &lines(ends))])
}

pub fn coloured_segments(class: &str, colour: &str, ends: &[[Point; 2]]) -> String {
    element("path", class, &[("stroke", colour), ("d", &lines(ends))])
}

fn lines(ends: &[[Point; 2]]) -> String {
    let line = |[a, b]: &[Point; 2]| {
        let [ax, ay, bx, by] = [a.x, a.y, b.x, b.y].map(number);
        format!("M{ax} {ay}L{bx} {by}")
    };
    ends.iter().map(line).collect()
}

pub fn circle(class: &str, middle: Point, radius: f64) -> String {
    let [cx, cy, r] = [middle.x, middle.y, radius].map(number);
    element("circle", class, &[("cx", &cx), ("cy", &cy), ("r", &r)])
}

pub fn dot(class: &str, colour: &str, middle: Point, radius: f64) -> String {
    let [cx, cy, r] = [middle.x, middle.y, radius].map(number);
    element("circle", class, &[("fill", colour), ("cx", &cx), ("cy", &cy), ("r", &r)])
}

/// The sector of a circle anticlockwise from one direction to the other, both of length 1.
pub fn sector(class: &str, colour: &str, middle: Point, ways: [Point; 2], radius: f64) -> String {
    let [from, to] = ways;
    // The page's y runs downwards, so the angle between them is turned round.
    let large = u8::from(from.x * to.y - from.y * to.x > 0.0);
    let [a, b] = [from, to].map(|way| middle.moved(way, radius));
    let [x, y, r] = [middle.x, middle.y, radius].map(number);
    let [ax, ay, bx, by] = [a.x, a.y, b.x, b.y].map(number);
    let path = format!("M{x} {y}L{ax} {ay}A{r} {r} 0 {large} 0 {bx} {by}Z");
    element("path", class, &[("fill", colour), ("d", &path)])
}

pub fn rectangle(class: &str, colour: &str, corner: Point, size: Point) -> String {
    let [x, y, width, height] = [corner.x, corner.y, size.x, size.y].map(number);
    let values = [("fill", colour), ("x", &x), ("y", &y), ("width", &width), ("height", &height)];
    element("rect", class, &values)
}

pub fn text(class: &str, at: Point, words: &str) -> String {
    let [x, y] = [at.x, at.y].map(number);
    let words = escaped(words);
    format!("<text class=\"{class}\" x=\"{x}\" y=\"{y}\">{words}</text>\n")
}

/// Text of its own size, with its middle at the point.
pub fn centred_text(class: &str, middle: Point, size: f64, words: &str) -> String {
    // Text stands on its line; figures and capitals are about 0.72 of its size high.
    let [x, y, size] = [middle.x, middle.y + 0.36 * size, size].map(number);
    let words = escaped(words);
    format!("<text class=\"{class}\" x=\"{x}\" y=\"{y}\" font-size=\"{size}\">{words}</text>\n")
}
