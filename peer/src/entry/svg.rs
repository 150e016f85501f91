//! The drawings of an SVG file: its `polygon` and `path` elements, of which there are two, in the
//! order in which they stand. They are read as they are written, so nothing may move them.

use super::cursor::{refuse, Cursor, Refusal};
use super::outline::{self, Outline, Point};
use super::xml::{self, Attribute, Node, Tag};

/// Properties of style that move or replace an outline.
const MOVING: [&str; 8] =
    ["transform", "translate", "rotate", "scale", "offset", "offset-path", "zoom", "d"];

/// Elements that draw something, and that are not read.
const PASSED: [&str; 8] = ["rect", "circle", "ellipse", "line", "polyline", "text", "image", "use"];

/// The outlines, y upwards, and what else is to be said of the file.
pub fn outlines(input: &str) -> Result<([Outline; 2], Vec<String>), Refusal> {
    let mut reading = Reading {
        input,
        open: Vec::new(),
        rooted: false,
        outlines: Vec::new(),
        passed: Vec::new(),
    };
    let mut cursor = Cursor::over(input, 0, input.len());
    while let Some(node) = xml::node(&mut cursor)? {
        match node {
            Node::Open(tag) => reading.open(tag)?,
            Node::Close { name, at } => reading.close(name, at)?,
            Node::Text { text, at } => reading.text(text, at)?,
        }
    }
    reading.finish()
}

struct Reading<'a> {
    input: &'a str,
    /// The elements that are open, the outermost first, and where they begin.
    open: Vec<(&'a str, usize)>,
    /// Whether the outermost element has been met.
    rooted: bool,
    outlines: Vec<Outline>,
    passed: Vec<&'a str>,
}

impl<'a> Reading<'a> {
    fn open(&mut self, tag: Tag<'a>) -> Result<(), Refusal> {
        if self.open.is_empty() {
            self.root(&tag)?;
        }
        if ["svg", "g", "polygon", "path"].contains(&tag.name) {
            unmoved(&tag)?;
        }
        match tag.name {
            "polygon" => self.outline(&tag, "points", outline::polygon)?,
            "path" => self.outline(&tag, "d", outline::path)?,
            name if name.starts_with("animate") || name == "set" => {
                return refuse(tag.at, format!("an animation ({name}) cannot be taken"));
            }
            name if name.starts_with("svg:") => {
                return refuse(tag.at, format!("the prefix of {name} cannot be taken"));
            }
            name if PASSED.contains(&name) && !self.passed.contains(&name) => {
                self.passed.push(name);
            }
            _ => {}
        }
        if !tag.empty {
            self.open.push((tag.name, tag.at));
        }
        Ok(())
    }

    fn root(&mut self, tag: &Tag) -> Result<(), Refusal> {
        if self.rooted {
            return refuse(
                tag.at,
                format!("<{} stands after the end of the svg element", tag.name),
            );
        }
        if tag.name != "svg" {
            return refuse(tag.at, format!("the outermost element is {}, not svg", tag.name));
        }
        self.rooted = true;
        Ok(())
    }

    /// An outline in the attribute of this name.
    fn outline(
        &mut self,
        tag: &Tag,
        name: &str,
        read: fn(&mut Cursor) -> Result<Vec<Point>, Refusal>,
    ) -> Result<(), Refusal> {
        let other = self.open.iter().skip(1).find(|(parent, _)| *parent != "g");
        if let Some((parent, _)) = other {
            return refuse(tag.at, format!("a {} within {parent} cannot be taken", tag.name));
        }
        if self.outlines.len() == 2 {
            return refuse(tag.at, format!("a third drawing ({}): there must be two", tag.name));
        }
        let Some(Attribute { value, at, .. }) = tag.attribute(name) else {
            return refuse(tag.at, format!("a {} without {name}", tag.name));
        };
        let mut points = read(&mut Cursor::over(self.input, *at, at + value.len()))?;
        for point in &mut points {
            point.y = -point.y;
        }
        self.outlines.push(Outline { points, at: tag.at });
        Ok(())
    }

    fn close(&mut self, name: &str, at: usize) -> Result<(), Refusal> {
        match self.open.pop() {
            Some((opened, _)) if opened == name => Ok(()),
            _ => refuse(at, format!("</{name}> closes nothing that is open")),
        }
    }

    fn text(&self, text: &str, at: usize) -> Result<(), Refusal> {
        match self.open.last() {
            None if !text.trim().is_empty() => {
                let spaces = text.len() - text.trim_start().len();
                refuse(at + spaces, "text outside the svg element")
            }
            Some(("style", _)) if moves(text) => refuse(at, MOVED),
            _ => Ok(()),
        }
    }

    fn finish(self) -> Result<([Outline; 2], Vec<String>), Refusal> {
        if let Some((name, at)) = self.open.last() {
            return refuse(*at, format!("<{name} is not closed"));
        }
        let said = format!("not read: {} (only polygon and path are)", self.passed.join(", "));
        let remarks = if self.passed.is_empty() { Vec::new() } else { vec![said] };
        match <[Outline; 2]>::try_from(self.outlines) {
            Ok(outlines) => Ok((outlines, remarks)),
            Err(few) => match few.first() {
                None => refuse(0, "no drawing: there is no polygon and no path"),
                Some(only) => {
                    refuse(only.at, "one drawing only: there must be two, each a polygon or a path")
                }
            },
        }
    }
}

const MOVED: &str =
    "a style that may move drawings cannot be taken: enter the corners where they end up";

/// Refuses an element that moves what is drawn in it.
fn unmoved(tag: &Tag) -> Result<(), Refusal> {
    if let Some(attribute) = tag.attribute("transform") {
        let name = tag.name;
        return refuse(
            attribute.at,
            format!("a transform (of {name}) cannot be taken: enter the corners where they end up"),
        );
    }
    match tag.attribute("style") {
        Some(style) if moves(style.value) => refuse(style.at, MOVED),
        _ => Ok(()),
    }
}

/// Whether one of the properties set here moves what is drawn, or may, being set elsewhere.
fn moves(style: &str) -> bool {
    if style.contains("@import") {
        return true;
    }
    let set = style.split(['{', '}', ';']).filter_map(|one| one.split_once(':'));
    let mut names = set.filter_map(|(name, _)| name.split_whitespace().last());
    names.any(|name| MOVING.contains(&name.to_ascii_lowercase().as_str()))
}
