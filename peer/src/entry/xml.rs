//! The tags of an XML text, one after the other. Comments, instructions and a plain document type
//! are passed over.

use super::cursor::{refuse, Cursor, Refusal};

pub enum Node<'a> {
    Open(Tag<'a>),
    Close { name: &'a str, at: usize },
    Text { text: &'a str, at: usize },
}

pub struct Tag<'a> {
    pub name: &'a str,
    pub at: usize,
    pub attributes: Vec<Attribute<'a>>,
    /// Whether it closes itself.
    pub empty: bool,
}

pub struct Attribute<'a> {
    pub name: &'a str,
    pub value: &'a str,
    /// Where the value begins.
    pub at: usize,
}

impl<'a> Tag<'a> {
    pub fn attribute(&self, name: &str) -> Option<&Attribute<'a>> {
        self.attributes.iter().find(|attribute| attribute.name == name)
    }
}

/// Takes what comes next; none at the end.
pub fn node<'a>(cursor: &mut Cursor<'a>) -> Result<Option<Node<'a>>, Refusal> {
    while cursor.peek().is_some() {
        let at = cursor.at;
        if cursor.eat("<!--") {
            ended(cursor.take_through("-->"), at, "a comment")?;
        } else if cursor.eat("<![CDATA[") {
            let text = ended(cursor.take_through("]]>"), at, "a CDATA section")?;
            return Ok(Some(Node::Text { text, at }));
        } else if cursor.eat("<?") {
            instruction(cursor, at)?;
        } else if cursor.eat("<!") {
            document_type(cursor, at)?;
        } else if cursor.eat("</") {
            return close(cursor, at).map(Some);
        } else if cursor.eat("<") {
            return open(cursor, at).map(Some);
        } else {
            let text = cursor.take(|symbol| symbol != '<');
            return Ok(Some(Node::Text { text, at }));
        }
    }
    Ok(None)
}

fn ended<'a>(taken: Option<&'a str>, at: usize, what: &str) -> Result<&'a str, Refusal> {
    taken.map_or_else(|| refuse(at, format!("{what} does not end")), Ok)
}

/// A style sheet elsewhere could move what is drawn.
fn instruction(cursor: &mut Cursor, at: usize) -> Result<(), Refusal> {
    let words = ended(cursor.take_through("?>"), at, "an instruction")?;
    if words.starts_with("xml-stylesheet") {
        return refuse(at, "a style sheet of its own file cannot be taken");
    }
    Ok(())
}

/// A document type that declares something itself could change what the names mean.
fn document_type(cursor: &mut Cursor, at: usize) -> Result<(), Refusal> {
    let words = ended(cursor.take_through(">"), at, "a declaration")?;
    if words.contains('[') {
        return refuse(at, "a document type with declarations of its own cannot be taken");
    }
    Ok(())
}

fn close<'a>(cursor: &mut Cursor<'a>, at: usize) -> Result<Node<'a>, Refusal> {
    let name = name(cursor);
    cursor.skip_spaces();
    if !cursor.eat(">") {
        return refuse(at, format!("the tag </{name} does not end"));
    }
    Ok(Node::Close { name, at })
}

fn open<'a>(cursor: &mut Cursor<'a>, at: usize) -> Result<Node<'a>, Refusal> {
    let name = name(cursor);
    if name.is_empty() {
        return refuse(at, "a < that begins no tag");
    }
    let mut attributes: Vec<Attribute> = Vec::new();
    loop {
        let before = cursor.at;
        cursor.skip_spaces();
        let empty = cursor.eat("/>");
        if empty || cursor.eat(">") {
            return Ok(Node::Open(Tag { name, at, attributes, empty }));
        }
        if cursor.peek().is_none() || cursor.peek() == Some('<') {
            return refuse(at, format!("the tag <{name} does not end"));
        }
        if before == cursor.at {
            return refuse(at, format!("{} in the tag <{name} is misplaced", cursor.quoted()));
        }
        let next = attribute(cursor)?;
        if attributes.iter().any(|earlier| earlier.name == next.name) {
            return refuse(next.at, format!("<{name} has the attribute {} twice", next.name));
        }
        attributes.push(next);
    }
}

fn attribute<'a>(cursor: &mut Cursor<'a>) -> Result<Attribute<'a>, Refusal> {
    let at = cursor.at;
    let name = name(cursor);
    cursor.skip_spaces();
    if name.is_empty() {
        return refuse(at, format!("{} is no attribute", cursor.quoted()));
    }
    if !cursor.eat("=") {
        return refuse(at, format!("the attribute {name} has no value"));
    }
    cursor.skip_spaces();
    let quote = ["\"", "'"].into_iter().find(|quote| cursor.eat(quote));
    let Some(quote) = quote else {
        return refuse(at, format!("the value of {name} has no quotes"));
    };
    let start = cursor.at;
    match cursor.take_through(quote) {
        Some(value) if !value.contains('<') => Ok(Attribute { name, value, at: start }),
        _ => refuse(at, format!("the value of {name} does not end")),
    }
}

fn name<'a>(cursor: &mut Cursor<'a>) -> &'a str {
    cursor.take(|symbol| !symbol.is_ascii_whitespace() && !"<>/='\"".contains(symbol))
}
