//! A place that moves through the input, and refusals that name it.

/// Why an input is refused, and at which byte of it.
#[derive(Debug)]
pub struct Refusal {
    pub at: usize,
    pub reason: String,
}

pub fn refuse<T>(at: usize, reason: impl Into<String>) -> Result<T, Refusal> {
    Err(Refusal { at, reason: reason.into() })
}

/// The number of the line, from 1, in which the byte stands.
pub fn line(input: &str, at: usize) -> usize {
    1 + input.as_bytes()[..at.min(input.len())].iter().filter(|&&byte| byte == b'\n').count()
}

#[derive(Clone)]
pub struct Cursor<'a> {
    /// The input up to the end of the part that is read.
    text: &'a str,
    pub at: usize,
}

impl<'a> Cursor<'a> {
    /// A cursor that reads the bytes from..to of the input.
    pub fn over(input: &'a str, from: usize, to: usize) -> Cursor<'a> {
        Cursor { text: &input[..to], at: from }
    }

    fn rest(&self) -> &'a str {
        &self.text[self.at..]
    }

    pub fn peek(&self) -> Option<char> {
        self.rest().chars().next()
    }

    /// Takes the words if they come next.
    pub fn eat(&mut self, words: &str) -> bool {
        let here = self.rest().starts_with(words);
        if here {
            self.at += words.len();
        }
        here
    }

    /// Takes symbols as long as they are wanted.
    pub fn take(&mut self, wanted: impl Fn(char) -> bool) -> &'a str {
        let rest = self.rest();
        let taken = &rest[..rest.find(|symbol| !wanted(symbol)).unwrap_or(rest.len())];
        self.at += taken.len();
        taken
    }

    pub fn skip_spaces(&mut self) {
        self.take(|symbol| symbol.is_ascii_whitespace());
    }

    /// Takes everything up to the words, and the words; none if they do not come.
    pub fn take_through(&mut self, words: &str) -> Option<&'a str> {
        let rest = self.rest();
        let taken = &rest[..rest.find(words)?];
        self.at += taken.len() + words.len();
        Some(taken)
    }

    /// What stands here, up to a space or a comma, quoted as far as it can be printed.
    pub fn quoted(&self) -> String {
        const MOST: usize = 20;
        let ends = |symbol: char| symbol.is_ascii_whitespace() || symbol == ',';
        let mut symbols = self.rest().chars();
        let first = symbols.next().into_iter();
        let word: Vec<char> = first.chain(symbols.take_while(|&symbol| !ends(symbol))).collect();
        let plain = |&symbol: &char| if symbol.is_control() { '?' } else { symbol };
        let more = if word.len() > MOST { "..." } else { "" };
        format!("'{}{more}'", word.iter().take(MOST).map(plain).collect::<String>())
    }
}
