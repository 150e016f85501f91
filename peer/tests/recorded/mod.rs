//! The recorded answers. They stand once, where the product's test programs read them: crates/test_*/data. What each
//! file has is told in this project's README.md.

use peer::checker::Verdict;
use peer::desks::ROW;
use peer::marks::{Axis, Mark};

macro_rules! data {
    ($path:literal) => {
        include_str!(concat!("../../../crates/", $path))
    };
}

/// Frames, and the lines that answer them.
pub struct Frames {
    pub input: &'static str,
    pub output: &'static str,
}

pub const SMALL: Frames =
    Frames { input: data!("test_wire/data/small.hex"), output: data!("test_wire/data/small.out") };

pub const MID: Frames =
    Frames { input: data!("test_wire/data/mid.hex"), output: data!("test_wire/data/mid.out") };

pub const BIG: Frames =
    Frames { input: data!("test_wire/data/big.hex"), output: data!("test_wire/data/big.out") };

pub const EDGE: Frames =
    Frames { input: data!("test_wire/data/edge.hex"), output: data!("test_wire/data/edge.out") };

pub const FIG8: Frames =
    Frames { input: data!("test_wire/data/fig8.hex"), output: data!("test_wire/data/fig8.out") };

/// A whole input that may be malformed, and its whole output.
pub struct Whole {
    pub name: String,
    pub input: &'static [u8],
    pub output: &'static [u8],
}

/// The inputs of the packed file: three lengths of three bytes, the name, the input and the output.
pub fn malformed() -> Vec<Whole> {
    let mut rest: &[u8] = include_bytes!("../../../crates/test_wire/data/malformed");
    let mut inputs = Vec::new();
    while !rest.is_empty() {
        let (head, bytes) = rest.split_at(9);
        let length =
            |k: usize| head[3 * k..3 * k + 3].iter().fold(0, |n, &b| 256 * n + usize::from(b));
        let (name, bytes) = bytes.split_at(length(0));
        let (input, bytes) = bytes.split_at(length(1));
        let (output, bytes) = bytes.split_at(length(2));
        let name = String::from_utf8_lossy(name).into_owned();
        inputs.push(Whole { name, input, output });
        rest = bytes;
    }
    inputs
}

/// A call of the answer, and what must come back.
pub struct Call {
    pub name: &'static str,
    pub first: Vec<i32>,
    pub second: Vec<i32>,
    pub room: usize,
    pub number: u8,
    pub pieces: usize,
    pub bytes: Vec<u8>,
}

fn number<T: std::str::FromStr>(words: &mut dyn Iterator<Item = &str>) -> T {
    let word = words.next().expect("a line is cut off");
    word.parse().unwrap_or_else(|_| panic!("{word} is no number that fits"))
}

fn list<T: std::str::FromStr>(words: &mut dyn Iterator<Item = &str>) -> Vec<T> {
    (0..number(words)).map(|_| number(words)).collect()
}

/// The calls of both files, a line each.
pub fn calls() -> Vec<Call> {
    let lines = data!("test_answers/data/outlines.txt").lines();
    let lines = lines.chain(data!("test_answers/data/calls.txt").lines());
    lines.map(call).collect()
}

fn call(line: &'static str) -> Call {
    let words = &mut line.split_whitespace();
    let call = Call {
        name: words.next().expect("a line is empty"),
        first: list(words),
        second: list(words),
        room: number(words),
        number: number(words),
        pieces: number(words),
        bytes: list(words),
    };
    assert_eq!(words.next(), None, "{}", call.name);
    call
}

/// A call that carries a mark, and what must come back.
pub struct Marked {
    pub name: &'static str,
    pub first: Vec<i32>,
    pub second: Vec<i32>,
    pub room: usize,
    pub mark: Mark,
    pub number: u8,
    pub pieces: usize,
    pub bytes: Vec<u8>,
    pub lands: u8,
    pub axes: [Axis; 2],
}

pub fn marks() -> Vec<Marked> {
    data!("test_marks/data/marks.txt").lines().map(marked).collect()
}

fn marked(line: &'static str) -> Marked {
    let words = &mut line.split_whitespace();
    let marked = Marked {
        name: words.next().expect("a line is empty"),
        first: list(words),
        second: list(words),
        room: number(words),
        mark: Mark { x: number(words), y: number(words) },
        number: number(words),
        pieces: number(words),
        bytes: list(words),
        lands: number(words),
        axes: [axis(words), axis(words)],
    };
    assert_eq!(words.next(), None, "{}", marked.name);
    marked
}

/// The step, then the bits of the rest in four numbers of 16 bits, high first.
fn axis(words: &mut dyn Iterator<Item = &str>) -> Axis {
    let step = number(words);
    let bits = (0..4).fold(0, |bits, _| bits << 16 | u64::from(number::<u16>(words)));
    Axis { step, rest: f64::from_bits(bits) }
}

/// A call that checks a list of pieces, and what must come back.
pub struct Checked {
    pub name: &'static str,
    pub first: Vec<i32>,
    pub second: Vec<i32>,
    pub list: Vec<u8>,
    pub verdict: Verdict,
}

pub fn checks() -> Vec<Checked> {
    data!("test_checks/data/checks.txt").lines().map(checked).collect()
}

fn checked(line: &'static str) -> Checked {
    let words = &mut line.split_whitespace();
    let name = words.next().expect("a line is empty");
    let (first, second, list) = (list(words), list(words), list(words));
    let (number, place, drawing) = (number(words), number(words), number(words));
    assert_eq!(words.next(), None, "{name}");
    Checked { name, first, second, list, verdict: Verdict { number, drawing, place } }
}

/// A call of the search: cells of two tables in rows of 64, the room, and what must come back.
pub struct Cut {
    pub name: &'static str,
    pub corners: usize,
    pub first: Vec<u8>,
    pub second: Vec<u8>,
    pub room: usize,
    pub number: u8,
    pub pieces: usize,
    pub bytes: Vec<u8>,
}

pub fn cuttings() -> Vec<Cut> {
    data!("test_answers/data/cuttings.txt").lines().map(cut).collect()
}

fn cut(line: &'static str) -> Cut {
    let words = &mut line.split_whitespace();
    let name = words.next().expect("a line is empty");
    let corners: usize = number(words);
    let cut = Cut {
        name,
        corners,
        first: table(corners, words),
        second: table(corners, words),
        room: number(words),
        number: number(words),
        pieces: number(words),
        bytes: list(words),
    };
    assert_eq!(words.next(), None, "{name}");
    cut
}

/// The rows of a table; every other cell has a value that no search may look at.
fn table(corners: usize, words: &mut dyn Iterator<Item = &str>) -> Vec<u8> {
    let mut cells = vec![200; ROW * ROW];
    for row in cells.chunks_mut(ROW).take(corners) {
        row[..corners].fill_with(|| number(words));
    }
    cells
}

/// A drawing's coordinates, the word of its judgement, and if it is sound its rows of sight.
pub struct Seen {
    pub drawing: Vec<i32>,
    pub judgement: &'static str,
    pub rows: Vec<&'static str>,
}

pub fn sights() -> Vec<Seen> {
    data!("test_sights/data/sight.txt").lines().map(seen).collect()
}

fn seen(line: &'static str) -> Seen {
    let words = &mut line.split_whitespace();
    let n: usize = number(words);
    Seen {
        drawing: (0..2 * n).map(|_| number(words)).collect(),
        judgement: words.next().expect("a line has no judgement"),
        rows: words.collect(),
    }
}
