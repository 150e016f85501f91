//! The page: a head, the pairs one under the other, and why there is no more.

use super::colours::{self, COLOURS};
use super::figure::{self, Content, MARGIN};
use super::grazing;
use super::landings::{self, Landing};
use super::marks::{self, Marks};
use super::plane::{point, Point, Scale};
use super::reading::{self, Answer, Drawing, Frames};
use super::svg;
use super::words::{self, counted, grouped, wrapped, ENDED};
use crate::checker::inner_lines;
use crate::drawing::Corner;
use crate::marks::Mark;
use crate::telling::Piece;

/// The most pairs on one page, so that a page stays one that a browser opens.
pub const MOST_PAIRS: usize = 100;

/// Widths in the page's own units, and how large a unit is shown where there is room.
const WIDTH: f64 = 640.0;
const EDGE: f64 = 20.0;
const GAP: f64 = 16.0;
const BOX: f64 = (WIDTH - 2.0 * EDGE - GAP) / 2.0;
const LEAST_HEIGHT: f64 = 40.0;
const SHOWN: f64 = 1.5;

/// How many characters fit a line of words, and a line in the list of pieces.
const LINE: usize = 68;
const COLUMN: usize = 42;

/// How wide a character of a note is, a little more than less.
const CHARACTER: f64 = 6.4;

/// The page of an input and of what the program wrote for it, if that is known.
pub fn page(frames: &[u8], answers: Option<&[u8]>) -> String {
    whole(frames, answers, None)
}

/// The same with a mark of every first drawing, and where it lands in the second by the lines
/// given.
pub fn page_with_mark(
    frames: &[u8],
    answers: Option<&[u8]>,
    mark: Mark,
    landings: &[u8],
) -> String {
    let mark = Corner::at(i64::from(mark.x), i64::from(mark.y));
    whole(frames, answers, Some(Carried { mark, landings: landings::landings(landings) }))
}

/// A mark, and where it lands in each pair.
struct Carried {
    mark: Corner,
    landings: Vec<Landing>,
}

fn whole(frames: &[u8], answers: Option<&[u8]>, carried: Option<Carried>) -> String {
    let frames = reading::frames(frames);
    let known = answers.is_some();
    let answers = answers.map_or(Vec::new(), reading::answers);
    let mut shown = frames.pairs.iter().zip(&answers).take(MOST_PAIRS);
    let grazing = shown.any(|(pair, answer)| touches(pair, answer));
    let mut page = Page { carried, ..Page::default() };
    page.head(&frames, &answers, known);
    if grazing {
        page.key_of_grazing();
    }
    for (k, pair) in frames.pairs.iter().enumerate().take(MOST_PAIRS) {
        page.begin(&format!("Pair {}", k + 1));
        page.pair(k, pair, answers.get(k));
    }
    if frames.pairs.len() > MOST_PAIRS {
        page.more(frames.pairs.len() - MOST_PAIRS);
    } else {
        page.end(&frames, &answers);
    }
    page.finish()
}

/// Whether a line that touches a third corner is to be drawn in a pair.
fn touches(pair: &[Drawing; 2], answer: &Answer) -> bool {
    match answer {
        Answer::Cut(pieces) if reading::fits(pieces, pair) => grazing::any(pair, pieces),
        Answer::Refused(number) => {
            let marks = marks::of(*number, pair);
            marks.iter().any(|marks| matches!(marks, Marks::Seen(_, lines) if !lines.is_empty()))
        }
        _ => false,
    }
}

/// What draws a sign of the key, given where its left end is.
type Sign<'a> = dyn Fn(f64, f64) -> String + 'a;

#[derive(Default)]
pub struct Page {
    carried: Option<Carried>,
    /// Whether there are lines that touch a third corner, and pieces with something wrong in them.
    grazing: bool,
    faulty: bool,
    title: String,
    /// What the page tells, for those who hear it.
    told: Vec<String>,
    body: String,
    /// How far down the page goes.
    down: f64,
}

impl Page {
    /// A line of text, lower than all before.
    fn line(&mut self, class: &str, height: f64, words: &str) {
        self.down += height;
        self.body += &svg::text(class, point(EDGE, self.down), words);
    }

    /// Text in as many lines as it takes.
    fn lines(&mut self, class: &str, height: f64, words: &str) {
        for line in wrapped(words, LINE) {
            self.line(class, height, &line);
        }
    }

    /// A part of the page with a heading.
    pub fn begin(&mut self, heading: &str) {
        self.down += 22.0;
        let ends = [point(EDGE, self.down), point(WIDTH - EDGE, self.down)];
        self.body += &svg::segments("rule", &[ends]);
        self.line("heading", 30.0, heading);
        self.tell(heading);
    }

    /// Says in words what the outcome is.
    pub fn say(&mut self, class: &str, words: &str) {
        self.lines(class, 21.0, words);
        self.tell(words);
    }

    pub fn note(&mut self, words: &str) {
        self.lines("note", 18.0, words);
        self.tell(words);
    }

    /// Adds a sentence to what is told to those who do not see the page.
    fn tell(&mut self, words: &str) {
        self.told.push(format!("{}.", words.trim_end_matches('.')));
    }

    /// The title, and at the top of the page the same.
    pub fn entitle(&mut self, title: String) {
        self.down = 10.0;
        self.line("head", 18.0, &title);
        self.title = title;
    }

    fn head(&mut self, frames: &Frames, answers: &[Answer], known: bool) {
        let pairs = counted(frames.pairs.len(), "pair");
        self.entitle(format!("Iravikkon: {pairs} of drawings"));
        if frames.pairs.is_empty() && frames.stop.is_none() {
            self.note("The frames are empty: there is nothing to show.");
        }
        if !known {
            self.note("No answers were handed in: the drawings are shown alone.");
        }
        if answers.iter().any(|answer| matches!(answer, Answer::Cut(_))) {
            self.key();
        }
    }

    /// What the signs in a cutting mean.
    pub fn key(&mut self) {
        let colour = &COLOURS[0];
        let line = |x: f64, y: f64| [[point(x, y), point(x + 24.0, y)]];
        let up = point(0.5, -0.75_f64.sqrt());
        self.row_of_key(&[
            ("a piece", &|x, y| sample("sample", point(x, y))),
            ("a cut", &|x, y| svg::segments("cut", &line(x, y))),
            ("the centre of a piece", &|x, y| {
                let centre = point(x + 10.0, y + 4.0);
                let ways = [point(1.0, 0.0), up];
                svg::sector("sample", colour.dark, centre, ways, 13.0)
                    + &svg::circle("centre", centre, 3.6)
            }),
            ("its lines of sight", &|x, y| {
                svg::coloured_segments("sight", colour.dark, &line(x, y))
            }),
        ]);
    }

    /// What the signs mean in a list that is refused: pieces, and lines or corners if there are any.
    pub fn key_of_faults(&mut self, lines: bool, missed: bool) {
        self.faulty = true;
        let line = |x: f64, y: f64| [[point(x, y), point(x + 24.0, y)]];
        let [at_fault, other]: [&Sign; 2] =
            [&|x, y| sample("sample", point(x, y)), &|x, y| sample("sample pale", point(x, y))];
        let wrong: &Sign = &|x, y| svg::segments("wrong", &line(x, y));
        let misses: &Sign = &|x, y| {
            svg::segments("missed", &[[point(x, y), point(x + 16.0, y)]])
                + &svg::circle("mark", point(x + 20.0, y), 4.0)
        };
        let mut signs = vec![("a piece at fault", at_fault), ("another piece", other)];
        signs.extend(lines.then_some(("a line at fault", wrong)));
        signs.extend(missed.then_some(("a missed corner", misses)));
        self.row_of_key(&signs);
    }

    /// Signs with their words, beside each other.
    fn row_of_key(&mut self, signs: &[(&str, &Sign)]) {
        self.down += 25.0;
        let mut x = EDGE;
        for (words, sign) in signs {
            self.body += &sign(x, self.down - 4.5);
            self.body += &svg::text("note", point(x + 30.0, self.down), words);
            x += 52.0 + CHARACTER * words.len() as f64;
        }
    }

    /// What a line means that touches a third corner, in a row of its own.
    pub fn key_of_grazing(&mut self) {
        self.grazing = true;
        self.down += 22.0;
        let colour = &COLOURS[0];
        let y = self.down - 4.5;
        let [left, right] = [EDGE, EDGE + 38.0].map(|x| point(x, y));
        self.body += &svg::coloured_segments("grazing", colour.dark, &[[left, right]]);
        self.body += &svg::dot("touched", colour.dark, left.moved(left.to(right), 0.5), 3.6);
        let words = "a line of sight that touches the corner with the dot: no cut may follow it";
        self.body += &svg::text("note", point(right.x + 6.0, self.down), words);
    }

    fn pair(&mut self, k: usize, pair: &[Drawing; 2], answer: Option<&Answer>) {
        let wrong = match answer {
            Some(Answer::Cut(pieces)) if reading::fits(pieces, pair) => {
                return self.given(k, pieces, pair);
            }
            Some(Answer::Refused(number)) => return self.refused(*number, pair),
            Some(Answer::Cut(_)) => words::UNFIT,
            Some(Answer::Ended) => ENDED,
            Some(Answer::Unclear(line)) => &words::unclear(line),
            None => words::MISSING,
        };
        self.say("refusal", wrong);
        let [first, second] = pair;
        self.drawings([Some(first), Some(second)], [Content::Refused(&Marks::Nothing); 2]);
    }

    fn given(&mut self, k: usize, pieces: &[Piece], [first, second]: &[Drawing; 2]) {
        let n = first.len();
        let words = format!(
            "{} ({}, {}, {})",
            words::line(0),
            counted(n, "corner"),
            counted(inner_lines(n, pieces).len(), "cut"),
            counted(pieces.len(), "piece")
        );
        self.say("given", &words);
        let marks = self.carry(k);
        let colours = colours::numbers(pieces);
        let contents = marks.map(|mark| Content::Cut(pieces, &colours, mark));
        self.drawings([Some(first), Some(second)], contents);
        self.pieces(pieces, &colours, &|_| "sample");
    }

    /// Says where the mark lands in pair k. What is to be drawn of it: the mark in the first
    /// drawing, its place in the second.
    fn carry(&mut self, k: usize) -> [Option<[f64; 2]>; 2] {
        let Some(Carried { mark, landings }) = &self.carried else {
            return [None, None];
        };
        let landing = landings.get(k);
        let (here, said) = ([mark.x as f64, mark.y as f64], landings::said(*mark, landing));
        let marks = match landing {
            Some(Landing::Place(place)) => [Some(here), Some(landings::drawn(place))],
            Some(Landing::OnNoPiece) => [Some(here), None],
            _ => [None, None],
        };
        self.note(&said);
        marks
    }

    pub fn refused(&mut self, number: u8, pair: &[Drawing; 2]) {
        self.say("refusal", words::line(number));
        let marks = marks::of(number, pair);
        for ((marks, drawing), which) in marks.iter().zip(pair).zip(words::WHICH) {
            if let Some(words) = marks::words(marks, which, drawing) {
                self.note(&words);
            }
        }
        let [first, second] = pair;
        self.drawings([Some(first), Some(second)], marks.each_ref().map(Content::Refused));
    }

    /// The drawings side by side, each in its box and at its own scale.
    pub fn drawings(&mut self, drawings: [Option<&Drawing>; 2], contents: [Content; 2]) {
        let square = BOX - 2.0 * MARGIN;
        let scales = drawings.map(|drawing| drawing.map(|corners| Scale::of(corners, square)));
        let heights = scales.iter().flatten().map(|scale| scale.size().y);
        let size = point(BOX, heights.fold(LEAST_HEIGHT, f64::max) + 2.0 * MARGIN);
        self.down += 26.0;
        for (side, name) in ["First drawing", "Second drawing"].into_iter().enumerate() {
            let left = EDGE + side as f64 * (BOX + GAP);
            let at = |y: f64| point(left + BOX / 2.0, self.down + y);
            let mut text = svg::text("caption", at(0.0), name);
            if let (Some(drawing), Some(scale)) = (drawings[side], &scales[side]) {
                text += &svg::text("extent", at(15.0), &extent(drawing, scale));
                if let Some(stretched) = scale.stretched() {
                    text += &svg::text("extent", at(29.0), &stretched);
                }
                let corner = point(left, self.down + 18.0);
                text += &figure::figure(drawing, scale, corner, size, contents[side]);
            } else {
                text += &svg::text("extent", at(15.0), "missing");
            }
            self.body += &text;
        }
        self.down += 18.0 + size.y;
    }

    /// The pieces in words, in two columns, each with a sample of this class.
    pub fn pieces(
        &mut self,
        pieces: &[Piece],
        colours: &[usize],
        class: &dyn Fn(usize) -> &'static str,
    ) {
        let rows = pieces.len().div_ceil(2);
        let mut down = [self.down + 4.0; 2];
        for (k, (piece, &colour)) in pieces.iter().zip(colours).enumerate() {
            let column = k / rows;
            let at = point(EDGE + column as f64 * (BOX + GAP), down[column]);
            let (corner, size) = (point(at.x, at.y + 3.0), point(26.0, 15.0));
            let middle = corner.moved(size, 0.5);
            self.body += &svg::rectangle(class(k), COLOURS[colour].fill, corner, size);
            self.body += &svg::centred_text("letter", middle, 12.0, &words::letters(k));
            down[column] += self.piece(piece, at);
        }
        self.down = down[0].max(down[1]);
    }

    /// One piece in words below the point, and how high that is.
    fn piece(&mut self, piece: &Piece, at: Point) -> f64 {
        let mut height = 0.0;
        for line in wrapped(&figure::described(piece), COLUMN) {
            height += 15.0;
            self.body += &svg::text("note", point(at.x + 33.0, at.y + height), &line);
        }
        height + 7.0
    }

    /// What follows the pairs: a drawing alone, and why there is no more.
    fn end(&mut self, frames: &Frames, answers: &[Answer]) {
        let beyond = &answers[frames.pairs.len().min(answers.len())..];
        let ended = frames.stop.is_some() && matches!(beyond, [Answer::Ended, ..]);
        let surplus = beyond.len() - usize::from(ended);
        if frames.stop.is_some() || surplus > 0 {
            self.begin("End");
        }
        if let Some(stop) = &frames.stop {
            self.say("refusal", stop);
        }
        if ended {
            self.say("refusal", ENDED);
        }
        if surplus > 0 {
            self.say("refusal", &words::surplus(surplus));
        }
        if let Some(first) = &frames.lone {
            self.drawings([Some(first), None], [Content::Refused(&Marks::Nothing); 2]);
        }
    }

    fn more(&mut self, pairs: usize) {
        self.begin("More");
        let pairs = counted(pairs, "more pair");
        let line = 2 * MOST_PAIRS + 1;
        self.say(
            "given",
            &format!("{pairs} from line {line} of the frames on: a page shows {MOST_PAIRS}."),
        );
    }

    pub fn finish(self) -> String {
        let height = self.down + EDGE;
        let [shown, high] = [SHOWN * WIDTH, SHOWN * height].map(svg::number);
        let [width, height] = [WIDTH, height].map(svg::number);
        let title = svg::escaped(&self.title);
        let told = svg::escaped(&self.told.join(" "));
        let carried = self.carried.map_or("", |_| include_str!("carried.css"));
        let grazing = if self.grazing { include_str!("grazing.css") } else { "" };
        let faulty = if self.faulty { include_str!("faulty.css") } else { "" };
        let style = [include_str!("style.css"), carried, grazing, faulty].concat();
        let paper = svg::element(
            "rect",
            "paper",
            &[("width", "100%"), ("height", "100%"), ("fill", "#fff")],
        );
        format!(
            "<svg xmlns=\"http://www.w3.org/2000/svg\" role=\"img\" aria-labelledby=\"title told\" \
             width=\"{shown}\" height=\"{high}\" viewBox=\"0 0 {width} {height}\">\n\
             <title id=\"title\">{title}</title>\n<desc id=\"told\">{told}</desc>\n\
             <style>\n{style}</style>\n{paper}{}</svg>\n",
            self.body
        )
    }
}

/// A piece as the key has it, left of its words.
fn sample(class: &str, left: Point) -> String {
    svg::rectangle(class, COLOURS[0].fill, point(left.x, left.y - 7.0), point(24.0, 14.0))
}

/// The size of a drawing in its own units.
fn extent(drawing: &[Corner], scale: &Scale) -> String {
    let [width, height] = scale.extent.map(grouped);
    format!("{}, {width} \u{d7} {height} units", counted(drawing.len(), "corner"))
}
