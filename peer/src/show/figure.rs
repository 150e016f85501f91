//! One drawing on the page: its outline with numbered corners, and on it the pieces of the
//! cutting and a mark that is carried, or pieces with what is wrong with them, or the marks of a
//! refusal.

use super::colours::COLOURS;
use super::faults::Wrong;
use super::grazing::{self, lines_of_sight, Grazing};
use super::labels::{font, leader, Label, Surroundings};
use super::marks::{Marks, Meeting};
use super::plane::{distance, point, roomiest, sides, Point, Scale};
use super::svg;
use super::words::{letters, spans};
use crate::checker::inner_lines;
use crate::drawing::{doubled_area, Corner};
use crate::telling::Piece;

/// The space about a drawing in which its labels stand.
pub const MARGIN: f64 = 24.0;

/// The greatest radius of a centre's wedge.
const WEDGE: f64 = 13.0;

/// The colour of lines that one drawing sees and the other does not, as `style.css` has it.
const SEEN: &str = "#0b62a8";

/// The radius of a ring about what is marked, and how many there are at most.
const RING: f64 = 7.5;
const MOST_RINGS: usize = 64;

/// The size of a piece's letter, and the room that it needs.
const LETTER: f64 = 13.0;
const LETTER_ROOM: f64 = 6.5;

/// How far the diamond of a carried mark reaches, and how far from the drawing it is still drawn.
const DIAMOND: f64 = 5.0;
const NEAR: f64 = MARGIN - DIAMOND;

/// What is drawn on an outline.
#[derive(Clone, Copy)]
pub enum Content<'a> {
    /// Pieces and the numbers of their colours; where the mark is, in the drawing's units.
    Cut(&'a [Piece], &'a [usize], Option<[f64; 2]>),
    /// The same with what is wrong in this drawing.
    Wrong(&'a [Piece], &'a [usize], &'a Wrong),
    Refused(&'a Marks),
}

/// The drawing in the middle of a box with this upper left corner and this size.
pub fn figure(
    drawing: &[Corner],
    scale: &Scale,
    corner: Point,
    size: Point,
    content: Content,
) -> String {
    let origin = point(
        corner.x + (size.x - scale.size().x) / 2.0,
        corner.y + (size.y - scale.size().y) / 2.0,
    );
    let outline = scale.place(drawing, origin);
    let rings = match content {
        Content::Cut(_, _, mark) => {
            let spot = mark.and_then(|mark| scale.spot(mark, origin, NEAR));
            spot.into_iter().map(|spot| (spot, DIAMOND)).collect()
        }
        Content::Wrong(_, _, wrong) => {
            wrong.missed.iter().map(|&[_, corner]| (outline[corner], RING)).collect()
        }
        Content::Refused(marks) => rings(&outline, marks),
    };
    let lines = match content {
        Content::Wrong(_, _, wrong) => placed(&outline, &wrong.all_lines()),
        _ => Vec::new(),
    };
    let surroundings = Surroundings {
        outline: &outline,
        anticlockwise: doubled_area(drawing) >= 0,
        rings: &rings,
        lines: &lines,
        bounds: [corner, point(corner.x + size.x, corner.y + size.y)],
    };
    let labels = surroundings.labels();
    let on_outline = match content {
        Content::Cut(pieces, colours, _) => {
            let grazing = grazing::of_pieces(drawing, pieces);
            cut(&outline, &labels, &rings, pieces, colours, &grazing) + &diamonds(&rings)
        }
        Content::Wrong(pieces, colours, wrong) => {
            faulty(&outline, pieces, colours, wrong)
                + &circles(&rings)
                + &all_letters(&outline, &labels, &rings, pieces)
        }
        Content::Refused(marks) => refused(&outline, marks, &rings),
    };
    let numbers = numbers(&outline, &labels);
    format!("<g class=\"drawing\">\n{on_outline}{numbers}</g>\n")
}

/// A diamond in each ring.
fn diamonds(rings: &[(Point, f64)]) -> String {
    let diamond = |&(middle, reach): &(Point, f64)| {
        let ways = [point(0.0, -1.0), point(1.0, 0.0), point(0.0, 1.0), point(-1.0, 0.0)];
        svg::polygon("carried", &ways.map(|way| middle.moved(way, reach)))
    };
    rings.iter().map(diamond).collect()
}

/// The numbers of the corners, with a line to those that stand far off.
fn numbers(outline: &[Point], labels: &[Label]) -> String {
    let font = font(outline.len());
    let far = outline.iter().zip(labels).filter_map(|(&corner, label)| leader(corner, label, font));
    let mut text = svg::segments("leader", &far.collect::<Vec<_>>());
    for (i, label) in labels.iter().enumerate() {
        text += &svg::centred_text("number", label.middle, font, &i.to_string());
    }
    text
}

/// The outline over whatever has been drawn in it, and its corners.
fn border(outline: &[Point]) -> String {
    let fine = if outline.len() > 32 { " fine" } else { "" };
    let radius = if outline.len() > 32 { 1.5 } else { 2.2 };
    let mut text = svg::polygon(&format!("outline{fine}"), outline);
    for &corner in outline {
        text += &svg::circle("corner", corner, radius);
    }
    text
}

fn cut(
    outline: &[Point],
    labels: &[Label],
    rings: &[(Point, f64)],
    pieces: &[Piece],
    colours: &[usize],
    grazing: &[Vec<Grazing>],
) -> String {
    let mut text = String::new();
    for (k, (piece, &colour)) in pieces.iter().zip(colours).enumerate() {
        let words = format!("{}: {}", letters(k), described(piece));
        let region = region(outline, piece);
        text += &svg::titled_polygon("piece", COLOURS[colour].fill, &region, &words);
    }
    for ((piece, grazing), &colour) in pieces.iter().zip(grazing).zip(colours) {
        let grazes = |line: &&[usize; 2]| grazing.iter().any(|other| other.ends == **line);
        let clear: Vec<[usize; 2]> =
            lines_of_sight(piece).iter().filter(|line| !grazes(line)).copied().collect();
        text += &svg::coloured_segments("sight", COLOURS[colour].dark, &placed(outline, &clear));
        text += &grazing_lines(outline, grazing, COLOURS[colour].dark);
    }
    text += &cuts(outline, pieces);
    for (piece, &colour) in pieces.iter().zip(colours) {
        text += &wedge(outline, piece, COLOURS[colour].dark);
    }
    text += &border(outline);
    for (grazing, &colour) in grazing.iter().zip(colours) {
        text += &dots(outline, grazing, COLOURS[colour].dark);
    }
    for piece in pieces {
        text += &svg::circle("centre", outline[piece.centre], ring(outline.len()));
    }
    text + &all_letters(outline, labels, rings, pieces)
}

/// The lines between the pieces, with a white edge.
fn cuts(outline: &[Point], pieces: &[Piece]) -> String {
    let cuts = placed(outline, &inner_lines(outline.len(), pieces));
    svg::segments("cut-edge", &cuts) + &svg::segments("cut", &cuts)
}

fn all_letters(
    outline: &[Point],
    labels: &[Label],
    rings: &[(Point, f64)],
    pieces: &[Piece],
) -> String {
    let named = pieces.iter().enumerate();
    named.map(|(k, piece)| letter(outline, labels, rings, piece, &letters(k))).collect()
}

/// Pieces of a list, those at fault in their colours and the others pale, and what is wrong over
/// them all. The centre of a piece and what it sees are drawn where it misses something.
fn faulty(outline: &[Point], pieces: &[Piece], colours: &[usize], wrong: &Wrong) -> String {
    let at_fault = |k: &usize| wrong.pieces.contains(k);
    let mut text = String::new();
    let (faulty, others): (Vec<usize>, Vec<usize>) = (0..pieces.len()).partition(at_fault);
    for (class, places) in [("piece pale", others), ("piece", faulty.clone())] {
        for k in places {
            let words = format!("{}: {}", letters(k), described(&pieces[k]));
            let region = region(outline, &pieces[k]);
            text += &svg::titled_polygon(class, COLOURS[colours[k]].fill, &region, &words);
        }
    }
    let misses = !wrong.missed.is_empty();
    for &k in faulty.iter().filter(|_| misses) {
        let seen = |line: &[usize; 2]| !wrong.missed.contains(line);
        let clear: Vec<[usize; 2]> = lines_of_sight(&pieces[k]).into_iter().filter(seen).collect();
        let dark = COLOURS[colours[k]].dark;
        text += &svg::coloured_segments("sight", dark, &placed(outline, &clear));
    }
    text += &cuts(outline, pieces);
    for &k in faulty.iter().filter(|_| misses) {
        text += &wedge(outline, &pieces[k], COLOURS[colours[k]].dark);
    }
    text += &border(outline);
    text += &svg::segments("wrong", &placed(outline, &wrong.lines));
    text += &svg::segments("missed", &placed(outline, &wrong.missed));
    for &k in faulty.iter().filter(|_| misses) {
        text += &svg::circle("centre", outline[pieces[k].centre], ring(outline.len()));
    }
    text
}

/// The radius of the ring at a centre.
fn ring(n: usize) -> f64 {
    if n > 32 {
        2.6
    } else {
        3.6
    }
}

/// "centre 0, corners 0-3, 5".
pub fn described(piece: &Piece) -> String {
    let corners = spans(&piece.corners);
    format!("centre {}, corners {corners}", piece.centre)
}

fn region(outline: &[Point], piece: &Piece) -> Vec<Point> {
    piece.corners.iter().map(|&i| outline[i]).collect()
}

/// Lines between corners, on the page.
fn placed(outline: &[Point], lines: &[[usize; 2]]) -> Vec<[Point; 2]> {
    lines.iter().map(|line| line.map(|i| outline[i])).collect()
}

/// The lines that touch a third corner, if there are any: broad, so that one that runs along the
/// outline shows on either side of it.
fn grazing_lines(outline: &[Point], grazing: &[Grazing], colour: &str) -> String {
    if grazing.is_empty() {
        return String::new();
    }
    let lines: Vec<[usize; 2]> = grazing.iter().map(|line| line.ends).collect();
    svg::coloured_segments("grazing", colour, &placed(outline, &lines))
}

/// A dot on each corner that is touched.
fn dots(outline: &[Point], grazing: &[Grazing], colour: &str) -> String {
    let mut touched: Vec<usize> = grazing.iter().flat_map(|line| line.touched.clone()).collect();
    touched.sort();
    touched.dedup();
    let radius = ring(outline.len());
    touched.iter().map(|&i| svg::dot("touched", colour, outline[i], radius)).collect()
}

/// The angle of the piece at its centre, filled: it shows which piece has its centre there.
fn wedge(outline: &[Point], piece: &Piece, colour: &str) -> String {
    let centre = outline[piece.centre];
    let mut others = region(outline, piece);
    let at = piece.corners.iter().take_while(|&&i| i != piece.centre);
    others.rotate_left(at.count());
    others.remove(0);
    // It reaches as far as the sides that do not end at the centre leave it room.
    let rooms = others.windows(2).map(|two| distance(centre, [two[0], two[1]]));
    let radius = rooms.map(|room| 0.6 * room).fold(WEDGE, f64::min);
    let ways = [others[0], others[others.len() - 1]].map(|end| centre.to(end).unit());
    svg::sector("wedge", colour, centre, ways, radius)
}

/// The piece's letter where there is most room, if there is enough of it: off the sides, the labels
/// and the rings, and off the centre and its lines too if that can be had.
fn letter(
    outline: &[Point],
    labels: &[Label],
    rings: &[(Point, f64)],
    piece: &Piece,
    name: &str,
) -> String {
    let region = region(outline, piece);
    let sight = placed(outline, &lines_of_sight(piece));
    let from_labels = |p: Point| {
        let rooms = labels.iter().map(|label| label.distance(p));
        let from_rings = rings.iter().map(|(middle, radius)| middle.to(p).length() - radius);
        rooms.chain(from_rings).fold(f64::INFINITY, f64::min)
    };
    let from_sides = |p: Point| {
        let rooms = sides(&region).map(|side| distance(p, side));
        rooms.fold(from_labels(p), f64::min)
    };
    let from_all = |p: Point| {
        let rooms = sight.iter().map(|&line| 1.3 * distance(p, line));
        let from_centre = outline[piece.centre].to(p).length() - WEDGE;
        rooms.fold(from_sides(p).min(from_centre), f64::min)
    };
    let enough = |place: &(Point, f64)| place.1 >= LETTER_ROOM;
    let place = roomiest(&region, from_all).filter(enough);
    let place = place.or_else(|| roomiest(&region, from_sides).filter(enough));
    place.map_or(String::new(), |(p, _)| svg::centred_text("letter", p, LETTER, name))
}

fn refused(outline: &[Point], marks: &Marks, rings: &[(Point, f64)]) -> String {
    let mut text = svg::polygon("plain", outline);
    if let Marks::Seen(lines, grazing) = marks {
        text += &svg::segments("seen", &placed(outline, lines));
        text += &grazing_lines(outline, grazing, SEEN);
    }
    text += &border(outline);
    if let Marks::Seen(_, grazing) = marks {
        text += &dots(outline, grazing, SEEN);
    }
    text += &circles(rings);
    if let Marks::Way = marks {
        text += &arrows(outline);
    }
    text
}

fn circles(rings: &[(Point, f64)]) -> String {
    rings.iter().map(|&(middle, radius)| svg::circle("mark", middle, radius)).collect()
}

/// The rings about what is marked: their middles and radii. So many that none can be told from
/// the others are not all drawn.
fn rings(outline: &[Point], marks: &Marks) -> Vec<(Point, f64)> {
    let middles: Vec<Point> = match marks {
        Marks::Corners(corners) => corners.iter().map(|&i| outline[i]).collect(),
        Marks::Meetings(meetings) => {
            let middle = |meeting: &Meeting| {
                let from = meeting.sides[0];
                let (a, b) = (outline[from], outline[(from + 1) % outline.len()]);
                a.moved(a.to(b), meeting.along)
            };
            meetings.iter().map(middle).collect()
        }
        Marks::Nothing | Marks::Way | Marks::Seen(..) => Vec::new(),
    };
    middles.into_iter().take(MOST_RINGS).map(|middle| (middle, RING)).collect()
}

/// A small arrow head in the middle of each side that is long enough.
fn arrows(outline: &[Point]) -> String {
    let head = |[a, b]: [Point; 2]| {
        let way = a.to(b).unit();
        let middle = a.moved(a.to(b), 0.5);
        let across = point(-way.y, way.x);
        let back = middle.moved(way, -4.5);
        svg::polygon(
            "arrow",
            &[middle.moved(way, 5.5), back.moved(across, 4.8), back.moved(across, -4.8)],
        )
    };
    let long = |[a, b]: &[Point; 2]| a.to(*b).length() > 14.0;
    sides(outline).filter(long).map(head).collect()
}
