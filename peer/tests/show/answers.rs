//! Pages of the recorded answers: every piece is filled, in both drawings.

use crate::recorded::{malformed, BIG, EDGE, SMALL};
use crate::sheet::{assert_sound, count, drawings, outline, polygons, segments, values};
use peer::drawing::{corners, doubled_area, Corner};
use peer::show::{page, words};

fn lines(text: &str) -> Vec<&str> {
    text.split_inclusive('\n').collect()
}

/// Each pair of an input with its answer.
fn answered<'a>(frames: &'a str, answers: &'a str) -> Vec<(String, &'a str)> {
    let frames = lines(frames);
    let pairs = frames.chunks_exact(2).map(|two| two.concat());
    pairs.zip(lines(answers)).collect()
}

fn bytes(hexadecimal: &str) -> Vec<u8> {
    let byte = |k: usize| u8::from_str_radix(&hexadecimal[k..k + 2], 16).unwrap();
    (0..hexadecimal.trim_end().len()).step_by(2).map(byte).collect()
}

/// The corners of each piece that an answer tells.
fn told(answer: &[u8]) -> Vec<Vec<usize>> {
    let mut pieces = Vec::new();
    let mut rest = &answer[2..];
    while let [k, _, after @ ..] = rest {
        let (corners, later) = after.split_at(usize::from(*k));
        pieces.push(corners.iter().map(|&corner| usize::from(corner)).collect());
        rest = later;
    }
    pieces
}

/// The drawings of a pair's two lines.
pub fn drawn(pair: &str) -> Vec<Vec<Corner>> {
    let drawing = |line: &str| {
        let bytes = bytes(line);
        let number = |b: &[u8]| i32::from_be_bytes([b[0], b[1], b[2], 0]) >> 8;
        corners(&bytes[2..].chunks_exact(3).map(number).collect::<Vec<_>>())
    };
    pair.lines().map(drawing).collect()
}

fn extent(corners: &[Corner], way: fn(&Corner) -> i64) -> f64 {
    let numbers = || corners.iter().map(way);
    (numbers().max().unwrap() - numbers().min().unwrap()) as f64
}

/// The filled pieces are those told, in both drawings, and make up the drawing; the drawing has
/// the area that it has on the wire.
fn assert_cut(page: &str, pair: &str, answer: &str) {
    let answer = bytes(answer);
    let told = told(&answer);
    assert_eq!(told.len(), usize::from(answer[1]));
    for (drawing, corners) in drawings(page).into_iter().zip(drawn(pair)) {
        let outline = outline(drawing);
        let pieces = polygons(drawing, "piece");
        let regions = told.iter().map(|piece| piece.iter().map(|&i| outline[i]).collect());
        assert_eq!(pieces, regions.collect::<Vec<Vec<Corner>>>());
        let area: i128 = pieces.iter().map(|piece| doubled_area(piece)).sum();
        assert_eq!(area, doubled_area(&outline));
        let scale = |way: fn(&Corner) -> i64| extent(&outline, way) / extent(&corners, way);
        let expected = doubled_area(&corners) as f64 * scale(|c| c.x) * scale(|c| c.y);
        let boxed = extent(&outline, |c| c.x) * extent(&outline, |c| c.y);
        assert!((area as f64 + expected).abs() < 0.01 * boxed, "{area} {expected}");
        assert_eq!(count(drawing, "number"), corners.len());
        assert_eq!(count(drawing, "wedge"), pieces.len());
        assert_eq!(segments(drawing, "cut").len(), pieces.len() - 1);
        let seen: usize = told.iter().map(|piece| piece.len() - 1).sum();
        let touching = segments(drawing, "grazing").len();
        assert_eq!(segments(drawing, "sight").len() + touching, seen);
        assert_eq!(count(drawing, "touched") > 0, touching > 0);
    }
    let drawings = drawings(page);
    assert_eq!(drawings.len(), 2);
    let fills = values(drawings[0], "piece", "fill");
    assert_eq!(fills, values(drawings[1], "piece", "fill"));
    for (i, piece) in told.iter().enumerate() {
        for (j, other) in told.iter().enumerate().take(i) {
            let shared = piece.iter().filter(|corner| other.contains(corner)).count();
            assert!(shared < 2 || fills[i] != fills[j], "pieces on one cut");
        }
    }
}

fn show_each(frames: &str, answers: &str) {
    let answered = answered(frames, answers);
    assert_eq!(2 * answered.len(), lines(frames).len());
    for (pair, answer) in answered {
        let page = page(pair.as_bytes(), Some(answer.as_bytes()));
        assert_sound(&page);
        assert!(page.len() < 200_000);
        if answer.starts_with("A0") {
            assert_cut(&page, &pair, answer);
        } else {
            assert_eq!((count(&page, "piece"), drawings(&page).len()), (0, 2));
            assert!(page.contains(words::line(bytes(answer)[1])));
        }
    }
}

#[test]
fn pairs_of_few_corners() {
    show_each(SMALL.input, SMALL.output);
}

#[test]
fn pairs_of_corner_cases() {
    show_each(EDGE.input, EDGE.output);
}

#[test]
fn pairs_of_many_corners() {
    let (frames, answers) = (lines(BIG.input), lines(BIG.output));
    show_each(&frames[..80].concat(), &answers[..40].concat());
}

#[test]
fn malformed_inputs() {
    for whole in malformed() {
        let page = page(whole.input, Some(whole.output));
        assert_sound(&page);
        let ended = whole.output.ends_with(b"EF\n");
        assert_eq!(page.contains("EF: the program ended the run here."), ended, "{}", whole.name);
        assert!(!page.contains("The answers go on"), "{}", whole.name);
    }
}
