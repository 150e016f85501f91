//! Whole inputs with a fault, which 01, "The frames on the wire", mostly answers with EF.

use super::dice::Dice;
use super::{pair, Kind};
use crate::frames::{FIRST, SECOND};

/// A line without its line feed.
type Line = Vec<u8>;

enum Fault {
    /// In some line.
    Line(fn(&mut Dice, &mut Line)),
    /// In the order or the number of the lines.
    Lines(fn(&mut Dice, &mut Vec<Line>)),
    /// In the whole input.
    Input(fn(&mut Dice, &[Line]) -> Vec<u8>),
}

const FAULTS: [Fault; 22] = [
    Fault::Line(tag_of_other_drawing),
    Fault::Line(other_tag),
    Fault::Line(high_count),
    Fault::Line(other_count),
    Fault::Line(lower_case),
    Fault::Line(other_symbol),
    Fault::Line(extra_symbol),
    Fault::Line(missing_symbol),
    Fault::Line(missing_byte),
    Fault::Line(extra_byte),
    Fault::Line(missing_corner),
    Fault::Line(extra_corner),
    Fault::Line(long_line),
    Fault::Lines(blank_line),
    Fault::Lines(dropped_line),
    Fault::Lines(doubled_line),
    Fault::Lines(moved_line),
    Fault::Lines(fewer_lines),
    Fault::Input(cut_short),
    Fault::Input(changed_byte),
    Fault::Input(other_ends),
    Fault::Input(noise),
];

/// An input for each fault, which stands among one to four pairs.
pub fn every_fault(dice: &mut Dice) -> Vec<Vec<u8>> {
    let input = |fault: &Fault| {
        let pairs = 1 + dice.below(4);
        with_fault(dice, fault, pairs)
    };
    FAULTS.iter().map(input).collect()
}

/// An input of so many pairs, at least one, with some fault.
pub fn malformed(dice: &mut Dice, pairs: usize) -> Vec<u8> {
    let fault = &FAULTS[dice.below(FAULTS.len())];
    with_fault(dice, fault, pairs)
}

fn with_fault(dice: &mut Dice, fault: &Fault, pairs: usize) -> Vec<u8> {
    let mut lines = some_lines(dice, pairs);
    match fault {
        Fault::Line(fault) => {
            let at = dice.below(lines.len());
            fault(dice, &mut lines[at]);
        }
        Fault::Lines(fault) => fault(dice, &mut lines),
        Fault::Input(fault) => return fault(dice, &lines),
    }
    ended_by(&lines, b"\n")
}

fn some_lines(dice: &mut Dice, pairs: usize) -> Vec<Line> {
    let mut lines = Vec::new();
    for _ in 0..pairs {
        let frames = pair(dice, Kind::Mixed).frames();
        let frames = frames.expect("a pair of this kind can be told in frames");
        lines.extend(frames.split(|&b| b == b'\n').take(2).map(<[u8]>::to_vec));
    }
    lines
}

fn ended_by(lines: &[Line], end: &[u8]) -> Vec<u8> {
    lines.iter().flat_map(|line| [line, end].concat()).collect()
}

fn tag_of_other_drawing(_: &mut Dice, line: &mut Line) {
    line[0] = b'1' + b'2' - line[0];
}

fn other_tag(dice: &mut Dice, line: &mut Line) {
    let tags = (0..=255).filter(|&tag| tag != FIRST && tag != SECOND);
    let tag: u8 = dice.pick(&tags.collect::<Vec<u8>>());
    line.splice(..2, format!("{tag:02X}").bytes());
}

/// A count above 40 hexadecimal, with as many corners as it tells.
fn high_count(dice: &mut Dice, line: &mut Line) {
    let n = dice.pick(&[0x41, 0x42, 0x80, 0xFF]);
    line.splice(2..4, format!("{n:02X}").bytes());
    line.resize(4 + 12 * n, b'0');
}

/// A count that the line mostly does not have.
fn other_count(dice: &mut Dice, line: &mut Line) {
    let n = dice.below(256);
    line.splice(2..4, format!("{n:02X}").bytes());
}

/// Digits a-f, at least one.
fn lower_case(_: &mut Dice, line: &mut Line) {
    let last = line.len() - 1;
    line[last] = b'F';
    line.make_ascii_lowercase();
}

/// Symbols that are no digits, those beside the digits among them.
const OTHERS: &[u8] = b"/:@G`agfz \t\r\0\x0B\x0C-+xX.,\x7F\x80\xB0\xFF";

fn other_symbol(dice: &mut Dice, line: &mut Line) {
    let at = dice.below(line.len());
    line[at] = dice.pick(OTHERS);
}

fn extra_symbol(dice: &mut Dice, line: &mut Line) {
    let places = [0, line.len(), dice.below(line.len() + 1)];
    let symbols = [b'0', dice.pick(OTHERS)];
    line.insert(dice.pick(&places), dice.pick(&symbols));
}

fn missing_symbol(dice: &mut Dice, line: &mut Line) {
    line.remove(dice.below(line.len()));
}

fn missing_byte(_: &mut Dice, line: &mut Line) {
    line.truncate(line.len() - 2);
}

fn extra_byte(_: &mut Dice, line: &mut Line) {
    line.extend(b"00");
}

fn missing_corner(_: &mut Dice, line: &mut Line) {
    line.truncate(line.len().saturating_sub(12));
}

fn extra_corner(_: &mut Dice, line: &mut Line) {
    line.extend(b"000000000000");
}

fn long_line(dice: &mut Dice, line: &mut Line) {
    let length = dice.pick(&[772, 773, 774, 1000, 1024, 4096, 65_536, 70_000]);
    line.resize(length, b'0');
}

fn blank_line(dice: &mut Dice, lines: &mut Vec<Line>) {
    lines.insert(dice.below(lines.len() + 1), Vec::new());
}

fn dropped_line(dice: &mut Dice, lines: &mut Vec<Line>) {
    lines.remove(dice.below(lines.len()));
}

fn doubled_line(dice: &mut Dice, lines: &mut Vec<Line>) {
    let at = dice.below(lines.len());
    lines.insert(at, lines[at].clone());
}

fn moved_line(dice: &mut Dice, lines: &mut Vec<Line>) {
    let line = lines.remove(dice.below(lines.len()));
    lines.insert(dice.below(lines.len() + 1), line);
}

fn fewer_lines(dice: &mut Dice, lines: &mut Vec<Line>) {
    lines.truncate(dice.below(lines.len()));
}

/// The input ends anywhere: within a line, after a 10, before the first line feed.
fn cut_short(dice: &mut Dice, lines: &[Line]) -> Vec<u8> {
    let mut input = ended_by(lines, b"\n");
    input.truncate(dice.below(input.len() + 1));
    input
}

fn changed_byte(dice: &mut Dice, lines: &[Line]) -> Vec<u8> {
    let mut input = ended_by(lines, b"\n");
    let at = dice.below(input.len());
    input[at] = dice.below(256) as u8;
    input
}

fn other_ends(dice: &mut Dice, lines: &[Line]) -> Vec<u8> {
    let ends: [&[u8]; 6] = [b"\r\n", b"\r", b" \n", b"\0\n", b"\n\n", b""];
    ended_by(lines, dice.pick(&ends))
}

fn noise(dice: &mut Dice, _: &[Line]) -> Vec<u8> {
    let symbols: &[u8] = dice.pick(&[b"0123456789ABCDEF\n", b"1024\n0", b"\n", b"10\n20"]);
    (0..dice.below(60)).map(|_| dice.pick(symbols)).collect()
}
