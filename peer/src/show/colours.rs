//! The colours of pieces: a dozen that stay apart for people who do not tell red from green, or
//! blue from yellow, and each with a dark one for what is drawn on it.

use crate::telling::Piece;

pub struct Colour {
    pub fill: &'static str,
    pub dark: &'static str,
}

const fn colour(fill: &'static str, dark: &'static str) -> Colour {
    Colour { fill, dark }
}

pub const COLOURS: [Colour; 12] = [
    colour("#8fc1e8", "#00547b"),
    colour("#ffe7a0", "#5b4d0b"),
    colour("#e07a98", "#701038"),
    colour("#83ab5e", "#1a4200"),
    colour("#b8f2dc", "#005943"),
    colour("#ffb3a1", "#793c2f"),
    colour("#6a9bdc", "#003c73"),
    colour("#dcb9cb", "#733b5b"),
    colour("#dcf3ff", "#005675"),
    colour("#c9d884", "#435402"),
    colour("#a19a6c", "#3d3b08"),
    colour("#b98abf", "#522958"),
];

/// The number of each piece's colour: in turn, but never that of a piece on the same cut.
pub fn numbers(pieces: &[Piece]) -> Vec<usize> {
    let mut numbers: Vec<usize> = Vec::new();
    for (k, piece) in pieces.iter().enumerate() {
        let beside = |other: &Piece| {
            let shared = piece.corners.iter().filter(|c| other.corners.contains(c));
            shared.count() > 1
        };
        let taken = |colour: usize| (0..k).any(|j| numbers[j] == colour && beside(&pieces[j]));
        let turns = (k..k + COLOURS.len()).map(|turn| turn % COLOURS.len());
        let free = turns.clone().find(|&colour| !taken(colour));
        numbers.push(free.unwrap_or(k % COLOURS.len()));
    }
    numbers
}
