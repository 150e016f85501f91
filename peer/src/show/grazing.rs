//! Lines that touch a third corner: a centre sees along them, and a cut may not follow them.
//! 02, K3.

use crate::centre_sight::centre_sees;
use crate::drawing::{judge, sees, share_a_point, Corner, Judged};
use crate::telling::Piece;

/// A line and the corners that it touches between its ends.
pub struct Grazing {
    pub ends: [usize; 2],
    pub touched: Vec<usize>,
}

/// The lines of sight from a piece's centre to its other corners.
pub fn lines_of_sight(piece: &Piece) -> Vec<[usize; 2]> {
    let others = piece.corners.iter().filter(|&&i| i != piece.centre);
    others.map(|&i| [piece.centre, i]).collect()
}

/// For each piece its lines of sight that touch a third corner. Only a sound drawing is looked at: a
/// program may answer others.
pub fn of_pieces(drawing: &[Corner], pieces: &[Piece]) -> Vec<Vec<Grazing>> {
    let sound = judge(drawing) == Judged::Sound;
    let grazes = |&[i, j]: &[usize; 2]| sound && !sees(drawing, i, j) && centre_sees(drawing, i, j);
    let touching = |ends| Grazing { ends, touched: touched(drawing, ends) };
    let of_piece =
        |piece: &Piece| lines_of_sight(piece).into_iter().filter(grazes).map(touching).collect();
    pieces.iter().map(of_piece).collect()
}

/// Whether a line of sight of the pieces touches a third corner in either drawing.
pub fn any([first, second]: &[Vec<Corner>; 2], pieces: &[Piece]) -> bool {
    let touches = |drawing| of_pieces(drawing, pieces).iter().any(|lines| !lines.is_empty());
    touches(first) || touches(second)
}

/// The corners on a line between its ends.
pub fn touched(drawing: &[Corner], [i, j]: [usize; 2]) -> Vec<usize> {
    let on = |&k: &usize| {
        let corner = drawing[k];
        k != i && k != j && share_a_point(drawing[i], drawing[j], corner, corner)
    };
    (0..drawing.len()).filter(on).collect()
}
