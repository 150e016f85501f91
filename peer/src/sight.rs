//! The two kinds of sight of a drawing, as a table: all that the cutting rules learn of it.
//! 01, "Sight", for cuts; 02, K3, for centres.

use crate::centre_sight::centre_sees;
use crate::drawing::{sees, Corner};

/// Who sees whom in one drawing. A cell tells both kinds for one ordered pair of corners: it is odd
/// where the strict kind holds, and half of it, rounded down, where the centre's does.
#[derive(Clone, Debug, PartialEq, Eq)]
pub struct Sight {
    n: usize,
    cells: Vec<u8>,
}

/// The cell that tells these two.
pub fn cell(strict: bool, centre: bool) -> u8 {
    u8::from(strict) + 2 * u8::from(centre)
}

impl Sight {
    /// Any table of cells, of any values, whether a drawing has it or not.
    pub fn from_cells(n: usize, rule: impl Fn(usize, usize) -> u8) -> Sight {
        Sight { n, cells: (0..n * n).map(|at| rule(at / n, at % n)).collect() }
    }

    /// The table of cells that the rule gives for i <= j; sight goes both ways.
    pub fn from_rule(n: usize, mut rule: impl FnMut(usize, usize) -> u8) -> Sight {
        let mut cells = vec![0; n * n];
        for i in 0..n {
            for j in i..n {
                let seen = rule(i, j);
                cells[i * n + j] = seen;
                cells[j * n + i] = seen;
            }
        }
        Sight { n, cells }
    }

    pub fn corners(&self) -> usize {
        self.n
    }

    pub fn cell(&self, i: usize, j: usize) -> u8 {
        self.cells[i * self.n + j]
    }

    /// 01's strict sight, which a cut needs.
    pub fn sees(&self, i: usize, j: usize) -> bool {
        self.cell(i, j) % 2 == 1
    }

    /// Whether i, as a centre, sees j.
    pub fn centre_sees(&self, i: usize, j: usize) -> bool {
        self.cell(i, j) / 2 % 2 == 1
    }
}

/// The sight of all pairs of a sound drawing.
pub fn sight(drawing: &[Corner]) -> Sight {
    Sight::from_rule(drawing.len(), |i, j| cell(sees(drawing, i, j), centre_sees(drawing, i, j)))
}
