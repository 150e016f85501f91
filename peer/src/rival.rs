//! A stronger plain search, for the benchmark to race against; the trials keep the peer's own.
//!
//! A piece uses the roads to its centre and the roads from its centre on, and no others. The first
//! kind is one table of pairs. Of the second kind a road from i to j has its centre x at i or
//! before, so that there are a quarter of the tries that the roads for every centre take, though
//! still in time n^4:
//!
//! ```text
//!     x <= i < b < j      a road from i to j for x: the line i-b, then the road from b to j
//! ```

use crate::sight::Sight;
use crate::telling::{self, cheapest, Cost, Costs, Piece, Seen, NONE};

/// The first smallest valid cutting in telling order, if there is a valid one.
pub fn first_smallest(first: &Sight, second: &Sight) -> Option<Vec<Piece>> {
    telling::first_smallest(&Search::of(Seen::in_both(first, second)))
}

struct Search {
    seen: Seen,
    /// The cost of the line i-j, i < j, at i*n + j.
    lines: Vec<Cost>,
    /// The cost of the cheapest road from i to its centre x, at x*n + i.
    to: Vec<Cost>,
    /// The cost of the cheapest road from i to j for the centre x <= i, at (j*n + x)*n + i.
    onward: Vec<Cost>,
}

impl Costs for Search {
    fn seen(&self) -> &Seen {
        &self.seen
    }

    fn line(&self, i: usize, j: usize) -> Cost {
        self.lines[i * self.seen.corners() + j]
    }

    fn road(&self, x: usize, i: usize, j: usize) -> Cost {
        let n = self.seen.corners();
        if x == j {
            self.to[x * n + i]
        } else {
            self.onward[(j * n + x) * n + i]
        }
    }
}

impl Search {
    fn of(seen: Seen) -> Search {
        let n = seen.corners();
        let table = |cells: usize| vec![NONE; cells];
        let (lines, to, onward) = (table(n * n), table(n * n), table(n * n * n));
        let mut search = Search { seen, lines, to, onward };
        for j in 0..n {
            search.column(j);
        }
        search
    }

    /// All lines and roads that end at j; those that end before j are known.
    fn column(&mut self, j: usize) {
        let n = self.seen.corners();
        for x in 0..j {
            if self.seen.sees(x, j) {
                self.onward[(j * n + x) * n + j] = 0;
            }
        }
        if self.seen.sees(j, j) {
            self.to[j * n + j] = 0;
        }
        for i in (0..j).rev() {
            self.reach(i, j);
        }
    }

    /// The line i-j, and the roads from i to j: by a corner between, or by the line itself.
    fn reach(&mut self, i: usize, j: usize) {
        let n = self.seen.corners();
        let steps = &self.lines[i * n..][i + 1..j];
        let to = bent(self.seen.sees(j, i), steps, &self.to[j * n..][i + 1..j]);
        let from_i = bent(self.seen.sees(i, i), steps, &self.onward[(j * n + i) * n..][i + 1..j]);
        let line = self.closing_cost(i, j, to.min(from_i));
        if self.seen.sees(j, i) && self.seen.sees(j, j) {
            self.to[j * n + i] = to.min(line);
        }
        let views = self.seen.viewers(i).iter().zip(self.seen.viewers(j));
        let roads = self.onward[j * n * n..].chunks_exact_mut(n).zip(views).take(i + 1);
        for (road, (sees_i, sees_j)) in roads {
            if *sees_i && *sees_j {
                road[i] = line.min(cheapest(steps, &road[i + 1..j]));
            }
        }
        self.lines[i * n + j] = line;
    }

    /// The cost of the line i-j, given that of the piece with a centre at i or j.
    fn closing_cost(&self, i: usize, j: usize, at_end: Cost) -> Cost {
        if j == i + 1 {
            return 0;
        }
        if !self.seen.closes(i, j) {
            return NONE;
        }
        let between = (i + 1..j).map(|x| self.road(x, i, x) + self.road(x, x, j));
        NONE.min(between.fold(at_end, Cost::min) + 1)
    }
}

/// The cheapest road with a corner between, for a centre that sees its beginning.
fn bent(sees: bool, steps: &[Cost], rests: &[Cost]) -> Cost {
    if sees {
        cheapest(steps, rests)
    } else {
        NONE
    }
}
