//! From two tables of sight to the first smallest cutting, in time n^4. The roads for every centre
//! between every two corners are found, whether a piece can use them or not; `telling` says what
//! roads are.

use crate::sight::Sight;
use crate::telling::{self, cheapest, Cost, Costs, Piece, Seen, NONE};

/// The first smallest valid cutting in telling order, if there is a valid one.
pub fn first_smallest(first: &Sight, second: &Sight) -> Option<Vec<Piece>> {
    telling::first_smallest(&Search::of(Seen::in_both(first, second)))
}

struct Search {
    seen: Seen,
    /// The cost of the line i-j, i < j, at i*n + j.
    lines: Vec<Cost>,
    /// The cost of the cheapest road from i to j for the centre x, at (j*n + x)*n + i.
    roads: Vec<Cost>,
}

impl Costs for Search {
    fn seen(&self) -> &Seen {
        &self.seen
    }

    fn line(&self, i: usize, j: usize) -> Cost {
        self.lines[i * self.seen.corners() + j]
    }

    fn road(&self, x: usize, i: usize, j: usize) -> Cost {
        let n = self.seen.corners();
        self.roads[(j * n + x) * n + i]
    }
}

impl Search {
    fn of(seen: Seen) -> Search {
        let n = seen.corners();
        let (lines, roads) = (vec![NONE; n * n], vec![NONE; n * n * n]);
        let mut search = Search { seen, lines, roads };
        for j in 0..n {
            search.column(j);
        }
        search
    }

    /// All lines and roads that end at j; those that end before j are known.
    fn column(&mut self, j: usize) {
        let n = self.seen.corners();
        for x in 0..n {
            if self.seen.sees(x, j) {
                self.roads[(j * n + x) * n + j] = 0;
            }
        }
        for i in (0..j).rev() {
            self.bend_roads(i, j);
            let cost = self.closing_cost(i, j);
            self.lines[i * n + j] = cost;
            self.straighten_roads(i, j, cost);
        }
    }

    /// The roads from i to j with a corner between.
    fn bend_roads(&mut self, i: usize, j: usize) {
        let n = self.seen.corners();
        let steps = &self.lines[i * n..][i + 1..j];
        let views = self.seen.viewers(i).iter().zip(self.seen.viewers(j));
        for (road, (sees_i, sees_j)) in self.roads[j * n * n..].chunks_exact_mut(n).zip(views) {
            if *sees_i && *sees_j {
                road[i] = cheapest(steps, &road[i + 1..j]);
            }
        }
    }

    /// The roads from i to j by the line i-j itself.
    fn straighten_roads(&mut self, i: usize, j: usize, cost: Cost) {
        let n = self.seen.corners();
        let views = self.seen.viewers(i).iter().zip(self.seen.viewers(j));
        for (road, (sees_i, sees_j)) in self.roads[j * n * n..].chunks_exact_mut(n).zip(views) {
            if *sees_i && *sees_j {
                road[i] = cost.min(road[i]);
            }
        }
    }

    /// The cost of the line i-j: none for a side, and `NONE` for a line that is not cut along. The
    /// roads from i to j have a corner between so far.
    fn closing_cost(&self, i: usize, j: usize) -> Cost {
        if j == i + 1 {
            return 0;
        }
        if !self.seen.closes(i, j) {
            return NONE;
        }
        let between = (i + 1..j).map(|x| self.road(x, i, x) + self.road(x, x, j)).min();
        let fewest = between.unwrap_or(NONE).min(self.road(i, i, j)).min(self.road(j, i, j));
        NONE.min(fewest + 1)
    }
}
