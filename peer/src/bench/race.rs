//! Turn by turn: in every turn each contestant works once in each stage, one after the other, so
//! that whatever else the machine does meets all of them alike.

use super::contestants::{Work, Works};
use super::Times;
use std::hint::black_box;
use std::time::{Duration, Instant};

/// How many turns there are, and how long a contestant works in one.
#[derive(Clone, Copy)]
pub struct Turns {
    pub count: usize,
    pub length: Duration,
}

/// The best times of each contestant on so many pairs.
pub fn race<const N: usize>(turns: Turns, mut works: [Works; N], pairs: usize) -> [Times; N] {
    let mut times = [Times::default(); N];
    let mut runners = Vec::new();
    for (works, times) in works.iter_mut().zip(&mut times) {
        for (stage, (work, time)) in works.iter_mut().zip(times).enumerate() {
            if let Some(work) = work {
                let passes = passes(turns, work, pairs);
                runners.push(Runner { stage, work, passes, best: time.insert(f64::INFINITY) });
            }
        }
    }
    // Those who do the same follow each other.
    runners.sort_by_key(|runner| runner.stage);
    for _ in 0..turns.count {
        runners.iter_mut().for_each(|runner| runner.turn(pairs));
    }
    times
}

/// A contestant in one stage.
struct Runner<'a, 'b> {
    stage: usize,
    work: &'a mut Work<'b>,
    /// How many passes over the pairs it makes in a turn.
    passes: usize,
    /// Its best time so far, in microseconds a pair.
    best: &'a mut f64,
}

impl Runner<'_, '_> {
    fn turn(&mut self, pairs: usize) {
        let time = time(self.work, pairs, self.passes).as_secs_f64() * 1e6;
        *self.best = self.best.min(time / (self.passes * pairs) as f64);
    }
}

/// How many passes over the pairs take as long as a turn.
pub fn passes(turns: Turns, work: &mut Work, pairs: usize) -> usize {
    let mut passes = 1;
    while time(work, pairs, passes) < turns.length {
        passes *= 2;
    }
    passes
}

/// The time of so many passes over the pairs.
pub fn time(work: &mut Work, pairs: usize, passes: usize) -> Duration {
    let start = Instant::now();
    for _ in 0..passes {
        (0..pairs).for_each(|k| work(black_box(k)));
    }
    start.elapsed()
}

/// The times of each work in so many turns, in microseconds a pair, if there are any pairs. All make
/// as many passes over them as the first makes in a turn.
pub fn turn_by_turn<const N: usize>(
    turns: Turns,
    count: usize,
    mut works: [Work; N],
    pairs: usize,
) -> Vec<[f64; N]> {
    if pairs == 0 {
        return Vec::new();
    }
    let passes = passes(turns, &mut works[0], pairs);
    let turn = |_| {
        works.each_mut().map(|work| {
            let spent = time(work, pairs, passes).as_secs_f64() * 1e6;
            spent / (passes * pairs) as f64
        })
    };
    (0..count).map(turn).collect()
}
