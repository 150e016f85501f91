//! Pairs a second on whole inputs, reading and writing included, turn by turn.

use std::hint::black_box;
use std::time::Instant;

/// What writes the output of an input.
pub type Run = Box<dyn Fn(&[u8]) -> Vec<u8>>;

/// The best rate of each in so many turns, over an input of frames; none for one that does not
/// write a line for each pair.
pub fn rates(turns: usize, runs: &[Run], input: &[u8]) -> Vec<Option<f64>> {
    let lines = |text: &[u8]| text.iter().filter(|&&byte| byte == b'\n').count();
    let pairs = lines(input) / 2;
    let mut best = vec![Some(f64::INFINITY); runs.len()];
    for _ in 0..turns {
        for (run, best) in runs.iter().zip(&mut best) {
            let start = Instant::now();
            let output = black_box(run(input));
            let seconds = start.elapsed().as_secs_f64();
            *best = best.filter(|_| lines(&output) == pairs).map(|best| best.min(seconds));
        }
    }
    best.iter().map(|best| best.map(|seconds| pairs as f64 / seconds)).collect()
}
