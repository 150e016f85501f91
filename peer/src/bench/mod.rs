//! The benchmark: contestants race turn by turn on the same pairs, stage by stage, and tables set
//! two of them beside each other. Carrying a mark and checking a list have tables of their own.

pub mod carrying;
pub mod checking;
pub mod contestants;
pub mod measure;
pub mod race;
pub mod rates;
pub mod rows;
pub mod table;

/// The stages of an answer: both drawings judged, the sight of both, the cutting from it, and all
/// of these in one call.
pub const STAGES: [&str; 4] = ["judging", "sight", "cutting", "whole"];

/// The places of some among them.
pub const JUDGING: usize = 0;
pub const SIGHT: usize = 1;
pub const WHOLE: usize = 3;

/// Microseconds a pair, for each stage that was measured.
pub type Times = [Option<f64>; STAGES.len()];
