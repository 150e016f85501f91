//! compare PROGRAM [SECONDS] [SEED] [--library OBJECT] [-- WRAPPER...]: feeds generated inputs to
//! the program (run as `WRAPPER... PROGRAM`) and to the peer until the time is over, makes generated
//! calls to the product's library in the shared object, and stops at the first difference.

use peer::desks::compare_calls;
use peer::drawing::{corners, in_range, judge, Judged, MOST_CORNERS};
use peer::frames;
use peer::library::Library;
use peer::pairs::dice::Dice;
use peer::pairs::{list, pair, rules, streams, Kind, Pair};
use peer::program::{Program, Run};
use std::path::PathBuf;
use std::process::ExitCode;
use std::time::{Duration, Instant};

/// How many pairs of its own a batch has; those that demand 3 derives from them come on top.
const PAIRS: usize = 600;
/// How many rounds of calls to the library follow each batch.
const ROUNDS: usize = 300;
/// How many bytes more than the right ones are read of an output.
const EXCESS: usize = 1000;

const USAGE: &str = "compare PROGRAM [SECONDS] [SEED] [--library OBJECT] [-- WRAPPER...]";

fn main() -> ExitCode {
    let words: Vec<String> = std::env::args().skip(1).collect();
    let Some(Arguments { program, library, seconds, seed }) = arguments(words) else {
        eprintln!("{USAGE}");
        return ExitCode::from(2);
    };
    let library = match library.map(|path| Library::load(&path)).transpose() {
        Ok(library) => library,
        Err(error) => {
            eprintln!("compare: {error}");
            return ExitCode::from(2);
        }
    };
    match compare(&program, library.as_ref(), seconds, seed) {
        Ok(totals) => {
            println!("{}", totals.line(seed));
            ExitCode::SUCCESS
        }
        Err(difference) => {
            println!("{difference}");
            ExitCode::FAILURE
        }
    }
}

struct Arguments {
    /// The program with its wrapper.
    program: Program,
    library: Option<PathBuf>,
    seconds: u64,
    seed: u64,
}

fn arguments(mut words: Vec<String>) -> Option<Arguments> {
    let end = words.iter().position(|word| word == "--");
    let mut wrapper = words.split_off(end.unwrap_or(words.len()));
    let library = match words.iter().position(|word| word == "--library") {
        Some(at) => {
            words.drain(at..(at + 2).min(words.len())).nth(1).map(PathBuf::from).map(Some)?
        }
        None => None,
    };
    if words.is_empty() || words.len() > 3 {
        return None;
    }
    let number = |at: usize, default: u64| words.get(at).map_or(Some(default), |w| w.parse().ok());
    let (seconds, seed) = (number(1, 100)?, number(2, 1)?);
    wrapper.push(words[0].clone());
    let command = wrapper.into_iter().skip(usize::from(end.is_some())).collect();
    Some(Arguments { program: Program { command }, library, seconds, seed })
}

#[derive(Default)]
struct Totals {
    numbers: [usize; 10],
    streams: usize,
    laws: usize,
    calls: usize,
}

impl Totals {
    fn count(&mut self, line: &[u8]) {
        let number = if line[0] == b'A' { 0 } else { line[3] - b'0' };
        self.numbers[usize::from(number)] += 1;
    }

    fn line(&self, seed: u64) -> String {
        let pairs: usize = self.numbers.iter().sum();
        let Totals { numbers, streams, laws, calls } = self;
        format!(
            "same answers: {pairs} pairs (numbers 0 to 9: {numbers:?}), {streams} malformed inputs, \
             {laws} cases of demand 3, {calls} calls of the linked library, seed {seed}"
        )
    }
}

fn compare(
    program: &Program,
    library: Option<&Library>,
    seconds: u64,
    seed: u64,
) -> Result<Totals, String> {
    let end = Instant::now() + Duration::from_secs(seconds);
    let mut totals = Totals::default();
    for seed in seed.. {
        let again = |found: String| format!("{found}\nseed {seed}");
        compare_batch(program, seed, &mut totals).map_err(again)?;
        compare_streams(program, seed, &mut totals).map_err(again)?;
        if let Some(library) = library {
            totals.calls += compare_calls(library, seed, ROUNDS, MOST_CORNERS).map_err(again)?;
        }
        if Instant::now() >= end {
            break;
        }
    }
    Ok(totals)
}

/// What demand 3 says of a pair and the pair that it is made from.
#[derive(Clone, Copy, Debug, PartialEq, Eq)]
enum Law {
    /// The drawings exchanged, both of them sound: the same answer.
    Exchange,
    /// The drawings exchanged, just one of them sound: 3, 4, 5 for 6, 7, 8 and the other way.
    ExchangeRefused,
    /// A drawing sent by a whole-number rule: the same answer.
    Rule,
    /// The corners numbered from another on: as many pieces, or the same refusal.
    Renumbering,
}

impl Law {
    /// Whether the law holds between the answer lines.
    fn holds(self, base: &[u8], derived: &[u8]) -> bool {
        match self {
            Law::Exchange | Law::Rule => base == derived,
            Law::ExchangeRefused => {
                let (low, high) = (base[3].min(derived[3]), base[3].max(derived[3]));
                let refusals = base.starts_with(b"E00") && derived.starts_with(b"E00");
                refusals && (b'3'..=b'5').contains(&low) && high == low + 3
            }
            Law::Renumbering => base[..4] == derived[..4],
        }
    }
}

/// A pair of a batch, with the law that ties it to an earlier one.
struct Trial {
    pair: Pair,
    law: Option<(Law, usize)>,
}

fn compare_batch(program: &Program, seed: u64, totals: &mut Totals) -> Result<(), String> {
    let trials = batch(&mut Dice::new(seed));
    let told = trials.iter().map(|trial| trial.pair.frames());
    let told: Option<Vec<Vec<u8>>> = told.collect();
    let told = told.expect("pairs of these kinds can be told in frames");
    let input = told.concat();
    let expected = frames::run(&input);
    let run = program.run(&input, expected.len() + EXCESS);
    let (theirs, ours) = (lines(&run.output), lines(&expected));
    // The first line that differs, or what follows the last.
    if let Some(k) = (0..=ours.len()).find(|&k| theirs.get(k) != ours.get(k)) {
        let line = |lines: &[&[u8]]| lines.get(k).unwrap_or(&&b""[..]).to_vec();
        let pair = told.get(k).map_or("".into(), |pair| raw(pair));
        let run = Run { output: line(&theirs), ..run };
        return Err(difference(&pair, &run, &line(&ours)));
    }
    complaint(&run)?;
    for (k, trial) in trials.iter().enumerate() {
        totals.count(theirs[k]);
        if let Some((law, base)) = trial.law {
            totals.laws += 1;
            if !law.holds(theirs[base], theirs[k]) {
                let broken = [&told[base], theirs[base], &told[k], theirs[k]].concat();
                return Err(format!("{law:?} fails for\n{}", raw(&broken)));
            }
        }
    }
    Ok(())
}

fn compare_streams(program: &Program, seed: u64, totals: &mut Totals) -> Result<(), String> {
    for input in streams::every_fault(&mut Dice::new(!seed)) {
        let expected = frames::run(&input);
        let run = program.run(&input, expected.len() + EXCESS);
        if run.output != expected {
            return Err(difference(&escaped(&input), &run, &expected));
        }
        complaint(&run)?;
        totals.streams += 1;
    }
    Ok(())
}

fn lines(output: &[u8]) -> Vec<&[u8]> {
    output.split_inclusive(|&byte| byte == b'\n').collect()
}

fn difference(input: &str, run: &Run, ours: &[u8]) -> String {
    let (theirs, ours) = (escaped(&run.output), escaped(ours));
    let more = run.complaint.clone().unwrap_or_default();
    format!("the answers differ for\n{input}\nprogram: {theirs} {more}\npeer:    {ours}")
}

/// A run may write the right lines and still be at fault.
fn complaint(run: &Run) -> Result<(), String> {
    run.complaint.clone().map_or(Ok(()), Err)
}

/// Lines as they stand.
fn raw(lines: &[u8]) -> String {
    String::from_utf8_lossy(lines).trim_end().to_string()
}

/// Any bytes, on one line.
fn escaped(bytes: &[u8]) -> String {
    bytes.escape_ascii().to_string()
}

/// Pairs of every kind, most of them with those that demand 3 derives from them.
fn batch(dice: &mut Dice) -> Vec<Trial> {
    let mut trials = Vec::new();
    for _ in 0..PAIRS {
        let base = trials.len();
        let pair = pair(dice, Kind::Mixed);
        let derived = derived(dice, &pair);
        trials.push(Trial { pair, law: None });
        for (law, pair) in derived {
            let law = Some((law, base));
            trials.push(Trial { pair, law });
        }
    }
    trials
}

/// The pairs of which demand 3 says something, given that pair.
fn derived(dice: &mut Dice, pair: &Pair) -> Vec<(Law, Pair)> {
    let drawings = [corners(&pair.first), corners(&pair.second)];
    let n = drawings[0].len();
    let mut derived = Vec::new();
    if drawings[1].len() != n || n < 3 {
        return derived;
    }
    let exchanged = Pair { first: pair.second.clone(), second: pair.first.clone() };
    let sound = drawings.iter().filter(|d| judge(d) == Judged::Sound);
    match sound.count() {
        2 => derived.push((Law::Exchange, exchanged)),
        1 => derived.push((Law::ExchangeRefused, exchanged)),
        _ => {}
    }
    let one = dice.below(2);
    if drawings[one].iter().all(in_range) {
        if let Some(sent) = rules::sent(dice, &drawings[one]) {
            let mut by_rule = pair.clone();
            *[&mut by_rule.first, &mut by_rule.second][one] = list(&sent);
            derived.push((Law::Rule, by_rule));
        }
    }
    let k = 1 + dice.below(n - 1);
    let renumbered = drawings.map(|drawing| rules::renumbered(&drawing, k));
    derived.push((Law::Renumbering, Pair::of(&renumbered)));
    derived
}
