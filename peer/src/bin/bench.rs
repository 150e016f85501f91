//! bench [--quick] [CHECKOUT [OTHER]]: tables of times per pair, stage by stage: the peer, its
//! rival, the library of a checkout of the product and that of another one, turn by turn in one
//! run. A checkout has its library in target/native (tools/library makes it) and its program in
//! crates/iravikkon/out. A quick run has one turn: it shows that all of it runs, and no times.

use peer::bench::measure::{measure, Libraries, Measured};
use peer::bench::race::Turns;
use peer::bench::rates::{rates, Run};
use peer::bench::table::{sight_table, table, Row};
use peer::bench::{carrying, checking};
use peer::bench::{rows, Times};
use peer::drawing::MOST_CORNERS;
use peer::frames;
use peer::library::Library;
use peer::program::Program;
use std::path::PathBuf;
use std::process::ExitCode;
use std::time::Duration;

const TURNS: Turns = Turns { count: 50, length: Duration::from_millis(3) };
const QUICK: Turns = Turns { count: 1, length: Duration::ZERO };
/// How often the big frames stand in one input, and how often it is run at most.
const BIG_TIMES: usize = 10;
const BIG_TURNS: usize = 5;

fn main() -> ExitCode {
    let mut words: Vec<String> = std::env::args().skip(1).collect();
    let quick = words.first().is_some_and(|word| word == "--quick");
    let folders: Vec<PathBuf> = words.drain(usize::from(quick)..).map(PathBuf::from).collect();
    if folders.len() > 2 {
        eprintln!("bench [--quick] [CHECKOUT [OTHER]]");
        return ExitCode::from(2);
    }
    match bench(if quick { QUICK } else { TURNS }, &folders) {
        Ok(()) => ExitCode::SUCCESS,
        Err(error) => {
            eprintln!("bench: {error}");
            ExitCode::FAILURE
        }
    }
}

fn bench(turns: Turns, folders: &[PathBuf]) -> Result<(), String> {
    let library = |at: usize| Some(folders.get(at)?.join("target/native/libiravikkon.so"));
    let product = library(0).map(|path| Library::load(&path)).transpose()?;
    let before = library(1).map(|path| Library::load_other(&path)).transpose()?;
    let libraries = Libraries { product, before };
    let mut measured = Vec::new();
    for (kind, pairs) in rows::KINDS {
        for n in rows::sizes() {
            eprintln!("{kind}, {n} corners");
            measured.push((kind, n, measure(turns, &libraries, &pairs(n))?));
        }
    }
    println!(
        "Microseconds a pair, the best of {} turns. The product's call of sight judges the drawing \
         too, and serves a sound one alone: its times of sight have a judging in them. The peer's do not.",
        turns.count
    );
    for (names, two) in tables(&libraries) {
        println!("\n{}", table(names, &rows_of(&measured, two)));
    }
    if let (Some(before), Some(after)) = (&libraries.before, &libraries.product) {
        let judges = [before.sight_judges(), after.sight_judges()];
        let rows = rows_of(&measured, |m| [m.before, m.product]);
        println!(
            "Sight from drawings that nobody has judged, the two calls beside each other: where a call \
             of sight does not judge, the time of the judging is added.\n\n{}",
            sight_table(["before", "after"], judges, &rows)
        );
    }
    if let Some(product) = &libraries.product {
        print_carrying(turns, product)?;
        print_checking(turns, product)?;
    }
    print_rates(turns.count.min(BIG_TURNS), folders)
}

/// The rows of a table with two contestants' times.
fn rows_of(
    measured: &[(&'static str, usize, Measured)],
    two: fn(&Measured) -> [Times; 2],
) -> Vec<Row> {
    let row = |(kind, n, measured): &(&'static str, usize, Measured)| Row {
        kind,
        n: *n,
        cut: measured.cut.clone(),
        times: two(measured),
    };
    measured.iter().map(row).collect()
}

/// The names of two contestants, and their times.
type Two = ([&'static str; 2], fn(&Measured) -> [Times; 2]);

/// Who stands beside whom.
fn tables(libraries: &Libraries) -> Vec<Two> {
    let mut tables: Vec<Two> = Vec::new();
    if libraries.product.is_some() {
        tables.push((["peer", "product"], |m| [m.peer, m.product]));
        tables.push((["rival", "product"], |m| [m.rival, m.product]));
    } else {
        tables.push((["peer", "rival"], |m| [m.peer, m.rival]));
    }
    if libraries.before.is_some() {
        tables.push((["before", "after"], |m| [m.before, m.product]));
    }
    tables
}

/// The product's marks at the most corners, on the kinds of pairs that get a cutting.
fn print_carrying(turns: Turns, product: &Library) -> Result<(), String> {
    let mut rows = Vec::new();
    for (kind, pairs) in rows::KINDS {
        eprintln!("{kind}, {MOST_CORNERS} corners, a mark");
        let turns = carrying::measure(turns, product, &pairs(MOST_CORNERS))?;
        if !turns.is_empty() {
            rows.push(carrying::Row { kind, n: MOST_CORNERS, turns });
        }
    }
    println!(
        "Microseconds a pair, the middle of all turns: its answer; a mark out of range, for which the \
         pair is answered and no wedge is looked at; and a mark in the wedge that is looked at \
         last.\n\n{}",
        carrying::table(&rows)
    );
    Ok(())
}

/// The product's check of each pair's own answer.
fn print_checking(turns: Turns, product: &Library) -> Result<(), String> {
    let mut rows = Vec::new();
    for (kind, pairs) in rows::KINDS {
        for n in rows::sizes() {
            eprintln!("{kind}, {n} corners, a list");
            let turns = checking::measure(turns, product, &pairs(n))?;
            if !turns.is_empty() {
                rows.push(checking::Row { kind, n, turns });
            }
        }
    }
    println!(
        "Microseconds a pair, the middle of all turns: the sight of both drawings, each by its own call; \
         the answer; the check of that answer, which looks at both drawings as well; and the peer's check of \
         it, which looks only along the lines of the pieces and from their centres.\n\n{}",
        checking::table(&rows)
    );
    Ok(())
}

/// The peer, and the checkouts' programs where they run, on the big frames.
fn print_rates(turns: usize, folders: &[PathBuf]) -> Result<(), String> {
    let input = include_bytes!("../../../crates/test_wire/data/big.hex").repeat(BIG_TIMES);
    let mut names = vec!["the peer".to_string()];
    let mut runs: Vec<Run> = vec![Box::new(frames::run)];
    for folder in folders.iter().filter(|_| cfg!(target_arch = "x86_64")) {
        let path = folder.join("crates/iravikkon/out/iravikkon").to_string_lossy().into_owned();
        names.push(format!("{path}, with its start"));
        let program = Program { command: vec![path] };
        runs.push(Box::new(move |input| program.run(input, input.len()).output));
    }
    println!(
        "Pairs a second on the recorded frames big.hex, {BIG_TIMES} times over, reading and writing frames:\n"
    );
    for (name, rate) in names.iter().zip(rates(turns, &runs, &input)) {
        let rate = rate.ok_or_else(|| format!("{name}: it does not answer every pair"))?;
        println!("- {rate:.0} {name}");
    }
    Ok(())
}
