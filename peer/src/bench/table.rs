//! Tables that set two contestants beside each other, in the form in which docs/PERFORMANCE.md has
//! them.

use super::{Times, JUDGING, SIGHT, STAGES, WHOLE};

/// A line of a table: the kind of the pairs, their number of corners, how many of them get a
/// cutting, and the times of the two contestants.
pub struct Row {
    pub kind: &'static str,
    pub n: usize,
    pub cut: String,
    pub times: [Times; 2],
}

/// The table of two contestants, with the stages that the first has. A ratio above 1 says that the
/// second is faster; growth is that of its whole from half as many corners.
pub fn table(names: [&str; 2], rows: &[Row]) -> String {
    let has = |stage: &usize| rows.iter().any(|row| row.times[0][*stage].is_some());
    let stages: Vec<usize> = (0..STAGES.len()).filter(has).collect();
    let mut heading: Vec<String> = ["pairs", "n", "cut"].map(String::from).to_vec();
    for name in [names[0], names[1], "ratio"] {
        let columns = stages.iter().map(|&stage| STAGES[stage].to_string());
        let at = heading.len();
        heading.extend(columns);
        heading[at] = format!("{name}: {}", heading[at]);
    }
    heading.push("growth".into());
    let mut lines = vec![line(&heading), line(&vec!["---".into(); heading.len()])];
    for (k, row) in rows.iter().enumerate() {
        let half = k.checked_sub(1).map(|k| &rows[k]).filter(|half| half.kind == row.kind);
        lines.push(line(&cells(&stages, row, half)));
    }
    lines.concat()
}

/// The table that holds two calls of sight against each other by what both have to do: judge the
/// drawings and look. Of a contestant whose sight does not judge, its judging is added.
pub fn sight_table(names: [&str; 2], judges: [bool; 2], rows: &[Row]) -> String {
    let mut heading: Vec<String> = ["pairs", "n"].map(String::from).to_vec();
    for (name, judges) in names.into_iter().zip(judges) {
        heading.push(format!("{name}: {}", if judges { "sight" } else { "judging + sight" }));
    }
    heading.push("ratio".into());
    let mut lines = vec![line(&heading), line(&vec!["---".into(); heading.len()])];
    for Row { kind, n, times, .. } in rows {
        let whole = |who: usize| {
            let judging = if judges[who] { Some(0.0) } else { times[who][JUDGING] };
            Some(judging? + times[who][SIGHT]?)
        };
        let [one, other] = [whole(0), whole(1)];
        let ratio = told(ratio(one, other));
        lines.push(line(&[kind.to_string(), n.to_string(), told(one), told(other), ratio]));
    }
    lines.concat()
}

fn cells(stages: &[usize], row: &Row, half: Option<&Row>) -> Vec<String> {
    let [one, other] = &row.times;
    let mut cells = vec![row.kind.to_string(), row.n.to_string(), row.cut.clone()];
    cells.extend(stages.iter().map(|&stage| told(one[stage])));
    cells.extend(stages.iter().map(|&stage| told(other[stage])));
    cells.extend(stages.iter().map(|&stage| told(ratio(one[stage], other[stage]))));
    let growth = half.and_then(|half| ratio(other[WHOLE], half.times[1][WHOLE]));
    cells.push(growth.map_or(String::new(), |growth| format!("{growth:.1}x")));
    cells
}

fn ratio(one: Option<f64>, other: Option<f64>) -> Option<f64> {
    Some(one? / other?)
}

/// A number with two places, or a stroke where there is none.
pub fn told(number: Option<f64>) -> String {
    number.map_or("-".into(), |number| format!("{number:.2}"))
}

pub fn line(cells: &[String]) -> String {
    format!("| {} |\n", cells.join(" | "))
}

/// The middle one of what the turns give, if there are any.
pub fn middle<T>(turns: &[T], of: impl Fn(&T) -> f64) -> Option<f64> {
    let mut values: Vec<f64> = turns.iter().map(of).collect();
    values.sort_by(f64::total_cmp);
    values.get(values.len() / 2).copied()
}

/// How much longer something takes, by its ratio.
pub fn percent_over(ratio: f64) -> String {
    // Through a whole number, which has no negative zero.
    let tenths = (1000.0 * (ratio - 1.0)).round() as i64;
    format!("{:.1} %", tenths as f64 / 10.0)
}
