//! Ours and the original by turns, and what that comes to.

use std::time::{Duration, Instant};

/// How long a call takes, and what it gives.
pub fn timed<T>(run: impl FnOnce() -> T) -> (Duration, T) {
    let start = Instant::now();
    let value = run();
    (start.elapsed(), value)
}

/// The medians of one row, in nanoseconds for one piece of work, and the spread of the ratio.
pub struct Row {
    pub name: String,
    pub ours: f64,
    pub original: f64,
    pub ratio: f64,
    pub least: f64,
    pub most: f64,
}

fn median(values: &mut [f64]) -> f64 {
    values.sort_by(f64::total_cmp);
    values[values.len() / 2]
}

/// Runs both `repeats` times, each going first by turns; a run does `pieces` pieces of work.
pub fn row(
    name: String,
    pieces: usize,
    repeats: usize,
    mut ours: impl FnMut() -> Duration,
    mut original: impl FnMut() -> Duration,
) -> Row {
    let (mut a, mut b, mut r) = (vec![], vec![], vec![]);
    // A round that is not counted warms both.
    for round in 0..=repeats {
        let (x, y) = if round % 2 == 0 {
            let x = ours();
            (x, original())
        } else {
            let y = original();
            (ours(), y)
        };
        if round > 0 {
            a.push(x.as_nanos() as f64 / pieces as f64);
            b.push(y.as_nanos() as f64 / pieces as f64);
            r.push(x.as_secs_f64() / y.as_secs_f64());
        }
    }
    let (ours, original, ratio) = (median(&mut a), median(&mut b), median(&mut r));
    let row = Row { name, ours, original, ratio, least: r[0], most: r[r.len() - 1] };
    eprintln!("{}", row.line());
    row
}

impl Row {
    fn line(&self) -> String {
        format!(
            "| {} | {} | {} | {:.2} | {:.2} to {:.2} |",
            self.name,
            nanoseconds(self.ours),
            nanoseconds(self.original),
            self.ratio,
            self.least,
            self.most
        )
    }
}

fn nanoseconds(x: f64) -> String {
    match x {
        x if x < 100.0 => format!("{x:.1}"),
        x => format!("{x:.0}"),
    }
}

/// The rows as a table for a person.
pub fn table(rows: &[Row]) -> String {
    let mut out = String::from("| row | ours, ns | original, ns | ratio | its spread |\n|---|---:|---:|---:|---|\n");
    for row in rows {
        out += &row.line();
        out.push('\n');
    }
    out
}
