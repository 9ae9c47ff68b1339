//! Ours and the original in one process, on the same inputs: a table of times and ratios, and how cost
//! grows. `bench OUT.svg` also draws the latter; `bench --quick` leaves the largest tables out.

mod after;
mod clock;
mod inputs;
mod leaves;
mod path;
mod plot;
mod whole;

use clock::{table, Row};
use inputs::Rng;
use plot::Curve;

/// The rows of the table.
fn rows(quick: bool, rng: &mut Rng) -> Vec<Row> {
    let mut rows = leaves::pack(rng);
    rows.extend(leaves::unpack(rng));
    rows.extend(leaves::log(rng));
    rows.extend(leaves::clears(rng));
    rows.extend(after::zeros(rng));
    let sizes: &[u32] = if quick { &[14] } else { &[14, 20] };
    for &bits in sizes {
        rows.extend(path::allocation(bits, rng));
        rows.extend(path::lookups(bits, rng));
        rows.push(path::count(bits, rng));
    }
    rows
}

/// Sync, replay, growth and audit at three sizes each.
fn curves(quick: bool, rng: &mut Rng) -> (Vec<Row>, Vec<Curve>) {
    let mut rows = vec![];
    let names = ["sync, by changes", "replay, by entries", "growth, by buckets", "audit, by buckets"];
    let mut curves = names.map(|name| Curve { name, points: vec![] });
    // Rows of edition two stand beside those of edition one and are not drawn.
    let mut take = |row: Row, two: Option<Row>, curve: usize, size: usize| {
        curves[curve].points.push((size, row.ours, row.original));
        rows.push(row);
        rows.extend(two);
    };
    for count in [100, 1_000, 10_000] {
        let [[synced, replayed], [synced_two, replayed_two]] = whole::sync_and_replay(count, 9, rng);
        take(synced, Some(synced_two), 0, count);
        take(replayed, Some(replayed_two), 1, count);
    }
    for bits in if quick { [10, 12, 14] } else { [12, 14, 16] } {
        take(whole::growth(bits, 7, rng), None, 2, 1 << bits);
    }
    for bits in if quick { [10, 12, 14] } else { [14, 16, 18] } {
        take(whole::audits(bits, 7, rng), None, 3, 1 << bits);
    }
    (rows, curves.into())
}

fn main() -> std::io::Result<()> {
    let words: Vec<String> = std::env::args().skip(1).collect();
    let quick = words.iter().any(|w| w == "--quick");
    let mut rng = Rng(42);
    let mut all = rows(quick, &mut rng);
    let (whole, curves) = curves(quick, &mut rng);
    all.extend(whole);
    println!("{}", table(&all));
    let above: Vec<&str> = all.iter().filter(|r| r.ratio > 1.0).map(|r| r.name.as_str()).collect();
    println!("{} rows; above 1.0: {}", all.len(), if above.is_empty() { "none".into() } else { above.join("; ") });
    for file in words.iter().filter(|w| !w.starts_with("--")) {
        std::fs::write(file, plot::svg(&curves))?;
    }
    Ok(())
}
