//! Compares the original, document 01 and ours: the same inputs to all, every answer and every byte
//! held against each other.

mod after;
mod departures;
mod engine;
mod faults;
mod heard;
mod input;
mod ops;
#[cfg(feature = "ours")]
mod ours;
mod rng;
mod run;
mod second;
mod vectors;

use faults::{Side, FAULTS};
use rng::{mixed, Rng};
use run::{Budget, Op, Out, Run};

/// Ours, where it is linked.
#[cfg(feature = "ours")]
fn ours_run<O: Op>(input: &O::Input) -> Option<Out> {
    Some(O::run::<faults::Bent<ours::Ours>>(input))
}

#[cfg(not(feature = "ours"))]
fn ours_run<O: Op>(_input: &O::Input) -> Option<Out> {
    None
}

type Exhaustive = fn(&mut Run);
type Random = fn(&mut Run, &mut Rng);

/// The parts by name: all short inputs, inputs by chance, and how often in 100 times the part is taken.
const PARTS: [(&str, Exhaustive, Random, u64); 13] = [
    ("diff", ops::diff::exhaustive, ops::diff::random, 20),
    ("tags", ops::tags::exhaustive, ops::tags::random, 10),
    ("places", ops::places::exhaustive, ops::places::random, 5),
    ("path", ops::path::exhaustive, ops::path::random, 25),
    ("read", ops::read::exhaustive, ops::read::random, 15),
    ("write", ops::write::exhaustive, ops::write::random, 10),
    ("sync", ops::sync::exhaustive, ops::sync::random, 15),
    ("replay", ops::replay::exhaustive, ops::replay::random, 15),
    ("growth", ops::growth::exhaustive, ops::growth::random, 5),
    ("audit", ops::audit::exhaustive, ops::audit::random, 5),
    ("second", ops::second::exhaustive, ops::second::random, 20),
    ("after", ops::after::exhaustive, ops::after::random, 10),
    ("rounds", ops::rounds::exhaustive, ops::rounds::random, 1),
];

const USAGE: &str = "\
compare [--seconds S | --cases C] [--seed N] [--only PART,PART..]
compare vectors
compare faults [N,N..]
  All short inputs first, then inputs by chance until S seconds have passed or C cases are done
  (default: 80 seconds). The seed is printed; the same seed gives the same inputs.
  vectors: prints the sample of the original's answers that the program vectors replays.
  faults: switches the comparison's own faults on, one at a time, all of them or the named ones; status 1 where
  one is not noticed.";

fn usage() -> ! {
    eprintln!("{USAGE}");
    std::process::exit(2);
}

/// Tries faults, one at a time, on the inputs of a part: whether all are noticed.
fn noticed(which: &[usize]) -> bool {
    set_hash_seed(&mut Rng(1));
    run::watch(120);
    let mut all = true;
    for &i in which {
        let fault = &FAULTS[i];
        let told = format!("fault {i:>2}, {:?}, {}: {}", fault.side, fault.part, fault.says);
        if fault.side == Side::Ours && !cfg!(feature = "ours") {
            println!("{told}: not tried, ours is not linked");
            continue;
        }
        let (_, exhaustive, random, _) = PARTS.iter().find(|(name, ..)| *name == fault.part).expect("a part");
        faults::switch(Some(i));
        let mut run = Run::trial(Budget::Seconds(60));
        exhaustive(&mut run);
        let mut rng = Rng(1);
        while !run.spent() {
            random(&mut run, &mut rng);
        }
        faults::switch(None);
        match &run.noticed {
            Some(at) => println!("{told}: noticed in {at}"),
            None => println!("{told}: NOT NOTICED in {} cases", run.cases),
        }
        all &= run.noticed.is_some();
    }
    println!("{} of {} faults were tried{}", which.len(), FAULTS.len(), if all { ", and noticed" } else { "" });
    all
}

fn main() {
    // An error of the original would else carry a backtrace.
    std::env::set_var("RUST_LIB_BACKTRACE", "0");
    let mut budget = Budget::Seconds(80);
    let mut seed = std::time::UNIX_EPOCH.elapsed().map_or(1, |t| mixed(t.as_nanos() as u64) >> 32);
    let mut only: Option<Vec<String>> = None;
    if std::env::args().skip(1).eq(["vectors"]) {
        set_hash_seed(&mut Rng(vectors::SEED));
        vectors::print();
        return;
    }
    if let Some("faults") = std::env::args().nth(1).as_deref() {
        let which = match std::env::args().nth(2) {
            Some(some) => some.split(',').map(|n| n.parse().ok().filter(|n| *n < FAULTS.len())).collect(),
            None => Some((0..FAULTS.len()).collect::<Vec<usize>>()),
        };
        let Some(which) = which else { usage() };
        std::process::exit(!noticed(&which) as i32);
    }
    let mut args = std::env::args().skip(1);
    while let Some(arg) = args.next() {
        let value = args.next();
        match (arg.as_str(), value.as_deref(), value.as_deref().and_then(|v| v.parse().ok())) {
            ("--seconds", _, Some(s)) => budget = Budget::Seconds(s),
            ("--cases", _, Some(c)) => budget = Budget::Cases(c),
            ("--seed", _, Some(s)) => seed = s,
            ("--only", Some(parts), _) => only = Some(parts.split(',').map(str::to_string).collect()),
            _ => usage(),
        }
    }
    let parts: Vec<_> =
        PARTS.iter().filter(|(name, ..)| only.as_ref().is_none_or(|only| only.iter().any(|o| o == name))).collect();
    if parts.is_empty() {
        eprintln!("parts: {}", PARTS.map(|(name, ..)| name).join(", "));
        std::process::exit(2);
    }

    let checks = if cfg!(debug_assertions) { "with debug assertions and overflow checks" } else { "as released" };
    let ours = match (cfg!(feature = "ours"), std::env::var_os("RUSSULADEN_LIST")) {
        (true, Some(_)) => "ours",
        (true, None) => "ours without the program list",
        (false, _) => "ours is not linked",
    };
    println!("compare --seed {seed}: document 01, the original {checks}, {ours}");
    let mut rng = Rng(seed);
    set_hash_seed(&mut rng);
    run::watch(120);

    let mut run = Run::new(budget, parts.iter().map(|(name, ..)| *name).collect());
    for (name, exhaustive, ..) in &parts {
        eprintln!("short inputs: {name}");
        exhaustive(&mut run);
    }
    eprintln!("inputs by chance, after {} cases", run.cases);
    let weights: u64 = parts.iter().map(|(.., w)| w).sum();
    while !run.spent() {
        let mut at = rng.below(weights);
        for (_, _, random, weight) in &parts {
            if at < *weight {
                random(&mut run, &mut rng);
                break;
            }
            at -= weight;
        }
    }
    run.table();
    std::process::exit((run.differences > 0 || !run.untried().is_empty()) as i32);
}

/// The seed of the original's page hash, by chance.
fn set_hash_seed(rng: &mut Rng) {
    let mut seed = [0; 16];
    seed[..8].copy_from_slice(&rng.next().to_le_bytes());
    seed[8..].copy_from_slice(&rng.next().to_le_bytes());
    input::HASH_SEED.set(seed).expect("set once");
}
