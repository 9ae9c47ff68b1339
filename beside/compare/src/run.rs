//! A run: each case is asked of 01, of the original and of ours, the answers are held against each
//! other, and what was seen is counted.

use crate::{
    departures,
    engine::{Engine, Model},
    faults::Bent,
    heard::{bytes_told, Heard, ROWS},
};
use std::{
    collections::BTreeMap,
    fmt::{self, Debug},
    sync::{
        atomic::{AtomicU64, Ordering},
        Mutex,
    },
    time::{Duration, Instant},
};

/// An answer: a value by its name, or a refusal.
#[derive(Clone, PartialEq, Eq)]
pub enum Said {
    Value(&'static str, Vec<u64>),
    Refused(u8),
    RefusedAt(u64, u8),
}

impl Said {
    pub fn number(&self) -> Option<u8> {
        match *self {
            Said::Value(..) => None,
            Said::Refused(number) | Said::RefusedAt(_, number) => Some(number),
        }
    }
}

impl Debug for Said {
    fn fmt(&self, f: &mut fmt::Formatter) -> fmt::Result {
        match self {
            Said::Value(name, values) => write!(f, "{name} {values:?}"),
            Said::Refused(number) => write!(f, "refused {number}"),
            Said::RefusedAt(change, number) => write!(f, "refused {number} at change {change}"),
        }
    }
}

/// What a call answers, and bytes that it answers or leaves in lent memory.
#[derive(Clone, PartialEq, Eq)]
pub struct Out {
    pub said: Said,
    pub bytes: Vec<(&'static str, Vec<u8>)>,
    /// Memory that is lent for reading, as it is after the call.
    pub read: Vec<(&'static str, Vec<u8>)>,
}

impl Out {
    pub fn said(said: Said) -> Self {
        Out { said, bytes: vec![], read: vec![] }
    }

    pub fn value(name: &'static str, values: &[u64]) -> Self {
        Out::said(Said::Value(name, values.to_vec()))
    }

    pub fn refused(number: u8) -> Self {
        Out::said(Said::Refused(number))
    }

    /// An answer whose value is told by a name and numbers.
    pub fn of<T>(answer: model::Answer<T>, told: impl FnOnce(T) -> Out) -> Self {
        match answer {
            Ok(value) => told(value),
            Err(why) => Out::refused(why.0),
        }
    }

    pub fn with(mut self, name: &'static str, bytes: impl Into<Vec<u8>>) -> Self {
        self.bytes.push((name, bytes.into()));
        self
    }

    pub fn reading(mut self, name: &'static str, bytes: impl Into<Vec<u8>>) -> Self {
        self.read.push((name, bytes.into()));
        self
    }

    /// In words, where another differs.
    fn told_beside(&self, other: &Out) -> String {
        let read = if self.read == other.read { String::new() } else { bytes_told(&self.read, &other.read) };
        format!("{:?}{}{read}", self.said, bytes_told(&self.bytes, &other.bytes))
    }
}

pub fn u64_bytes(of: &[u64]) -> Vec<u8> {
    of.iter().flat_map(|x| x.to_le_bytes()).collect()
}

/// Pages with their numbers, one after the other.
pub fn page_bytes<P: AsRef<[u8]>>(pages: &[(u64, P)]) -> Vec<u8> {
    let mut bytes = Vec::with_capacity(pages.len() * (8 + model::PAGE));
    for (pn, page) in pages {
        bytes.extend(pn.to_le_bytes());
        bytes.extend_from_slice(page.as_ref());
    }
    bytes
}

/// An operation, or a few of one kind.
pub trait Op {
    type Input: Clone + Debug;

    /// The operation's row in the table.
    fn name(input: &Self::Input) -> &'static str;

    fn run<E: Engine>(input: &Self::Input) -> Out;

    /// What the original does, and what 01 has to answer by it. What 01 does answer is not told here.
    fn original(input: &Self::Input) -> Heard;

    /// The same input to the default call, which wants zeros after end, of one to the tolerant call.
    fn by_default(_input: &Self::Input) -> Option<Self::Input> {
        None
    }

    /// What is heard of it by what was heard of that one.
    fn heard_by_default(_input: &Self::Input, tolerant: Heard) -> Heard {
        tolerant
    }

    /// What a case of many parts has gone through, to be counted.
    fn notes(_input: &Self::Input, _model: &Out) -> Vec<&'static str> {
        vec![]
    }

    /// Inputs that are a little less.
    fn smaller(input: &Self::Input) -> Vec<Self::Input>;
}

#[derive(PartialEq, Eq, Clone, Debug)]
enum Verdict {
    Agrees,
    NotAsked,
    Known(&'static str),
    OriginalDiffers,
    OursDiffers,
}

struct Judged {
    verdict: Verdict,
    model: Out,
    heard: Heard,
    ours: Option<Out>,
}

fn judged<O: Op>(input: &O::Input) -> Judged {
    judged_by::<O>(input, O::original)
}

fn judged_by<O: Op>(input: &O::Input, original: impl FnOnce(&O::Input) -> Heard) -> Judged {
    let model = O::run::<Bent<Model>>(input);
    let ours = crate::ours_run::<O>(input);
    let heard = original(input);
    let verdict = match &heard {
        _ if ours.as_ref().is_some_and(|ours| *ours != model) => Verdict::OursDiffers,
        Heard::NotAsked => Verdict::NotAsked,
        Heard::Held(Ok(())) => Verdict::Agrees,
        Heard::Says { out, departs, .. } if (&out.said, &out.bytes) == (&model.said, &model.bytes) => match departs {
            Some(known) => Verdict::Known(known),
            None => Verdict::Agrees,
        },
        _ => Verdict::OriginalDiffers,
    };
    Judged { verdict, model, heard, ours }
}

/// What the original answers, or refuses with an error, where 01 says the same. Ours is not asked.
pub fn agreed<O: Op>(input: &O::Input) -> Option<Out> {
    let model = O::run::<Bent<Model>>(input);
    match O::original(input) {
        Heard::Says { out, departs: None, .. } if (&out.said, &out.bytes) == (&model.said, &model.bytes) => Some(out),
        _ => None,
    }
}

/// The smallest input with the same verdict that can be reached by small steps.
fn shrunk<O: Op>(input: O::Input, verdict: &Verdict) -> O::Input {
    let mut least = input;
    let name = O::name(&least);
    let until = Instant::now() + Duration::from_secs(20);
    'again: loop {
        for less in O::smaller(&least) {
            if Instant::now() > until {
                return least;
            }
            // A change of the verdict, or of the operation, is another story.
            if O::name(&less) == name && watched::<O, _>(&less, judged::<O>).verdict == *verdict {
                least = less;
                continue 'again;
            }
        }
        return least;
    }
}

#[derive(Default)]
struct Tally {
    cases: u64,
    accepted: u64,
    /// By number, and whether at a change of a sync.
    refused: BTreeMap<(bool, u8), u64>,
    heard: [u64; 6],
    known: BTreeMap<&'static str, u64>,
    notes: BTreeMap<&'static str, u64>,
}

/// The refusals that documents 01 and 02 give each operation, of the call, and of a sync at a change. Those on a log of
/// edition two are rows of their own, and so are the calls that want zeros after end: the others are tolerant.
const REFUSALS: [(&str, &[u8], &[u8]); 54] = [
    ("diff read", &[4], &[]),
    ("diff set", &[3], &[]),
    ("diff ask", &[3], &[]),
    ("pack", &[2, 4], &[]),
    ("pack into", &[2, 4], &[]),
    ("unpack", &[2, 4], &[]),
    ("set full", &[1, 9], &[]),
    ("set tombstone", &[1, 9], &[]),
    ("full count", &[1], &[]),
    ("padding", &[1], &[]),
    ("tag pages", &[1], &[]),
    ("table length", &[1], &[]),
    ("page number", &[1, 9], &[]),
    ("table open", &[1], &[]),
    ("probe", &[1], &[]),
    ("lookup", &[1], &[]),
    ("allocate", &[1, 10, 11], &[]),
    ("reader set", &[5, 6, 7], &[]),
    ("reader next", &[4, 6, 8], &[]),
    ("reader walk", &[4, 5, 6, 7, 8], &[]),
    ("list", &[2, 4, 5, 6, 7, 8], &[]),
    ("writer begin", &[13], &[]),
    ("writer clear", &[12, 13], &[]),
    ("writer update", &[2, 4, 12, 13], &[]),
    ("writer finish", &[12, 13], &[]),
    ("sync", &[1, 2, 13], &[2, 4, 9, 10, 11, 13, 14]),
    ("sync step", &[1, 2, 4, 9, 10, 11, 12, 13, 14], &[]),
    ("replay", &[1, 2, 4, 5, 6, 7, 8, 9], &[]),
    ("replay step", &[1, 4, 6, 8, 9], &[]),
    ("marker write", &[17], &[]),
    ("marker read", &[15, 16, 17], &[]),
    ("pending", &[1, 17, 18], &[]),
    ("growth", &[1, 2, 10, 11, 19], &[]),
    ("audit", &[1, 2, 20, 21, 22, 23, 24], &[]),
    ("reader set two", &[5, 6, 7], &[]),
    ("reader next two", &[4, 6, 8], &[]),
    ("reader walk two", &[4, 5, 6, 7, 8], &[]),
    ("list two", &[2, 4, 5, 6, 7, 8], &[]),
    ("writer begin two", &[13], &[]),
    ("writer clear two", &[12, 13], &[]),
    ("writer update two", &[2, 4, 12, 13], &[]),
    ("writer finish two", &[12, 13], &[]),
    ("sync two", &[1, 2, 13], &[2, 4, 9, 10, 11, 13, 14]),
    ("sync step two", &[1, 2, 4, 9, 10, 11, 13, 14], &[]),
    ("replay two", &[1, 2, 4, 5, 6, 7, 8, 9, 26], &[]),
    ("replay step two", &[1, 4, 6, 8, 9], &[]),
    ("reader next zeros", &[4, 6, 8, 27], &[]),
    ("reader walk zeros", &[4, 5, 6, 7, 8, 27], &[]),
    ("replay zeros", &[1, 2, 4, 5, 6, 7, 8, 9, 27], &[]),
    ("replay step zeros", &[1, 4, 6, 8, 9, 27], &[]),
    ("reader next two zeros", &[4, 6, 8, 27], &[]),
    ("reader walk two zeros", &[4, 5, 6, 7, 8, 27], &[]),
    ("replay two zeros", &[1, 2, 4, 5, 6, 7, 8, 9, 26, 27], &[]),
    ("replay step two zeros", &[1, 4, 6, 8, 9, 27], &[]),
];

/// When a run ends.
#[derive(Clone, Copy)]
pub enum Budget {
    Seconds(u64),
    Cases(u64),
}

pub struct Run {
    /// The parts whose short inputs are all asked.
    parts: Vec<&'static str>,
    tallies: BTreeMap<&'static str, Tally>,
    examples: BTreeMap<&'static str, String>,
    budget: Budget,
    started: Instant,
    told: Instant,
    pub cases: u64,
    pub differences: u64,
    /// For a trial, which ends at its first difference: where that was.
    trial: bool,
    pub noticed: Option<String>,
}

/// Differences that are shown before a run gives up.
const SHOWN: u64 = 10;

impl Run {
    pub fn new(budget: Budget, parts: Vec<&'static str>) -> Self {
        let now = Instant::now();
        Run {
            parts,
            tallies: BTreeMap::new(),
            examples: BTreeMap::new(),
            budget,
            started: now,
            told: now,
            cases: 0,
            differences: 0,
            trial: false,
            noticed: None,
        }
    }

    /// A run that ends at its first difference, and prints nothing.
    pub fn trial(budget: Budget) -> Self {
        Run { trial: true, ..Run::new(budget, vec![]) }
    }

    fn given_up(&self) -> bool {
        self.differences >= if self.trial { 1 } else { SHOWN }
    }

    pub fn spent(&self) -> bool {
        if self.given_up() {
            return true;
        }
        match self.budget {
            Budget::Seconds(s) => self.started.elapsed().as_secs() >= s,
            Budget::Cases(c) => self.cases >= c,
        }
    }

    /// Asks a case of all, and one to a tolerant call of the default call too.
    pub fn case<O: Op>(&mut self, input: O::Input) {
        self.sample::<O>(input, true);
    }

    /// The same; by the default call too only if so.
    pub fn sample<O: Op>(&mut self, input: O::Input, both: bool) {
        let by_default = if both { O::by_default(&input) } else { None };
        let heard = self.one::<O>(input, O::original);
        if let (Some(input), Some(heard)) = (by_default, heard) {
            self.one::<O>(input, |input| O::heard_by_default(input, heard));
        }
    }

    /// Asks one case, and what is heard of the original so; none where the run has given up.
    fn one<O: Op>(&mut self, input: O::Input, original: impl FnOnce(&O::Input) -> Heard) -> Option<Heard> {
        if self.given_up() {
            return None;
        }
        let name = O::name(&input);
        let judged = watched::<O, _>(&input, |input| judged_by::<O>(input, original));
        self.cases += 1;
        if self.trial {
            if matches!(judged.verdict, Verdict::OriginalDiffers | Verdict::OursDiffers) {
                self.differences += 1;
                let which = if judged.verdict == Verdict::OursDiffers { "ours" } else { "the original" };
                self.noticed = Some(format!("{name}, {which}, after {} cases", self.cases));
            }
            return Some(judged.heard);
        }
        let tally = self.tallies.entry(name).or_default();
        tally.cases += 1;
        match judged.model.said.number() {
            None => tally.accepted += 1,
            Some(number) => {
                let at = matches!(judged.model.said, Said::RefusedAt(..));
                *tally.refused.entry((at, number)).or_default() += 1;
            }
        }
        tally.heard[judged.heard.row()] += 1;
        for note in O::notes(&input, &judged.model) {
            *tally.notes.entry(note).or_default() += 1;
        }
        match judged.verdict {
            Verdict::Agrees | Verdict::NotAsked => {}
            Verdict::Known(known) => {
                *tally.known.entry(known).or_default() += 1;
                if !self.examples.contains_key(known) {
                    let least = shrunk::<O>(input, &judged.verdict);
                    self.examples.insert(known, told::<O>(&least));
                }
            }
            Verdict::OriginalDiffers | Verdict::OursDiffers => {
                self.differences += 1;
                let which = if judged.verdict == Verdict::OursDiffers { "ours" } else { "the original" };
                println!("DIFFERENCE of {which} from 01 in {name}:");
                println!("  first seen with {}", told::<O>(&input));
                let least = shrunk::<O>(input, &judged.verdict);
                println!("  smallest found: {}", told::<O>(&least));
            }
        }
        if self.told.elapsed().as_secs() >= 10 {
            self.told = Instant::now();
            eprintln!("{:>5} s  {:>10} cases  {name}", self.started.elapsed().as_secs(), self.cases);
        }
        Some(judged.heard)
    }

    /// The refusals of the operations in this run that no case met, and the departures.
    pub fn untried(&self) -> Vec<String> {
        let mut out = Vec::new();
        let departures = self.parts.iter().flat_map(|part| departures::of_part(part));
        out.extend(departures.filter(|says| !self.examples.contains_key(says)).map(|says| format!("'{says}'")));
        for (name, plain, at_a_change) in REFUSALS {
            let Some(t) = self.tallies.get(name) else {
                // A default call is asked wherever its tolerant one is.
                let tolerant = name.strip_suffix(" zeros");
                out.extend(tolerant.filter(|name| self.tallies.contains_key(name)).map(|_| name.to_string()));
                continue;
            };
            let wanted = plain.iter().map(|n| (false, *n)).chain(at_a_change.iter().map(|n| (true, *n)));
            out.extend(wanted.filter(|w| !t.refused.contains_key(w)).map(|(_, n)| format!("{name} {n}")));
        }
        out
    }

    pub fn table(&self) {
        println!("\n{:<22}{:>10}{:>10}  refused (number: cases)", "operation", "cases", "accepted");
        for (name, t) in &self.tallies {
            let told = |((at, n), c): (&(bool, u8), &u64)| format!("{}{n}: {c}", if *at { "at a change " } else { "" });
            let refused: Vec<String> = t.refused.iter().map(told).collect();
            println!("{name:<22}{:>10}{:>10}  {}", t.cases, t.accepted, refused.join(", "));
        }
        match &self.untried()[..] {
            [] => println!("each refusal that 01 and 02 give these operations was met, and each known departure"),
            untried => println!("NOT MET: {}", untried.join(", ")),
        }
        for (name, t) in self.tallies.iter().filter(|(_, t)| !t.notes.is_empty()) {
            let notes: Vec<String> = t.notes.iter().map(|(n, c)| format!("{n}: {c}")).collect();
            println!("\n{name}, act by act: {}", notes.join(", "));
        }
        println!("\nthe original{:>9}{}", "", ROWS.map(|h| format!("{h:>11}")).join(""));
        for (name, t) in &self.tallies {
            println!("{name:<21}{}", t.heard.map(|c| format!("{c:>11}")).join(""));
        }
        println!("\nknown departures of the original from 01");
        let mut seen: BTreeMap<&str, u64> = BTreeMap::new();
        for t in self.tallies.values() {
            for (known, cases) in &t.known {
                *seen.entry(known).or_default() += cases;
            }
        }
        for (known, cases) in seen {
            println!("{cases:>10}  {known}\n            smallest: {}", self.examples[known]);
        }
        println!(
            "\n{} cases in {} s, {} unlisted differences",
            self.cases,
            self.started.elapsed().as_secs(),
            self.differences
        );
    }
}

/// An input and what each says of it.
fn told<O: Op>(input: &O::Input) -> String {
    let j = judged::<O>(input);
    let ours = match &j.ours {
        Some(ours) => format!("; ours: {}", ours.told_beside(&j.model)),
        None => String::new(),
    };
    let beside = match &j.heard {
        Heard::Says { did, .. } | Heard::Otherwise { did, .. } if !did.left.is_empty() => &did.left,
        Heard::Says { out, .. } => &out.bytes,
        _ => &j.model.bytes,
    };
    let model = format!("{:?}{}", j.model.said, bytes_told(&j.model.bytes, beside));
    format!("{input:?}; 01: {model}; original: {}{ours}", j.heard.told(&j.model))
}

// A call that does not come back can't be stopped: a watch tells its input and ends the run.

type Teller = fn(usize) -> String;

static IN_HAND: Mutex<Option<(usize, Teller)>> = Mutex::new(None);
static DONE: AtomicU64 = AtomicU64::new(0);

fn watched<O: Op, T>(input: &O::Input, call: impl FnOnce(&O::Input) -> T) -> T {
    fn tell<I: Debug>(at: usize) -> String {
        // SAFETY: the input is alive while it is in hand.
        format!("{:?}", unsafe { &*(at as *const I) })
    }
    *IN_HAND.lock().unwrap() = Some((input as *const O::Input as usize, tell::<O::Input>));
    let answer = call(input);
    *IN_HAND.lock().unwrap() = None;
    DONE.fetch_add(1, Ordering::Relaxed);
    answer
}

/// Starts the watch.
pub fn watch(seconds: u64) {
    std::thread::spawn(move || {
        let mut before = (0, Instant::now());
        loop {
            std::thread::sleep(Duration::from_secs(1));
            let done = DONE.load(Ordering::Relaxed);
            if done != before.0 {
                before = (done, Instant::now());
            } else if before.1.elapsed().as_secs() >= seconds {
                if let Some((at, tell)) = *IN_HAND.lock().unwrap() {
                    println!("NO ANSWER within {seconds} s: {}", tell(at));
                    std::process::exit(1);
                }
            }
        }
    });
}
