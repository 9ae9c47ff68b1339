//! What the original did in a case, and what 01 has to answer by it.

use crate::{
    departures::Departure,
    run::{Out, Said},
};
use original::{Panic, Trouble};
use std::{
    fmt::{self, Debug},
    hint::black_box,
    slice::SliceIndex,
};

/// How a call of the original ended.
#[derive(Clone, PartialEq, Eq)]
pub enum End {
    Value(&'static str, Vec<u64>),
    Error(String),
    Panic(Panic),
    /// Its path, walked ahead, has no end; it was not called.
    Endless,
}

/// A call of the original: its end, and the bytes that it answered or left.
#[derive(Clone, PartialEq, Eq)]
pub struct Did {
    pub end: End,
    pub left: Vec<(&'static str, Vec<u8>)>,
}

impl Did {
    fn ended(end: End) -> Self {
        Did { end, left: vec![] }
    }

    pub fn value(name: &'static str, values: &[u64]) -> Self {
        Did::ended(End::Value(name, values.to_vec()))
    }

    pub fn error(said: &str) -> Self {
        Did::ended(End::Error(said.to_string()))
    }

    pub fn panic(at: &str, said: String) -> Self {
        Did::ended(End::Panic(Panic { at: at.to_string(), said }))
    }

    pub fn endless() -> Self {
        Did::ended(End::Endless)
    }

    pub fn of<T>(said: original::Said<T>, told: impl FnOnce(T) -> Did) -> Self {
        match said {
            Ok(value) => told(value),
            Err(Trouble::Error(said)) => Did::ended(End::Error(said)),
            Err(Trouble::Panic(panic)) => Did::ended(End::Panic(panic)),
            Err(Trouble::Endless) => Did::ended(End::Endless),
        }
    }

    pub fn with(mut self, name: &'static str, bytes: impl Into<Vec<u8>>) -> Self {
        self.left.push((name, bytes.into()));
        self
    }

    /// 01 has to answer the same, or to refuse with the number that an error stands for.
    pub fn plain(mut self) -> Heard {
        let said = match &self.end {
            End::Value(name, values) => Some(Said::Value(name, values.clone())),
            End::Error(error) => number(error).map(Said::Refused),
            End::Panic(_) | End::Endless => None,
        };
        match said {
            Some(said) => {
                let out = Out { said, bytes: std::mem::take(&mut self.left), read: vec![] };
                Heard::Says { did: self, out, departs: None }
            }
            None => Heard::Otherwise { did: self, wanted: "an answer or a known error".to_string() },
        }
    }

    /// A log of edition two, which the original refuses as one with no start; and what 02 answers to it.
    pub fn beyond(self, out: Out) -> Heard {
        match &self.end {
            End::Error(error) if number(error) == Some(7) => Heard::Says { did: self, out, departs: None },
            _ => Heard::Otherwise { did: self, wanted: "an error that stands for 7".to_string() },
        }
    }

    /// A known departure, where it is this very one; and what 01 answers there.
    pub fn departs(self, how: Departure, wanted: Did, out: Out) -> Heard {
        self.held_to(wanted, Some(how), out)
    }

    /// The same where it may be none.
    pub fn held_to(self, wanted: Did, how: Option<Departure>, out: Out) -> Heard {
        if self == wanted {
            return Heard::Says { did: self, out, departs: how.map(|how| how.says) };
        }
        let known = how.map_or(String::new(), |how| format!(" ({})", how.says));
        Heard::Otherwise { wanted: wanted.told_beside(&self.left) + &known, did: self }
    }

    pub fn told_beside(&self, others: &[(&'static str, Vec<u8>)]) -> String {
        format!("{:?}{}", self.end, bytes_told(&self.left, others))
    }
}

impl Debug for End {
    fn fmt(&self, f: &mut fmt::Formatter) -> fmt::Result {
        match self {
            End::Value(name, values) => write!(f, "{name} {values:?}"),
            End::Error(said) => write!(f, "error '{said}'"),
            End::Panic(Panic { at, said }) => write!(f, "panic at {at} '{}'", said.replace('\n', " ")),
            End::Endless => write!(f, "never ends"),
        }
    }
}

/// Bytes beside others of the same names: where they differ, or their number.
pub fn bytes_told(bytes: &[(&'static str, Vec<u8>)], others: &[(&'static str, Vec<u8>)]) -> String {
    let mut told = String::new();
    for (name, bytes) in bytes {
        let other = others.iter().find(|(n, _)| n == name).map(|(_, b)| b);
        match other.and_then(|o| (0..bytes.len().max(o.len())).find(|&i| bytes.get(i) != o.get(i))) {
            Some(at) => {
                let near = &bytes[at.min(bytes.len())..bytes.len().min(at + 8)];
                let near: Vec<String> = near.iter().map(|b| format!("{b:02x}")).collect();
                told += &format!(", {name} ({} bytes) at {at}: {}", bytes.len(), near.join(" "));
            }
            None if other.is_some() => {}
            None => told += &format!(", {name} ({} bytes)", bytes.len()),
        }
    }
    told
}

/// What was heard of the original.
pub enum Heard {
    /// What it did, what 01 has to answer by it, and the departure where that is something else.
    Says { did: Did, out: Out, departs: Option<&'static str> },
    /// It did something else than what is known of it.
    Otherwise { did: Did, wanted: String },
    /// It has no such call, or no such input.
    NotAsked,
    /// The operation has itself compared what can be compared.
    Held(Result<(), String>),
}

impl Heard {
    pub fn told(&self, model: &Out) -> String {
        match self {
            Heard::Says { did, departs: Some(_), .. } => did.told_beside(&model.bytes),
            Heard::Says { did, out, departs: None } => format!("{:?}{}", did.end, bytes_told(&out.bytes, &model.bytes)),
            Heard::Otherwise { did, wanted } => format!("{}, where it is {wanted}", did.told_beside(&model.bytes)),
            Heard::NotAsked => "not asked".to_string(),
            Heard::Held(Ok(())) => "agrees".to_string(),
            Heard::Held(Err(said)) => said.clone(),
        }
    }

    /// The place in the table of what the original did.
    pub fn row(&self) -> usize {
        match self {
            Heard::Says { did, .. } | Heard::Otherwise { did, .. } => match did.end {
                End::Value(..) => 0,
                End::Error(_) => 1,
                End::Panic(_) => 2,
                End::Endless => 3,
            },
            Heard::NotAsked => 4,
            Heard::Held(_) => 5,
        }
    }
}

pub const ROWS: [&str; 6] = ["answered", "error", "panic", "endless", "not asked", "held"];

/// The refusal number that an error of the original stands for. In growth the length of the table's file is that
/// of a lent image, 2.
pub fn number(error: &str) -> Option<u8> {
    const KNOWN: [(&str, u8); 22] = [
        ("bucket count must be greater than zero", 1),
        ("hash table has zero buckets", 1),
        (FILE_LENGTH, 1),
        ("Invalid page diff", 4),
        ("reserved bits", 4),
        ("not a multiple of the page size", 5),
        ("Unexpected end of WAL file", 6),
        ("unexpected WAL entry tag at start", 7),
        ("unknown WAL entry tag", 8),
        ("failed to fill whole buffer", 9),
        ("bucket exhaustion", 10),
        ("failed to allocate bucket", 10),
        ("invalid rehash marker length", 15),
        ("invalid rehash marker magic", 16),
        ("invalid rehash marker bucket counts", 17),
        ("pending rehash marker", 18),
        ("cannot shrink", 19),
        ("non-empty padding", 20),
        ("duplicate page label", 21),
        ("mismatched meta hint", 22),
        ("probe hit empty bucket", 23),
        ("was not reached within", 24),
    ];
    KNOWN.iter().find(|(part, _)| error.contains(part)).map(|(_, number)| *number)
}

pub const FILE_LENGTH: &str = "Store corrupted; unexpected file length";

// The words of a panic, as the compiler and the standard library have them.

/// An index past the end.
pub fn outside(len: usize, index: u64) -> String {
    format!("index out of bounds: the len is {len} but the index is {index}")
}

/// A range that a slice does not reach. Which of its ends is told is for the standard library to say.
pub fn range_outside(len: usize, range: impl SliceIndex<[u8], Output = [u8]>) -> String {
    let provoked = original::caught::caught(|| {
        black_box(&vec![0; len][range]);
    });
    match provoked {
        Err(Trouble::Panic(panic)) => panic.said,
        _ => "a range within".to_string(),
    }
}

/// Two values that should be equal.
pub fn unequal(left: u64, right: u64) -> String {
    format!("assertion `left == right` failed\n  left: {left}\n right: {right}")
}

pub const OVERFLOW: &str = "attempt to add with overflow";
pub const NO_REMAINDER: &str = "attempt to calculate the remainder with a divisor of zero";

/// Whether the original is built with debug assertions and overflow checks.
pub const CHECKED: bool = cfg!(debug_assertions);
