//! Inputs that several operations share, small to print and to shrink: bytes, table images, logs.

use crate::rng::{mixed, Rng};
use model::{
    after_end::AfterEnd,
    diff::Diff,
    edition::{Edition, Seed},
    places::{length_of, page_at, tag_pages_of, ID_AT},
    reader::{CLEAR, END, START, UPDATE},
    PAGE,
};
use original::hash::{hash, id_of};
use std::{cell::RefCell, collections::BTreeMap, fmt, sync::OnceLock};

/// The seed of the original's page hash, one for a run.
pub static HASH_SEED: OnceLock<original::Seed> = OnceLock::new();

pub fn hash_seed() -> &'static original::Seed {
    HASH_SEED.get().expect("set at the start")
}

/// The original's hash of an id.
pub fn hash_of(id: [u8; 32]) -> u64 {
    hash(id, hash_seed())
}

/// A page id, told by its hash and a number that tells ids of one hash apart.
#[derive(Clone, Copy, PartialEq, Eq, PartialOrd, Ord)]
pub struct Label {
    pub hash: u64,
    pub free: u64,
}

impl Label {
    pub fn id(self) -> [u8; 32] {
        let id = id_of(self.hash, hash_seed(), self.free as u128);
        debug_assert_eq!(hash_of(id), self.hash);
        id
    }

    pub fn smaller(self) -> Vec<Label> {
        let hashes = smaller_number(self.hash).into_iter().map(|hash| Label { hash, ..self });
        let frees = smaller_number(self.free).into_iter().map(|free| Label { free, ..self });
        hashes.chain(frees).collect()
    }
}

impl fmt::Debug for Label {
    fn fmt(&self, f: &mut fmt::Formatter) -> fmt::Result {
        write!(f, "id{}(hash {:#x})", self.free, self.hash)
    }
}

/// A hash with a full tag (given less 128) and a home among n buckets.
pub fn hash_at(tag: u64, home: u64, n: u64) -> u64 {
    let low = tag << 57;
    let up = (home + n - low % n) % n;
    low + up
}

/// Bytes that print as runs.
#[derive(Clone, Default, PartialEq, Eq)]
pub struct Bytes(pub Vec<u8>);

impl fmt::Debug for Bytes {
    fn fmt(&self, f: &mut fmt::Formatter) -> fmt::Result {
        let mut i = 0;
        let mut first = true;
        while i < self.0.len() {
            let b = self.0[i];
            let run = self.0[i..].iter().take_while(|&&c| c == b).count();
            let gap = if first { "" } else { " " };
            match run {
                1..=3 => write!(f, "{gap}{}", vec![format!("{b:02x}"); run].join(" "))?,
                _ => write!(f, "{gap}{b:02x}*{run}")?,
            }
            first = false;
            i += run;
        }
        Ok(())
    }
}

impl Bytes {
    /// Fewer bytes, and bytes nearer to zero.
    pub fn smaller(&self) -> Vec<Bytes> {
        let mut out = Vec::new();
        let len = self.0.len();
        let zero = vec![0; len];
        if self.0 != zero {
            out.push(Bytes(zero));
        }
        let mut chunk = len.div_ceil(2);
        while chunk > 0 && out.len() < 64 {
            for at in (0..len).step_by(chunk) {
                let end = len.min(at + chunk);
                if self.0[at..end].iter().any(|&b| b != 0) {
                    let mut less = self.0.clone();
                    less[at..end].fill(0);
                    out.push(Bytes(less));
                }
            }
            chunk /= 2;
        }
        out
    }
}

/// Bytes told by a length and a number: zeros for 0, else a mixture of its own.
#[derive(Clone, Copy, PartialEq, Eq)]
pub struct Filler {
    pub len: usize,
    pub with: u64,
}

impl Filler {
    pub fn bytes(self) -> Vec<u8> {
        let mut bytes = vec![0; self.len];
        fill(&mut bytes, self.with);
        bytes
    }

    pub fn smaller(self) -> Vec<Filler> {
        if self.with > 1 {
            vec![Filler { with: 0, ..self }, Filler { with: 1, ..self }]
        } else if self.with == 1 {
            vec![Filler { with: 0, ..self }]
        } else {
            vec![]
        }
    }
}

impl fmt::Debug for Filler {
    fn fmt(&self, f: &mut fmt::Formatter) -> fmt::Result {
        match self.with {
            0 => write!(f, "{} zeros", self.len),
            with => write!(f, "{} bytes of mixture {with:#x}", self.len),
        }
    }
}

pub fn page(with: u64) -> Filler {
    Filler { len: PAGE, with }
}

/// Fills bytes with a mixture.
pub fn fill(bytes: &mut [u8], with: u64) {
    /// Pages that were filled before; many inputs have the same.
    type Filled = Vec<(u64, [u8; PAGE])>;
    thread_local!(static FILLED: RefCell<Filled> = RefCell::new(vec![(0, [0; PAGE]); 64]));
    match <&mut [u8; PAGE]>::try_from(&mut *bytes) {
        Ok(page) => FILLED.with_borrow_mut(|filled| {
            let kept = &mut filled[(with.wrapping_mul(0x9E37_79B9_7F4A_7C15) >> 58) as usize];
            if kept.0 != with {
                kept.0 = with;
                mix(&mut kept.1, with);
            }
            *page = kept.1;
        }),
        Err(_) => mix(bytes, with),
    }
}

fn mix(bytes: &mut [u8], with: u64) {
    if with == 0 {
        bytes.fill(0);
        return;
    }
    let mut x = with.wrapping_mul(0x9E37_79B9_7F4A_7C15);
    for chunk in bytes.chunks_mut(8) {
        x = x.wrapping_add(0x9E37_79B9_7F4A_7C15);
        let word = mixed(x).to_le_bytes();
        chunk.copy_from_slice(&word[..chunk.len()]);
    }
}

/// A table image or its tags: n tags, one padding byte, labels, and what else fills the pages.
#[derive(Clone, PartialEq, Eq)]
pub struct Table {
    pub n: u64,
    /// The first tags; the others are empty.
    pub tags: Bytes,
    /// A padding byte that is not zero, counted from n.
    pub padding: Option<(u64, u8)>,
    /// The page of a bucket that is labelled has the label's id as its last 32 bytes.
    pub labels: BTreeMap<u64, Label>,
    /// What the pages are filled with; 0 for zeros. A large table has it in its labelled pages alone.
    pub with: u64,
    /// Bytes that the lent slice is longer than the table, or shorter.
    pub longer: i64,
}

/// Above this many buckets only labelled pages are filled.
pub const LARGE: u64 = 64;

impl Table {
    pub fn new(n: u64, tags: &[u8]) -> Self {
        Table { n, tags: Bytes(tags.to_vec()), padding: None, labels: BTreeMap::new(), with: 0, longer: 0 }
    }

    fn lengthened(&self, mut bytes: Vec<u8>) -> Vec<u8> {
        let len = (bytes.len() as i64 + self.longer).max(0) as usize;
        bytes.resize(len, 0);
        bytes
    }

    /// A count that a slice can be made for; of others a slice for a small one is lent.
    fn made(&self) -> u64 {
        match self.n {
            0 => 0,
            n if n <= model::places::MOST => n,
            _ => 1,
        }
    }

    fn exact_tags(&self) -> Vec<u8> {
        let n = self.made();
        let mut tags = vec![0; PAGE * tag_pages_of(n) as usize];
        let given = self.tags.0.len().min(tags.len());
        tags[..given].copy_from_slice(&self.tags.0[..given]);
        if let Some((at, byte)) = self.padding {
            if let Some(b) = tags.get_mut((n + at) as usize) {
                *b = byte;
            }
        }
        tags
    }

    /// The tag pages.
    pub fn tag_bytes(&self) -> Vec<u8> {
        let exact = self.exact_tags();
        self.lengthened(exact)
    }

    /// The image.
    pub fn image(&self) -> Vec<u8> {
        let n = self.made();
        let mut image = vec![0; length_of(n) as usize];
        let tags = self.exact_tags();
        image[..tags.len()].copy_from_slice(&tags);
        if n <= LARGE {
            for b in 0..n {
                fill(&mut image[page_at(n, b)..][..PAGE], if self.with == 0 { 0 } else { self.with ^ b << 32 });
            }
        }
        for (&b, label) in &self.labels {
            if b < n {
                let page = &mut image[page_at(n, b)..][..PAGE];
                if n > LARGE {
                    fill(page, if self.with == 0 { 0 } else { self.with ^ b << 32 });
                }
                page[ID_AT..].copy_from_slice(&label.id());
            }
        }
        self.lengthened(image)
    }

    /// The hash of each bucket's page, as the original would take it.
    pub fn hashes(&self) -> Vec<u64> {
        let n = self.made();
        let mut last = [0; PAGE];
        (0..n)
            .map(|b| match self.labels.get(&b) {
                Some(label) => label.hash,
                None => {
                    let filled = n <= LARGE && self.with != 0;
                    fill(&mut last, if filled { self.with ^ b << 32 } else { 0 });
                    hash_of(last[ID_AT..].try_into().unwrap())
                }
            })
            .collect()
    }

    /// The same where an image is made of each: none of gigabytes. A count above the limit is lent a small one.
    pub fn smaller_images(&self) -> Vec<Table> {
        let small = |t: &Table| t.n <= self.n.min(1 << 15) || t.n > model::places::MOST;
        self.smaller().into_iter().filter(small).collect()
    }

    pub fn smaller(&self) -> Vec<Table> {
        let mut out = Vec::new();
        for n in smaller_number(self.n) {
            let mut t = self.clone();
            t.n = n;
            t.tags.0.truncate(n as usize);
            t.labels.retain(|&b, _| b < n);
            out.push(t);
        }
        let kept = self.tags.0.iter().rposition(|&t| t != 0).map_or(0, |last| last + 1).min(self.n as usize);
        if kept < self.tags.0.len() {
            out.push(Table { tags: Bytes(self.tags.0[..kept].to_vec()), ..self.clone() });
        }
        if self.longer != 0 {
            out.push(Table { longer: 0, ..self.clone() });
            out.push(Table { longer: self.longer.signum(), ..self.clone() });
        }
        if self.padding.is_some() {
            out.push(Table { padding: None, ..self.clone() });
        }
        if self.with != 0 {
            out.push(Table { with: 0, ..self.clone() });
        }
        for &b in self.labels.keys() {
            let mut t = self.clone();
            t.labels.remove(&b);
            out.push(t);
        }
        for tags in self.tags.smaller() {
            out.push(Table { tags, ..self.clone() });
        }
        for (&b, label) in &self.labels {
            for less in label.smaller() {
                let mut t = self.clone();
                t.labels.insert(b, less);
                out.push(t);
            }
        }
        out.retain(|t| t != self);
        out
    }
}

impl fmt::Debug for Table {
    fn fmt(&self, f: &mut fmt::Formatter) -> fmt::Result {
        write!(f, "table n={} tags [{:?}]", self.n, self.tags)?;
        if let Some((at, byte)) = self.padding {
            write!(f, " padding byte {at} = {byte:02x}")?;
        }
        if !self.labels.is_empty() {
            write!(f, " labels {:?}", self.labels)?;
        }
        if self.with != 0 {
            write!(f, " pages of mixture {:#x}", self.with)?;
        }
        if self.longer != 0 {
            write!(f, " longer by {}", self.longer)?;
        }
        Ok(())
    }
}

/// A record of a log, as it is to stand there; good or not.
#[derive(Clone, Copy, PartialEq, Eq)]
pub enum Record {
    Clear(u64),
    /// The nodes and elided bytes are a mixture.
    Update {
        label: Label,
        diff: Diff,
        with: u64,
        bucket: u64,
    },
    End,
    Byte(u8),
}

impl fmt::Debug for Record {
    fn fmt(&self, f: &mut fmt::Formatter) -> fmt::Result {
        match self {
            Record::Clear(b) => write!(f, "clear {b}"),
            Record::Update { label, diff, with, bucket } => {
                write!(f, "update of bucket {bucket} with {label:?}, {diff:?}, mixture {with:#x}")
            }
            Record::End => write!(f, "end"),
            Record::Byte(b) => write!(f, "byte {b:02x}"),
        }
    }
}

/// A log: a start, records, zeros to whole pages, and then changes of single bytes and of its length.
#[derive(Clone, PartialEq, Eq)]
pub struct Log {
    pub sync: u32,
    /// The store that it names, in edition two.
    pub seed: Option<Seed>,
    pub records: Vec<Record>,
    /// Pages of zeros after the last that is needed.
    pub pages_more: usize,
    pub changed: Vec<(usize, u8)>,
    /// The length that is lent, if another.
    pub cut: Option<usize>,
}

impl Log {
    pub fn new(sync: u32, records: &[Record]) -> Self {
        Log { sync, seed: None, records: records.to_vec(), pages_more: 0, changed: vec![], cut: None }
    }

    /// The same log in edition two.
    pub fn of_store(&self, seed: Seed) -> Self {
        Log { seed: Some(seed), ..self.clone() }
    }

    pub fn edition(&self) -> Edition {
        crate::second::edition(&self.seed)
    }

    /// The records' bytes alone.
    fn written(&self) -> Vec<u8> {
        self.written_up_to(self.records.len())
    }

    /// Where a record starts.
    pub fn start(&self, record: usize) -> u64 {
        self.written_up_to(record).len() as u64
    }

    fn written_up_to(&self, record: usize) -> Vec<u8> {
        let mark = |tag| self.edition().mark(tag);
        let mut log = mark(START);
        log.extend(self.sync.to_le_bytes());
        log.extend(self.seed.iter().flatten());
        for r in &self.records[..record] {
            match r {
                Record::Clear(b) => {
                    log.extend(mark(CLEAR));
                    log.extend(b.to_le_bytes());
                }
                Record::Update { label, diff, with, bucket } => {
                    log.extend(mark(UPDATE));
                    log.extend(label.id());
                    log.extend(diff.bytes());
                    let nodes = diff.0 & ((1 << 126) - 1);
                    log.extend(Filler { len: 32 * nodes.count_ones() as usize + 8, with: *with }.bytes());
                    log.extend(bucket.to_le_bytes());
                }
                Record::End => log.extend(mark(END)),
                Record::Byte(b) => log.push(*b),
            }
        }
        log
    }

    /// The bytes up to the last record's end.
    pub fn used(&self) -> usize {
        self.written().len()
    }

    pub fn bytes(&self) -> Vec<u8> {
        // A case asks for its log several times.
        thread_local!(static LAST: RefCell<Option<(Log, Vec<u8>)>> = const { RefCell::new(None) });
        LAST.with_borrow_mut(|last| match last {
            Some((log, bytes)) if log == self => bytes.clone(),
            _ => {
                let bytes = self.made();
                *last = Some((self.clone(), bytes.clone()));
                bytes
            }
        })
    }

    fn made(&self) -> Vec<u8> {
        let mut log = self.written();
        let whole = log.len().next_multiple_of(PAGE) + PAGE * self.pages_more;
        log.resize(whole, 0);
        if let Some(len) = self.cut {
            log.resize(len, 0);
        }
        for &(at, byte) in &self.changed {
            if let Some(b) = log.get_mut(at) {
                *b = byte;
            }
        }
        log
    }

    pub fn smaller(&self) -> Vec<Log> {
        let mut out = Vec::new();
        for i in 0..self.records.len() {
            let mut l = self.clone();
            l.records.remove(i);
            out.push(l);
        }
        for i in 0..self.changed.len() {
            let mut l = self.clone();
            l.changed.remove(i);
            out.push(l);
        }
        if self.pages_more > 0 {
            out.push(Log { pages_more: self.pages_more - 1, ..self.clone() });
        }
        if let Some(len) = self.cut {
            out.push(Log { cut: None, ..self.clone() });
            for len in smaller_number(len as u64) {
                out.push(Log { cut: Some(len as usize), ..self.clone() });
            }
        }
        for (i, r) in self.records.iter().enumerate() {
            let less: Vec<Record> = match *r {
                Record::Clear(b) => smaller_number(b).into_iter().map(Record::Clear).collect(),
                Record::Update { label, diff, with, bucket } => {
                    let labels = label.smaller().into_iter().map(|label| Record::Update { label, diff, with, bucket });
                    let diffs = smaller_diff(diff).into_iter().map(|diff| Record::Update { label, diff, with, bucket });
                    let buckets =
                        smaller_number(bucket).into_iter().map(|bucket| Record::Update { label, diff, with, bucket });
                    let withs = (with != 0).then_some(Record::Update { label, diff, with: 0, bucket });
                    labels.chain(diffs).chain(buckets).chain(withs).collect()
                }
                Record::Byte(b) => smaller_number(b as u64).into_iter().map(|b| Record::Byte(b as u8)).collect(),
                Record::End => vec![Record::Byte(1)],
            };
            for r in less {
                let mut l = self.clone();
                l.records[i] = r;
                out.push(l);
            }
        }
        for sync in smaller_number(self.sync as u64) {
            out.push(Log { sync: sync as u32, ..self.clone() });
        }
        if self.seed.is_some_and(|seed| seed != [0; 16]) {
            out.push(self.of_store([0; 16]));
        }
        out
    }
}

impl fmt::Debug for Log {
    fn fmt(&self, f: &mut fmt::Formatter) -> fmt::Result {
        write!(f, "log of sync {}: {:?}", self.sync, self.records)?;
        if let Some(seed) = self.seed {
            write!(f, ", of edition two with seed {:?}", Bytes(seed.to_vec()))?;
        }
        if self.pages_more > 0 {
            write!(f, ", {} pages more", self.pages_more)?;
        }
        if let Some(len) = self.cut {
            write!(f, ", cut to {len} bytes")?;
        }
        for (at, byte) in &self.changed {
            write!(f, ", byte {at} = {byte:02x}")?;
        }
        Ok(())
    }
}

/// The ids of a log's updates up to the first thing that is no entry, and their hashes.
pub fn log_hashes(log: &[u8]) -> Vec<u64> {
    let mut hashes = Vec::new();
    let edition = Edition::of(log);
    let mut at = edition.first();
    while let Ok((entry, next)) = model::reader::next(log, edition, at, AfterEnd::Tolerant) {
        match entry {
            model::reader::Entry::End => break,
            model::reader::Entry::Update { id, .. } => hashes.push(hash_of(id)),
            _ => {}
        }
        at = next;
    }
    hashes
}

/// Whether n buckets and a length of their tags are ones that 01 takes.
pub fn tags_fit(n: u64, len: usize) -> bool {
    (1..=1 << 20).contains(&n) && len as u64 == 4096 * n.div_ceil(4096)
}

/// The same for an image.
pub fn image_fits(n: u64, len: usize) -> bool {
    (1..=1 << 20).contains(&n) && len as u64 == 4096 * (n.div_ceil(4096) + n)
}

/// A store's seed, by chance.
pub fn any_seed(rng: &mut Rng) -> Seed {
    match rng.below(8) {
        0 => [0; 16],
        1 => [0xB2; 16],
        _ => rng.wide().to_le_bytes(),
    }
}

/// The same seed but for one byte.
pub fn near(seed: Seed, byte: usize, with: u8) -> Seed {
    let mut near = seed;
    near[byte] ^= with;
    near
}

/// Numbers nearer to zero.
pub fn smaller_number(x: u64) -> Vec<u64> {
    let mut out = vec![0, 1, x / 2, x & x.wrapping_sub(1), x.saturating_sub(1)];
    out.retain(|&y| y < x);
    out.dedup();
    out
}

/// Diffs with fewer marks.
pub fn smaller_diff(d: Diff) -> Vec<Diff> {
    let mut out: Vec<Diff> = d.slots().into_iter().map(|s| Diff(d.0 & !(1 << s))).collect();
    if out.len() > 2 {
        out.insert(0, Diff(0));
    }
    out
}

/// The diffs in two words, as the original takes them.
pub fn words(d: Diff) -> [u64; 2] {
    [d.0 as u64, (d.0 >> 64) as u64]
}

/// A diff of some marks.
pub fn any_diff(rng: &mut Rng) -> Diff {
    let d = match rng.below(6) {
        0 => 0,
        1 => 1 << rng.below(128),
        2 => 1 << rng.below(128) | 1 << rng.below(128),
        3 => rng.wide() & rng.wide() & rng.wide(),
        4 => rng.wide() | rng.wide(),
        _ => rng.wide(),
    };
    Diff(d)
}

/// The same, without bits 126 and 127.
pub fn good_diff(rng: &mut Rng) -> Diff {
    let d = any_diff(rng);
    match rng.below(12) {
        0 => Diff((1 << 126) - 1),
        _ => Diff(d.0 & ((1 << 126) - 1)),
    }
}

/// The tags that mean something, and their neighbours.
pub const TAGS: [u8; 8] = [0x00, 0x01, 0x7E, 0x7F, 0x80, 0x81, 0xFE, 0xFF];

/// The tag of a bucket in a table that is filled to some degree.
pub fn any_tag(rng: &mut Rng) -> u8 {
    match rng.below(8) {
        0..=4 => rng.pick(&TAGS),
        5 => 0x80,
        _ => rng.next() as u8,
    }
}

/// Some tags; filled to a degree that is one for the table.
pub fn any_tags(rng: &mut Rng, n: u64) -> Vec<u8> {
    let style = rng.below(6);
    (0..n)
        .map(|_| match style {
            0 => any_tag(rng),
            1 => rng.pick(&[0x80, 0x80, 0x80, 0x81, 0x7F]),
            2 => rng.pick(&[0x80, 0x81]),
            3 => rng.pick(&[0x00, 0x80]),
            4 => rng.pick(&[0x80, 0x81, 0x01, 0x7E]),
            _ => rng.next() as u8,
        })
        .collect()
}

/// A bucket count: small ones mostly, then those around a power of two or a tag page.
pub fn any_count(rng: &mut Rng, most: u64) -> u64 {
    let n = match rng.below(8) {
        0..=3 => rng.within(1, 8),
        4 | 5 => rng.within(1, 64),
        6 => (1u64 << rng.below(21)).saturating_add(rng.below(3)).saturating_sub(1).max(1),
        _ => rng.pick(&[4095, 4096, 4097, 8191, 8192, 8193]),
    };
    n.min(most)
}
