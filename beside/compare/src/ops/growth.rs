//! rehash.rs: the marker, the pending decision, growth.

use crate::{
    departures as known,
    engine::Engine,
    faults::heard,
    heard::{number, Did, End, Heard},
    input::{any_count, any_tags, hash_at, hash_seed, smaller_number, Bytes, Label, Table},
    ops::{
        audit::stored,
        path::takes_too_long,
        places::{file_length, wrong_length},
    },
    rng::{mixed, Rng},
    run::{page_bytes, u64_bytes, Op, Out, Run, Said},
};
use model::{
    growth::Grown,
    places::{length_of, MOST},
    tags::{kind, Kind},
    PAGE,
};
use original::{growth as o, path::Map, running::Folder, Trouble};
use std::{collections::BTreeMap, fmt};

thread_local!(static FOLDER: Folder = Folder::new());

pub struct GrowthOp;

#[derive(Clone, Debug)]
pub enum Input {
    WriteMarker(u32, u32),
    ReadMarker(Bytes),
    /// Meta count, file length, old and new count.
    Pending(u64, u64, u64, u64),
    Grow(Growth),
}

#[derive(Clone)]
pub struct Growth {
    pub old: Table,
    pub new_n: u64,
    /// What stands in the new image before, and bytes that it is longer.
    pub new_with: u8,
    pub new_longer: i64,
    pub hashes_more: i64,
    /// The hashes are not those of the labels, which the original takes.
    pub foreign: bool,
}

use Input::*;

impl fmt::Debug for Growth {
    fn fmt(&self, f: &mut fmt::Formatter) -> fmt::Result {
        write!(f, "{:?} into {} buckets of bytes {:02x}", self.old, self.new_n, self.new_with)?;
        if self.new_longer != 0 {
            write!(f, ", longer by {}", self.new_longer)?;
        }
        if self.hashes_more != 0 {
            write!(f, ", {} hashes more", self.hashes_more)?;
        }
        if self.foreign {
            write!(f, ", hashes of their own")?;
        }
        Ok(())
    }
}

impl Growth {
    pub fn new(old: Table, new_n: u64) -> Self {
        Growth { old, new_n, new_with: 0xCC, new_longer: 0, hashes_more: 0, foreign: false }
    }

    fn new_image(&self) -> Vec<u8> {
        let n = if self.new_n <= MOST { self.new_n } else { 1 };
        vec![self.new_with; (length_of(n) as i64 + self.new_longer).max(0) as usize]
    }

    fn hashes(&self) -> Vec<u64> {
        let mut hashes = self.old.hashes();
        let len = (hashes.len() as i64 + self.hashes_more).max(0) as usize;
        hashes.resize(len, 1 << 60);
        if self.foreign {
            hashes.iter_mut().for_each(|h| *h = mixed(*h));
        }
        hashes
    }
}

fn marker(old: u32, new: u32) -> Vec<u8> {
    let mut bytes = b"NOMTRH1\0".to_vec();
    bytes.extend(old.to_le_bytes());
    bytes.extend(new.to_le_bytes());
    bytes
}

/// What a pending growth does in the original, from its text.
fn finishes(meta: u64, file: u64, old: u64, new: u64) -> Did {
    if new <= old {
        return Did::error(&format!("invalid rehash marker bucket counts: old={old}, new={new}"));
    }
    let (old_len, new_len) = match (file_length(old), file_length(new)) {
        (Ok(old_len), Ok(new_len)) => (old_len, new_len),
        (Err(panic), _) | (_, Err(panic)) => return panic,
    };
    if meta == new && file != new_len {
        let said = "pending rehash marker says meta is updated, but ht length is";
        return Did::error(&format!("{said} {file}; expected {new_len}"));
    }
    if meta == new || meta == old && file == old_len && file != new_len {
        return Did::value("tidy", &[]);
    }
    if meta == old && file == new_len {
        return Did::value("update meta", &[]);
    }
    let said = "pending rehash marker is inconsistent with meta/ht: meta buckets";
    Did::error(&format!("{said}={meta}, old={old}, new={new}, ht_len={file}"))
}

/// The files beside it: the meta file's count, and whether marker and half-made table are there.
fn finished(did: Did, count: u64, marker: bool, half_made: bool) -> Did {
    did.with("files", u64_bytes(&[count, marker as u64, half_made as u64]))
}

/// What a growth comes to along the original's own paths.
pub enum Ahead {
    /// The pages of the new table that are not all zero.
    Grows(BTreeMap<u64, Vec<u8>>),
    /// No bucket is found for the page of an old one.
    GivesUp(u64),
    /// The same, after more than some tenths of a second.
    TooLong,
    Endless,
}

/// Walks a growth ahead, page by page, on a table that has its length.
pub fn ahead(image: &[u8], n: u64, new_n: u64) -> Ahead {
    let at = |n: u64, b: u64| n.div_ceil(4096) + b;
    let mut map = Map::new(&vec![0; PAGE * new_n.div_ceil(4096) as usize], new_n as usize, hash_seed()).expect("pages");
    let mut pages = BTreeMap::new();
    for b in (0..n).filter(|&b| image[b as usize] >= 0x80) {
        let page = &image[PAGE * at(n, b) as usize..][..PAGE];
        let id: [u8; 32] = page[4064..].try_into().unwrap();
        if takes_too_long(map.tags(), new_n, crate::input::hash_of(id)) {
            return Ahead::TooLong;
        }
        match map.allocate(id) {
            Ok(Some(to)) => pages.insert(at(new_n, to), page.to_vec()),
            Ok(None) => return Ahead::GivesUp(b),
            Err(Trouble::Endless) => return Ahead::Endless,
            Err(other) => panic!("an allocation: {other:?}"),
        };
    }
    pages.extend((0u64..).zip(map.tags().chunks(PAGE).map(<[u8]>::to_vec)));
    pages.retain(|_, page| page.iter().any(|&b| b != 0));
    Ahead::Grows(pages)
}

/// A growth of the original, as its end, the table's length and pages, and the meta file's count.
fn grown_did(said: original::Said<()>, length: u64, pages: &[(u64, Vec<u8>)], count: u64) -> Did {
    let files = u64_bytes(&[length, count]);
    Did::of(said, |()| Did::value("done", &[])).with("files", files).with("pages", page_bytes(pages))
}

/// The pages of an image that are not all zero.
fn pages_of(image: &[u8]) -> Vec<(u64, Vec<u8>)> {
    let pages = (0u64..).zip(image.chunks(PAGE).map(<[u8]>::to_vec));
    pages.filter(|(_, page)| page.iter().any(|&b| b != 0)).collect()
}

/// The counts up to which a growth of the original is asked: a file of some gigabytes with holes.
const MOST_ASKED: u64 = 2 * MOST;

impl Growth {
    /// What the original does with these counts and this image, from its text and along its paths, and whether it
    /// can be called; none where the new table would be too large.
    fn theirs(&self, image: &[u8]) -> Option<(Did, bool)> {
        let (n, new_n) = (self.old.n, self.new_n);
        let stays = |end: Did| {
            let kept = grown_did(Ok(()), image.len() as u64, &pages_of(image), n);
            Did { end: end.end, left: kept.left }
        };
        if new_n == 0 {
            return Some((stays(Did::error("hashtable bucket count must be greater than zero")), true));
        }
        if new_n < n {
            return Some((stays(Did::error(&format!("cannot shrink hashtable from {n} to {new_n} buckets"))), true));
        }
        if new_n == n {
            return Some((stays(Did::value("done", &[])), true));
        }
        match file_length(n) {
            Ok(length) if length == image.len() as u64 => {}
            Ok(_) => return Some((stays(wrong_length()), true)),
            Err(panic) => return Some((stays(panic), true)),
        }
        if new_n > MOST_ASKED {
            return None;
        }
        Some(match ahead(image, n, new_n) {
            Ahead::Grows(pages) => {
                let pages: Vec<(u64, Vec<u8>)> = pages.into_iter().collect();
                (grown_did(Ok(()), 4096 * (new_n.div_ceil(4096) + new_n), &pages, new_n), true)
            }
            Ahead::GivesUp(b) => {
                (stays(Did::error(&format!("failed to allocate bucket while rehashing old bucket {b}"))), true)
            }
            Ahead::TooLong => (stays(Did::error("failed to allocate bucket")), false),
            Ahead::Endless => (Did::endless(), false),
        })
    }

    fn original(&self) -> Heard {
        if self.foreign || self.old.n > u32::MAX as u64 || self.new_n > u32::MAX as u64 {
            return Heard::NotAsked;
        }
        let (n, new_n, image) = (self.old.n, self.new_n, self.old.image());
        let Some((wanted, called)) = self.theirs(&image) else { return Heard::NotAsked };
        let did = if called {
            let grown = FOLDER.with(|f| o::grow(f, &image, n as u32, hash_seed(), new_n as u32));
            let grown = heard("growth", &[n, new_n], grown);
            grown_did(grown.said, grown.length, &grown.pages, grown.count as u64)
        } else {
            wanted.clone()
        };
        // 01: counts, shrinking, nothing to do, what is lent, a bucket.
        let counted = |n: u64| (1..=MOST).contains(&n);
        let new = self.new_image();
        let lent = image.len() as u64 == 4096 * (n.div_ceil(4096) + n)
            && new.len() as u64 == 4096 * (new_n.div_ceil(4096) + new_n)
            && self.hashes().len() as u64 == n;
        let zero = vec![0; new.len()];
        let (out, how) = match &wanted.end {
            End::Error(_) if new_n == 0 => (Out::refused(1).with("new", new), None),
            End::Value(..) if n == 0 => (Out::refused(1).with("new", new), Some(known::GROWTH_FROM_0)),
            _ if n == 0 => (Out::refused(1).with("new", new), Some(known::GROWTH_FROM_0_LENGTH)),
            _ if !counted(n) || !counted(new_n) => (Out::refused(1).with("new", new), Some(known::GROWTH_ANY_COUNT)),
            _ if new_n < n => (Out::refused(19).with("new", new), None),
            _ if new_n == n => (Out::value("nothing to do", &[]).with("new", new), None),
            _ if !lent => (Out::refused(2).with("new", new), None),
            End::Value(..) => (Out::value("grown", &[]).with("new", table_of(&wanted, new.len())), None),
            End::Endless => (Out::refused(11).with("new", zero), Some(known::GROWTH_ENDLESS)),
            _ => (Out::refused(10).with("new", zero), None),
        };
        did.held_to(wanted, how, out)
    }
}

/// The table that a growth made, from its pages.
fn table_of(did: &Did, length: usize) -> Vec<u8> {
    let mut table = vec![0; length];
    let pages = did.left.iter().find(|(name, _)| *name == "pages").map_or(&[][..], |(_, bytes)| bytes);
    for told in pages.chunks(8 + PAGE) {
        let (pn, page) = told.split_at(8);
        let at = PAGE * u64::from_le_bytes(pn.try_into().unwrap()) as usize;
        table[at..at + PAGE].copy_from_slice(page);
    }
    table
}

impl Op for GrowthOp {
    type Input = Input;

    fn name(input: &Input) -> &'static str {
        match input {
            WriteMarker(..) => "marker write",
            ReadMarker(..) => "marker read",
            Pending(..) => "pending",
            Grow(..) => "growth",
        }
    }

    fn run<E: Engine>(input: &Input) -> Out {
        match input {
            WriteMarker(old, new) => {
                Out::of(E::write_marker(*old, *new), |m| Out::value("marker", &[]).with("marker", m))
            }
            ReadMarker(bytes) => {
                let bytes = bytes.0.clone();
                Out::of(E::read_marker(&bytes), |(old, new)| Out::value("counts", &[old as u64, new as u64]))
                    .reading("marker", bytes)
            }
            Pending(meta, file, old, new) => Out::of(E::pending(*meta, *file, *old, *new), |p| match p {
                model::growth::Pending::Tidy => Out::value("tidy", &[]),
                model::growth::Pending::UpdateMeta => Out::value("update meta", &[]),
            }),
            Grow(g) => {
                let mut new = g.new_image();
                let (old, hashes) = (g.old.image(), g.hashes());
                let said = E::grow(&old, g.old.n, &mut new, g.new_n, &hashes);
                let out = Out::of(said, |grown| match grown {
                    Grown::NothingToDo => Out::value("nothing to do", &[]),
                    Grown::Grown => Out::value("grown", &[]),
                });
                out.with("new", new).reading("old", old).reading("hashes", u64_bytes(&hashes))
            }
        }
    }

    fn original(input: &Input) -> Heard {
        match input {
            WriteMarker(old, new) => {
                let said = heard("marker write", &[*old as u64, *new as u64], o::marker_encode(*old, *new));
                let did = Did::of(said, |m| Did::value("marker", &[]).with("marker", m));
                if new > old {
                    return did.plain();
                }
                let wanted = Did::value("marker", &[]).with("marker", marker(*old, *new));
                did.departs(known::MARKER_ANY_COUNTS, wanted, Out::refused(17))
            }
            ReadMarker(bytes) => {
                let said = o::marker_decode(&bytes.0);
                Did::of(said, |(old, new)| Did::value("counts", &[old as u64, new as u64])).plain()
            }
            Pending(meta, file, old, new) => {
                let small = |x: u64| u32::try_from(x).ok();
                let (Some(meta), Some(old), Some(new)) = (small(*meta), small(*old), small(*new)) else {
                    return Heard::NotAsked;
                };
                if *file > 1 << 44 {
                    return Heard::NotAsked;
                }
                let said = FOLDER.with(|f| o::finish_pending(f, &marker(old, new), meta, *file));
                let said = heard("pending", &[meta as u64, old as u64, new as u64], said);
                let done =
                    Did::of(said.said, |()| Did::value(if said.count == meta { "tidy" } else { "update meta" }, &[]));
                let did = finished(done, said.count as u64, said.marker, said.half_made);
                let wanted = finishes(meta as u64, *file, old as u64, new as u64);
                let (count, stays) = match &wanted.end {
                    End::Value("update meta", _) => (new, false),
                    End::Value(..) => (meta, false),
                    _ => (meta, true),
                };
                let wanted = finished(wanted, count as u64, stays, stays);
                // 01: counts, then as the original.
                let out = match &wanted.end {
                    _ if [meta, old, new].iter().any(|&n| n as u64 > MOST) => Out::refused(1),
                    End::Value(name, _) => Out::value(name, &[]),
                    End::Error(error) => Out::refused(number(error).unwrap_or(0)),
                    _ => Out::refused(0),
                };
                let above = out.said == Said::Refused(1);
                did.held_to(wanted, above.then_some(known::PENDING_ANY_COUNT), out)
            }
            Grow(g) => g.original(),
        }
    }

    fn smaller(input: &Input) -> Vec<Input> {
        let numbers = |x: u64| smaller_number(x);
        match input {
            WriteMarker(a, b) => {
                let olds = numbers(*a as u64).into_iter().map(|a| WriteMarker(a as u32, *b));
                olds.chain(numbers(*b as u64).into_iter().map(|b| WriteMarker(*a, b as u32))).collect()
            }
            ReadMarker(b) => b.smaller().into_iter().map(ReadMarker).collect(),
            Pending(m, f, a, b) => {
                let mut out: Vec<Input> = numbers(*m).into_iter().map(|m| Pending(m, *f, *a, *b)).collect();
                out.extend(numbers(*f).into_iter().map(|f| Pending(*m, f, *a, *b)));
                out.extend(numbers(*a).into_iter().map(|a| Pending(*m, *f, a, *b)));
                out.extend(numbers(*b).into_iter().map(|b| Pending(*m, *f, *a, b)));
                out
            }
            Grow(g) => {
                let mut out: Vec<Input> =
                    g.old.smaller_images().into_iter().map(|old| Grow(Growth { old, ..g.clone() })).collect();
                // No images of gigabytes: a count above the limit is lent a small one.
                let counts = numbers(g.new_n).into_iter().filter(|&new_n| new_n < 1 << 14 || new_n > MOST);
                out.extend(counts.map(|new_n| Grow(Growth { new_n, ..g.clone() })));
                if g.new_longer != 0 {
                    out.push(Grow(Growth { new_longer: 0, ..g.clone() }));
                }
                if g.hashes_more != 0 {
                    out.push(Grow(Growth { hashes_more: 0, ..g.clone() }));
                }
                if g.foreign {
                    out.push(Grow(Growth { foreign: false, ..g.clone() }));
                }
                out
            }
        }
    }
}

/// Every labelling of a table's full buckets with a home each, up to a number of them.
fn labelled(tags: &[u8], homes: u64, each: &mut dyn FnMut(Table)) {
    let full: Vec<u64> = (0..tags.len() as u64).filter(|&b| kind(tags[b as usize]) == Kind::Full).collect();
    let mut choice = vec![0; full.len()];
    loop {
        let mut t = Table::new(tags.len() as u64, tags);
        for (i, &b) in full.iter().enumerate() {
            let tag = tags[b as usize] as u64 - 128;
            t.labels.insert(b, Label { hash: hash_at(tag, choice[i], homes), free: b });
        }
        each(t);
        let Some(i) = (0..choice.len()).find(|&i| choice[i] + 1 < homes) else { return };
        choice[i] += 1;
        choice[..i].fill(0);
    }
}

pub fn exhaustive(run: &mut Run) {
    // A large table with many full buckets.
    for (n, new_n) in [(4300, 4301), (10_600, 16_500)] {
        run.case::<GrowthOp>(Grow(Growth::new(stored(&mut Rng(n), n, n / 4), new_n)));
    }
    let counts = [0, 1, 2, 3, 4, 8, 255, 256, 65_536, 1_048_576, 1_048_577, u32::MAX - 1, u32::MAX];
    for old in counts {
        for new in counts {
            run.case::<GrowthOp>(WriteMarker(old, new));
            run.case::<GrowthOp>(ReadMarker(Bytes(marker(old, new))));
        }
    }
    let good = marker(4, 8);
    for len in 0..40 {
        let mut bytes = good.clone();
        bytes.resize(len, 0);
        run.case::<GrowthOp>(ReadMarker(Bytes(bytes)));
    }
    for at in 0..16 {
        for byte in 0..=255 {
            let mut bytes = good.clone();
            bytes[at] = byte;
            run.case::<GrowthOp>(ReadMarker(Bytes(bytes)));
        }
    }
    let counts = [0, 1, 2, 5, 4096, 4097, MOST - 1, MOST, MOST + 1, u32::MAX as u64, 1 << 32];
    for meta in counts {
        for old in counts {
            for new in counts {
                let lengths = [old, new].map(|n| if n <= MOST { length_of(n) } else { 4096 });
                for file in [0, 4096, lengths[0], lengths[1], lengths[0] + 1, lengths[1] - lengths[1].min(1)] {
                    run.case::<GrowthOp>(Pending(meta, file, old, new));
                }
            }
        }
    }
    // Tables of up to three buckets, into up to seven.
    let some = [0x00, 0x01, 0x7F, 0x80, 0x81];
    let mut tables: Vec<Vec<u8>> = vec![vec![]];
    let mut from = 0;
    for _ in 0..3 {
        let to = tables.len();
        for i in from..to {
            for tag in some {
                let mut longer = tables[i].clone();
                longer.push(tag);
                tables.push(longer);
            }
        }
        from = to;
    }
    for tags in &tables {
        let n = tags.len() as u64;
        for new_n in 0..=(n + 3) {
            if n == 3 && new_n > 5 {
                continue;
            }
            labelled(tags, new_n.max(1), &mut |t| run.case::<GrowthOp>(Grow(Growth::new(t, new_n))));
        }
    }
    // Four full buckets of one home into five.
    for tags in [[0x80; 4], [0x80, 0x81, 0x80, 0x81], [0x80, 0x81, 0x82, 0x83]] {
        labelled(&tags, 5, &mut |t| run.case::<GrowthOp>(Grow(Growth::new(t, 5))));
    }
    let old = Table { with: 5, ..Table::new(2, &[0x80, 0x80]) };
    for (old_n, new_n) in [
        (0, 0),
        (0, 2),
        (2, 0),
        (2, 1),
        (2, 2),
        (2, 3),
        (3, 3),
        (MOST + 1, 3),
        (2, MOST + 1),
        (1 << 32, 1 << 33),
        (2, u64::MAX),
    ] {
        for longer in [0, -1, 1, 4096] {
            for new_longer in [0, -1, 1, -4096] {
                for hashes_more in [0, -1, 1] {
                    for foreign in [false, true] {
                        let old = Table { n: old_n, longer, ..old.clone() };
                        let g = Growth { new_longer, hashes_more, foreign, ..Growth::new(old, new_n) };
                        run.case::<GrowthOp>(Grow(g));
                    }
                }
            }
        }
    }
    let mut t = Table { with: 5, ..Table::new(4095, &[0x80, 0x81]) };
    t.labels.insert(0, Label { hash: 4095, free: 0 });
    t.labels.insert(1, Label { hash: hash_at(1, 0, 4097), free: 0 });
    for (n, new_n) in [(4095, 4096), (4095, 4097), (4096, 4097), (4096, 4096), (4097, 4096)] {
        run.case::<GrowthOp>(Grow(Growth::new(Table { n, ..t.clone() }, new_n)));
    }
}

pub fn random(run: &mut Run, rng: &mut Rng) {
    match rng.below(10) {
        0 => {
            let old = rng.number() as u32;
            let new = if rng.once_in(4) { rng.number() as u32 } else { old.saturating_add(1 + rng.below(9) as u32) };
            run.case::<GrowthOp>(WriteMarker(old, new));
            let mut bytes = marker(old, new);
            if rng.once_in(4) {
                let at = rng.below(16) as usize;
                bytes[at] = rng.next() as u8;
            }
            run.case::<GrowthOp>(ReadMarker(Bytes(bytes)));
        }
        1 | 2 => {
            let old = if rng.once_in(12) { rng.number() } else { rng.below(20) };
            let new = if rng.once_in(12) { rng.number() } else { old.saturating_add(rng.below(5)) };
            let meta = if rng.once_in(8) { rng.below(20) } else { rng.pick(&[old, new]) };
            let of = rng.pick(&[old, new, meta]).min(1 << 22);
            let file = length_of(of) + if rng.once_in(6) { rng.below(4097) } else { 0 };
            run.case::<GrowthOp>(Pending(meta, file, old, new));
        }
        _ => {
            let most = if rng.once_in(400) { 4200 } else { 24 };
            let n = any_count(rng, most);
            let new_n = match rng.below(10) {
                0 => rng.within(1, n),
                1 => n,
                2 => (n + 1).next_power_of_two(),
                _ => n + rng.within(1, 6),
            };
            let mut old = Table::new(n, &any_tags(rng, n));
            old.with = rng.below(1 << 16);
            let homes = rng.within(1, new_n);
            for b in 0..n {
                let tag = old.tags.0[b as usize];
                if tag >= 0x80 {
                    let tag = if rng.once_in(10) { rng.below(128) } else { tag as u64 - 128 };
                    old.labels.insert(b, Label { hash: hash_at(tag, rng.below(homes), new_n), free: b });
                }
            }
            if rng.once_in(10) {
                old.padding = Some((rng.below(4096), rng.next() as u8));
            }
            if rng.once_in(40) {
                old.longer = rng.below(8200) as i64 - 4100;
            }
            let mut g = Growth::new(old, new_n);
            g.new_with = rng.next() as u8;
            match rng.below(40) {
                0 => g.new_longer = rng.below(3) as i64 - 1,
                1 => g.hashes_more = rng.below(3) as i64 - 1,
                2 | 3 => g.foreign = true,
                _ => {}
            }
            run.case::<GrowthOp>(Grow(g));
        }
    }
}
