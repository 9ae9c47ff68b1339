//! validate.rs.

use crate::{
    engine::Engine,
    faults::heard,
    heard::{Did, Heard},
    input::{any_count, any_tags, hash_at, hash_seed, image_fits, Label, Table},
    rng::{mixed, Rng},
    run::{u64_bytes, Op, Out, Run},
};
use model::{
    path::find,
    places::MOST,
    tags::{full_tag, kind, Kind},
};
use original::running::Folder;
use std::fmt;

thread_local!(static FOLDER: Folder = Folder::new());

pub struct AuditOp;

#[derive(Clone)]
pub struct Input {
    pub table: Table,
    pub hashes_more: i64,
    /// The hashes are not those of the labels, which the original takes.
    pub foreign: bool,
}

impl fmt::Debug for Input {
    fn fmt(&self, f: &mut fmt::Formatter) -> fmt::Result {
        write!(f, "{:?}", self.table)?;
        if self.hashes_more != 0 {
            write!(f, ", {} hashes more", self.hashes_more)?;
        }
        if self.foreign {
            write!(f, ", hashes of their own")?;
        }
        Ok(())
    }
}

impl Input {
    fn hashes(&self) -> Vec<u64> {
        let mut hashes = self.table.hashes();
        let len = (hashes.len() as i64 + self.hashes_more).max(0) as usize;
        hashes.resize(len, 1 << 60);
        if self.foreign {
            // Another home under the same tag, mostly.
            hashes.iter_mut().for_each(|h| *h = *h >> 57 << 57 | mixed(*h) >> 7);
        }
        hashes
    }
}

impl Op for AuditOp {
    type Input = Input;

    fn name(_: &Input) -> &'static str {
        "audit"
    }

    fn run<E: Engine>(input: &Input) -> Out {
        let (image, hashes) = (input.table.image(), input.hashes());
        let said = E::audit(&image, input.table.n, &hashes);
        Out::of(said, |a| Out::value("audited", &[a.capacity, a.occupied, a.rate.to_bits()]))
            .reading("image", image)
            .reading("hashes", u64_bytes(&hashes))
    }

    fn original(input: &Input) -> Heard {
        let n = input.table.n;
        if input.foreign || n > u32::MAX as u64 {
            return Heard::NotAsked;
        }
        let image = input.table.image();
        let said = FOLDER.with(|f| original::audit::validate(f, &image, n as u32, hash_seed()));
        let did = Did::of(heard("audit", &[n], said), |a| {
            Did::value("audited", &[a.capacity as u64, a.occupied as u64, a.rate.to_bits()])
        });
        if image_fits(n, image.len()) && input.hashes().len() as u64 != n {
            // It takes no hashes.
            return Heard::Says { did, out: Out::refused(2), departs: None };
        }
        did.plain()
    }

    fn smaller(input: &Input) -> Vec<Input> {
        let mut out: Vec<Input> =
            input.table.smaller_images().into_iter().map(|table| Input { table, ..input.clone() }).collect();
        if input.hashes_more != 0 {
            out.push(Input { hashes_more: 0, ..input.clone() });
        }
        if input.foreign {
            out.push(Input { foreign: false, ..input.clone() });
        }
        out
    }
}

fn audit(table: Table) -> Input {
    Input { table, hashes_more: 0, foreign: false }
}

pub fn exhaustive(run: &mut Run) {
    // Large tables with many full buckets: in order, and with one label twice.
    for n in [4300, 10_600, 16_500] {
        let mut table = stored(&mut Rng(n), n, n / 2);
        run.case::<AuditOp>(audit(table.clone()));
        let full: Vec<u64> = table.labels.keys().copied().collect();
        let first = table.labels[&full[0]];
        table.labels.insert(full[full.len() - 1], first);
        run.case::<AuditOp>(audit(table));
    }
    // All tables of up to three buckets; each full one with a page of each home, of its tag or not, or
    // with another's label.
    let some = [0x00, 0x01, 0x7F, 0x80, 0x81];
    for n in 1..=3u64 {
        for code in 0..some.len().pow(n as u32) {
            let tags: Vec<u8> = (0..n).map(|b| some[code / some.len().pow(b as u32) % some.len()]).collect();
            let full: Vec<u64> = (0..n).filter(|&b| kind(tags[b as usize]) == Kind::Full).collect();
            // For each full bucket: homes of its own tag, then home 0 of another tag, then the label of
            // the first full bucket.
            let ways = n + 2;
            for choice in 0..ways.pow(full.len() as u32) {
                let mut t = Table::new(n, &tags);
                for (i, &b) in full.iter().enumerate() {
                    let tag = tags[b as usize] as u64 - 128;
                    let label = match choice / ways.pow(i as u32) % ways {
                        home if home < n => Label { hash: hash_at(tag, home, n), free: b },
                        way if way == n => Label { hash: hash_at(tag ^ 1, 0, n), free: b },
                        _ => match t.labels.get(&full[0]) {
                            Some(&first) => first,
                            None => Label { hash: hash_at(tag, 0, n), free: 9 },
                        },
                    };
                    t.labels.insert(b, label);
                }
                run.case::<AuditOp>(audit(t));
            }
        }
    }
    let good = Table::new(5, &[0x80, 0x80, 0x7F, 0x81, 0x00]);
    for n in [0, 1, 2, 5, 4096, MOST + 1, 1 << 32, u64::MAX] {
        for longer in [0, -1, 1, -4096, 4096] {
            for hashes_more in [0, -1, 1] {
                for foreign in [false, true] {
                    let table = Table { n, longer, ..good.clone() };
                    run.case::<AuditOp>(Input { table, hashes_more, foreign });
                }
            }
        }
    }
    for n in [1, 2, 4095, 4096, 4097] {
        for at in [0, 1, 4096 - 2, 4094] {
            for byte in [1, 0x7F, 0x80] {
                run.case::<AuditOp>(audit(Table { padding: Some((at, byte)), ..Table::new(n, &[0x7F]) }));
            }
        }
    }
}

/// A table of so many pages, put where allocation puts them.
pub fn stored(rng: &mut Rng, n: u64, pages: u64) -> Table {
    let mut table = Table::new(n, &vec![0; n as usize]);
    for i in 0..pages {
        let label = Label { hash: rng.next(), free: i };
        if let Ok(b) = find(&table.tags.0, n, label.hash) {
            table.tags.0[b as usize] = full_tag(label.hash);
            table.labels.insert(b, label);
        }
    }
    table
}

/// A table that an audit passes: pages put where allocation puts them, and some cleared again.
pub fn orderly(rng: &mut Rng, n: u64) -> Table {
    let mut table = Table { with: rng.below(1 << 16), ..Table::new(n, &vec![0; n as usize]) };
    let homes = if rng.once_in(2) { n } else { rng.within(1, n) };
    let tags = if rng.once_in(2) { 128 } else { 2 };
    for i in 0..rng.below(n + n / 2 + 1) {
        let label = Label { hash: hash_at(rng.below(tags), rng.below(homes), n), free: i };
        if let Ok(b) = find(&table.tags.0, n, label.hash) {
            table.tags.0[b as usize] = full_tag(label.hash);
            table.labels.insert(b, label);
        }
        if rng.once_in(5) {
            let b = rng.below(n);
            if kind(table.tags.0[b as usize]) == Kind::Full {
                table.tags.0[b as usize] = 0x7F;
                if rng.once_in(2) {
                    table.labels.remove(&b);
                }
            }
        }
    }
    table
}

pub fn random(run: &mut Run, rng: &mut Rng) {
    // Now and then more labels than an audit would look for one by one.
    let most = match rng.below(400) {
        0 => 4200,
        1..=20 => 300,
        _ => 24,
    };
    let n = any_count(rng, most);
    let mut table = orderly(rng, n);
    // Then a few things that are not in order.
    if rng.once_in(2) {
        for _ in 0..rng.within(1, 3) {
            let b = rng.below(n);
            match rng.below(8) {
                0 => table.tags.0[b as usize] = rng.next() as u8,
                1 => table.tags.0[b as usize] = 0,
                2 => table.tags.0[b as usize] = rng.pick(&[0x01, 0x7E, 0x7F]),
                3 => {
                    if let Some(&label) = table.labels.values().next() {
                        table.labels.insert(b, label);
                    }
                }
                4 => {
                    if let Some(label) = table.labels.get_mut(&b) {
                        label.hash = hash_at(label.hash >> 57, rng.below(n), n);
                    }
                }
                5 => table.padding = Some((rng.below(4096), rng.next() as u8)),
                6 => table.tags = crate::input::Bytes(any_tags(rng, n)),
                _ => table.labels.clear(),
            }
        }
    }
    if rng.once_in(60) {
        table.longer = rng.below(8200) as i64 - 4100;
    }
    let hashes_more = if rng.once_in(60) { rng.below(3) as i64 - 1 } else { 0 };
    run.case::<AuditOp>(Input { table, hashes_more, foreign: rng.once_in(20) });
}
