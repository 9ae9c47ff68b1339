//! Many rounds on one table: syncs that end or are cut, replays, lookups, growth, audits. The original
//! runs as a service runs it, on files, and after each act table, tags and answers are compared.

use crate::{
    engine::{Engine, Model},
    faults::Bent,
    heard::{number, Heard},
    input::{
        fill, good_diff, hash_at, hash_of, hash_seed, log_hashes, near, smaller_diff, smaller_number, words, Label,
    },
    ops::{growth, prepare::foreseen},
    rng::{mixed, Rng},
    run::{Op, Out, Run},
    second::retold,
};
use model::{
    after_end::AfterEnd,
    diff::{Diff, NODE},
    edition::{Seed, Start},
    growth::Grown,
    path::Found,
    places::{length_of, page_of, tag_pages_of, tags_of, ELIDED_AT, ID_AT},
    replay::Replayed,
    sync::{Change, Lent, Place, Synced, UNSET},
    writer::Writer,
    Answer, Refused, PAGE,
};
use original::{
    running::{written, Cut, Running},
    Trouble,
};

pub struct RoundsOp;

#[derive(Clone, Debug, PartialEq)]
pub enum Act {
    /// Changes of some pages, by their place among the input's pages: slots, or none for a clear; what the nodes are
    /// filled with; and whether the log is of edition two, which the original's is told in then.
    Sync {
        changes: Vec<(usize, Option<Diff>)>,
        with: u64,
        second: bool,
        cut: Cut,
        again: Option<u64>,
    },
    Look(usize),
    Grow(u64),
    Audit,
}

#[derive(Clone, Debug)]
pub struct Input {
    pub n: u64,
    pub pages: Vec<Label>,
    pub acts: Vec<Act>,
}

/// The table, and the tags as a running service has them.
struct World {
    n: u64,
    image: Vec<u8>,
    tags: Vec<u8>,
    sync: u32,
}

fn digest(bytes: &[u8]) -> u64 {
    bytes
        .chunks_exact(8)
        .fold(bytes.len() as u64, |sum, word| mixed(sum ^ u64::from_le_bytes(word.try_into().unwrap())).wrapping_add(1))
}

impl World {
    fn hashes(&self) -> Vec<u64> {
        (0..self.n).map(|b| hash_of(page_of(&self.image, self.n, b)[ID_AT..].try_into().unwrap())).collect()
    }

    /// A page as it is to be stored: what stands there with the marked slots new.
    fn page(&self, bucket: Option<u64>, label: Label, diff: Diff, with: u64) -> Vec<u8> {
        let mut page = vec![0; PAGE];
        match bucket {
            Some(b) => page.copy_from_slice(page_of(&self.image, self.n, b)),
            None => fill(&mut page, with ^ 0x5555),
        }
        let mut new = vec![0; PAGE];
        fill(&mut new, with);
        for slot in diff.slots() {
            page[NODE * slot..NODE * (slot + 1)].copy_from_slice(&new[NODE * slot..NODE * (slot + 1)]);
        }
        page[ELIDED_AT..ID_AT].copy_from_slice(&new[ELIDED_AT..ID_AT]);
        page[ID_AT..].copy_from_slice(&label.id());
        page
    }

    /// Writes the first bytes of a page of the table.
    fn write(&mut self, pn: u64, page: &[u8], bytes: usize) {
        self.image[PAGE * pn as usize..][..bytes].copy_from_slice(&page[..bytes]);
    }
}

/// Plays the acts by 01 or ours, and beside it by the original where there is one. The answers as
/// text, and the first thing that the original does otherwise.
fn play<E: Engine>(input: &Input, mut store: Option<Running>) -> (String, Result<(), String>) {
    let mut told = String::new();
    let n = input.n;
    let m = PAGE * tag_pages_of(n) as usize;
    let mut world = World { n, image: vec![0; length_of(n) as usize], tags: vec![0; m], sync: 0 };
    for (i, act) in input.acts.iter().enumerate() {
        let step = match act {
            Act::Sync { changes, with, second, cut, again } => {
                sync::<E>(&mut world, store.as_mut(), input, changes, (*with, *second), cut, *again, &mut told)
            }
            Act::Look(p) => look::<E>(&world, store.as_ref(), input.pages[p % input.pages.len()], &mut told),
            Act::Grow(new) => grow::<E>(&mut world, store.as_mut(), *new, &mut told),
            Act::Audit => audit::<E>(&world, store.as_mut(), &mut told),
        };
        told += &format!(" table {:016x}\n", digest(&world.image));
        let step = step.and_then(|()| match &store {
            Some(store) if store.image() != world.image => Err("another table".to_string()),
            Some(store) if store.tags() != world.tags => Err("other tags".to_string()),
            _ => Ok(()),
        });
        if let Err(said) = step {
            return (told, Err(format!("act {i} {act:?}: {said}")));
        }
    }
    (told, Ok(()))
}

fn trouble(t: Trouble) -> String {
    format!("{t:?}")
}

#[allow(clippy::too_many_arguments)]
fn sync<E: Engine>(
    world: &mut World,
    store: Option<&mut Running>,
    input: &Input,
    changes: &[(usize, Option<Diff>)],
    (with, second): (u64, bool),
    cut: &Cut,
    again: Option<u64>,
    told: &mut String,
) -> Result<(), String> {
    // Each page once; a page that is stored by its bucket, another by a cell or by nothing.
    let mut records: Vec<Change> = Vec::new();
    let mut pages: Vec<u8> = Vec::new();
    let mut cells: Vec<u64> = Vec::new();
    for (j, (p, diff)) in changes.iter().enumerate() {
        let label = input.pages[p % input.pages.len()];
        if records.iter().any(|r| r.id == label.id()) {
            continue;
        }
        let found = match E::lookup(&world.image, world.n, label.hash, &label.id()) {
            Ok(Found::Bucket(b)) => Some(b),
            _ => None,
        };
        let place = match (found, diff) {
            (Some(b), _) => Place::Known(b),
            (None, None) => continue,
            (None, Some(_)) if j % 2 == 0 => {
                cells.push(UNSET);
                Place::Cell(cells.len() as u64 - 1)
            }
            (None, Some(_)) => Place::Fresh,
        };
        let change = Change { id: label.id(), hash: label.hash, diff: diff.unwrap_or(Diff(1 << 127)), place };
        pages.extend(world.page(found, label, diff.unwrap_or(Diff(0)), with + j as u64));
        records.push(change);
    }

    let number = world.sync + 1;
    let mut store = store;
    let start = Start { sync: number, seed: second.then_some(*hash_seed()) };
    let room = (records.len() * 4098 + 24).next_multiple_of(PAGE);
    let in_room = (room as u64, &start.seed);
    let ahead = store.as_ref().map(|_| foreseen((world.n, &world.tags), &cells, &records, &pages, in_room));
    let mut tags = world.tags.clone();
    let mut marks = vec![0xAA; tag_pages_of(world.n) as usize];
    let mut log = vec![0xEE; room];
    let mut new_cells = cells.clone();
    let mut writer = Writer::Fresh;
    let mut lent = Lent { n: world.n, tags: &mut tags, cells: &mut new_cells, marks: &mut marks, log: &mut log };
    let said = E::sync(&mut lent, &mut writer, start, &records, &pages);
    *told += &format!("{said:?}");
    let refused = match said {
        Synced::Done { .. } => None,
        Synced::Refused(why) => Some((u64::MAX, why.0)),
        Synced::RefusedAt { change, why } => Some((change, why.0)),
    };
    if let Some(ahead) = ahead.filter(|ahead| *ahead != refused) {
        return Err(format!("by its own path it is refused at {ahead:?}"));
    }
    let Synced::Done { occupied, length } = said else {
        // The service would stop here; it goes on from the table as it was.
        return Ok(());
    };
    log.truncate(length as usize);

    // Where each update went, as the log tells.
    let mut writes: Vec<(u64, Vec<u8>)> = Vec::new();
    let mut at = start.edition().first();
    for page in records.iter().zip(pages.chunks(PAGE)).map(|(r, p)| (!r.diff.cleared()).then_some(p)) {
        if let Ok((entry, next)) = E::reader_next(&log, start.edition(), at, AfterEnd::Zeros) {
            if let (model::reader::Entry::Update { bucket, .. }, Some(page)) = (entry, page) {
                writes.push((tag_pages_of(world.n) + bucket, page.to_vec()));
            }
            at = next;
        }
    }
    for (i, mark) in marks.iter().enumerate() {
        if *mark == 1 {
            writes.push((i as u64, tags[PAGE * i..PAGE * (i + 1)].to_vec()));
        }
    }

    let mut their_log = vec![];
    if let Some(store) = store.as_deref_mut() {
        let changes: Vec<original::sync::Change> = records
            .iter()
            .zip(pages.chunks(PAGE))
            .map(|(r, page)| original::sync::Change {
                id: r.id,
                diff: words(r.diff),
                place: match r.place {
                    Place::Known(b) => original::sync::Place::Known(b),
                    Place::Fresh => original::sync::Place::Fresh,
                    Place::Cell(i) => original::sync::Place::Cell(i as usize),
                },
                page,
            })
            .collect();
        let synced = store.sync(&changes, &cells, cut).map_err(trouble)?;
        if retold(&synced.log, &start.seed) != log {
            return Err("another log".to_string());
        }
        if (synced.occupied, &synced.tags, &synced.cells) != (occupied, &tags, &new_cells) {
            return Err("other tags, cells or occupied".to_string());
        }
        their_log = synced.log;
    }

    match cut {
        Cut::None => {
            for (pn, page) in &writes {
                world.write(*pn, page, PAGE);
            }
            world.tags = tags;
            world.sync = number;
            return Ok(());
        }
        Cut::BeforeMeta => {}
        Cut::Among(bits) => {
            for (pn, page) in &writes {
                world.write(*pn, page, written(*bits, *pn));
            }
            world.sync = number;
        }
    }

    // The power is back: the log is replayed.
    let stopped = world.image.clone();
    if let Some(store) = store.as_deref() {
        if store.image() != stopped {
            return Err("another table when the power was cut".to_string());
        }
    }
    let wanted: Answer<Replayed> = Ok(if *cut == Cut::BeforeMeta { Replayed::Stale } else { Replayed::Applied });
    if second {
        // Another store does not take it.
        let said = replay::<E>(world, &log, &near(*hash_seed(), 15, 1))?;
        if said != Err(Refused(26)) || world.image != stopped {
            return Err(format!("another store's table says {said:?}"));
        }
    }
    let said = replay::<E>(world, &log, hash_seed())?;
    *told += &format!(" {said:?}");
    if let Some(store) = store.as_deref_mut() {
        store.open().map_err(trouble)?;
        if said != wanted {
            return Err(format!("the log is {wanted:?}"));
        }
    }
    // And cut again while it is replayed: any bytes are of before, the others of after.
    if let (Some(bits), Cut::Among(_)) = (again, cut) {
        let mut mixture = stopped;
        for (at, (byte, after)) in mixture.iter_mut().zip(&world.image).enumerate() {
            if mixed(bits ^ at as u64) % 2 == 0 {
                *byte = *after;
            }
        }
        if let Some(store) = store.as_deref_mut() {
            store.put_back(&mixture, &their_log);
        }
        world.image = mixture;
        let said = replay::<E>(world, &log, hash_seed())?;
        *told += &format!(" {said:?}");
        if let Some(store) = store {
            store.open().map_err(trouble)?;
        }
    }
    world.tags = tags_of(&world.image, world.n).to_vec();
    Ok(())
}

/// A log that was finished is replayed by the default call as by the tolerant one.
fn replay<E: Engine>(world: &mut World, log: &[u8], seed: &Seed) -> Result<Answer<Replayed>, String> {
    let (hashes, mut other) = (log_hashes(log), world.image.clone());
    let tolerant = E::replay(&mut other, world.n, log, world.sync, seed, &hashes, AfterEnd::Tolerant);
    let said = E::replay(&mut world.image, world.n, log, world.sync, seed, &hashes, AfterEnd::Zeros);
    match said == tolerant && world.image == other {
        true => Ok(said),
        false => Err(format!("the tolerant call says {tolerant:?}, the default call {said:?}")),
    }
}

fn look<E: Engine>(world: &World, store: Option<&Running>, label: Label, told: &mut String) -> Result<(), String> {
    let said = E::lookup(&world.image, world.n, label.hash, &label.id());
    *told += &format!("{said:?}");
    let Some(store) = store else { return Ok(()) };
    let heard = match store.load(label.id()) {
        Ok(Some(b)) => Found::Bucket(b),
        Ok(None) => Found::Absent,
        Err(Trouble::Endless) => Found::Closed,
        Err(other) => return Err(trouble(other)),
    };
    if said == Ok(heard) {
        Ok(())
    } else {
        Err(format!("{heard:?}"))
    }
}

fn grow<E: Engine>(
    world: &mut World,
    store: Option<&mut Running>,
    new_n: u64,
    told: &mut String,
) -> Result<(), String> {
    let mut new = vec![0xCC; length_of(new_n) as usize];
    let said = E::grow(&world.image, world.n, &mut new, new_n, &world.hashes());
    *told += &format!("{said:?}");
    if let Some(store) = store {
        // Called where its own paths, walked ahead, come to an end.
        let endless = new_n > world.n && matches!(growth::ahead(&world.image, world.n, new_n), growth::Ahead::Endless);
        let heard = if endless { Err(Trouble::Endless) } else { store.grow(new_n as u32) };
        let wanted = match &heard {
            Ok(()) if new_n == world.n => Some(Ok(Grown::NothingToDo)),
            Ok(()) => Some(Ok(Grown::Grown)),
            Err(Trouble::Error(error)) => number(error).map(|number| Err(Refused(number))),
            Err(Trouble::Endless) => Some(Err(Refused(11))),
            Err(Trouble::Panic(_)) => None,
        };
        if wanted != Some(said) {
            return Err(format!("{heard:?}"));
        }
    }
    if said == Ok(Grown::Grown) {
        world.n = new_n;
        world.tags = tags_of(&new, new_n).to_vec();
        world.image = new;
    }
    Ok(())
}

fn audit<E: Engine>(world: &World, store: Option<&mut Running>, told: &mut String) -> Result<(), String> {
    let said = E::audit(&world.image, world.n, &world.hashes());
    *told += &format!("{said:?}");
    let Some(store) = store else { return Ok(()) };
    match (store.audit(), said) {
        (Ok(a), Ok(b)) if (a.capacity as u64, a.occupied as u64, a.rate) == (b.capacity, b.occupied, b.rate) => Ok(()),
        (Err(Trouble::Error(e)), Err(why)) if number(&e) == Some(why.0) => Ok(()),
        (heard, _) => Err(format!("{heard:?}")),
    }
}

impl Op for RoundsOp {
    type Input = Input;

    fn name(_: &Input) -> &'static str {
        "rounds"
    }

    fn run<E: Engine>(input: &Input) -> Out {
        Out::value("acts", &[input.acts.len() as u64]).with("answers", play::<E>(input, None).0)
    }

    fn original(input: &Input) -> Heard {
        Heard::Held(match Running::create(input.n as u32, *hash_seed()) {
            Ok(store) => play::<Bent<Model>>(input, Some(store)).1,
            Err(other) => Err(trouble(other)),
        })
    }

    fn notes(_input: &Input, model: &Out) -> Vec<&'static str> {
        const SEEN: [&str; 13] = [
            "Done",
            "RefusedAt",
            "Applied",
            "Stale",
            "Bucket",
            "Absent",
            "Closed",
            "Grown",
            "NothingToDo",
            "Audited",
            "Err(Refused(10))",
            "Err(Refused(11))",
            "Err(Refused(19))",
        ];
        let answers = String::from_utf8_lossy(&model.bytes[0].1);
        SEEN.into_iter().flat_map(|seen| vec![seen; answers.matches(seen).count()]).collect()
    }

    fn smaller(input: &Input) -> Vec<Input> {
        let mut out = Vec::new();
        for i in (0..input.acts.len()).rev() {
            let mut less = input.clone();
            less.acts.remove(i);
            out.push(less);
        }
        for (i, act) in input.acts.iter().enumerate() {
            if let Act::Sync { changes, with, second, cut, again } = act {
                let mut put = |changes: Vec<(usize, Option<Diff>)>, cut: Cut, again: Option<u64>| {
                    let mut less = input.clone();
                    less.acts[i] = Act::Sync { changes, with: *with, second: *second, cut, again };
                    out.push(less);
                };
                for j in 0..changes.len() {
                    let mut fewer = changes.clone();
                    fewer.remove(j);
                    put(fewer, cut.clone(), *again);
                    for diff in changes[j].1.map_or(vec![], smaller_diff) {
                        let mut less = changes.clone();
                        less[j].1 = Some(diff);
                        put(less, cut.clone(), *again);
                    }
                }
                if again.is_some() {
                    put(changes.clone(), cut.clone(), None);
                }
                if *cut != Cut::None {
                    put(changes.clone(), Cut::None, None);
                }
            }
        }
        for n in smaller_number(input.n).into_iter().filter(|&n| n > 0) {
            out.push(Input { n, ..input.clone() });
        }
        out
    }
}

fn changes(rng: &mut Rng, pages: usize) -> Vec<(usize, Option<Diff>)> {
    (0..rng.below(7))
        .map(|_| {
            let diff = (!rng.once_in(4)).then(|| good_diff(rng));
            (rng.below(pages as u64) as usize, diff)
        })
        .collect()
}

pub fn exhaustive(run: &mut Run) {
    // Two pages in up to three buckets: every list of three acts.
    for n in 1..=3 {
        let pages = vec![Label { hash: 0, free: 0 }, Label { hash: n, free: 1 }];
        let sync = |changes: &[(usize, Option<Diff>)], cut: Cut| Act::Sync {
            changes: changes.to_vec(),
            with: 9,
            second: false,
            cut,
            again: None,
        };
        let second = |act: Act| match act {
            Act::Sync { changes, with, cut, again, .. } => Act::Sync { changes, with, second: true, cut, again },
            other => other,
        };
        let both = [(0, Some(Diff(1))), (1, Some(Diff(1 << 125)))];
        let kinds = [
            sync(&both[..1], Cut::None),
            sync(&both, Cut::None),
            sync(&[(0, None)], Cut::None),
            sync(&both, Cut::BeforeMeta),
            sync(&both, Cut::Among(0)),
            sync(&[(0, None), both[1]], Cut::Among(0xE4E4)),
            second(sync(&both, Cut::None)),
            second(sync(&both, Cut::BeforeMeta)),
            second(sync(&[(0, None), both[1]], Cut::Among(0x1B1B))),
            Act::Look(0),
            Act::Look(1),
            Act::Grow(n),
            Act::Grow(n + 1),
            Act::Audit,
        ];
        for a in &kinds {
            for b in &kinds {
                for c in &kinds {
                    let mut acts = vec![a.clone(), b.clone(), c.clone()];
                    if run.cases % 2 == 0 {
                        acts.push(Act::Audit);
                    }
                    run.case::<RoundsOp>(Input { n, pages: pages.clone(), acts });
                }
            }
        }
    }
}

pub fn random(run: &mut Run, rng: &mut Rng) {
    let n = if rng.once_in(1000) { rng.pick(&[4095, 4096, 4097]) } else { rng.within(1, 20) };
    let homes = if rng.once_in(2) { n } else { rng.within(1, n) };
    let tags = if rng.once_in(2) { 128 } else { 2 };
    let count = rng.within(1, 2 * n.min(20) + 2);
    let pages: Vec<Label> =
        (0..count).map(|free| Label { hash: hash_at(rng.below(tags), rng.below(homes), n), free }).collect();
    let mut acts = Vec::new();
    let mut now = n;
    for _ in 0..rng.within(2, if n > 64 { 4 } else { 16 }) {
        acts.push(match rng.below(12) {
            0..=5 => {
                let cut = match rng.below(5) {
                    0..=1 => Cut::None,
                    2 => Cut::BeforeMeta,
                    _ => Cut::Among(rng.next()),
                };
                let again = rng.once_in(2).then(|| rng.next());
                let (changes, with) = (changes(rng, pages.len()), rng.below(1 << 16));
                Act::Sync { changes, with, second: rng.once_in(2), cut, again }
            }
            6..=8 => Act::Look(rng.below(count) as usize),
            9 => {
                let new = match rng.below(5) {
                    0 => rng.within(1, now),
                    1 => (now + 1).next_power_of_two().min(now + 40),
                    _ => now + rng.below(3),
                };
                now = now.max(new);
                Act::Grow(new)
            }
            _ => Act::Audit,
        });
    }
    run.case::<RoundsOp>(Input { n, pages, acts });
}
