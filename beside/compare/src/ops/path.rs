//! mod.rs: probing, lookup, allocation.

use crate::{
    departures as known,
    engine::Engine,
    faults::heard,
    heard::{outside, Did, End, Heard, NO_REMAINDER},
    input::{any_count, any_tags, hash_at, hash_seed, smaller_number, tags_fit, Label, Table},
    ops::{
        places::file_length,
        tags::{all_tags, counts, no_pages},
    },
    rng::Rng,
    run::{Op, Out, Run},
};
use model::{
    path::{visit, Found, Probed},
    places::MOST,
    tags::{full_tag, EMPTY},
};
use original::path::{Ahead, Map};
use std::{
    collections::{BTreeMap, BTreeSet},
    hint::black_box,
};

pub struct PathOp;

#[derive(Clone, Debug)]
pub enum Input {
    /// From visit k of a hash.
    Probe(Table, u64, u64),
    /// From the start of a hash, and on from the visit after each answer, so many times.
    ProbeOn(Table, Label, u64),
    Lookup(Table, Label),
    Allocate(Table, Label),
}

use Input::*;

fn probed(p: Probed) -> Out {
    match p {
        Probed::Empty { bucket, visit } => Out::value("empty", &[bucket, visit]),
        Probed::Tombstone { bucket, visit } => Out::value("tombstone", &[bucket, visit]),
        Probed::Hit { bucket, visit } => Out::value("hit", &[bucket, visit]),
        Probed::Closed => Out::value("closed", &[]),
    }
}

fn met(p: original::path::Probed, visit: u64) -> [u64; 3] {
    match p {
        original::path::Probed::Empty(bucket) => [0, bucket, visit],
        original::path::Probed::Tombstone(bucket) => [1, bucket, visit],
        original::path::Probed::Hit(bucket) => [2, bucket, visit],
    }
}

fn met_did([kind, bucket, visit]: [u64; 3]) -> Did {
    Did::value(["empty", "tombstone", "hit"][kind as usize], &[bucket, visit])
}

/// What a probe of the original comes to.
enum Walk {
    Stop([u64; 3]),
    /// A bucket that the tags do not reach.
    Outside(u64),
    Never,
    /// Nothing, as far as it was walked.
    Long,
}

/// The original's probe before a visit, on any count above 0 and any tags.
fn walked(tags: &[u8], n: u64, hash: u64, from: u64) -> Walk {
    let k = from as u128;
    let mut bucket = (hash as u128 + k * k.saturating_sub(1) / 2) % n as u128;
    let (visits, none) = if n <= MOST { (2 * n, Walk::Never) } else { (1 << 16, Walk::Long) };
    for visit in from..from + visits {
        bucket = (bucket + visit as u128) % n as u128;
        let b = bucket as u64;
        match tags.get(b as usize) {
            None => return Walk::Outside(b),
            Some(0x00) => return Walk::Stop([0, b, visit]),
            Some(0x7F) => return Walk::Stop([1, b, visit]),
            Some(&tag) if tag == full_tag(hash) => return Walk::Stop([2, b, visit]),
            _ => {}
        }
    }
    none
}

fn past_tags(tags: &[u8], bucket: u64) -> Did {
    Did::panic("bitbox/meta_map.rs:57", outside(tags.len(), bucket))
}

/// `ProbeSequence::new_raw` with no buckets.
fn no_buckets() -> Did {
    Did::panic("bitbox/mod.rs:718", NO_REMAINDER.to_string())
}

/// Probe after probe of the original, from the start, on tags that 01 refuses; none where one is not walked to its end.
fn probes_on(tags: &[u8], n: u64, hash: u64, times: u64) -> Option<Result<Vec<[u64; 3]>, Did>> {
    let mut seen = Vec::new();
    let mut at = 0;
    for _ in 0..times {
        match walked(tags, n, hash, at) {
            Walk::Stop(stop) => {
                seen.push(stop);
                at = stop[2] + 1;
            }
            Walk::Outside(b) => return Some(Err(past_tags(tags, b))),
            Walk::Never => return Some(Err(Did::endless())),
            Walk::Long => return None,
        }
    }
    Some(Ok(seen))
}

/// An allocation on such tags, with those that it leaves.
fn allocates(tags: &[u8], n: u64, hash: u64) -> Option<Did> {
    let mut at = 0;
    for _ in 1..10_000 {
        match walked(tags, n, hash, at) {
            Walk::Stop([2, _, visit]) => at = visit + 1,
            Walk::Stop([_, b, _]) => {
                let mut tags = tags.to_vec();
                tags[b as usize] = full_tag(hash);
                return Some(Did::value("bucket", &[b]).with("tags", tags));
            }
            Walk::Outside(b) => return Some(past_tags(tags, b).with("tags", tags)),
            Walk::Never => return Some(Did::endless().with("tags", tags)),
            Walk::Long => return None,
        }
    }
    Some(Did::error(EXHAUSTED).with("tags", tags))
}

pub const EXHAUSTED: &str = "bucket exhaustion";

/// A departure in what 01 refuses with 1: tags that are no pages, no buckets, and else what the original does.
fn of_lent(did: Did, tags: &[u8], n: u64, zero: Did, wanted: Option<Did>, out: Out) -> Heard {
    if tags.len() % 4096 != 0 {
        let mut wanted = no_pages(tags.len());
        wanted.left = out.bytes.clone();
        return did.departs(known::PATH_NO_PAGES, wanted, out);
    }
    if n == 0 {
        let mut wanted = zero;
        wanted.left = out.bytes.clone();
        return did.departs(known::PATH_NO_BUCKETS, wanted, out);
    }
    match wanted {
        None => Heard::NotAsked,
        Some(wanted) if matches!(wanted.end, End::Panic(_)) => did.departs(known::PATH_TAGS_SHORT, wanted, out),
        Some(wanted) => did.departs(known::PATH_TAGS_TAKEN, wanted, out),
    }
}

fn found(f: Found) -> Out {
    match f {
        Found::Bucket(b) => Out::value("bucket", &[b]),
        Found::Absent => Out::value("absent", &[]),
        Found::Closed => Out::value("closed", &[]),
    }
}

fn kind_of(p: Probed) -> [u64; 3] {
    match p {
        Probed::Empty { bucket, visit } => [0, bucket, visit],
        Probed::Tombstone { bucket, visit } => [1, bucket, visit],
        Probed::Hit { bucket, visit } => [2, bucket, visit],
        Probed::Closed => [3, 0, 0],
    }
}

impl Op for PathOp {
    type Input = Input;

    fn name(input: &Input) -> &'static str {
        match input {
            Probe(..) => "probe",
            ProbeOn(..) => "probe on",
            Lookup(..) => "lookup",
            Allocate(..) => "allocate",
        }
    }

    fn run<E: Engine>(input: &Input) -> Out {
        match input {
            Probe(t, hash, k) => {
                let tags = t.tag_bytes();
                Out::of(E::probe(&tags, t.n, *hash, *k), probed).reading("tags", tags)
            }
            ProbeOn(t, label, times) => {
                let tags = t.tag_bytes();
                let mut seen = Vec::new();
                // A visit is answered counted on from the start mod 2n; the original counts from 0.
                let mut at = 0;
                for _ in 0..*times {
                    match E::probe(&tags, t.n, label.hash, at) {
                        Ok(Probed::Closed) => return Out::value("closed", &[]),
                        Ok(p) => {
                            let [kind, bucket, visit] = kind_of(p);
                            let visit = at + visit - at % (2 * t.n);
                            seen.extend([kind, bucket, visit]);
                            at = visit + 1;
                        }
                        Err(why) => return Out::refused(why.0),
                    }
                }
                Out::value("probes", &seen)
            }
            Lookup(t, label) => {
                let (image, mut id) = (t.image(), label.id());
                let said = E::lookup(&image, t.n, label.hash, &id);
                // As it stands in memory, whatever the compiler takes it to be.
                let id = *black_box(&mut id);
                Out::of(said, found).reading("image", image).reading("id", id)
            }
            Allocate(t, label) => {
                let mut tags = t.tag_bytes();
                let said = E::allocate(&mut tags, t.n, label.hash);
                Out::of(said, |b| Out::value("bucket", &[b])).with("tags", tags)
            }
        }
    }

    fn original(input: &Input) -> Heard {
        use original::path as o;
        match input {
            Probe(t, hash, k) => {
                let (tags, n) = (t.tag_bytes(), t.n);
                // The original counts its visits from 0, takes nothing mod 2n and may not wrap.
                if *k > 1 << 62 {
                    return Heard::NotAsked;
                }
                let fits = tags_fit(n, tags.len());
                let wanted = if fits || n == 0 { Walk::Long } else { walked(&tags, n, *hash, *k) };
                if n > MOST && matches!(wanted, Walk::Long) {
                    return Heard::NotAsked;
                }
                let said = heard("probe", &[n, *k], o::probe(&tags, n as usize, *hash, *k));
                if !fits {
                    let wanted = match wanted {
                        Walk::Stop(stop) => Some(met_did(stop)),
                        Walk::Outside(b) => Some(past_tags(&tags, b)),
                        Walk::Never => Some(Did::endless()),
                        Walk::Long => None,
                    };
                    let did = Did::of(said, |(p, visit)| met_did(met(p, visit)));
                    let zero = Did::panic("bitbox/mod.rs:729", NO_REMAINDER.to_string());
                    return of_lent(did, &tags, n, zero, wanted, Out::refused(1));
                }
                let did = Did::of(said, |(p, visit)| met_did(met(p, visit - k + k % (2 * n))));
                match did.end {
                    End::Endless => did.departs(known::PROBE_ENDLESS, Did::endless(), Out::value("closed", &[])),
                    _ => did.plain(),
                }
            }
            ProbeOn(t, label, times) => {
                let (tags, n) = (t.tag_bytes(), t.n);
                let fits = tags_fit(n, tags.len());
                let wanted = if fits || n == 0 { None } else { probes_on(&tags, n, label.hash, *times) };
                if n > MOST && wanted.is_none() {
                    return Heard::NotAsked;
                }
                let probes = |seen: Vec<[u64; 3]>| Did::value("probes", seen.as_flattened());
                let said = o::probe_on(&tags, n as usize, label.id(), hash_seed(), *times as usize);
                let did = Did::of(said, |seen| probes(seen.into_iter().map(|(p, v)| met(p, v)).collect()));
                if !fits {
                    let wanted = wanted.map(|w| w.map_or_else(|did| did, probes));
                    return of_lent(did, &tags, n, no_buckets(), wanted, Out::refused(1));
                }
                match did.end {
                    End::Endless => did.departs(known::PROBE_ENDLESS, Did::endless(), Out::value("closed", &[])),
                    _ => did.plain(),
                }
            }
            Lookup(t, label) => {
                let Ok(n) = u32::try_from(t.n) else { return Heard::NotAsked };
                let image = t.image();
                let said = heard("lookup", &[t.n], o::load(&image, n, label.id(), hash_seed()));
                let did = Did::of(said, |found| match found {
                    Some(b) => Did::value("bucket", &[b]),
                    None => Did::value("absent", &[]),
                });
                if let Err(panic) = file_length(t.n) {
                    return did.departs(known::LENGTH_PANICS, panic, Out::refused(1));
                }
                match did.end {
                    _ if n == 0 && image.is_empty() => {
                        did.departs(known::PATH_NO_BUCKETS, no_buckets(), Out::refused(1))
                    }
                    End::Endless => did.departs(known::LOOKUP_ENDLESS, Did::endless(), Out::value("closed", &[])),
                    _ => did.plain(),
                }
            }
            Allocate(t, label) => {
                let (tags, n) = (t.tag_bytes(), t.n);
                let fits = tags_fit(n, tags.len());
                let wanted = if fits || n == 0 { None } else { allocates(&tags, n, label.hash) };
                if n > MOST && wanted.is_none() {
                    return Heard::NotAsked;
                }
                // What would take too long follows from its path.
                if fits && takes_too_long(&tags, n, label.hash) {
                    return Did::error(EXHAUSTED).with("tags", tags).plain();
                }
                let (said, left) = match Map::new(&tags, n as usize, hash_seed()) {
                    Ok(mut map) => (map.allocate(label.id()), map.tags().to_vec()),
                    Err(trouble) => (Err(trouble), tags.clone()),
                };
                let did = Did::of(heard("allocate", &[n], said), |given| match given {
                    Some(b) => Did::value("bucket", &[b]),
                    None => Did::error(EXHAUSTED),
                })
                .with("tags", left);
                let refused = |number| Out::refused(number).with("tags", tags.clone());
                match did.end {
                    _ if !fits => of_lent(did, &tags, n, no_buckets(), wanted, refused(1)),
                    End::Endless => {
                        let wanted = Did::endless().with("tags", tags.clone());
                        did.departs(known::ALLOCATE_ENDLESS, wanted, refused(11))
                    }
                    _ => did.plain(),
                }
            }
        }
    }

    fn smaller(input: &Input) -> Vec<Input> {
        match input {
            Probe(t, h, k) => {
                let mut out: Vec<Input> = t.smaller().into_iter().map(|t| Probe(t, *h, *k)).collect();
                out.extend(smaller_number(*h).into_iter().map(|h| Probe(t.clone(), h, *k)));
                out.extend(smaller_number(*k).into_iter().map(|k| Probe(t.clone(), *h, k)));
                out
            }
            ProbeOn(t, l, times) => {
                let mut out: Vec<Input> = t.smaller().into_iter().map(|t| ProbeOn(t, *l, *times)).collect();
                out.extend(l.smaller().into_iter().map(|l| ProbeOn(t.clone(), l, *times)));
                out.extend(smaller_number(*times).into_iter().map(|times| ProbeOn(t.clone(), *l, times)));
                out
            }
            Lookup(t, l) => {
                let mut out: Vec<Input> = t.smaller_images().into_iter().map(|t| Lookup(t, *l)).collect();
                out.extend(l.smaller().into_iter().map(|l| Lookup(t.clone(), l)));
                out
            }
            Allocate(t, l) => {
                let mut out: Vec<Input> = t.smaller().into_iter().map(|t| Allocate(t, *l)).collect();
                out.extend(l.smaller().into_iter().map(|l| Allocate(t.clone(), l)));
                out
            }
        }
    }
}

/// Whether the original gives up along this path, at its 9,999th hit, and takes more than some tenths of a second.
pub fn takes_too_long(tags: &[u8], n: u64, hash: u64) -> bool {
    match original::path::ahead(tags, n as usize, hash) {
        Ahead::Stop | Ahead::Hits(0) => false,
        Ahead::Hits(hits) => (9_999 / hits + 1) * 2 * n > 50_000_000,
    }
}

pub fn exhaustive(run: &mut Run) {
    // A lookup has no limit of hits: at the end of the path of a table with many full buckets, and past it.
    for (n, frees) in [(4300, &[2, 3][..]), (10_501, &[2]), (16_384, &[2, 3]), (20_011, &[2, 3])] {
        let mut met = BTreeSet::new();
        let path: Vec<u64> = (0..2 * n).map(|k| visit(n, 0, k)).filter(|b| met.insert(*b)).collect();
        let mut t = Table::new(n, &vec![0x80; n as usize]);
        t.labels.insert(path[path.len() - 2], Label { hash: 0, free: 2 });
        for &free in frees {
            run.case::<PathOp>(Lookup(t.clone(), Label { hash: 0, free }));
        }
        t.tags.0[path[path.len() - 1] as usize] = 0;
        run.case::<PathOp>(Lookup(t, Label { hash: 0, free: 3 }));
    }
    // All tables of up to four buckets over the tags that mean something, and each way to go in.
    for tags in all_tags(4) {
        let n = tags.len() as u64;
        let t = Table::new(n, &tags);
        for home in 0..n {
            for full in [0, 1, 127] {
                let hash = hash_at(full, home, n);
                for k in 0..2 * n + 1 {
                    if n < 4 || k < 3 || k >= 2 * n {
                        run.case::<PathOp>(Probe(t.clone(), hash, k));
                    }
                }
                let label = Label { hash, free: 1 };
                run.case::<PathOp>(Allocate(t.clone(), label));
                if n < 4 || full == 0 {
                    run.case::<PathOp>(ProbeOn(t.clone(), label, 2 * n + 2));
                }
            }
        }
    }
    // Lookups: each set of buckets that hold the page itself, and others that hold a page of its hash.
    for tags in all_tags(3) {
        let n = tags.len() as u64;
        for home in 0..n {
            for full in [0, 1] {
                let hash = hash_at(full, home, n);
                for set in 0..1u64 << n {
                    let labels = (0..n).map(|b| (b, Label { hash, free: 1 + (set >> b & 1) })).collect();
                    let t = Table { labels, ..Table::new(n, &tags) };
                    run.case::<PathOp>(Lookup(t, Label { hash, free: 2 }));
                }
            }
        }
    }
    // Counts and lengths.
    for n in counts() {
        for longer in [0, -1, 1, -4096, 4096] {
            let t = Table { longer, ..Table::new(n, &[0x80, 0x7F]) };
            run.case::<PathOp>(Probe(t.clone(), 7, 1));
            run.case::<PathOp>(Allocate(t.clone(), Label { hash: 7, free: 0 }));
            if n <= 5 || (n <= 4097 && longer % 4096 != 0) || n > MOST {
                run.case::<PathOp>(Lookup(t, Label { hash: 7, free: 0 }));
            }
        }
    }
    // Every path of a small table, visit by visit: all buckets empty.
    for n in 1..=40 {
        for hash in [0, 1, n - 1, n, u64::MAX, u64::MAX - n, 1 << 63] {
            let t = Table::new(n, &[]);
            run.case::<PathOp>(ProbeOn(t.clone(), Label { hash, free: 0 }, 4 * n + 1));
            for k in [2 * n - 1, 2 * n, 4 * n + 1, 1 << 39, u64::MAX, u64::MAX - 1] {
                run.case::<PathOp>(Probe(t.clone(), hash, k));
            }
        }
    }
    // The limit of 9,998 hits.
    for n in [16_384, 16_383, 20_011] {
        for hits in [9_996, 9_997, 9_998, 9_999, 10_000] {
            for free in [0x00, 0x7F] {
                run.case::<PathOp>(Allocate(behind_hits(n, 0, hits, free), Label { hash: 0, free: 0 }));
            }
        }
    }
    let mut crowded = vec![0x80; 10_112];
    crowded[5_836] = 0;
    run.case::<PathOp>(Allocate(Table::new(10_112, &crowded), Label { hash: 0, free: 0 }));
    run.case::<PathOp>(Allocate(Table::new(MOST, &[]), Label { hash: u64::MAX, free: 0 }));
    run.case::<PathOp>(Allocate(Table::new(MOST, &vec![0x80; MOST as usize]), Label { hash: 5, free: 0 }));
}

/// A table whose path from a hash meets so many hits, by visits, and then a bucket with the given tag.
fn behind_hits(n: u64, hash: u64, hits: u64, free: u8) -> Table {
    let mut tags = vec![0x01; n as usize];
    let mut met = 0;
    let mut k = 0;
    while k < 2 * n {
        let b = visit(n, hash, k) as usize;
        if met < hits {
            tags[b] = full_tag(hash);
            met += 1;
        } else if tags[b] == 0x01 {
            tags[b] = free;
            break;
        } else {
            met += 1;
        }
        k += 1;
    }
    Table::new(n, &tags)
}

pub fn random(run: &mut Run, rng: &mut Rng) {
    let most = if rng.once_in(50) {
        MOST
    } else if rng.once_in(10) {
        10_000
    } else {
        64
    };
    let n = any_count(rng, most);
    let mut t = Table::new(n, &any_tags(rng, n));
    if rng.once_in(40) {
        t.longer = rng.below(4099) as i64 - 4097;
    }
    if rng.once_in(8) {
        t.padding = Some((rng.below(4096), rng.next() as u8));
    }
    let full = if rng.once_in(3) { rng.below(128) } else { rng.below(2) };
    let label = Label { hash: hash_at(full, rng.below(n), n), free: rng.below(3) };
    match rng.below(8) {
        0 | 1 => {
            let k = if rng.once_in(4) { rng.number() } else { rng.below(4 * n) };
            run.case::<PathOp>(Probe(t, label.hash, k));
        }
        2 => run.case::<PathOp>(ProbeOn(t, label, rng.within(1, 2 * n.min(50) + 2))),
        3 | 4 => run.case::<PathOp>(Allocate(t, label)),
        5 if rng.once_in(200) => {
            let n = rng.within(9_990, 20_000);
            let hits = rng.within(9_990, 10_005);
            run.case::<PathOp>(Allocate(behind_hits(n, label.hash, hits, rng.pick(&[0, 0x7F])), label));
        }
        6 if rng.once_in(400) => {
            let n = rng.pick(&[4095, 4096, 4097, 8191, 8192, 8193]);
            let hash = hash_at(full, rng.below(n), n);
            let mut t = Table { with: rng.below(1 << 16), ..Table::new(n, &any_tags(rng, n)) };
            for k in 0..rng.below(60) {
                let b = visit(n, hash, k);
                t.tags.0[b as usize] = if rng.once_in(3) { 0x7F } else { full_tag(hash) };
                t.labels.insert(b, Label { hash, free: rng.below(80) });
            }
            run.case::<PathOp>(Lookup(t, Label { hash, free: rng.below(80) }));
        }
        _ => {
            let n = n.min(64);
            let mut t = Table { n, ..t };
            t.tags.0.truncate(n as usize);
            let hash = hash_at(full, rng.below(n), n);
            let same = rng.within(1, 4);
            t.labels = (0..n)
                .filter_map(|b| match rng.below(3) {
                    0 => None,
                    _ => Some((b, Label { hash, free: rng.below(same) })),
                })
                .collect::<BTreeMap<_, _>>();
            // Most of what is looked for should have hits.
            if rng.once_in(2) {
                for b in 0..n as usize {
                    if rng.once_in(2) && t.tags.0[b] != EMPTY {
                        t.tags.0[b] = full_tag(hash);
                    }
                }
            }
            t.with = if rng.once_in(2) { 0 } else { rng.below(1 << 16) };
            run.case::<PathOp>(Lookup(t, Label { hash, free: rng.below(same) }));
        }
    }
}
