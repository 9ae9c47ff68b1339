//! A sample of the original's answers, as lines that the Rattle program `vectors` replays with no Rust at
//! hand. docs/VECTORS.md says how a line is made. It holds only what the original answers, or refuses with an
//! error, and document 01 says too; the departures stand in docs/DIFFERENCES.md.

use crate::{
    input::{hash_at, Bytes, Filler, Label, Log, Record, Table, TAGS},
    ops::{audit, diff, growth, path, places, read, replay, sync, tags, write},
    rng::Rng,
    run::{agreed, Op, Out, Said},
};
use model::{
    after_end::AfterEnd,
    diff::Diff,
    edition::{Edition, Start},
    places::{length_of, ELIDED_AT, ID_AT},
    sync::{Place, UNSET},
    tags::{full_tag, TOMBSTONE},
    writer::Writer,
    PAGE,
};
use std::collections::BTreeSet;

/// The seed of the list that is kept. Another one gives another list of the same kind.
pub const SEED: u64 = 8;

/// How many words a line has room for.
const INPUTS: usize = 10;
const ANSWERS: usize = 6;

/// The memories that lines fill: tables, pages and markers stand in the first, logs in the second, hashes in the
/// last.
const TABLE: u64 = 0;
const LOG: u64 = 1;
const HASHES: u64 = 3;

/// The answer as a refusal, 0 for none, and what was answered.
fn heard<O: Op>(input: O::Input) -> Option<(u64, Out)> {
    let out = agreed::<O>(&input)?;
    Some((out.said.number().unwrap_or(0) as u64, out))
}

fn values(out: &Out) -> Vec<u64> {
    match &out.said {
        Said::Value(_, values) => values.clone(),
        _ => vec![],
    }
}

fn is(out: &Out, name: &str) -> u64 {
    matches!(&out.said, Said::Value(said, _) if *said == name) as u64
}

/// Eight bytes, little-endian; zeros where there are none.
fn word(bytes: &[u8], at: usize) -> u64 {
    let mut word = [0; 8];
    for (to, from) in word.iter_mut().zip(bytes.iter().skip(at)) {
        *to = *from;
    }
    u64::from_le_bytes(word)
}

fn split(d: Diff) -> [u64; 2] {
    crate::input::words(d)
}

/// A word as a line has it: decimal where it is short, else hexadecimal with an x before it.
fn spelled(word: &u64) -> String {
    if *word < 65536 {
        format!("{word}")
    } else {
        format!("x{word:x}")
    }
}

/// Prints a line: the operation's number, its inputs, the answer, and a name.
fn line(name: &str, operation: u64, inputs: &[&[u64]], answer: &[&[u64]]) {
    let (inputs, mut answer) = (inputs.concat(), answer.concat());
    assert!(inputs.len() <= INPUTS && answer.len() <= ANSWERS, "{name} fits a line");
    while answer.len() > 1 && answer.last() == Some(&0) {
        answer.pop();
    }
    println!("{} : {} # {name}", numbers(operation, &inputs), numbers_of(&answer));
}

/// Prints lines that make the start of a memory these bytes: zeros first, then the words that are not.
fn load(name: &str, memory: u64, bytes: &[u8]) {
    println!("{} # {name}", numbers(16, &[memory, 0, bytes.len() as u64, 1, 0, 0]));
    for at in (0..bytes.len()).step_by(8).filter(|&at| word(bytes, at) != 0) {
        put(name, memory, at as u64, &[word(bytes, at)]);
    }
}

/// Prints a line with the sum over the start of a memory.
fn sum(name: &str, memory: u64, bytes: &[u8]) {
    let sum = bytes.iter().fold(0, |sum, &b| (31 * sum + b as u64) % 1_000_003);
    line(name, 21, &[&[memory, bytes.len() as u64]], &[&[sum]]);
}

/// Prints lines that put hashes into their memory.
fn lend(hashes: &[u64]) {
    for (i, &hash) in hashes.iter().enumerate() {
        println!("{} # hash", numbers(17, &[HASHES, i as u64, 1, 1, hash, 0]));
    }
}

/// Prints lines that write words of eight bytes into a memory, from a place on.
fn put(name: &str, memory: u64, at: u64, words: &[u64]) {
    for (i, &word) in words.iter().enumerate() {
        let to = at + 8 * i as u64;
        println!("{} # {name}", numbers(17, &[memory, to, 1, 0, word, 0]));
    }
}

fn numbers(operation: u64, words: &[u64]) -> String {
    numbers_of(&[&[operation], words].concat())
}

fn numbers_of(words: &[u64]) -> String {
    words.iter().map(spelled).collect::<Vec<_>>().join(" ")
}

/// The refusal and two words that are zero where it is refused.
fn two(number: u64, out: &Out) -> [u64; 3] {
    match values(out)[..] {
        [a, b] => [number, a, b],
        _ => [number, 0, 0],
    }
}

fn one(number: u64, out: &Out) -> [u64; 2] {
    match values(out)[..] {
        [a] => [number, a],
        _ => [number, 0],
    }
}

fn diffs(rng: &mut Rng) {
    let mut some = vec![Diff(0), Diff(1), Diff(1 << 63), Diff(1 << 64), Diff((1 << 126) - 1), Diff(1 << 125)];
    some.extend([Diff(1 << 126), Diff(1 << 127), Diff(3 << 126), Diff(u128::MAX)]);
    some.extend((0..8).map(|_| crate::input::any_diff(rng)));
    for (i, &d) in some.iter().enumerate() {
        let w = split(d);
        use diff::{DiffOp, Input::*};
        if let Some((number, out)) = heard::<DiffOp>(Read(d)) {
            line("diff read", 1, &[&w], &[&two(number, &out)]);
        }
        for slot in [0, 63, 64, 125, rng.below(126)] {
            if let Some((number, out)) = heard::<DiffOp>(Set(d, slot)) {
                line("diff set", 2, &[&w, &[slot]], &[&two(number, &out)]);
            }
        }
        for slot in [0, 125, 126, 127, rng.below(128)] {
            if let Some((number, out)) = heard::<DiffOp>(Ask(d, slot)) {
                line("diff ask", 3, &[&w, &[slot]], &[&[number, is(&out, "yes")]]);
            }
        }
        if let Some((_, out)) = heard::<DiffOp>(SetCleared(d)) {
            line("diff set cleared", 4, &[&w], &[&values(&out)]);
        }
        if let Some((_, out)) = heard::<DiffOp>(Cleared(d)) {
            line("diff cleared", 5, &[&w], &[&[is(&out, "yes")]]);
        }
        if let Some((_, out)) = heard::<DiffOp>(Count(d)) {
            line("diff count", 6, &[&w], &[&values(&out)]);
        }
        let other = some[(i + 5) % some.len()];
        if let Some((_, out)) = heard::<DiffOp>(Join(d, other)) {
            line("diff join", 7, &[&w, &split(other)], &[&values(&out)]);
        }
        if let Some((_, out)) = heard::<DiffOp>(Bytes(d)) {
            let bytes = &out.bytes[0].1;
            line("diff bytes", 8, &[&w], &[&[word(bytes, 0), word(bytes, 8)]]);
        }
    }
}

fn bytes_of_tags(rng: &mut Rng) {
    use tags::{Input::*, TagOp};
    let mut hashes = vec![0, (1 << 57) - 1, 1 << 57, 1 << 63, u64::MAX];
    hashes.extend((0..5).map(|_| rng.next()));
    for hash in hashes {
        if let Some((_, out)) = heard::<TagOp>(FullTag(hash)) {
            line("full tag", 9, &[&[hash]], &[&values(&out)]);
        }
        let full = (128 + (hash >> 57)) as u8;
        for tag in [0, 0x7F, full, full ^ 1, rng.pick(&TAGS)] {
            if let Some((_, out)) = heard::<TagOp>(Hints(tag, hash)) {
                line("tag hints", 10, &[&[tag as u64, hash]], &[&values(&out)]);
            }
        }
    }
    for bucket in [0, 4095, 4096, 8191, 1_048_575, rng.below(1 << 20)] {
        if let Some((_, out)) = heard::<TagOp>(TagPage(bucket)) {
            line("tag page", 13, &[&[bucket]], &[&values(&out)]);
        }
    }
}

fn lengths(rng: &mut Rng) {
    use places::{Input::*, PlaceOp};
    for n in [1, 2, 4095, 4096, 4097, 8192, 8193, 1_048_575, 1_048_576, rng.within(1, 1 << 20)] {
        if let (Some((a, pages)), Some((b, length))) = (heard::<PlaceOp>(TagPages(n)), heard::<PlaceOp>(Length(n))) {
            assert!(a == b);
            line("places", 11, &[&[n]], &[&[a], &values(&pages), &values(&length)]);
        }
        for bucket in [0, n - 1, rng.below(n)] {
            if let Some((number, out)) = heard::<PlaceOp>(PageNumber(n, bucket)) {
                line("page number", 12, &[&[n, bucket]], &[&one(number, &out)]);
            }
        }
    }
}

/// Tables of up to 8 buckets, whose tags are one word, the first in its lowest byte.
fn paths(rng: &mut Rng) {
    use path::{Input::*, PathOp};
    for round in 0..120 {
        let n = 1 + round % 8;
        let style = rng.below(4);
        let tags: Vec<u8> = (0..n)
            .map(|_| match style {
                0 => rng.pick(&TAGS),
                1 => rng.pick(&[0x80, 0x81, 0x7F]),
                2 => rng.pick(&[0x80, 0x81, 0x81, 0x01]),
                _ => rng.pick(&[0x80, 0x00]),
            })
            .collect();
        let table = Table::new(n, &tags);
        let hash = match rng.below(3) {
            0 => rng.next(),
            _ => hash_at(rng.below(2), rng.below(n), n),
        };
        let k = rng.below(2 * n);
        if let Some((0, out)) = heard::<PathOp>(Probe(table.clone(), hash, k)) {
            let kind = is(&out, "tombstone") + 2 * is(&out, "hit") + 3 * is(&out, "closed");
            put("tags", TABLE, 0, &[word(&tags, 0)]);
            line("probe", 28, &[&[n, PAGE as u64, hash, k]], &[&[kind], &values(&out)]);
        }
        if let Some((number, out)) = heard::<PathOp>(Allocate(table, Label { hash, free: 1 })) {
            let after = match out.bytes.first() {
                Some((_, after)) => word(&after[..n as usize], 0),
                None => word(&tags, 0),
            };
            put("tags", TABLE, 0, &[word(&tags, 0)]);
            line("allocate", 29, &[&[n, PAGE as u64, hash]], &[&one(number, &out), &[after]]);
        }
    }
}

fn logs(rng: &mut Rng) {
    use read::{Input::*, ReadOp};
    let update = |diff: u128, rng: &mut Rng| Record::Update {
        label: Label { hash: rng.next(), free: rng.below(9) },
        diff: Diff(diff),
        with: rng.next(),
        bucket: rng.number(),
    };
    let mut logs = vec![
        Log::new(7, &[Record::Clear(3), update(1 << 9 | 1 << 125, rng), Record::End]),
        Log::new(0, &[Record::End]),
        Log::new(u32::MAX, &[update(0, rng), update(1, rng), Record::Clear(u64::MAX), Record::End]),
        Log::new(1, &[update(1 << 64, rng), Record::Byte(1)]),
        Log::new(2, &[update(1 << 126, rng), Record::End]),
        Log::new(3, &[Record::Clear(1), update(1 << 127, rng), Record::End]),
        Log::new(4, &[Record::Byte(5), Record::End]),
        Log::new(5, &[Record::Clear(8)]),
        Log { changed: vec![(0, 3)], ..Log::new(6, &[Record::Clear(8), Record::End]) },
    ];
    for _ in 0..6 {
        let records: Vec<Record> = (0..rng.below(4))
            .map(|_| match rng.below(3) {
                0 => Record::Clear(rng.number()),
                _ => update(1 << rng.below(126) | 1 << rng.below(126), rng),
            })
            .chain([Record::End])
            .collect();
        logs.push(Log::new(rng.next() as u32, &records));
    }
    for log in logs {
        let bytes = log.bytes();
        assert!(bytes.len() == PAGE);
        let used = bytes.iter().rposition(|&b| b != 0).map_or(0, |last| last + 1);
        load("log", LOG, &bytes);
        if let Some((number, out)) = heard::<ReadOp>(Set(log.clone())) {
            line("reader set", 40, &[&[PAGE as u64]], &[&one(number, &out)]);
        }
        let cut = Log { cut: Some(PAGE - 1), ..log.clone() };
        if let Some((number, out)) = heard::<ReadOp>(Set(cut)) {
            line("reader set", 40, &[&[PAGE as u64 - 1]], &[&one(number, &out)]);
        }
        let mut at = Edition::One.first();
        while let Some((number, out)) = heard::<ReadOp>(Next(log.clone(), Edition::One, at, AfterEnd::Tolerant)) {
            let said = values(&out);
            let (answer, next) = match (number, &said[..]) {
                (0, [_]) => ([0, 0, 0, at, 0, 0], None),
                (0, [bucket, next]) => ([0, 1, *bucket, *next, 0, 0], Some(*next)),
                (0, [bucket, lo, hi, next]) => ([0, 2, *bucket, *next, *lo, *hi], Some(*next)),
                _ => ([number, 0, 0, at, 0, 0], None),
            };
            line("reader next", 41, &[&[PAGE as u64, at]], &[&answer]);
            if answer[1] == 2 {
                parts(at, &out.bytes[0].1);
            }
            match next {
                Some(next) => at = next,
                None => break,
            }
        }
        // At places where no entry stands.
        for at in [0, rng.below(used.max(1) as u64), PAGE as u64 - 1, PAGE as u64] {
            if let Some((number @ 1.., _)) = heard::<ReadOp>(Next(log.clone(), Edition::One, at, AfterEnd::Tolerant)) {
                line("reader next", 41, &[&[PAGE as u64, at]], &[&[number, 0, 0, at]]);
            }
        }
    }
}

/// Words of an update's id, nodes and elided children. The entry's bytes are the position after it, its kind,
/// id, diff, nodes, elided children and bucket.
fn parts(at: u64, entry: &[u8]) {
    let (id, nodes) = (&entry[9..41], &entry[57..entry.len() - 16]);
    let elided = &entry[entry.len() - 16..];
    let mut asked = vec![(0, 0, word(id, 0)), (0, 3, word(id, 24)), (2, 0, word(elided, 0))];
    if let Some(last) = (nodes.len() / 8).checked_sub(1) {
        asked.extend([(1, 0, word(nodes, 0)), (1, last as u64, word(nodes, 8 * last))]);
    }
    for (part, index, word) in asked {
        line("update part", 42, &[&[PAGE as u64, at, part, index]], &[&[word]]);
    }
}

fn markers(rng: &mut Rng) {
    use growth::{GrowthOp, Input::*};
    for (old, new) in [(4, 8), (0, 1), (u32::MAX - 1, u32::MAX), (1, 1 << 20), (7, rng.within(8, 1 << 31) as u32)] {
        if let Some((0, out)) = heard::<GrowthOp>(WriteMarker(old, new)) {
            let bytes = &out.bytes[0].1;
            line("marker write", 14, &[&[old as u64, new as u64]], &[&[0, word(bytes, 0), word(bytes, 8)]]);
        }
    }
    let mut good = b"NOMTRH1\0".to_vec();
    good.extend([4, 0, 0, 0, 8, 0, 0, 0]);
    let mut some = vec![good.clone(), good[..15].to_vec(), [&good[..], &[0]].concat(), vec![]];
    for (at, byte) in [(0, b'n'), (6, b'2'), (7, 1), (8, 8), (8, 7), (12, 4), (12, 5), (11, 1), (15, 0xFF)] {
        let mut other = good.clone();
        other[at] = byte;
        some.push(other);
    }
    for bytes in some {
        if let Some((number, out)) = heard::<GrowthOp>(ReadMarker(Bytes(bytes.clone()))) {
            put("marker", TABLE, 0, &[word(&bytes, 0), word(&bytes, 8)]);
            line("marker read", 37, &[&[bytes.len() as u64]], &[&two(number, &out)]);
        }
    }
    for (old, new) in [(4, 8), (0, 3), (4096, 4097), (1000, 1 << 20)] {
        for meta in [old, new, old + 1] {
            for file in [length_of(old), length_of(new), length_of(new) + 1] {
                if let Some((number, out)) = heard::<GrowthOp>(Pending(meta, file, old, new)) {
                    line("pending", 15, &[&[old, new, meta, file]], &[&[number, is(&out, "update meta")]]);
                }
            }
        }
    }
}

/// Nodes packed from a page, and put into another. The page that they are from stands in the second memory.
fn pages(rng: &mut Rng) {
    use diff::{DiffOp, Input::*};
    let page = crate::input::page(rng.next());
    load("page", TABLE, &page.bytes());
    for d in [Diff(0), Diff(1), Diff(1 << 125), Diff(3 << 63), Diff((1 << 126) - 1), crate::input::any_diff(rng)] {
        let Some((number, out)) = heard::<DiffOp>(Pack(d, page)) else { continue };
        let nodes = out.bytes.first().map_or(&[][..], |(_, nodes)| &nodes[..]);
        for index in [0, 4 * d.count().saturating_sub(1), 4 * d.count() + 3, 503] {
            let said = [number, values(&out).first().copied().unwrap_or(0), word(nodes, 8 * index as usize)];
            line("pack", 35, &[&[PAGE as u64], &split(d), &[index]], &[&said]);
        }
    }
    for slots in [vec![], vec![0], vec![125], vec![3, 64], vec![63, 64, 65]] {
        let d = Diff(slots.iter().fold(0, |marks, &slot: &usize| marks | 1 << slot));
        let (with, page) = (rng.next(), crate::input::page(0));
        let Some((number, out)) = heard::<DiffOp>(Unpack(d, with, d.count(), page)) else { continue };
        let mut nodes = vec![0; 32 * slots.len()];
        crate::input::fill(&mut nodes, with);
        let mut from = vec![0; PAGE];
        for (node, &slot) in nodes.chunks(32).zip(&slots) {
            from[32 * slot..][..32].copy_from_slice(node);
        }
        load("page of the nodes", LOG, &from);
        load("page", TABLE, &page.bytes());
        line("unpack", 36, &[&[PAGE as u64], &split(d), &[d.count()]], &[&[number]]);
        sum("page after", TABLE, &out.bytes[0].1);
    }
}

/// A table of labelled pages, most of them where their hash has them first.
fn labelled(n: u64, rng: &mut Rng) -> Table {
    let mut tags = vec![0; n as usize];
    let mut table = Table::new(n, &[]);
    for bucket in 0..n {
        match rng.below(4) {
            0 => tags[bucket as usize] = rng.pick(&[0, 0x7F]),
            kind => {
                let hash = hash_at(rng.below(128), if kind == 1 { rng.below(n) } else { bucket }, n);
                tags[bucket as usize] = (128 + (hash >> 57)) as u8;
                table.labels.insert(bucket, Label { hash, free: rng.below(3) });
            }
        }
    }
    table.tags = Bytes(tags);
    table
}

fn tables(rng: &mut Rng) {
    for round in 0..12 {
        let table = labelled(1 + round % 6, rng);
        let (image, hashes) = (table.image(), table.hashes());
        let audited = heard::<audit::AuditOp>(audit::Input { table: table.clone(), hashes_more: 0, foreign: false });
        let grown = growth::Growth::new(table.clone(), table.n + rng.below(3));
        let new = vec![grown.new_with; length_of(grown.new_n) as usize];
        let grown = heard::<growth::GrowthOp>(growth::Input::Grow(grown)).map(|grown| (grown, new));
        if audited.is_none() && grown.is_none() {
            continue;
        }
        load("table", TABLE, &image);
        lend(&hashes);
        let lent = [table.n, image.len() as u64];
        if let Some((number, out)) = audited {
            line("audit", 57, &[&lent, &[hashes.len() as u64]], &[&[number], &values(&out)]);
        }
        if let Some(((number, out), before)) = grown {
            let new = [(before.len() - PAGE) as u64 / PAGE as u64, before.len() as u64];
            println!("{} # new table", numbers(16, &[LOG, 0, new[1], 1, before[0] as u64, 0]));
            let said = [number, is(&out, "nothing to do")];
            line("growth", 56, &[&lent, &new, &[hashes.len() as u64]], &[&said]);
            if let Some((_, after)) = out.bytes.first() {
                sum("new table after", LOG, after);
            }
        }
    }
}

fn replays(rng: &mut Rng) {
    let update = |n: u64, rng: &mut Rng| Record::Update {
        label: Label { hash: rng.next(), free: rng.below(3) },
        diff: Diff(1 << rng.below(126) | 1 << rng.below(126)),
        with: rng.next(),
        bucket: rng.below(n),
    };
    for round in 0..10 {
        let table = labelled(1 + round % 4, rng);
        let records: Vec<Record> = (0..rng.below(5))
            .map(|_| match rng.below(3) {
                0 => Record::Clear(rng.below(table.n)),
                _ => update(table.n, rng),
            })
            .chain([if round == 7 { Record::Byte(9) } else { Record::End }])
            .collect();
        let log = Log::new(round as u32, &records);
        let mut input = replay::Input::new(table.clone(), log.clone());
        input.sync += (round == 5) as u32;
        let (image, log) = (table.image(), log.bytes());
        let hashes = crate::input::log_hashes(&log);
        let sync = input.sync as u64;
        let Some((number, out)) = heard::<replay::ReplayOp>(input) else { continue };
        load("table", TABLE, &image);
        load("log", LOG, &log);
        lend(&hashes);
        let said = match number {
            0 => [is(&out, "stale") + 2 * is(&out, "applied"), 0],
            _ => [3, number],
        };
        let lent = [table.n, image.len() as u64, log.len() as u64, sync, hashes.len() as u64];
        line("replay", 58, &[&lent], &[&said]);
        if let Some((_, after)) = out.bytes.first() {
            sum("table after", TABLE, after);
        }
    }
}

/// What a call leaves by a name.
fn left<'a>(out: &'a Out, name: &str) -> &'a [u8] {
    out.bytes.iter().find(|(said, _)| *said == name).map_or(&[], |(_, bytes)| bytes)
}

/// Prints lines that put a page into the first memory: other bytes first, then what a record takes of it, and its id.
fn leaf(at: u64, page: &[u8], diff: Diff, id: [u8; 32]) {
    println!("{} # page", numbers(18, &[TABLE, at, PAGE as u64, 77, PAGE as u64]));
    let slots = diff.slots().into_iter().filter(|&slot| slot < 126);
    let mut taken: Vec<(usize, u64)> =
        slots.flat_map(|s| (32 * s..32 * s + 32).step_by(8)).map(|i| (i, word(page, i))).collect();
    taken.push((ELIDED_AT, word(page, ELIDED_AT)));
    taken.extend((0..32).step_by(8).map(|i| (ID_AT + i, word(&id, i))));
    // A line for each run of one word.
    let mut from = 0;
    while from < taken.len() {
        let (place, first) = taken[from];
        let run = taken[from..].iter().enumerate().take_while(|(i, t)| **t == (place + 8 * i, first)).count();
        println!("{} # page", numbers(17, &[TABLE, at + place as u64, run as u64, 8, first, 0]));
        from += run;
    }
}

/// Records of the writer in a slice that is filled with another byte, call by call.
fn writers(rng: &mut Rng) {
    use write::{Call, Input, WriteOp};
    const OTHER: u8 = 0xAA;
    let update = |diff: u128, with: u64, rng: &mut Rng| Call::Update {
        label: Label { hash: rng.next(), free: rng.below(9) },
        diff: Diff(diff),
        count: None,
        with,
        bucket: rng.number(),
    };
    let begin = |rng: &mut Rng| Call::Begin(Start::one(rng.number() as u32));
    // Full to its last byte: 5 + 4,097 + 3,873 + 24 times 9 and the byte of end are two pages.
    let mut full = vec![begin(rng), update((1 << 126) - 1, 0, rng), update((1 << 119) - 1, 0, rng)];
    full.extend((0..24).map(Call::Clear));
    full.push(Call::Finish);
    let mut runs = vec![
        (8192, full),
        (4096, vec![begin(rng), Call::Finish]),
        (
            4097,
            vec![begin(rng), begin(rng), Call::Clear(u64::MAX), Call::Finish, begin(rng), Call::Clear(0), Call::Finish],
        ),
    ];
    for _ in 0..9 {
        let mut calls = vec![begin(rng)];
        for _ in 0..rng.within(1, 4) {
            calls.push(match rng.below(3) {
                0 => Call::Clear(rng.number()),
                1 => update(1 << rng.below(126), rng.next(), rng),
                _ => update(1 << rng.below(126) | 1 << rng.below(126) | 1 << rng.below(126), rng.next(), rng),
            });
        }
        calls.push(Call::Finish);
        runs.push((rng.pick(&[4096, 8191, 8192, 12_288]), calls));
    }
    for (len, calls) in runs {
        let lent = len as u64;
        println!("{} # log", numbers(16, &[LOG, 0, lent, 1, OTHER as u64, 0]));
        let mut log = vec![OTHER; len];
        let mut state = vec![0, 0];
        for i in 0..calls.len() {
            let input = Input { slice: Filler { len, with: 0 }, calls: calls[..=i].to_vec() };
            let Some((number, out)) = heard::<WriteOp>(input) else { break };
            let after = [word(left(&out, "state"), 0), word(left(&out, "state"), 8)];
            log[..after[1] as usize].copy_from_slice(&left(&out, "slice")[..after[1] as usize]);
            let answer: &[&[u64]] = &[&[number], &after];
            match &calls[i] {
                Call::Begin(start) => line("writer begin", 44, &[&state, &[lent, start.sync as u64]], answer),
                Call::Clear(bucket) => line("writer clear", 45, &[&state, &[lent, *bucket]], answer),
                Call::Update { label, diff, with, bucket, .. } => {
                    let mut page = [0; PAGE];
                    for (slot, node) in diff.slots().into_iter().zip(write::nodes_of(*with)) {
                        page[32 * slot..][..32].copy_from_slice(&node);
                    }
                    page[ELIDED_AT..][..8].copy_from_slice(&write::elided_of(*with));
                    leaf(0, &page, *diff, label.id());
                    let given: [&[u64]; 3] = [&state, &[lent, *bucket], &split(*diff)];
                    // By value the last entry of the table is none of the page's.
                    match (i % 2, diff.count()) {
                        (1, ..126) => line("writer update", 47, &[&given.concat(), &[diff.count()]], answer),
                        _ => line("writer update", 46, &given, answer),
                    }
                }
                Call::Finish => line("writer finish", 48, &[&state, &[lent]], answer),
                Call::Lend(_) | Call::Forge(_) => unreachable!("none is made"),
            }
            state = after.to_vec();
        }
        sum("log after", LOG, &log);
    }
}

/// Changes that a table takes one after another, with the page's own hash where it stands already; whole pages if
/// so. No bucket is updated twice: with debug assertions the original does not take that.
fn fitting(table: &Table, cells: &[u64], count: u64, whole: bool, rng: &mut Rng) -> Vec<sync::Told> {
    let n = table.n;
    let (mut tags, mut cells) = (table.tag_bytes(), cells.to_vec());
    let mut updated = BTreeSet::new();
    let mut changes = vec![];
    for _ in 0..count {
        let full: Vec<u64> = (0..n).filter(|&b| tags[b as usize] >= 0x80).collect();
        let place = match rng.below(4) {
            0 | 1 if !full.is_empty() => Place::Known(rng.pick(&full)),
            2 if !cells.is_empty() => Place::Cell(rng.below(cells.len() as u64)),
            _ => Place::Fresh,
        };
        let stands = match place {
            Place::Known(b) => Some(b),
            Place::Cell(i) => Some(cells[i as usize]).filter(|&b| b != UNSET),
            Place::Fresh => None,
        };
        let home = [n - 1, rng.below(n)][rng.below(2) as usize];
        let some = [rng.next(), hash_at(rng.below(2), home, n)];
        let hash = match stands.map(|b| tags[b as usize]) {
            Some(tag @ 0x80..) => hash_at(tag as u64 - 128, home, n),
            Some(_) => continue,
            None => rng.pick(&some),
        };
        let clears = stands.is_some() && rng.once_in(3);
        let marks = [0, 1 << rng.below(126), 1 << rng.below(126) | 1 << rng.below(126)];
        let marks = if whole { (1 << 126) - 1 } else { rng.pick(&marks) };
        let diff = Diff(marks | (clears as u128) << 127);
        let bucket = stands.map_or_else(|| model::path::find(&tags, n, hash), Ok);
        if let Ok(b) = bucket {
            if !clears && !updated.insert(b) {
                continue;
            }
            tags[b as usize] = if clears { TOMBSTONE } else { full_tag(hash) };
            if let Place::Cell(i) = place {
                cells[i as usize] = b;
            }
        }
        changes.push(sync::Told { label: Label { hash, free: rng.below(3) }, diff, place });
    }
    changes
}

/// How many changes a line has room for, and where behind the tags what is told of them stands: first their pages.
const CHANGES: usize = 8;
const TOLD: usize = CHANGES * PAGE;

/// Prints lines that put tags, cells and changes into their memories, and zeros where the log will stand.
fn stage(input: &sync::Input) {
    let tags = input.table.tag_bytes();
    load("tags", TABLE, &tags);
    for (j, (c, page)) in input.changes.iter().zip(input.exact_pages().chunks(PAGE)).enumerate() {
        let (kind, at) = match c.place {
            Place::Known(b) => (0, b),
            Place::Fresh => (1, 0),
            Place::Cell(i) => (2, i),
        };
        if !c.diff.cleared() {
            leaf((tags.len() + PAGE * j) as u64, page, c.diff, c.label.id());
        }
        let [lo, hi] = split(c.diff);
        put("change", TABLE, (tags.len() + TOLD + 40 * j) as u64, &[c.label.hash, lo, hi, kind, at]);
    }
    for (i, &cell) in input.cells.iter().enumerate() {
        println!("{} # cell", numbers(17, &[HASHES, i as u64, 1, 8, cell, 0]));
    }
    println!("{} # log", numbers(16, &[LOG, 0, input.log.len as u64, 1, 0, 0]));
}

/// Prints lines with what a sync left: its tags, cells and log.
fn staged(out: &Out) {
    sum("tags after", TABLE, left(out, "tags"));
    for (i, cell) in left(out, "cells").chunks(8).enumerate() {
        line("cell after", 22, &[&[HASHES, i as u64]], &[&[word(cell, 0)]]);
    }
    sum("log after", LOG, left(out, "log"));
}

fn syncs(rng: &mut Rng) {
    use sync::{Input, SyncOp};
    for round in 0..60 {
        let n = if round % 10 == 9 { 4097 } else { 1 + round % 7 };
        let tags: Vec<u8> = match round % 4 {
            0 => vec![],
            1 => (0..n.min(9)).map(|_| rng.pick(&[0x80, 0x81])).collect(),
            _ => (0..n.min(9)).map(|_| rng.pick(&[0x00, 0x7F, 0x80, 0x81, 0xFF])).collect(),
        };
        let table = Table::new(n, &tags);
        let full: Vec<u64> = (0..n).filter(|&b| table.tag_bytes()[b as usize] >= 0x80).collect();
        let cells: Vec<u64> = (0..rng.below(3))
            .map(|_| if full.is_empty() || rng.once_in(2) { UNSET } else { rng.pick(&full) })
            .collect();
        let step = round >= 44;
        let count = match round {
            0 | 1 => 0,
            _ if step => 1,
            _ => rng.within(1, 6),
        };
        // Whole pages are zeros.
        let whole = !step && round % 7 == 4;
        let changes = fitting(&table, &cells, count, whole, rng);
        let mut input = Input { cells, ..Input::new(table, &changes) };
        input.log.len = PAGE * if whole { 6 } else { rng.within(1, 2) as usize };
        input.number = rng.number() as u32;
        input.pages = if whole { 0 } else { rng.next() >> 8 };
        if step {
            input.writer = Writer::Open(Edition::One, rng.within(5, 900));
            input.step = Some(rng.below(n + 1));
        }
        if step && changes.is_empty() {
            continue;
        }
        let Some((number, out)) = heard::<SyncOp>(input.clone()) else { continue };
        stage(&input);
        let given = [n, input.table.tag_bytes().len() as u64, input.log.len as u64, input.cells.len() as u64];
        let state = |of: &[u8]| [word(of, 0), word(of, 8)];
        let after = state(left(&out, "writer"));
        match (input.step, input.writer) {
            (Some(occupied), Writer::Open(_, at)) => {
                let said = match values(&out)[..] {
                    [bucket, page, occupied] => [number, bucket, page, after[0], after[1], occupied],
                    _ => [number, 0, 0, after[0], after[1], occupied],
                };
                line("sync step", 50, &[&given, &[1, at, occupied]], &[&said]);
            }
            _ => {
                // Of eight marks the first are lent.
                let mut marks = [0xAA; 8];
                marks[..left(&out, "marks").len()].copy_from_slice(left(&out, "marks"));
                let said = match (&out.said, &values(&out)[..]) {
                    (_, [occupied, length]) => [0, *occupied, *length],
                    (Said::RefusedAt(j, _), _) => [2, number, *j],
                    _ => [1, number, 0],
                };
                let of = [changes.len() as u64, input.number as u64];
                line("sync", 49, &[&given, &of], &[&said, &[word(&marks, 0)], &after]);
            }
        }
        staged(&out);
    }
}

pub fn print() {
    let mut rng = Rng(SEED);
    diffs(&mut rng);
    bytes_of_tags(&mut rng);
    lengths(&mut rng);
    paths(&mut rng);
    logs(&mut rng);
    markers(&mut rng);
    pages(&mut rng);
    tables(&mut rng);
    replays(&mut rng);
    writers(&mut rng);
    syncs(&mut rng);
}
