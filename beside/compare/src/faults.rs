//! Faults of the comparison's own: each changes one call's answer, or a byte of what it was lent, on one side or on
//! two alike, and the comparison has to notice it. `compare faults` tries them all, one at a time.

use crate::engine::{terms::*, Engine, Head};
use original::{
    growth as theirs,
    sync::{Left, Prepared},
    Panic, Said, Trouble,
};
use std::{
    any::Any,
    marker::PhantomData,
    ops::Range,
    sync::atomic::{AtomicUsize, Ordering},
};

/// Whose answers are changed.
#[derive(Clone, Copy, Debug, PartialEq)]
pub enum Side {
    Ours,
    Original,
    /// 01's program and ours in the same way.
    Alike,
}

pub struct Fault {
    pub side: Side,
    /// The part whose inputs notice it.
    pub part: &'static str,
    call: &'static str,
    pub says: &'static str,
    bend: fn(&mut Call),
}

/// A call that has come back: its answer, some numbers of its input, and the memory that it was lent.
struct Call<'a> {
    answer: &'a mut dyn Any,
    facts: &'a [u64],
    lent: &'a [(*mut u8, usize)],
}

impl Call<'_> {
    fn said<T: 'static>(&mut self) -> &mut T {
        self.answer.downcast_mut().expect("the answer's type")
    }

    fn lent(&mut self, i: usize) -> &mut [u8] {
        let (at, len) = self.lent[i];
        // SAFETY: the caller holds this memory while the call is judged. That it may be lent for reading alone is
        // the fault.
        unsafe { std::slice::from_raw_parts_mut(at, len) }
    }

    /// Changes a byte of lent memory, if there is one.
    fn scribble(&mut self, i: usize) {
        if let Some(byte) = self.lent(i).last_mut() {
            *byte ^= 1;
        }
    }
}

const fn fault(side: Side, part: &'static str, call: &'static str, says: &'static str, bend: fn(&mut Call)) -> Fault {
    Fault { side, part, call, says, bend }
}

use Side::*;

pub const FAULTS: [Fault; 66] = [
    fault(Ours, "diff", "pack", "the count of packed nodes is one more", |c| {
        c.said::<Answer<Packed>>().iter_mut().for_each(|p| p.count += 1)
    }),
    fault(Ours, "diff", "pack", "a byte of the page is written", |c| c.scribble(0)),
    fault(Ours, "path", "lookup", "a byte of the image is written", |c| c.scribble(0)),
    fault(Ours, "path", "lookup", "what is closed is absent", |c| {
        c.said::<Answer<Found>>().iter_mut().filter(|f| **f == Found::Closed).for_each(|f| *f = Found::Absent)
    }),
    fault(Ours, "path", "lookup", "above 16,384 buckets nothing is found", |c| {
        let large = c.facts[0] > 16_384;
        c.said::<Answer<Found>>().iter_mut().filter(|_| large).for_each(|f| *f = Found::Absent)
    }),
    fault(Ours, "tags", "full_count", "above 16,384 buckets one is not counted", |c| {
        let large = c.facts[0] > 16_384;
        c.said::<Answer<u64>>().iter_mut().filter(|_| large).for_each(|n| *n = n.saturating_sub(1))
    }),
    fault(Ours, "replay", "replay", "a byte of the log is written", |c| c.scribble(1)),
    fault(Ours, "replay", "replay", "above 16,384 buckets the last page keeps its end", |c| {
        if c.facts[0] > 16_384 {
            c.scribble(0);
        }
    }),
    fault(Ours, "growth", "grow", "a byte of the old image is written", |c| c.scribble(1)),
    fault(Ours, "audit", "audit", "a byte of the image is written", |c| c.scribble(0)),
    fault(Ours, "audit", "audit", "above 10,501 buckets one is not counted", |c| {
        let large = c.facts[0] > 10_501;
        c.said::<Answer<Audited>>().iter_mut().filter(|_| large).for_each(|a| a.occupied -= 1)
    }),
    fault(Ours, "sync", "sync", "a writer stays open where the sync is refused at a change", |c| {
        if let (Synced::RefusedAt { .. }, w) = c.said::<(Synced, Writer)>() {
            *w = Writer::Open(Edition::One, 5);
        }
    }),
    fault(Ours, "sync", "sync", "the last byte of the padding is zeroed", |c| {
        c.lent(0).last_mut().into_iter().for_each(|byte| *byte = 0)
    }),
    fault(Alike, "growth", "grow", "a growth that ends is refused with 11", never_grows),
    fault(Alike, "rounds", "grow", "a growth that ends is refused with 11, among other acts", never_grows),
    fault(Alike, "path", "lookup", "a page that is there is closed", |c| {
        c.said::<Answer<Found>>().iter_mut().filter(|f| **f != Found::Absent).for_each(|f| *f = Found::Closed)
    }),
    fault(Alike, "tags", "set_full", "4,096 buckets are refused with 1", |c| {
        if c.facts[0] == 4096 {
            *c.said::<Answer<()>>() = Err(Refused(1));
        }
    }),
    fault(Alike, "write", "write_clear", "a clear that fits to the last byte is refused with 13", |c| {
        let room = c.lent(0).len() as u64 / 4096 * 4096;
        let said = c.said::<Answer<Writer>>();
        if *said == Ok(Writer::Open(Edition::One, room - room.min(1))) {
            *said = Err(Refused(13));
        }
    }),
    fault(Alike, "sync", "sync", "a sync that is done is refused with 14 at its first change", |c| {
        let (said, w) = c.said::<(Synced, Writer)>();
        if matches!(said, Synced::Done { .. }) {
            (*said, *w) = (Synced::RefusedAt { change: 0, why: Refused(14) }, Writer::Fresh);
        }
    }),
    fault(Alike, "sync", "sync", "where a sync is refused at a change, an end follows its records", |c| {
        if matches!(c.said::<(Synced, Writer)>().0, Synced::RefusedAt { .. }) {
            let log = c.lent(2);
            let mut at = Edition::One.first();
            while let Ok((entry, next)) = model::reader::next(log, Edition::One, at, AfterEnd::Tolerant) {
                at = next;
                if entry == Entry::End {
                    break;
                }
            }
            log[at as usize] = 2;
        }
    }),
    fault(Alike, "sync", "sync_step", "a step's page number is one more", |c| {
        c.said::<Answer<(Step, State)>>().iter_mut().for_each(|(step, _)| step.page += 1)
    }),
    fault(Alike, "replay", "replay_step", "a step that clears leaves an empty tag", |c| {
        if let Ok(Stepped::Cleared { next }) = *c.said::<Answer<Stepped>>() {
            let bucket: [u8; 8] = c.lent(1)[next as usize - 8..next as usize].try_into().unwrap();
            c.lent(0)[u64::from_le_bytes(bucket) as usize] = 0;
        }
    }),
    fault(Alike, "replay", "replay", "a log with no entry is stale", |c| {
        let none = c.lent(1).get(5) == Some(&2);
        c.said::<Answer<Replayed>>().iter_mut().filter(|_| none).for_each(|r| *r = Replayed::Stale)
    }),
    fault(Original, "diff", "pack", "bit 126 packs another byte", |c| {
        if c.facts[1] >> 62 == 1 {
            c.said::<Said<Vec<[u8; 32]>>>().iter_mut().for_each(|nodes| nodes.last_mut().unwrap()[31] ^= 1)
        }
    }),
    fault(Original, "diff", "pack", "a page that is too short packs another byte", |c| {
        if c.facts[2] != 4096 {
            c.said::<Said<Vec<[u8; 32]>>>()
                .iter_mut()
                .filter_map(|nodes| nodes.last_mut())
                .for_each(|node| node[0] ^= 1)
        }
    }),
    fault(Original, "tags", "set full", "in the padding a neighbour is set too", |c| {
        let (n, b) = (c.facts[0], c.facts[1] as usize);
        let (said, tags) = c.said::<(Said<()>, Vec<u8>)>();
        if said.is_ok() && b as u64 >= n && b + 1 < tags.len() {
            tags[b + 1] ^= 1;
        }
    }),
    fault(Original, "tags", "set tombstone", "a panic comes from another line", |c| {
        if let (Err(Trouble::Panic(Panic { at, .. })), _) = c.said::<(Said<()>, Vec<u8>)>() {
            *at = at.replace("52", "38");
        }
    }),
    fault(Original, "places", "page number", "a bucket at or above n is a page further", |c| {
        let outside = c.facts[1] >= c.facts[0];
        c.said::<Said<u64>>().iter_mut().filter(|_| outside).for_each(|page| *page = page.wrapping_add(1))
    }),
    fault(Original, "path", "lookup", "what never ends is absent", |c| {
        let said = c.said::<Said<Option<u64>>>();
        if *said == Err(Trouble::Endless) {
            *said = Ok(None);
        }
    }),
    fault(Original, "write", "writer", "bit 126 or 127 writes another byte", |c| {
        if c.facts[0] == 4 {
            *c.said::<Vec<u8>>().last_mut().unwrap() ^= 1;
        }
    }),
    fault(Original, "sync", "sync", "where it gives up its number of full buckets has moved", |c| {
        let (said, left) = c.said::<(Said<Prepared>, Left)>();
        if matches!(said, Err(Trouble::Error(_))) {
            left.occupied += 1;
        }
    }),
    fault(Original, "sync", "sync", "an update sets the tag of a known bucket", |c| {
        let (_, left) = c.said::<(Said<Prepared>, Left)>();
        let mut at = Edition::One.first();
        while let Ok((entry, next)) = model::reader::next(&left.log, Edition::One, at, AfterEnd::Tolerant) {
            match entry {
                Entry::End => break,
                Entry::Update { id, bucket, .. } if bucket < left.tags.len() as u64 => {
                    left.tags[bucket as usize] = model::tags::full_tag(crate::input::hash_of(id))
                }
                _ => {}
            }
            at = next;
        }
    }),
    fault(Original, "replay", "replay", "a replay that is refused has written a tag", |c| {
        let replayed = c.said::<original::replay::Replayed>();
        if matches!(replayed.said, Err(Trouble::Error(_))) && !replayed.image.is_empty() {
            replayed.image[0] ^= 1;
        }
    }),
    fault(Original, "replay", "replay", "a clear in the padding is left out", |c| {
        let (n, first) = (c.facts[0], c.facts[1]);
        let replayed = c.said::<original::replay::Replayed>();
        if replayed.said.is_ok() && first >= n {
            replayed.image[first as usize] = 0;
        }
    }),
    fault(Original, "replay", "replay", "an error at the end of the log has other words", |c| {
        if let Err(Trouble::Error(said)) = &mut c.said::<original::replay::Replayed>().said {
            *said = said.replace("Unexpected end", "Unforeseen end");
        }
    }),
    fault(Original, "growth", "growth", "from 0 buckets a byte is not zero", |c| {
        if c.facts[0] == 0 {
            c.said::<theirs::Grown>().pages.push((0, vec![1; 4096]));
        }
    }),
    fault(Original, "growth", "marker write", "a marker of falling counts has them changed about", |c| {
        let falls = c.facts[0] > c.facts[1];
        c.said::<Said<[u8; 16]>>().iter_mut().filter(|_| falls).for_each(|m| m[8..].rotate_left(4))
    }),
    fault(Original, "growth", "pending", "above 1,048,576 buckets the marker stays", |c| {
        let above = c.facts.iter().any(|&n| n > 1 << 20);
        let finished = c.said::<theirs::Finished>();
        finished.marker |= above;
    }),
    fault(Alike, "second", "replay", "a log of any store is taken", |c| taken_anyway(c, |_, _| true)),
    fault(Alike, "second", "replay", "the last byte of the seed is not compared", |c| {
        taken_anyway(c, |log, table| log[..15] == table[..15])
    }),
    fault(Alike, "second", "replay", "the first byte of the seed is not compared", |c| {
        taken_anyway(c, |log, table| log[1..] == table[1..])
    }),
    fault(Alike, "second", "replay", "another store's log is stale before it is 26", |c| {
        let stale = model::reader::set(c.lent(1)).is_ok_and(|start| start.sync as u64 != c.facts[1]);
        let said = c.said::<Answer<Replayed>>();
        if *said == Err(Refused(26)) && stale {
            *said = Ok(Replayed::Stale);
        }
    }),
    // Positions of edition two are even, but for those that no call answered; the original is not asked at them.
    fault(Ours, "second", "write_clear", "in edition two a clear that leaves one byte for end is taken", |c| {
        clear_leaving(c, 1)
    }),
    fault(Alike, "second", "write_clear", "in edition two a clear that leaves no byte for end is taken", |c| {
        clear_leaving(c, 0)
    }),
    fault(Alike, "second", "write_clear", "in edition two a clear that fits to the last byte is refused", |c| {
        let room = c.lent(0).len() as u64 / 4096 * 4096;
        let said = c.said::<Answer<Writer>>();
        if *said == Ok(Writer::Open(Edition::Two, room - room.min(2))) {
            *said = Err(Refused(13));
        }
    }),
    fault(Alike, "second", "reader_next", "a bare tag is taken in edition two", |c| {
        let log = c.lent(0).to_vec();
        let (at, two) = (c.facts[0], c.facts[1] == 2);
        let said = c.said::<Answer<(Entry, u64)>>();
        if two && *said == Err(Refused(8)) {
            *said = model::reader::next(&log, Edition::One, at, AfterEnd::Tolerant);
        }
    }),
    fault(Alike, "second", "reader_next", "a 0xB2 as the last byte is 8", |c| {
        let last = c.lent(0).len() as u64 == c.facts[0].wrapping_add(1);
        let said = c.said::<Answer<(Entry, u64)>>();
        if last && *said == Err(Refused(6)) {
            *said = Err(Refused(8));
        }
    }),
    fault(Alike, "second", "begin", "the last byte of the seed is not written", |c| {
        if let Ok(Writer::Open(Edition::Two, _)) = *c.said::<Answer<Writer>>() {
            c.lent(0)[21] ^= 1;
        }
    }),
    fault(Ours, "second", "reader_set", "the seed of a log is read as zeros", |c| {
        c.said::<Answer<Start>>().iter_mut().filter_map(|start| start.seed.as_mut()).for_each(|seed| *seed = [0; 16])
    }),
    fault(Ours, "after", "reader_next", "what follows end is not looked at", |c| reader_sees(c, |_, from| from..from)),
    fault(Alike, "after", "reader_next", "after end it looks up to the next multiple of 4,096 alone", |c| {
        reader_sees(c, to_page)
    }),
    fault(Alike, "after", "reader_next", "the byte right after end is not looked at", |c| {
        reader_sees(c, |log, from| from + 1..log.len())
    }),
    fault(Alike, "after", "reader_next", "the log's last byte is not looked at", |c| {
        reader_sees(c, |log, from| from..log.len() - 1)
    }),
    fault(Alike, "after", "reader_next", "in edition two the tag of end counts as after end", |c| {
        let (two, zeros) = (c.facts[1] == 2, c.facts[2] == 1);
        let said = c.said::<Answer<(Entry, u64)>>();
        if two && zeros && matches!(said, Ok((Entry::End, _))) {
            *said = Err(Refused(27));
        }
    }),
    fault(Alike, "after", "reader_next", "the tolerant reader wants zeros too", |c| {
        let from = c.facts[0] + c.facts[1];
        let used = c.lent(0).get(from as usize..).is_some_and(|after| after.iter().any(|&byte| byte != 0));
        let said = c.said::<Answer<(Entry, u64)>>();
        if used && matches!(said, Ok((Entry::End, _))) {
            *said = Err(Refused(27));
        }
    }),
    fault(Ours, "after", "reader_head", "what follows end is not looked at where no field is read", |c| {
        let said = c.said::<Answer<Head>>();
        if *said == Err(Refused(27)) {
            *said = Ok([0; 4]);
        }
    }),
    fault(Alike, "after", "list", "a byte after end is refused with 27", |c| {
        let used = used(c.lent(0));
        let lines = c.said::<String>();
        if used && lines.ends_with(" end\n") {
            lines.truncate(lines.len() - 4);
            *lines += "refused 27\n";
        }
    }),
    fault(Ours, "after", "replay", "what follows end is not looked at", |c| replay_sees(c, |_, from| from..from)),
    fault(Alike, "after", "replay", "after end it looks up to the next multiple of 4,096 alone", |c| {
        replay_sees(c, to_page)
    }),
    fault(Alike, "after", "replay", "the hash count comes before what follows end", |c| {
        let updates = crate::input::log_hashes(c.lent(1)).len() as u64;
        let hashes = c.facts[2];
        let said = c.said::<Answer<Replayed>>();
        if *said == Err(Refused(27)) && hashes != updates {
            *said = Err(Refused(2));
        }
    }),
    fault(Alike, "after", "replay", "what follows end comes before stale", |c| {
        let used = c.facts[3] == 1 && used(c.lent(1));
        let said = c.said::<Answer<Replayed>>();
        if used && *said == Ok(Replayed::Stale) {
            *said = Err(Refused(27));
        }
    }),
    fault(Alike, "after", "replay", "what follows end comes before a bucket outside the table", |c| {
        let used = c.facts[3] == 1 && used(c.lent(1));
        let said = c.said::<Answer<Replayed>>();
        if used && *said == Err(Refused(9)) {
            *said = Err(Refused(27));
        }
    }),
    fault(Ours, "after", "replay", "a replay that is refused with 27 has done its entries", |c| {
        if *c.said::<Answer<Replayed>>() == Err(Refused(27)) {
            tolerant(c);
            *c.said::<Answer<Replayed>>() = Err(Refused(27));
        }
    }),
    fault(Alike, "after", "replay_step", "what follows end is not looked at in a step", |c| {
        let said = c.said::<Answer<Stepped>>();
        if *said == Err(Refused(27)) {
            *said = Ok(Stepped::End);
        }
    }),
    fault(Original, "after", "reader next", "what follows end is another entry", |c| {
        let said = c.said::<Result<Said<(Entry, u64)>, String>>();
        if let Ok(Ok((entry @ Entry::End, _))) = said {
            *entry = Entry::Clear { bucket: 0 };
        }
    }),
    fault(Alike, "sync", "sync_step", "a clear is taken where the tag is full, whosever it is", |c| {
        let (n, bucket, occupied) = (c.facts[0], c.facts[1], c.facts[4]);
        let full = c.lent(0).get(bucket as usize).is_some_and(|tag| *tag >= 0x80);
        if !full || *c.said::<Answer<(Step, State)>>() != Err(Refused(14)) {
            return;
        }
        let writer = Writer::Open(if c.facts[3] == 1 { Edition::One } else { Edition::Two }, c.facts[2]);
        let written = model::writer::clear(c.lent(2), writer, bucket);
        if written.is_ok() {
            c.lent(0)[bucket as usize] = model::tags::TOMBSTONE;
            c.lent(1)[bucket as usize / 4096] = 1;
        }
        *c.said::<Answer<(Step, State)>>() = written.map(|writer| {
            let step = Step { bucket, page: n.div_ceil(4096) + bucket };
            (step, State { writer, occupied: occupied.saturating_sub(1) })
        });
    }),
];

/// What the default call wants after end, as a number.
fn zeros(after: AfterEnd) -> u64 {
    (after == AfterEnd::Zeros) as u64
}

/// Where the default reader answers 27, it answers end if what it sees after end is zeros: `seen` of the log, from the
/// byte right after end's mark on.
fn reader_sees(c: &mut Call, seen: fn(&[u8], usize) -> Range<usize>) {
    let (at, width) = (c.facts[0], c.facts[1]);
    let log = c.lent(0).to_vec();
    let said = c.said::<Answer<(Entry, u64)>>();
    if *said == Err(Refused(27)) && log[seen(&log, (at + width) as usize)].iter().all(|&byte| byte == 0) {
        *said = Ok((Entry::End, at));
    }
}

/// The same of replay, which then goes on as the tolerant call does.
fn replay_sees(c: &mut Call, seen: fn(&[u8], usize) -> Range<usize>) {
    let log = c.lent(1).to_vec();
    let from = log.len() - follows(&log).map_or(0, |after| after.len());
    if *c.said::<Answer<Replayed>>() == Err(Refused(27)) && log[seen(&log, from)].iter().all(|&byte| byte == 0) {
        tolerant(c);
    }
}

/// What stands after the end of a log.
fn follows(log: &[u8]) -> Option<&[u8]> {
    let edition = Edition::of(log);
    crate::after::follows(log, edition, edition.first())
}

/// Whether a byte there is not zero.
fn used(log: &[u8]) -> bool {
    follows(log).is_some_and(|after| after.iter().any(|&byte| byte != 0))
}

/// A replay becomes the tolerant call's.
fn tolerant(c: &mut Call) {
    let (n, sync) = (c.facts[0], c.facts[1] as u32);
    let (log, seed) = (c.lent(1).to_vec(), c.lent(2).try_into().expect("a seed"));
    let hashes = crate::input::log_hashes(&log);
    let said = model::replay::replay(c.lent(0), n, &log, sync, &seed, &hashes, AfterEnd::Tolerant);
    *c.said::<Answer<Replayed>>() = said;
}

/// Up to the next multiple of 4,096.
fn to_page(_log: &[u8], from: usize) -> Range<usize> {
    from..from.next_multiple_of(model::PAGE)
}

/// A log of another store is replayed as if it were the table's, where its seed and the table's are such.
fn taken_anyway(c: &mut Call, such: fn(&[u8], &[u8]) -> bool) {
    let (n, sync) = (c.facts[0], c.facts[1] as u32);
    let (log, table) = (c.lent(1).to_vec(), c.lent(2).to_vec());
    if *c.said::<Answer<Replayed>>() != Err(Refused(26)) || !such(&log[6..22], &table) {
        return;
    }
    let seed = log[6..22].try_into().expect("a seed");
    let hashes = crate::input::log_hashes(&log);
    *c.said::<Answer<Replayed>>() = model::replay::replay(c.lent(0), n, &log, sync, &seed, &hashes, AfterEnd::Tolerant);
}

/// A clear of edition two is written where it leaves so many bytes of the room.
fn clear_leaving(c: &mut Call, left: u64) {
    let (bucket, at) = (c.facts[0], c.facts[1]);
    let room = c.lent(0).len() as u64 / 4096 * 4096;
    if c.facts[2] == 2 && at < room && at + 10 + left == room {
        let record = [&[0xB2, 3][..], &bucket.to_le_bytes()].concat();
        c.lent(0)[at as usize..][..10].copy_from_slice(&record);
        *c.said::<Answer<Writer>>() = Ok(Writer::Open(Edition::Two, at + 10));
    }
}

/// A writer's position and its edition, 0 for one that is not open.
fn stands(w: Writer) -> (u64, u64) {
    match w {
        Writer::Open(Edition::One, at) => (at, 1),
        Writer::Open(Edition::Two, at) => (at, 2),
        _ => (0, 0),
    }
}

/// The bucket that a clear names, the most for none.
fn cleared(cells: &[u64], change: &Change) -> u64 {
    match change.place {
        _ if !change.diff.cleared() => u64::MAX,
        Place::Known(b) => b,
        Place::Fresh => u64::MAX,
        Place::Cell(i) => cells.get(i as usize).copied().unwrap_or(u64::MAX),
    }
}

fn never_grows(c: &mut Call) {
    let said = c.said::<Answer<Grown>>();
    if *said == Ok(Grown::Grown) {
        *said = Err(Refused(11));
        c.lent(0).fill(0);
    }
}

const NONE: usize = usize::MAX;
static ON: AtomicUsize = AtomicUsize::new(NONE);

/// Switches one fault on, or all off.
pub fn switch(fault: Option<usize>) {
    ON.store(fault.unwrap_or(NONE), Ordering::Relaxed);
}

fn bend(sides: &[Side], call: &str, answer: &mut dyn Any, facts: &[u64], lent: &[(*mut u8, usize)]) {
    if let Some(fault) = FAULTS.get(ON.load(Ordering::Relaxed)) {
        if sides.contains(&fault.side) && fault.call == call {
            (fault.bend)(&mut Call { answer, facts, lent });
        }
    }
}

/// What the original's driver has answered, on its way to the comparison.
pub fn heard<T: 'static>(call: &'static str, facts: &[u64], mut said: T) -> T {
    bend(&[Original], call, &mut said, facts, &[]);
    said
}

/// 01's program or ours, on its way to the comparison.
pub struct Bent<E>(PhantomData<E>);

fn sides<E: Engine>() -> &'static [Side] {
    if E::OURS {
        &[Ours, Alike]
    } else {
        &[Alike]
    }
}

macro_rules! bent {
    ($($name:ident($($arg:ident: $ty:ty),*) -> $said:ty, [$($fact:expr),*], [$($lent:expr),*];)*) => {
        $(fn $name($($arg: $ty),*) -> $said {
            let mut said = E::$name($($arg),*);
            bend(sides::<E>(), stringify!($name), &mut said, &[$($fact),*], &[$(($lent.as_ptr() as *mut u8, $lent.len())),*]);
            said
        })*
    };
}

impl<E: Engine> Engine for Bent<E> {
    const OURS: bool = E::OURS;

    bent! {
        diff_read(bytes: [u8; 16]) -> Answer<Diff>, [], [];
        diff_bytes(d: Diff) -> [u8; 16], [], [];
        diff_set(d: Diff, slot: u64) -> Answer<Diff>, [slot], [];
        diff_ask(d: Diff, slot: u64) -> Answer<bool>, [slot], [];
        diff_set_cleared(d: Diff) -> Diff, [], [];
        diff_cleared(d: Diff) -> bool, [], [];
        diff_count(d: Diff) -> u64, [], [];
        diff_join(a: Diff, b: Diff) -> Diff, [], [];
        pack(d: Diff, page: &[u8]) -> Answer<Packed>, [], [page];
        pack_into(d: Diff, page: &[u8], nodes: &mut [Node]) -> Answer<u64>, [], [page];
        unpack(d: Diff, packed: &Packed, page: &mut [u8]) -> Answer<()>, [], [page];
        full_tag(hash: u64) -> u8, [hash], [];
        kind(tag: u8) -> Kind, [], [];
        not_match(tag: u8, hash: u64) -> bool, [hash], [];
        set_full(tags: &mut [u8], n: u64, bucket: u64, hash: u64) -> Answer<()>, [n, bucket], [tags];
        set_tombstone(tags: &mut [u8], n: u64, bucket: u64) -> Answer<()>, [n, bucket], [tags];
        full_count(tags: &[u8], n: u64) -> Answer<u64>, [n], [tags];
        padding_is_zero(tags: &[u8], n: u64) -> Answer<bool>, [n], [tags];
        tag_page(bucket: u64) -> u64, [bucket], [];
        tag_pages(n: u64) -> Answer<u64>, [n], [];
        length(n: u64) -> Answer<u64>, [n], [];
        page_number(n: u64, bucket: u64) -> Answer<u64>, [n, bucket], [];
        probe(tags: &[u8], n: u64, hash: u64, k: u64) -> Answer<Probed>, [n, k], [tags];
        lookup(image: &[u8], n: u64, hash: u64, id: &[u8; 32]) -> Answer<Found>, [n], [image, id];
        allocate(tags: &mut [u8], n: u64, hash: u64) -> Answer<u64>, [n], [tags];
        reader_set(log: &[u8]) -> Answer<Start>, [], [log];
        reader_next(log: &[u8], edition: Edition, at: u64, after: AfterEnd) -> Answer<(Entry, u64)>,
            [at, edition.width(), zeros(after)], [log];
        reader_head(log: &[u8], edition: Edition, at: u64, after: AfterEnd) -> Answer<Head>, [at], [log];
        begin(log: &mut [u8], w: Writer, start: Start) -> Answer<Writer>, [], [log];
        write_clear(log: &mut [u8], w: Writer, bucket: u64) -> Answer<Writer>, [bucket, stands(w).0, stands(w).1], [log];
        write_update(log: &mut [u8], w: Writer, id: &[u8; 32], d: Diff, packed: &Packed, elided: &[u8; 8], bucket: u64)
            -> Answer<Writer>, [bucket], [log];
        finish(log: &mut [u8], w: Writer) -> Answer<(u64, Writer)>, [], [log];
        sync_step(lent: &mut Lent, state: State, change: &Change, page: &[u8]) -> Answer<(Step, State)>,
            [lent.n, cleared(lent.cells, change), stands(state.writer).0, stands(state.writer).1, state.occupied],
            [lent.tags, lent.marks, lent.log, page];
        replay(image: &mut [u8], n: u64, log: &[u8], sync: u32, seed: &Seed, hashes: &[u64], after: AfterEnd)
            -> Answer<Replayed>, [n, sync as u64, hashes.len() as u64, zeros(after)], [image, log, seed];
        replay_step(image: &mut [u8], n: u64, log: &[u8], edition: Edition, at: u64, hash: u64, after: AfterEnd)
            -> Answer<Stepped>, [n, at], [image, log];
        write_marker(old: u32, new: u32) -> Answer<[u8; 16]>, [], [];
        read_marker(bytes: &[u8]) -> Answer<(u32, u32)>, [], [bytes];
        pending(meta: u64, file: u64, old: u64, new: u64) -> Answer<Pending>, [meta, file, old, new], [];
        grow(old: &[u8], old_n: u64, new: &mut [u8], new_n: u64, hashes: &[u64]) -> Answer<Grown>, [old_n, new_n], [new, old];
        audit(image: &[u8], n: u64, hashes: &[u64]) -> Answer<Audited>, [n], [image];
        list(log: &[u8]) -> String, [], [log];
    }

    fn sync(lent: &mut Lent, writer: &mut Writer, start: Start, changes: &[Change], pages: &[u8]) -> Synced {
        let said = E::sync(lent, writer, start, changes, pages);
        let mut both = (said, *writer);
        let memory = [&lent.tags[..], &lent.marks[..], &lent.log[..], pages].map(|m| (m.as_ptr() as *mut u8, m.len()));
        bend(sides::<E>(), "sync", &mut both, &[lent.n], &memory);
        *writer = both.1;
        both.0
    }
}
