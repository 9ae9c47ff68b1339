//! wal/write.rs: the writer, call by call. A case is a list of calls, and its answer that of the last.

use crate::{
    departures as known,
    engine::Engine,
    faults::heard,
    heard::{Did, Heard},
    input::{any_diff, good_diff, smaller_diff, smaller_number, words, Filler, Label},
    rng::Rng,
    run::{Op, Out, Run},
    second::{more, retold},
};
use model::{
    diff::{Diff, Packed, NODE, SLOTS},
    edition::{Edition, Start},
    writer::Writer,
};
use original::log::Builder;

pub struct WriteOp;

#[derive(Clone, Debug, PartialEq)]
pub enum Call {
    Begin(Start),
    Clear(u64),
    /// The table of nodes and the elided bytes are a mixture; the count is the diff's if none is given.
    Update {
        label: Label,
        diff: Diff,
        count: Option<u64>,
        with: u64,
        bucket: u64,
    },
    Finish,
    /// From here on the slice is lent up to a length.
    Lend(usize),
    /// From here on the writer's state is this.
    Forge(Writer),
}

#[derive(Clone, Debug)]
pub struct Input {
    pub slice: Filler,
    pub calls: Vec<Call>,
}

/// The edition of the last begin, or of a state that is put, by which the row is named.
fn edition_of(calls: &[Call]) -> Edition {
    let told = |call: &Call| match call {
        Call::Begin(start) => Some(start.edition()),
        Call::Forge(Writer::Open(edition, _)) => Some(*edition),
        _ => None,
    };
    calls.iter().rev().find_map(told).unwrap_or(Edition::One)
}

pub fn nodes_of(with: u64) -> [[u8; NODE]; SLOTS] {
    let mut nodes = [[0; NODE]; SLOTS];
    crate::input::fill(nodes.as_flattened_mut(), with);
    nodes
}

pub fn elided_of(with: u64) -> [u8; 8] {
    with.wrapping_mul(0x9E37_79B9_7F4A_7C15).to_le_bytes()
}

fn state_bytes(w: Writer) -> Vec<u8> {
    let (kind, at) = match w {
        Writer::Fresh => (0u64, 0),
        Writer::Open(Edition::One, at) => (1, at),
        Writer::Open(Edition::Two, at) => (3, at),
        Writer::Finished(len) => (2, len),
    };
    [kind.to_le_bytes(), at.to_le_bytes()].concat()
}

/// The bytes of a record as the original writes it, any number of nodes as they come.
fn record(call: &Call) -> Vec<u8> {
    match call {
        Call::Begin(start) => [&[1][..], &start.sync.to_le_bytes()].concat(),
        Call::Clear(b) => [&[3][..], &b.to_le_bytes()].concat(),
        Call::Update { label, diff, with, bucket, .. } => {
            let nodes = nodes_given(call);
            let fields = [&label.id()[..], &diff.bytes(), nodes.as_flattened(), &elided_of(*with)];
            [&[4][..], &fields.concat(), &bucket.to_le_bytes()].concat()
        }
        Call::Finish => vec![2],
        Call::Lend(_) | Call::Forge(_) => vec![],
    }
}

/// The nodes that a call of the original is given: a list as long as the count.
fn nodes_given(call: &Call) -> Vec<[u8; NODE]> {
    match call {
        Call::Update { diff, count, with, .. } => {
            let mut nodes = nodes_of(*with).to_vec();
            nodes.resize(count.unwrap_or(diff.count()) as usize, [0; NODE]);
            nodes
        }
        _ => vec![],
    }
}

/// The number that 01 refuses a call with, by a writer's state and the room that is lent.
fn refusal(call: &Call, w: Writer, lent: usize) -> Option<u8> {
    let room = (lent / 4096 * 4096) as u64;
    let (edition, at) = match (call, w) {
        (Call::Lend(_) | Call::Forge(_), _) => return None,
        (Call::Begin(_), _) => return (room < 4096).then_some(13),
        (_, Writer::Open(edition, at)) => (edition, at),
        _ => return Some(12),
    };
    let end = 1 + more(edition);
    let size = record(call).len() as u64 + more(edition);
    match call {
        Call::Update { diff, count: Some(count), .. } if *count != diff.0.count_ones() as u64 => Some(2),
        Call::Update { diff, .. } if diff.0 >> 126 != 0 => Some(4),
        Call::Finish => (at + end > room).then_some(13),
        _ => (at + size + end > room).then_some(13),
    }
}

/// One call on the original.
fn asked(builder: &mut Builder, call: &Call) -> original::Said<()> {
    match call {
        Call::Begin(start) => builder.reset(start.sync),
        Call::Clear(b) => builder.write_clear(*b),
        Call::Update { label, diff, with, bucket, .. } => {
            builder.write_update(label.id(), words(*diff), &nodes_given(call), elided_of(*with), *bucket)
        }
        Call::Finish => builder.finalize(),
        Call::Lend(_) | Call::Forge(_) => Ok(()),
    }
}

impl Op for WriteOp {
    type Input = Input;

    fn name(input: &Input) -> &'static str {
        match (input.calls.last(), edition_of(&input.calls)) {
            (Some(Call::Begin(_)), Edition::One) => "writer begin",
            (Some(Call::Begin(_)), Edition::Two) => "writer begin two",
            (Some(Call::Clear(_)), Edition::One) => "writer clear",
            (Some(Call::Clear(_)), Edition::Two) => "writer clear two",
            (Some(Call::Update { .. }), Edition::One) => "writer update",
            (Some(Call::Update { .. }), Edition::Two) => "writer update two",
            (Some(Call::Finish), Edition::One) => "writer finish",
            (Some(Call::Finish), Edition::Two) => "writer finish two",
            _ => "writer other",
        }
    }

    fn run<E: Engine>(input: &Input) -> Out {
        let mut slice = input.slice.bytes();
        let mut lent = slice.len();
        let mut w = Writer::Fresh;
        let mut out = Out::value("nothing", &[]);
        for call in &input.calls {
            let log = &mut slice[..lent];
            let said = match call {
                Call::Begin(start) => E::begin(log, w, *start),
                Call::Clear(b) => E::write_clear(log, w, *b),
                Call::Update { label, diff, count, with, bucket } => {
                    let packed = Packed { nodes: nodes_of(*with), count: count.unwrap_or(diff.count()) };
                    E::write_update(log, w, &label.id(), *diff, &packed, &elided_of(*with), *bucket)
                }
                Call::Finish => E::finish(log, w).map(|(len, after)| {
                    // The length is answered beside the state, which holds it too.
                    if after == Writer::Finished(len) {
                        after
                    } else {
                        Writer::Fresh
                    }
                }),
                Call::Lend(len) => {
                    lent = (*len).min(slice.len());
                    Ok(w)
                }
                Call::Forge(state) => Ok(*state),
            };
            out = match said {
                Ok(after) => {
                    w = after;
                    Out::value("done", &[])
                }
                Err(why) => Out::refused(why.0),
            };
        }
        out.with("state", state_bytes(w)).with("slice", slice)
    }

    /// The original takes the calls that 01 accepts, and the last one in any case; its buffer starts the slice, retold
    /// where the log is of edition two.
    fn original(input: &Input) -> Heard {
        let too_many = |c: &Call| matches!(c, Call::Update { count: Some(count), .. } if *count > 1 << 12);
        if input.calls.iter().any(|c| matches!(c, Call::Forge(_)) || too_many(c)) {
            return Heard::NotAsked;
        }
        let size = if input.slice.with % 2 == 0 { 4096 } else { 1 << 16 };
        let mut builder = match Builder::with_initial_size(size) {
            Ok(builder) => builder,
            Err(trouble) => return Did::of(Err::<(), _>(trouble), |()| Did::value("", &[])).plain(),
        };
        let mut slice = input.slice.bytes();
        let mut lent = slice.len();
        let (mut w, mut seed) = (Writer::Fresh, None);
        let mut said = "nothing";
        for (i, call) in input.calls.iter().enumerate() {
            if let Call::Lend(len) = call {
                lent = (*len).min(slice.len());
            }
            let last = i + 1 == input.calls.len();
            said = "done";
            match refusal(call, w, lent) {
                Some(number) if last => {
                    // The record after what stands there, or at the start; end with zeros up to a page.
                    let mut wanted = if matches!(call, Call::Begin(_)) { vec![] } else { builder.bytes().to_vec() };
                    wanted.extend(record(call));
                    if *call == Call::Finish {
                        wanted.resize(wanted.len().next_multiple_of(4096), 0);
                    }
                    let did = Did::of(asked(&mut builder, call), |()| Did::value("done", &[]));
                    let did = did.with("buffer", heard("writer", &[number as u64], builder.bytes().to_vec()));
                    let how = match number {
                        2 => known::WRITER_NODES,
                        4 => known::WRITER_BITS,
                        12 => known::WRITER_NOT_OPEN,
                        _ => known::WRITER_GROWS,
                    };
                    let out = Out::refused(number).with("state", state_bytes(w)).with("slice", slice);
                    return did.departs(how, Did::value("done", &[]).with("buffer", wanted), out);
                }
                Some(_) => {}
                None => {
                    if let Err(trouble) = asked(&mut builder, call) {
                        return Did::of(Err::<(), _>(trouble), |()| Did::value("", &[])).plain();
                    }
                    if let Call::Begin(start) = call {
                        seed = start.seed;
                    }
                    let bytes = retold(builder.bytes(), &seed);
                    let at = bytes.len();
                    w = match call {
                        Call::Lend(_) | Call::Forge(_) => w,
                        Call::Finish => Writer::Finished(at as u64),
                        _ => Writer::Open(crate::second::edition(&seed), at as u64),
                    };
                    match slice.get_mut(..at) {
                        Some(start) => start.copy_from_slice(&bytes),
                        None => return Heard::Held(Err(format!("it stands at {at}, past the slice"))),
                    }
                }
            }
        }
        Did::value(said, &[]).with("state", state_bytes(w)).with("slice", slice).plain()
    }

    fn smaller(input: &Input) -> Vec<Input> {
        let mut out = Vec::new();
        for i in 0..input.calls.len() {
            let mut less = input.clone();
            less.calls.remove(i);
            out.push(less);
        }
        for (i, call) in input.calls.iter().enumerate() {
            let mut put = |call| {
                let mut less = input.clone();
                less.calls[i] = call;
                out.push(less);
            };
            match call.clone() {
                Call::Begin(s) => {
                    let syncs = smaller_number(s.sync as u64);
                    syncs.into_iter().for_each(|sync| put(Call::Begin(Start { sync: sync as u32, ..s })));
                    if s.seed.is_some_and(|seed| seed != [0; 16]) {
                        put(Call::Begin(Start::two(s.sync, [0; 16])));
                    }
                }
                Call::Clear(b) => smaller_number(b).into_iter().for_each(|b| put(Call::Clear(b))),
                Call::Update { label, diff, count, with, bucket } => {
                    let make = |label, diff, count, with, bucket| Call::Update { label, diff, count, with, bucket };
                    smaller_diff(diff).into_iter().for_each(|d| put(make(label, d, count, with, bucket)));
                    label.smaller().into_iter().for_each(|l| put(make(l, diff, count, with, bucket)));
                    smaller_number(bucket).into_iter().for_each(|b| put(make(label, diff, count, with, b)));
                    smaller_number(with).into_iter().for_each(|w| put(make(label, diff, count, w, bucket)));
                    if count.is_some() {
                        put(make(label, diff, None, with, bucket));
                    }
                }
                Call::Lend(len) => smaller_number(len as u64).into_iter().for_each(|l| put(Call::Lend(l as usize))),
                Call::Finish | Call::Forge(_) => {}
            }
        }
        for len in smaller_number(input.slice.len as u64) {
            out.push(Input { slice: Filler { len: len as usize, ..input.slice }, ..input.clone() });
        }
        out.extend(input.slice.smaller().into_iter().map(|slice| Input { slice, ..input.clone() }));
        out
    }
}

pub fn update(diff: u128, bucket: u64) -> Call {
    Call::Update { label: Label { hash: 99 ^ bucket, free: 2 }, diff: Diff(diff), count: None, with: 5, bucket }
}

/// A list of calls and all that it begins with.
fn prefixes(run: &mut Run, slice: Filler, calls: &[Call]) {
    for end in 1..=calls.len() {
        run.case::<WriteOp>(Input { slice, calls: calls[..end].to_vec() });
    }
}

pub fn exhaustive(run: &mut Run) {
    let full = (1 << 126) - 1;
    let kinds = [
        Call::Begin(Start::one(7)),
        Call::Clear(0),
        Call::Clear(u64::MAX),
        update(0, 1),
        update(5, u64::MAX),
        update(full, 2),
        update(1 << 126, 2),
        update(1 << 127 | 1, 2),
        Call::Update { label: Label { hash: 1, free: 1 }, diff: Diff(3), count: Some(1), with: 5, bucket: 0 },
        Call::Update { label: Label { hash: 1, free: 1 }, diff: Diff(1 << 127), count: Some(0), with: 5, bucket: 0 },
        Call::Finish,
    ];
    // All lists of up to three calls, after begin and without it, in slices around each boundary.
    for len in [0, 1, 4095, 4096, 4097, 8191, 8192, 8193, 12288] {
        for with in [2, 3] {
            let slice = Filler { len, with };
            for a in &kinds {
                for b in &kinds {
                    run.case::<WriteOp>(Input { slice, calls: vec![a.clone()] });
                    run.case::<WriteOp>(Input { slice, calls: vec![a.clone(), b.clone()] });
                    for c in &kinds {
                        if len >= 4096 || with == 2 {
                            run.case::<WriteOp>(Input { slice, calls: vec![a.clone(), b.clone(), c.clone()] });
                            let begun = vec![Call::Begin(Start::one(1)), a.clone(), b.clone(), c.clone()];
                            run.case::<WriteOp>(Input { slice, calls: begun });
                        }
                    }
                }
            }
        }
    }
    // Up to the last byte: so many clears and empty updates that each number of bytes is left.
    for len in [4096, 8192, 8191 + 4096] {
        let capacity = len / 4096 * 4096;
        for left in 0..=120 {
            let before: usize = capacity - 5 - left;
            let Some(updates) = (0..9).find(|u| (before - 65 * u) % 9 == 0) else { continue };
            let mut calls = vec![Call::Begin(Start::one(3))];
            calls.extend(vec![update(0, 4); updates]);
            calls.extend(vec![Call::Clear(9); (before - 65 * updates) / 9]);
            for last in [Call::Clear(1), update(0, 1), update(1, 1), Call::Finish] {
                let mut calls = calls.clone();
                calls.push(last);
                calls.push(Call::Finish);
                let slice = Filler { len, with: 2 };
                run.case::<WriteOp>(Input { slice, calls: calls[..calls.len() - 1].to_vec() });
                run.case::<WriteOp>(Input { slice, calls });
            }
        }
    }
    // Shorter slices, and states that no call answered.
    let two = Filler { len: 8192, with: 4 };
    for len in [0, 4095, 4096, 4097, 8191, 8192] {
        for at in [0, 4, 5, 4095, 4096, 4097, 8191, 8192, u64::MAX - 9, u64::MAX] {
            for last in [Call::Clear(1), update(1, 1), update(full, 1), Call::Finish, Call::Begin(Start::one(8))] {
                for state in [Writer::Open(Edition::One, at), Writer::Finished(at), Writer::Fresh] {
                    let calls = vec![Call::Lend(len), Call::Forge(state), last.clone()];
                    run.case::<WriteOp>(Input { slice: two, calls });
                }
            }
        }
        let long = [
            Call::Begin(Start::one(7)),
            update(full, 1),
            Call::Lend(len),
            Call::Finish,
            Call::Lend(8192),
            Call::Finish,
        ];
        prefixes(run, two, &long);
    }
    let mut clears = vec![Call::Begin(Start::one(1))];
    clears.extend((0..455).map(Call::Clear));
    clears.push(Call::Finish);
    prefixes(run, Filler { len: 4096, with: 1 }, &clears);
}

fn any_call(rng: &mut Rng) -> Call {
    match rng.below(20) {
        0 => Call::Begin(Start::one(rng.number() as u32)),
        1 => Call::Finish,
        2 => Call::Lend(rng.below(20_000) as usize),
        3..=9 => Call::Clear(rng.number()),
        _ => {
            let diff = if rng.once_in(20) { any_diff(rng) } else { good_diff(rng) };
            let count = rng.once_in(20).then(|| rng.below(130));
            let label = Label { hash: rng.next(), free: rng.below(3) };
            Call::Update { label, diff, count, with: rng.below(1 << 16), bucket: rng.number() }
        }
    }
}

/// A list of calls, by chance.
pub fn any(rng: &mut Rng) -> Input {
    let len = match rng.below(4) {
        0 => rng.below(20_000),
        1 => rng.pick(&[4095, 4096, 4097, 8191, 8192, 8193, 16_384]),
        _ => 4096 * rng.within(1, 6),
    };
    let slice = Filler { len: len as usize, with: rng.below(1 << 16) };
    let mut calls = Vec::new();
    if !rng.once_in(20) {
        calls.push(Call::Begin(Start::one(rng.number() as u32)));
    }
    for _ in 0..rng.below(30) {
        calls.push(any_call(rng));
    }
    if rng.once_in(30) {
        calls.push(Call::Forge(Writer::Open(Edition::One, rng.number())));
        calls.push(any_call(rng));
    }
    calls.push(if rng.once_in(2) { Call::Finish } else { any_call(rng) });
    Input { slice, calls }
}

pub fn random(run: &mut Run, rng: &mut Rng) {
    run.case::<WriteOp>(any(rng));
}
