//! page_diff.rs: diffs of marks, pack, unpack, join.

use crate::{
    departures as known,
    engine::Engine,
    faults::heard,
    heard::{outside, range_outside, unequal, Did, Heard},
    input::{any_diff, page, smaller_diff, smaller_number, words, Filler},
    rng::Rng,
    run::{Op, Out, Run},
};
use model::{
    diff::{Diff, Packed, NODE, SLOTS},
    PAGE,
};

pub struct DiffOp;

#[derive(Clone, Debug)]
pub enum Input {
    Read(Diff),
    Bytes(Diff),
    Set(Diff, u64),
    Ask(Diff, u64),
    SetCleared(Diff),
    Cleared(Diff),
    Count(Diff),
    Join(Diff, Diff),
    Pack(Diff, Filler),
    /// Into lent memory for so many nodes.
    PackInto(Diff, Filler, u64),
    /// A diff, what the table of nodes is filled with, its count, and the page.
    Unpack(Diff, u64, u64, Filler),
}

use Input::*;

fn diff_out(d: Diff) -> Out {
    Out::value("diff", &words(d))
}

fn words_did(w: [u64; 2]) -> Did {
    Did::value("diff", &w)
}

fn flag(b: bool) -> Out {
    Out::value(if b { "yes" } else { "no" }, &[])
}

fn flag_did(b: bool) -> Did {
    Did::value(if b { "yes" } else { "no" }, &[])
}

/// Nodes that were packed, and zeros up to a table of 126.
fn packed_did(mut nodes: Vec<[u8; NODE]>) -> Did {
    let count = nodes.len();
    nodes.resize(count.max(SLOTS), [0; NODE]);
    Did::value("packed", &[count as u64]).with("nodes", nodes.as_flattened())
}

/// The number that 01 refuses a packing with, or an unpacking of so many nodes.
fn refusal(d: Diff, len: usize, count: Option<u64>) -> Option<u8> {
    match count {
        _ if len != PAGE => Some(2),
        _ if d.0 >> 126 != 0 => Some(4),
        Some(count) if count != d.0.count_ones() as u64 => Some(2),
        _ => None,
    }
}

/// The slots that the original goes through, up to the first that a page of a length does not reach.
fn reached(d: Diff, len: usize) -> (Vec<usize>, Option<usize>) {
    let slots = d.slots();
    let within = slots.iter().take_while(|&&s| NODE * (s + 1) <= len).count();
    (slots[..within].to_vec(), slots.get(within).copied())
}

const NOT_CLEARED: &str = "page_diff.rs:107";

/// What the original does with a diff or a page that 01 refuses to pack.
fn packed_by(d: Diff, page: &[u8]) -> (known::Departure, Did) {
    if d.cleared() {
        return (known::BIT_127, Did::panic(NOT_CLEARED, unequal(1 << 63, 0)));
    }
    match reached(d, page.len()) {
        (_, Some(slot)) => {
            let said = range_outside(page.len(), NODE * slot..NODE * (slot + 1));
            (known::PAGE_SHORT, Did::panic("page_diff.rs:74", said))
        }
        (slots, None) => {
            let nodes = slots.iter().map(|s| page[NODE * s..][..NODE].try_into().unwrap()).collect();
            (if page.len() == PAGE { known::BIT_126 } else { known::PAGE_TAKEN }, packed_did(nodes))
        }
    }
}

/// The same of an unpacking.
fn unpacked_by(d: Diff, nodes: &[[u8; NODE]], mut page: Vec<u8>) -> (known::Departure, Did) {
    let count = d.0.count_ones() as u64;
    if count != nodes.len() as u64 {
        return (
            known::NODE_COUNT,
            Did::panic("page_diff.rs:83", unequal(count, nodes.len() as u64)).with("page", page),
        );
    }
    if d.cleared() {
        return (known::BIT_127, Did::panic(NOT_CLEARED, unequal(1 << 63, 0)).with("page", page));
    }
    let (slots, short) = reached(d, page.len());
    for (slot, node) in slots.iter().zip(nodes) {
        page[NODE * slot..][..NODE].copy_from_slice(node);
    }
    match short {
        Some(slot) => {
            let said = range_outside(page.len(), NODE * slot..NODE * (slot + 1));
            (known::PAGE_SHORT, Did::panic("page_diff.rs:87", said).with("page", page))
        }
        None => {
            let how = if page.len() == PAGE { known::BIT_126 } else { known::PAGE_TAKEN };
            (how, Did::value("done", &[]).with("page", page))
        }
    }
}

/// What stands in lent memory for nodes before.
const UNWRITTEN: u8 = 0xEE;

fn nodes_of(with: u64) -> [[u8; NODE]; SLOTS] {
    let mut nodes = [[0; NODE]; SLOTS];
    crate::input::fill(nodes.as_flattened_mut(), with);
    nodes
}

impl Op for DiffOp {
    type Input = Input;

    fn name(input: &Input) -> &'static str {
        match input {
            Read(..) => "diff read",
            Bytes(..) => "diff bytes",
            Set(..) => "diff set",
            Ask(..) => "diff ask",
            SetCleared(..) => "diff set cleared",
            Cleared(..) => "diff cleared",
            Count(..) => "diff count",
            Join(..) => "diff join",
            Pack(..) => "pack",
            PackInto(..) => "pack into",
            Unpack(..) => "unpack",
        }
    }

    fn run<E: Engine>(input: &Input) -> Out {
        match *input {
            Read(d) => Out::of(E::diff_read(d.bytes()), diff_out),
            Bytes(d) => Out::value("bytes", &[]).with("bytes", E::diff_bytes(d)),
            Set(d, slot) => Out::of(E::diff_set(d, slot), diff_out),
            Ask(d, slot) => Out::of(E::diff_ask(d, slot), flag),
            SetCleared(d) => diff_out(E::diff_set_cleared(d)),
            Cleared(d) => flag(E::diff_cleared(d)),
            Count(d) => Out::value("count", &[E::diff_count(d)]),
            Join(a, b) => diff_out(E::diff_join(a, b)),
            Pack(d, page) => {
                let page = page.bytes();
                let said = E::pack(d, &page);
                Out::of(said, |p| Out::value("packed", &[p.count]).with("nodes", p.nodes.as_flattened()))
                    .reading("page", page)
            }
            PackInto(d, page, room) => {
                let page = page.bytes();
                let mut nodes = vec![[UNWRITTEN; NODE]; room as usize];
                let said = E::pack_into(d, &page, &mut nodes);
                Out::of(said, |count| Out::value("packed", &[count]))
                    .with("nodes", nodes.as_flattened())
                    .reading("page", page)
            }
            Unpack(d, with, count, page) => {
                let mut page = page.bytes();
                let packed = Packed { nodes: nodes_of(with), count };
                let said = E::unpack(d, &packed, &mut page);
                Out::of(said, |()| Out::value("done", &[]))
                    .with("page", page)
                    .reading("nodes", packed.nodes.as_flattened())
            }
        }
    }

    fn original(input: &Input) -> Heard {
        use original::diff as o;
        match *input {
            Read(d) => match o::from_bytes(d.bytes()) {
                Ok(Some(w)) => words_did(w).plain(),
                Ok(None) => Did::error("reserved bits").plain(),
                Err(trouble) => Did::of(Err(trouble), words_did).plain(),
            },
            Bytes(d) => Did::of(o::as_bytes(words(d)), |b| Did::value("bytes", &[]).with("bytes", b)).plain(),
            Set(d, slot) => {
                let did = Did::of(heard("diff set", &[slot], o::set_changed(words(d), slot as usize)), words_did);
                let said = "assertion failed: slot_index < NODES_PER_PAGE".to_string();
                match slot {
                    0..=125 => did.plain(),
                    _ => did.departs(known::SLOT_SET, Did::panic("page_diff.rs:38", said), Out::refused(3)),
                }
            }
            Ask(d, slot) => {
                let did = Did::of(o::changed(words(d), slot as usize), flag_did);
                match slot {
                    0..=127 => did.plain(),
                    _ => {
                        let wanted = Did::panic("page_diff.rs:51", outside(2, slot / 64));
                        did.departs(known::SLOT_ASKED, wanted, Out::refused(3))
                    }
                }
            }
            SetCleared(d) => Did::of(o::set_cleared(words(d)), words_did).plain(),
            Cleared(d) => Did::of(o::cleared(words(d)), flag_did).plain(),
            Count(d) => Did::of(o::count(words(d)), |c| Did::value("count", &[c as u64])).plain(),
            Join(a, b) => Did::of(o::join(words(a), words(b)), words_did).plain(),
            PackInto(_, _, room) if room != SLOTS as u64 => Heard::NotAsked,
            Pack(d, page) | PackInto(d, page, _) => {
                let page = page.bytes();
                let did = Did::of(
                    heard("pack", &[words(d)[0], words(d)[1], page.len() as u64], o::pack(words(d), &page)),
                    packed_did,
                );
                let Some(number) = refusal(d, page.len(), None) else { return did.plain() };
                let out = match input {
                    PackInto(..) => Out::refused(number).with("nodes", [UNWRITTEN; NODE * SLOTS]),
                    _ => Out::refused(number),
                };
                let (how, wanted) = packed_by(d, &page);
                did.departs(how, wanted, out)
            }
            Unpack(d, with, count, page) => {
                // A list as long as the count, which an array of the original's may be.
                if count > 1 << 12 {
                    return Heard::NotAsked;
                }
                let mut nodes = nodes_of(with).to_vec();
                nodes.resize(count as usize, [0; NODE]);
                let before = page.bytes();
                let mut page = before.clone();
                let said = heard("unpack", &words(d), o::unpack(words(d), &nodes, &mut page));
                let did = Did::of(said, |()| Did::value("done", &[])).with("page", page);
                let Some(number) = refusal(d, before.len(), Some(count)) else { return did.plain() };
                let (how, wanted) = unpacked_by(d, &nodes, before.clone());
                did.departs(how, wanted, Out::refused(number).with("page", before))
            }
        }
    }

    fn smaller(input: &Input) -> Vec<Input> {
        let diffs =
            |d: Diff, make: &dyn Fn(Diff) -> Input| -> Vec<Input> { smaller_diff(d).into_iter().map(make).collect() };
        match *input {
            Read(d) => diffs(d, &Read),
            Bytes(d) => diffs(d, &Bytes),
            SetCleared(d) => diffs(d, &SetCleared),
            Cleared(d) => diffs(d, &Cleared),
            Count(d) => diffs(d, &Count),
            Set(d, s) => {
                [diffs(d, &|d| Set(d, s)), smaller_number(s).into_iter().map(|s| Set(d, s)).collect()].concat()
            }
            Ask(d, s) => {
                [diffs(d, &|d| Ask(d, s)), smaller_number(s).into_iter().map(|s| Ask(d, s)).collect()].concat()
            }
            Join(a, b) => [diffs(a, &|a| Join(a, b)), diffs(b, &|b| Join(a, b))].concat(),
            Pack(d, p) => {
                let mut out = diffs(d, &|d| Pack(d, p));
                out.extend(p.smaller().into_iter().map(|p| Pack(d, p)));
                out
            }
            PackInto(d, p, room) => {
                let mut out = diffs(d, &|d| PackInto(d, p, room));
                out.extend(p.smaller().into_iter().map(|p| PackInto(d, p, room)));
                out.extend(smaller_number(room).into_iter().map(|room| PackInto(d, p, room)));
                out
            }
            Unpack(d, w, c, p) => {
                let mut out = diffs(d, &|d| Unpack(d, w, c, p));
                out.extend(diffs(d, &|d| Unpack(d, w, d.count(), p)));
                out.extend(p.smaller().into_iter().map(|p| Unpack(d, w, c, p)));
                out.extend(smaller_number(c).into_iter().map(|c| Unpack(d, w, c, p)));
                if w != 0 {
                    out.push(Unpack(d, 0, c, p));
                }
                out
            }
        }
    }
}

fn every(run: &mut Run, d: Diff) {
    run.case::<DiffOp>(Read(d));
    run.case::<DiffOp>(Bytes(d));
    run.case::<DiffOp>(SetCleared(d));
    run.case::<DiffOp>(Cleared(d));
    run.case::<DiffOp>(Count(d));
}

fn packs(run: &mut Run, d: Diff, with: u64) {
    run.case::<DiffOp>(Pack(d, page(with)));
    run.case::<DiffOp>(PackInto(d, page(with), SLOTS as u64));
    run.case::<DiffOp>(Unpack(d, with + 1, d.count(), page(with)));
}

/// All diffs of up to two marks, with bits 126 and 127 beside them or not, and all but these marks.
pub fn exhaustive(run: &mut Run) {
    let mut diffs = vec![0u128];
    for i in 0..128 {
        diffs.push(1 << i);
        for j in 0..i {
            diffs.push(1 << i | 1 << j);
        }
    }
    for &d in &diffs {
        for kept in [d, !d, d | 1 << 126, d | 1 << 127, d | 3 << 126, !d & !(3 << 126)] {
            every(run, Diff(kept));
        }
        for kept in [d, !d & !(3 << 126), d | 1 << 127] {
            packs(run, Diff(kept), 1 + (d as u64 ^ (d >> 64) as u64) % 1000);
        }
    }
    for d in [0, 1, 1 << 125, 1 << 126, 1 << 127, u128::MAX, (1 << 126) - 1] {
        for slot in (0..=256).chain([u32::MAX as u64, 1 << 32, 1 << 57, 1 << 63, u64::MAX]) {
            run.case::<DiffOp>(Set(Diff(d), slot));
            run.case::<DiffOp>(Ask(Diff(d), slot));
        }
        for count in (0..=130).chain([1 << 32, u64::MAX]) {
            run.case::<DiffOp>(Unpack(Diff(d), 3, count, page(5)));
        }
        for len in [0, 1, 31, 32, 4031, 4032, 4055, 4064, 4095, 4096, 4097, 8192] {
            run.case::<DiffOp>(Pack(Diff(d), Filler { len, with: 9 }));
            for room in [0, 1, 125, 126, 127, 252] {
                run.case::<DiffOp>(PackInto(Diff(d), Filler { len, with: 9 }, room));
            }
            run.case::<DiffOp>(Unpack(Diff(d), 3, Diff(d).count(), Filler { len, with: 9 }));
        }
    }
    for i in 0..128 {
        for j in 0..128 {
            run.case::<DiffOp>(Join(Diff(1 << i), Diff(1 << j)));
            run.case::<DiffOp>(Ask(Diff(1 << i), j));
            run.case::<DiffOp>(Set(Diff(1 << i), j));
        }
    }
}

pub fn random(run: &mut Run, rng: &mut Rng) {
    let d = any_diff(rng);
    let slot = if rng.once_in(8) { rng.number() } else { rng.below(130) };
    let with = rng.below(1 << 20);
    let len = if rng.once_in(10) { rng.below(8193) as usize } else { PAGE };
    let input = match rng.below(14) {
        0 => Read(d),
        1 => Bytes(d),
        2 => Set(d, slot),
        3 => Ask(d, slot),
        4 => SetCleared(d),
        5 => Cleared(d),
        6 => Count(d),
        7 => Join(d, any_diff(rng)),
        8 | 9 => Pack(d, Filler { len, with }),
        10 | 11 => {
            let room = if rng.once_in(8) { rng.below(140) } else { SLOTS as u64 };
            PackInto(d, Filler { len, with }, room)
        }
        _ => {
            let count = if rng.once_in(8) { rng.below(130) } else { d.count() };
            Unpack(d, rng.below(1 << 20), count, Filler { len, with })
        }
    };
    run.case::<DiffOp>(input);
}
