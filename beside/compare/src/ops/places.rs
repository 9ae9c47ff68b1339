//! ht_file.rs: lengths and page numbers, and the length of a table that is opened.

use crate::{
    departures as known,
    engine::Engine,
    faults::heard,
    heard::{Did, Heard, CHECKED, FILE_LENGTH, OVERFLOW},
    input::smaller_number,
    ops::tags::counts,
    rng::Rng,
    run::{Op, Out, Run},
};
use model::places::{length_of, MOST};

pub struct PlaceOp;

#[derive(Clone, Debug)]
pub enum Input {
    TagPages(u64),
    Length(u64),
    PageNumber(u64, u64),
    /// A table of n buckets, all zeros, in a slice of a length.
    Open(u64, u64),
}

use Input::*;

/// The length that the original has for any count of 32 bits: its sum of pages is of 32 bits too.
pub fn file_length(n: u64) -> Result<u64, Did> {
    let pages = n.div_ceil(4096) + n;
    match u32::try_from(pages) {
        Err(_) if CHECKED => Err(Did::panic("bitbox/ht_file.rs:38", OVERFLOW.to_string())),
        _ => Ok(4096 * (pages as u32) as u64),
    }
}

/// The page that the original has for any bucket.
pub fn page_number(n: u64, bucket: u64) -> Result<u64, Did> {
    match n.div_ceil(4096).checked_add(bucket) {
        None if CHECKED => Err(Did::panic("bitbox/ht_file.rs:28", OVERFLOW.to_string())),
        _ => Ok(n.div_ceil(4096).wrapping_add(bucket)),
    }
}

/// Its error for a file of another length.
pub fn wrong_length() -> Did {
    Did::error(FILE_LENGTH)
}

impl Op for PlaceOp {
    type Input = Input;

    fn name(input: &Input) -> &'static str {
        match input {
            TagPages(..) => "tag pages",
            Length(..) => "table length",
            PageNumber(..) => "page number",
            Open(..) => "table open",
        }
    }

    fn run<E: Engine>(input: &Input) -> Out {
        match *input {
            TagPages(n) => Out::of(E::tag_pages(n), |m| Out::value("pages", &[m])),
            Length(n) => Out::of(E::length(n), |l| Out::value("length", &[l])),
            PageNumber(n, b) => Out::of(E::page_number(n, b), |p| Out::value("page", &[p])),
            // A lookup takes the table or refuses its length.
            Open(n, len) => Out::of(E::lookup(&vec![0; len as usize], n, 0, &[0; 32]), |_| Out::value("taken", &[n])),
        }
    }

    fn original(input: &Input) -> Heard {
        use original::places as o;
        let (TagPages(n) | Length(n) | PageNumber(n, _) | Open(n, _)) = *input;
        let Ok(count) = u32::try_from(n) else {
            return Heard::NotAsked;
        };
        let taken = if n == 0 { known::NO_BUCKETS } else { known::ANY_COUNT };
        let counted = (1..=MOST).contains(&n);
        match *input {
            TagPages(_) => {
                let did = Did::of(o::num_meta_byte_pages(count), |m| Did::value("pages", &[m as u64]));
                if counted {
                    return did.plain();
                }
                did.departs(taken, Did::value("pages", &[n.div_ceil(4096)]), Out::refused(1))
            }
            Length(_) => {
                let did =
                    Did::of(heard("table length", &[n], o::expected_file_len(count)), |l| Did::value("length", &[l]));
                match file_length(n) {
                    Ok(_) if counted => did.plain(),
                    Ok(length) if length == 4096 * (n.div_ceil(4096) + n) => {
                        did.departs(taken, Did::value("length", &[length]), Out::refused(1))
                    }
                    Ok(wrapped) => did.departs(known::LENGTH_WRAPS, Did::value("length", &[wrapped]), Out::refused(1)),
                    Err(panic) => did.departs(known::LENGTH_PANICS, panic, Out::refused(1)),
                }
            }
            PageNumber(_, b) => {
                let did =
                    Did::of(heard("page number", &[n, b], o::data_page_index(count, b)), |p| Did::value("page", &[p]));
                let out = Out::refused(if counted { 9 } else { 1 });
                match page_number(n, b) {
                    Ok(_) if counted && b < n => did.plain(),
                    Ok(page) if page >= b => {
                        let how = if counted { known::ANY_BUCKET } else { taken };
                        did.departs(how, Did::value("page", &[page]), out)
                    }
                    Ok(wrapped) => did.departs(known::PAGE_WRAPS, Did::value("page", &[wrapped]), out),
                    Err(panic) => did.departs(known::PAGE_PANICS, panic, out),
                }
            }
            Open(_, len) => {
                let did = Did::of(o::open(count, len), |n| Did::value("taken", &[n as u64]));
                if counted || file_length(n) != Ok(len) {
                    return did.plain();
                }
                did.departs(taken, Did::value("taken", &[n]), Out::refused(1))
            }
        }
    }

    fn smaller(input: &Input) -> Vec<Input> {
        match *input {
            TagPages(n) => smaller_number(n).into_iter().map(TagPages).collect(),
            Length(n) => smaller_number(n).into_iter().map(Length).collect(),
            PageNumber(n, b) => {
                let counts = smaller_number(n).into_iter().map(|n| PageNumber(n, b));
                counts.chain(smaller_number(b).into_iter().map(|b| PageNumber(n, b))).collect()
            }
            Open(n, len) => {
                let counts = smaller_number(n).into_iter().map(|n| Open(n, len));
                counts.chain(smaller_number(len).into_iter().map(|len| Open(n, len))).collect()
            }
        }
    }
}

pub fn exhaustive(run: &mut Run) {
    let more = [4_293_918_973, 4_293_918_974, 4_293_918_975, 4_293_918_976, u32::MAX as u64 - 1];
    for n in (0..=20_000).chain(counts()).chain(more).chain((1..=MOST).step_by(1021)) {
        run.case::<PlaceOp>(TagPages(n));
        run.case::<PlaceOp>(Length(n));
        for b in [0, n.wrapping_sub(1), n, n.wrapping_add(1), u64::MAX] {
            run.case::<PlaceOp>(PageNumber(n, b));
        }
    }
    for n in 0..=5 {
        for len in (0..=8 * 4096 + 1).filter(|l| (l + 1) % 4096 < 3) {
            run.case::<PlaceOp>(Open(n, len));
        }
    }
    for n in [4095, 4096, 4097] {
        for len in [length_of(n) - 4096, length_of(n) - 1, length_of(n), length_of(n) + 1, length_of(n) + 4096] {
            run.case::<PlaceOp>(Open(n, len));
        }
    }
}

pub fn random(run: &mut Run, rng: &mut Rng) {
    let n = if rng.once_in(8) { rng.number() } else { rng.within(1, MOST) };
    let b = match rng.below(6) {
        0 => rng.number(),
        1 => n.wrapping_add(rng.below(3)).wrapping_sub(1),
        _ => rng.below(n.max(1)),
    };
    let input = match rng.below(4) {
        0 => TagPages(n),
        1 => Length(n),
        2 => PageNumber(n, b),
        _ => {
            let n = rng.within(1, 40);
            let len = length_of(n) + if rng.once_in(2) { 0 } else { rng.below(8193) };
            Open(n, len.saturating_sub(if rng.once_in(4) { rng.below(8192) } else { 0 }))
        }
    };
    run.case::<PlaceOp>(input);
}
