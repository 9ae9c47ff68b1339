//! meta_map.rs: one byte per bucket.

use crate::{
    departures as known,
    engine::Engine,
    faults::heard,
    heard::{outside, range_outside, unequal, Did, Heard},
    input::{any_count, any_tag, any_tags, fill, smaller_number, tags_fit, Table, TAGS},
    rng::Rng,
    run::{Op, Out, Run},
};
use model::tags::{full_tag, Kind, TOMBSTONE};

pub struct TagOp;

#[derive(Clone, Debug)]
pub enum Input {
    FullTag(u64),
    /// A tag, and a hash that it may be the tag of.
    Hints(u8, u64),
    SetFull(Table, u64, u64),
    SetTombstone(Table, u64),
    FullCount(Table),
    Padding(Table),
    TagPage(u64),
}

use Input::*;

/// A map of the original's, of tags that are no whole pages.
pub fn no_pages(len: usize) -> Did {
    Did::panic("bitbox/meta_map.rs:19", unequal(len as u64 % 4096, 0))
}

pub const FULL_COUNT: &str = "bitbox/meta_map.rs:27";

/// A tag that is set, by what the original leaves. A map of its own has no length that it holds to.
fn set(t: &Table, b: u64, tag: u8, at: &str, (said, left): (original::Said<()>, Vec<u8>)) -> Heard {
    let did = Did::of(said, |()| Did::value("done", &[])).with("tags", left);
    let tags = t.tag_bytes();
    let out = |number| Out::refused(number).with("tags", t.tag_bytes());
    let number = if tags_fit(t.n, tags.len()) { 9 } else { 1 };
    if tags.len() % 4096 != 0 {
        return did.departs(known::TAGS_NO_PAGES, no_pages(tags.len()).with("tags", tags), out(1));
    }
    if b >= tags.len() as u64 {
        let wanted = Did::panic(at, outside(tags.len(), b)).with("tags", tags);
        return did.departs(known::TAG_PAST_PADDING, wanted, out(number));
    }
    if number == 9 && b < t.n {
        return did.plain();
    }
    let mut wanted = tags;
    wanted[b as usize] = tag;
    let how = if number == 9 { known::TAG_IN_PADDING } else { known::TAGS_TAKEN };
    did.departs(how, Did::value("done", &[]).with("tags", wanted), out(number))
}

/// A question about all tags: what the original does where 01 refuses their number or length, from its count.
fn of_lent(t: &Table, tags: &[u8], did: Did, asked: impl FnOnce(usize) -> Result<Did, Did>) -> Heard {
    if tags_fit(t.n, tags.len()) {
        return did.plain();
    }
    if tags.len() % 4096 != 0 {
        return did.departs(known::TAGS_NO_PAGES, no_pages(tags.len()), Out::refused(1));
    }
    match asked(t.n as usize) {
        Ok(wanted) => did.departs(known::TAGS_TAKEN, wanted, Out::refused(1)),
        Err(wanted) => did.departs(known::TAGS_SHORT, wanted, Out::refused(1)),
    }
}

impl Op for TagOp {
    type Input = Input;

    fn name(input: &Input) -> &'static str {
        match input {
            FullTag(..) => "full tag",
            Hints(..) => "tag hints",
            SetFull(..) => "set full",
            SetTombstone(..) => "set tombstone",
            FullCount(..) => "full count",
            Padding(..) => "padding",
            TagPage(..) => "tag page",
        }
    }

    fn run<E: Engine>(input: &Input) -> Out {
        match input {
            FullTag(hash) => Out::value("tag", &[E::full_tag(*hash) as u64]),
            Hints(tag, hash) => {
                let kind = E::kind(*tag);
                let not_match = E::not_match(*tag, *hash) as u64;
                let is = |k| (kind == k) as u64;
                Out::value("hints", &[is(Kind::Empty), is(Kind::Tombstone), not_match, is(Kind::Full)])
            }
            SetFull(t, b, hash) => {
                let mut tags = t.tag_bytes();
                let said = E::set_full(&mut tags, t.n, *b, *hash);
                Out::of(said, |()| Out::value("done", &[])).with("tags", tags)
            }
            SetTombstone(t, b) => {
                let mut tags = t.tag_bytes();
                let said = E::set_tombstone(&mut tags, t.n, *b);
                Out::of(said, |()| Out::value("done", &[])).with("tags", tags)
            }
            FullCount(t) => {
                let tags = t.tag_bytes();
                Out::of(E::full_count(&tags, t.n), |c| Out::value("count", &[c])).reading("tags", tags)
            }
            Padding(t) => {
                let tags = t.tag_bytes();
                Out::of(E::padding_is_zero(&tags, t.n), |z| Out::value("zero", &[z as u64])).reading("tags", tags)
            }
            TagPage(b) => Out::value("page", &[E::tag_page(*b)]),
        }
    }

    fn original(input: &Input) -> Heard {
        use original::tags as o;
        match input {
            FullTag(hash) => Did::value("tag", &[o::full_entry(*hash) as u64]).plain(),
            Hints(tag, hash) => {
                let mut tags = [0; 4096];
                tags[2] = *tag;
                Did::of(o::hints(&tags, 4, 2, *hash), |h| {
                    Did::value("hints", &[h.empty as u64, h.tombstone as u64, h.not_match as u64, h.full as u64])
                })
                .plain()
            }
            SetFull(t, b, hash) => {
                let said = o::set_full(&t.tag_bytes(), t.n as usize, *b as usize, *hash);
                set(t, *b, full_tag(*hash), "bitbox/meta_map.rs:38", heard("set full", &[t.n, *b], said))
            }
            SetTombstone(t, b) => {
                let said = o::set_tombstone(&t.tag_bytes(), t.n as usize, *b as usize);
                set(t, *b, TOMBSTONE, "bitbox/meta_map.rs:52", heard("set tombstone", &[t.n, *b], said))
            }
            FullCount(t) => {
                let tags = t.tag_bytes();
                let said = heard("full count", &[t.n], o::full_count(&tags, t.n as usize));
                let did = Did::of(said, |c| Did::value("count", &[c as u64]));
                of_lent(t, &tags, did, |n| match tags.get(..n) {
                    Some(tags) => Ok(Did::value("count", &[tags.iter().filter(|&&t| t >= 0x80).count() as u64])),
                    None => Err(Did::panic(FULL_COUNT, range_outside(tags.len(), ..n))),
                })
            }
            Padding(t) => {
                let tags = t.tag_bytes();
                let did = Did::of(o::padding_is_empty(&tags, t.n as usize), |z| Did::value("zero", &[z as u64]));
                of_lent(t, &tags, did, |n| match tags.get(n..) {
                    Some(tags) => Ok(Did::value("zero", &[tags.iter().all(|&t| t == 0) as u64])),
                    None => Err(Did::panic("bitbox/meta_map.rs:46", range_outside(tags.len(), n..))),
                })
            }
            // A tag page's number among the tags is its number in the file.
            TagPage(b) => {
                let page = o::page_index(*b as usize);
                let page = page.and_then(|page| original::places::meta_bytes_index(1, page as u64));
                Did::of(page, |page| Did::value("page", &[page])).plain()
            }
        }
    }

    fn smaller(input: &Input) -> Vec<Input> {
        match input {
            FullTag(h) => smaller_number(*h).into_iter().map(FullTag).collect(),
            Hints(t, h) => smaller_number(*h).into_iter().map(|h| Hints(*t, h)).collect(),
            SetFull(t, b, h) => {
                let mut out: Vec<Input> = t.smaller().into_iter().map(|t| SetFull(t, *b, *h)).collect();
                out.extend(smaller_number(*b).into_iter().map(|b| SetFull(t.clone(), b, *h)));
                out.extend(smaller_number(*h).into_iter().map(|h| SetFull(t.clone(), *b, h)));
                out
            }
            SetTombstone(t, b) => {
                let mut out: Vec<Input> = t.smaller().into_iter().map(|t| SetTombstone(t, *b)).collect();
                out.extend(smaller_number(*b).into_iter().map(|b| SetTombstone(t.clone(), b)));
                out
            }
            FullCount(t) => t.smaller().into_iter().map(FullCount).collect(),
            Padding(t) => t.smaller().into_iter().map(Padding).collect(),
            TagPage(b) => smaller_number(*b).into_iter().map(TagPage).collect(),
        }
    }
}

/// Counts at and around each limit, with slices as long as they should be and not.
pub fn counts() -> Vec<u64> {
    vec![
        0,
        1,
        2,
        3,
        4,
        5,
        4095,
        4096,
        4097,
        8192,
        8193,
        1_048_575,
        1_048_576,
        1_048_577,
        u32::MAX as u64,
        1 << 32,
        (1 << 32) + 1,
        u64::MAX,
    ]
}

pub fn exhaustive(run: &mut Run) {
    // Many full buckets.
    for n in [4201, 10_502, 16_385, 20_011, 65_537, 1_048_576] {
        let mut tags = vec![0; n as usize];
        fill(&mut tags, n);
        let t = Table::new(n, &tags);
        for t in [Table { padding: Some((0, 0x80)), ..t.clone() }, t] {
            run.case::<TagOp>(FullCount(t.clone()));
            run.case::<TagOp>(Padding(t));
        }
    }
    for tag in 0..=255 {
        for full in 0..128u64 {
            run.case::<TagOp>(Hints(tag, full << 57 | 5));
        }
    }
    for full in 0..128u64 {
        for low in [0, 1, (1 << 57) - 1] {
            run.case::<TagOp>(FullTag(full << 57 | low));
        }
    }
    for b in [0, 1, 4095, 4096, 4097, 8191, 8192, 1_048_575, 1_048_576, u64::MAX] {
        run.case::<TagOp>(TagPage(b));
    }
    for n in counts() {
        for longer in [0, -1, 1, -4096, 4096] {
            let t = Table { longer, ..Table::new(n, &[0x80, 0x7F, 0x80, 0x01, 0xFF]) };
            run.case::<TagOp>(FullCount(t.clone()));
            run.case::<TagOp>(Padding(t.clone()));
            for b in [0, 1, 2, 3, 4, 5, n.wrapping_sub(1), n, n.wrapping_add(1), 4095, 4096, u64::MAX] {
                run.case::<TagOp>(SetFull(t.clone(), b, 0x1234 << 48));
                run.case::<TagOp>(SetTombstone(t.clone(), b));
            }
        }
    }
    for n in [1u64, 2, 4094, 4095, 4097] {
        let last = n.next_multiple_of(4096) - n;
        for at in [0, 1, last - 1] {
            for byte in [1, 0x7F, 0x80] {
                let t = Table { padding: Some((at, byte)), ..Table::new(n, &[0x80]) };
                run.case::<TagOp>(Padding(t.clone()));
                run.case::<TagOp>(FullCount(t));
            }
        }
    }
    for tags in all_tags(3) {
        let t = Table::new(tags.len() as u64, &tags);
        run.case::<TagOp>(FullCount(t));
    }
}

/// All lists of tags that mean something, and their neighbours, of a length from 1 to `most`.
pub fn all_tags(most: usize) -> Vec<Vec<u8>> {
    let mut all = vec![vec![]];
    let mut from = 0;
    for _ in 0..most {
        let to = all.len();
        for i in from..to {
            for tag in TAGS {
                let mut longer = all[i].clone();
                longer.push(tag);
                all.push(longer);
            }
        }
        from = to;
    }
    all.remove(0);
    all
}

pub fn random(run: &mut Run, rng: &mut Rng) {
    let n = any_count(rng, 10_000);
    let mut t = Table::new(n, &any_tags(rng, n));
    if rng.once_in(4) {
        t.padding = Some((rng.below(4096), any_tag(rng)));
    }
    if rng.once_in(20) {
        t.longer = rng.below(4099) as i64 - 4097;
    }
    let b = match rng.below(10) {
        0 => rng.number(),
        1 => n.wrapping_add(rng.below(4097)).wrapping_sub(1),
        _ => rng.below(n),
    };
    let input = match rng.below(8) {
        0 => FullTag(rng.number()),
        1 => Hints(rng.next() as u8, rng.next()),
        2 => TagPage(rng.number()),
        3 => SetFull(t, b, rng.next()),
        4 => SetTombstone(t, b),
        5 | 6 => FullCount(t),
        _ => Padding(t),
    };
    run.case::<TagOp>(input);
}
