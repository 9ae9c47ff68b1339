//! The log of a sync: its reader and its writer.

use crate::{
    diff::{Diff, Node, Packed, NODE},
    ffi,
    refusal::said,
    start::{first_entry, Edition, Seed, Start},
    Refusal,
};
use core::iter::FusedIterator;

/// A page's id: the last 32 bytes of the page.
pub type PageId = [u8; 32];

/// A page's elided children: the 8 bytes before its id.
pub type Elided = [u8; 8];

/// A page that was changed, as a log has it.
#[derive(Clone, Copy, Debug, PartialEq, Eq)]
pub struct Update {
    /// The page's bucket.
    pub bucket: u64,
    /// The page's id.
    pub id: PageId,
    /// The slots that changed.
    pub diff: Diff,
    /// Their nodes.
    pub nodes: Packed,
    /// The page's elided children.
    pub elided: Elided,
}

/// An entry of a log.
// An update is 4 KB by value, so that reading takes no memory of its own.
#[allow(clippy::large_enum_variant)]
#[derive(Clone, Copy, Debug, PartialEq, Eq)]
pub enum Entry {
    /// A bucket was cleared.
    Clear {
        /// The bucket.
        bucket: u64,
    },
    /// A page was changed.
    Update(Update),
    /// The log is over.
    End,
}

impl Entry {
    /// The bucket that it names; the end names none.
    pub const fn bucket(&self) -> Option<u64> {
        match self {
            Entry::Clear { bucket } | Entry::Update(Update { bucket, .. }) => Some(*bucket),
            Entry::End => None,
        }
    }
}

/// What is wanted after the end of a log, up to the end of what is lent.
#[derive(Clone, Copy, Debug)]
pub(crate) enum AfterEnd {
    /// Zeros.
    Zeros,
    /// Anything: the rule of the calls whose names end in `_tolerant`.
    Tolerant,
}

/// The entry that stands at a position of a log, and where the next one stands; after the end stands the
/// end. [`Edition::of`] and [`first_entry`] tell the log's edition and its first position; a [`Reader`] knows both.
///
/// At the end, all bytes after it are wanted to be zero, up to the end of the slice: lend a log and nothing behind it,
/// which is as many bytes as [`Writer::finish`] or a sync answered.
///
/// # Errors
///
/// [`LogCut`](Refusal::LogCut), [`TagUnknown`](Refusal::TagUnknown),
/// [`DiffReserved`](Refusal::DiffReserved), as the first byte that is wrong has it; in place of the end
/// [`AfterEndUsed`](Refusal::AfterEndUsed).
pub fn read_entry(log: &[u8], at: usize, edition: Edition) -> Result<(Entry, usize), Refusal> {
    entry_by(log, at, edition, AfterEnd::Zeros)
}

/// What [`read_entry`] gives, whatever follows the end: for logs that have something there, as a label, and for what
/// only shows a log.
///
/// # Errors
///
/// Those of [`read_entry`], without [`AfterEndUsed`](Refusal::AfterEndUsed).
pub fn read_entry_tolerant(log: &[u8], at: usize, edition: Edition) -> Result<(Entry, usize), Refusal> {
    entry_by(log, at, edition, AfterEnd::Tolerant)
}

fn entry_by(log: &[u8], at: usize, edition: Edition, rule: AfterEnd) -> Result<(Entry, usize), Refusal> {
    let e = ffi::reader_next(log, at, edition.number(), rule);
    said(e.refusal)?;
    let entry = match e.kind {
        0 => Entry::End,
        1 => Entry::Clear { bucket: e.bucket },
        // 2; no other kind is answered.
        _ => Entry::Update(Update { bucket: e.bucket, id: e.id, diff: e.diff, nodes: e.packed, elided: e.elided }),
    };
    Ok((entry, position(e.next)))
}

/// An entry of a log without an update's fields: enough to go along a log and to see which buckets it names.
#[derive(Clone, Copy, Debug, PartialEq, Eq, Hash)]
pub enum Head {
    /// A bucket was cleared.
    Clear {
        /// The bucket.
        bucket: u64,
        /// Where the next entry stands.
        next: usize,
    },
    /// A page was changed.
    Update {
        /// The page's bucket.
        bucket: u64,
        /// How many nodes changed.
        count: usize,
        /// Where the next entry stands.
        next: usize,
    },
    /// The log is over.
    End,
}

/// The entry that stands at a position of a log, without an update's fields: no node is copied. It takes and
/// refuses what [`read_entry`] does.
///
/// # Errors
///
/// Those of [`read_entry`].
pub fn read_head(log: &[u8], at: usize, edition: Edition) -> Result<Head, Refusal> {
    head_by(log, at, edition, AfterEnd::Zeros)
}

/// What [`read_head`] gives, whatever follows the end.
///
/// # Errors
///
/// Those of [`read_entry_tolerant`].
pub fn read_head_tolerant(log: &[u8], at: usize, edition: Edition) -> Result<Head, Refusal> {
    head_by(log, at, edition, AfterEnd::Tolerant)
}

fn head_by(log: &[u8], at: usize, edition: Edition, rule: AfterEnd) -> Result<Head, Refusal> {
    let ffi::Head { refusal, kind, bucket, count, next } = ffi::reader_head(log, at, edition.number(), rule);
    said(refusal)?;
    let next = position(next);
    Ok(match kind {
        0 => Head::End,
        1 => Head::Clear { bucket, next },
        // 2; no other kind is answered.
        _ => Head::Update { bucket, count: position(count), next },
    })
}

/// An [`Update`] that stays in its log: nothing of it is copied.
#[derive(Clone, Copy, Debug, PartialEq, Eq)]
pub struct UpdateRef<'a> {
    /// The page's bucket.
    pub bucket: u64,
    /// The page's id.
    pub id: &'a PageId,
    /// The slots that changed.
    pub diff: Diff,
    /// The page's elided children.
    pub elided: &'a Elided,
    nodes: &'a [u8],
}

impl<'a> UpdateRef<'a> {
    /// The nodes of the slots that changed, in the slots' order.
    pub fn nodes(&self) -> impl Iterator<Item = &'a Node> + use<'a> {
        self.nodes.chunks_exact(NODE).filter_map(<[u8]>::first_chunk)
    }

    /// How many nodes it has.
    pub const fn count(&self) -> usize {
        self.nodes.len() / NODE
    }

    /// The update whose mark begins a slice, of so many nodes; the library has seen that the log holds it.
    fn of(log: &'a [u8], edition: Edition, bucket: u64, count: usize) -> Option<UpdateRef<'a>> {
        let (_mark, rest) = log.split_at_checked(edition.mark())?;
        let (id, rest) = rest.split_first_chunk()?;
        let (lo, rest) = rest.split_first_chunk()?;
        let (hi, rest) = rest.split_first_chunk()?;
        let (nodes, rest) = rest.split_at_checked(NODE.checked_mul(count)?)?;
        let elided = rest.first_chunk()?;
        let diff = Diff::from_words([u64::from_le_bytes(*lo), u64::from_le_bytes(*hi)]);
        Some(UpdateRef { bucket, id, diff, elided, nodes })
    }
}

/// An [`Entry`] that stays in its log.
#[derive(Clone, Copy, Debug, PartialEq, Eq)]
pub enum EntryRef<'a> {
    /// A bucket was cleared.
    Clear {
        /// The bucket.
        bucket: u64,
    },
    /// A page was changed.
    Update(UpdateRef<'a>),
    /// The log is over.
    End,
}

impl EntryRef<'_> {
    /// The bucket that it names; the end names none.
    pub const fn bucket(&self) -> Option<u64> {
        match self {
            EntryRef::Clear { bucket } | EntryRef::Update(UpdateRef { bucket, .. }) => Some(*bucket),
            EntryRef::End => None,
        }
    }
}

/// What [`read_entry`] gives, lent out of the log and not copied: the faster way.
///
/// # Errors
///
/// Those of [`read_entry`].
pub fn see_entry(log: &[u8], at: usize, edition: Edition) -> Result<(EntryRef<'_>, usize), Refusal> {
    seen_by(log, at, edition, AfterEnd::Zeros)
}

/// What [`see_entry`] gives, whatever follows the end.
///
/// # Errors
///
/// Those of [`read_entry_tolerant`].
pub fn see_entry_tolerant(log: &[u8], at: usize, edition: Edition) -> Result<(EntryRef<'_>, usize), Refusal> {
    seen_by(log, at, edition, AfterEnd::Tolerant)
}

fn seen_by(log: &[u8], at: usize, edition: Edition, rule: AfterEnd) -> Result<(EntryRef<'_>, usize), Refusal> {
    match head_by(log, at, edition, rule)? {
        Head::End => Ok((EntryRef::End, at)),
        Head::Clear { bucket, next } => Ok((EntryRef::Clear { bucket }, next)),
        // An update that is answered is in the log.
        Head::Update { bucket, count, next } => {
            let update = log.get(at..).and_then(|log| UpdateRef::of(log, edition, bucket, count));
            update.map(|update| (EntryRef::Update(update), next)).ok_or(Refusal::LogCut)
        }
    }
}

/// A position as a usize, which has the same 64 bits on every machine that the library is for.
pub(crate) fn position(at: u64) -> usize {
    usize::try_from(at).unwrap_or(usize::MAX)
}

/// A reader of a lent log.
///
/// As an iterator it gives the clears and updates and ends after the last; a refusal is given once and
/// ends it too. [`Reader::entries`] does so and copies nothing. [`Reader::read_entry`] gives the end as an
/// entry.
///
/// On coming to the end it wants zeros after it, up to the end of the lent log, and is refused with
/// [`AfterEndUsed`](Refusal::AfterEndUsed) where there is another byte. [`Reader::tolerant`] takes what is there.
///
/// ```
/// use bitbox::{Entry, LogWriter, Reader, Start};
///
/// # fn main() -> Result<(), bitbox::Refusal> {
/// let (seed, mut memory) = (*b"of one recording", [0; 4096]);
/// let mut writer = LogWriter::begin(&mut memory, Start::two(7, seed))?;
/// writer.write_clear(3)?;
/// let log = writer.finish()?;
///
/// let reader = Reader::new(log)?;
/// assert_eq!((reader.sync_seqn(), reader.seed()), (7, Some(seed)));
/// let entries: Result<Vec<Entry>, _> = reader.collect();
/// assert_eq!(entries?, [Entry::Clear { bucket: 3 }]);
/// # Ok(())
/// # }
/// ```
#[derive(Clone, Debug)]
pub struct Reader<'a> {
    log: &'a [u8],
    at: usize,
    start: Start,
    rule: AfterEnd,
    over: bool,
}

impl<'a> Reader<'a> {
    /// A reader set on a log of either edition: it has read the start.
    ///
    /// # Errors
    ///
    /// In this order: [`LogNotPages`](Refusal::LogNotPages); [`LogCut`](Refusal::LogCut) for an empty
    /// log; [`NoStart`](Refusal::NoStart).
    pub fn new(log: &'a [u8]) -> Result<Reader<'a>, Refusal> {
        let answer = ffi::reader_set(log);
        said(answer.refusal)?;
        // A log has the number in four bytes, so it fits.
        let sync_seqn = u32::try_from(answer.value).unwrap_or(u32::MAX);
        let start = Start::told(log, sync_seqn);
        Ok(Reader { log, at: first_entry(log), start, rule: AfterEnd::Zeros, over: false })
    }

    /// The same reader, which takes whatever follows the end.
    ///
    /// ```
    /// use bitbox::{LogWriter, Reader, Refusal, Start};
    ///
    /// # fn main() -> Result<(), Refusal> {
    /// let mut memory = [0; 4096];
    /// LogWriter::begin(&mut memory, Start::two(7, *b"of one recording"))?.finish()?;
    /// memory[4090..].copy_from_slice(b"take 3");
    /// assert_eq!(Reader::new(&memory)?.last(), Some(Err(Refusal::AfterEndUsed)));
    /// assert_eq!(Reader::new(&memory)?.tolerant().last(), None);
    /// # Ok(())
    /// # }
    /// ```
    #[must_use]
    pub const fn tolerant(self) -> Reader<'a> {
        Reader { rule: AfterEnd::Tolerant, ..self }
    }

    /// What the log starts with.
    pub const fn start(&self) -> Start {
        self.start
    }

    /// The sync's number, from the log's start.
    pub const fn sync_seqn(&self) -> u32 {
        self.start.sync_seqn()
    }

    /// The log's edition.
    pub const fn edition(&self) -> Edition {
        self.start.edition()
    }

    /// The seed of the log's store, from the log's start; none in edition one.
    pub const fn seed(&self) -> Option<Seed> {
        self.start.seed()
    }

    /// Where the next entry stands.
    pub const fn position(&self) -> usize {
        self.at
    }

    /// The next entry, without moving on.
    ///
    /// # Errors
    ///
    /// Those of [`read_entry`], or where it is [`tolerant`](Reader::tolerant) of [`read_entry_tolerant`].
    pub fn peek(&self) -> Result<Entry, Refusal> {
        entry_by(self.log, self.at, self.edition(), self.rule).map(|(entry, _)| entry)
    }

    /// The next entry. At the end and at a refusal the reader stays where it is and answers the same again.
    ///
    /// # Errors
    ///
    /// Those of [`peek`](Reader::peek).
    pub fn read_entry(&mut self) -> Result<Entry, Refusal> {
        let (entry, next) = entry_by(self.log, self.at, self.edition(), self.rule)?;
        self.at = next;
        Ok(entry)
    }

    /// The same, lent out of the log and not copied.
    ///
    /// # Errors
    ///
    /// Those of [`peek`](Reader::peek).
    pub fn see_entry(&mut self) -> Result<EntryRef<'a>, Refusal> {
        let (entry, next) = seen_by(self.log, self.at, self.edition(), self.rule)?;
        self.at = next;
        Ok(entry)
    }

    /// The clears and updates from here on, lent out of the log: nothing of them is copied.
    ///
    /// ```
    /// use bitbox::{LogWriter, Reader, Start};
    ///
    /// # fn main() -> Result<(), bitbox::Refusal> {
    /// let mut memory = [0; 4096];
    /// let mut writer = LogWriter::begin(&mut memory, Start::two(7, *b"of one recording"))?;
    /// writer.write_clear(3)?;
    /// writer.write_clear(5)?;
    /// let buckets: Result<Vec<_>, _> =
    ///     Reader::new(writer.finish()?)?.entries().map(|entry| entry.map(|e| e.bucket())).collect();
    /// assert_eq!(buckets?, [Some(3), Some(5)]);
    /// # Ok(())
    /// # }
    /// ```
    pub const fn entries(self) -> Entries<'a> {
        Entries { reader: self }
    }
}

impl Iterator for Reader<'_> {
    type Item = Result<Entry, Refusal>;

    fn next(&mut self) -> Option<Self::Item> {
        if self.over {
            return None;
        }
        let entry = self.read_entry();
        self.over = matches!(entry, Ok(Entry::End) | Err(_));
        match entry {
            Ok(Entry::End) => None,
            entry => Some(entry),
        }
    }
}

impl FusedIterator for Reader<'_> {}

/// The entries of a log, lent out of it: an iterator as [`Reader`] is one, that copies nothing.
#[derive(Clone, Debug)]
pub struct Entries<'a> {
    reader: Reader<'a>,
}

impl<'a> Iterator for Entries<'a> {
    type Item = Result<EntryRef<'a>, Refusal>;

    fn next(&mut self) -> Option<Self::Item> {
        if self.reader.over {
            return None;
        }
        let entry = self.reader.see_entry();
        self.reader.over = matches!(entry, Ok(EntryRef::End) | Err(_));
        match entry {
            Ok(EntryRef::End) => None,
            entry => Some(entry),
        }
    }
}

impl FusedIterator for Entries<'_> {}

/// A writer's state, for logs that are written into lent memory call by call. Each call moves it on; a
/// refused one leaves it.
///
/// The capacity is the lent slice rounded down to 4,096 bytes. A record is taken exactly when it and the
/// end after it fit, so that a log can always be finished in the slice it was written to.
#[derive(Clone, Copy, Debug, Default, PartialEq, Eq, Hash)]
pub enum Writer {
    /// Nothing has begun.
    #[default]
    Fresh,
    /// A log of this edition is being written; the next record goes to this position.
    Open(usize, Edition),
    /// A log of this length is finished.
    Finished(usize),
}

impl Writer {
    pub(crate) fn state(self) -> ffi::WriterState {
        match self {
            Writer::Fresh => ffi::WriterState { kind: 0, at: 0 },
            Writer::Open(at, Edition::One) => ffi::WriterState { kind: 1, at: at as u64 },
            Writer::Open(at, Edition::Two) => ffi::WriterState { kind: 3, at: at as u64 },
            Writer::Finished(length) => ffi::WriterState { kind: 2, at: length as u64 },
        }
    }

    pub(crate) fn of(state: ffi::WriterState) -> Writer {
        match state.kind {
            0 => Writer::Fresh,
            1 => Writer::Open(position(state.at), Edition::One),
            3 => Writer::Open(position(state.at), Edition::Two),
            // As the boundary has it: any other is finished.
            _ => Writer::Finished(position(state.at)),
        }
    }

    fn moved(&mut self, written: ffi::Written) -> Result<usize, Refusal> {
        *self = Writer::of(written.writer);
        said(written.refusal)?;
        Ok(position(written.length))
    }

    /// Begins a log, in any state.
    ///
    /// # Errors
    ///
    /// [`NoRoom`](Refusal::NoRoom): the slice is shorter than 4,096 bytes.
    pub fn begin(&mut self, log: &mut [u8], start: Start) -> Result<(), Refusal> {
        self.moved(ffi::begin(log, self.state(), start.lent())).map(|_| ())
    }

    /// Writes that a bucket is cleared.
    ///
    /// # Errors
    ///
    /// In this order: [`WriterNotOpen`](Refusal::WriterNotOpen), [`NoRoom`](Refusal::NoRoom).
    pub fn write_clear(&mut self, log: &mut [u8], bucket: u64) -> Result<(), Refusal> {
        self.moved(ffi::write_clear(log, self.state(), bucket)).map(|_| ())
    }

    /// Writes that a page is changed.
    ///
    /// # Errors
    ///
    /// In this order: [`WriterNotOpen`](Refusal::WriterNotOpen); [`LengthUnfit`](Refusal::LengthUnfit):
    /// there are not as many nodes as marks; [`DiffReserved`](Refusal::DiffReserved): bit 126 or 127 is
    /// set; [`NoRoom`](Refusal::NoRoom).
    pub fn write_update(&mut self, log: &mut [u8], update: &Update) -> Result<(), Refusal> {
        let Update { bucket, id, diff, nodes, elided } = update;
        self.moved(ffi::write_update(log, self.state(), id, *diff, nodes, elided, *bucket)).map(|_| ())
    }

    /// Finishes the log, which then is the first bytes of the slice, as many as are answered. Bytes of the slice behind
    /// them stay as they were, and are not the log's: lend them to no reader and no replay.
    ///
    /// # Errors
    ///
    /// In this order: [`WriterNotOpen`](Refusal::WriterNotOpen); [`NoRoom`](Refusal::NoRoom), which a slice
    /// shorter than the one that the records were written to may give.
    pub fn finish(&mut self, log: &mut [u8]) -> Result<usize, Refusal> {
        self.moved(ffi::finish(log, self.state()))
    }
}

/// A log that is being written into memory that is lent to the end.
#[derive(Debug)]
pub struct LogWriter<'a> {
    log: &'a mut [u8],
    writer: Writer,
}

impl<'a> LogWriter<'a> {
    /// Begins a log.
    ///
    /// # Errors
    ///
    /// [`NoRoom`](Refusal::NoRoom): the slice is shorter than 4,096 bytes.
    pub fn begin(log: &'a mut [u8], start: Start) -> Result<LogWriter<'a>, Refusal> {
        let mut writer = Writer::Fresh;
        writer.begin(log, start)?;
        Ok(LogWriter { log, writer })
    }

    /// Writes that a bucket is cleared.
    ///
    /// # Errors
    ///
    /// [`NoRoom`](Refusal::NoRoom).
    pub fn write_clear(&mut self, bucket: u64) -> Result<(), Refusal> {
        self.writer.write_clear(self.log, bucket)
    }

    /// Writes that a page is changed.
    ///
    /// # Errors
    ///
    /// In this order: [`LengthUnfit`](Refusal::LengthUnfit), [`DiffReserved`](Refusal::DiffReserved),
    /// [`NoRoom`](Refusal::NoRoom).
    pub fn write_update(&mut self, update: &Update) -> Result<(), Refusal> {
        self.writer.write_update(self.log, update)
    }

    /// Finishes the log and gives it back. There is always room.
    ///
    /// # Errors
    ///
    /// None that can happen.
    pub fn finish(mut self) -> Result<&'a [u8], Refusal> {
        let length = self.writer.finish(self.log)?;
        // The log starts the slice, and finish answers at most the slice's length.
        self.log.get(..length).ok_or(Refusal::NoRoom)
    }
}
