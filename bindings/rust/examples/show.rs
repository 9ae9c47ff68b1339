//! A quiz show's store through two power cuts and two accidents, with its files in a temporary folder.
//!
//!     show [--seed N] [--rounds N] [--list PROGRAM]
//!
//! Forty questions are synced. A second sync changes, adds and clears some; power is cut at a byte of the
//! table's write-out that chance picks, and again at a byte of the recovery's own. Then the table must be, byte
//! for byte, that of a store whose power was never cut. Then comes the accident: a rehearsal on a copy of the folder
//! is at the same sync number, and its log comes to lie beside the recording's table. In the log's first edition it
//! is taken in, which is shown as a warning; in the second, which the store writes, it is refused. Last a log is written
//! over a longer one, whose entries then stand after its end: it is refused, until the file is cut to the log's length.
//! `--list` names the program that reads off logs. With rounds, each has the next seed and only their sum is told. Any
//! mismatch ends with status 1.

use bitbox::{
    audit, lookup, page_number, replay, sync, table_length, tag_page, tag_pages, Change, Diff, Entry, EntryRef, Found,
    Lent, PageId, Reader, Refusal, Replayed, Seed, Start, Synced, Where, Writer, NODE, PAGE, SLOTS, UNSET,
};
use mapped::Mapped;
use std::{
    collections::BTreeMap,
    env,
    error::Error,
    fs::{self, File, OpenOptions},
    io::{self, Seek, SeekFrom, Write},
    path::{Path, PathBuf},
    process::{self, Command, ExitCode},
    time::{SystemTime, UNIX_EPOCH},
};

mod mapped;

type Outcome<T> = Result<T, Box<dyn Error>>;

/// The buckets. 97 is prime, so a path comes to 49 of them: one more than are ever full here.
const BUCKETS: usize = 97;
/// Questions of the first sync; and what the second changes, adds and clears. The third changes as many.
const OPENING: usize = 40;
const CHANGED: usize = 12;
const ADDED: usize = 8;
const CLEARED: usize = 6;
/// Where a page has its elided children, and after them its id.
const ELIDED: usize = PAGE - 40;
const ID: usize = PAGE - 32;
/// The questions that a rehearsal changes.
const REHEARSED: usize = 20;
/// The syncs of the show by their numbers, and one that it never comes to.
const OPENED: u32 = 1;
const TONIGHT: u32 = 2;
const TOMORROW: u32 = 3;
const FINALE: u32 = 4;
const SOME_DAY: u32 = 7000;

/// A page's hash is the caller's to choose. Here it is FNV-1a, 64 bits, over the 32 bytes of its id.
fn hash_of(id: &PageId) -> u64 {
    id.iter().fold(0xCBF2_9CE4_8422_2325, |hash, &byte| (hash ^ u64::from(byte)).wrapping_mul(0x0100_0000_01B3))
}

/// The id that a page ends in.
fn id_of(page: &[u8]) -> PageId {
    let mut id = [0; 32];
    id.copy_from_slice(&page[ID..]);
    id
}

/// Chance that can be had again by its seed: SplitMix64.
struct Chance(u64);

impl Chance {
    fn next(&mut self) -> u64 {
        self.0 = self.0.wrapping_add(0x9E37_79B9_7F4A_7C15);
        let x = (self.0 ^ (self.0 >> 30)).wrapping_mul(0xBF58_476D_1CE4_E5B9);
        let x = (x ^ (x >> 27)).wrapping_mul(0x94D0_49BB_1331_11EB);
        x ^ (x >> 31)
    }

    /// A number below a limit, which is not 0.
    fn below(&mut self, limit: usize) -> usize {
        (self.next() % limit as u64) as usize
    }

    fn fill(&mut self, bytes: &mut [u8]) {
        bytes.iter_mut().for_each(|byte| *byte = self.next() as u8);
    }

    /// A store's seed. A service takes its 16 bytes from the system; here a run can be had again.
    fn seed(&mut self) -> Seed {
        let mut seed = Seed::default();
        self.fill(&mut seed);
        seed
    }

    fn shuffle<T>(&mut self, items: &mut [T]) {
        for i in (1..items.len()).rev() {
            items.swap(i, self.below(i + 1));
        }
    }
}

/// What the show wrote, and so what must be found: the pages, and the ids that were cleared.
#[derive(Clone, Default)]
struct Show {
    pages: BTreeMap<PageId, Vec<u8>>,
    cleared: Vec<PageId>,
}

/// A page to sync; a cleared diff clears it.
struct Edit {
    id: PageId,
    diff: Diff,
    page: Vec<u8>,
}

impl Show {
    /// Writes some slots of a question, and its elided children.
    fn write(&mut self, id: PageId, slots: &[usize], chance: &mut Chance) -> Outcome<Edit> {
        let page = self.pages.entry(id).or_insert_with(|| [vec![0; ID], id.to_vec()].concat());
        let mut diff = Diff::default();
        for &slot in slots {
            diff = diff.set_changed(slot)?;
            chance.fill(&mut page[slot * NODE..(slot + 1) * NODE]);
        }
        chance.fill(&mut page[ELIDED..ID]);
        Ok(Edit { id, diff, page: page.clone() })
    }

    /// A new question. All its slots are marked, since its bucket may have held another page before, and a replay
    /// leaves the slots that no mark names.
    fn add(&mut self, number: usize, chance: &mut Chance) -> Outcome<Edit> {
        let mut id = [0; 32];
        let name = format!("question {number}");
        id[..name.len()].copy_from_slice(name.as_bytes());
        self.write(id, &(0..SLOTS).collect::<Vec<_>>(), chance)
    }

    /// Changes up to twenty slots of a question.
    fn change(&mut self, id: PageId, chance: &mut Chance) -> Outcome<Edit> {
        let mut slots: Vec<usize> = (0..SLOTS).collect();
        chance.shuffle(&mut slots);
        slots.truncate(1 + chance.below(20));
        self.write(id, &slots, chance)
    }

    fn clear(&mut self, id: PageId) -> Edit {
        self.pages.remove(&id);
        self.cleared.push(id);
        Edit { id, diff: Diff::default().set_cleared(), page: vec![0; PAGE] }
    }

    fn opening(&mut self, chance: &mut Chance) -> Outcome<Vec<Edit>> {
        (0..OPENING).map(|number| self.add(number, chance)).collect()
    }

    /// The ids of all questions, in any order.
    fn ids(&self, chance: &mut Chance) -> Vec<PageId> {
        let mut ids: Vec<PageId> = self.pages.keys().copied().collect();
        chance.shuffle(&mut ids);
        ids
    }

    /// Changes so many questions.
    fn change_some(&mut self, count: usize, chance: &mut Chance) -> Outcome<Vec<Edit>> {
        self.ids(chance).into_iter().take(count).map(|id| self.change(id, chance)).collect()
    }

    /// The second sync's edits, in any order.
    fn evening(&mut self, chance: &mut Chance) -> Outcome<Vec<Edit>> {
        let ids = self.ids(chance);
        let mut edits = vec![];
        for id in &ids[..CHANGED] {
            edits.push(self.change(*id, chance)?);
        }
        for id in &ids[CHANGED..CHANGED + CLEARED] {
            edits.push(self.clear(*id));
        }
        for number in OPENING..OPENING + ADDED {
            edits.push(self.add(number, chance)?);
        }
        chance.shuffle(&mut edits);
        Ok(edits)
    }
}

/// Pages to write, by their numbers in the table: where a bucket is named twice the last page is its.
type Pages = BTreeMap<u64, Vec<u8>>;

/// A store's files: the table; the log of a sync that may not be in it yet; the number of the last sync; and the meta,
/// which is the count of buckets and the store's seed, by which a log names it.
struct Store {
    folder: PathBuf,
}

/// What a recovery has made of the table, in memory so far.
struct Recovery {
    answer: Replayed,
    hashes: usize,
    pages: Pages,
}

impl Store {
    fn create(folder: &Path, name: &str, seed: Seed) -> Outcome<Store> {
        let store = Store { folder: folder.join(name) };
        fs::create_dir(&store.folder)?;
        File::create(store.path("table"))?.set_len(table_length(BUCKETS)?)?;
        store.put_log(&[])?;
        store.put("number", &0u32.to_le_bytes())?;
        store.put_seed(seed)?;
        Ok(store)
    }

    /// A copy that will live on. It has a seed of its own before its first sync, and its log is empty.
    fn copied(&self, folder: &Path, name: &str, seed: Seed) -> Outcome<Store> {
        check(self.log()?.is_empty(), || "a store is copied when all is written out".into())?;
        let copy = Store { folder: folder.join(name) };
        fs::create_dir(&copy.folder)?;
        for file in ["table", "number", "log"] {
            fs::copy(self.path(file), copy.path(file))?;
        }
        copy.put_seed(seed)?;
        Ok(copy)
    }

    fn put_seed(&self, seed: Seed) -> io::Result<()> {
        self.put("meta", &[&(BUCKETS as u32).to_le_bytes()[..], &seed].concat())
    }

    fn seed(&self) -> Outcome<Seed> {
        let meta = fs::read(self.path("meta"))?;
        Ok(meta.get(4..).unwrap_or_default().try_into()?)
    }

    /// What the log of a sync starts with: it is of edition two, and names this store.
    fn start(&self, number: u32) -> Outcome<Start> {
        Ok(Start::two(number, self.seed()?))
    }

    fn path(&self, name: &str) -> PathBuf {
        self.folder.join(name)
    }

    /// The table in memory, where it may be written; the file stays as it is.
    fn table(&self) -> io::Result<Mapped> {
        Mapped::new(&File::open(self.path("table"))?)
    }

    fn log(&self) -> io::Result<Vec<u8>> {
        fs::read(self.path("log"))
    }

    fn put_log(&self, log: &[u8]) -> io::Result<()> {
        self.put("log", log)
    }

    /// Makes a file anew, whole or not at all: the bytes are on disk before the file has its name.
    fn put(&self, name: &str, bytes: &[u8]) -> io::Result<()> {
        let mut file = File::create(self.path("new"))?;
        file.write_all(bytes)?;
        file.sync_all()?;
        fs::rename(self.path("new"), self.path(name))?;
        File::open(&self.folder)?.sync_all()
    }

    /// A sync up to the point from which nothing can be lost: its log and then its number are on disk. What is
    /// left is to write the answered pages.
    fn prepare(&self, start: Start, edits: &[Edit]) -> Outcome<(Synced, Pages)> {
        let image = self.table()?;
        let tag_page_count = tag_pages(BUCKETS)? as usize;
        let mut tags = image[..PAGE * tag_page_count].to_vec();
        let mut marks = vec![0; tag_page_count];
        let mut cells = cells_for(&image, edits)?;
        let change = |(i, e): (usize, &Edit)| Change::new(e.id, hash_of(&e.id), e.diff, Where::Cell(i));
        let changes: Vec<Change> = edits.iter().enumerate().map(change).collect();
        let pages: Vec<u8> = edits.iter().flat_map(|e| e.page.iter().copied()).collect();
        let mut log = vec![0; log_room(edits.len())];
        let mut lent = Lent { n: BUCKETS, tags: &mut tags, marks: &mut marks, cells: &mut cells, log: &mut log };
        let synced = sync(&mut lent, &mut Writer::Fresh, start, &changes, &pages)?;
        self.put_log(&log[..synced.length])?;
        self.put("number", &start.sync_seqn().to_le_bytes())?;
        Ok((synced, to_write(edits, &cells, &tags, &marks)?))
    }

    /// Writes pages into the table, one after the other. Where power is cut, no byte from `cut` on arrives.
    fn write_out<'a>(&self, pages: impl Iterator<Item = (u64, &'a [u8])>, cut: Option<usize>) -> io::Result<()> {
        let mut file = OpenOptions::new().write(true).open(self.path("table"))?;
        let mut left = cut.unwrap_or(usize::MAX);
        for (number, page) in pages {
            let arrives = &page[..left.min(page.len())];
            file.seek(SeekFrom::Start(PAGE as u64 * number))?;
            file.write_all(arrives)?;
            left -= arrives.len();
        }
        file.sync_all()
    }

    /// The rest of a sync or a recovery: the table, and only then the log is emptied.
    fn finish(&self, pages: &Pages) -> io::Result<()> {
        self.write_out(pages.iter().map(|(number, page)| (*number, &page[..])), None)?;
        self.put_log(&[])
    }

    /// What a service does when it starts: the log is replayed onto the table in memory, and the pages that it
    /// names are what is to be written.
    fn recover(&self) -> Outcome<Recovery> {
        let number = u32::from_le_bytes(fs::read(self.path("number"))?.as_slice().try_into()?);
        let (log, mut image) = (self.log()?, self.table()?);
        let hashes = hashes_of(&log);
        let answer = replay(&mut image, BUCKETS, &log, number, &self.seed()?, &hashes)?;
        let numbers = if answer == Replayed::Applied { named(&log)? } else { vec![] };
        let pages = numbers.into_iter().map(|i| (i, image[PAGE * i as usize..][..PAGE].to_vec())).collect();
        Ok(Recovery { answer, hashes: hashes.len(), pages })
    }
}

/// The pages that a log names: those of its updates, and the tag page of every bucket in it.
fn named(log: &[u8]) -> Outcome<Vec<u64>> {
    let mut numbers = vec![];
    for entry in Reader::new(log)?.entries() {
        let entry = entry?;
        if let EntryRef::Update(update) = entry {
            numbers.push(page_number(BUCKETS, update.bucket)?);
        }
        numbers.extend(entry.bucket().map(tag_page));
    }
    Ok(numbers)
}

/// A cell for each edit: the bucket of a page that is there, unset for a new one.
fn cells_for(image: &[u8], edits: &[Edit]) -> Outcome<Vec<u64>> {
    let bucket = |e: &Edit| Ok(lookup(image, BUCKETS, hash_of(&e.id), &e.id)?.bucket().unwrap_or(UNSET));
    edits.iter().map(bucket).collect()
}

/// Bytes that are enough for the log of so many edits: the start, each an update of all slots, and the end.
fn log_room(edits: usize) -> usize {
    (22 + edits * (66 + NODE * SLOTS) + 2).next_multiple_of(PAGE)
}

/// What a sync has to write into the table: the pages of its updates, and the tag pages that it marked.
fn to_write(edits: &[Edit], cells: &[u64], tags: &[u8], marks: &[u8]) -> Outcome<Pages> {
    let mut pages = Pages::new();
    for (edit, bucket) in edits.iter().zip(cells).filter(|(e, _)| !e.diff.cleared()) {
        pages.insert(page_number(BUCKETS, *bucket)?, edit.page.clone());
    }
    let marked = tags.chunks(PAGE).enumerate().filter(|(i, _)| marks[*i] == 1);
    pages.extend(marked.map(|(i, page)| (i as u64, page.to_vec())));
    Ok(pages)
}

/// One hash for each update of a log. What cannot be read is left to the replay, which says why.
fn hashes_of(log: &[u8]) -> Vec<u64> {
    let entries = Reader::new(log).into_iter().flat_map(Reader::entries).map_while(Result::ok);
    let hash = |entry| match entry {
        EntryRef::Update(update) => Some(hash_of(update.id)),
        _ => None,
    };
    entries.filter_map(hash).collect()
}

/// An error unless something holds.
fn check(holds: bool, what: impl FnOnce() -> String) -> Outcome<()> {
    if holds {
        Ok(())
    } else {
        Err(what().into())
    }
}

/// The log has exactly the edits, in their order.
fn check_log(log: &[u8], edits: &[Edit]) -> Outcome<()> {
    let entries = Reader::new(log)?.collect::<Result<Vec<Entry>, _>>()?;
    check(entries.len() == edits.len(), || format!("{} entries for {} edits", entries.len(), edits.len()))?;
    for (i, (entry, edit)) in entries.iter().zip(edits).enumerate() {
        let same = match entry {
            Entry::Update(u) => {
                let nodes = edit.diff.pack_changed_nodes(&edit.page)?;
                (u.id, u.diff, u.nodes, &u.elided[..]) == (edit.id, edit.diff, nodes, &edit.page[ELIDED..ID])
            }
            _ => edit.diff.cleared(),
        };
        check(same, || format!("entry {i} of the log is not the edit that was synced"))?;
    }
    Ok(())
}

/// The lines of a log: offset, kind and fields of each record. What follows its end is not looked at.
fn read_off(log: &[u8]) -> Outcome<Vec<String>> {
    let mut reader = Reader::new(log)?.tolerant();
    let mut lines = vec![format!("0 start {}", reader.sync_seqn())];
    loop {
        let at = reader.position();
        match reader.read_entry()? {
            Entry::Clear { bucket } => lines.push(format!("{at} clear {bucket}")),
            Entry::Update(u) => lines.push(format!("{at} update {} {}", u.bucket, u.diff.count())),
            Entry::End => break,
        }
    }
    lines.push(format!("{} end", reader.position()));
    Ok(lines)
}

/// The log of a store as the program reads it off, which must be as the crate's reader does.
fn listed(store: &Store, program: &Path) -> Outcome<()> {
    let output = Command::new(program).stdin(File::open(store.path("log"))?).output()?;
    let printed = String::from_utf8(output.stdout)?;
    let lines = read_off(&store.log()?)?;
    check(output.status.success() && printed.lines().eq(lines), || {
        format!("{} does not read off the log as the reader does", program.display())
    })
}

/// The page in a bucket of an image.
fn page_in(image: &[u8], bucket: u64) -> Outcome<&[u8]> {
    Ok(&image[PAGE * page_number(BUCKETS, bucket)? as usize..][..PAGE])
}

/// How many of the edited questions are not in an image as the show wrote them.
fn lost(image: &[u8], show: &Show, edits: &[Edit]) -> Outcome<usize> {
    let mut lost = 0;
    for Edit { id, .. } in edits {
        let found = lookup(image, BUCKETS, hash_of(id), id)?.bucket();
        let same = found.map(|bucket| page_in(image, bucket)).transpose()? == show.pages.get(id).map(|page| &page[..]);
        lost += usize::from(!same);
    }
    Ok(lost)
}

/// Every page of the show is found with its bytes, and none that was cleared.
fn check_pages(image: &[u8], show: &Show) -> Outcome<()> {
    let name = |id: &PageId| String::from_utf8_lossy(id).trim_end_matches('\0').to_string();
    for (id, page) in &show.pages {
        let Found::At(bucket) = lookup(image, BUCKETS, hash_of(id), id)? else {
            return Err(format!("{} is not found", name(id)).into());
        };
        check(page_in(image, bucket)? == page, || format!("{} has other bytes than were written", name(id)))?;
    }
    for id in &show.cleared {
        let found = lookup(image, BUCKETS, hash_of(id), id)?;
        check(found.bucket().is_none(), || format!("{} was cleared and is found", name(id)))?;
    }
    Ok(())
}

/// The audit, with the hash of every bucket's page, passes a table of so many pages.
fn audited(image: &[u8], stored: usize) -> Outcome<String> {
    let data = image.chunks(PAGE).skip(tag_pages(BUCKETS)? as usize);
    let hashes: Vec<u64> = data.map(|page| hash_of(&id_of(page))).collect();
    let passed = audit(image, BUCKETS, &hashes)?;
    check(passed.occupied == stored as u64, || format!("{} full for {stored} pages", passed.occupied))?;
    Ok(format!("{} of {} buckets full, rate {:.3}", passed.occupied, passed.capacity, passed.rate))
}

/// A folder that goes when the round is over.
struct Folder(PathBuf);

impl Folder {
    fn new(seed: u64) -> io::Result<Folder> {
        let folder = env::temp_dir().join(format!("show-{}-{seed}", process::id()));
        fs::create_dir(&folder)?;
        Ok(Folder(folder))
    }
}

impl Drop for Folder {
    fn drop(&mut self) {
        // What is left over in a temporary folder does no harm.
        let _ = fs::remove_dir_all(&self.0);
    }
}

/// One round: what chance picks, whether it is told, and the program that reads off logs.
struct Round<'a> {
    chance: Chance,
    aloud: bool,
    list: Option<&'a Path>,
}

impl Round<'_> {
    fn say(&self, line: impl AsRef<str>) {
        if self.aloud {
            println!("{}", line.as_ref());
        }
    }

    /// Writes pages in any order until power is cut; how many bytes of the table are then not as they should be.
    fn cut(&mut self, store: &Store, pages: &Pages, of: &str, wanted: &[u8]) -> Outcome<usize> {
        let mut pages: Vec<(u64, &[u8])> = pages.iter().map(|(number, page)| (*number, &page[..])).collect();
        self.chance.shuffle(&mut pages);
        let bytes = PAGE * pages.len();
        let cut = self.chance.below(bytes.max(1));
        store.write_out(pages.into_iter(), Some(cut))?;
        let wrong = store.table()?.iter().zip(wanted).filter(|(is, should)| is != should).count();
        self.say(format!("POWER CUT at byte {cut} of {bytes} of {of}: {wrong} bytes of the table are wrong"));
        Ok(wrong)
    }

    /// Starts the service on what the power cut left.
    fn start(&self, store: &Store) -> Outcome<Pages> {
        let recovery = store.recover()?;
        check(recovery.answer == Replayed::Applied, || format!("the log of the sync is {:?}", recovery.answer))?;
        self.say(format!("started again: {} hashes computed for the log's updates, log replayed", recovery.hashes));
        Ok(recovery.pages)
    }

    fn tell_log(&self, store: &Store) -> Outcome<()> {
        if let Some(program) = self.list {
            listed(store, program)?;
        }
        let lines = read_off(&store.log()?)?;
        let by = if self.list.is_some() { "the program list" } else { "the crate's reader" };
        self.say(format!("the log of sync {TONIGHT}, read off by {by}:"));
        lines.iter().take(5).for_each(|line| self.say(format!("    {line}")));
        self.say(format!("    ... and {} more lines", lines.len().saturating_sub(5)));
        Ok(())
    }

    /// The table after all is over, against the show, the audit and the undisturbed table.
    fn check_end(&self, store: &Store, show: &Show, wanted: &[u8]) -> Outcome<()> {
        let image = store.table()?;
        self.say(format!("the audit passes: {}", audited(&image, show.pages.len())?));
        check_pages(&image, show)?;
        let (found, gone) = (show.pages.len(), show.cleared.len());
        self.say(format!(
            "{found} questions looked up: every byte is as the show wrote it; {gone} cleared ones are gone"
        ));
        check(image[..] == *wanted, || "the table is not that of a store whose power was never cut".into())?;
        self.say(format!("all {} bytes of the table are those of a store whose power was never cut", image.len()));
        let recovery = store.recover()?;
        check(recovery.answer == Replayed::Nothing, || format!("an empty log is {:?}", recovery.answer))?;
        self.say("started again: the log is empty, nothing to do");
        Ok(())
    }

    /// The accident: a rehearsal on a copy of the folder is at the recording's sync number, and its log comes to lie
    /// beside the recording's table. In edition one it is stale by another number, and by the same number it is
    /// taken; in edition two it is refused.
    fn accident(&mut self, folder: &Path, store: &Store, show: &mut Show) -> Outcome<()> {
        let rehearsal = store.copied(folder, "rehearsal", self.chance.seed())?;
        let rehearsed = show.clone().change_some(REHEARSED, &mut self.chance)?;
        let recorded = show.change_some(CHANGED, &mut self.chance)?;
        let (_, pages) = store.prepare(store.start(TOMORROW)?, &recorded)?;
        store.finish(&pages)?;
        let (table, named) = (store.table()?.to_vec(), rehearsal.start(TOMORROW)?);
        self.say(format!(
            "the folder is copied for a rehearsal, which gets a seed of its own; both come to sync {TOMORROW}"
        ));
        let beside = |start: Start| {
            rehearsal.prepare(start, &rehearsed)?;
            fs::copy(rehearsal.path("log"), store.path("log"))?;
            store.recover()
        };

        let other = beside(Start::one(SOME_DAY))?;
        check(other.answer == Replayed::Stale && other.pages.is_empty(), || {
            format!("a rehearsal's log of another number is {:?}", other.answer)
        })?;
        self.say("THE ACCIDENT: the rehearsal's log comes to lie beside the recording's table");
        self.say(format!("    edition one, of sync {SOME_DAY}: stale, nothing is done"));

        let taken = beside(Start::one(TOMORROW))?;
        check(taken.answer == Replayed::Applied, || format!("one of the same number is {:?}", taken.answer))?;
        let mut image = store.table()?;
        for (number, page) in &taken.pages {
            image[PAGE * *number as usize..][..PAGE].copy_from_slice(page);
        }
        let lost = lost(&image, show, &rehearsed)?;
        check(lost == rehearsed.len(), || format!("{lost} of {REHEARSED} questions are the rehearsal's"))?;
        let audit = audited(&image, show.pages.len())?;
        self.say(format!(
            "    edition one, of sync {TOMORROW}: BEWARE, it is TAKEN, for nothing in it says whose it is;"
        ));
        self.say(format!("        {lost} questions would be the rehearsal's, and the audit passes: {audit}"));

        let refused = beside(named).err().ok_or("the log of another store is taken")?;
        check(refused.downcast_ref() == Some(&Refusal::OtherStore), || format!("it is refused otherwise: {refused}"))?;
        check(store.table()?[..] == table, || "a rehearsal's log has reached the table".into())?;
        self.say(format!("    edition two, of sync {TOMORROW}, as this store writes it: refused."));
        self.say(format!("        {refused}"));
        self.say(format!("        all {} bytes of the table are as before", table.len()));
        // The log that belongs here was empty: all had been written out.
        store.put_log(&[])?;
        check_pages(&table, show)
    }

    /// Another accident: the log of a sync is written over a longer one in the same file, and that one's entries stand
    /// after its end. It is refused. The file cut to the length that the sync answered is the log.
    fn written_over(&mut self, store: &Store, show: &mut Show, longer: &[u8]) -> Outcome<()> {
        let edits = show.change_some(1, &mut self.chance)?;
        let (Synced { length, .. }, _) = store.prepare(store.start(FINALE)?, &edits)?;
        let (table, log) = (store.table()?.to_vec(), store.log()?);
        check(length < longer.len(), || "the opening's log is not longer".into())?;
        store.put_log(&[&log[..], &longer[length..]].concat())?;
        let refused = store.recover().err().ok_or("a log with entries after its end is taken")?;
        check(refused.downcast_ref() == Some(&Refusal::AfterEndUsed), || {
            format!("it is refused otherwise: {refused}")
        })?;
        check(store.table()?[..] == table, || "a log with entries after its end has reached the table".into())?;
        self.say(format!(
            "ANOTHER ACCIDENT: the log of sync {FINALE} is written over sync {OPENED}'s longer one: refused."
        ));
        self.say(format!("    {refused}"));

        store.put_log(&log)?;
        let recovery = store.recover()?;
        check(recovery.answer == Replayed::Applied, || format!("the log alone is {:?}", recovery.answer))?;
        store.finish(&recovery.pages)?;
        self.say(format!("    the file cut to the {length} bytes that the sync answered: log replayed"));
        check_pages(&store.table()?, show)
    }

    /// The whole story; how many bytes the two power cuts had left wrong.
    fn run(&mut self, folder: &Path) -> Outcome<usize> {
        let store = Store::create(folder, "show", self.chance.seed())?;
        let undisturbed = Store::create(folder, "undisturbed", self.chance.seed())?;
        let mut show = Show::default();

        let opening = show.opening(&mut self.chance)?;
        let evening = show.evening(&mut self.chance)?;
        for (number, edits) in [(OPENED, &opening), (TONIGHT, &evening)] {
            let (_, pages) = undisturbed.prepare(undisturbed.start(number)?, edits)?;
            undisturbed.finish(&pages)?;
        }
        let wanted = undisturbed.table()?;

        let (synced, pages) = store.prepare(store.start(OPENED)?, &opening)?;
        let longest = store.log()?;
        store.finish(&pages)?;
        self.say(format!("sync {OPENED}: {OPENING} questions, a log of {} bytes; all written out", synced.length));
        let (synced, pages) = store.prepare(store.start(TONIGHT)?, &evening)?;
        check_log(&store.log()?, &evening)?;
        let Synced { occupied, length } = synced;
        self.say(format!("sync {TONIGHT}: {CHANGED} changed, {ADDED} new, {CLEARED} cleared; {occupied} buckets full"));
        self.say(format!("its log of {length} bytes is on disk and reads back as these {} edits", evening.len()));
        self.tell_log(&store)?;

        let first = self.cut(&store, &pages, "the table's write-out", &wanted)?;
        let pages = self.start(&store)?;
        let second = self.cut(&store, &pages, "the recovery's write-out", &wanted)?;
        let pages = self.start(&store)?;
        store.finish(&pages)?;
        self.check_end(&store, &show, &wanted)?;
        self.accident(folder, &store, &mut show)?;
        self.written_over(&store, &mut show, &longest)?;
        Ok(first + second)
    }
}

/// What the command line asks for.
struct Asked {
    seed: u64,
    rounds: u64,
    list: Option<PathBuf>,
}

fn asked(mut words: impl Iterator<Item = String>) -> Outcome<Asked> {
    let now = SystemTime::now().duration_since(UNIX_EPOCH)?;
    let mut asked = Asked { seed: u64::from(now.subsec_nanos()), rounds: 1, list: None };
    while let Some(word) = words.next() {
        let value = words.next().ok_or_else(|| format!("{word} wants a value"))?;
        let number = || value.parse().map_err(|why| format!("{word} {value}: {why}"));
        match word.as_str() {
            "--seed" => asked.seed = number()?,
            "--rounds" => asked.rounds = number()?,
            "--list" => asked.list = Some(value.into()),
            _ => return Err(format!("{word} is none of --seed, --rounds, --list").into()),
        }
    }
    check(asked.rounds > 0, || "--rounds 0 would show nothing: it wants 1 or more".into())?;
    Ok(asked)
}

fn one_round(seed: u64, aloud: bool, list: Option<&Path>) -> Outcome<usize> {
    let folder = Folder::new(seed)?;
    Round { chance: Chance(seed), aloud, list }.run(&folder.0)
}

fn show() -> Outcome<()> {
    let Asked { seed, rounds, list } = asked(env::args().skip(1))?;
    println!("a quiz show's store: a table of {BUCKETS} buckets; chance from seed {seed}");
    let mut wrong = 0;
    for round in 0..rounds {
        let seed = seed.wrapping_add(round);
        wrong += one_round(seed, rounds == 1, list.as_deref()).map_err(|why| format!("with seed {seed}: {why}"))?;
    }
    // One cut may come too early or too late to do harm, but not all of many.
    check(rounds == 1 || wrong > 0, || "no power cut did harm, so nothing was shown".into())?;
    println!("the show goes on: {} power cuts left {wrong} bytes wrong, and not one is wrong now", 2 * rounds);
    Ok(())
}

fn main() -> ExitCode {
    match show() {
        Ok(()) => ExitCode::SUCCESS,
        Err(why) => {
            eprintln!("the show stops: {why}");
            ExitCode::FAILURE
        }
    }
}
