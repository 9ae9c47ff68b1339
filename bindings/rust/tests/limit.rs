//! A recovery of a table of as many buckets as there can be, 4.3 GB in a sparse file: by docs/GUIDE.md's way it reads
//! and writes the pages that the log names, and no others.

mod common;
#[path = "../examples/mapped/mod.rs"]
mod mapped;
use bitbox::*;
use common::*;
use mapped::Mapped;
use std::{
    fs::{self, File, OpenOptions},
    os::unix::fs::{FileExt, MetadataExt},
};

const UPDATES: u64 = 500;

/// The most memory that this process has had at once, in bytes.
fn most_memory() -> u64 {
    let status = fs::read_to_string("/proc/self/status").expect("Linux");
    let line = status.lines().find_map(|l| l.strip_prefix("VmHWM:")).expect("the line VmHWM");
    1024 * line.trim().trim_end_matches(" kB").parse::<u64>().expect("a number")
}

/// A log of sync 7: so many new pages, spread over the table, each with one slot.
fn log() -> (Vec<u8>, Vec<u64>) {
    let mut tags = vec![0; tags_of(MOST_BUCKETS)];
    let (mut marks, mut log) = (vec![0; tags.len() / PAGE], vec![0; 30 * PAGE]);
    let hashes: Vec<u64> = (0..UPDATES).map(|k| k * (MOST_BUCKETS as u64 / UPDATES)).collect();
    let change = |h: &u64| Change::new(id(*h as u8), *h, diff(&[5]), Where::Fresh);
    let changes: Vec<Change> = hashes.iter().map(change).collect();
    let pages: Vec<u8> = changes.iter().flat_map(|c| page(1, c.id())).collect();
    let mut lent = Lent { n: MOST_BUCKETS, tags: &mut tags, marks: &mut marks, cells: &mut [], log: &mut log };
    let synced = sync(&mut lent, &mut Writer::Fresh, Start::two(7, SEED), &changes, &pages).expect("new pages");
    log.truncate(synced.length);
    (log, hashes)
}

#[test]
fn a_recovery_takes_the_named_pages_alone() {
    let (log, hashes) = log();
    let name = std::env::temp_dir().join(format!("limit-{}", std::process::id()));
    File::create(&name).and_then(|f| f.set_len(table_length(MOST_BUCKETS).expect("a count"))).expect("a sparse file");
    let before = most_memory();

    let mut image = Mapped::new(&File::open(&name).expect("the table")).expect("a mapping");
    assert_eq!(replay(&mut image, MOST_BUCKETS, &log, 7, &SEED, &hashes), Ok(Replayed::Applied));
    let mut out = std::collections::BTreeMap::new();
    for entry in Reader::new(&log).expect("a log").entries() {
        let bucket = entry.expect("an entry").bucket().expect("a bucket");
        for number in [tag_page(bucket), page_number(MOST_BUCKETS, bucket).expect("a bucket")] {
            out.insert(number, image[PAGE * number as usize..][..PAGE].to_vec());
        }
    }
    drop(image);
    let file = OpenOptions::new().read(true).write(true).open(&name).expect("the table");
    for (number, page) in &out {
        file.write_all_at(page, PAGE as u64 * number).expect("a page");
    }

    // 500 pages and the 250 or so tag pages that have their tags.
    let (memory, disk) = (most_memory() - before, 512 * file.metadata().expect("the table").blocks());
    println!("{} pages written, {memory} bytes of memory more, {disk} bytes of the file used", out.len());
    let image = Mapped::new(&file).expect("a mapping");
    assert_eq!(full_count(&image[..tags_of(MOST_BUCKETS)], MOST_BUCKETS), Ok(UPDATES));
    for h in &hashes {
        assert_eq!(lookup(&image, MOST_BUCKETS, *h, &id(*h as u8)), Ok(Found::At(*h)));
    }
    drop(image);
    fs::remove_file(name).expect("the table");
    assert!(memory < 32 << 20, "{memory} bytes of memory for a log of {} bytes", log.len());
    assert!(disk < 32 << 20, "{disk} bytes of the file are used for {} pages", out.len());
}
