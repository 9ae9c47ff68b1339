//! The whole round, from several threads on separate tables: syncs, stops, replays, lookups, growth,
//! audits.

mod common;
use bitbox::*;
use common::*;

/// The hash of a page by its number; some share their bucket.
fn hash_of(k: u64) -> u64 {
    ((k % 5) << 57) | ((k * k + 7) % 50)
}

/// A table of its own, through some rounds; what it holds at the end.
fn rounds(thread: u8) -> (Vec<u8>, u64) {
    let mut n = 64;
    let mut image = image(n);
    let mut ids: Vec<(PageId, u64)> = vec![];
    for round in 0..6u32 {
        // Four new pages, and one of the former changed.
        let mut changes = vec![];
        for k in 0..4u64 {
            let k = u64::from(round) * 4 + k;
            let mut id = id(k as u8);
            id[1] = thread;
            changes.push(Change::new(id, hash_of(k), diff(&[k as usize, 99]), Where::Fresh));
            ids.push((id, hash_of(k)));
        }
        let (first, hash) = ids[0];
        if let Found::At(bucket) = lookup(&image, n, hash, &first).expect("an image") {
            changes.push(Change::new(first, hash, diff(&[round as usize]), Where::Known(bucket)));
        }
        let pages: Vec<u8> = changes.iter().flat_map(|c| page(thread ^ c.hash() as u8, c.id())).collect();

        let mut tags = image[..tags_of(n)].to_vec();
        let (mut marks, mut log) = (vec![0; tag_pages(n).expect("a count") as usize], vec![0; 8 * PAGE]);
        let mut writer = Writer::Fresh;
        let mut lent = Lent { n, tags: &mut tags, marks: &mut marks, cells: &mut [], log: &mut log };
        let edition = EDITIONS[round as usize % 2];
        let synced = sync(&mut lent, &mut writer, start(edition, round), &changes, &pages).expect("a sync");
        assert_eq!(synced.occupied, ids.len() as u64);

        let log = &log[..synced.length];
        let hashes: Vec<u64> = changes.iter().map(Change::hash).collect();
        // Power fails after one entry; then the replay.
        replay_step(&mut image, n, log, edition, first_entry(log), hashes[0]).expect("a step");
        assert_eq!(replay(&mut image, n, log, round, &SEED, &hashes), Ok(Replayed::Applied));
        assert!(image[..tags.len()] == tags, "the tags are those of the sync");

        for (id, hash) in &ids {
            assert!(lookup(&image, n, *hash, id).expect("an image").bucket().is_some());
        }
        let of_bucket = |image: &[u8], n: usize| -> Vec<u64> {
            let first = tag_pages(n).expect("a count") as usize;
            let known = |page: &[u8]| ids.iter().find(|(id, _)| page[4064..] == id[..]).map_or(0, |(_, hash)| *hash);
            image.chunks(PAGE).skip(first).map(known).collect()
        };
        let passed = audit(&image, n, &of_bucket(&image, n)).expect("an orderly table");
        assert_eq!(
            passed,
            Audit { capacity: n as u64, occupied: synced.occupied, rate: synced.occupied as f64 / n as f64 }
        );
        if round % 2 == 1 {
            let hashes = of_bucket(&image, n);
            let mut larger = common::image(2 * n);
            assert_eq!(grow(&image, n, &mut larger, 2 * n, &hashes), Ok(Grown::Done));
            (image, n) = (larger, 2 * n);
        }
    }
    let full = full_count(&image[..tags_of(n)], n).expect("tags");
    (image, full)
}

#[test]
fn threads_on_tables_of_their_own() {
    let alone: Vec<_> = (0..4).map(rounds).collect();
    let together: Vec<_> = std::thread::scope(|s| {
        let threads: Vec<_> = (0..8).map(|t| s.spawn(move || rounds(t % 4))).collect();
        threads.into_iter().map(|t| t.join().expect("a thread ends well")).collect()
    });
    for (i, (image, full)) in together.iter().enumerate() {
        assert_eq!(*full, 24);
        assert!(*image == alone[i % 4].0, "thread {i}: as it is alone");
    }
}

/// As docs/GUIDE.md says of a thread's stack. The audit's frame alone is half of it.
#[test]
fn half_a_mebibyte_of_stack_is_enough() {
    let small = std::thread::Builder::new().stack_size(512 * 1024).spawn(|| rounds(0)).expect("a thread");
    let (image, full) = small.join().expect("a thread ends well");
    assert_eq!(full, 24);
    assert!(image == rounds(0).0, "as with a large stack");
}
