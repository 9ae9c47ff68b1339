//! Path: "visit k, from 0, is at (hash + k(k+1)/2) mod n. It repeats after 2n visits. A visit is a hit
//! if the tag there is the hash's full tag."

use crate::{
    places::{image_fits, page_of, tags_fit, tags_of, ID_AT},
    tags::{full_tag, kind, Kind, EMPTY},
    Answer, Refused,
};

pub fn visit(n: u64, hash: u64, k: u64) -> u64 {
    let k = k as u128;
    ((hash as u128 + k * (k + 1) / 2) % n as u128) as u64
}

#[derive(Clone, Copy, Debug, PartialEq, Eq)]
pub enum Probed {
    Empty { bucket: u64, visit: u64 },
    Tombstone { bucket: u64, visit: u64 },
    Hit { bucket: u64, visit: u64 },
    Closed,
}

/// "Probing on from visit k, taken mod 2n, gives the first empty, tombstone or hit among the 2n visits
/// from there, else closed."
pub fn probe(tags: &[u8], n: u64, hash: u64, k: u64) -> Answer<Probed> {
    tags_fit(tags, n)?;
    let start = k % (2 * n);
    for visit in start..start + 2 * n {
        let bucket = self::visit(n, hash, visit);
        let tag = tags[bucket as usize];
        match kind(tag) {
            Kind::Empty => return Ok(Probed::Empty { bucket, visit }),
            Kind::Tombstone => return Ok(Probed::Tombstone { bucket, visit }),
            _ if tag == full_tag(hash) => return Ok(Probed::Hit { bucket, visit }),
            _ => {}
        }
    }
    Ok(Probed::Closed)
}

#[derive(Clone, Copy, Debug, PartialEq, Eq)]
pub enum Found {
    Bucket(u64),
    Absent,
    Closed,
}

/// "Lookup answers the bucket of the first hit whose page ends in the id, if no empty visit precedes
/// it; absent at an empty visit; closed if 2n visits give neither."
pub fn lookup(image: &[u8], n: u64, hash: u64, id: &[u8; 32]) -> Answer<Found> {
    image_fits(image, n)?;
    let tags = tags_of(image, n);
    for k in 0..2 * n {
        let bucket = visit(n, hash, k);
        let tag = tags[bucket as usize];
        if tag == EMPTY {
            return Ok(Found::Absent);
        }
        if tag == full_tag(hash) && page_of(image, n, bucket)[ID_AT..] == id[..] {
            return Ok(Found::Bucket(bucket));
        }
    }
    Ok(Found::Closed)
}

pub const MOST_HITS: u64 = 9_998;

/// "Allocation takes the first visit that is empty or a tombstone, if at most 9,998 hits come before
/// it, and writes the full tag. Otherwise 10 if the path has a hit, 11 if it has none."
pub fn allocate(tags: &mut [u8], n: u64, hash: u64) -> Answer<u64> {
    tags_fit(tags, n)?;
    let bucket = find(tags, n, hash)?;
    tags[bucket as usize] = full_tag(hash);
    Ok(bucket)
}

/// The bucket that allocation takes in tags that fit.
pub fn find(tags: &[u8], n: u64, hash: u64) -> Answer<u64> {
    let mut hits = 0;
    for k in 0..2 * n {
        let bucket = visit(n, hash, k);
        let tag = tags[bucket as usize];
        match kind(tag) {
            Kind::Empty | Kind::Tombstone if hits <= MOST_HITS => return Ok(bucket),
            Kind::Empty | Kind::Tombstone => return Err(Refused(10)),
            _ if tag == full_tag(hash) => hits += 1,
            _ => {}
        }
    }
    Err(Refused(if hits > 0 { 10 } else { 11 }))
}
