//! Reading off a log: "The program `list` reads a log of at most 65,536 bytes on standard input
//! (longer: `0 refused 2`; none: `empty`). Each line is byte offset of the record, kind, fields."
//! A log of edition two has the same lines; the offset is that of its mark's first byte. "`list` moves to the tolerant
//! reader" (W-208): what follows end is not looked at.

use crate::{
    after_end::AfterEnd,
    edition::Edition,
    reader::{self, Entry},
    Refused,
};
use std::fmt::Write;

pub const MOST: usize = 65_536;

pub fn list(log: &[u8]) -> String {
    if log.is_empty() {
        return "empty\n".to_string();
    }
    if log.len() > MOST {
        return "0 refused 2\n".to_string();
    }
    let mut lines = String::new();
    match reader::set(log) {
        Ok(start) => writeln!(lines, "0 start {}", start.sync).unwrap(),
        Err(Refused(number)) => return format!("0 refused {number}\n"),
    }
    let edition = Edition::of(log);
    let mut at = edition.first();
    loop {
        match reader::next(log, edition, at, AfterEnd::Tolerant) {
            Ok((Entry::Clear { bucket }, next)) => {
                writeln!(lines, "{at} clear {bucket}").unwrap();
                at = next;
            }
            Ok((Entry::Update { bucket, diff, .. }, next)) => {
                writeln!(lines, "{at} update {bucket} {}", diff.count()).unwrap();
                at = next;
            }
            Ok((Entry::End, _)) => {
                writeln!(lines, "{at} end").unwrap();
                return lines;
            }
            Err(Refused(number)) => {
                writeln!(lines, "{at} refused {number}").unwrap();
                return lines;
            }
        }
    }
}
