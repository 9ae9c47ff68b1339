//! The refusals: as the library's own sources, docs/ANSWERS.md and docs/GUIDE.md have them.

use bitbox::Refusal;
use std::error::Error;

#[test]
fn numbers_are_1_to_24_then_26_and_27() {
    assert!(Refusal::all().map(Refusal::number).eq((1..=24).chain([26, 27])));
    for refusal in Refusal::all() {
        assert_eq!(Refusal::from_number(refusal.number()), Some(refusal));
    }
    for none in [0, 25, 28, 255] {
        assert_eq!(Refusal::from_number(none), None);
    }
}

#[test]
fn names_and_numbers_are_the_library_s() {
    let source = include_str!("../../../crates/answers/src/lib.rt");
    let lines: Vec<&str> = source.lines().map(str::trim).filter(|l| l.starts_with("Refusal::")).collect();
    let ours: Vec<String> = Refusal::all().map(|r| format!("Refusal::{} => {},", r.name(), r.number())).collect();
    assert_eq!(lines, ours);
}

#[test]
fn sentences_are_the_document_s() {
    let document = include_str!("../../../docs/ANSWERS.md");
    for r in Refusal::all() {
        let row = format!("| {} | `{}` | {} |", r.number(), r.name(), r.explanation());
        assert!(document.lines().any(|l| l == row), "docs/ANSWERS.md has no row {row}");
    }
}

#[test]
fn the_guide_has_a_row_for_each() {
    let guide = include_str!("../../../docs/GUIDE.md");
    for r in Refusal::all() {
        let start = format!("| {} | `{}` | ", r.number(), r.name());
        let rows: Vec<&str> = guide.lines().filter_map(|l| l.strip_prefix(start.as_str())).collect();
        assert_eq!(rows.len(), 1, "rows in docs/GUIDE.md for {r:?}");
        // When it is given, and what to do about it.
        let said: Vec<&str> = rows[0].split('|').map(str::trim).filter(|s| !s.is_empty()).collect();
        assert_eq!(said.len(), 2, "docs/GUIDE.md on {r:?}: {said:?}");
    }
}

#[test]
fn a_refusal_is_an_error_that_says_why() {
    let why: Box<dyn Error + Send + Sync> = Refusal::NoRoom.into();
    assert_eq!(why.to_string(), "The log has no room for this record and its end. (refusal 13, NoRoom)");
    assert!(why.source().is_none());
    assert_eq!(format!("{:?}", Refusal::NoRoom), "NoRoom");
    let other = "The library gives a number that this crate has no name for. (refusal 25, Unknown)";
    assert_eq!(Refusal::Unknown(25).to_string(), other);
}
