//! docs/PROMISES.md: each definition, theorem and function that it names stands where it says.

use std::{
    fs,
    path::{Path, PathBuf},
};

const PROMISES: &str = include_str!("../../../docs/PROMISES.md");

/// What stands between backquotes in the tables.
fn named() -> Vec<&'static str> {
    let rows = PROMISES.lines().filter(|l| l.starts_with('|'));
    rows.flat_map(|row| row.split('`').skip(1).step_by(2)).collect()
}

fn crate_folder(name: &str) -> PathBuf {
    Path::new(env!("CARGO_MANIFEST_DIR")).join("../../crates").join(name)
}

/// Whether a file declares a name: a line has it before its type, after words such as `pub` and `data`; or as
/// one of several.
fn declares(file: &Path, name: &str) -> bool {
    let text = fs::read_to_string(file).unwrap_or_default();
    let declared = |line: &str| {
        let mut words = line.split_whitespace();
        words.by_ref().any(|word| word == "pub") && words.take(2).any(|word| word == name)
    };
    text.lines().any(declared)
}

/// `crate/File.name`: in specs/ or in proofs/.
fn stands(written: &str) -> Option<bool> {
    let (of, rest) = written.split_once('/')?;
    let (file, name) = rest.split_once('.')?;
    let there = |part: &str| declares(&crate_folder(of).join(part).join(format!("{file}.antt")), name);
    Some(there("specs") || there("proofs"))
}

/// `crate::function`: public in src/lib.rt, with a promise.
fn promised(written: &str) -> Option<bool> {
    let (of, name) = written.split_once("::")?;
    let text = fs::read_to_string(crate_folder(of).join("src/lib.rt")).unwrap_or_default();
    let starts = [format!("pub fn {name}("), format!("pub fn {name}<"), format!("pub extern \"C\" fn {name}(")];
    let from = starts.iter().find_map(|start| text.find(start.as_str()));
    Some(from.is_some_and(|at| text[at..].lines().take_while(|l| *l != "{").any(|l| l.contains("ensures"))))
}

#[test]
fn every_name_stands_where_it_says() {
    let mut checked = 0;
    for written in named() {
        if let Some(there) = stands(written).or(promised(written)) {
            assert!(there, "{written} is named in docs/PROMISES.md and does not stand there");
            checked += 1;
        }
    }
    assert!(checked > 50, "only {checked} names were found");
}

#[test]
fn a_name_that_does_not_exist_is_noticed() {
    for written in ["recover/Demand3.same-ends", "recover/Demand4.same-end", "recovers/Demand3.same-end"] {
        assert_eq!(stands(written), Some(false), "{written}");
    }
    for written in ["recover::recovers", "recovers::recover", "bitbox::refusal_number"] {
        assert_eq!(promised(written), Some(false), "{written}");
    }
}

#[test]
fn no_public_function_asks_anything_of_its_caller() {
    let mut seen = 0;
    for of in fs::read_dir(crate_folder("")).expect("the crates") {
        let text = fs::read_to_string(of.expect("a crate").path().join("src/lib.rt")).unwrap_or_default();
        let public = ["\npub fn ", "\npub extern \"C\" fn ", "\n    pub fn "];
        for function in public.into_iter().flat_map(|start| text.split(start).skip(1)) {
            let head: Vec<&str> = function.lines().take_while(|l| l.trim() != "{").collect();
            assert!(!head.iter().any(|l| l.trim_start().starts_with("requires ")), "{} has a requires", head[0]);
            seen += 1;
        }
    }
    assert!(seen > 100, "only {seen} public functions were found");
}
