// The boundary as two texts have it: the library's sources, or what bindings/exports cuts out of them, and this
// crate's. build.rs holds them against each other for the library that is linked, tests/boundary.rs for the sources.
use std::collections::BTreeMap;

/// Names with their types, in order.
pub type Fields = Vec<(String, String)>;

/// A function: its arguments, and the type of its answer.
pub type Function = (Fields, String);

/// What crosses the boundary, by name.
#[derive(Debug, PartialEq)]
pub struct Declared {
    pub functions: BTreeMap<String, Function>,
    pub structs: BTreeMap<String, Fields>,
}

/// What this crate declares.
pub fn ours() -> Declared {
    let ffi = include_str!("src/ffi.rs");
    let mut functions = BTreeMap::new();
    for text in ffi.split("pub(super) fn ").skip(1) {
        functions.insert(name_of(text), function(text, &[";\n"]));
    }
    let sources = [ffi, include_str!("src/diff.rs"), include_str!("src/change.rs")];
    Declared { functions, structs: sources.into_iter().flat_map(structs).collect() }
}

/// What the library's sources declare, as a caller sees it.
pub fn library(text: &str) -> Declared {
    let mut functions = BTreeMap::new();
    for text in text.split("pub extern \"C\" fn ").skip(1) {
        let (args, answer) = function(text, &["\n    ensures", "\n    requires", "\n{", "\n;"]);
        functions.insert(name_of(text), (args.iter().flat_map(lowered).collect(), answer));
    }
    Declared { functions, structs: structs(text) }
}

/// What is not the same in a library as here, one line for each name.
pub fn differences(library: &Declared, ours: &Declared) -> Vec<String> {
    fn differ<T: PartialEq>(theirs: &BTreeMap<String, T>, ours: &BTreeMap<String, T>) -> Vec<String> {
        let names = ours.keys().chain(theirs.keys().filter(|name| !ours.contains_key(*name)));
        names
            .filter_map(|name| match (theirs.get(name), ours.get(name)) {
                (None, _) => Some(format!("{name} is not in the library")),
                (_, None) => Some(format!("{name} is not in the crate")),
                (theirs, ours) => (theirs != ours).then(|| format!("{name} is declared otherwise in the library")),
            })
            .collect()
    }
    let mut all = differ(&library.structs, &ours.structs);
    all.extend(differ(&library.functions, &ours.functions));
    all
}

/// Why a library is not the one that this crate is written for, if it is not. `exports` is the file
/// libbitbox.exports that bindings/library has written beside it.
pub fn misfit(library_bytes: &[u8], exports: &str, version: &str) -> Option<String> {
    let sum = format!("libbitbox.a {} {}", cksum(library_bytes), library_bytes.len());
    if exports.lines().last() != Some(&sum) {
        return Some("libbitbox.exports was written for another libbitbox.a than the one beside it".into());
    }
    let theirs = exports.lines().next().and_then(|line| line.strip_prefix("bitbox ")).unwrap_or("unknown");
    if theirs != version {
        return Some(format!("the library is of version {theirs}, the crate of version {version}"));
    }
    let all = differences(&library(exports), &ours());
    (!all.is_empty()).then(|| format!("the library does not export what the crate calls: {}", all.join("; ")))
}

/// The sum that POSIX's cksum gives.
pub fn cksum(bytes: &[u8]) -> u32 {
    let mut length = bytes.len();
    let after = std::iter::from_fn(|| {
        let byte = length as u8;
        (length != 0).then(|| {
            length >>= 8;
            byte
        })
    });
    let shifted = |sum: u32| if sum >> 31 == 1 { sum << 1 ^ 0x04C1_1DB7 } else { sum << 1 };
    let taken = |sum: u32, byte: u8| (0..8).fold(sum ^ u32::from(byte) << 24, |sum, _| shifted(sum));
    !bytes.iter().copied().chain(after).fold(0, taken)
}

/// The text on one line, with single spaces.
pub fn flat(text: &str) -> String {
    text.split_whitespace().collect::<Vec<_>>().join(" ")
}

fn name_of(text: &str) -> String {
    text.split('(').next().unwrap_or_default().to_string()
}

/// `name: type` pairs, separated by commas outside brackets.
fn pairs(list: &str) -> Fields {
    let mut parts = vec![String::new()];
    let mut depth = 0;
    for c in list.chars() {
        match c {
            '[' | '(' => depth += 1,
            ']' | ')' => depth -= 1,
            _ => {}
        }
        if c == ',' && depth == 0 {
            parts.push(String::new());
        } else {
            parts.last_mut().unwrap().push(c);
        }
    }
    let pair = |p: &String| {
        let (name, ty) = p.split_once(':').unwrap_or_else(|| panic!("no type in '{p}'"));
        (name.trim().to_string(), plain(flat(ty)))
    };
    parts.iter().filter(|p| !p.trim().is_empty()).map(pair).collect()
}

/// A name of this crate that is another word for a type.
fn plain(ty: String) -> String {
    match ty.as_str() {
        "[Node; SLOTS]" => "[[u8; 32]; 126]".to_string(),
        "PageId" => "[u8; 32]".to_string(),
        _ => ty,
    }
}

/// `(args) -> answer` up to one of the ends.
fn function(text: &str, ends: &[&str]) -> Function {
    let end = ends.iter().filter_map(|e| text.find(e)).min().expect("a declaration ends");
    let text = flat(&text[..end]);
    let close = text.rfind(')').expect("a closing bracket");
    let args = pairs(text[..close].split_once('(').expect("an opening bracket").1);
    let answer = text[close + 1..].trim().strip_prefix("->").unwrap_or("()").trim().to_string();
    (args, answer)
}

/// What an argument of the library is for a caller: a slice is a pointer and then a length.
fn lowered((name, ty): &(String, String)) -> Fields {
    let slice = |prefix: &str| {
        ty.strip_prefix(prefix).and_then(|t| t.strip_suffix(']')).filter(|t| !t.contains(';')).map(str::to_string)
    };
    let (pointer, of) = match (slice("&mut ["), slice("&[")) {
        (Some(of), _) => ("*mut", of),
        (_, Some(of)) => ("*const", of),
        _ => return vec![(name.clone(), ty.clone())],
    };
    vec![(name.clone(), format!("{pointer} {of}")), (format!("{name}_len"), "usize".to_string())]
}

/// The structs `#[repr(C)]` of a source, with their fields.
fn structs(source: &str) -> BTreeMap<String, Fields> {
    let mut out = BTreeMap::new();
    for text in source.split("#[repr(C)]\n").skip(1) {
        let text = &text[..text.find("\n}").expect("a struct ends")];
        let body = text.split_once("struct ").expect("a struct").1;
        let (name, fields) = body.split_once(" {").expect("its fields");
        let fields: Vec<String> = fields
            .lines()
            .map(|l| l.trim().trim_start_matches("pub(crate) ").trim_start_matches("pub ").to_string())
            .filter(|l| !l.starts_with("//"))
            .collect();
        out.insert(name.to_string(), pairs(&fields.concat()));
    }
    out
}
