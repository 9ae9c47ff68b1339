//! Every declaration against the text of the library's own source: each exported function with its
//! arguments and answer, each struct with its fields, in src/ and in the header for C.

#[path = "../declarations.rs"]
mod declarations;
use declarations::{cksum, differences, flat, library, misfit, ours, Declared};

const LIBRARY: &str = include_str!("../../../crates/bitbox/src/lib.rt");
const PAGE_DIFF: &str = include_str!("../../../crates/page_diff/src/lib.rt");
const SYNC: &str = include_str!("../../../crates/sync/src/lib.rt");
const HEADER: &str = include_str!("../../c/bitbox.h");
const VERSION: &str = env!("CARGO_PKG_VERSION");

fn sources() -> Declared {
    library(&[PAGE_DIFF, SYNC, LIBRARY].concat())
}

#[test]
fn the_library_exports_what_is_known() {
    assert_eq!(sources().functions.len(), LIBRARY.matches("#[unsafe(no_mangle)]").count());
    let known = (sources().functions.len(), sources().structs.len());
    assert_eq!(known, (50, 21), "what is new wants a declaration, a safe call, a line in the header and tests");
}

#[test]
fn all_is_declared_as_it_is() {
    assert_eq!(differences(&sources(), &ours()), [""; 0]);
    assert_eq!(sources(), ours());
}

/// What bindings/library writes beside a library of these bytes.
fn exports(version: &str, text: &str, bytes: &[u8]) -> String {
    format!("bitbox {version}\n{text}\nlibbitbox.a {} {}\n", cksum(bytes), bytes.len())
}

#[test]
fn a_library_that_does_not_fit_is_told() {
    let text = [PAGE_DIFF, SYNC, LIBRARY].concat();
    let told = |version: &str, text: &str| misfit(b"a library", &exports(version, text, b"a library"), VERSION);
    assert_eq!(told(VERSION, &text), None);
    assert_eq!(told("0.1.0", &text), Some(format!("the library is of version 0.1.0, the crate of version {VERSION}")));

    let says = "the library does not export what the crate calls: ";
    let changed = |from: &str, to: &str| {
        assert_eq!(text.matches(from).count(), 1, "{from}");
        told(VERSION, &text.replace(from, to)).unwrap_or_default()
    };
    let fewer = changed("pub extern \"C\" fn bitbox_tag_page(bucket", "fn bitbox_tag_page(bucket");
    assert_eq!(fewer, format!("{says}bitbox_tag_page is not in the library"));
    let more = changed("pub extern \"C\" fn bitbox_tag_page(", "pub extern \"C\" fn bitbox_tags_page(");
    assert_eq!(more, format!("{says}bitbox_tag_page is not in the library; bitbox_tags_page is not in the crate"));
    let other = changed("fn bitbox_tag_page(bucket: u64) -> u64", "fn bitbox_tag_page(bucket: u32) -> u64");
    assert_eq!(other, format!("{says}bitbox_tag_page is declared otherwise in the library"));
    let wider = changed("pub struct Stepped {\n    pub refusal: u64,", "pub struct Stepped {\n    pub refusal: u32,");
    assert_eq!(wider, format!("{says}Stepped is declared otherwise in the library"));
}

#[test]
fn a_library_of_other_bytes_is_told() {
    let text = exports(VERSION, &[PAGE_DIFF, SYNC, LIBRARY].concat(), b"a library");
    let other = Some("libbitbox.exports was written for another libbitbox.a than the one beside it".to_string());
    assert_eq!(misfit(b"a library", &text, VERSION), None);
    assert_eq!(misfit(b"a_library", &text, VERSION), other);
    assert_eq!(misfit(b"a library", "", VERSION), other);
    assert_eq!(misfit(b"a library", text.trim_end_matches(|c| c != '}'), VERSION), other);
}

#[test]
fn the_sum_is_that_of_cksum() {
    assert_eq!(cksum(b""), 4_294_967_295);
    assert_eq!(cksum(b"123456789"), 930_766_865);
}

/// A type in C, before the name of what has it, and after.
fn in_c(ty: &str) -> (String, String) {
    let word = |t: &str| match t {
        "u8" => "uint8_t".to_string(),
        "u32" => "uint32_t".to_string(),
        "u64" => "uint64_t".to_string(),
        "usize" => "size_t".to_string(),
        "f64" => "double".to_string(),
        "bool" => "bool".to_string(),
        "()" => "void".to_string(),
        name => {
            let mut out = "bitbox".to_string();
            for c in name.chars() {
                if c.is_uppercase() {
                    out.push('_');
                }
                out.extend(c.to_lowercase());
            }
            out
        }
    };
    let (constant, ty) = if let Some(t) = ty.strip_prefix("&mut ").or(ty.strip_prefix("*mut ")) {
        ("", t)
    } else if let Some(t) = ty.strip_prefix('&').or(ty.strip_prefix("*const ")) {
        ("const ", t)
    } else {
        ("", ty)
    };
    let mut of = ty;
    let mut dims = String::new();
    while let Some((inner, len)) =
        of.strip_prefix('[').and_then(|t| t.strip_suffix(']')).and_then(|t| t.rsplit_once("; "))
    {
        dims += &format!("[{len}]");
        of = inner;
    }
    (format!("{constant}{}", word(of)), dims)
}

/// `const uint8_t *page` and so on. (`new` is a word of C++.) A table of arrays goes by a pointer to its first byte:
/// in C no table fits a pointer to arrays of const bytes.
fn argument((name, ty): &(String, String)) -> String {
    let name = match name.as_str() {
        "old" | "new" => format!("{name}_count"),
        _ => name.clone(),
    };
    let (before, after) = in_c(ty);
    if ty.starts_with('*') || ty.starts_with("&[[") {
        return format!("{before} *{name}");
    }
    format!("{before} {name}{after}")
}

#[test]
fn the_header_declares_the_same() {
    let header = flat(HEADER);
    let Declared { functions, structs } = sources();
    for (name, (args, answer)) in &functions {
        let args: Vec<String> = args.iter().map(argument).collect();
        let line = format!("{} {name}({});", in_c(answer).0, args.join(", "));
        assert!(header.contains(&line), "bitbox.h has no line\n{line}");
    }
    assert_eq!(HEADER.matches(");\n").count(), functions.len(), "functions in bitbox.h");
    for (name, fields) in &structs {
        let fields: Vec<String> = fields.iter().map(|f| format!("{};", argument(f))).collect();
        let line = format!("typedef struct {{ {} }} {};", fields.join(" "), in_c(name).0);
        assert!(header.contains(&line), "bitbox.h has no\n{line}");
    }
    assert_eq!(HEADER.matches("typedef struct").count(), structs.len(), "structs in bitbox.h");
}

/// The number that the header gives a name, and the name that it gives the number.
#[test]
fn the_header_has_the_version_and_the_refusals() {
    assert!(HEADER.contains(&format!("#define BITBOX_VERSION \"{VERSION}\"\n")), "BITBOX_VERSION is not {VERSION}");
    let parts: Vec<u32> = VERSION.split('.').map(|part| part.parse().expect("a number")).collect();
    let number = 10_000 * parts[0] + 100 * parts[1] + parts[2];
    assert!(HEADER.contains(&format!("#define BITBOX_VERSION_NUMBER {number} ")), "BITBOX_VERSION_NUMBER");
    for refusal in bitbox::Refusal::all() {
        let mut constant = "BITBOX".to_string();
        for c in refusal.name().chars() {
            if c.is_uppercase() {
                constant.push('_');
            }
            constant.extend(c.to_uppercase());
        }
        let number = format!("    {constant} = {}", refusal.number());
        assert!(HEADER.lines().any(|l| l.starts_with(&format!("{number},")) || l.starts_with(&format!("{number} "))));
        let name = format!("    case {constant}: return \"{}\";", refusal.name());
        assert!(HEADER.lines().any(|l| l == name), "bitbox.h has no line {name}");
    }
    assert_eq!(HEADER.matches("    case BITBOX_").count(), 1 + bitbox::Refusal::all().len(), "names in bitbox.h");
}
