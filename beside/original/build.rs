// Puts the original's source tree together in OUT_DIR: the published files as they are, each with the
// accessors appended that reach its private items; the passages that are needed of two large files;
// and stand-ins for what was not published. Nothing of the original is kept in this repository.
//
// The published sources are looked for in ../shared/docs/src beside the repository, or in the folder
// that RUSSULADEN_ORIGINAL names. published.sha256 has the sum of each file that is used.

use std::{
    env, fs,
    path::{Path, PathBuf},
    process::Command,
};

// Compiled whole, with accessors/PATH appended where there is such a file.
const WHOLE: [(&str, &str); 13] = [
    ("nomt/src/bitbox/mod.rs", "bitbox/mod.rs"),
    ("nomt/src/bitbox/ht_file.rs", "bitbox/ht_file.rs"),
    ("nomt/src/bitbox/meta_map.rs", "bitbox/meta_map.rs"),
    ("nomt/src/bitbox/rehash.rs", "bitbox/rehash.rs"),
    ("nomt/src/bitbox/validate.rs", "bitbox/validate.rs"),
    ("nomt/src/bitbox/writeout.rs", "bitbox/writeout.rs"),
    ("nomt/src/bitbox/wal/mod.rs", "bitbox/wal/mod.rs"),
    ("nomt/src/bitbox/wal/read.rs", "bitbox/wal/read.rs"),
    ("nomt/src/bitbox/wal/write.rs", "bitbox/wal/write.rs"),
    ("nomt/src/page_diff.rs", "page_diff.rs"),
    ("nomt/src/store/meta.rs", "store/meta.rs"),
    ("nomt/src/io/mod.rs", "io/mod.rs"),
    ("nomt/src/sys/linux.rs", "sys/linux.rs"),
];

const CORE: [(&str, &str); 1] = [("core/src/page.rs", "page.rs")];

// A passage from one line up to another, set into a frame of ours at the line `// PASSAGE`.
struct Passage {
    from: &'static str,
    to: &'static str,
    published: &'static str,
    compiled: &'static str,
}

const PASSAGES: [Passage; 2] = [
    Passage {
        from: "/// Bitfield used to note which child pages are elided and thus require on-the-fly reconstruction.\n",
        to: "/// Updated pages produced by update workers.\n",
        published: "nomt/src/merkle/mod.rs",
        compiled: "merkle.rs",
    },
    Passage {
        from: "// Total number of nodes stored in one Page. It depends on the `DEPTH`\n",
        to: "struct CacheEntry {\n",
        published: "nomt/src/page_cache.rs",
        compiled: "page_cache.rs",
    },
];

const STAND_INS: [&str; 8] = [
    "io/fsyncer.rs",
    "io/linux.rs",
    "io/page_pool.rs",
    "page_id.rs",
    "store/mod.rs",
    "sys/mod.rs",
    "sys/unix.rs",
    "task.rs",
];

fn main() {
    let here = PathBuf::from(env::var_os("CARGO_MANIFEST_DIR").unwrap());
    let out = PathBuf::from(env::var_os("OUT_DIR").unwrap()).join("tree");
    let published = match env::var_os("RUSSULADEN_ORIGINAL") {
        Some(folder) => PathBuf::from(folder),
        None => here.join("../../../shared/docs/src"),
    };
    println!("cargo:rerun-if-env-changed=RUSSULADEN_ORIGINAL");
    println!("cargo:rerun-if-changed=build.rs");
    println!("cargo:rerun-if-changed=published.sha256");
    println!("cargo:rerun-if-changed=stand_ins");
    println!("cargo:rerun-if-changed=accessors");
    assert!(
        published.join("nomt/src/bitbox/mod.rs").is_file(),
        "the published sources are not in {}; RUSSULADEN_ORIGINAL can name another folder",
        published.display()
    );
    let summed = Command::new("sha256sum")
        .args(["--check", "--strict", "--quiet"])
        .arg(here.join("published.sha256"))
        .current_dir(&published)
        .status()
        .expect("sha256sum runs");
    assert!(summed.success(), "{} does not hold the published text", published.display());

    for (from, to) in WHOLE.iter().chain(&CORE) {
        let text = published_text(&published, from);
        let accessors = here.join("accessors").join(to);
        let accessors = if accessors.is_file() { read(&accessors) } else { String::new() };
        let compiled = out.join(to);
        write(&compiled, &format!("{text}{accessors}"));
        // What is compiled is the published text, and after it the accessors alone.
        let copy = read(&compiled);
        let appended = copy.strip_prefix(&text).expect("the copy begins with the published text");
        assert!(appended == accessors, "{to}: something else than its accessors is appended");
    }

    for p in &PASSAGES {
        let text = published_text(&published, p.published);
        let start = only(&text, p.from, p.published);
        let end = only(&text, p.to, p.published);
        let passage = &text[start..end];
        let frame = read(&here.join("stand_ins").join(p.compiled));
        let (before, after) = frame.split_once("// PASSAGE\n").expect("a frame has the line // PASSAGE");
        let compiled = out.join(p.compiled);
        write(&compiled, &format!("{before}{passage}{after}"));
        let copy = read(&compiled);
        let cut = copy.strip_prefix(before).and_then(|c| c.strip_suffix(after));
        assert!(cut.is_some_and(|c| text.contains(c)), "{}: the passage is published text", p.compiled);
    }

    for name in STAND_INS {
        write(&out.join(name), &read(&here.join("stand_ins").join(name)));
    }

    // The files in their places; the names are those by which the original calls them.
    let mut root = String::new();
    for (name, file) in [
        ("bitbox", "bitbox/mod.rs"),
        ("io", "io/mod.rs"),
        ("merkle", "merkle.rs"),
        ("page", "page.rs"),
        ("page_cache", "page_cache.rs"),
        ("page_diff", "page_diff.rs"),
        ("page_id", "page_id.rs"),
        ("store", "store/mod.rs"),
        ("sys", "sys/mod.rs"),
        ("task", "task.rs"),
    ] {
        root += &format!("#[path = {:?}]\npub mod {name};\n", out.join(file));
    }
    write(&out.join("root.rs"), &root);
}

fn published_text(folder: &Path, name: &str) -> String {
    let path = folder.join(name);
    println!("cargo:rerun-if-changed={}", path.display());
    read(&path)
}

// The place of a line that occurs once.
fn only(text: &str, line: &str, name: &str) -> usize {
    assert!(text.matches(line).count() == 1, "{name}: '{}' occurs once", line.trim_end());
    text.find(line).unwrap()
}

fn read(path: &Path) -> String {
    fs::read_to_string(path).unwrap_or_else(|e| panic!("{}: {e}", path.display()))
}

fn write(path: &Path, text: &str) {
    fs::create_dir_all(path.parent().unwrap()).unwrap();
    if fs::read_to_string(path).ok().as_deref() != Some(text) {
        fs::write(path, text).unwrap_or_else(|e| panic!("{}: {e}", path.display()));
    }
}
