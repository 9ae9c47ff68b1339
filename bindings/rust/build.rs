// Finds the static library: in the folder that RUSSULADEN_STATICLIB names, else below the repository's target/,
// where bindings/library proves and makes it if it is not there or older than the sources. A library that is not
// of this crate's version, or declares anything otherwise, is not linked.
use std::{
    env, fs,
    path::{Path, PathBuf},
    process::{exit, Command},
};

mod declarations;

fn main() {
    println!("cargo:rerun-if-env-changed=RUSSULADEN_STATICLIB");
    println!("cargo:rerun-if-changed=build.rs");
    let folder = match env::var_os("RUSSULADEN_STATICLIB") {
        Some(named) => PathBuf::from(named),
        None => made(&PathBuf::from(env::var_os("CARGO_MANIFEST_DIR").unwrap_or_default()).join("../..")),
    };
    let (library, exports) = (folder.join("libbitbox.a"), folder.join("libbitbox.exports"));
    for file in [&library, &exports] {
        println!("cargo:rerun-if-changed={}", file.display());
        if !file.is_file() {
            fail(&format!(
                "{} is not there; bindings/library makes libbitbox.a and, beside it, the other",
                file.display()
            ));
        }
    }
    let bytes = fs::read(&library).unwrap_or_else(|why| fail(&format!("{}: {why}", library.display())));
    let text = fs::read_to_string(&exports).unwrap_or_else(|why| fail(&format!("{}: {why}", exports.display())));
    if let Some(why) = declarations::misfit(&bytes, &text, env!("CARGO_PKG_VERSION")) {
        fail(&format!(
            "{} is not linked: {why}. bindings/library makes the library of these sources",
            library.display()
        ));
    }
    println!("cargo:rustc-link-search=native={}", folder.display());
    println!("cargo:rustc-link-lib=static=bitbox");
}

/// The folder of the library that the repository's sources give; it is made where it has to be.
fn made(root: &Path) -> PathBuf {
    for source in ["crates.txt", "bindings/library", "bindings/make", "bindings/exports"] {
        println!("cargo:rerun-if-changed={}", root.join(source).display());
    }
    // What rt writes is in each crate's out/, and says nothing of the sources.
    let folders = |of: &Path| fs::read_dir(of).into_iter().flatten().flatten().map(|entry| entry.path());
    for source in folders(&root.join("crates")).flat_map(|of| folders(&of)).filter(|path| !path.ends_with("out")) {
        println!("cargo:rerun-if-changed={}", source.display());
    }
    match Command::new(root.join("bindings/library")).status() {
        Ok(status) if status.success() => root.join("target/staticlib"),
        Ok(status) => fail(&format!(
            "bindings/library ended with {status}. RUSSULADEN_STATICLIB can name a folder with a library that was \
             made elsewhere"
        )),
        Err(why) => fail(&format!("bindings/library could not be run: {why}")),
    }
}

fn fail(why: &str) -> ! {
    eprintln!("bitbox: {why}");
    exit(1)
}
