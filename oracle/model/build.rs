//! Q of the tree, from the line of the engine's code that has it.

use std::path::PathBuf;

const BEFORE: &str = "pub const Q: u32 = ";

fn main() {
    let folder = PathBuf::from(std::env::var("CARGO_MANIFEST_DIR").expect("cargo names the package's folder"));
    let file = folder.join("../../crates/spec_leaves/src/modulus.rt");
    println!("cargo:rerun-if-changed={}", file.display());
    let text = std::fs::read_to_string(&file).unwrap_or_else(|error| panic!("{}: {error}", file.display()));
    let found: Vec<&str> = text.lines().filter_map(|line| line.strip_prefix(BEFORE)?.strip_suffix(';')).collect();
    let [q] = found[..] else {
        panic!("{}: {} lines say what Q is", file.display(), found.len());
    };
    let q: u32 = q.parse().unwrap_or_else(|error| panic!("{}: {q}: {error}", file.display()));
    let out = PathBuf::from(std::env::var("OUT_DIR").expect("cargo names a folder")).join("modulus.rs");
    std::fs::write(out, format!("/// The modulus.\npub const Q: u32 = {q};\n")).expect("the folder can be written");
}
