//! Links the archive of the build over the prime, which PRIME_CALLS_ARCHIVE names; where it is not named its rows are left out.

use std::path::Path;

/// Links the archive that a variable names, and sets a word for it.
fn link(variable: &str, word: &str) {
    println!("cargo:rustc-check-cfg=cfg({word})");
    println!("cargo:rerun-if-env-changed={variable}");
    let Ok(archive) = std::env::var(variable) else {
        return;
    };
    println!("cargo:rerun-if-changed={archive}");
    let path = Path::new(&archive);
    let name = path.file_name().and_then(|n| n.to_str()).expect("a file name");
    println!("cargo:rustc-link-search=native={}", path.parent().expect("a folder").display());
    println!("cargo:rustc-link-lib=static:+verbatim={name}");
    println!("cargo:rustc-cfg={word}");
}

fn main() {
    link("PRIME_CALLS_ARCHIVE", "prime");
}
