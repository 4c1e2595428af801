//! Links the archives of proved calls that LABRADOR_ARCHIVE and BENCH_CALLS_ARCHIVE name.

use std::path::Path;

fn link(variable: &str) {
    println!("cargo:rerun-if-env-changed={variable}");
    let Ok(archive) = std::env::var(variable) else {
        panic!("{variable} names no archive: oracle/run and bench/run set it");
    };
    println!("cargo:rerun-if-changed={archive}");
    let path = Path::new(&archive);
    let name = path.file_name().and_then(|n| n.to_str()).expect("a file name");
    let folder = path.parent().expect("a folder");
    println!("cargo:rustc-link-search=native={}", folder.display());
    println!("cargo:rustc-link-lib=static:+verbatim={name}");
}

fn main() {
    link("LABRADOR_ARCHIVE");
    link("BENCH_CALLS_ARCHIVE");
}
