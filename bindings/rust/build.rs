//! Links the archive of proved calls: the one that LABRADOR_ARCHIVE names; else `target/staticlib/liblabrador.a`, if it is
//! newer than what `crates/` proves; else the one that `rt lib` proves and builds in `crates/labrador_c`, which takes minutes. The
//! archive is asked for its modulus, by a C program that is linked with it: -1 is Q - 1. Its SHA-256 is handed on too.

use std::env;
use std::fs;
use std::io::{self, Write};
use std::path::{Path, PathBuf};
use std::process::{Command, Stdio};
use std::time::SystemTime;

#[path = "src/sha256.rs"]
mod sha256;

/// When a file, or the last one of a folder, was altered.
fn altered(path: &Path) -> io::Result<SystemTime> {
    let about = fs::metadata(path)?;
    let mut last = about.modified()?;
    if about.is_dir() {
        for entry in fs::read_dir(path)? {
            last = last.max(altered(&entry?.path())?);
        }
    }
    Ok(last)
}

/// What is proved: the list of crates, and each one's folders but for what the kit puts into `out`.
fn sources(root: &Path) -> io::Result<Vec<PathBuf>> {
    let mut found = vec![root.join("crates.txt")];
    for entry in fs::read_dir(root.join("crates"))? {
        let folder = entry?.path();
        found.extend(["src", "specs", "proofs"].map(|part| folder.join(part)).into_iter().filter(|part| part.exists()));
    }
    Ok(found)
}

/// Whether an archive is of the crates as they stand.
fn is_of(archive: &Path, root: &Path) -> io::Result<bool> {
    let made = fs::metadata(archive)?.modified()?;
    for source in sources(root)? {
        if altered(&source)? > made {
            return Ok(false);
        }
    }
    Ok(true)
}

/// Says what takes long: cargo shows a warning when the build is over, so a terminal is told at once.
fn say(line: &str) {
    println!("cargo:warning={line}");
    if let Ok(mut terminal) = fs::OpenOptions::new().write(true).open("/dev/tty") {
        let _ = writeln!(terminal, "labrador: {line}");
    }
}

/// The archive that the kit builds from this repository.
fn built(root: &Path) -> PathBuf {
    for source in sources(root).expect("the crates can be listed") {
        println!("cargo:rerun-if-changed={}", source.display());
    }
    let archive = root.join("target/staticlib/liblabrador.a");
    if is_of(&archive, root).unwrap_or(false) {
        return archive;
    }
    say("no archive of the crates as they stand: the kit proves and builds it, which takes minutes; LABRADOR_ARCHIVE can name one");
    let calls = root.join("crates/labrador_c");
    let made = Command::new("rt").arg("lib").current_dir(&calls).stdin(Stdio::null()).output();
    match made {
        Ok(said) if said.status.success() => {
            let folder = archive.parent().expect("an archive stands in a folder");
            fs::create_dir_all(folder)
                .and_then(|()| fs::copy(calls.join("out/liblabrador_c.a"), &archive))
                .expect("the archive that the kit has built can be copied");
            archive
        }
        Ok(said) => panic!(
            "rt lib failed in crates/labrador_c:\n{}{}",
            String::from_utf8_lossy(&said.stdout),
            String::from_utf8_lossy(&said.stderr)
        ),
        Err(error) => {
            panic!("LABRADOR_ARCHIVE names no archive, and the Rattle kit cannot be run to build one (rt: {error})")
        }
    }
}

const ASKS: &str = r#"#include <stdio.h>
#include "labrador.h"
int main(void) { return printf("%u", labrador_zq_neg(1).value) < 1; }
"#;

/// What is said by a program that must end well.
fn said(what: &str, command: &mut Command) -> String {
    let told = command.stdin(Stdio::null()).output().unwrap_or_else(|error| panic!("{what} cannot be run: {error}"));
    if !told.status.success() {
        panic!("{what} failed:\n{}", String::from_utf8_lossy(&told.stderr));
    }
    String::from_utf8_lossy(&told.stdout).into_owned()
}

/// Q of the archive.
fn modulus(archive: &Path, header: &Path) -> u32 {
    let out = PathBuf::from(env::var_os("OUT_DIR").expect("cargo names a folder"));
    let (source, program) = (out.join("modulus.c"), out.join("modulus"));
    std::fs::write(&source, ASKS).expect("the folder can be written");
    println!("cargo:rerun-if-changed={}", header.join("labrador.h").display());
    said("the C compiler", Command::new("cc").arg("-I").arg(header).arg("-o").arg(&program).arg(&source).arg(archive));
    let greatest: u32 = said("the archive's modulus", &mut Command::new(&program)).parse().expect("a word");
    greatest + 1
}

/// SHA-256 of the archive, in hex.
fn hash(archive: &Path) -> String {
    let bytes = std::fs::read(archive).unwrap_or_else(|error| panic!("{}: {error}", archive.display()));
    sha256::hex(&sha256::sha256(&bytes))
}

fn main() {
    println!("cargo:rerun-if-changed=build.rs");
    println!("cargo:rerun-if-changed=src/sha256.rs");
    println!("cargo:rerun-if-env-changed=LABRADOR_ARCHIVE");
    let package = PathBuf::from(env::var_os("CARGO_MANIFEST_DIR").expect("cargo names the package's folder"));
    let archive = match env::var_os("LABRADOR_ARCHIVE") {
        Some(named) if !named.is_empty() => package.join(named),
        _ => built(&package.join("../..")),
    };
    let archive = archive.canonicalize().unwrap_or_else(|error| panic!("no archive at {}: {error}", archive.display()));
    println!("cargo:rerun-if-changed={}", archive.display());
    let folder = archive.parent().expect("an archive stands in a folder");
    let name = archive.file_name().and_then(|name| name.to_str()).expect("an archive's name in UTF-8");
    println!("cargo:rustc-link-search=native={}", folder.display());
    println!("cargo:rustc-link-lib=static:+verbatim={name}");
    println!("cargo:rustc-env=LABRADOR_ARCHIVE_SHA256={}", hash(&archive));
    let q = modulus(&archive, &package.join(".."));
    println!("cargo:rustc-env=LABRADOR_Q={q}");
    println!("cargo:rustc-env=LABRADOR_GREATEST={}", q - 1);
    println!("cargo:rustc-env=LABRADOR_HALF={}", q / 2);
}
