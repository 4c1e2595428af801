//! Hashes of files of words, and of the archive.

use std::env;
use std::fs;
use std::path::Path;

use labrador::{hex, sha256, sha256_of_words, ARCHIVE_SHA256};

#[test]
fn words_hash_as_their_file() {
    let words: Vec<u32> = (0..200).map(|k: u32| k.wrapping_mul(0x9e3779b9)).collect();
    for length in 0..words.len() {
        let file: Vec<u8> = words[..length].iter().flat_map(|word| word.to_le_bytes()).collect();
        assert_eq!(sha256_of_words(&words[..length]), sha256(&file), "{length}");
    }
}

#[test]
fn the_archive_s_hash_is_that_of_what_is_linked() {
    let package = Path::new(env!("CARGO_MANIFEST_DIR"));
    let archive = match env::var_os("LABRADOR_ARCHIVE") {
        Some(named) if !named.is_empty() => package.join(named),
        _ => package.join("../../target/staticlib/liblabrador.a"),
    };
    assert_eq!(ARCHIVE_SHA256, hex(&sha256(&fs::read(archive).expect("the archive"))));
}
