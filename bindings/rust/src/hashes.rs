//! SHA-256 of what a verdict rests on: files of words, and the archive of proved calls.

use crate::sha256::digest;

/// SHA-256 of the archive that the crate is linked with, in hex.
pub const ARCHIVE_SHA256: &str = env!("LABRADOR_ARCHIVE_SHA256");

fn bytes(words: &[u32]) -> impl Iterator<Item = u8> + '_ {
    words.iter().flat_map(|word| word.to_le_bytes())
}

/// SHA-256 of a file of these words: four bytes a word, the least first.
///
/// ```
/// use labrador::{sha256, sha256_of_words};
///
/// assert_eq!(sha256_of_words(&[0x64636261, 0x68676665]), sha256(b"abcdefgh"));
/// ```
pub fn sha256_of_words(words: &[u32]) -> [u8; 32] {
    let blocks = words.chunks_exact(16);
    let rest: Vec<u8> = bytes(blocks.remainder()).collect();
    let block = |words: &[u32]| {
        let mut block = [0; 64];
        block.iter_mut().zip(bytes(words)).for_each(|(to, byte)| *to = byte);
        block
    };
    digest(blocks.map(block), &rest, 4 * words.len() as u64)
}
