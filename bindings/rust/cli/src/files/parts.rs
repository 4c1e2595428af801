//! A file read in parts, on as many threads as there are processors. Most of the time goes into the first touch of the words' memory, which the
//! threads share.

use std::fs::File;
use std::io;
use std::os::unix::fs::FileExt;
use std::sync::Mutex;
use std::thread::{available_parallelism, scope, Builder};

use super::{fill, word};

/// So many bytes are read at a time, which stay in the processor's cache until they are words.
const CHUNK: usize = 1 << 16;

/// So many words are a thread's next part.
const PART: usize = 1 << 18;

/// Reads a part that begins at this byte of the file, and gives where the file ended before the part's end.
fn read_part(file: &File, begin: u64, part: &mut [u32], chunk: &mut [u8]) -> io::Result<Option<u64>> {
    for (k, words) in part.chunks_mut(CHUNK / 4).enumerate() {
        let bytes = &mut chunk[..4 * words.len()];
        let at = begin + (k * CHUNK) as u64;
        let filled = fill(bytes, |rest, filled| file.read_at(rest, at + filled as u64))?;
        words.iter_mut().zip(bytes.chunks_exact(4)).for_each(|(to, four)| *to = word(four));
        if filled < bytes.len() {
            return Ok(Some(at + filled as u64));
        }
    }
    Ok(None)
}

/// Fills the words with the file's first bytes, and gives how many of these there are: fewer where the file has become shorter.
pub fn read_in_parts(file: &File, words: &mut [u32]) -> io::Result<u64> {
    let length = 4 * words.len() as u64;
    let threads = match words.len().div_ceil(PART) {
        0 | 1 => 1,
        parts => available_parallelism().map_or(1, usize::from).min(parts),
    };
    let parts = Mutex::new(words.chunks_mut(PART).enumerate());
    let worker = || {
        let mut chunk = vec![0; CHUNK];
        let mut end = length;
        loop {
            let next = parts.lock().expect("no reading panics").next();
            let Some((k, part)) = next else {
                return Ok(end);
            };
            let ended = read_part(file, 4 * (k * PART) as u64, part, &mut chunk)?;
            end = end.min(ended.unwrap_or(length));
        }
    };
    let ends: io::Result<Vec<u64>> = scope(|scope| {
        // where the system has no further thread, fewer read
        let others: Vec<_> = (1..threads).map_while(|_| Builder::new().spawn_scoped(scope, worker).ok()).collect();
        let mine = worker();
        let others = others.into_iter().map(|other| other.join().expect("no reading panics"));
        [mine].into_iter().chain(others).collect()
    });
    Ok(ends?.into_iter().min().unwrap_or(length))
}

#[cfg(test)]
mod tests {
    use std::fs::{remove_file, File};
    use std::io::Write;

    use super::{read_in_parts, PART};
    use crate::files::CHUNK;

    /// A file of these bytes, which has no name.
    fn file(bytes: &[u8]) -> File {
        let path = std::env::temp_dir().join(format!("labrador-parts-{}-{}", std::process::id(), bytes.len()));
        let mut file = File::options().read(true).write(true).create_new(true).open(&path).expect("a file");
        remove_file(&path).expect("it was made");
        file.write_all(bytes).expect("room");
        file
    }

    fn word(k: usize) -> u32 {
        (k as u32).wrapping_mul(0x9e37_79b9) ^ 0x1234_5678
    }

    #[test]
    fn parts_of_a_file_and_of_one_that_became_shorter() {
        let count = 2 * PART + CHUNK / 4 + 3;
        let bytes: Vec<u8> = (0..count).flat_map(|k| word(k).to_le_bytes()).collect();
        for length in [0, 1, 4, CHUNK, CHUNK + 2, 4 * PART - 1, 4 * PART, 4 * PART + 7, bytes.len() - 1, bytes.len()] {
            let mut words = vec![0; count];
            let read = read_in_parts(&file(&bytes[..length]), &mut words).expect("it can be read");
            assert_eq!(read, length as u64);
            assert!(words[..length / 4].iter().enumerate().all(|(k, &read)| read == word(k)), "{length}");
        }
    }

    #[test]
    fn what_is_behind_the_words_is_not_read() {
        let bytes: Vec<u8> = (0..PART + 9).flat_map(|k| word(k).to_le_bytes()).collect();
        for count in [0, 1, PART, PART + 8] {
            let mut words = vec![0; count];
            let read = read_in_parts(&file(&bytes), &mut words).expect("it can be read");
            assert_eq!(read, 4 * count as u64);
            assert!(words.iter().enumerate().all(|(k, &read)| read == word(k)), "{count}");
        }
    }
}
