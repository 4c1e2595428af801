//! Files of words: four bytes a word, the least first.

use std::borrow::Cow;
use std::fs::File;
use std::hint::black_box;
use std::io::{self, ErrorKind, Read, Seek, SeekFrom};
use std::path::Path;

use labrador::Slice;

use crate::end::{file_system, unfit, End};

use self::parts::read_in_parts;

mod parts;

/// So many bytes are read or written at a time, so that no file is held as bytes.
pub const CHUNK: usize = 1 << 18;

/// The words of a file. Of a file that is longer than any fit slice only as many are read as settle its refusal.
pub struct Words {
    pub words: Vec<u32>,
    /// The whole file's length in words.
    pub length: u64,
}

/// The words of a slice's file.
pub fn read_slice(slice: Slice, path: &Path) -> Result<Words, End> {
    read(path, slice.greatest_length() + 1)
}

/// At most this many words of a file.
pub fn read(path: &Path, most: u64) -> Result<Words, End> {
    let opened = Opened::new(path, most)?;
    let mut room = Vec::new();
    opened.reserve(&mut room)?;
    drop(black_box(room));
    // zeros, which the system lays in memory where they are first touched
    let mut words = vec![0; opened.room as usize / 4];
    let read = read_in_parts(&opened.file, &mut words).map_err(|error| opened.failed(error))?;
    words.truncate(read as usize / 4);
    let length = opened.append(4 * words.len() as u64, &mut words)?;
    Ok(Words { words, length })
}

/// Appends the words of a slice's file, and gives the whole file's length in words.
pub fn append_slice(slice: Slice, path: &Path, words: &mut Vec<u32>) -> Result<u64, End> {
    let opened = Opened::new(path, slice.greatest_length() + 1)?;
    opened.reserve(words)?;
    opened.append(0, words)
}

/// Whether a file is there, before what takes long is done.
pub fn there(path: &Path) -> Result<(), End> {
    std::fs::metadata(path).map(drop).map_err(|error| file_system(format!("{}: {error}", path.display())))
}

/// A file of which at most so many words are read.
struct Opened<'a> {
    path: &'a Path,
    file: File,
    most: u64,
    /// Its length in bytes, where it has one.
    whole: Option<u64>,
    /// How many of these are read.
    room: u64,
}

impl Opened<'_> {
    fn new(path: &Path, most: u64) -> Result<Opened<'_>, End> {
        let failed = |error: io::Error| file_system(format!("{}: {error}", path.display()));
        let file = File::open(path).map_err(failed)?;
        let about = file.metadata().map_err(failed)?;
        if about.is_dir() {
            return Err(file_system(format!("{} is a folder, not a file of words", path.display())));
        }
        let whole = about.is_file().then_some(about.len());
        Ok(Opened { path, file, most, whole, room: whole.unwrap_or(0).min(4 * most) })
    }

    fn failed(&self, error: io::Error) -> End {
        file_system(format!("{}: {error}", self.path.display()))
    }

    /// Makes room for its words.
    fn reserve(&self, words: &mut Vec<u32>) -> Result<(), End> {
        let (shown, room) = (self.path.display(), self.room);
        let reserved = words.try_reserve_exact(room as usize / 4);
        reserved.map_err(|_| file_system(format!("{shown}: there is no memory for {room} bytes")))
    }

    /// Appends its words up to its end after so many bytes that were read, and gives the whole file's length in words.
    fn append(self, before: u64, words: &mut Vec<u32>) -> Result<u64, End> {
        let mut file = &self.file;
        let more = match before {
            0 => Ok(0),
            before => file.seek(SeekFrom::Start(before)),
        };
        let more = more.and_then(|_| read_words(&mut file.take(4 * self.most - before), words));
        let read = before + more.map_err(|error| self.failed(error))?;
        let length = self.whole.unwrap_or(0).max(read);
        if !length.is_multiple_of(4) || !read.is_multiple_of(4) {
            let shown = self.path.display();
            return Err(unfit(format!("{shown} has {length} bytes, which is no whole number of words (4 bytes each)")));
        }
        Ok(length / 4)
    }
}

/// The word of four bytes.
fn word(four: &[u8]) -> u32 {
    u32::from_le_bytes(four.try_into().expect("four bytes"))
}

/// Appends the whole words that a source gives up to its end, and gives the number of its bytes.
fn read_words(source: &mut impl Read, words: &mut Vec<u32>) -> io::Result<u64> {
    let mut chunk = vec![0; CHUNK];
    let mut read = 0;
    loop {
        let filled = fill(&mut chunk, |rest, _| source.read(rest))?;
        words.extend(chunk[..filled].chunks_exact(4).map(word));
        read += filled as u64;
        if filled < CHUNK {
            return Ok(read);
        }
    }
}

/// Reads until the chunk is full or the source ends. `read` is handed the rest of the chunk, and how much of it is filled.
fn fill(chunk: &mut [u8], mut read: impl FnMut(&mut [u8], usize) -> io::Result<usize>) -> io::Result<usize> {
    let mut filled = 0;
    while filled < chunk.len() {
        match read(&mut chunk[filled..], filled) {
            Ok(0) => break,
            Ok(more) => filled += more,
            Err(error) if error.kind() == ErrorKind::Interrupted => {}
            Err(error) => return Err(error),
        }
    }
    Ok(filled)
}

/// What is written to a file.
pub enum Bytes<'a> {
    Words(&'a [u32]),
    Text(String),
}

/// Words as a file has them.
pub fn bytes_of(words: &[u32]) -> Bytes<'_> {
    Bytes::Words(words)
}

fn little_endian(words: &[u32]) -> Vec<u8> {
    let mut bytes = vec![0; 4 * words.len()];
    bytes.chunks_exact_mut(4).zip(words).for_each(|(four, word)| four.copy_from_slice(&word.to_le_bytes()));
    bytes
}

impl Bytes<'_> {
    /// Its bytes, so many at a time, which are whole words.
    pub fn chunks(&self, length: usize) -> Box<dyn Iterator<Item = Cow<'_, [u8]>> + '_> {
        match self {
            Bytes::Words(words) => Box::new(words.chunks(length / 4).map(|part| Cow::Owned(little_endian(part)))),
            Bytes::Text(text) => Box::new(text.as_bytes().chunks(length).map(Cow::Borrowed)),
        }
    }
}
