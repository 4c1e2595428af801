//! Files of signed numbers: eight bytes a number, the least first.

use std::fs::File;
use std::io::Read;
use std::path::Path;

use crate::end::{file_system, unfit, End};

/// The numbers of a file. Of a longer one only as many are read as settle its refusal.
pub struct Numbers {
    pub numbers: Vec<i64>,
    /// The whole file's length in numbers.
    pub length: u64,
}

/// At most this many numbers of a file.
pub fn read(path: &Path, most: u64) -> Result<Numbers, End> {
    let shown = path.display();
    let failed = |error: std::io::Error| file_system(format!("{shown}: {error}"));
    let file = File::open(path).map_err(failed)?;
    let about = file.metadata().map_err(failed)?;
    if about.is_dir() {
        return Err(file_system(format!("{shown} is a folder, not a file of numbers")));
    }
    let whole = if about.is_file() { about.len() } else { 0 };
    let mut bytes = Vec::new();
    file.take(8 * most).read_to_end(&mut bytes).map_err(failed)?;
    let length = whole.max(bytes.len() as u64);
    if length % 8 != 0 || bytes.len() % 8 != 0 {
        return Err(unfit(format!("{shown} has {length} bytes, which is no whole number of i64 words (8 bytes each)")));
    }
    let number = |eight: &[u8]| i64::from_le_bytes(eight.try_into().expect("eight bytes"));
    Ok(Numbers { numbers: bytes.chunks_exact(8).map(number).collect(), length: length / 8 })
}
