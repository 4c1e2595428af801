//! A folder of its own for a test, with the files of a case.

use std::fs;
use std::path::PathBuf;

use crate::common::Case;

/// A folder that is made anew, and removed with the desk. It stands outside the tree, since `rt ci` takes no links there.
pub struct Desk {
    pub folder: PathBuf,
}

impl Desk {
    pub fn new(name: &str) -> Desk {
        let folder = std::env::temp_dir().join(format!("labrador-desk-{}-{name}", std::process::id()));
        let _ = fs::remove_dir_all(&folder);
        fs::create_dir_all(&folder).expect("a folder for the test");
        Desk { folder }
    }

    /// A desk with the four files of a case.
    pub fn with(name: &str, case: &Case) -> Desk {
        let desk = Desk::new(name);
        desk.put("job", &case.job);
        desk.put("randomness", &case.randomness);
        desk.put("witness", &case.witness);
        desk.put("transcript", &case.transcript);
        desk
    }

    pub fn path(&self, name: &str) -> PathBuf {
        self.folder.join(name)
    }

    pub fn put(&self, name: &str, words: &[u32]) {
        let bytes: Vec<u8> = words.iter().flat_map(|word| word.to_le_bytes()).collect();
        fs::write(self.path(name), bytes).expect("a file of the test");
    }

    pub fn words(&self, name: &str) -> Vec<u32> {
        let bytes = fs::read(self.path(name)).expect("a file of words");
        bytes.chunks_exact(4).map(|four| u32::from_le_bytes(four.try_into().unwrap())).collect()
    }

    /// The files that stand in the folder, hidden ones too.
    pub fn names(&self) -> Vec<String> {
        let entries = fs::read_dir(&self.folder).expect("the folder");
        let mut names: Vec<String> = entries.map(|e| e.unwrap().file_name().into_string().unwrap()).collect();
        names.sort();
        names
    }
}

impl Drop for Desk {
    fn drop(&mut self) {
        let _ = fs::remove_dir_all(&self.folder);
    }
}
