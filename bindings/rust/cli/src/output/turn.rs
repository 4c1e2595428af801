//! Runs that write several files to one folder do so in turn, so that the files that stand there are of one run.

use std::fs::{File, TryLockError};
use std::path::{Path, PathBuf};
use std::thread::sleep;
use std::time::{Duration, Instant};

use crate::end::{file_system, End};
use crate::shown;

/// So long a run waits for its turn.
const PATIENCE: Duration = Duration::from_secs(60);

/// Folders that are locked until this is dropped, or the run ends in any way.
pub struct Turn {
    _locked: Vec<File>,
}

impl Turn {
    /// Locks folders, in one order for all runs. One that cannot be read, or whose file system has no locks, is not locked.
    pub fn take(mut folders: Vec<PathBuf>) -> Result<Turn, End> {
        folders.sort();
        folders.dedup();
        let mut locked = Vec::new();
        for folder in folders {
            let Ok(file) = File::open(&folder) else { continue };
            lock(&file, &folder)?;
            locked.push(file);
        }
        Ok(Turn { _locked: locked })
    }
}

fn lock(file: &File, folder: &Path) -> Result<(), End> {
    let begun = Instant::now();
    while let Err(TryLockError::WouldBlock) = file.try_lock() {
        if begun.elapsed() > PATIENCE {
            return Err(file_system(format!("{}: another program keeps the folder locked", shown::name(folder))));
        }
        sleep(Duration::from_millis(5));
    }
    Ok(())
}
