//! Files that are made: written whole, then put in their places. Nothing is overwritten unless that is asked for.

use std::fs;
use std::io::{self, ErrorKind};
use std::os::unix::fs::PermissionsExt;
use std::path::{Path, PathBuf};

use labrador::system::PutOff;

use self::temporary::Temporary;
use self::turn::Turn;
use crate::end::{file_system, usage, End};
use crate::files::{Bytes, CHUNK};
use crate::shown;

mod temporary;
mod turn;

/// A file to be made.
pub struct Output<'a> {
    pub path: PathBuf,
    /// Readable by its owner alone.
    pub secret: bool,
    pub bytes: Bytes<'a>,
}

fn failed(path: &Path, error: io::Error) -> End {
    file_system(format!("{}: {error}", shown::name(path)))
}

/// The folder of a path.
fn folder(path: &Path) -> PathBuf {
    let folder = path.parent().filter(|folder| !folder.as_os_str().is_empty()).unwrap_or(Path::new("."));
    folder.canonicalize().unwrap_or_else(|_| folder.to_path_buf())
}

/// Where a path leads, so that two names of one file are seen to be that: its own folder's, if it is not there.
fn place(path: &Path) -> PathBuf {
    path.canonicalize().unwrap_or_else(|_| folder(path).join(path.file_name().unwrap_or_default()))
}

/// That a file can be put in this place.
fn can_stand(path: &Path, force: bool) -> Result<(), End> {
    let shown = shown::name(path);
    match fs::symlink_metadata(path) {
        Err(error) if error.kind() == ErrorKind::NotFound => Ok(()),
        Err(error) => Err(failed(path, error)),
        Ok(about) if about.is_dir() => Err(file_system(format!("{shown} is a folder"))),
        Ok(about) if !about.is_file() => {
            Err(file_system(format!("{shown} is not a regular file, and is not overwritten")))
        }
        Ok(_) if !force => Err(file_system(format!("{shown} is there already; --force overwrites it"))),
        Ok(_) => Ok(()),
    }
}

/// Before the work: that the outputs can be put in their places and none is an input or another output.
pub fn admit(outputs: &[&Path], inputs: &[&Path], force: bool) -> Result<(), End> {
    let mut taken: Vec<PathBuf> = inputs.iter().map(|path| place(path)).collect();
    for path in outputs {
        if taken.contains(&place(path)) {
            let shown = shown::name(path);
            return Err(usage(format!("{shown} is named twice: an output has a file of its own")));
        }
        taken.push(place(path));
        can_stand(path, force)?;
    }
    Ok(())
}

/// Writes a file that is yet to be put in its place, and looks at the signals before each chunk. What is overwritten keeps its mode; a secret is
/// its owner's alone.
fn written(output: &Output, signals: &PutOff) -> io::Result<Temporary> {
    let before = fs::symlink_metadata(&output.path).ok().map(|about| about.permissions().mode() & 0o777);
    let mode = before.filter(|_| !output.secret);
    let mut file = Temporary::new(&folder(&output.path), output.secret || mode.is_some())?;
    for chunk in output.bytes.chunks(CHUNK) {
        if signals.came() {
            return Err(ErrorKind::Interrupted.into());
        }
        file.write(&chunk)?;
    }
    file.finish(mode)?;
    Ok(file)
}

/// Makes all files, or none. A signal that ends the program does so before the first is in its place or after the last.
pub fn write(outputs: &[Output], force: bool) -> Result<(), End> {
    // one file is put in its place at once, and waits for nobody
    let folders = outputs.iter().map(|output| folder(&output.path)).filter(|_| outputs.len() > 1);
    let _turn = Turn::take(folders.collect())?;
    outputs.iter().try_for_each(|output| can_stand(&output.path, force))?;
    let signals = PutOff::begin();
    let mut files = Vec::new();
    for output in outputs {
        files.push(written(output, &signals).map_err(|error| failed(&output.path, error))?);
    }
    for (k, (file, output)) in files.iter_mut().zip(outputs).enumerate() {
        if let Err(error) = file.put(&output.path, force) {
            if !force {
                outputs[..k].iter().for_each(|made| drop(fs::remove_file(&made.path)));
            }
            return Err(failed(&output.path, error));
        }
    }
    Ok(())
}

#[cfg(test)]
mod tests {
    use super::*;

    #[test]
    fn a_signal_that_came_ends_the_writing() {
        let signals = PutOff::begin();
        let id = std::process::id().to_string();
        assert!(std::process::Command::new("kill").args(["-TERM", &id]).status().expect("kill").success());
        while !signals.came() {
            std::thread::yield_now();
        }
        let path = std::env::temp_dir().join(format!("labrador-ended-{id}"));
        let ended = written(&Output { path: path.clone(), secret: true, bytes: Bytes::Words(&[1]) }, &signals);
        assert_eq!(ended.err().map(|error| error.kind()), Some(ErrorKind::Interrupted));
        assert!(!path.exists());
        // it would end the test
        std::mem::forget(signals);
    }
}
