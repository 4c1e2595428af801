//! A file that is written whole before it is put in its place. It has no name until then, so that a run that is killed
//! leaves nothing; where the file system has no such files it has a random one, and is removed if it is not put in its place.

use std::ffi::CString;
use std::fs::{self, File, OpenOptions, Permissions};
use std::io::{self, ErrorKind, Read, Write};
use std::os::unix::ffi::OsStrExt;
use std::os::unix::fs::{OpenOptionsExt, PermissionsExt};
use std::path::{Path, PathBuf};

use labrador::system;

/// A file without a name in a folder. The archive of proved calls is for x86-64 alone.
const O_TMPFILE: i32 = 0o20200000;

/// So many random names are tried.
const TRIES: usize = 16;

pub struct Temporary {
    file: File,
    folder: PathBuf,
    /// Where it has one.
    name: Option<PathBuf>,
}

impl Drop for Temporary {
    fn drop(&mut self) {
        if let Some(name) = &self.name {
            // it is gone where it was put in its place
            let _ = fs::remove_file(name);
        }
    }
}

/// A name that no file has, of a length that every folder takes.
fn random_name(folder: &Path) -> io::Result<PathBuf> {
    let mut bytes = [0; 8];
    File::open("/dev/urandom")?.read_exact(&mut bytes)?;
    Ok(folder.join(format!(".labrador-{:016x}", u64::from_le_bytes(bytes))))
}

/// Does something with a random name until the name was free.
fn with_name<T>(folder: &Path, make: impl Fn(&Path) -> io::Result<T>) -> io::Result<(PathBuf, T)> {
    let mut taken = io::Error::from(ErrorKind::AlreadyExists);
    for _ in 0..TRIES {
        let name = random_name(folder)?;
        match make(&name) {
            Err(error) if error.kind() == ErrorKind::AlreadyExists => taken = error,
            made => return Ok((name, made?)),
        }
    }
    Err(taken)
}

impl Temporary {
    /// In a folder, readable by its owner alone if that is asked for, else as the umask says.
    pub fn new(folder: &Path, owner_alone: bool) -> io::Result<Temporary> {
        let unnamed = Temporary::unnamed(folder, owner_alone);
        unnamed.or_else(|_| Temporary::named(folder, owner_alone))
    }

    fn options(owner_alone: bool) -> OpenOptions {
        let mut options = OpenOptions::new();
        options.write(true).mode(if owner_alone { 0o600 } else { 0o666 });
        options
    }

    fn unnamed(folder: &Path, owner_alone: bool) -> io::Result<Temporary> {
        // by which it gets its name
        fs::metadata("/proc/self/fd")?;
        let file = Temporary::options(owner_alone).custom_flags(O_TMPFILE).open(folder)?;
        Ok(Temporary { file, folder: folder.to_path_buf(), name: None })
    }

    fn named(folder: &Path, owner_alone: bool) -> io::Result<Temporary> {
        let make = |name: &Path| Temporary::options(owner_alone).create_new(true).open(name);
        let (name, file) = with_name(folder, make)?;
        Ok(Temporary { file, folder: folder.to_path_buf(), name: Some(name) })
    }

    pub fn write(&mut self, bytes: &[u8]) -> io::Result<()> {
        self.file.write_all(bytes)
    }

    /// Gives it a mode, if one is handed in, and has it on the disk.
    pub fn finish(&self, mode: Option<u32>) -> io::Result<()> {
        if let Some(mode) = mode {
            self.file.set_permissions(Permissions::from_mode(mode))?;
        }
        self.file.sync_all()
    }

    /// Gives it a further name, if nothing has that.
    fn link(&self, path: &Path) -> io::Result<()> {
        match &self.name {
            Some(name) => fs::hard_link(name, path),
            None => system::link(&self.file, &CString::new(path.as_os_str().as_bytes())?),
        }
    }

    /// Puts it in its place: where nothing stands, or by force over what stands there.
    pub fn put(&mut self, path: &Path, force: bool) -> io::Result<()> {
        match (self.link(path), &self.name) {
            (Ok(()), _) => Ok(()),
            (Err(error), _) if error.kind() == ErrorKind::AlreadyExists && force => self.replace(path),
            // a file system without links
            (Err(error), Some(name)) if error.kind() != ErrorKind::AlreadyExists && !path.exists() => {
                fs::rename(name, path)
            }
            (linked, _) => linked,
        }
    }

    /// Puts it over what stands there. A rename needs a name, which it has no longer than for that.
    fn replace(&mut self, path: &Path) -> io::Result<()> {
        let name = match self.name.take() {
            Some(name) => name,
            None => with_name(&self.folder, |name| self.link(name))?.0,
        };
        fs::rename(self.name.insert(name), path)
    }
}

#[cfg(test)]
mod tests {
    use super::*;

    fn names(folder: &Path) -> Vec<String> {
        let entries = fs::read_dir(folder).unwrap();
        entries.map(|entry| entry.unwrap().file_name().into_string().unwrap()).collect()
    }

    /// Both kinds, on every file system: a place that is free, one that is taken, and one that is taken by force.
    #[test]
    fn files_of_both_kinds_are_put_in_their_place() {
        let folder = std::env::temp_dir().join(format!("labrador-temporary-{}", std::process::id()));
        fs::create_dir_all(&folder).unwrap();
        let kinds: [fn(&Path, bool) -> io::Result<Temporary>; 2] = [Temporary::new, Temporary::named];
        for kind in kinds {
            let place = folder.join("a");
            for (bytes, force, stands) in
                [("first", false, "first"), ("second", false, "first"), ("third", true, "third")]
            {
                let mut file = kind(&folder, true).unwrap();
                file.write(bytes.as_bytes()).and_then(|()| file.finish(None)).unwrap();
                assert_eq!(file.put(&place, force).is_ok(), bytes == stands);
                drop(file);
                assert_eq!(
                    (fs::read_to_string(&place).unwrap().as_str(), names(&folder)),
                    (stands, vec!["a".to_string()])
                );
            }
            assert_eq!(fs::metadata(&place).unwrap().permissions().mode() & 0o777, 0o600);
            fs::remove_file(&place).unwrap();
        }
        let named = Temporary::named(&folder, false).unwrap();
        let [name] = &names(&folder)[..] else { panic!("one name") };
        assert!(name.starts_with(".labrador-") && name.len() == 26, "{name}");
        drop(named);
        fs::remove_dir(&folder).expect("nothing is left");
    }
}
