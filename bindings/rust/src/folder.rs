//! A folder with a journal, as `lattice node --journal` has it: `journal`, and `lock`, which one
//! process holds at a time. `journal.new` is written and then renamed over `journal`.

use std::fs::{self, File, OpenOptions, TryLockError};
use std::io::{self, ErrorKind, Write};
use std::os::unix::fs::OpenOptionsExt;
use std::path::{Path, PathBuf};

// The owner reads and writes it, and nobody else.
const PRIVATE: u32 = 0o600;

/// A folder that this process has, until this is dropped.
pub(crate) struct Folder {
    path: PathBuf,
    lock: File,
}

impl Drop for Folder {
    // Closing the lock's file lets nobody else have the folder while a process that was forked has it
    // too, as one has that is about to begin another program.
    fn drop(&mut self) {
        let _closed = self.lock.unlock();
    }
}

impl Folder {
    /// Takes a folder, which has to exist.
    pub(crate) fn take(path: &Path) -> Result<Folder, TryLockError> {
        let mut options = OpenOptions::new();
        options.write(true).create(true).truncate(false).mode(PRIVATE);
        let lock = options.open(path.join("lock"));
        let lock = lock.map_err(|error| TryLockError::Error(in_folder(path, &error)))?;
        lock.try_lock()?;
        Ok(Folder { path: path.to_path_buf(), lock })
    }

    /// The journal's bytes; `None` where there is no journal.
    pub(crate) fn read(&self) -> io::Result<Option<Vec<u8>>> {
        unless_missing(fs::read(self.path.join("journal")))
    }

    /// Whether anything stands under the journal's name.
    pub(crate) fn has_journal(&self) -> io::Result<bool> {
        let found = fs::symlink_metadata(self.path.join("journal"));
        Ok(unless_missing(found)?.is_some())
    }

    /// Puts bytes in the journal's place, on the disk, and answers the file, for what comes behind
    /// them. A crash at any moment leaves these or what was there before, which may be none.
    pub(crate) fn replace(&self, bytes: &[u8]) -> io::Result<File> {
        let (journal, new) = (self.path.join("journal"), self.path.join("journal.new"));
        unless_missing(fs::remove_file(&new))?;
        let mut file = OpenOptions::new().append(true).create_new(true).mode(PRIVATE).open(&new)?;
        if let Some(before) = unless_missing(fs::metadata(&journal))? {
            file.set_permissions(before.permissions())?;
        }
        file.write_all(bytes)?;
        file.sync_all()?;
        fs::rename(&new, &journal)?;
        File::open(&self.path)?.sync_all()?;
        Ok(file)
    }
}

/// Why a folder was not opened, with its path.
fn in_folder(path: &Path, error: &io::Error) -> io::Error {
    let told = match error.kind() {
        ErrorKind::NotFound => format!("{}: the folder has to exist", path.display()),
        _ => format!("{}: {error}", path.display()),
    };
    io::Error::new(error.kind(), told)
}

fn unless_missing<T>(done: io::Result<T>) -> io::Result<Option<T>> {
    match done {
        Err(error) if error.kind() == ErrorKind::NotFound => Ok(None),
        other => other.map(Some),
    }
}
