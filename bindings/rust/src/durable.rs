use crate::folder::Folder;
use crate::handle::Handle;
use crate::submit::Sealed;
use crate::sys::lattice_node;
use crate::{Ask, Config, Error, Submit};
use std::fmt;
use std::fs::{File, TryLockError};
use std::io::{self, ErrorKind, Write};
use std::path::{Path, PathBuf};

/// Why a [`Durable`] was not opened, or did not do a call. A `main` that returns it prints a name
/// alone: `{error}` is its text.
#[derive(Debug)]
#[non_exhaustive]
pub enum DurableError {
    /// The library refuses it. The node and its journal are as before.
    Refused(Error),
    /// The journal is damaged: from this line on, counted from 1, it can't be played. It is as before.
    /// No older copy may be put in its place: the replica stays away.
    Damaged {
        /// The line.
        line: usize,
    },
    /// This process or another has the folder.
    Locked,
    /// No `journal` is in the folder to be opened, and none was made: its disk may not be mounted. If
    /// it is lost, the replica must never run again. A first start is [`Durable::create`].
    JournalMissing {
        /// The folder.
        folder: PathBuf,
    },
    /// A `journal` is in the folder where one was to be made, though perhaps an empty one. It is as
    /// before: [`Durable::open`] opens it.
    JournalThere {
        /// The folder.
        folder: PathBuf,
    },
    /// A file can't be opened, read, written or synced, or there is no memory for what is to be
    /// written. An open node is closed by it: the last calls are in its journal or not, and it has to
    /// be opened anew.
    Disk(io::Error),
    /// The node is closed, by an earlier failure of the disk or by a batch that panicked.
    Closed,
}

impl fmt::Display for DurableError {
    fn fmt(&self, f: &mut fmt::Formatter<'_>) -> fmt::Result {
        match self {
            DurableError::Refused(refused) => refused.fmt(f),
            DurableError::Damaged { line } => {
                let what = "No older copy may be put in its place: the replica stays away";
                write!(f, "the journal is damaged from line {line} on. {what}")
            }
            DurableError::Locked => f.write_str("this process or another has the folder"),
            DurableError::JournalMissing { folder } => {
                let what = "mount its disk; if it is lost, never run this replica again";
                let first = "a first start is `Durable::create`";
                write!(f, "{}: nothing here: {what}; {first}", folder.display())
            }
            DurableError::JournalThere { folder } => {
                let what = "a journal is made once, and `Durable::open` opens it";
                write!(f, "{}: there is a journal: {what}", folder.display())
            }
            DurableError::Disk(error) => write!(f, "the journal's folder or disk failed: {error}"),
            DurableError::Closed => f.write_str("the node is closed, and has to be opened anew"),
        }
    }
}

impl std::error::Error for DurableError {
    fn source(&self) -> Option<&(dyn std::error::Error + 'static)> {
        match self {
            DurableError::Refused(refused) => Some(refused),
            DurableError::Disk(error) => Some(error),
            _ => None,
        }
    }
}

impl From<Error> for DurableError {
    fn from(refused: Error) -> DurableError {
        DurableError::Refused(refused)
    }
}

impl From<io::Error> for DurableError {
    fn from(error: io::Error) -> DurableError {
        DurableError::Disk(error)
    }
}

impl From<TryLockError> for DurableError {
    fn from(refused: TryLockError) -> DurableError {
        match refused {
            TryLockError::WouldBlock => DurableError::Locked,
            TryLockError::Error(error) => DurableError::Disk(error),
        }
    }
}

/// A replica of a group with a journal on a disk, by which it comes back under its number after its
/// process has ended, at whatever moment: [`Submit`] has what it takes, and [`Ask`] what it tells.
///
/// Every call that takes something answers once it is on the disk, and nothing is told before. One
/// sync for several calls is [`batch`](Durable::batch).
///
/// The journal is a file in a folder, which is the same as a folder of `lattice init` and `lattice
/// node --journal`: each of the two may go on where the other ended. It has neither the objects nor
/// what was handed out by [`Ask::next_learnt`]: after each start the objects are added again, and all
/// that the view has is handed out again, so that an object of one's own is built anew.
///
/// **A node whose journal is lost, or is older than the node, must never come back under its number.**
/// It would give an id to two updates, or accept what it had refused. So a journal is made once, by
/// [`create`](Durable::create), where a person says that the replica never was. Every other start is
/// [`open`](Durable::open), which makes none: a folder may be empty because its disk is not mounted.
/// And a copy of a journal is never started, but where the folder moves, and is then used nowhere
/// else.
///
/// ```
/// use lattice_agreement::{Ask, Config, Durable, DurableError, Kind, Submit};
///
/// # fn main() -> Result<(), DurableError> {
/// # let folder = std::env::temp_dir().join(format!("lattice-durable-{}", std::process::id()));
/// # std::fs::create_dir(&folder)?;
/// // Once, before the first start.
/// Durable::create(&Config::new(1, 0), &folder)?;
/// for life in 1..=3 {
///     let mut node = Durable::open(&Config::new(1, 0), &folder)?;
///     node.add(7, Kind::Counter)?;
///     assert_eq!(node.inc(7, 5)?, life);
///     assert_eq!(node.total(7)?, 5 * i64::from(life));
/// }
/// # std::fs::remove_dir_all(&folder)?;
/// # Ok(())
/// # }
/// ```
///
/// After [`DurableError::Disk`] from an open node every further call answers
/// [`DurableError::Closed`].
pub struct Durable {
    handle: Handle,
    file: File,
    record: Vec<u8>,
    closed: bool,
    // (last, as it goes last)
    _folder: Folder,
}

impl Durable {
    /// Makes the journal of a folder where none stands, and opens it: a replica in which nothing has
    /// happened. It is for the first start of a replica that never was, once: one whose journal is
    /// lost must not begin anew. The folder has to exist.
    ///
    /// [`DurableError::JournalThere`] comes where anything stands under the name `journal`, also an
    /// empty file, and [`DurableError::Locked`] where this process or another has the folder. Else
    /// `Refused` has [`Error::BadGroup`], [`Error::NoReplica`] or [`Error::Memory`], and no journal
    /// was made. A crash, or [`DurableError::Disk`], leaves no journal, and this may be called again,
    /// or the whole, which [`open`](Durable::open) opens.
    ///
    /// ```
    /// use lattice_agreement::{Config, Durable, DurableError};
    ///
    /// # fn main() -> Result<(), DurableError> {
    /// # let folder = std::env::temp_dir().join(format!("lattice-create-{}", std::process::id()));
    /// # std::fs::create_dir(&folder)?;
    /// let early = Durable::open(&Config::new(3, 0), &folder);
    /// assert!(matches!(early, Err(DurableError::JournalMissing { .. })));
    /// drop(Durable::create(&Config::new(3, 0), &folder)?);
    /// let again = Durable::create(&Config::new(3, 0), &folder);
    /// assert!(matches!(again, Err(DurableError::JournalThere { .. })));
    /// # std::fs::remove_dir_all(&folder)?;
    /// # Ok(())
    /// # }
    /// ```
    ///
    /// # Panics
    ///
    /// Where the library that is linked has another version of the interface than this crate.
    pub fn create(config: &Config, folder: impl AsRef<Path>) -> Result<Durable, DurableError> {
        let path = folder.as_ref();
        let folder = Folder::take(path)?;
        if folder.has_journal()? {
            return Err(DurableError::JournalThere { folder: path.to_path_buf() });
        }
        let first = Handle::first_journal(config)?;
        Durable::recover(config, folder, first)
    }

    /// Opens the journal of a folder, which was made once, by [`create`](Durable::create) or `lattice
    /// init`, and makes the node by it. What a crash left of a record goes.
    ///
    /// [`DurableError::JournalMissing`] comes where no journal is in the folder, and none is made,
    /// [`DurableError::Locked`] where this process or another has the folder, and
    /// [`DurableError::Disk`] where there is no folder, or a file can't be opened, read or written.
    /// Else `Refused` has [`Error::BadGroup`], [`Error::NoReplica`], [`Error::NoJournal`], as of an
    /// empty file, [`Error::OtherJournal`] or [`Error::Memory`], or it is [`DurableError::Damaged`];
    /// then the journal is as before.
    ///
    /// ```
    /// use lattice_agreement::{Config, Durable, DurableError, Error};
    ///
    /// # fn main() -> Result<(), DurableError> {
    /// # let folder = std::env::temp_dir().join(format!("lattice-open-{}", std::process::id()));
    /// # std::fs::create_dir(&folder)?;
    /// drop(Durable::create(&Config::new(3, 0), &folder)?);
    /// let node = Durable::open(&Config::new(3, 0), &folder)?;
    /// let again = Durable::open(&Config::new(3, 0), &folder);
    /// assert!(matches!(again, Err(DurableError::Locked)));
    /// drop(node);
    /// let other = Durable::open(&Config::new(3, 1), &folder);
    /// assert!(matches!(other, Err(DurableError::Refused(Error::OtherJournal))));
    /// # std::fs::remove_dir_all(&folder)?;
    /// # Ok(())
    /// # }
    /// ```
    ///
    /// # Panics
    ///
    /// Where the library that is linked has another version of the interface than this crate.
    pub fn open(config: &Config, folder: impl AsRef<Path>) -> Result<Durable, DurableError> {
        let path = folder.as_ref();
        let folder = Folder::take(path)?;
        let missing = || DurableError::JournalMissing { folder: path.to_path_buf() };
        let found = folder.read()?.ok_or_else(missing)?;
        Durable::recover(config, folder, found)
    }

    // Makes the node by what was found in its journal, or is to be the first there. A new file comes in
    // the journal's place, on the disk: what was found need not be there yet.
    fn recover(
        config: &Config,
        folder: Folder,
        mut found: Vec<u8>,
    ) -> Result<Durable, DurableError> {
        let (handle, keep) = Handle::recover(config, &found)?;
        found.truncate(keep);
        let file = folder.replace(&found)?;
        Ok(Durable { handle, file, record: Vec::new(), closed: false, _folder: folder })
    }

    /// Makes several calls with one sync: whatever they took is on the disk once this answers what
    /// they do.
    ///
    /// Until then nothing of it is to be told to anybody, so that a submission answers a [`Pending`],
    /// whose number [`Durable::number`] tells afterwards, and nothing is asked in between. A call that
    /// is refused changes nothing, and what was taken before it stays.
    ///
    /// [`DurableError::Disk`] and [`DurableError::Closed`] come as from each call. What the calls were
    /// refused with is theirs to answer, so that a second `?` stands behind the first.
    ///
    /// ```
    /// use lattice_agreement::{Ask, Config, Durable, DurableError, Error, Kind, Submit};
    ///
    /// # fn main() -> Result<(), DurableError> {
    /// # let folder = std::env::temp_dir().join(format!("lattice-batch-{}", std::process::id()));
    /// # std::fs::create_dir(&folder)?;
    /// # let lines = [b"hello"];
    /// let mut node = Durable::create(&Config::new(1, 0), &folder)?;
    /// node.add(7, Kind::Counter)?;
    /// let (first, second) = node.batch(|batch| {
    ///     for line in &lines {
    ///         // `receive` says which refusals are harmless.
    ///         if let Err(refused) = batch.receive(*line) {
    ///             eprintln!("a line is refused: {refused}");
    ///         }
    ///     }
    ///     Ok::<_, Error>((batch.inc(7, 5)?, batch.inc(7, 2)?))
    /// })??;
    /// assert_eq!((node.number(first)?, node.number(second)?), (1, 2));
    /// node.batch(|batch| {
    ///     batch.dec(7, 3)?;
    ///     Ok::<(), Error>(())
    /// })??;
    /// assert_eq!(node.total(7)?, 4);
    /// # std::fs::remove_dir_all(&folder)?;
    /// # Ok(())
    /// # }
    /// ```
    pub fn batch<T>(&mut self, calls: impl FnOnce(&mut Batch<'_>) -> T) -> Result<T, DurableError> {
        self.handle()?;
        // So it stays where the calls panic, or the disk fails.
        self.closed = true;
        let done = calls(&mut Batch { handle: &mut self.handle });
        self.keep()?;
        self.closed = false;
        Ok(done)
    }

    /// The number of a submission of one of this node's batches.
    ///
    /// [`DurableError::Closed`] comes where the node is closed: then the submission is in the journal
    /// or not.
    pub fn number(&self, pending: Pending) -> Result<u32, DurableError> {
        self.handle()?;
        Ok(pending.number)
    }

    // Puts what was taken since the last record behind the file, and has it on the disk.
    fn keep(&mut self) -> io::Result<()> {
        let lost = |_| io::Error::from(ErrorKind::OutOfMemory);
        if let Some(record) = self.handle.next_record(&mut self.record).map_err(lost)? {
            self.file.write_all(record)?;
            self.file.sync_data()?;
            self.handle.synced().map_err(lost)?;
        }
        Ok(())
    }
}

impl fmt::Debug for Durable {
    fn fmt(&self, f: &mut fmt::Formatter<'_>) -> fmt::Result {
        f.debug_struct("Durable")
            .field("submitted", &self.submitted().ok())
            .field("view", &self.view().ok())
            .finish_non_exhaustive()
    }
}

impl Sealed for Durable {}

impl Submit for Durable {
    type Number = u32;
    type Refused = DurableError;

    fn take(
        &mut self,
        call: impl FnOnce(*mut lattice_node, &mut u32) -> u8,
    ) -> Result<u32, DurableError> {
        let pending = self.batch(|batch| batch.take(call))??;
        self.number(pending)
    }
}

impl Ask for Durable {
    type Refused = DurableError;

    fn handle(&self) -> Result<&Handle, DurableError> {
        if self.closed { Err(DurableError::Closed) } else { Ok(&self.handle) }
    }
}

/// A [`Durable`] while several calls are made with one sync: it takes, and tells nothing.
pub struct Batch<'a> {
    handle: &'a mut Handle,
}

impl fmt::Debug for Batch<'_> {
    fn fmt(&self, f: &mut fmt::Formatter<'_>) -> fmt::Result {
        f.debug_struct("Batch").finish_non_exhaustive()
    }
}

/// The number of a submission of a batch, which [`Durable::number`] tells once the batch is on the
/// disk.
#[derive(Debug)]
pub struct Pending {
    number: u32,
}

impl Sealed for Batch<'_> {}

impl Submit for Batch<'_> {
    type Number = Pending;
    type Refused = Error;

    fn take(
        &mut self,
        call: impl FnOnce(*mut lattice_node, &mut u32) -> u8,
    ) -> Result<Pending, Error> {
        let mut number = 0;
        Error::of(call(self.handle.at(), &mut number))?;
        Ok(Pending { number })
    }
}

#[cfg(test)]
mod tests {
    use super::*;
    use crate::Kind;
    use std::fs::{self, OpenOptions};
    use std::os::fd::OwnedFd;
    use std::panic::{AssertUnwindSafe, catch_unwind};

    fn folder(name: &str) -> PathBuf {
        let path = std::env::temp_dir().join(format!("lattice-{}-{name}", std::process::id()));
        fs::create_dir(&path).unwrap();
        path
    }

    /// A node that answered one submission.
    fn begun(folder: &Path) -> Durable {
        let mut node = Durable::create(&Config::new(1, 0), folder).unwrap();
        node.add(1, Kind::Counter).unwrap();
        assert_eq!(node.inc(1, 5).unwrap(), 1);
        node
    }

    fn check_closed(mut node: Durable, folder: &Path) {
        assert!(matches!(node.inc(1, 5), Err(DurableError::Closed)));
        assert!(matches!(node.again(), Err(DurableError::Closed)));
        assert!(matches!(node.batch(|_| ()), Err(DurableError::Closed)));
        assert!(matches!(node.total(1), Err(DurableError::Closed)));
        assert!(matches!(node.known(1), Err(DurableError::Closed)));
        assert!(matches!(node.next_mail(), Err(DurableError::Closed)));
        assert!(matches!(node.learnt().next(), Some(Err(DurableError::Closed))));
        drop(node);
        let mut again = Durable::open(&Config::new(1, 0), folder).unwrap();
        again.add(1, Kind::Counter).unwrap();
        assert_eq!((again.submitted().unwrap(), again.total(1).unwrap()), (1, 5));
        fs::remove_dir_all(folder).unwrap();
    }

    #[test]
    fn a_write_that_fails_closes_the_node() {
        let folder = folder("full");
        let mut node = begun(&folder);
        node.file = OpenOptions::new().write(true).open("/dev/full").unwrap();
        let Err(DurableError::Disk(error)) = node.inc(1, 5) else {
            panic!("a full disk takes it");
        };
        assert_eq!(error.kind(), ErrorKind::StorageFull);
        check_closed(node, &folder);
    }

    #[test]
    fn a_sync_that_fails_closes_the_node() {
        let folder = folder("unsynced");
        let mut node = begun(&folder);
        let (_reader, writer) = io::pipe().unwrap();
        node.file = File::from(OwnedFd::from(writer)); // (a pipe takes bytes, and syncs none)
        let submission = node.batch(|batch| batch.inc(1, 5));
        assert!(matches!(submission, Err(DurableError::Disk(_))));
        check_closed(node, &folder);
    }

    #[test]
    fn a_batch_that_panics_closes_the_node() {
        let folder = folder("panicked");
        let mut node = begun(&folder);
        let mut left = None;
        let calls = AssertUnwindSafe(|| {
            node.batch(|batch| {
                left = batch.inc(1, 5).ok();
                panic!("as is wanted here");
            })
        });
        assert!(catch_unwind(calls).is_err());
        assert!(matches!(node.number(left.unwrap()), Err(DurableError::Closed)));
        check_closed(node, &folder);
    }
}
