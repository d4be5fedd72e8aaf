//! The handle of a node, as nodes with a journal and without one have it.

use crate::sys::{self, lattice_node};
use crate::{Config, DurableError, Error, Mail};
use std::cell::{RefCell, UnsafeCell};
use std::ptr::null_mut;

// How long a line of a message has room at first.
const LINE_BYTES: usize = 512;
// More than the bytes that a journal begins with.
const FIRST_BYTES: usize = 256;

/// A live handle, and a buffer for lines.
pub struct Handle {
    // A question changes what is behind the handle, though no answer.
    place: UnsafeCell<lattice_node>,
    line: RefCell<Vec<u8>>,
}

// SAFETY: what a handle leads to is its own alone, and bound to no thread.
unsafe impl Send for Handle {}

impl Drop for Handle {
    fn drop(&mut self) {
        let at = self.place.get_mut().at;
        // SAFETY: the library gave it, and nobody has it after this.
        unsafe { sys::lattice_node_free(lattice_node { at }) }
    }
}

fn check_version() {
    // SAFETY: it takes nothing.
    let version = unsafe { sys::lattice_version() };
    assert_eq!(version, sys::VERSION, "another version of liblattice");
}

impl Handle {
    fn of(place: lattice_node) -> Handle {
        Handle { place: UnsafeCell::new(place), line: RefCell::new(vec![0; LINE_BYTES]) }
    }

    /// Of a node in which nothing has happened.
    pub(crate) fn new(config: &Config) -> Result<Handle, Error> {
        check_version();
        let mut place = lattice_node { at: null_mut() };
        let votes = &config.votes;
        // SAFETY: the votes are as many as is said, and the place is a local.
        let status = unsafe {
            sys::lattice_node_new(
                config.replicas,
                config.own,
                config.commits,
                config.cap,
                votes.as_ptr(),
                votes.len(),
                &mut place,
            )
        };
        Error::of(status)?;
        Ok(Handle::of(place))
    }

    /// The bytes of the journal that a node begins with.
    pub(crate) fn first_journal(config: &Config) -> Result<Vec<u8>, Error> {
        check_version();
        let mut bytes = vec![0; FIRST_BYTES];
        let (votes, mut len) = (&config.votes, 0);
        // SAFETY: the votes are as many as is said, the buffer has the room that is said, and the
        // length goes to a local.
        let status = unsafe {
            sys::lattice_first_journal(
                config.replicas,
                config.own,
                config.commits,
                config.cap,
                votes.as_ptr(),
                votes.len(),
                bytes.as_mut_ptr(),
                bytes.len(),
                &mut len,
            )
        };
        Error::of(status)?;
        bytes.truncate(len);
        Ok(bytes)
    }

    /// Of a node by what was found in its journal, and how many of these bytes the file is to keep.
    pub(crate) fn recover(config: &Config, found: &[u8]) -> Result<(Handle, usize), DurableError> {
        check_version();
        let mut place = lattice_node { at: null_mut() };
        let (mut keep, mut line) = (0, 0);
        let votes = &config.votes;
        // SAFETY: the votes and the bytes are as many as is said, and the rest goes to locals.
        let status = unsafe {
            sys::lattice_node_recover(
                config.replicas,
                config.own,
                config.commits,
                config.cap,
                votes.as_ptr(),
                votes.len(),
                found.as_ptr(),
                found.len(),
                &mut keep,
                &mut line,
                &mut place,
            )
        };
        if status == sys::DAMAGED {
            return Err(DurableError::Damaged { line });
        }
        Error::of(status)?;
        Ok((Handle::of(place), keep))
    }

    /// The handle for a call. It is not `Sync`, and no call calls back, so that this is the only one
    /// while it lasts.
    pub(crate) fn at(&self) -> *mut lattice_node {
        self.place.get()
    }

    /// The next message that is to be sent.
    pub(crate) fn next_mail(&self) -> Result<Option<Mail>, Error> {
        let (mut to, mut len) = (0, 0);
        let mut line = self.line.borrow_mut();
        loop {
            // SAFETY: the buffer has the room that is said, and the rest goes to locals.
            let status = unsafe {
                sys::lattice_next_mail(self.at(), &mut to, line.as_mut_ptr(), line.len(), &mut len)
            };
            match status {
                sys::NONE => return Ok(None),
                sys::SMALL => line.resize(len, 0),
                _ => break Error::of(status)?,
            }
        }
        Ok(Some(Mail { to, line: line[..len].to_vec() }))
    }

    /// What is to be put behind the journal's bytes next, in a buffer that grows where it has to;
    /// `None` where there is nothing.
    pub(crate) fn next_record<'a>(
        &mut self,
        buffer: &'a mut Vec<u8>,
    ) -> Result<Option<&'a [u8]>, Error> {
        let mut len = 0;
        loop {
            let (at, room) = (self.at(), buffer.len());
            // SAFETY: the buffer has the room that is said, and the length goes to a local.
            match unsafe { sys::lattice_next_record(at, buffer.as_mut_ptr(), room, &mut len) } {
                sys::NONE => return Ok(None),
                sys::SMALL => buffer.resize(len, 0),
                status => break Error::of(status)?,
            }
        }
        Ok(Some(&buffer[..len]))
    }

    /// Says that the last record is on the disk.
    pub(crate) fn synced(&mut self) -> Result<(), Error> {
        // SAFETY: the handle is live, and this call's alone.
        Error::of(unsafe { sys::lattice_synced(self.at()) })
    }
}
