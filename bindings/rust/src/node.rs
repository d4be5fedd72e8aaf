use crate::handle::Handle;
use crate::submit::Sealed;
use crate::sys::lattice_node;
use crate::{Ask, Config, Error, Submit};
use std::fmt;

/// A replica of a group, which is in memory alone: [`Submit`] has what it takes, and [`Ask`] what it
/// tells. It may go to another thread, and one thread at a time uses it.
///
/// ```
/// fn may_move<T: Send>() {}
/// may_move::<lattice_agreement::Node>();
/// ```
///
/// ```compile_fail
/// fn may_be_shared<T: Sync>() {}
/// may_be_shared::<lattice_agreement::Node>();
/// ```
///
/// Once it was dropped, or its process ended, no node may ever come back under its number: a
/// [`Durable`](crate::Durable) can. A process that forks has its nodes twice: the copy must not use
/// them.
pub struct Node {
    handle: Handle,
}

impl Node {
    /// A replica in which nothing has happened.
    ///
    /// [`Error::BadGroup`] comes where a number of the group is out of its range,
    /// [`Error::NoReplica`] where `own` is no replica of it, and [`Error::Memory`].
    ///
    /// ```
    /// use lattice_agreement::{Config, Error, Node};
    ///
    /// assert_eq!(Node::new(&Config::new(9, 0)).err(), Some(Error::BadGroup));
    /// assert_eq!(Node::new(&Config::new(3, 3)).err(), Some(Error::NoReplica));
    /// ```
    ///
    /// # Panics
    ///
    /// Where the library that is linked has another version of the interface than this crate.
    pub fn new(config: &Config) -> Result<Node, Error> {
        Ok(Node { handle: Handle::new(config)? })
    }
}

impl fmt::Debug for Node {
    fn fmt(&self, f: &mut fmt::Formatter<'_>) -> fmt::Result {
        f.debug_struct("Node")
            .field("submitted", &self.submitted().unwrap_or_default())
            .field("view", &self.view().unwrap_or_default())
            .finish_non_exhaustive()
    }
}

impl Sealed for Node {}

impl Submit for Node {
    type Number = u32;
    type Refused = Error;

    fn take(&mut self, call: impl FnOnce(*mut lattice_node, &mut u32) -> u8) -> Result<u32, Error> {
        let mut number = 0;
        Error::of(call(self.handle.at(), &mut number))?;
        Ok(number)
    }
}

impl Ask for Node {
    type Refused = Error;

    fn handle(&self) -> Result<&Handle, Error> {
        Ok(&self.handle)
    }
}
