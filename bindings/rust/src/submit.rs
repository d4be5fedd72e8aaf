use crate::sys::{self, lattice_node};
use crate::{Error, Kind, Operation};

/// Only this crate has nodes.
pub trait Sealed {}

/// What a node takes: objects, submissions, proposals and the lines of other nodes. A
/// [`Node`](crate::Node) takes them at once, a [`Durable`](crate::Durable) answers each when it is on
/// the disk, and a [`Batch`](crate::Batch) puts several there together.
///
/// What is submitted is learnt later, or never. The update with number `n` of replica `r` is learnt
/// here once `view()?[r] >= n`, by [`Ask::view`](crate::Ask::view), and at another replica `q`, as far
/// as was heard, once `known(q)?[r] >= n`, by [`Ask::known`](crate::Ask::known). A group that has
/// settled is silent: [`again`](Submit::again) then sends nothing, and what `q` has of others' updates
/// may never be heard here. So leave once `known(q)?[own] >= submitted()?` for each other `q`: until
/// then `again` tells them. Whoever leaves before the others may leave them without a majority.
///
/// Every call is refused with [`Error::Memory`] where memory is refused. After each refusal the node
/// is as before.
pub trait Submit: Sealed {
    /// The number of a submission among those of the node, from 1.
    type Number;

    /// Why a call was not done.
    type Refused: From<Error>;

    /// Makes a call with the handle, and a place for the number of a submission.
    #[doc(hidden)]
    fn take(
        &mut self,
        call: impl FnOnce(*mut lattice_node, &mut u32) -> u8,
    ) -> Result<Self::Number, Self::Refused>;

    /// Adds an object under a number. All nodes of a group have the same objects under the same
    /// numbers; an object that is added later has what was learnt before. It is in no journal.
    ///
    /// [`Error::Taken`] comes where the number has an object.
    fn add(&mut self, object: u16, kind: Kind) -> Result<(), Self::Refused> {
        // SAFETY: the handle is live, and this call's alone; so it is in every call below.
        self.take(|at, _| unsafe { sys::lattice_add(at, object, kind as u8) }).map(drop)
    }

    /// Adds so much to a counter, and answers the update's number among this node's. It counts once
    /// it is learnt.
    ///
    /// [`Error::Full`] comes where the node has submitted its cap; so it does from every call that
    /// submits.
    fn inc(&mut self, object: u16, by: u32) -> Result<Self::Number, Self::Refused> {
        // SAFETY: the number goes to a place of the caller's; so it does below.
        self.take(|at, number| unsafe { sys::lattice_inc(at, object, by, number) })
    }

    /// Takes so much off a counter.
    fn dec(&mut self, object: u16, by: u32) -> Result<Self::Number, Self::Refused> {
        // SAFETY: as in `inc`.
        self.take(|at, number| unsafe { sys::lattice_dec(at, object, by, number) })
    }

    /// Makes a max register at least this value.
    fn raise(&mut self, object: u16, to: u64) -> Result<Self::Number, Self::Refused> {
        // SAFETY: as in `inc`.
        self.take(|at, number| unsafe { sys::lattice_raise(at, object, to, number) })
    }

    /// Puts an element into a set.
    fn put(&mut self, object: u16, element: u64) -> Result<Self::Number, Self::Refused> {
        // SAFETY: as in `inc`.
        self.take(|at, number| unsafe { sys::lattice_put(at, object, element, number) })
    }

    /// Takes an element out of a set, as far as this node's view has it: what another node puts in
    /// at the same time stays, and so does a put of this node's own that the view lacks.
    ///
    /// [`Error::NoObject`] comes where there is no such object, [`Error::TooManyTags`] where the view
    /// has over 64 puts of the element that stand.
    fn remove(&mut self, object: u16, element: u64) -> Result<Self::Number, Self::Refused> {
        // SAFETY: as in `inc`.
        self.take(|at, number| unsafe { sys::lattice_remove(at, object, element, number) })
    }

    /// Submits what changes no object. Once it is learnt, the view has all that anybody had learnt
    /// before it was submitted.
    fn mark(&mut self, object: u16) -> Result<Self::Number, Self::Refused> {
        // SAFETY: as in `inc`.
        self.take(|at, number| unsafe { sys::lattice_mark(at, object, number) })
    }

    /// Submits an operation of one's own: bytes that [`Ask::next_learnt`](crate::Ask::next_learnt)
    /// and [`Ask::absorb_into`](crate::Ask::absorb_into) hand out at every node, and that no object
    /// here takes.
    ///
    /// [`Error::TooLarge`] comes exactly above [`OWN_BYTES`](crate::OWN_BYTES) bytes.
    fn own(&mut self, object: u16, bytes: &[u8]) -> Result<Self::Number, Self::Refused> {
        // SAFETY: as in `inc`, and the bytes are as many as is said.
        self.take(|at, number| unsafe {
            sys::lattice_own(at, object, bytes.as_ptr(), bytes.len(), number)
        })
    }

    /// Submits an operation as this node's update with this number, so that it counts once, however
    /// often it is asked for: under a number that has this very operation nothing changes.
    ///
    /// [`Error::BadKind`] comes for a removal and a vote, [`Error::TooLarge`] where an amount is over
    /// [`u32::MAX`] or there are over [`OWN_BYTES`](crate::OWN_BYTES) bytes, [`Error::Stale`] where
    /// something else has this number, and [`Error::Ahead`] where nothing has it and it is not the
    /// next.
    ///
    /// ```
    /// use lattice_agreement::{Ask, Config, Error, Node, Operation, Submit};
    ///
    /// # fn main() -> Result<(), Error> {
    /// let mut node = Node::new(&Config::new(1, 0))?;
    /// node.submit_at(1, 7, &Operation::Inc(5))?;
    /// node.submit_at(1, 7, &Operation::Inc(5))?;
    /// assert_eq!(node.submitted()?, 1);
    /// assert_eq!(node.submit_at(1, 7, &Operation::Inc(6)), Err(Error::Stale));
    /// assert_eq!(node.submit_at(3, 7, &Operation::Inc(6)), Err(Error::Ahead));
    /// # Ok(())
    /// # }
    /// ```
    fn submit_at(
        &mut self,
        number: u32,
        object: u16,
        operation: &Operation,
    ) -> Result<(), Self::Refused> {
        let (kind, value, bytes) = operation.parts();
        // SAFETY: the bytes are as many as is said.
        let call = |at, _: &mut u32| unsafe {
            sys::lattice_submit_at(at, number, object, kind, value, bytes.as_ptr(), bytes.len())
        };
        self.take(call).map(drop)
    }

    /// Proposes a value to an adopt-commit object.
    ///
    /// [`Error::NoCommit`] comes where there is no such object, [`Error::AlreadyProposed`] where this
    /// node has proposed to it.
    fn propose(&mut self, commit: u8, value: u64) -> Result<(), Self::Refused> {
        // SAFETY: as in `add`.
        self.take(|at, _| unsafe { sys::lattice_propose(at, commit, value) }).map(drop)
    }

    /// Takes a line that another node wanted sent here, without its end. Lines may be lost, come again
    /// and in any order. None may be shortened or changed, or made up by whoever is no node of the
    /// group: what a broken connection left of a line is dropped, as it may be another valid message.
    ///
    /// These refusals are harmless: the line is passed over. [`Error::TooLong`], [`Error::BadLine`] and
    /// [`Error::BadNumber`] come where it is no message, [`Error::NoMessage`] where it is what a client
    /// asks of a node, [`Error::Elsewhere`] where it is for another replica or group.
    /// [`Error::Memory`] loses it, as a transport may.
    ///
    /// [`Error::Clash`] and [`Error::Gap`] say that a node came back with less than it had, that a line
    /// was changed on its way, or that somebody lies. Then what nodes tell may be wrong: the program
    /// stops, and a person has to look. The same holds of any other refusal, as of
    /// [`Error::NoInstance`], which comes where a node has a [`Config`](crate::Config) with another
    /// `commits`.
    ///
    /// ```
    /// use lattice_agreement::{Config, Error, Node, Submit};
    ///
    /// # fn main() -> Result<(), Error> {
    /// let mut node = Node::new(&Config::new(3, 0))?;
    /// assert_eq!(node.receive(b"hello"), Err(Error::BadLine));
    /// # Ok(())
    /// # }
    /// ```
    fn receive(&mut self, line: &[u8]) -> Result<(), Self::Refused> {
        // SAFETY: the bytes are as many as is said.
        self.take(|at, _| unsafe { sys::lattice_receive(at, line.as_ptr(), line.len()) }).map(drop)
    }

    /// Wants all that waits for an answer sent once more, but what the others are known to have. It
    /// is to be called by a timer at each node, as one call may not do: without it, what a transport
    /// loses stays lost. Where all is known, it sends nothing.
    fn again(&mut self) -> Result<(), Self::Refused> {
        // SAFETY: as in `add`.
        self.take(|at, _| unsafe { sys::lattice_again(at) }).map(drop)
    }
}
