use crate::handle::Handle;
use crate::submit::Sealed;
use crate::sys::{self, lattice_node};
use crate::{Absorb, Counts, Error, OWN_BYTES, Update};

/// A message that a node wants sent.
#[derive(Clone, Debug, PartialEq, Eq, Hash)]
pub struct Mail {
    /// The replica that it is for.
    pub to: u8,
    /// Its line: a text without an end of line in it, which
    /// [`Submit::receive`](crate::Submit::receive) takes there. It may be lost, come again and late,
    /// but never shortened or changed.
    pub line: Vec<u8>,
}

/// What a node returned from an adopt-commit object.
#[derive(Clone, Copy, Debug, PartialEq, Eq, Hash)]
pub enum Outcome {
    /// Every node that returns from this object has this value.
    Commit(u64),
    /// Another node may have another value, but then no node commits.
    Adopt(u64),
}

/// What a [`Node`](crate::Node) and a [`Durable`](crate::Durable) tell: their mail, what they have
/// learnt, and answers by the view.
///
/// [`Error::Memory`] may come from [`next_mail`](Ask::next_mail) and from each question about an
/// object; from these [`Error::NoObject`] too, where there is no such object, and [`Error::Foreign`],
/// where it is of another kind.
pub trait Ask: Sealed {
    /// Why a call was not done.
    type Refused: From<Error>;

    /// The handle, where the node still tells anything.
    #[doc(hidden)]
    fn handle(&self) -> Result<&Handle, Self::Refused>;

    /// The next message that is to be sent, which then is no longer there; `None` where there is
    /// none. After [`Error::Memory`] it still waits.
    fn next_mail(&mut self) -> Result<Option<Mail>, Self::Refused> {
        Ok(self.handle()?.next_mail()?)
    }

    /// The messages that are to be sent, one by one, until there is none.
    fn mail(&mut self) -> impl Iterator<Item = Result<Mail, Self::Refused>> {
        std::iter::from_fn(|| self.next_mail().transpose())
    }

    /// The next update that was learnt and not yet handed out; `None` where there is none further.
    /// Each is handed out once, of each replica in the order of numbers. A node that is opened anew
    /// begins with the first.
    fn next_learnt(&mut self) -> Result<Option<Update>, Self::Refused> {
        let at = self.handle()?.at();
        let mut own = [0; OWN_BYTES];
        let (mut told, mut len) = (sys::lattice_learnt::default(), 0);
        // SAFETY: the handle is live, and this call's alone; so it is in every call below. The buffer
        // has the room that is said, which is enough for each operation of one's own, and the rest
        // goes to locals.
        let status = unsafe {
            sys::lattice_next_learnt(at, &mut told, own.as_mut_ptr(), own.len(), &mut len)
        };
        if status == sys::NONE {
            return Ok(None);
        }
        Error::of(status)?;
        Ok(Some(Update::of(&told, &own[..len])))
    }

    /// The updates that were learnt and not yet handed out, one by one.
    fn learnt(&mut self) -> impl Iterator<Item = Result<Update, Self::Refused>> {
        std::iter::from_fn(|| self.next_learnt().transpose())
    }

    /// Hands all updates that were learnt and not yet handed out to an object of one's own, and
    /// answers how many there were. An object has to be handed all from the first on, so that a node
    /// has one such object, which may hold others, and which begins anew where the node is opened
    /// anew.
    fn absorb_into(&mut self, object: &mut impl Absorb) -> Result<usize, Self::Refused> {
        let mut count = 0;
        while let Some(update) = self.next_learnt()? {
            object.absorb(&update);
            count += 1;
        }
        Ok(count)
    }

    /// How many updates of each replica this node's view has.
    fn view(&self) -> Result<Counts, Self::Refused> {
        let mut counts = [0; 8];
        // SAFETY: the answer goes to a local; so it does below.
        Error::of(unsafe { sys::lattice_view(self.handle()?.at(), &mut counts) })?;
        Ok(counts)
    }

    /// How many updates of each replica another node's view has at least, as far as was heard: it may
    /// stay behind, once the group is silent. Of this node itself [`view`](Ask::view) says it.
    fn known(&self, replica: u8) -> Result<Counts, Self::Refused> {
        let mut counts = [0; 8];
        // SAFETY: as in `view`.
        Error::of(unsafe { sys::lattice_known(self.handle()?.at(), replica, &mut counts) })?;
        Ok(counts)
    }

    /// How many updates this node has submitted: the number of the last.
    fn submitted(&self) -> Result<u32, Self::Refused> {
        let mut number = 0;
        // SAFETY: as in `view`.
        Error::of(unsafe { sys::lattice_submitted(self.handle()?.at(), &mut number) })?;
        Ok(number)
    }

    /// What this node returned from an adopt-commit object; `None` before it did, and where there is
    /// no such object.
    fn outcome(&self, commit: u8) -> Result<Option<Outcome>, Self::Refused> {
        let at = self.handle()?.at();
        let (mut value, mut committed) = (0, 0);
        // SAFETY: as in `view`.
        let status = unsafe { sys::lattice_outcome(at, commit, &mut value, &mut committed) };
        if status == sys::NONE {
            return Ok(None);
        }
        Error::of(status)?;
        Ok(Some(if committed == 0 { Outcome::Adopt(value) } else { Outcome::Commit(value) }))
    }

    /// A counter's total: what was added less what was taken off.
    fn total(&self, object: u16) -> Result<i64, Self::Refused> {
        // SAFETY: as in `view`.
        self.answer(|at, total| unsafe { sys::lattice_total(at, object, total) })
    }

    /// Whether a counter's total is at least this.
    fn at_least(&self, object: u16, bound: u64) -> Result<bool, Self::Refused> {
        // SAFETY: as in `view`.
        let ask = |at, it: &mut u8| unsafe { sys::lattice_at_least(at, object, bound, it) };
        Ok(self.answer(ask)? != 0)
    }

    /// The largest value that a max register was raised to, or 0.
    fn largest(&self, object: u16) -> Result<u64, Self::Refused> {
        // SAFETY: as in `view`.
        self.answer(|at, largest| unsafe { sys::lattice_largest(at, object, largest) })
    }

    /// Whether a set has an element.
    fn has(&self, object: u16, element: u64) -> Result<bool, Self::Refused> {
        // SAFETY: as in `view`.
        let ask = |at, it: &mut u8| unsafe { sys::lattice_has(at, object, element, it) };
        Ok(self.answer(ask)? != 0)
    }

    /// How many elements a set has.
    fn size(&self, object: u16) -> Result<u64, Self::Refused> {
        // SAFETY: as in `view`.
        self.answer(|at, size| unsafe { sys::lattice_size(at, object, size) })
    }

    /// A set's elements, in ascending order.
    fn items(&self, object: u16) -> Result<Vec<u64>, Self::Refused> {
        let at = self.handle()?.at();
        let mut items = vec![0; 16];
        let mut len = 0;
        loop {
            // SAFETY: the buffer has the room that is said, and the length goes to a local.
            let status = unsafe {
                sys::lattice_items(at, object, items.as_mut_ptr(), items.len(), &mut len)
            };
            if status != sys::SMALL {
                Error::of(status)?;
                items.truncate(len);
                return Ok(items);
            }
            items.resize(len, 0);
        }
    }

    /// What a question puts into its place.
    #[doc(hidden)]
    fn answer<T: Default>(
        &self,
        ask: impl FnOnce(*mut lattice_node, &mut T) -> u8,
    ) -> Result<T, Self::Refused> {
        let mut answer = T::default();
        Error::of(ask(self.handle()?.at(), &mut answer))?;
        Ok(answer)
    }
}
