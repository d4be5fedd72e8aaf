use crate::sys;

/// How many updates of each of the replicas 0 to 7 a view has.
pub type Counts = [u32; 8];

/// An update that was learnt.
#[derive(Clone, Debug, PartialEq, Eq, Hash)]
pub struct Update {
    /// The replica that submitted it.
    pub replica: u8,
    /// Its number among that replica's updates, from 1. With `replica` it is the update's id.
    pub number: u32,
    /// The object's number.
    pub object: u16,
    /// What it does.
    pub operation: Operation,
}

impl Update {
    /// The update's id, which no other update of the group has.
    pub fn id(&self) -> (u8, u32) {
        (self.replica, self.number)
    }

    pub(crate) fn of(told: &sys::lattice_learnt, own: &[u8]) -> Update {
        let operation = match told.kind {
            sys::UPDATE_INC => Operation::Inc(told.value),
            sys::UPDATE_DEC => Operation::Dec(told.value),
            sys::UPDATE_RAISE => Operation::Raise(told.value),
            sys::UPDATE_PUT => Operation::Put(told.value),
            sys::UPDATE_REMOVE => Operation::Remove { puts: told.value },
            sys::UPDATE_MARK => Operation::Mark,
            sys::UPDATE_VOTE => Operation::Vote(told.value),
            _ => Operation::Own(own.to_vec()),
        };
        Update { replica: told.replica, number: told.number, object: told.object, operation }
    }
}

impl Operation {
    // Its kind, its value and its bytes, for a call.
    pub(crate) fn parts(&self) -> (u8, u64, &[u8]) {
        match self {
            Operation::Inc(by) => (sys::UPDATE_INC, *by, &[]),
            Operation::Dec(by) => (sys::UPDATE_DEC, *by, &[]),
            Operation::Raise(to) => (sys::UPDATE_RAISE, *to, &[]),
            Operation::Put(element) => (sys::UPDATE_PUT, *element, &[]),
            Operation::Remove { puts } => (sys::UPDATE_REMOVE, *puts, &[]),
            Operation::Mark => (sys::UPDATE_MARK, 0, &[]),
            Operation::Vote(value) => (sys::UPDATE_VOTE, *value, &[]),
            Operation::Own(bytes) => (sys::UPDATE_OWN, 0, bytes),
        }
    }
}

/// What an update does.
#[derive(Clone, Debug, PartialEq, Eq, Hash)]
#[non_exhaustive]
pub enum Operation {
    /// So much is added to a counter.
    Inc(u64),
    /// So much is taken off a counter.
    Dec(u64),
    /// A max register is at least this value.
    Raise(u64),
    /// This element is put into a set.
    Put(u64),
    /// Puts that were seen are taken out of a set.
    Remove {
        /// How many.
        puts: u64,
    },
    /// No object changes.
    Mark,
    /// A vote, as only a peer that lies submits one here.
    Vote(u64),
    /// An operation of one's own: these bytes.
    Own(Vec<u8>),
}
