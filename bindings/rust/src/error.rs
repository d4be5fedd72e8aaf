// Made by bindings/generate from bindings/calls and crates/lattice_c: not to be edited.
//! Why a call was refused.

use crate::sys;
use std::fmt;

/// Why a call was refused. The node is then as before.
#[derive(Clone, Copy, Debug, PartialEq, Eq, Hash)]
#[non_exhaustive]
pub enum Error {
    /// Memory was refused.
    Memory,
    /// The object is of another kind than the question.
    Foreign,
    /// No object has this number.
    NoObject,
    /// An object has this number already.
    Taken,
    /// The object has absorbed updates before it was added, which no call here can bring about.
    NotFresh,
    /// More than 64 puts of the element are seen, and a removal takes out at most 64.
    TooManyTags,
    /// An operation of one's own has more than 248 bytes, or an amount has more than 32 bits.
    TooLarge,
    /// The numbers make no group: one of them is out of its range.
    BadGroup,
    /// The group has no replica of this number.
    NoReplica,
    /// The message belongs to an adopt-commit object that the group does not have.
    NoInstance,
    /// The node has submitted as many updates as its cap allows.
    Full,
    /// The message stands on updates that this node does not have.
    NoBase,
    /// The message leaves out an update before one that it brings.
    Gap,
    /// The message has another update under an id that this node has: a node came back with less
    /// than it had, or lies.
    Clash,
    /// The node has opened as many ballots as there can be: 8,000,000.
    BallotsSpent,
    /// The group has no adopt-commit object of this number.
    NoCommit,
    /// The node has proposed to this adopt-commit object before.
    AlreadyProposed,
    /// The message is for another replica, or for a group of another size.
    Elsewhere,
    /// The line is something that clients ask of a node, and no message.
    NoMessage,
    /// The line has more bytes than a message may have: 268,435,455 where it begins with n, o or t,
    /// else 16,777,216.
    TooLong,
    /// The line does not have the form of a message.
    BadLine,
    /// A number in the line is malformed or out of its range.
    BadNumber,
    /// No kind of object has this number, or no kind of update that may be submitted so.
    BadKind,
    /// The node has submitted something else under this number.
    Stale,
    /// The node has submitted nothing under this number, and it is not the next.
    Ahead,
    /// The node took something that is not on the disk yet: its record is to be written first.
    Unkept,
    /// There is no byte, the bytes are no journal of this version, or their first line is damaged.
    NoJournal,
    /// The journal is that of another replica, or of a group with other replicas, commits, cap or
    /// votes.
    OtherJournal,
    /// The journal is damaged at a line that is told. No older copy may be put in its place: the
    /// replica stays away.
    Damaged,
    /// The library answered a status that this crate does not know.
    Unknown(u8),
}

impl Error {
    fn text(self) -> &'static str {
        match self {
            Error::Memory => "memory was refused",
            Error::Foreign => "the object is of another kind than the question",
            Error::NoObject => "no object has this number",
            Error::Taken => "an object has this number already",
            Error::NotFresh => {
                "the object has absorbed updates before it was added, which no call here can bring about"
            }
            Error::TooManyTags => {
                "more than 64 puts of the element are seen, and a removal takes out at most 64"
            }
            Error::TooLarge => {
                "an operation of one's own has more than 248 bytes, or an amount has more than 32 bits"
            }
            Error::BadGroup => "the numbers make no group: one of them is out of its range",
            Error::NoReplica => "the group has no replica of this number",
            Error::NoInstance => {
                "the message belongs to an adopt-commit object that the group does not have"
            }
            Error::Full => "the node has submitted as many updates as its cap allows",
            Error::NoBase => "the message stands on updates that this node does not have",
            Error::Gap => "the message leaves out an update before one that it brings",
            Error::Clash => {
                "the message has another update under an id that this node has: a node came back with less than it had, or lies"
            }
            Error::BallotsSpent => "the node has opened as many ballots as there can be: 8,000,000",
            Error::NoCommit => "the group has no adopt-commit object of this number",
            Error::AlreadyProposed => "the node has proposed to this adopt-commit object before",
            Error::Elsewhere => {
                "the message is for another replica, or for a group of another size"
            }
            Error::NoMessage => "the line is something that clients ask of a node, and no message",
            Error::TooLong => {
                "the line has more bytes than a message may have: 268,435,455 where it begins with n, o or t, else 16,777,216"
            }
            Error::BadLine => "the line does not have the form of a message",
            Error::BadNumber => "a number in the line is malformed or out of its range",
            Error::BadKind => {
                "no kind of object has this number, or no kind of update that may be submitted so"
            }
            Error::Stale => "the node has submitted something else under this number",
            Error::Ahead => {
                "the node has submitted nothing under this number, and it is not the next"
            }
            Error::Unkept => {
                "the node took something that is not on the disk yet: its record is to be written first"
            }
            Error::NoJournal => {
                "there is no byte, the bytes are no journal of this version, or their first line is damaged"
            }
            Error::OtherJournal => {
                "the journal is that of another replica, or of a group with other replicas, commits, cap or votes"
            }
            Error::Damaged => {
                "the journal is damaged at a line that is told. No older copy may be put in its place: the replica stays away"
            }
            Error::Unknown(_) => "no status here",
        }
    }

    /// What a status says: nothing where the call was done.
    pub(crate) fn of(status: u8) -> Result<(), Error> {
        Err(match status {
            sys::OK => return Ok(()),
            sys::MEMORY => Error::Memory,
            sys::FOREIGN => Error::Foreign,
            sys::NO_OBJECT => Error::NoObject,
            sys::TAKEN => Error::Taken,
            sys::NOT_FRESH => Error::NotFresh,
            sys::TOO_MANY_TAGS => Error::TooManyTags,
            sys::TOO_LARGE => Error::TooLarge,
            sys::BAD_GROUP => Error::BadGroup,
            sys::NO_REPLICA => Error::NoReplica,
            sys::NO_INSTANCE => Error::NoInstance,
            sys::FULL => Error::Full,
            sys::NO_BASE => Error::NoBase,
            sys::GAP => Error::Gap,
            sys::CLASH => Error::Clash,
            sys::BALLOTS_SPENT => Error::BallotsSpent,
            sys::NO_COMMIT => Error::NoCommit,
            sys::ALREADY_PROPOSED => Error::AlreadyProposed,
            sys::ELSEWHERE => Error::Elsewhere,
            sys::NO_MESSAGE => Error::NoMessage,
            sys::TOO_LONG => Error::TooLong,
            sys::BAD_LINE => Error::BadLine,
            sys::BAD_NUMBER => Error::BadNumber,
            sys::BAD_KIND => Error::BadKind,
            sys::STALE => Error::Stale,
            sys::AHEAD => Error::Ahead,
            sys::UNKEPT => Error::Unkept,
            sys::NO_JOURNAL => Error::NoJournal,
            sys::OTHER_JOURNAL => Error::OtherJournal,
            sys::DAMAGED => Error::Damaged,
            other => Error::Unknown(other),
        })
    }
}

impl fmt::Display for Error {
    fn fmt(&self, f: &mut fmt::Formatter<'_>) -> fmt::Result {
        match self {
            Error::Unknown(status) => {
                write!(f, "the library answered {status}, which is no status here")
            }
            other => f.write_str(other.text()),
        }
    }
}

impl std::error::Error for Error {}
