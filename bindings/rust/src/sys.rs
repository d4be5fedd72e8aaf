// Made by bindings/generate from bindings/calls and crates/lattice_c: not to be edited.
//! The calls of `liblattice`, as `lattice.h` declares them. [`Node`](crate::Node) is made of them;
//! whoever calls them by himself is trusted with what follows.
//!
//! - A handle is what [`lattice_node_new`] puts into its place where it answers OK. Neither it nor
//!   a copy of it is used once [`lattice_node_free`] was called.
//! - One call at a time is made on a handle. It may go from thread to thread, where a lock, a
//!   thread's start or a join orders the calls. Handles share nothing, and calls on different ones
//!   may run at the same time.
//! - No pointer is null, even where its length is 0: where no votes are given, or no bytes, the
//!   address of anything goes there. Behind a pointer is as much as its type and its length say,
//!   which may be written where a result goes there, and which overlaps nothing else that the call
//!   is given.
//! - The program's malloc, realloc and free are one allocator. No call is made from a signal
//!   handler, nor in a process that was forked after the node was made: the node would be there
//!   twice under one number.
//! - Whatever carries the lines of messages may lose, repeat and reorder them. It never shortens or
//!   changes one: what is left may be another valid message, and then nodes differ without a word.
//!   What a broken connection left of a line is dropped.
//! - A node that [`lattice_node_new`] made keeps nothing on a disk. So once it was stopped or lost,
//!   none may ever come back under its number in its group: it would give an id to two updates, or
//!   accept what it had refused. The others go on while they are a majority. The same holds of a
//!   node whose journal was lost, or went back to an earlier state.
//! - The bytes of lattice_first_journal are for a replica that never was, once, and for a file
//!   where nothing stands: they come there as a whole, on the disk, or not at all. A file that is
//!   missing later is no first start, as its disk may not be mounted. So a program makes it only
//!   where a person tells it to, as counter.c does by `new`.
//! - Of a node that [`lattice_node_recover`] made, the program's file has the bytes that were
//!   found, up to where they were to be kept, and they are on the disk before the node is asked for
//!   anything but its next record. If the process that wrote them was killed, they can be read
//!   though they are not on the disk yet, and the node takes them for kept: it may tell at once
//!   what they lead to. So sync the file first, or put a new one in its place, as counter.c does.
//! - Behind those bytes the file has each record that lattice_next_record handed over, in their
//!   order, on the disk before lattice_synced is called. One process at a time has the file.

#![allow(non_camel_case_types)]

use std::ffi::c_void;
use std::mem::{offset_of, size_of};

/// The version of the interface: [`lattice_version`] answers the library's.
pub const VERSION: u32 = 3;

/// A handle: one pointer, which is the library's.
#[repr(C)]
#[derive(Debug)]
pub struct lattice_node {
    /// Where the node is.
    pub at: *mut c_void,
}

const _: () = {
    assert!(size_of::<lattice_node>() == 8);
    assert!(offset_of!(lattice_node, at) == 0);
};

/// An update, as it is handed to C.
#[repr(C)]
#[derive(Clone, Copy, Default, PartialEq, Eq, Debug)]
pub struct lattice_learnt {
    /// The largest amount or value of the operation: of kinds 1 to 4 and 7 its number, of kind 5
    /// how many puts it takes out; else 0.
    pub value: u64,
    /// Its number among its replica's, from 1 on.
    pub number: u32,
    /// The number of its object.
    pub object: u16,
    /// The replica that submitted it.
    pub replica: u8,
    /// What it does: 1 inc, 2 dec, 3 raise, 4 put, 5 remove, 6 mark, 7 vote, 8 an operation of
    /// one's own.
    pub kind: u8,
}

const _: () = {
    assert!(size_of::<lattice_learnt>() == 16);
    assert!(offset_of!(lattice_learnt, value) == 0);
    assert!(offset_of!(lattice_learnt, number) == 8);
    assert!(offset_of!(lattice_learnt, object) == 12);
    assert!(offset_of!(lattice_learnt, replica) == 14);
    assert!(offset_of!(lattice_learnt, kind) == 15);
};

/// The call was done.
pub const OK: u8 = 0;
/// Memory was refused.
pub const MEMORY: u8 = 1;
/// There is none: no mail, no further update, no outcome yet.
pub const NONE: u8 = 2;
/// The buffer has too little room. How much is wanted is told, and what was to be handed over
/// stays.
pub const SMALL: u8 = 3;
/// The object is of another kind than the question.
pub const FOREIGN: u8 = 4;
/// No object has this number.
pub const NO_OBJECT: u8 = 5;
/// An object has this number already.
pub const TAKEN: u8 = 6;
/// The object has absorbed updates before it was added, which no call here can bring about.
pub const NOT_FRESH: u8 = 7;
/// More than 64 puts of the element are seen, and a removal takes out at most 64.
pub const TOO_MANY_TAGS: u8 = 8;
/// An operation of one's own has more than 248 bytes, or an amount has more than 32 bits.
pub const TOO_LARGE: u8 = 9;
/// The numbers make no group: one of them is out of its range.
pub const BAD_GROUP: u8 = 10;
/// The group has no replica of this number.
pub const NO_REPLICA: u8 = 11;
/// The message belongs to an adopt-commit object that the group does not have.
pub const NO_INSTANCE: u8 = 12;
/// The node has submitted as many updates as its cap allows.
pub const FULL: u8 = 13;
/// The message stands on updates that this node does not have.
pub const NO_BASE: u8 = 14;
/// The message leaves out an update before one that it brings.
pub const GAP: u8 = 15;
/// The message has another update under an id that this node has: a node came back with less than
/// it had, or lies.
pub const CLASH: u8 = 16;
/// The node has opened as many ballots as there can be: 8,000,000.
pub const BALLOTS_SPENT: u8 = 17;
/// The group has no adopt-commit object of this number.
pub const NO_COMMIT: u8 = 18;
/// The node has proposed to this adopt-commit object before.
pub const ALREADY_PROPOSED: u8 = 19;
/// The message is for another replica, or for a group of another size.
pub const ELSEWHERE: u8 = 20;
/// The line is something that clients ask of a node, and no message.
pub const NO_MESSAGE: u8 = 21;
/// The line has more bytes than a message may have: 268,435,455 where it begins with n, o or t,
/// else 16,777,216.
pub const TOO_LONG: u8 = 22;
/// The line does not have the form of a message.
pub const BAD_LINE: u8 = 23;
/// A number in the line is malformed or out of its range.
pub const BAD_NUMBER: u8 = 24;
/// No kind of object has this number, or no kind of update that may be submitted so.
pub const BAD_KIND: u8 = 25;
/// The node has submitted something else under this number.
pub const STALE: u8 = 26;
/// The node has submitted nothing under this number, and it is not the next.
pub const AHEAD: u8 = 27;
/// The node took something that is not on the disk yet: its record is to be written first.
pub const UNKEPT: u8 = 28;
/// There is no byte, the bytes are no journal of this version, or their first line is damaged.
pub const NO_JOURNAL: u8 = 29;
/// The journal is that of another replica, or of a group with other replicas, commits, cap or
/// votes.
pub const OTHER_JOURNAL: u8 = 30;
/// The journal is damaged at a line that is told. No older copy may be put in its place: the
/// replica stays away.
pub const DAMAGED: u8 = 31;

/// A counter: inc, dec, total, at_least.
pub const COUNTER: u8 = 0;
/// A max register: raise, largest.
pub const MAX_REGISTER: u8 = 1;
/// An observed-remove set: put, remove, has, size, items.
pub const OR_SET: u8 = 2;

/// An addition to a counter, of this value.
pub const UPDATE_INC: u8 = 1;
/// A subtraction from a counter, of this value.
pub const UPDATE_DEC: u8 = 2;
/// A max register is at least this value.
pub const UPDATE_RAISE: u8 = 3;
/// An element of this value is put into a set.
pub const UPDATE_PUT: u8 = 4;
/// This many puts are taken out of a set.
pub const UPDATE_REMOVE: u8 = 5;
/// No object changes.
pub const UPDATE_MARK: u8 = 6;
/// A vote for this value, as only a peer that lies submits one here.
pub const UPDATE_VOTE: u8 = 7;
/// An operation of one's own, whose bytes are in the buffer.
pub const UPDATE_OWN: u8 = 8;

unsafe extern "C" {
    /// The version of this interface: it grows where a call changes or goes.
    pub fn lattice_version() -> u32;

    /// Makes replica `own` of a group in which nothing has happened, and puts it into a place,
    /// which then is a handle. The group has 1 to 8 replicas with so many votes each (one each
    /// where none are given), up to 16 adopt-commit objects, and a cap of 1 to 1,000,000 updates a
    /// replica.
    ///
    /// In this order: [`BAD_GROUP`] where one of these is out of its range; [`NO_REPLICA`];
    /// [`MEMORY`]. Then the place is as before.
    pub fn lattice_node_new(
        replicas: u8,
        own: u8,
        commits: u8,
        cap: u32,
        votes: *const u16,
        votes_len: usize,
        out: *mut lattice_node,
    ) -> u8;

    /// The bytes of the journal that replica `own` of a group begins with, into a buffer, and how
    /// many they are: fewer than 256. They go into a file where no journal stands, on the disk, and
    /// then `lattice_node_recover` plays them. They are for a replica that never was: one that lost
    /// its journal must not begin anew. The numbers are as of `lattice_node_new`.
    ///
    /// In this order: as `lattice_node_new` ends, and [`SMALL`] where the buffer has less room than
    /// there are bytes, which are told.
    pub fn lattice_first_journal(
        replicas: u8,
        own: u8,
        commits: u8,
        cap: u32,
        votes: *const u16,
        votes_len: usize,
        buffer: *mut u8,
        buffer_room: usize,
        len: *mut usize,
    ) -> u8;

    /// Makes the same replica of the same group as before of what was found in its journal, and
    /// puts it into a place, which then is a handle. No byte at all is no journal: the first bytes
    /// of a new one are `lattice_first_journal`'s. Told is how many of the bytes the journal is to
    /// keep: behind them stands what a crash left of a record, which is to be cut off, on the disk,
    /// before anything is put behind. Objects are added anew, and all updates are handed over anew.
    ///
    /// What was found counts as kept, and the node may tell at once what it leads to. But what can
    /// be read from a file need not be on the disk yet, if the process that wrote it was killed
    /// before its sync. So sync the file first, or put a new one in its place, before the node is
    /// asked for anything but its next record.
    ///
    /// In this order: as `lattice_node_new` ends, and [`NO_JOURNAL`], [`OTHER_JOURNAL`] and
    /// [`DAMAGED`], and then the line is told, from 1. Then the place is as before.
    pub fn lattice_node_recover(
        replicas: u8,
        own: u8,
        commits: u8,
        cap: u32,
        votes: *const u16,
        votes_len: usize,
        found: *const u8,
        found_len: usize,
        keep: *mut usize,
        line: *mut usize,
        out: *mut lattice_node,
    ) -> u8;

    /// Frees a node. The handle, and each copy of it, is then no handle.
    pub fn lattice_node_free(handle: lattice_node);

    /// Adds an object under a number: of kind 0 a counter, of kind 1 a max register, of kind 2 an
    /// observed-remove set.
    ///
    /// [`BAD_KIND`] comes for any other kind, [`TAKEN`] where the number has an object, and else
    /// [`MEMORY`].
    pub fn lattice_add(handle: *mut lattice_node, object: u16, kind: u8) -> u8;

    /// Submits an addition to a counter, and answers the update's number. What is to be sent of it
    /// waits then. A node with a journal may have lost it after a crash, until its record is on the
    /// disk; so it is of all that it takes.
    ///
    /// [`FULL`] comes where the node has submitted its cap, and else [`MEMORY`] or
    /// [`BALLOTS_SPENT`]; so it is of each call that submits.
    pub fn lattice_inc(handle: *mut lattice_node, object: u16, by: u32, number: *mut u32) -> u8;

    /// Submits a subtraction from a counter.
    pub fn lattice_dec(handle: *mut lattice_node, object: u16, by: u32, number: *mut u32) -> u8;

    /// Submits that a max register is at least this value.
    pub fn lattice_raise(handle: *mut lattice_node, object: u16, to: u64, number: *mut u32) -> u8;

    /// Submits that an element is put into an observed-remove set.
    pub fn lattice_put(
        handle: *mut lattice_node,
        object: u16,
        element: u64,
        number: *mut u32,
    ) -> u8;

    /// Submits that an element is taken out of an observed-remove set, as far as the view has it:
    /// what was put in at the same time elsewhere stays, and so does a put of this node's own that
    /// the view lacks.
    ///
    /// [`NO_OBJECT`] comes where there is no such object, [`TOO_MANY_TAGS`] where over 64 puts of
    /// the element are seen; else it is as of each call that submits.
    pub fn lattice_remove(
        handle: *mut lattice_node,
        object: u16,
        element: u64,
        number: *mut u32,
    ) -> u8;

    /// Submits a mark, which changes no object.
    pub fn lattice_mark(handle: *mut lattice_node, object: u16, number: *mut u32) -> u8;

    /// Submits an operation of one's own: up to 248 bytes, which no object here takes.
    /// [`TOO_LARGE`] comes exactly above that.
    pub fn lattice_own(
        handle: *mut lattice_node,
        object: u16,
        bytes: *const u8,
        bytes_len: usize,
        number: *mut u32,
    ) -> u8;

    /// Submits an operation as the node's update with this number, so that it counts once, however
    /// often it is asked for. The operation is of a kind as `lattice_next_learnt` tells it, but of
    /// kinds 5 and 7: of kinds 1 to 4 with this value, of kind 8 with these bytes of one's own.
    ///
    /// [`BAD_KIND`] comes for any other kind; [`TOO_LARGE`] where an amount has more than 32 bits
    /// or there are over 248 bytes; [`STALE`] where another submission has this number; [`AHEAD`]
    /// where it is neither the next nor submitted; else it is as of each call that submits.
    pub fn lattice_submit_at(
        handle: *mut lattice_node,
        number: u32,
        object: u16,
        kind: u8,
        value: u64,
        bytes: *const u8,
        bytes_len: usize,
    ) -> u8;

    /// Proposes a value to an adopt-commit object. What is to be sent of it waits then.
    ///
    /// [`NO_COMMIT`] comes where there is no such object, [`ALREADY_PROPOSED`] where the node has
    /// proposed to it, and else [`MEMORY`].
    pub fn lattice_propose(handle: *mut lattice_node, commit: u8, value: u64) -> u8;

    /// What the node returned from an adopt-commit object: the value, and whether it is committed
    /// (1) or adopted (0).
    ///
    /// [`NONE`] comes where it has returned nothing yet, or there is no such object; [`UNKEPT`]
    /// where what the node took is not on the disk yet.
    pub fn lattice_outcome(
        handle: *mut lattice_node,
        commit: u8,
        value: *mut u64,
        committed: *mut u8,
    ) -> u8;

    /// Takes the line of a message of another node, without its end, honest or not. What is to be
    /// sent then waits: of a message without news, or that stands on updates which this node does
    /// not have, how far this node is.
    ///
    /// [`TOO_LONG`], [`BAD_LINE`] and [`BAD_NUMBER`] come where the bytes are no line of a message,
    /// [`NO_MESSAGE`] where it is what a client asks, [`ELSEWHERE`] where it is for another node or
    /// group; any other where the node refuses it, as no honest message is refused, and [`MEMORY`].
    pub fn lattice_receive(handle: *mut lattice_node, bytes: *const u8, bytes_len: usize) -> u8;

    /// The line of what is to be sent next, into a buffer: to whom it goes, and how many bytes it
    /// has. It is then no longer there: whoever loses it, loses a message. What is for the node
    /// itself is taken in before.
    ///
    /// [`NONE`] comes where nothing is to be sent; [`SMALL`] where the buffer has less room than
    /// the line has bytes, which are told, and the line stays; [`MEMORY`], and it stays; [`UNKEPT`]
    /// where what the node took is not on the disk yet.
    pub fn lattice_next_mail(
        handle: *mut lattice_node,
        to: *mut u8,
        buffer: *mut u8,
        buffer_room: usize,
        len: *mut usize,
    ) -> u8;

    /// What waits for an answer is put behind what is to be sent once more, but for what others are
    /// known to have. By a timer, at each node: one call may not do. Where all is known, it sends
    /// nothing.
    pub fn lattice_again(handle: *mut lattice_node) -> u8;

    /// The bytes that the program has to put behind those of the node's journal next, into a
    /// buffer, and how many they are: all that the node took since the last record. What it sends
    /// to itself is taken in before. They are the same again until `lattice_synced`. A crash while
    /// they are put there may leave any part of them.
    ///
    /// [`NONE`] comes where the node took nothing since, or has no journal; [`SMALL`] where the
    /// buffer has less room than there are bytes, which are told.
    pub fn lattice_next_record(
        handle: *mut lattice_node,
        buffer: *mut u8,
        buffer_room: usize,
        len: *mut usize,
    ) -> u8;

    /// Takes note that the bytes of the last record are behind those of the journal, and on the
    /// disk: then the node tells what it took. Where that failed the node is to be freed, and made
    /// anew of what is found.
    ///
    /// [`NONE`] comes where no record was handed over since the last call.
    pub fn lattice_synced(handle: *mut lattice_node) -> u8;

    /// The next update that was learnt and not yet handed over: each is handed over once, of each
    /// replica in the order of numbers. Of an operation of one's own the bytes go into a buffer,
    /// and how many they are is told.
    ///
    /// [`NONE`] comes where there is no further one; [`SMALL`] where the buffer has less room than
    /// there are bytes, and then the update stays; [`UNKEPT`] where what the node took is not on
    /// the disk yet.
    pub fn lattice_next_learnt(
        handle: *mut lattice_node,
        out: *mut lattice_learnt,
        buffer: *mut u8,
        buffer_room: usize,
        len: *mut usize,
    ) -> u8;

    /// How many updates of each replica the view has. [`UNKEPT`] comes where what the node took is
    /// not on the disk yet.
    pub fn lattice_view(handle: *mut lattice_node, counts: *mut [u32; 8]) -> u8;

    /// How many updates of each replica another node's view has at least, as far as was heard:
    /// none, of a replica of 8 or more. [`UNKEPT`] comes where what the node took is not on the
    /// disk yet.
    pub fn lattice_known(handle: *mut lattice_node, replica: u8, counts: *mut [u32; 8]) -> u8;

    /// How many updates the node has submitted: the number of the last. [`UNKEPT`] comes where what
    /// the node took is not on the disk yet.
    pub fn lattice_submitted(handle: *mut lattice_node, number: *mut u32) -> u8;

    /// A counter's total: its increments less its decrements. [`NO_OBJECT`] comes where there is no
    /// such object, [`FOREIGN`] where it is of another kind, [`UNKEPT`] where what the node took is
    /// not on the disk yet, and [`MEMORY`]; so it is of each question.
    pub fn lattice_total(handle: *mut lattice_node, object: u16, total: *mut i64) -> u8;

    /// Whether (1) or not (0) a counter's total is at least a number.
    pub fn lattice_at_least(
        handle: *mut lattice_node,
        object: u16,
        bound: u64,
        reached: *mut u8,
    ) -> u8;

    /// The largest value that a max register was raised to, or 0.
    pub fn lattice_largest(handle: *mut lattice_node, object: u16, largest: *mut u64) -> u8;

    /// Whether (1) or not (0) an observed-remove set has an element.
    pub fn lattice_has(handle: *mut lattice_node, object: u16, element: u64, has: *mut u8) -> u8;

    /// How many elements an observed-remove set has.
    pub fn lattice_size(handle: *mut lattice_node, object: u16, size: *mut u64) -> u8;

    /// An observed-remove set's elements in ascending order, into a buffer, and how many there are.
    /// [`SMALL`] comes where the buffer has room for fewer: then they are only counted.
    pub fn lattice_items(
        handle: *mut lattice_node,
        object: u16,
        buffer: *mut u64,
        buffer_room: usize,
        len: *mut usize,
    ) -> u8;
}
