//! A node of a group of replicas that agree on ever larger sets of updates: at any time, of any two
//! nodes' views one has all that the other has. No leader is elected, and a node that is slow or gone
//! holds nobody up as long as a majority is there. Lines to it stay short; once it is heard again, one
//! brings all that it lacks.
//!
//! A [`Node`] does no input or output. What it wants sent is pulled from it line by line, by
//! [`Ask::next_mail`], and what the others sent is handed in by [`Submit::receive`]. A [`Durable`] is
//! the same over a journal on a disk, so that it comes back after its process has ended.
//!
//! **Whatever carries the lines may lose, repeat and reorder them. It may never shorten or change one**:
//! a part of a line may be another valid message, and then nodes differ without a word. What a broken
//! connection left of a line is dropped, as [`BufRead::read_until`](std::io::BufRead::read_until) lets
//! one do; `lines` and `split` hand it out like a whole line.
//!
//! ```
//! use lattice_agreement::{Ask, Config, Error, Kind, Node, Submit};
//!
//! # fn main() -> Result<(), Error> {
//! let mut group = Vec::new();
//! for own in 0..3 {
//!     let mut node = Node::new(&Config::new(3, own))?;
//!     node.add(1, Kind::Counter)?;
//!     group.push(node);
//! }
//! group[0].inc(1, 5)?;
//! group[1].dec(1, 2)?;
//!
//! // This stands for a transport.
//! let mut quiet = false;
//! while !quiet {
//!     quiet = true;
//!     for from in 0..3 {
//!         while let Some(mail) = group[from].next_mail()? {
//!             group[usize::from(mail.to)].receive(&mail.line)?;
//!             quiet = false;
//!         }
//!     }
//! }
//! for node in &group {
//!     assert_eq!(node.total(1)?, 3);
//! }
//! # Ok(())
//! # }
//! ```
//!
//! The library below is proved in Rattle; this crate is not. It is tested only, and [`sys`] says what
//! it has to keep to.
//!
//! # A replica that is lost
//!
//! **A [`Node`] keeps nothing on a disk.** Once one was dropped or its process ended, no node may ever
//! come back under its number in its group: it would give an id to two updates, or accept what it had
//! refused. The same holds of a [`Durable`] whose journal is lost or damaged, and no older copy may be
//! put in the journal's place: [`Durable::open`] makes no new one, and [`Durable::create`] is called
//! once.
//!
//! The others go on while they are a majority. No replica comes into a group in its place: who wants as
//! many replicas again needs a new group. It starts empty, and a program submits into it what it wants
//! to take over from a view of the old one.

mod absorb;
mod ask;
mod config;
mod durable;
mod error;
mod folder;
mod handle;
mod node;
mod submit;
pub mod sys;
mod update;
mod write_map;

pub use absorb::Absorb;
pub use ask::{Ask, Mail, Outcome};
pub use config::{Config, Kind};
pub use durable::{Batch, Durable, DurableError, Pending};
pub use error::Error;
pub use node::Node;
pub use submit::Submit;
pub use update::{Counts, Operation, Update};
pub use write_map::{KEYED_BYTES, WriteMap};

/// How many bytes an operation of one's own may have.
pub const OWN_BYTES: usize = 248;

/// The example of the page of all languages.
#[cfg(doctest)]
#[doc = include_str!("../../README.md")]
struct Page;
