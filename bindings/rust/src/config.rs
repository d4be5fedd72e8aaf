use crate::sys;

/// The group, and which of its replicas a node is. All nodes of a group have the same, but for `own`.
///
/// **Nothing checks that, but of `replicas`**: a line from a group of another size is refused with
/// [`Error::Elsewhere`](crate::Error::Elsewhere). Where the nodes of a group differ in `commits`, `cap`
/// or `votes`, no guarantee is left.
///
/// ```
/// use lattice_agreement::Config;
///
/// let config = Config { commits: 1, votes: vec![1, 2, 2], ..Config::new(3, 0) };
/// assert_eq!(config.cap, 1_000_000);
/// ```
#[derive(Clone, Debug, PartialEq, Eq, Hash)]
pub struct Config {
    /// How many replicas the group has: 1 to 8.
    pub replicas: u8,
    /// The number of this replica, from 0.
    pub own: u8,
    /// How many adopt-commit objects the group has: up to 16.
    pub commits: u8,
    /// How many updates each replica may submit: 1 to 1,000,000.
    pub cap: u32,
    /// How many votes each replica has, 1 to 1,000; where it is empty, each has one.
    pub votes: Vec<u16>,
}

impl Config {
    /// Replica `own` of so many, without adopt-commit objects, with the largest cap and a vote each.
    pub fn new(replicas: u8, own: u8) -> Config {
        Config { replicas, own, commits: 0, cap: 1_000_000, votes: Vec::new() }
    }
}

/// What an object is.
#[derive(Clone, Copy, Debug, PartialEq, Eq, Hash)]
#[repr(u8)]
pub enum Kind {
    /// A counter: [`inc`](crate::Submit::inc), [`dec`](crate::Submit::dec).
    Counter = sys::COUNTER,
    /// A max register: [`raise`](crate::Submit::raise).
    MaxRegister = sys::MAX_REGISTER,
    /// An observed-remove set: [`put`](crate::Submit::put), [`remove`](crate::Submit::remove).
    OrSet = sys::OR_SET,
}
