use crate::{Absorb, Error, OWN_BYTES, Operation, Update};
use std::collections::BTreeMap;

/// How many bytes a key and its value may have together in a [`WriteMap`].
pub const KEYED_BYTES: usize = OWN_BYTES - 9;

// A write: its stamp, its update's id, and what was written. The one that is last is the largest.
type Write = (u64, (u8, u32), Vec<u8>);

/// An example of an object of one's own: a map from keys to values, both of them bytes, in which the
/// last write to a key wins. The last is the one with the largest stamp, and of several with one stamp
/// the one with the largest id; so updates of different replicas lead to the same map in any order.
///
/// A good stamp is one more than the largest that the writer knows, or its clock's time.
///
/// ```
/// use lattice_agreement::{Ask, Config, Error, Node, Submit, WriteMap};
///
/// # fn main() -> Result<(), Error> {
/// let mut node = Node::new(&Config::new(1, 0))?;
/// let mut map = WriteMap::new(7);
/// node.own(7, &WriteMap::write(1, b"colour", b"red")?)?;
/// node.own(7, &WriteMap::write(2, b"colour", b"blue")?)?;
/// assert!(node.next_mail()?.is_none()); // a group of one learns by itself
/// node.absorb_into(&mut map)?;
/// assert_eq!(map.get(b"colour"), Some(&b"blue"[..]));
/// # Ok(())
/// # }
/// ```
#[derive(Clone, Debug, PartialEq, Eq)]
pub struct WriteMap {
    object: u16,
    last: BTreeMap<Vec<u8>, Write>,
}

impl WriteMap {
    /// The map of an object's number, in which nothing was written.
    pub fn new(object: u16) -> WriteMap {
        WriteMap { object, last: BTreeMap::new() }
    }

    /// The operation that writes a value, for [`Submit::own`](crate::Submit::own): the stamp in eight
    /// bytes, the lowest first, the key's length, the key and the value, as `la_types::WriteMap` in
    /// Rattle has it.
    ///
    /// [`Error::TooLarge`] comes exactly where key and value have more than [`KEYED_BYTES`] bytes.
    pub fn write(stamp: u64, key: &[u8], value: &[u8]) -> Result<Vec<u8>, Error> {
        if key.len() + value.len() > KEYED_BYTES {
            return Err(Error::TooLarge);
        }
        let mut bytes = stamp.to_le_bytes().to_vec();
        bytes.push(key.len() as u8);
        bytes.extend_from_slice(key);
        bytes.extend_from_slice(value);
        Ok(bytes)
    }

    /// The value that was last written to a key.
    pub fn get(&self, key: &[u8]) -> Option<&[u8]> {
        self.last.get(key).map(|(_, _, value)| value.as_slice())
    }

    /// The keys that were written to, in ascending order, each with its value.
    pub fn iter(&self) -> impl Iterator<Item = (&[u8], &[u8])> {
        let pairs = self.last.iter();
        pairs.map(|(key, (_, _, value))| (key.as_slice(), value.as_slice()))
    }
}

// The stamp, the key and the value of an operation; `None` where it is no write.
fn parts(bytes: &[u8]) -> Option<(u64, &[u8], &[u8])> {
    let (stamp, rest) = bytes.split_first_chunk()?;
    let (len, rest) = rest.split_first()?;
    let (key, value) = rest.split_at_checked(usize::from(*len))?;
    Some((u64::from_le_bytes(*stamp), key, value))
}

impl Absorb for WriteMap {
    fn absorb(&mut self, update: &Update) {
        let Operation::Own(bytes) = &update.operation else {
            return;
        };
        let Some((stamp, key, value)) = parts(bytes).filter(|_| update.object == self.object)
        else {
            return;
        };
        let write = (stamp, update.id(), value.to_vec());
        match self.last.get_mut(key) {
            Some(last) if *last >= write => {}
            Some(last) => *last = write,
            None => {
                self.last.insert(key.to_vec(), write);
            }
        }
    }
}
