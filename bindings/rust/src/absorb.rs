use crate::Update;

/// An object of one's own, which is made of the updates that a node learns.
///
/// It is not added to a node: its number is a name that stands in its updates.
///
/// [`Ask::absorb_into`](crate::Ask::absorb_into) hands it each update once, those of one replica in
/// the order of their numbers. The updates of different replicas come in any order, which may differ
/// from node to node; even one before another that its writer had learnt. So that nodes with the same
/// view have equal objects, it has to keep one law, which nothing here checks: **two updates of
/// different replicas lead to the same object in either order**.
///
/// ```
/// use lattice_agreement::{Absorb, Ask, Config, Error, Node, Operation, Submit, Update};
///
/// /// How many letters were written, whoever wrote them.
/// #[derive(Default)]
/// struct Letters(usize);
///
/// impl Absorb for Letters {
///     fn absorb(&mut self, update: &Update) {
///         if let Operation::Own(bytes) = &update.operation {
///             self.0 += bytes.len();
///         }
///     }
/// }
///
/// # fn main() -> Result<(), Error> {
/// let mut node = Node::new(&Config::new(1, 0))?;
/// node.own(1, b"hello")?;
/// assert!(node.next_mail()?.is_none()); // a group of one learns by itself
/// let mut letters = Letters::default();
/// assert_eq!(node.absorb_into(&mut letters)?, 1);
/// assert_eq!(letters.0, 5);
/// # Ok(())
/// # }
/// ```
pub trait Absorb {
    /// Takes an update: of any object, and of any operation, so that it may have to be passed over.
    /// Bytes that it does not know it passes over too, the same ones at each node: another node may
    /// run another version of the program.
    fn absorb(&mut self, update: &Update);
}
