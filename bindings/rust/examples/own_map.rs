//! A map of one's own on three nodes, in which the last write to a key wins: `cargo run --example
//! own_map`. `src/write_map.rs` has the map.

use lattice_agreement::{Ask, Config, Error, Node, Submit, WriteMap};

const SETTINGS: u16 = 1;

/// A node and what it has learnt of the map.
struct Member {
    node: Node,
    settings: WriteMap,
}

impl Member {
    fn new(own: u8) -> Result<Member, Error> {
        let node = Node::new(&Config::new(3, own))?;
        let settings = WriteMap::new(SETTINGS);
        Ok(Member { node, settings })
    }

    /// Writes under a stamp that is above those of all writes that this member has seen.
    fn write(&mut self, key: &str, value: &str) -> Result<(), Error> {
        self.node.absorb_into(&mut self.settings)?;
        let stamp = 1 + self.node.view()?.map(u64::from).iter().sum::<u64>();
        let write = WriteMap::write(stamp, key.as_bytes(), value.as_bytes())?;
        self.node.own(SETTINGS, &write)?;
        Ok(())
    }
}

fn deliver_all(group: &mut [Member]) -> Result<(), Error> {
    let mut quiet = false;
    while !quiet {
        quiet = true;
        for from in 0..group.len() {
            while let Some(mail) = group[from].node.next_mail()? {
                group[usize::from(mail.to)].node.receive(&mail.line)?;
                quiet = false;
            }
        }
    }
    Ok(())
}

fn main() -> Result<(), Error> {
    let mut group = [Member::new(0)?, Member::new(1)?, Member::new(2)?];
    group[0].write("colour", "red")?;
    group[1].write("colour", "green")?;
    group[2].write("size", "large")?;
    deliver_all(&mut group)?;
    group[0].write("colour", "blue")?;
    deliver_all(&mut group)?;
    for (own, member) in group.iter_mut().enumerate() {
        member.node.absorb_into(&mut member.settings)?;
        let text = |bytes| String::from_utf8_lossy(bytes).into_owned();
        let settings: Vec<String> = member
            .settings
            .iter()
            .map(|(key, value)| format!("{} = {}", text(key), text(value)))
            .collect();
        println!("node {own}: {}", settings.join(", "));
    }
    Ok(())
}
