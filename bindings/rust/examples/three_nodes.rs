//! Three nodes in one process: `cargo run --example three_nodes`.

use lattice_agreement::{Ask, Config, Error, Kind, Node, Submit};

const VISITS: u16 = 1;
const TAGS: u16 = 2;

fn group() -> Result<Vec<Node>, Error> {
    let nodes = (0..3).map(|own| {
        let mut node = Node::new(&Config { commits: 1, ..Config::new(3, own) })?;
        node.add(VISITS, Kind::Counter)?;
        node.add(TAGS, Kind::OrSet)?;
        Ok(node)
    });
    nodes.collect()
}

/// Stands for a transport: takes all mail to whom it is for, until there is none.
fn deliver_all(group: &mut [Node]) -> Result<(), Error> {
    let mut quiet = false;
    while !quiet {
        quiet = true;
        for from in 0..group.len() {
            while let Some(mail) = group[from].next_mail()? {
                group[usize::from(mail.to)].receive(&mail.line)?;
                quiet = false;
            }
        }
    }
    Ok(())
}

fn main() -> Result<(), Error> {
    let mut group = group()?;
    group[0].inc(VISITS, 5)?;
    group[1].dec(VISITS, 2)?;
    group[2].put(TAGS, 9)?;
    for node in &mut group {
        node.propose(0, 7)?;
    }
    deliver_all(&mut group)?;
    for (own, node) in group.iter().enumerate() {
        let (total, tags) = (node.total(VISITS)?, node.items(TAGS)?);
        println!("node {own}: {total} visits, tags {tags:?}, {:?}", node.outcome(0)?);
    }
    Ok(())
}
