//! A counter and a map on three replicas, by whole states of the crate `crdts` that are merged, and by three nodes of
//! `lattice-agreement`, the crate over `liblattice.a`: in each round every replica makes one update, and then all have
//! what the others have. A state that is merged is a copy of another's: nothing is written down as bytes, as the nodes'
//! lines are. In the map the last write under a key wins.
//!
//! `embed PEER CASE MANY KEYS`, where PEER is `ours` or `crdts`, and CASE `counter` or `map`, prints the microseconds
//! that so many updates take, and what came out.

use crdts::{lwwreg, map, CmRDT, CvRDT, Dot, GCounter, LWWReg, Map, ResetRemove, VClock};
use lattice_agreement::{Config, Kind, Node, WriteMap};
use std::env;
use std::error::Error;
use std::time::Instant;

const REPLICAS: u32 = 3;
const COUNTER: u16 = 1;
const MAP: u16 = 2;

type Id = (u8, u32);
type Outcome<T> = Result<T, Box<dyn Error>>;

/// The number of the key of an update: keys come in a mixed order.
fn key_of(place: u32, keys: u32) -> Vec<u8> {
    (place.wrapping_mul(2_654_435_761) % keys)
        .to_le_bytes()
        .to_vec()
}

fn value_of(place: u32) -> Vec<u8> {
    u64::from(place).to_le_bytes().to_vec()
}

fn sum_of(values: impl Iterator<Item = Vec<u8>>) -> u64 {
    let sum = |bytes: Vec<u8>| bytes.iter().map(|byte| u64::from(*byte)).sum::<u64>();
    values.map(sum).sum()
}

/// Replicas that are measured: each of three makes updates of a counter, or of a map.
trait Group: Sized {
    fn update(&mut self, own: usize, place: u32) -> Outcome<()>;
    /// Has each replica get what the others have.
    fn exchange(&mut self) -> Outcome<()>;
    /// What one replica has: a total, or the sum of all bytes that were written last.
    fn came(&mut self) -> Outcome<u64>;
}

/// Has each of three states get what the others have, by copies that stand for what is sent.
fn merge_all<S: CvRDT + Clone>(states: &mut [S]) {
    for own in 0..states.len() {
        for other in 0..states.len() {
            if other != own {
                let sent = states[other].clone();
                states[own].merge(sent);
            }
        }
    }
}

/// Counters of `crdts`, of which each has seen what was counted where.
struct Counters(Vec<GCounter<u8>>);

impl Group for Counters {
    fn update(&mut self, own: usize, _place: u32) -> Outcome<()> {
        let op = self.0[own].inc(own as u8);
        self.0[own].apply(op);
        Ok(())
    }

    fn exchange(&mut self) -> Outcome<()> {
        merge_all(&mut self.0);
        Ok(())
    }

    fn came(&mut self) -> Outcome<u64> {
        Ok(u64::try_from(self.0[2].read())?)
    }
}

/// A register in a map: that of `crdts` can't stand there, as it takes back nothing.
#[derive(Clone, Debug, Default, PartialEq)]
struct Last(LWWReg<Vec<u8>, (u64, Id)>);

impl ResetRemove<u8> for Last {
    fn reset_remove(&mut self, _clock: &VClock<u8>) {}
}

impl CmRDT for Last {
    type Op = LWWReg<Vec<u8>, (u64, Id)>;
    type Validation = lwwreg::Validation;

    fn validate_op(&self, op: &Self::Op) -> Result<(), Self::Validation> {
        self.0.validate_op(op)
    }

    fn apply(&mut self, op: Self::Op) {
        self.0.apply(op);
    }
}

impl CvRDT for Last {
    type Validation = lwwreg::Validation;

    fn validate_merge(&self, other: &Self) -> Result<(), Self::Validation> {
        self.0.validate_merge(&other.0)
    }

    fn merge(&mut self, other: Self) {
        self.0.merge(other.0);
    }
}

/// Maps of `crdts`.
struct Maps {
    states: Vec<Map<Vec<u8>, Last, u8>>,
    keys: u32,
}

impl Group for Maps {
    fn update(&mut self, own: usize, place: u32) -> Outcome<()> {
        let id = (own as u8, place / REPLICAS + 1);
        self.states[own].apply(map::Op::Up {
            dot: Dot::new(id.0, id.1.into()),
            key: key_of(place, self.keys),
            op: LWWReg {
                val: value_of(place),
                marker: (place.into(), id),
            },
        });
        Ok(())
    }

    fn exchange(&mut self) -> Outcome<()> {
        merge_all(&mut self.states);
        Ok(())
    }

    fn came(&mut self) -> Outcome<u64> {
        let state = &self.states[2];
        let keys = (0..self.keys).map(|key| key.to_le_bytes().to_vec());
        Ok(sum_of(keys.filter_map(|key| {
            state.get(&key).val.map(|last| last.0.val)
        })))
    }
}

/// Nodes over the library, each with what it has learnt of a map.
struct Nodes {
    nodes: Vec<Node>,
    maps: Vec<WriteMap>,
    keys: Option<u32>,
}

impl Nodes {
    fn new(keys: Option<u32>) -> Outcome<Nodes> {
        let mut nodes = Vec::new();
        for own in 0..REPLICAS {
            let mut node = Node::new(&Config::new(REPLICAS as u8, own as u8))?;
            node.add(COUNTER, Kind::Counter)?;
            nodes.push(node);
        }
        let maps = vec![WriteMap::new(MAP); nodes.len()];
        Ok(Nodes { nodes, maps, keys })
    }
}

impl Group for Nodes {
    fn update(&mut self, own: usize, place: u32) -> Outcome<()> {
        match self.keys {
            Some(keys) => {
                let write = WriteMap::write(place.into(), &key_of(place, keys), &value_of(place))?;
                self.nodes[own].own(MAP, &write)?;
            }
            None => {
                self.nodes[own].inc(COUNTER, 1)?;
            }
        }
        Ok(())
    }

    fn exchange(&mut self) -> Outcome<()> {
        let mut quiet = false;
        while !quiet {
            quiet = true;
            for from in 0..self.nodes.len() {
                while let Some(mail) = self.nodes[from].next_mail()? {
                    self.nodes[usize::from(mail.to)].receive(&mail.line)?;
                    quiet = false;
                }
            }
        }
        if self.keys.is_some() {
            for (node, map) in self.nodes.iter_mut().zip(&mut self.maps) {
                node.absorb_into(map);
            }
        }
        Ok(())
    }

    fn came(&mut self) -> Outcome<u64> {
        if self.keys.is_some() {
            return Ok(sum_of(self.maps[2].iter().map(|(_, value)| value.to_vec())));
        }
        Ok(u64::try_from(self.nodes[2].total(COUNTER)?)?)
    }
}

fn measure(mut group: impl Group, many: u32) -> Outcome<()> {
    let start = Instant::now();
    for place in 0..many {
        group.update((place % REPLICAS) as usize, place)?;
        if place % REPLICAS == REPLICAS - 1 {
            group.exchange()?;
        }
    }
    let spent = start.elapsed().as_micros();
    println!("{spent} {}", group.came()?);
    Ok(())
}

fn main() -> Outcome<()> {
    let words: Vec<String> = env::args().skip(1).collect();
    let words: Vec<&str> = words.iter().map(String::as_str).collect();
    let [peer, case, many, keys] = words.as_slice() else {
        return Err("usage: embed PEER CASE MANY KEYS".into());
    };
    let (many, keys) = (many.parse()?, keys.parse()?);
    match (*peer, *case) {
        ("ours", "counter") => measure(Nodes::new(None)?, many),
        ("ours", "map") => measure(Nodes::new(Some(keys))?, many),
        ("crdts", "counter") => measure(Counters(vec![GCounter::new(); 3]), many),
        ("crdts", "map") => {
            let states = vec![Map::new(); 3];
            measure(Maps { states, keys }, many)
        }
        _ => Err("there is no such peer or case".into()),
    }
}
