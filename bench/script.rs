//! Scripts, as the plain programs beside this file read them. Of the events they know submissions and
//! deliveries.

use std::str::FromStr;

/// How many replicas a group may have.
pub const REPLICAS: usize = 8;

/// How many tags a `Remove` may name.
const MAX_TAGS: usize = 64;

/// The first line of a script and of a report.
pub const VERSION: &str = "lattice 1";

/// Which update: the replica that made it, and its number among that replica's updates, from 1.
#[derive(Clone, Copy, PartialEq, Eq, PartialOrd, Ord)]
pub struct UpdateId {
    pub replica: u8,
    pub number: u32,
}

/// What an update does to its object.
#[derive(Clone, PartialEq, Eq)]
pub enum Op {
    Inc(u32),
    Dec(u32),
    Raise(u64),
    Put(u64),
    Remove(Vec<UpdateId>),
    Mark,
}

/// What may happen to a group.
pub enum Event {
    Submit { replica: u8, object: u16, op: Op },
    Deliver(u64),
}

/// What group is played.
pub struct Group {
    pub replicas: usize,
    pub cap: usize,
}

/// What is wrong with a line.
#[derive(Debug)]
pub enum FaultName {
    BadHeader,
    BadLine,
    BadNumber,
}

/// A fault of a script: the line's number, from 1, and what is wrong.
pub struct Fault(pub usize, pub FaultName);

/// A canonical number.
fn number<T: FromStr>(word: &str) -> Result<T, FaultName> {
    let is_canonical = word == "0" || !word.starts_with(['0', '+', '-']);
    match word.parse() {
        Ok(value) if is_canonical => Ok(value),
        _ => Err(FaultName::BadNumber),
    }
}

fn tag(word: &str) -> Result<UpdateId, FaultName> {
    let (replica, number_word) = word.split_once('.').ok_or(FaultName::BadNumber)?;
    match (number(replica)?, number(number_word)?) {
        (_, 0) => Err(FaultName::BadNumber),
        (replica, number) => Ok(UpdateId { replica, number }),
    }
}

/// Distinct tags in ascending order.
fn tags(words: &[&str]) -> Result<Vec<UpdateId>, FaultName> {
    let mut tags = words
        .iter()
        .map(|word| tag(word))
        .collect::<Result<Vec<_>, _>>()?;
    tags.sort();
    tags.dedup();
    Ok(tags)
}

fn submission(replica: &str, object: &str, words: &[&str]) -> Result<Event, FaultName> {
    let (replica, object) = (number(replica), number(object));
    let op = match words {
        ["inc", by] => Op::Inc(number(by)?),
        ["dec", by] => Op::Dec(number(by)?),
        ["raise", to] => Op::Raise(number(to)?),
        ["put", element] => Op::Put(number(element)?),
        ["remove", words @ ..] if words.len() <= MAX_TAGS => Op::Remove(tags(words)?),
        ["mark"] => Op::Mark,
        _ => return Err(FaultName::BadLine),
    };
    Ok(Event::Submit {
        replica: replica?,
        object: object?,
        op,
    })
}

fn event(line: &str) -> Result<Event, FaultName> {
    let words: Vec<&str> = line.split(' ').collect();
    if words.contains(&"") {
        return Err(FaultName::BadLine);
    }
    match words.as_slice() {
        ["submit", replica, object, words @ ..] => submission(replica, object, words),
        ["deliver", message] => Ok(Event::Deliver(number(message)?)),
        _ => Err(FaultName::BadLine),
    }
}

fn header(line: &str) -> Option<Group> {
    let words: Vec<&str> = line.split(' ').collect();
    let ["replicas", replicas, "commits", "0", "cap", cap] = words.as_slice() else {
        return None;
    };
    let (replicas, cap) = (number(replicas).ok()?, number(cap).ok()?);
    if !(1..=REPLICAS).contains(&replicas) || !(1..=1_000_000).contains(&cap) {
        return None;
    }
    Some(Group { replicas, cap })
}

/// The group and the events of a script, each kept as is said.
pub fn script<E>(text: &str, keep: impl Fn(Event) -> E) -> Result<(Group, Vec<E>), Fault> {
    let mut lines = text.split('\n');
    if lines.next() != Some(VERSION) {
        return Err(Fault(1, FaultName::BadHeader));
    }
    let group = lines
        .next()
        .and_then(header)
        .ok_or(Fault(2, FaultName::BadHeader))?;
    let mut events = Vec::new();
    for (index, line) in lines.enumerate() {
        if !line.is_empty() && !line.starts_with('#') {
            let read = event(line).map_err(|name| Fault(index + 3, name))?;
            events.push(keep(read));
        }
    }
    Ok((group, events))
}
