//! An observed-remove set in plain Rust, to be measured beside `sets.rt.txt`: the tags of each
//! element in a sorted set, in a sorted map by element, and the ids that Removes named in another
//! sorted set. It has no map from ids to elements, so each of its Removes says whose tags it names.
//! It prints the same lines.

use std::collections::{BTreeMap, BTreeSet};
use std::hint::black_box;
use std::time::Instant;

const PUTS: u32 = 100_000;
const ELEMENTS: u32 = 10_000;
const MANY: u32 = 1_000_000;
const EARLY: u32 = 1_000;

type Tag = (u8, u32);

enum Op {
    Put(u64),
    Remove(u64, Vec<Tag>),
}

struct Update {
    id: Tag,
    op: Op,
}

#[derive(Default)]
struct Set {
    live: BTreeMap<u64, BTreeSet<Tag>>,
    gone: BTreeSet<Tag>,
}

impl Set {
    fn absorb(&mut self, update: &Update) {
        match &update.op {
            Op::Put(element) => {
                if !self.gone.contains(&update.id) {
                    self.live.entry(*element).or_default().insert(update.id);
                }
            }
            Op::Remove(element, tags) => self.remove(*element, tags),
        }
    }

    fn remove(&mut self, element: u64, tags: &[Tag]) {
        self.gone.extend(tags);
        let Some(live) = self.live.get_mut(&element) else {
            return;
        };
        for tag in tags {
            live.remove(tag);
        }
        if live.is_empty() {
            self.live.remove(&element);
        }
    }
}

/// The element of the Put at this place, of replica 0 to 3: elements come in a mixed order.
fn element_of(place: u32) -> u64 {
    (place.wrapping_mul(2_654_435_761) % ELEMENTS).into()
}

fn tag_of(place: u32) -> Tag {
    ((place % 4) as u8, place / 4 + 1)
}

/// So many Puts; of one element alone, or of all.
fn puts(many: u32, one: bool) -> Vec<Update> {
    let put = |place| Update {
        id: tag_of(place),
        op: Op::Put(if one { 7 } else { element_of(place) }),
    };
    (0..many).map(put).collect()
}

/// So many Removes. Each names the tag of one Put, of every second one or of each.
fn removes(many: u32, step: u32, one: bool) -> Vec<Update> {
    let remove = |number: u32| {
        let place = number * step;
        Update {
            id: (4, number + 1),
            op: Op::Remove(if one { 7 } else { element_of(place) }, vec![tag_of(place)]),
        }
    };
    (0..many).map(remove).collect()
}

fn absorb_all(set: &mut Set, updates: &[Update]) {
    for update in black_box(updates) {
        set.absorb(update);
    }
}

/// Prints what a step took, once its updates are gone.
fn step(name: &str, set: &mut Set, updates: Vec<Update>) {
    let start = Instant::now();
    absorb_all(set, &updates);
    let spent = start.elapsed().as_micros();
    drop(updates);
    println!("{name} {spent} {}", set.live.len());
}

fn main() {
    println!("start 0 0");
    let mut set = Set::default();
    step("puts", &mut set, puts(PUTS, false));
    step("removes", &mut set, removes(PUTS / 2, 2, false));
    let start = Instant::now();
    let there = (0..u64::from(ELEMENTS)).filter(|x| set.live.contains_key(black_box(x)));
    let there = there.count();
    println!("has {} {there}", start.elapsed().as_micros());
    let start = Instant::now();
    let size = black_box(&set).live.len();
    println!("size {} {size}", start.elapsed().as_micros());
    let start = Instant::now();
    let items: Vec<u64> = black_box(&set).live.keys().copied().collect();
    println!("items {} {}", start.elapsed().as_micros(), items.len());
    let start = Instant::now();
    let tags = |x| set.live.get(black_box(&x)).map(|tags| tags.iter().copied().collect());
    let observed = (0..u64::from(ELEMENTS)).filter_map(tags);
    let observed = observed.filter(|tags: &Vec<Tag>| !tags.is_empty()).count();
    println!("observed {} {observed}", start.elapsed().as_micros());
    worst();
}

/// One element, put again and again and then removed as often; and Removes that come first.
fn worst() {
    let mut set = Set::default();
    step("one_put", &mut set, puts(MANY, true));
    step("one_removed", &mut set, removes(MANY, 1, true));
    let mut late = Set::default();
    let mut updates = removes(EARLY, 1, false);
    updates.extend(puts(EARLY, false));
    step("early", &mut late, updates);
}
