//! `Orswot` of the crate `crdts`, with the elements and tags of `sets.rs`, to be measured beside it.
//! A removal here names a clock, which covers all earlier Adds of its actor, and elements; the same
//! elements stay. It keeps of an element one number for each actor, and no tags. It prints the same
//! lines.

use crdts::orswot::{Op, Orswot};
use crdts::{CmRDT, Dot, VClock};
use std::hint::black_box;
use std::time::Instant;

const PUTS: u32 = 100_000;
const ELEMENTS: u32 = 10_000;
const MANY: u32 = 1_000_000;
const EARLY: u32 = 1_000;

/// The element of the Put at this place, of replica 0 to 3: elements come in a mixed order.
fn element_of(place: u32) -> u64 {
    (place.wrapping_mul(2_654_435_761) % ELEMENTS).into()
}

fn dot_of(place: u32) -> Dot<u8> {
    Dot::new((place % 4) as u8, u64::from(place / 4 + 1))
}

/// So many Puts; of one element alone, or of all.
fn puts(many: u32, one: bool) -> Vec<Op<u64, u8>> {
    let put = |place| Op::Add {
        dot: dot_of(place),
        members: vec![if one { 7 } else { element_of(place) }],
    };
    (0..many).map(put).collect()
}

/// So many Removes, each of one Put, of every second one or of each.
fn removes(many: u32, step: u32, one: bool) -> Vec<Op<u64, u8>> {
    let remove = |number: u32| Op::Rm {
        clock: VClock::from(dot_of(number * step)),
        members: vec![if one { 7 } else { element_of(number * step) }],
    };
    (0..many).map(remove).collect()
}

fn apply_all(set: &mut Orswot<u64, u8>, ops: Vec<Op<u64, u8>>) {
    for op in black_box(ops) {
        set.apply(op);
    }
}

fn size(set: &Orswot<u64, u8>) -> usize {
    set.read().val.len()
}

/// Prints what a step took, once its operations are gone.
fn step(name: &str, set: &mut Orswot<u64, u8>, ops: Vec<Op<u64, u8>>) {
    let start = Instant::now();
    apply_all(set, ops);
    println!("{name} {} {}", start.elapsed().as_micros(), size(set));
}

fn main() {
    println!("start 0 0");
    let mut set = Orswot::new();
    step("puts", &mut set, puts(PUTS, false));
    step("removes", &mut set, removes(PUTS / 2, 2, false));
    let start = Instant::now();
    let there = (0..u64::from(ELEMENTS)).filter(|x| set.contains(black_box(x)).val);
    let there = there.count();
    println!("has {} {there}", start.elapsed().as_micros());
    let start = Instant::now();
    let whole = size(black_box(&set));
    println!("size {} {whole}", start.elapsed().as_micros());
    let start = Instant::now();
    let mut items: Vec<u64> = black_box(&set).read().val.into_iter().collect();
    items.sort();
    println!("items {} {}", start.elapsed().as_micros(), items.len());
    let start = Instant::now();
    let observed = (0..u64::from(ELEMENTS)).map(|x| set.contains(black_box(&x)).derive_rm_ctx());
    let observed = observed.filter(|observed| !observed.clock.is_empty()).count();
    println!("observed {} {observed}", start.elapsed().as_micros());
    worst();
}

/// One element, put again and again and then removed as often; and Removes that come first.
fn worst() {
    let mut set = Orswot::new();
    step("one_put", &mut set, puts(MANY, true));
    step("one_removed", &mut set, removes(MANY, 1, true));
    let mut late = Orswot::new();
    let mut ops = removes(EARLY, 1, false);
    ops.extend(puts(EARLY, false));
    step("early", &mut late, ops);
}
