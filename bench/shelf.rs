//! A plain loop over the numbers of the updates that `shelf.rt.txt` absorbs, to be measured beside
//! it: it adds up and takes the largest, and keeps no set. It prints the same lines.

use std::hint::black_box;
use std::time::{Duration, Instant};

const MOST: u32 = 1_000_000;

enum Op {
    Inc(u32),
    Raise(u64),
}

/// One operation on one object.
struct Update {
    object: u16,
    op: Op,
}

/// Every second update is the counter's, the others are the register's.
fn update(number: u32) -> Update {
    let mixed = number.wrapping_mul(2_654_435_761);
    if number % 2 == 0 {
        Update {
            object: 2,
            op: Op::Raise(mixed.into()),
        }
    } else {
        Update {
            object: 1,
            op: Op::Inc(mixed),
        }
    }
}

/// A counter and a max register.
#[derive(Default)]
struct Objects {
    total: i64,
    largest: u64,
}

impl Objects {
    fn absorb(&mut self, updates: &[Update]) {
        for update in updates {
            match (update.object, &update.op) {
                (1, Op::Inc(by)) => self.total += i64::from(*by),
                (2, Op::Raise(to)) => self.largest = self.largest.max(*to),
                _ => {}
            }
        }
    }
}

fn main() {
    let ways = [("absorb", 1), ("absorb", 1_000), ("absorb_compatible", 1_000)];
    for (name, calls) in ways {
        let step = MOST / calls;
        let mut objects = Objects::default();
        let mut updates = Vec::new();
        let mut spent = Duration::ZERO;
        for call in 0..calls {
            updates.extend((call * step..(call + 1) * step).map(|before| update(before + 1)));
            let start = Instant::now();
            objects.absorb(black_box(&updates[(call * step) as usize..]));
            spent += start.elapsed();
        }
        let Objects { total, largest } = objects;
        println!("{name} {calls} {} {total} {largest}", spent.as_micros());
    }
}
