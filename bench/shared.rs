//! What 400,000 offers to one acceptor behind a `Mutex` take, made by 1, 2, 4 and 8 threads: plain
//! Rust, to measure `shared.rt.txt` beside. It prints the same three words for each.
use std::sync::{Arc, Mutex};
use std::thread;
use std::time::Instant;

const OFFERS: u32 = 400_000;

/// An update by its object and its increment, under its replica and its place there.
type Update = (u16, u32);

/// Eight histories, which copies share.
type Set = Arc<[Vec<Update>; 8]>;

/// Whether the offer clashes with what was accepted, whether it contains that, and whether it lies
/// in it.
fn compare(accepted: &Set, offered: &Set) -> (bool, bool, bool) {
    let (mut clashes, mut contains, mut lies) = (false, true, true);
    for (mine, theirs) in accepted.iter().zip(offered.iter()) {
        clashes |= mine.iter().zip(theirs).any(|(one, other)| one != other);
        contains &= mine.len() <= theirs.len();
        lies &= theirs.len() <= mine.len();
    }
    (clashes, contains, lies)
}

fn longer(accepted: &Set, offered: &Set, replica: usize) -> Vec<Update> {
    let (mine, theirs) = (&accepted[replica], &offered[replica]);
    if theirs.len() > mine.len() { theirs.clone() } else { mine.clone() }
}

/// The acceptor's rule: nothing where the offer is acknowledged, and the union where it is refused.
fn offer(accepted: &mut Set, offered: &Set) -> Result<Option<Set>, ()> {
    let (clashes, contains, lies) = compare(accepted, offered);
    if clashes {
        return Err(());
    }
    if contains {
        *accepted = offered.clone();
        return Ok(None);
    }
    if !lies {
        *accepted = Arc::new(std::array::from_fn(|replica| longer(accepted, offered, replica)));
    }
    Ok(Some(accepted.clone()))
}

fn offer_many(shared: &Mutex<Set>, replica: usize, offers: u32) -> u32 {
    let mut histories: [Vec<Update>; 8] = Default::default();
    histories[replica].push((1, 1));
    let set = Arc::new(histories);
    let answers = (0..offers).filter(|_| offer(&mut shared.lock().unwrap(), &set).is_ok());
    answers.count() as u32
}

fn main() {
    for threads in [1, 2, 4, 8] {
        let shared = Mutex::new(Set::default());
        let start = Instant::now();
        let many = &|replica| offer_many(&shared, replica, OFFERS / threads);
        let answered: u32 = thread::scope(|scope| {
            let one = |replica| scope.spawn(move || many(replica));
            let started: Vec<_> = (0..threads as usize).map(one).collect();
            started.into_iter().map(|thread| thread.join().unwrap()).sum()
        });
        println!("{threads} {} {answered}", start.elapsed().as_micros());
    }
}
