//! What a run of 1, 2, 4 and 8 members takes in plain Rust, each in a thread of its own and with as many
//! increments of one counter as the second argument says, to measure `threads.rt.txt` beside. It
//! prints the same three words for each. By the first argument a set is a `BTreeSet` of updates
//! (`sets`), or how many updates each replica has (`counts`).
use std::collections::BTreeSet;
use std::sync::{Mutex, mpsc};
use std::thread;
use std::time::Instant;

/// A set of updates; a replica's updates come in order.
trait Set: Clone + Default + Send {
    fn add(&mut self, replica: usize, number: u32);
    fn contains(&self, other: &Self) -> bool;
    fn join(&mut self, other: &Self);
    fn len(&self) -> usize;
}

/// By replica, number, object and increment.
#[derive(Clone, Default)]
struct Whole(BTreeSet<(usize, u32, u16, u32)>);

impl Set for Whole {
    fn add(&mut self, replica: usize, number: u32) {
        self.0.insert((replica, number, 1, 1));
    }

    fn contains(&self, other: &Self) -> bool {
        other.0.is_subset(&self.0)
    }

    fn join(&mut self, other: &Self) {
        self.0.extend(&other.0);
    }

    fn len(&self) -> usize {
        self.0.len()
    }
}

#[derive(Clone, Default)]
struct Counts([u32; 8]);

impl Set for Counts {
    fn add(&mut self, replica: usize, number: u32) {
        self.0[replica] = number;
    }

    fn contains(&self, other: &Self) -> bool {
        self.0.iter().zip(other.0).all(|(mine, theirs)| *mine >= theirs)
    }

    fn join(&mut self, other: &Self) {
        for (mine, theirs) in self.0.iter_mut().zip(other.0) {
            *mine = theirs.max(*mine);
        }
    }

    fn len(&self) -> usize {
        self.0.iter().sum::<u32>() as usize
    }
}

/// The acceptor's rule: nothing where the offer is acknowledged, and the union where it is refused.
fn offer<S: Set>(acceptor: &Mutex<S>, offered: &S) -> Option<S> {
    let mut accepted = acceptor.lock().unwrap();
    if offered.contains(&accepted) {
        *accepted = offered.clone();
        return None;
    }
    accepted.join(offered);
    Some(accepted.clone())
}

/// Offers a set until a majority has acknowledged one ballot's; a ballot that a majority answered, and
/// one of them refused, is refined by what was refused.
fn learn<S: Set>(acceptors: &[Mutex<S>], mut offered: S) -> S {
    let majority = acceptors.len() / 2 + 1;
    loop {
        let (mut answers, mut refused) = (0, S::default());
        let mut is_refused = false;
        for acceptor in acceptors {
            if let Some(more) = offer(acceptor, &offered) {
                refused.join(&more);
                is_refused = true;
            }
            answers += 1;
            if answers == majority {
                break;
            }
        }
        if !is_refused {
            return offered;
        }
        offered.join(&refused);
    }
}

/// What a member does, and its view in the end.
fn work<S: Set>(
    acceptors: &[Mutex<S>],
    own: usize,
    each: u32,
    outboxes: Vec<mpsc::Sender<S>>,
    inbox: mpsc::Receiver<S>,
) -> S {
    let mut view = S::default();
    let mut learnt = Vec::new();
    for number in 1..=each {
        view.add(own, number);
        view = learn(acceptors, view);
        learnt.push(view.len());
    }
    for outbox in outboxes {
        outbox.send(view.clone()).unwrap();
    }
    for told in inbox {
        if told.contains(&view) {
            view = told;
        }
    }
    view
}

fn run<S: Set>(members: usize, each: u32) -> usize {
    let acceptors: Vec<Mutex<S>> = (0..members).map(|_| Mutex::default()).collect();
    let (ends, inboxes): (Vec<_>, Vec<_>) = (0..members).map(|_| mpsc::channel()).unzip();
    thread::scope(|scope| {
        let mut started = Vec::new();
        for (own, inbox) in inboxes.into_iter().enumerate() {
            let others = (0..members).filter(|other| *other != own);
            let outboxes = others.map(|other| ends[other].clone()).collect();
            let acceptors = &acceptors;
            started.push(scope.spawn(move || work(acceptors, own, each, outboxes, inbox)));
        }
        drop(ends);
        started.into_iter().map(|thread| thread.join().unwrap().len()).min().unwrap()
    })
}

fn main() {
    let words: Vec<String> = std::env::args().collect();
    let each = words[2].parse().unwrap();
    for members in [1, 2, 4, 8] {
        let start = Instant::now();
        let least = match words[1].as_str() {
            "sets" => run::<Whole>(members, each),
            _ => run::<Counts>(members, each),
        };
        println!("{members} {} {least}", start.elapsed().as_micros());
    }
}
