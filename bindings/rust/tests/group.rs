//! Groups of nodes in one process, whose messages go through a bag that may lose, repeat and reorder
//! them.

use lattice_agreement::WriteMap;
use lattice_agreement::{Ask, Config, Error, Kind, Mail, Node, Operation, Outcome, Submit, Update};
use std::thread;

const COUNTER: u16 = 1;
const REGISTER: u16 = 2;
const SET: u16 = 3;
const MAP: u16 = 4;

/// A group, what is on its way, and numbers that look like chance.
struct Group {
    nodes: Vec<Node>,
    bag: Vec<Mail>,
    seed: u64,
}

impl Group {
    fn new(seed: u64) -> Group {
        let nodes = (0..3).map(|own| {
            let mut node = Node::new(&Config { commits: 1, ..Config::new(3, own) }).unwrap();
            node.add(COUNTER, Kind::Counter).unwrap();
            node.add(REGISTER, Kind::MaxRegister).unwrap();
            node.add(SET, Kind::OrSet).unwrap();
            node
        });
        Group { nodes: nodes.collect(), bag: Vec::new(), seed }
    }

    /// A number below this one.
    fn drawn(&mut self, bound: usize) -> usize {
        self.seed ^= self.seed << 13;
        self.seed ^= self.seed >> 7;
        self.seed ^= self.seed << 17;
        (self.seed % bound as u64) as usize
    }

    fn collect(&mut self) {
        for node in &mut self.nodes {
            self.bag.extend(node.mail().map(Result::unwrap));
        }
    }

    /// Hands over one message, any: perhaps not, perhaps twice.
    fn hand_over(&mut self, lost_percent: usize, twice_percent: usize) {
        let at = self.drawn(self.bag.len());
        let mail = self.bag.swap_remove(at);
        if self.drawn(100) >= lost_percent {
            self.nodes[usize::from(mail.to)].receive(&mail.line).unwrap();
        }
        if self.drawn(100) < twice_percent {
            self.bag.push(mail);
        }
        self.collect();
    }

    fn is_settled(&self) -> bool {
        let submitted: Vec<u32> = self.nodes.iter().map(|it| it.submitted().unwrap()).collect();
        self.nodes.iter().all(|node| node.view().unwrap()[..3] == submitted)
    }

    /// Hands all over, and has it sent again, until all is learnt by all.
    fn settle(&mut self) {
        for _ in 0..100 {
            self.collect();
            while !self.bag.is_empty() {
                self.hand_over(0, 0);
            }
            if self.is_settled() {
                return;
            }
            for node in &mut self.nodes {
                node.again().unwrap();
            }
        }
        panic!("not all is learnt after 100 rounds");
    }
}

#[test]
fn objects_answer_alike_everywhere() {
    let mut group = Group::new(1);
    assert_eq!(group.nodes[0].inc(COUNTER, 5), Ok(1));
    assert_eq!(group.nodes[0].inc(COUNTER, 5), Ok(2));
    assert_eq!(group.nodes[1].dec(COUNTER, 12), Ok(1));
    assert_eq!(group.nodes[1].raise(REGISTER, u64::MAX), Ok(2));
    assert_eq!(group.nodes[2].put(SET, 9), Ok(1));
    assert_eq!(group.nodes[2].mark(SET), Ok(2));
    group.settle();
    for node in &group.nodes {
        assert_eq!(node.total(COUNTER), Ok(-2));
        assert_eq!((node.at_least(COUNTER, 0), node.at_least(COUNTER, 1)), (Ok(false), Ok(false)));
        assert_eq!(node.largest(REGISTER), Ok(u64::MAX));
        assert_eq!((node.has(SET, 9), node.has(SET, 8)), (Ok(true), Ok(false)));
        assert_eq!((node.size(SET), node.items(SET)), (Ok(1), Ok(vec![9])));
        assert_eq!(node.view(), Ok([2, 2, 2, 0, 0, 0, 0, 0]));
    }
    assert!(group.nodes[0].known(1).unwrap().iter().all(|count| *count <= 2));
}

#[test]
fn an_add_at_the_same_time_stays() {
    let mut group = Group::new(1);
    for element in 0..40 {
        group.nodes[0].put(SET, element).unwrap();
    }
    group.settle();
    group.nodes[1].remove(SET, 7).unwrap();
    group.nodes[1].remove(SET, 8).unwrap();
    group.nodes[2].put(SET, 8).unwrap();
    group.settle();
    let wanted: Vec<u64> = (0..40).filter(|it| *it != 7).collect();
    for node in &group.nodes {
        assert_eq!(node.items(SET).as_ref(), Ok(&wanted));
    }
}

#[test]
fn all_that_propose_alike_commit() {
    let mut group = Group::new(1);
    for node in &mut group.nodes {
        assert_eq!(node.outcome(0), Ok(None));
        node.propose(0, 42).unwrap();
        assert_eq!(node.propose(0, 42), Err(Error::AlreadyProposed));
        assert_eq!(node.propose(1, 42), Err(Error::NoCommit));
    }
    group.settle();
    for node in &group.nodes {
        assert_eq!(node.outcome(0), Ok(Some(Outcome::Commit(42))));
        assert_eq!(node.outcome(1), Ok(None));
    }
}

#[test]
fn refusals_say_why() {
    let new = |config: Config| Node::new(&config).err();
    assert_eq!(new(Config { cap: 0, ..Config::new(3, 0) }), Some(Error::BadGroup));
    assert_eq!(new(Config { votes: vec![1, 1], ..Config::new(3, 0) }), Some(Error::BadGroup));
    assert_eq!(new(Config { votes: vec![1, 1, 1], ..Config::new(3, 3) }), Some(Error::NoReplica));
    let mut node = Node::new(&Config { cap: 1, ..Config::new(3, 0) }).unwrap();
    node.add(COUNTER, Kind::Counter).unwrap();
    assert_eq!(node.add(COUNTER, Kind::OrSet), Err(Error::Taken));
    assert_eq!(node.total(SET), Err(Error::NoObject));
    assert_eq!(node.items(COUNTER), Err(Error::Foreign));
    assert_eq!(node.own(MAP, &[0; 249]), Err(Error::TooLarge));
    assert_eq!(node.inc(COUNTER, 1), Ok(1));
    assert_eq!(node.inc(COUNTER, 1), Err(Error::Full));
    assert_eq!(node.receive(b""), Err(Error::BadLine));
    assert_eq!(node.receive(b"tick"), Err(Error::NoMessage));
    assert_eq!(node.receive(b"yes 3 1 2 0 1 has 0 view 0"), Err(Error::Elsewhere));
    assert_eq!(node.receive(b"yes 3 1 0 0 01 has 0 view 0"), Err(Error::BadNumber));
    assert_eq!(
        Error::BadNumber.to_string(),
        "a number in the line is malformed or out of its range"
    );
}

#[test]
fn a_number_counts_once() {
    let mut node = Node::new(&Config::new(3, 0)).unwrap();
    let operations = [
        Operation::Inc(5),
        Operation::Dec(7),
        Operation::Raise(u64::MAX),
        Operation::Put(8),
        Operation::Mark,
        Operation::Own(vec![1; 248]),
    ];
    for (number, operation) in (1..).zip(&operations) {
        assert_eq!(node.submit_at(number + 1, MAP, operation), Err(Error::Ahead));
        assert_eq!(node.submit_at(number, MAP, operation), Ok(()));
        assert_eq!(node.submit_at(number, MAP, operation), Ok(()));
        assert_eq!(node.submit_at(number, SET, operation), Err(Error::Stale));
        assert_eq!(node.submitted(), Ok(number));
    }
    for refused in [Operation::Remove { puts: 1 }, Operation::Vote(1)] {
        assert_eq!(node.submit_at(7, MAP, &refused), Err(Error::BadKind));
    }
    for refused in [Operation::Inc(1 << 32), Operation::Own(vec![1; 249])] {
        assert_eq!(node.submit_at(7, MAP, &refused), Err(Error::TooLarge));
    }
    assert_eq!(node.submit_at(0, MAP, &Operation::Mark), Err(Error::Ahead));
    assert_eq!(node.submitted(), Ok(6));
}

#[test]
fn what_is_learnt_comes_once_and_in_order() {
    let mut group = Group::new(7);
    let long = [7; 248];
    for number in 1..=30_u32 {
        assert_eq!(group.nodes[number as usize % 3].own(MAP, &long), Ok(number.div_ceil(3)));
    }
    group.settle();
    for node in &mut group.nodes {
        let mut numbers = [0; 3];
        for update in node.learnt() {
            let Update { replica, number, object, operation } = update.unwrap();
            numbers[usize::from(replica)] += 1;
            assert_eq!((number, object), (numbers[usize::from(replica)], MAP));
            assert_eq!(operation, Operation::Own(long.to_vec()));
        }
        assert_eq!((numbers, node.next_learnt()), ([10, 10, 10], Ok(None)));
    }
}

#[test]
fn maps_of_ones_own_are_alike() {
    let mut group = Group::new(3);
    for stamp in 0..60 {
        let (at, key) = (group.drawn(3), group.drawn(5) as u8);
        let write = WriteMap::write(stamp / 4, &[key], &stamp.to_le_bytes()).unwrap();
        group.nodes[at].own(MAP, &write).unwrap();
        group.collect();
        group.hand_over(20, 20);
    }
    group.settle();
    let maps = group.nodes.iter_mut().map(|node| {
        let mut map = WriteMap::new(MAP);
        assert_eq!(node.absorb_into(&mut map), Ok(60));
        assert_eq!(node.absorb_into(&mut map), Ok(0));
        map
    });
    let maps: Vec<WriteMap> = maps.collect();
    assert!(maps.iter().all(|map| *map == maps[0]));
    assert_eq!(maps[0].iter().count(), 5);
    assert_eq!(WriteMap::write(1, &[0; 200], &[0; 40]), Err(Error::TooLarge));
}

/// Submissions while messages are lost, repeated and reordered: of any two views one has all that the
/// other has, at any time.
fn run_lossy(seed: u64) {
    let mut group = Group::new(seed);
    let mut made = 0;
    while made < 60 {
        match group.drawn(16) {
            at @ 0..3 => {
                group.nodes[at].inc(COUNTER, 1).unwrap();
                made += 1;
            }
            3 => group.nodes[made % 3].again().unwrap(),
            _ if group.bag.is_empty() => {}
            _ => group.hand_over(20, 20),
        }
        group.collect();
        let views: Vec<_> = group.nodes.iter().map(|node| node.view().unwrap()).collect();
        for (one, other) in [(0, 1), (0, 2), (1, 2)] {
            let mut pairs = views[one].iter().zip(&views[other]);
            assert!(pairs.clone().all(|(x, y)| x <= y) || pairs.all(|(x, y)| x >= y));
        }
    }
    group.settle();
    assert!(group.nodes.iter().all(|node| node.total(COUNTER) == Ok(60)));
}

#[test]
fn views_are_comparable_whatever_is_lost() {
    for seed in 1..20 {
        run_lossy(seed);
    }
}

#[test]
fn threads_have_groups_of_their_own() {
    let threads = (100..104).map(|seed| thread::spawn(move || run_lossy(seed)));
    for it in threads.collect::<Vec<_>>() {
        it.join().unwrap();
    }
}

#[test]
fn a_group_goes_to_another_thread() {
    let mut group = Group::new(1);
    group.nodes[0].inc(COUNTER, 1).unwrap();
    let moved = thread::spawn(move || {
        group.settle();
        group
    });
    assert_eq!(moved.join().unwrap().nodes[2].total(COUNTER), Ok(1));
}

#[test]
fn a_node_shows_how_far_it_is() {
    let shown = format!("{:?}", Node::new(&Config::new(1, 0)).unwrap());
    assert_eq!(shown, "Node { submitted: 0, view: [0, 0, 0, 0, 0, 0, 0, 0], .. }");
}
