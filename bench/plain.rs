//! A plain program for what `lattice play` does, to be measured beside it. It is written as one
//! would write it without proofs and without cleverness: each message owns its whole set.
//!
//! `plain play` reads a script on standard input and prints the report of its run.

mod script;

use script::{script, Event, Fault, Group, Op, UpdateId, REPLICAS, VERSION};
use std::env;
use std::fmt::{self, Display};
use std::io::{self, BufWriter, Read, Write};
use std::process::ExitCode;

/// One operation on one object.
#[derive(Clone, PartialEq, Eq)]
struct Update {
    id: UpdateId,
    object: u16,
    op: Op,
}

/// A set of updates: for each replica its updates, in the order of their numbers.
#[derive(Clone, Default)]
struct UpdateSet {
    of: [Vec<Update>; REPLICAS],
}

impl UpdateSet {
    /// Whether each update of the other set is in this one.
    fn contains_all(&self, other: &UpdateSet) -> bool {
        let mut pairs = self.of.iter().zip(&other.of);
        pairs.all(|(mine, theirs)| mine.starts_with(theirs))
    }

    /// Whether it contains the other set and is not equal to it.
    fn is_larger_than(&self, other: &UpdateSet) -> bool {
        self.contains_all(other) && !other.contains_all(self)
    }

    /// Adds what the other set has beyond this one.
    fn join(&mut self, other: &UpdateSet) {
        for (mine, theirs) in self.of.iter_mut().zip(&other.of) {
            if mine.len() < theirs.len() {
                mine.extend_from_slice(&theirs[mine.len()..]);
            }
        }
    }

    /// Adds a replica's next update.
    fn push_next(&mut self, replica: usize, object: u16, op: Op) {
        let id = self.next_id(replica, 0);
        self.of[replica].push(Update { id, object, op });
    }

    /// The id of a replica's next update, where so many others come before it.
    fn next_id(&self, replica: usize, before: usize) -> UpdateId {
        UpdateId {
            replica: replica as u8,
            number: (self.of[replica].len() + before + 1) as u32,
        }
    }
}

impl Display for UpdateId {
    fn fmt(&self, f: &mut fmt::Formatter) -> fmt::Result {
        write!(f, "{}.{}", self.replica, self.number)
    }
}

impl Display for UpdateSet {
    fn fmt(&self, f: &mut fmt::Formatter) -> fmt::Result {
        f.write_str("{")?;
        for (place, update) in self.of.iter().flatten().enumerate() {
            if place > 0 {
                f.write_str(" ")?;
            }
            write!(f, "{}", update.id)?;
        }
        f.write_str("}")
    }
}

/// What a message says.
enum Body {
    Offer(UpdateSet),
    Yes,
    No(UpdateSet),
    Tell(UpdateSet),
}

/// A message of one replica to another, or to itself.
struct Message {
    from: usize,
    to: usize,
    ballot: u32,
    body: Body,
}

/// A reply that has counted: who gave it, and the set that came with a No.
struct Counted {
    from: usize,
    refused: Option<UpdateSet>,
}

/// One replica: its acceptor, its proposer and its view.
struct Replica {
    own: usize,
    replicas: usize,
    accepted: UpdateSet,
    ballot: u32,
    /// The set of the last ballot.
    updates: UpdateSet,
    is_asking: bool,
    tally: Vec<Counted>,
    waiting: Vec<(u16, Op)>,
    view: UpdateSet,
}

/// What a replica did with a submission or a message.
enum Done {
    Opened,
    Held(UpdateId),
    Yes,
    No,
    Counted,
    Ignored,
    Refined,
    Learnt {
        ballot: u32,
        learnt: UpdateSet,
        has_next: bool,
    },
    Took,
    Kept,
}

impl Replica {
    fn new(own: usize, replicas: usize) -> Replica {
        Replica {
            own,
            replicas,
            accepted: UpdateSet::default(),
            ballot: 0,
            updates: UpdateSet::default(),
            is_asking: false,
            tally: Vec::new(),
            waiting: Vec::new(),
            view: UpdateSet::default(),
        }
    }

    /// How many updates it has submitted.
    fn submitted(&self) -> usize {
        self.updates.of[self.own].len() + self.waiting.len()
    }

    fn message(&self, to: usize, ballot: u32, body: Body) -> Message {
        Message {
            from: self.own,
            to,
            ballot,
            body,
        }
    }

    /// Opens a ballot with the set and what waits, and offers it to every replica.
    fn open(&mut self, mail: &mut Vec<Message>) {
        for (object, op) in self.waiting.drain(..) {
            self.updates.push_next(self.own, object, op);
        }
        self.is_asking = true;
        self.offer(mail);
    }

    /// Begins the next ballot with the set as it is.
    fn offer(&mut self, mail: &mut Vec<Message>) {
        self.ballot += 1;
        self.tally.clear();
        for to in 0..self.replicas {
            mail.push(self.message(to, self.ballot, Body::Offer(self.updates.clone())));
        }
    }

    fn submit(&mut self, object: u16, op: Op, mail: &mut Vec<Message>) -> Done {
        let id = self.updates.next_id(self.own, self.waiting.len());
        self.waiting.push((object, op));
        if self.is_asking {
            return Done::Held(id);
        }
        self.open(mail);
        Done::Opened
    }

    fn receive(&mut self, message: &Message, mail: &mut Vec<Message>) -> Done {
        match &message.body {
            Body::Offer(offered) => self.answer(message, offered, mail),
            Body::Yes => self.hear(message, None, mail),
            Body::No(refused) => self.hear(message, Some(refused), mail),
            Body::Tell(told) => self.hear_tell(told),
        }
    }

    fn answer(&mut self, message: &Message, offered: &UpdateSet, mail: &mut Vec<Message>) -> Done {
        let is_yes = offered.contains_all(&self.accepted);
        self.accepted.join(offered);
        let (body, done) = if is_yes {
            (Body::Yes, Done::Yes)
        } else {
            (Body::No(self.accepted.clone()), Done::No)
        };
        mail.push(self.message(message.from, message.ballot, body));
        done
    }

    fn hear(
        &mut self,
        message: &Message,
        refused: Option<&UpdateSet>,
        mail: &mut Vec<Message>,
    ) -> Done {
        let from = message.from;
        let has_counted = self.tally.iter().any(|counted| counted.from == from);
        if !self.is_asking || message.ballot != self.ballot || has_counted {
            return Done::Ignored;
        }
        self.tally.push(Counted {
            from,
            refused: refused.cloned(),
        });
        let yes = self
            .tally
            .iter()
            .filter(|counted| counted.refused.is_none())
            .count();
        let all = self.tally.len();
        if 2 * yes > self.replicas {
            self.learn(mail)
        } else if yes < all && 2 * all > self.replicas {
            self.refine(mail)
        } else {
            Done::Counted
        }
    }

    fn refine(&mut self, mail: &mut Vec<Message>) -> Done {
        for counted in &self.tally {
            if let Some(refused) = &counted.refused {
                self.updates.join(refused);
            }
        }
        self.offer(mail);
        Done::Refined
    }

    fn learn(&mut self, mail: &mut Vec<Message>) -> Done {
        let ballot = self.ballot;
        let learnt = self.updates.clone();
        for to in (0..self.replicas).filter(|to| *to != self.own) {
            mail.push(self.message(to, ballot, Body::Tell(learnt.clone())));
        }
        if learnt.is_larger_than(&self.view) {
            self.view = learnt.clone();
        }
        self.is_asking = false;
        let has_next = !self.waiting.is_empty();
        if has_next {
            self.open(mail);
        }
        Done::Learnt {
            ballot,
            learnt,
            has_next,
        }
    }

    fn hear_tell(&mut self, told: &UpdateSet) -> Done {
        if !told.is_larger_than(&self.view) {
            return Done::Kept;
        }
        self.view = told.clone();
        Done::Took
    }
}

/// A group of replicas and all messages that were ever sent.
struct World {
    group: Group,
    replicas: Vec<Replica>,
    messages: Vec<Message>,
}

/// The numbers of messages, from the first to before the last.
struct Mail(usize, usize);

impl Display for Mail {
    fn fmt(&self, f: &mut fmt::Formatter) -> fmt::Result {
        let Mail(first, end) = *self;
        write!(f, "m{first}")?;
        if first + 1 < end {
            write!(f, "-m{}", end - 1)?;
        }
        Ok(())
    }
}

impl World {
    fn new(group: Group) -> World {
        let replicas = (0..group.replicas)
            .map(|own| Replica::new(own, group.replicas))
            .collect();
        World {
            group,
            replicas,
            messages: Vec::new(),
        }
    }

    /// Plays all events, and writes the report.
    fn run(&mut self, events: Vec<Event>, out: &mut impl Write) -> io::Result<()> {
        let Group { replicas, cap } = self.group;
        writeln!(out, "{VERSION}")?;
        writeln!(out, "replicas {replicas} commits 0 cap {cap}")?;
        for (index, event) in events.into_iter().enumerate() {
            write!(out, "{} ", index + 1)?;
            self.play(event, out)?;
            writeln!(out)?;
        }
        for replica in &self.replicas {
            writeln!(out, "view {} {}", replica.own, replica.view)?;
        }
        Ok(())
    }

    /// Plays an event, and writes what it did.
    fn play(&mut self, event: Event, out: &mut impl Write) -> io::Result<()> {
        match event {
            Event::Submit {
                replica,
                object,
                op,
            } => self.submit(replica as usize, object, op, out),
            Event::Deliver(number) => self.deliver(number, out),
        }
    }

    fn submit(
        &mut self,
        number: usize,
        object: u16,
        op: Op,
        out: &mut impl Write,
    ) -> io::Result<()> {
        let Some(replica) = self.replicas.get_mut(number) else {
            return write!(out, "refused NoSuchReplica");
        };
        if replica.submitted() >= self.group.cap {
            return write!(out, "refused Full");
        }
        let mut mail = Vec::new();
        let done = replica.submit(object, op, &mut mail);
        self.note(number, done, mail, out)
    }

    fn deliver(&mut self, number: u64, out: &mut impl Write) -> io::Result<()> {
        let Some(message) = self.messages.get(number as usize) else {
            return write!(out, "refused NoSuchMessage");
        };
        let to = message.to;
        let mut mail = Vec::new();
        let done = self.replicas[to].receive(message, &mut mail);
        self.note(to, done, mail, out)
    }

    /// Keeps what a replica sent, and writes what it did.
    fn note(
        &mut self,
        number: usize,
        done: Done,
        mail: Vec<Message>,
        out: &mut impl Write,
    ) -> io::Result<()> {
        let first = self.messages.len();
        self.messages.extend(mail);
        let end = self.messages.len();
        let sent = Mail(first, end);
        let replica = &self.replicas[number];
        let Replica {
            ballot, updates, ..
        } = replica;
        match done {
            Done::Opened => write!(out, "opened r{number} i0 b{ballot} {updates} {sent}"),
            Done::Refined => write!(out, "refined r{number} i0 b{ballot} {updates} {sent}"),
            Done::Held(id) => write!(out, "held {id}"),
            Done::Yes => write!(out, "yes {sent}"),
            Done::No => write!(out, "no {} {sent}", replica.accepted),
            Done::Counted => write!(out, "counted"),
            Done::Ignored => write!(out, "ignored"),
            Done::Took => write!(out, "took {}", replica.view),
            Done::Kept => write!(out, "kept"),
            Done::Learnt {
                ballot,
                learnt,
                has_next,
            } => {
                write!(out, "learnt r{number} i0 b{ballot} {learnt}")?;
                replica.note_learning(has_next, first, end, out)
            }
        }
    }
}

impl Replica {
    /// Writes what was sent at a learning: tells, and the offers of the next ballot.
    fn note_learning(
        &self,
        has_next: bool,
        first: usize,
        end: usize,
        out: &mut impl Write,
    ) -> io::Result<()> {
        let told = first + self.replicas - 1;
        if first < told {
            write!(out, " told {}", Mail(first, told))?;
        }
        if has_next {
            let Replica {
                own,
                ballot,
                updates,
                ..
            } = self;
            write!(
                out,
                " opened r{own} i0 b{ballot} {updates} {}",
                Mail(told, end)
            )?;
        }
        Ok(())
    }
}

/// Reads a script on standard input, and prints the report of its run.
fn play() -> io::Result<ExitCode> {
    let mut input = Vec::new();
    io::stdin().read_to_end(&mut input)?;
    match script(&String::from_utf8_lossy(&input), |event| event) {
        Ok((group, events)) => {
            let mut out = BufWriter::new(io::stdout().lock());
            World::new(group).run(events, &mut out)?;
            out.flush()?;
            Ok(ExitCode::SUCCESS)
        }
        Err(Fault(line, name)) => {
            eprintln!("line {line}: {name:?}");
            Ok(ExitCode::from(1))
        }
    }
}

fn main() -> io::Result<ExitCode> {
    let words: Vec<String> = env::args().skip(1).collect();
    if words == ["play"] {
        return play();
    }
    eprintln!("usage: plain play <SCRIPT");
    Ok(ExitCode::from(2))
}
