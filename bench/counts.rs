//! A plain program for what `lattice play` does, to be measured beside it, that keeps counts alone: a
//! replica's updates come in order, so that how many there are of each replica says which they are. What
//! they do to their objects is read and let go; it answers no question.
//!
//! `counts play` reads a script on standard input and prints the report of its run.
//! `counts generate one N` and `counts generate three N` print a script with N submissions.

// What a submission does to its object is read here, and not kept.
#[allow(dead_code)]
mod script;

use script::{script, Event, Fault, Group, REPLICAS, VERSION};
use std::env;
use std::fs::File;
use std::io::{self, BufWriter, Read, Write};
use std::os::fd::AsFd;
use std::process::ExitCode;

/// How many updates a set has of each replica.
#[derive(Clone, Copy, Default)]
struct Counts([u32; REPLICAS]);

impl Counts {
    /// Whether each update of the other set is in this one.
    fn contains(&self, other: &Counts) -> bool {
        self.0
            .iter()
            .zip(&other.0)
            .all(|(mine, theirs)| mine >= theirs)
    }

    /// Whether it contains the other set and is not equal to it.
    fn is_larger_than(&self, other: &Counts) -> bool {
        self.contains(other) && !other.contains(self)
    }

    /// Adds what the other set has beyond this one.
    fn join(&mut self, other: &Counts) {
        for (mine, theirs) in self.0.iter_mut().zip(&other.0) {
            *mine = (*mine).max(*theirs);
        }
    }
}

/// The text of one replica's ids, ` R.1 R.2 ..`, and where each ends.
#[derive(Default)]
struct Ids {
    text: Vec<u8>,
    ends: Vec<usize>,
}

impl Ids {
    /// The text of the first so many, each with a space before it.
    fn first(&mut self, replica: usize, count: usize) -> io::Result<&[u8]> {
        while self.ends.len() < count {
            write!(self.text, " {replica}.{}", self.ends.len() + 1)?;
            self.ends.push(self.text.len());
        }
        Ok(match count {
            0 => &[],
            _ => &self.text[..self.ends[count - 1]],
        })
    }
}

/// Where a report goes. Sets are written out of texts that are made once.
struct Report<W: Write> {
    out: W,
    ids: [Ids; REPLICAS],
}

impl<W: Write> Report<W> {
    fn new(out: W) -> Report<W> {
        Report {
            out,
            ids: Default::default(),
        }
    }

    /// Writes a set behind these words.
    fn set(&mut self, words: &str, set: &Counts) -> io::Result<()> {
        write!(self.out, "{words}{{")?;
        let mut skipped = 1;
        for (replica, count) in set
            .0
            .into_iter()
            .enumerate()
            .filter(|(_, count)| *count > 0)
        {
            let ids = self.ids[replica].first(replica, count as usize)?;
            self.out.write_all(&ids[skipped..])?;
            skipped = 0;
        }
        self.out.write_all(b"}")
    }

    /// Writes the numbers of messages, from the first to before the last.
    fn mail(&mut self, words: &str, first: usize, end: usize) -> io::Result<()> {
        write!(self.out, "{words}m{first}")?;
        if first + 1 < end {
            write!(self.out, "-m{}", end - 1)?;
        }
        Ok(())
    }

    /// Writes what a replica did with a set under a ballot's number.
    fn ballot(&mut self, word: &str, replica: u8, number: u32, set: &Counts) -> io::Result<()> {
        self.set(&format!("{word} r{replica} i0 b{number} "), set)
    }
}

/// What a message says.
#[derive(Clone, Copy)]
enum Body {
    Offer(Counts),
    Yes,
    No(Counts),
    Tell(Counts),
}

/// A message of one replica to another, or to itself.
#[derive(Clone, Copy)]
struct Message {
    from: u8,
    to: u8,
    ballot: u32,
    body: Body,
}

/// What a replica did with a submission or a message.
enum Done {
    Opened,
    /// It waits, and this is its number.
    Held(u32),
    Yes,
    No,
    Counted,
    Ignored,
    Refined,
    Learnt {
        ballot: u32,
        learnt: Counts,
        has_next: bool,
    },
    Took,
    Kept,
}

/// One replica: its acceptor, its proposer and its view.
#[derive(Default)]
struct Replica {
    own: u8,
    replicas: u8,
    accepted: Counts,
    ballot: u32,
    /// The set of the last ballot.
    updates: Counts,
    is_asking: bool,
    /// Which acceptors' replies have counted.
    counted: [bool; REPLICAS],
    yes: usize,
    /// The sets of all refusals that have counted, joined.
    refused: Counts,
    waiting: u32,
    view: Counts,
}

impl Replica {
    /// How many updates it has submitted.
    fn submitted(&self) -> u32 {
        self.updates.0[self.own as usize] + self.waiting
    }

    fn message(&self, to: u8, ballot: u32, body: Body) -> Message {
        Message {
            from: self.own,
            to,
            ballot,
            body,
        }
    }

    /// Opens a ballot with the set and what waits, and offers it to every replica.
    fn open(&mut self, mail: &mut Vec<Message>) {
        self.updates.0[self.own as usize] += self.waiting;
        self.waiting = 0;
        self.is_asking = true;
        self.offer(mail);
    }

    /// Begins the next ballot with the set as it is.
    fn offer(&mut self, mail: &mut Vec<Message>) {
        self.ballot += 1;
        self.counted = [false; REPLICAS];
        self.yes = 0;
        self.refused = Counts::default();
        let offers =
            (0..self.replicas).map(|to| self.message(to, self.ballot, Body::Offer(self.updates)));
        mail.extend(offers);
    }

    fn submit(&mut self, mail: &mut Vec<Message>) -> Done {
        self.waiting += 1;
        if self.is_asking {
            return Done::Held(self.submitted());
        }
        self.open(mail);
        Done::Opened
    }

    fn receive(&mut self, message: Message, mail: &mut Vec<Message>) -> Done {
        match message.body {
            Body::Offer(offered) => self.answer(message, offered, mail),
            Body::Yes => self.hear(message, None, mail),
            Body::No(refused) => self.hear(message, Some(refused), mail),
            Body::Tell(told) => self.hear_tell(told),
        }
    }

    fn answer(&mut self, message: Message, offered: Counts, mail: &mut Vec<Message>) -> Done {
        let is_yes = offered.contains(&self.accepted);
        self.accepted.join(&offered);
        let (body, done) = if is_yes {
            (Body::Yes, Done::Yes)
        } else {
            (Body::No(self.accepted), Done::No)
        };
        mail.push(self.message(message.from, message.ballot, body));
        done
    }

    fn hear(&mut self, message: Message, refused: Option<Counts>, mail: &mut Vec<Message>) -> Done {
        let has_counted = &mut self.counted[message.from as usize];
        if !self.is_asking || message.ballot != self.ballot || *has_counted {
            return Done::Ignored;
        }
        *has_counted = true;
        match refused {
            None => self.yes += 1,
            Some(refused) => self.refused.join(&refused),
        }
        let all = self.counted.into_iter().filter(|it| *it).count();
        let replicas = self.replicas as usize;
        if 2 * self.yes > replicas {
            self.learn(mail)
        } else if self.yes < all && 2 * all > replicas {
            self.updates.join(&{ self.refused });
            self.offer(mail);
            Done::Refined
        } else {
            Done::Counted
        }
    }

    fn learn(&mut self, mail: &mut Vec<Message>) -> Done {
        let (ballot, learnt) = (self.ballot, self.updates);
        for to in (0..self.replicas).filter(|to| *to != self.own) {
            mail.push(self.message(to, ballot, Body::Tell(learnt)));
        }
        if learnt.is_larger_than(&self.view) {
            self.view = learnt;
        }
        self.is_asking = false;
        let has_next = self.waiting > 0;
        if has_next {
            self.open(mail);
        }
        Done::Learnt {
            ballot,
            learnt,
            has_next,
        }
    }

    fn hear_tell(&mut self, told: Counts) -> Done {
        if !told.is_larger_than(&self.view) {
            return Done::Kept;
        }
        self.view = told;
        Done::Took
    }
}

/// An event, without what a submission does to its object.
enum Call {
    Submit(u8),
    Deliver(u64),
}

impl From<Event> for Call {
    fn from(event: Event) -> Call {
        match event {
            Event::Submit { replica, .. } => Call::Submit(replica),
            Event::Deliver(number) => Call::Deliver(number),
        }
    }
}

/// A group of replicas, and all messages that were ever sent.
struct World<W: Write> {
    group: Group,
    replicas: Vec<Replica>,
    messages: Vec<Message>,
    report: Report<W>,
}

impl<W: Write> World<W> {
    fn new(group: Group, out: W) -> World<W> {
        let replicas = group.replicas as u8;
        let replica = |own| Replica {
            own,
            replicas,
            ..Replica::default()
        };
        World {
            replicas: (0..replicas).map(replica).collect(),
            group,
            messages: Vec::new(),
            report: Report::new(out),
        }
    }

    /// Plays all events, and writes the report.
    fn run(&mut self, calls: &[Call]) -> io::Result<()> {
        let Group { replicas, cap } = self.group;
        writeln!(self.report.out, "{VERSION}")?;
        writeln!(self.report.out, "replicas {replicas} commits 0 cap {cap}")?;
        for (index, call) in calls.iter().enumerate() {
            write!(self.report.out, "{} ", index + 1)?;
            match *call {
                Call::Submit(replica) => self.submit(replica)?,
                Call::Deliver(number) => self.deliver(number)?,
            }
            writeln!(self.report.out)?;
        }
        for replica in &self.replicas {
            self.report
                .set(&format!("view {} ", replica.own), &replica.view)?;
            writeln!(self.report.out)?;
        }
        self.report.out.flush()
    }

    fn submit(&mut self, number: u8) -> io::Result<()> {
        let Some(replica) = self.replicas.get_mut(number as usize) else {
            return write!(self.report.out, "refused NoSuchReplica");
        };
        if replica.submitted() as usize >= self.group.cap {
            return write!(self.report.out, "refused Full");
        }
        let first = self.messages.len();
        let done = replica.submit(&mut self.messages);
        self.note(number, done, first)
    }

    fn deliver(&mut self, number: u64) -> io::Result<()> {
        let Some(message) = self.messages.get(number as usize).copied() else {
            return write!(self.report.out, "refused NoSuchMessage");
        };
        let first = self.messages.len();
        let done = self.replicas[message.to as usize].receive(message, &mut self.messages);
        self.note(message.to, done, first)
    }

    /// Writes what a replica did, and that it sent the messages from the first on.
    fn note(&mut self, number: u8, done: Done, first: usize) -> io::Result<()> {
        let end = self.messages.len();
        let report = &mut self.report;
        let Replica {
            ballot,
            updates,
            accepted,
            view,
            ..
        } = &self.replicas[number as usize];
        match done {
            Done::Opened => {
                report.ballot("opened", number, *ballot, updates)?;
                report.mail(" ", first, end)
            }
            Done::Refined => {
                report.ballot("refined", number, *ballot, updates)?;
                report.mail(" ", first, end)
            }
            Done::Held(update) => write!(report.out, "held {number}.{update}"),
            Done::Yes => report.mail("yes ", first, end),
            Done::No => {
                report.set("no ", accepted)?;
                report.mail(" ", first, end)
            }
            Done::Counted => write!(report.out, "counted"),
            Done::Ignored => write!(report.out, "ignored"),
            Done::Took => report.set("took ", view),
            Done::Kept => write!(report.out, "kept"),
            Done::Learnt {
                ballot,
                learnt,
                has_next,
            } => {
                report.ballot("learnt", number, ballot, &learnt)?;
                self.note_learning(number, has_next, first)
            }
        }
    }

    /// Writes what was sent at a learning: tells, and the offers of the next ballot.
    fn note_learning(&mut self, number: u8, has_next: bool, first: usize) -> io::Result<()> {
        let told = first + self.replicas.len() - 1;
        let report = &mut self.report;
        if first < told {
            report.mail(" told ", first, told)?;
        }
        if has_next {
            let Replica {
                ballot, updates, ..
            } = &self.replicas[number as usize];
            report.ballot(" opened", number, *ballot, updates)?;
            report.mail(" ", told, self.messages.len())?;
        }
        Ok(())
    }
}

/// The group and the calls of the script on standard input.
fn read() -> io::Result<Result<(Group, Vec<Call>), Fault>> {
    let mut input = Vec::new();
    io::stdin().read_to_end(&mut input)?;
    Ok(script(&String::from_utf8_lossy(&input), Call::from))
}

/// Standard output without the buffer of `Stdout`, which would look for a line's end in each text.
fn output() -> io::Result<BufWriter<File>> {
    Ok(BufWriter::new(
        io::stdout().as_fd().try_clone_to_owned()?.into(),
    ))
}

/// Reads a script on standard input, and prints the report of its run.
fn play() -> io::Result<ExitCode> {
    match read()? {
        Ok((group, calls)) => {
            World::new(group, output()?).run(&calls)?;
            Ok(ExitCode::SUCCESS)
        }
        Err(Fault(line, name)) => {
            eprintln!("line {line}: {name:?}");
            Ok(ExitCode::from(1))
        }
    }
}

/// Prints a script in which replica 0 of three submits, and each submission is learnt at once: its
/// offers reach replicas 0 and 1, and their replies reach it. Each submission sends 3 offers, 2
/// replies and 2 tells.
fn generate_one(count: usize, out: &mut impl Write) -> io::Result<()> {
    for first in (0..count).map(|submission| 7 * submission) {
        writeln!(out, "submit 0 1 inc 1")?;
        for message in [first, first + 1, first + 3, first + 4] {
            writeln!(out, "deliver {message}")?;
        }
    }
    Ok(())
}

/// Prints a script in which replicas 0, 1 and 2 submit at once, and then each message is delivered
/// once, in the order in which they are sent, until none is left; and so on. Which messages there
/// are is found by playing along.
fn generate_three(count: usize, out: &mut impl Write) -> io::Result<()> {
    let group = Group {
        replicas: 3,
        cap: count,
    };
    let mut world = World::new(group, io::sink());
    let mut delivered = 0;
    for submission in 0..count {
        let replica = submission % 3;
        writeln!(out, "submit {replica} 1 inc 1")?;
        world.submit(replica as u8)?;
        if replica < 2 && submission + 1 < count {
            continue;
        }
        while delivered < world.messages.len() {
            writeln!(out, "deliver {delivered}")?;
            world.deliver(delivered as u64)?;
            delivered += 1;
        }
        assert!(world.replicas.iter().all(|replica| !replica.is_asking));
    }
    Ok(())
}

fn generate(kind: &str, count: &str) -> io::Result<ExitCode> {
    let Ok(count) = count.parse() else {
        return explain();
    };
    let mut out = output()?;
    writeln!(out, "{VERSION}")?;
    writeln!(out, "replicas 3 commits 0 cap {count}")?;
    match kind {
        "one" => generate_one(count, &mut out)?,
        "three" => generate_three(count, &mut out)?,
        _ => return explain(),
    }
    out.flush()?;
    Ok(ExitCode::SUCCESS)
}

/// Says how the program is called.
fn explain() -> io::Result<ExitCode> {
    eprintln!("usage: counts play <SCRIPT | counts generate one|three N");
    Ok(ExitCode::from(2))
}

fn main() -> io::Result<ExitCode> {
    let words: Vec<String> = env::args().skip(1).collect();
    let words: Vec<&str> = words.iter().map(String::as_str).collect();
    match words.as_slice() {
        ["play"] => play(),
        ["generate", kind, count] => generate(kind, count),
        _ => explain(),
    }
}
