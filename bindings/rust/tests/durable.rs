//! Nodes that end at any moment, and come back by their journals.

use lattice_agreement::{Ask, Config, Counts, Durable, DurableError, Error, Kind, Mail, Submit};
use std::ffi::OsStr;
use std::fs::{self, OpenOptions};
use std::io::{self, BufRead, BufReader, Write};
use std::os::unix::fs::symlink;
use std::path::{Path, PathBuf};
use std::process::{Command, Stdio};
use std::{env, process};

const COUNTER: u16 = 1;
const SET: u16 = 2;
const OWN: u16 = 3;
const CHILD: &str = "LATTICE_TEST_FOLDER";
/// It names the program `lattice`, where that is to be tried too.
const PROGRAM: &str = "LATTICE_PROGRAM";
/// The group of `alone`, in the program's words.
const GROUP: [&str; 6] = ["--own", "0", "--replicas", "1", "--commits", "1"];

/// A folder that goes with the test.
struct Scratch(PathBuf);

impl Scratch {
    fn new(name: &str) -> Scratch {
        let path = env::temp_dir().join(format!("lattice-{}-{name}", process::id()));
        fs::create_dir(&path).unwrap();
        Scratch(path)
    }

    /// A folder within.
    fn folder(&self, name: &str) -> PathBuf {
        let path = self.0.join(name);
        fs::create_dir_all(&path).unwrap();
        path
    }

    /// A folder within that has these bytes as its journal.
    fn with_journal(&self, bytes: &[u8]) -> PathBuf {
        let path = self.folder("given");
        fs::write(path.join("journal"), bytes).unwrap();
        path
    }
}

impl Drop for Scratch {
    fn drop(&mut self) {
        fs::remove_dir_all(&self.0).unwrap();
    }
}

fn alone() -> Config {
    Config { commits: 1, ..Config::new(1, 0) }
}

/// A node with its objects.
fn started(node: Result<Durable, DurableError>) -> Durable {
    let mut node = node.unwrap();
    node.add(COUNTER, Kind::Counter).unwrap();
    node.add(SET, Kind::OrSet).unwrap();
    node
}

fn create(config: &Config, folder: &Path) -> Durable {
    started(Durable::create(config, folder))
}

fn open(config: &Config, folder: &Path) -> Durable {
    started(Durable::open(config, folder))
}

fn journal(folder: &Path) -> Vec<u8> {
    fs::read(folder.join("journal")).unwrap()
}

#[test]
fn a_node_comes_back_with_all_that_it_answered() {
    let scratch = Scratch::new("answered");
    let folder = scratch.folder("0");
    for life in 0..4_u32 {
        let start = if life == 0 { create } else { open };
        let mut node = start(&alone(), &folder);
        assert_eq!(node.submitted().unwrap(), 4 * life);
        assert_eq!(node.total(COUNTER).unwrap(), 7 * i64::from(life));
        assert_eq!(node.items(SET).unwrap(), Vec::from_iter((life > 0).then_some(9)));
        assert_eq!(node.learnt().map(Result::unwrap).count(), 4 * life as usize);
        assert_eq!(node.outcome(0).unwrap().is_some(), life > 0);
        assert_eq!(node.inc(COUNTER, 7).unwrap(), 4 * life + 1);
        assert_eq!(node.put(SET, 9).unwrap(), 4 * life + 2);
        assert_eq!(node.put(SET, u64::from(life)).unwrap(), 4 * life + 3);
        assert_eq!(node.remove(SET, u64::from(life)).unwrap(), 4 * life + 4);
        let proposed = node.propose(0, 42);
        let again = matches!(proposed, Err(DurableError::Refused(Error::AlreadyProposed)));
        assert!(again || proposed.is_ok());
        assert_eq!(again, life > 0);
    }
}

#[test]
fn what_a_crash_cut_goes_and_nothing_else() {
    let scratch = Scratch::new("cut");
    let folder = scratch.folder("0");
    let mut node = create(&alone(), &folder);
    node.inc(COUNTER, 5).unwrap();
    let told = journal(&folder);
    let made = node.batch(|batch| {
        batch.inc(COUNTER, 1).unwrap();
        batch.own(OWN, b"of one's own").unwrap()
    });
    assert_eq!(node.number(made.unwrap()).unwrap(), 3);
    drop(node);
    let all = journal(&folder);
    assert!(all.starts_with(&told));
    for len in told.len()..=all.len() {
        let folder = scratch.with_journal(&all[..len]);
        let mut node = open(&alone(), &folder);
        let kept = if len < all.len() { &told } else { &all };
        assert_eq!(journal(&folder), *kept, "cut at byte {len}");
        let (submitted, total) = if len < all.len() { (1, 5) } else { (3, 6) };
        assert_eq!((node.submitted().unwrap(), node.total(COUNTER).unwrap()), (submitted, total));
        assert_eq!(node.inc(COUNTER, 10).unwrap(), submitted + 1);
        drop(node);
        assert_eq!(open(&alone(), &folder).total(COUNTER).unwrap(), total + 10);
    }
}

/// The error that a folder with these bytes as its journal, which stays, is refused with.
fn refused(scratch: &Scratch, config: &Config, bytes: &[u8]) -> DurableError {
    let folder = scratch.with_journal(bytes);
    let error = Durable::open(config, &folder).unwrap_err();
    assert_eq!(journal(&folder), bytes);
    error
}

fn lines_of(bytes: &[u8]) -> usize {
    bytes.iter().filter(|byte| **byte == b'\n').count()
}

#[test]
fn damage_is_told_with_its_line() {
    let scratch = Scratch::new("damage");
    let folder = scratch.folder("0");
    let mut node = create(&alone(), &folder);
    node.inc(COUNTER, 5).unwrap();
    let first = journal(&folder).len();
    node.inc(COUNTER, 5).unwrap();
    let second = journal(&folder).len();
    node.inc(COUNTER, 5).unwrap();
    let all = journal(&folder);
    for at in first..second {
        let mut bytes = all.clone();
        bytes[at] ^= 1;
        let wanted = lines_of(&all[..first]) + 1;
        match refused(&scratch, &alone(), &bytes) {
            error @ DurableError::Damaged { line } => {
                assert_eq!(line, wanted, "byte {at}");
                let told = format!("from line {line} on. No older copy may be put in its place");
                assert!(error.to_string().contains(&told), "{error}");
            }
            error => panic!("byte {at}: {error}"),
        }
    }
}

#[test]
fn other_journals_are_refused() {
    let scratch = Scratch::new("other");
    let folder = scratch.folder("0");
    create(&alone(), &folder).inc(COUNTER, 5).unwrap();
    let bytes = journal(&folder);
    let is = |error, wanted| matches!(error, DurableError::Refused(error) if error == wanted);
    for other in [
        Config { cap: 7, ..alone() },
        Config { commits: 0, ..alone() },
        Config { votes: vec![2], ..alone() },
        Config::new(2, 0),
        Config::new(2, 1),
    ] {
        assert!(is(refused(&scratch, &other, &bytes), Error::OtherJournal), "{other:?}");
    }
    for no_journal in [&b""[..], b"hello\n", b"hello", b"\n", &bytes[1..]] {
        assert!(is(refused(&scratch, &alone(), no_journal), Error::NoJournal), "{no_journal:?}");
    }
    assert!(is(refused(&scratch, &Config::new(9, 0), &bytes), Error::BadGroup));
    assert!(is(refused(&scratch, &Config::new(3, 3), &bytes), Error::NoReplica));
}

#[test]
fn a_folder_that_is_not_there_is_told_by_its_path() {
    let scratch = Scratch::new("missing");
    let file = scratch.folder("0").join("file");
    fs::write(&file, "").unwrap();
    for (path, kind, told) in [
        (scratch.0.join("missing"), io::ErrorKind::NotFound, "the folder has to exist"),
        (file, io::ErrorKind::NotADirectory, ""),
    ] {
        let told = format!("{}: {told}", path.display());
        for opened in [Durable::open(&alone(), &path), Durable::create(&alone(), &path)] {
            let Err(DurableError::Disk(error)) = opened else {
                panic!("{opened:?}");
            };
            assert_eq!(error.kind(), kind);
            assert!(error.to_string().contains(&told), "{error}");
        }
    }
}

/// The names of what is in a folder.
fn names(folder: &Path) -> Vec<String> {
    let entries = fs::read_dir(folder).unwrap().map(Result::unwrap);
    let mut names: Vec<_> = entries.map(|it| it.file_name().into_string().unwrap()).collect();
    names.sort();
    names
}

#[test]
fn a_start_makes_no_journal() {
    let scratch = Scratch::new("unmounted");
    let folder = scratch.folder("0");
    for _ in 0..2 {
        let missing = Durable::open(&alone(), &folder).unwrap_err();
        assert!(matches!(&missing, DurableError::JournalMissing { folder: it } if *it == folder));
        let told = missing.to_string();
        for part in [
            &*format!("{}: nothing here: mount its disk", folder.display()),
            "if it is lost, never run this replica again",
            "a first start is `Durable::create`",
        ] {
            assert!(told.contains(part), "{told}");
        }
        assert_eq!(names(&folder), ["lock"]);
    }
    drop(create(&alone(), &folder));
    open(&alone(), &folder);
}

#[test]
fn a_journal_is_made_once() {
    let scratch = Scratch::new("once");
    let folder = scratch.folder("0");
    let node = create(&alone(), &folder);
    assert!(matches!(Durable::create(&alone(), &folder), Err(DurableError::Locked)));
    drop(node);
    let first = journal(&folder);
    assert!(first.starts_with(b"lattice 2 replica 0 of 1 votes 1 commits 1 cap 1000000 "));
    assert_eq!(lines_of(&first), 1);
    open(&alone(), &folder).inc(COUNTER, 5).unwrap();
    for bytes in [&journal(&folder)[..], &first, b"hello", b""] {
        let folder = scratch.with_journal(bytes);
        let there = Durable::create(&alone(), &folder).unwrap_err();
        assert!(matches!(&there, DurableError::JournalThere { folder: it } if *it == folder));
        assert!(there.to_string().contains("there is a journal"), "{there}");
        assert_eq!((&*journal(&folder), names(&folder).len()), (bytes, 2));
    }
    assert_eq!(open(&alone(), &folder).total(COUNTER).unwrap(), 5);
}

/// The total that the program finds in a folder.
fn total_by(program: &OsStr, folder: &Path) -> String {
    let mut command = Command::new(program);
    command.arg("node").args(GROUP).arg("--journal").arg(folder);
    let mut node = command.stdin(Stdio::piped()).stdout(Stdio::piped()).spawn().unwrap();
    let asked = format!("ask 0 {COUNTER} total\n");
    node.stdin.take().unwrap().write_all(asked.as_bytes()).unwrap();
    String::from_utf8(node.wait_with_output().unwrap().stdout).unwrap()
}

#[test]
fn the_program_makes_the_same_journal() {
    let Some(program) = env::var_os(PROGRAM) else {
        return;
    };
    let scratch = Scratch::new("program");
    let folders = [scratch.folder("made-by-the-program"), scratch.folder("made-here")];
    let init = |folder: &Path| {
        let mut command = Command::new(&program);
        command.arg("init").arg(folder).args(GROUP).stderr(Stdio::null()).status().unwrap().code()
    };
    assert_eq!(init(&folders[0]), Some(0));
    drop(create(&alone(), &folders[1]));
    assert_eq!(journal(&folders[0]), journal(&folders[1]));
    for folder in &folders {
        assert_eq!(init(folder), Some(5));
        let there = Durable::create(&alone(), folder);
        assert!(matches!(there, Err(DurableError::JournalThere { .. })));
        open(&alone(), folder).inc(COUNTER, 5).unwrap();
        let said = total_by(&program, folder);
        assert!(said.contains(&format!("answered {COUNTER} total 5")), "{said}");
        assert_eq!(open(&alone(), folder).total(COUNTER).unwrap(), 5);
    }
}

#[test]
fn a_link_to_nowhere_is_a_journal_whose_disk_is_not_there() {
    let scratch = Scratch::new("link");
    let folder = scratch.folder("0");
    let there = scratch.0.join("elsewhere");
    symlink(&there, folder.join("journal")).unwrap();
    let missing = Durable::open(&alone(), &folder);
    assert!(matches!(missing, Err(DurableError::JournalMissing { .. })));
    let refused = Durable::create(&alone(), &folder);
    assert!(matches!(refused, Err(DurableError::JournalThere { .. })));
    assert!(!there.exists());
}

#[test]
fn what_is_refused_makes_no_journal() {
    let scratch = Scratch::new("unmade");
    let folder = scratch.folder("0");
    for (config, wanted) in
        [(Config::new(9, 0), Error::BadGroup), (Config::new(3, 3), Error::NoReplica)]
    {
        match Durable::create(&config, &folder) {
            Err(DurableError::Refused(error)) => assert_eq!(error, wanted),
            other => panic!("{other:?}"),
        }
        assert_eq!(names(&folder), ["lock"]);
    }
    // (what a crash left before it was renamed)
    fs::write(folder.join("journal.new"), "latt").unwrap();
    create(&alone(), &folder).inc(COUNTER, 5).unwrap();
    assert_eq!(names(&folder), ["journal", "lock"]);
    assert_eq!(open(&alone(), &folder).total(COUNTER).unwrap(), 5);
}

#[test]
fn one_process_has_a_folder() {
    let scratch = Scratch::new("locked");
    let folder = scratch.folder("0");
    let node = create(&alone(), &folder);
    let locked = Durable::open(&alone(), &folder).unwrap_err();
    assert!(matches!(locked, DurableError::Locked));
    assert_eq!(locked.to_string(), "this process or another has the folder");
    drop(node);
    open(&alone(), &folder);
}

#[test]
fn a_refusal_in_a_batch_leaves_the_rest() {
    let scratch = Scratch::new("batch");
    let folder = scratch.folder("0");
    let mut node = create(&alone(), &folder);
    let before = journal(&folder);
    assert_eq!(node.batch(|batch| batch.receive(b"hello")).unwrap(), Err(Error::BadLine));
    assert!(matches!(node.receive(b"hello"), Err(DurableError::Refused(Error::BadLine))));
    node.again().unwrap();
    assert_eq!(journal(&folder), before);
    let made = node.batch(|batch| {
        let made = [batch.inc(COUNTER, 5), batch.own(OWN, &[0; 249]), batch.inc(COUNTER, 6)];
        made.map(|it| it.ok())
    });
    let [Some(first), None, Some(third)] = made.unwrap() else {
        panic!("another call is refused");
    };
    assert_eq!((node.number(first).unwrap(), node.number(third).unwrap()), (1, 2));
    drop(node);
    assert_eq!(open(&alone(), &folder).total(COUNTER).unwrap(), 11);
}

/// A group whose messages are lost, repeated and reordered, and whose nodes end at any moment.
struct Group {
    scratch: Scratch,
    nodes: Vec<Durable>,
    told: Vec<Counts>,
    bag: Vec<Mail>,
    seed: u64,
}

impl Group {
    fn new(seed: u64) -> Group {
        let scratch = Scratch::new(&format!("group-{seed}"));
        let nodes: Vec<Durable> = (0..3)
            .map(|own| create(&Config::new(3, own), &scratch.folder(&own.to_string())))
            .collect();
        create(&alone(), &scratch.folder("nowhere"));
        Group { scratch, nodes, told: vec![[0; 8]; 3], bag: Vec::new(), seed }
    }

    /// A number below this one.
    fn drawn(&mut self, bound: usize) -> usize {
        self.seed ^= self.seed << 13;
        self.seed ^= self.seed >> 7;
        self.seed ^= self.seed << 17;
        (self.seed % bound as u64) as usize
    }

    /// Takes in the mail, and checks that no view is smaller than it was, and each two comparable.
    fn collect(&mut self) {
        for (node, told) in self.nodes.iter_mut().zip(&mut self.told) {
            self.bag.extend(node.mail().map(Result::unwrap));
            let view = node.view().unwrap();
            assert!(told.iter().zip(&view).all(|(told, now)| told <= now));
            *told = view;
        }
        for (one, other) in [(0, 1), (0, 2), (1, 2)] {
            let mut pairs = self.told[one].iter().zip(&self.told[other]);
            assert!(pairs.clone().all(|(x, y)| x <= y) || pairs.all(|(x, y)| x >= y));
        }
    }

    fn restart(&mut self, at: usize) {
        let own = at as u8;
        // (the number goes for a moment to a node of another group)
        let nowhere = Durable::open(&alone(), self.scratch.folder("nowhere")).unwrap();
        drop(std::mem::replace(&mut self.nodes[at], nowhere));
        self.nodes[at] = open(&Config::new(3, own), &self.scratch.folder(&own.to_string()));
    }

    /// Hands over some messages in one batch, any: some not, some twice.
    fn hand_over(&mut self, lost_percent: usize, twice_percent: usize) {
        let at = self.drawn(self.bag.len());
        let to = self.bag[at].to;
        let (mut mail, rest): (Vec<Mail>, Vec<Mail>) =
            self.bag.drain(..).partition(|mail| mail.to == to);
        self.bag = rest;
        let first = self.drawn(mail.len());
        mail.rotate_left(first);
        let lost = mail.len() * lost_percent / 100;
        let twice = mail.len() * twice_percent / 100;
        self.bag.extend_from_slice(&mail[..twice]);
        let lines = mail.iter().skip(lost);
        let taken = self.nodes[usize::from(to)].batch(|batch| {
            lines.map(|mail| batch.receive(&mail.line)).collect::<Result<Vec<()>, Error>>()
        });
        taken.unwrap().unwrap();
        self.collect();
    }

    fn settle(&mut self, submitted: u32) {
        for _ in 0..100 {
            self.collect();
            while !self.bag.is_empty() {
                self.hand_over(0, 0);
            }
            if self.told.iter().all(|view| view.iter().sum::<u32>() == submitted) {
                return;
            }
            for node in &mut self.nodes {
                node.again().unwrap();
            }
        }
        panic!("not all is learnt after 100 rounds");
    }
}

#[test]
fn a_group_goes_on_whoever_ends_and_comes_back() {
    for seed in 1..6 {
        let mut group = Group::new(seed);
        let mut made = 0;
        while made < 30 {
            match group.drawn(16) {
                at @ 0..3 => {
                    group.nodes[at].inc(COUNTER, 1).unwrap();
                    made += 1;
                }
                3 => {
                    let at = group.drawn(3);
                    group.nodes[at].again().unwrap();
                }
                at @ 4..7 => group.restart(at - 4),
                _ if group.bag.is_empty() => {}
                _ => group.hand_over(20, 20),
            }
            group.collect();
        }
        group.settle(made);
        for node in &group.nodes {
            assert_eq!(node.total(COUNTER).unwrap(), i64::from(made));
        }
    }
}

/// What a process does until it is killed: it tells the number of each update that is on its disk.
#[test]
#[ignore = "it is what the killed process runs"]
fn count_until_killed() {
    let folder = env::var_os(CHILD).unwrap();
    let mut node = open(&alone(), Path::new(&folder));
    for round in 0.. {
        let number = match round % 2 {
            0 => node.inc(COUNTER, 5).unwrap(),
            _ => {
                let made = node.batch(|batch| {
                    batch.inc(COUNTER, 5).unwrap();
                    batch.inc(COUNTER, 5).unwrap()
                });
                node.number(made.unwrap()).unwrap()
            }
        };
        writeln!(io::stdout(), "told {number}").unwrap();
    }
}

/// Has a process run until it told so many numbers, kills it, and answers the last of them.
fn killed_after(told: usize, folder: &Path) -> u32 {
    let mut child = Command::new(env::current_exe().unwrap())
        .args(["--exact", "count_until_killed", "--ignored", "--nocapture"])
        .env(CHILD, folder)
        .stdout(Stdio::piped())
        .spawn()
        .unwrap();
    let lines = BufReader::new(child.stdout.take().unwrap()).lines().map(Result::unwrap);
    let mut numbers = lines.filter_map(|it| it.strip_prefix("told ")?.parse::<u32>().ok());
    let last = numbers.by_ref().nth(told).unwrap();
    child.kill().unwrap();
    child.wait().unwrap();
    numbers.last().unwrap_or(last)
}

#[test]
fn a_killed_process_comes_back_with_all_that_it_told() {
    let scratch = Scratch::new("killed");
    let folder = scratch.folder("0");
    create(&alone(), &folder);
    let mut last = 0;
    for round in 0..12 {
        let told = killed_after(7 * round % 23, &folder);
        assert!(told > last);
        let node = open(&alone(), &folder);
        last = node.submitted().unwrap();
        assert!((told..=told + 2).contains(&last), "{last} are there, and {told} were told");
        assert_eq!(node.total(COUNTER).unwrap(), 5 * i64::from(last));
    }
}

#[test]
fn a_leftover_of_a_start_is_passed_over() {
    let scratch = Scratch::new("leftover");
    let folder = scratch.folder("0");
    create(&alone(), &folder).inc(COUNTER, 5).unwrap();
    let mut options = OpenOptions::new();
    let mut leftover =
        options.create_new(true).write(true).open(folder.join("journal.new")).unwrap();
    leftover.write_all(b"lattice").unwrap();
    assert_eq!(open(&alone(), &folder).total(COUNTER).unwrap(), 5);
    assert!(!folder.join("journal.new").exists());
}
