//! Three nodes in three processes, over TCP on this machine: `cargo run --example three_processes`.
//!
//! Each node has a journal, which is made once, before any process has it. One of them is killed twice
//! and started again at once, and comes back by its journal. A process has a thread for each connection
//! and one that has the node. All queues are bounded, and what finds no room is dropped, as a network
//! may lose it: a timer has it sent again. Connections are cut now and then, and made anew. Node 2 is
//! slow: the others agree without it, and it catches up.

use lattice_agreement::{Ask, Config, Durable, DurableError, Error as Refused, Kind, Submit};
use std::error::Error;
use std::io::{self, BufRead, BufReader, Write};
use std::net::{Ipv4Addr, TcpListener, TcpStream};
use std::path::{Path, PathBuf};
use std::process::{Child, ChildStdout, Command, ExitCode, Stdio};
use std::sync::mpsc::{Receiver, RecvTimeoutError, SyncSender, sync_channel};
use std::time::{Duration, Instant};
use std::{env, fs, iter, process, thread};

const NODES: u8 = 3;
const SLOW: u8 = 2;
const VISITS: u16 = 1;
/// How many updates each node submits.
const UPDATES: u32 = 100;
/// The node that is killed, and how many of its own updates it has learnt by then at least.
const KILLED: usize = 1;
const KILLED_AT: [u64; 2] = [30, 60];
/// How many messages may wait for a connection, or for the node.
const WAITING: usize = 256;
/// How many lines are taken with one sync at most.
const TAKEN: usize = 64;
/// How many lines go over a connection before it is cut.
const LINES: usize = 60;
const AGAIN: Duration = Duration::from_millis(50);
const RECONNECT: Duration = Duration::from_millis(10);
const SLOWNESS: Duration = Duration::from_millis(3);
const PATIENCE: Duration = Duration::from_secs(60);

/// Hands each line that comes over a connection to the node, and waits where it is behind. A line
/// whose end did not come is dropped: what is there of it may be another valid message.
fn read_lines(mut input: impl BufRead, came: &SyncSender<Vec<u8>>) -> io::Result<()> {
    loop {
        let mut line = Vec::new();
        input.read_until(b'\n', &mut line)?;
        if line.pop() != Some(b'\n') || came.send(line).is_err() {
            return Ok(());
        }
    }
}

fn accept(listener: &TcpListener, came: &SyncSender<Vec<u8>>) {
    for stream in listener.incoming().flatten() {
        let came = came.clone();
        thread::spawn(move || {
            // A connection that breaks loses what was on it, and its other end makes a new one.
            let _broken = read_lines(BufReader::new(stream), &came);
        });
    }
}

/// Sends lines over one connection, until it is cut or breaks.
fn send_lines(port: u16, lines: &Receiver<Vec<u8>>) -> io::Result<()> {
    let mut stream = TcpStream::connect((Ipv4Addr::LOCALHOST, port))?;
    stream.set_nodelay(true)?;
    for mut line in lines.iter().take(LINES) {
        line.push(b'\n');
        stream.write_all(&line)?;
    }
    Ok(())
}

/// A queue to another node, over one connection after the other.
fn connect(port: u16) -> SyncSender<Vec<u8>> {
    let (queue, lines) = sync_channel(WAITING);
    thread::spawn(move || {
        loop {
            if send_lines(port, &lines).is_err() {
                thread::sleep(RECONNECT);
            }
        }
    });
    queue
}

/// Whether a line that is refused so is passed over. Any other says that a node came back with less
/// than it had, or that somebody lies: the node stops, and a person has to look.
fn is_harmless(refused: Refused) -> bool {
    matches!(
        refused,
        Refused::TooLong
            | Refused::BadLine
            | Refused::BadNumber
            | Refused::NoMessage
            | Refused::Elsewhere
            | Refused::Memory
    )
}

fn group_of(own: u8) -> Config {
    Config::new(NODES, own)
}

/// A node with its connections.
struct Host {
    own: u8,
    node: Durable,
    queues: Vec<SyncSender<Vec<u8>>>,
    told_own: u32,
    told_all: bool,
}

impl Host {
    /// The node by its journal, which has to be there, with its object, which is in no journal.
    fn new(own: u8, folder: &Path, ports: &[u16]) -> Result<Host, DurableError> {
        let mut node = Durable::open(&group_of(own), folder)?;
        node.add(VISITS, Kind::Counter)?;
        eprintln!("node {own}: it has submitted {}", node.submitted()?);
        let queues = ports.iter().map(|port| connect(*port)).collect();
        Ok(Host { own, node, queues, told_own: 0, told_all: false })
    }

    /// Takes lines, and submits the next update once the last is learnt: all that with one sync.
    fn take(&mut self, lines: &[Vec<u8>]) -> Result<(), DurableError> {
        let (own, submitted) = (self.own, self.node.submitted()?);
        let learnt = self.node.view()?[usize::from(own)];
        self.node.batch(|batch| {
            for line in lines {
                match batch.receive(line) {
                    Err(refused) if is_harmless(refused) => {
                        eprintln!("node {own}: a line is refused: {refused}");
                    }
                    taken => taken?,
                }
            }
            if submitted < UPDATES && learnt == submitted {
                batch.inc(VISITS, 1)?;
            }
            Ok::<(), Refused>(())
        })??;
        Ok(())
    }

    fn send_mail(&mut self) -> Result<(), DurableError> {
        while let Some(mail) = self.node.next_mail()? {
            // Where the queue is full, the message is lost.
            let _dropped = self.queues[usize::from(mail.to)].try_send(mail.line);
        }
        Ok(())
    }

    /// Tells how many of its own updates are learnt, and once that all of all nodes are.
    fn tell(&mut self) -> Result<(), DurableError> {
        let view = self.node.view()?;
        let own = view[usize::from(self.own)];
        if own > self.told_own {
            println!("own {own}");
            self.told_own = own;
        }
        if !self.told_all && view[..usize::from(NODES)].iter().all(|count| *count == UPDATES) {
            println!("total {}", self.node.total(VISITS)?);
            self.told_all = true;
        }
        Ok(())
    }

    fn run(&mut self, came: &Receiver<Vec<u8>>) -> Result<(), DurableError> {
        let mut lines = Vec::new();
        let mut timer = Instant::now() + AGAIN;
        loop {
            self.take(&lines)?;
            self.send_mail()?;
            self.tell()?;
            lines = match came.recv_timeout(timer.saturating_duration_since(Instant::now())) {
                Ok(first) => iter::once(first).chain(came.try_iter()).take(TAKEN).collect(),
                Err(RecvTimeoutError::Disconnected) => return Ok(()),
                Err(RecvTimeoutError::Timeout) => {
                    self.node.again()?;
                    timer = Instant::now() + AGAIN;
                    Vec::new()
                }
            };
            if self.own == SLOW {
                thread::sleep(SLOWNESS * lines.len() as u32);
            }
        }
    }
}

/// A node's process: it prints its port, reads those of all, and ends with its input, at whatever
/// moment.
fn run_node(own: u8, folder: &Path, port: u16) -> Result<(), Box<dyn Error>> {
    let listener = TcpListener::bind((Ipv4Addr::LOCALHOST, port))?;
    println!("port {}", listener.local_addr()?.port());
    let mut line = String::new();
    io::stdin().read_line(&mut line)?;
    let ports: Vec<u16> = line.split_whitespace().map(str::parse).collect::<Result<_, _>>()?;
    let (came, lines) = sync_channel(WAITING);
    thread::spawn(move || accept(&listener, &came));
    thread::spawn(|| {
        let _end = io::stdin().read_line(&mut String::new());
        process::exit(0);
    });
    Host::new(own, folder, &ports)?.run(&lines)?;
    Ok(())
}

/// A node's process, as its parent has it.
struct Process {
    child: Child,
    output: BufReader<ChildStdout>,
}

impl Process {
    fn start(own: usize, folder: &Path, port: u64) -> Result<Process, Box<dyn Error>> {
        let mut child = Command::new(env::current_exe()?)
            .args([own.to_string(), port.to_string()])
            .arg(folder.join(own.to_string()))
            .stdin(Stdio::piped())
            .stdout(Stdio::piped())
            .spawn()?;
        let output = child.stdout.take().ok_or("a node has no output")?;
        Ok(Process { child, output: BufReader::new(output) })
    }

    /// The number behind a word, on the next line of the node's output that begins with it.
    fn told(&mut self, word: &str) -> Result<u64, Box<dyn Error>> {
        let mut line = String::new();
        while self.output.read_line(&mut line)? > 0 {
            if let Some(number) = line.trim().strip_prefix(word) {
                return Ok(number.trim().parse()?);
            }
            line.clear();
        }
        Err("a node ended".into())
    }

    /// Tells the node the ports of all.
    fn tell(&mut self, ports: &[u64]) -> Result<(), Box<dyn Error>> {
        let line = ports.iter().map(u64::to_string).collect::<Vec<_>>().join(" ");
        let input = self.child.stdin.as_mut().ok_or("a node has no input")?;
        Ok(writeln!(input, "{line}")?)
    }

    /// Kills the node.
    fn kill(&mut self) -> io::Result<()> {
        self.child.kill()?;
        self.child.wait().map(drop)
    }
}

/// Starts the nodes, kills one of them twice, and answers the totals that they come to.
fn totals(folder: &Path) -> Result<Vec<u64>, Box<dyn Error>> {
    let nodes = (0..usize::from(NODES)).map(|own| Process::start(own, folder, 0));
    let mut nodes = nodes.collect::<Result<Vec<_>, _>>()?;
    let ports = nodes.iter_mut().map(|node| node.told("port "));
    let ports = ports.collect::<Result<Vec<u64>, _>>()?;
    for node in &mut nodes {
        node.tell(&ports)?;
    }
    for learnt in KILLED_AT {
        while nodes[KILLED].told("own ")? < learnt {}
        nodes[KILLED].kill()?;
        nodes[KILLED] = Process::start(KILLED, folder, ports[KILLED])?;
        nodes[KILLED].tell(&ports)?;
    }
    let totals = nodes.iter_mut().map(|node| node.told("total ")).collect();
    for node in &mut nodes {
        drop(node.child.stdin.take());
        node.child.wait()?;
    }
    totals
}

/// A folder for each node, with the journal that it begins with.
fn new_folder() -> Result<PathBuf, DurableError> {
    let folder = env::temp_dir().join(format!("lattice-processes-{}", process::id()));
    for own in 0..NODES {
        let folder = folder.join(own.to_string());
        fs::create_dir_all(&folder)?;
        Durable::create(&group_of(own), folder)?;
    }
    Ok(folder)
}

fn run_all() -> Result<(), Box<dyn Error>> {
    thread::spawn(|| {
        thread::sleep(PATIENCE);
        eprintln!("not all is learnt after {PATIENCE:?}");
        process::exit(1); // the nodes end with their input
    });
    let folder = new_folder()?;
    let totals = totals(&folder);
    fs::remove_dir_all(&folder)?;
    let totals = totals?;
    println!("the nodes come to {totals:?}");
    let wanted = u64::from(NODES) * u64::from(UPDATES);
    if totals.iter().any(|total| *total != wanted) {
        return Err("the totals are wrong".into());
    }
    Ok(())
}

fn run(words: &[String]) -> Result<(), Box<dyn Error>> {
    match words {
        [own, port, folder] => run_node(own.parse()?, Path::new(folder), port.parse()?),
        _ => run_all(),
    }
}

fn main() -> ExitCode {
    let words: Vec<String> = env::args().skip(1).collect();
    match run(&words) {
        Ok(()) => ExitCode::SUCCESS,
        Err(error) => {
            eprintln!("three_processes: {error}");
            ExitCode::FAILURE
        }
    }
}

#[cfg(test)]
mod tests {
    use super::*;
    use lattice_agreement::Node;

    /// The lines that come of an input.
    fn taken(input: &[u8]) -> Vec<Vec<u8>> {
        let (came, lines) = sync_channel(WAITING);
        read_lines(input, &came).unwrap();
        drop(came);
        lines.iter().collect()
    }

    #[test]
    fn a_last_line_that_was_cut_is_dropped() {
        assert_eq!(taken(b"inc 8588\n\ninc 7\n"), [&b"inc 8588"[..], b"", b"inc 7"]);
        assert_eq!(taken(b"inc 7\ninc 8"), [b"inc 7"]);
        assert!(taken(b"inc 8").is_empty());
        assert!(taken(b"").is_empty());
    }

    #[test]
    fn a_refused_line_that_is_no_message_is_passed_over_and_one_of_a_liar_is_not() {
        let mut node = Node::new(&Config::new(NODES, 0)).unwrap();
        let mut other = Node::new(&Config { commits: 1, ..Config::new(NODES, 1) }).unwrap();
        other.propose(0, 42).unwrap();
        let lie = other.mail().map(Result::unwrap).find(|mail| mail.to == 0).unwrap().line;
        assert!(is_harmless(node.receive(b"hello").unwrap_err()));
        assert!(!is_harmless(node.receive(&lie).unwrap_err()));
    }
}
