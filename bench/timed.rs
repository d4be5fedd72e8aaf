//! Runs a program once, and prints the processor's seconds and the most resident memory, in KiB, that it
//! took. It takes little memory itself: what starts a program counts as that program's, too.
//!
//! `timed INPUT OUTPUT PROGRAM WORD ..` has the program read one file and write another.

use std::env;
use std::error::Error;
use std::fs::File;
use std::process::{Command, ExitCode};

/// `struct rusage` of Linux on 64 bits: the times of the user and of the system, each as seconds and
/// microseconds, then `ru_maxrss`, and more.
type Usage = [i64; 18];
const RUSAGE_CHILDREN: i32 = -1;

unsafe extern "C" {
    fn getrusage(who: i32, usage: *mut Usage) -> i32;
}

/// The seconds, and the most resident memory, of what was run and waited for.
fn taken() -> (f64, i64) {
    let mut usage = [0; 18];
    // It writes one `struct rusage`, and is refused only for another `who`.
    let refused = unsafe { getrusage(RUSAGE_CHILDREN, &mut usage) };
    assert_eq!(refused, 0);
    let [user, user_micros, system, system_micros, resident, ..] = usage;
    let micros = (user + system) * 1_000_000 + user_micros + system_micros;
    (micros as f64 / 1e6, resident)
}

fn main() -> Result<ExitCode, Box<dyn Error>> {
    let words: Vec<String> = env::args().skip(1).collect();
    let [input, output, program, words @ ..] = words.as_slice() else {
        eprintln!("usage: timed INPUT OUTPUT PROGRAM WORD ..");
        return Ok(ExitCode::from(2));
    };
    let mut command = Command::new(program);
    command.args(words);
    command
        .stdin(File::open(input)?)
        .stdout(File::create(output)?);
    let status = command.status()?;
    if !status.success() {
        eprintln!("{program}: {status}");
        return Ok(ExitCode::FAILURE);
    }
    let (seconds, resident) = taken();
    println!("{seconds} {resident}");
    Ok(ExitCode::SUCCESS)
}
