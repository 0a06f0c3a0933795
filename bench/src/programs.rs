//! A program run on a file, its output thrown away: the time and the most memory that it took.
//!
//! What Linux counts as a process's memory begins with that of the process that started it. So the program is started by a
//! process of this program that has read no body: bench one PROGRAM FILE WORDS.

use std::fs::File;
use std::io;
use std::path::Path;
use std::process::Command;
use std::process::Stdio;
use std::time::Duration;
use std::time::Instant;

pub struct Took {
    pub time: Duration,
    pub kilobytes: u64,
}

/// The part of C's `struct rusage` that is read here, with room for the rest.
#[repr(C)]
struct Usage {
    times: [i64; 4],
    kilobytes: i64,
    rest: [i64; 13],
}

extern "C" {
    fn wait4(process: i32, status: *mut i32, options: i32, usage: *mut Usage) -> i32;
}

pub fn run(program: &str, words: &[&str], file: &Path) -> io::Result<Took> {
    let this = std::env::current_exe()?;
    let output = Command::new(this)
        .args(["one", program])
        .arg(file)
        .args(words)
        .stderr(Stdio::inherit())
        .output()?;
    let text = String::from_utf8_lossy(&output.stdout);
    let numbers: Vec<u64> = text
        .split(' ')
        .filter_map(|n| n.trim().parse().ok())
        .collect();
    match numbers.as_slice() {
        [nanoseconds, kilobytes] => Ok(Took {
            time: Duration::from_nanos(*nanoseconds),
            kilobytes: *kilobytes,
        }),
        _ => Err(io::Error::other(format!("{program} was not measured"))),
    }
}

/// Runs a program and prints its nanoseconds and kilobytes.
pub fn one(program: &str, words: &[&str], file: &Path) -> io::Result<()> {
    let took = start(program, words, file)?;
    println!("{} {}", took.time.as_nanos(), took.kilobytes);
    Ok(())
}

fn start(program: &str, words: &[&str], file: &Path) -> io::Result<Took> {
    let input = File::open(file)?;
    let begin = Instant::now();
    let child = Command::new(program)
        .args(words)
        .stdin(input)
        .stdout(Stdio::null())
        .spawn()
        .map_err(|error| io::Error::new(error.kind(), format!("{program}: {error}")))?;
    let mut status = 0;
    let mut usage = Usage {
        times: [0; 4],
        kilobytes: 0,
        rest: [0; 13],
    };
    // SAFETY: both pointers are to locals of the types that Linux on x86-64 fills in
    let ended = unsafe { wait4(child.id() as i32, &mut status, 0, &mut usage) };
    let time = begin.elapsed();
    if ended < 0 || status != 0 {
        return Err(io::Error::other(format!(
            "{program} ended with status {status}"
        )));
    }
    Ok(Took {
        time,
        kilobytes: usage.kilobytes as u64,
    })
}
