//! What was measured for one body, and how it is printed.

use crate::programs;
use std::io;
use std::path::Path;
use std::time::Duration;
use std::time::Instant;

/// The best of several rounds.
pub struct Best {
    name: &'static str,
    time: Option<Duration>,
    /// Of a reader, the events that it read; of a program, its most memory in KB.
    number: u64,
}

impl Best {
    fn new(name: &'static str) -> Best {
        Best {
            name,
            time: None,
            number: 0,
        }
    }
    fn keep(&mut self, time: Duration, number: u64) {
        self.time = Some(self.time.map_or(time, |best| best.min(time)));
        self.number = number;
    }
    pub fn time(&mut self, reader: impl FnOnce() -> io::Result<u64>) -> io::Result<()> {
        let begin = Instant::now();
        let events = reader()?;
        self.keep(begin.elapsed(), events);
        Ok(())
    }
    pub fn run(&mut self, program: &str, words: &[&str], file: &Path) -> io::Result<()> {
        let took = programs::run(program, words, file)?;
        self.keep(took.time, took.kilobytes);
        Ok(())
    }
    fn nanoseconds(&self) -> f64 {
        self.time.map_or(f64::NAN, |time| time.as_nanos() as f64)
    }
}

const READERS: [&str; 4] = [
    "libtw2 reader",
    "many events a call",
    "one event, lent",
    "one event, by value",
];
const PROGRAMS: [&str; 2] = ["libtw2 replay", "replay"];
const KEPT: &str = "with a reel beside";
const LIST: &str = "results list";
const LADDER: &str = "ladder";

pub struct Report {
    events: u64,
    bytes: u64,
    /// libtw2's first: the others are held to it.
    pub readers: [Best; 4],
    pub programs: [Best; 2],
    /// libtw2 has no reel and no results list. The calls on a body and the program are held to the reader of many events a call.
    pub kept: Best,
    pub list: Best,
    pub ladder: Best,
}

impl Report {
    pub fn new(events: u64, bytes: u64) -> Report {
        Report {
            events,
            bytes,
            readers: READERS.map(Best::new),
            programs: PROGRAMS.map(Best::new),
            kept: Best::new(KEPT),
            list: Best::new(LIST),
            ladder: Best::new(LADDER),
        }
    }
    /// The time of an event, many a call, in nanoseconds.
    pub fn many_each(&self) -> f64 {
        self.readers[1].nanoseconds() / self.events.max(1) as f64
    }
    /// Whether all readers read the same number of events.
    pub fn check(&self) -> io::Result<()> {
        let mut readers = self.readers.iter().chain([&self.kept]);
        match readers.find(|r| r.number != self.events) {
            Some(r) => Err(io::Error::other(format!(
                "{} read {} events, libtw2 {}",
                r.name, r.number, self.events
            ))),
            None => Ok(()),
        }
    }
    pub fn print(&self, sort: &str, megabytes: u64) {
        println!(
            "{sort}, {megabytes} MB: {} bytes, {} events",
            self.bytes, self.events
        );
        for best in &self.readers {
            println!("{}", self.line(best, &self.readers[0], "libtw2's"));
        }
        for best in &self.programs {
            let line = self.line(best, &self.programs[0], "libtw2's");
            println!("{line}  {}", memory(best));
        }
        for best in [&self.kept, &self.list] {
            println!("{}", self.line(best, &self.readers[1], "count_many's"));
        }
        let line = self.line(&self.ladder, &self.readers[1], "count_many's");
        println!("{line}  {}", memory(&self.ladder));
    }
    /// The time and the speed, and that speed as a share of another's.
    fn line(&self, best: &Best, other: &Best, whose: &str) -> String {
        let each = best.nanoseconds() / self.events.max(1) as f64;
        let speed = self.bytes as f64 * 1000.0 / best.nanoseconds();
        let ratio = other.nanoseconds() / best.nanoseconds();
        format!(
            "  {:20} {each:8.2} ns/event {speed:8.1} MB/s  {ratio:6.2} x {whose} speed",
            best.name
        )
    }
}

fn memory(best: &Best) -> String {
    format!("{:7.1} MB of memory", best.number as f64 / 1024.0)
}

/// How the time for a byte grows from size to size: 1.00 is linear.
pub fn growth(sort: &str, reports: &[Report]) {
    for (index, name) in READERS.iter().enumerate() {
        print_growth(sort, name, reports, |r| r.readers[index].nanoseconds());
    }
    for (index, name) in PROGRAMS.iter().enumerate() {
        print_growth(sort, name, reports, |r| r.programs[index].nanoseconds());
    }
    print_growth(sort, KEPT, reports, |r| r.kept.nanoseconds());
    print_growth(sort, LIST, reports, |r| r.list.nanoseconds());
    print_growth(sort, LADDER, reports, |r| r.ladder.nanoseconds());
}

fn print_growth(sort: &str, name: &str, reports: &[Report], time: impl Fn(&Report) -> f64) {
    let per_byte: Vec<f64> = reports.iter().map(|r| time(r) / r.bytes as f64).collect();
    let steps: Vec<String> = per_byte
        .windows(2)
        .map(|pair| format!("{:.2}", pair[1] / pair[0]))
        .collect();
    println!(
        "{sort}, time for a byte from size to size, {name}: {}",
        steps.join(", ")
    );
}
