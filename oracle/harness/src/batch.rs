//! Inputs for lookup_vectors, many in one run.

use crate::framed::When;
use crate::gathered::Case;
use crate::gathered::Gathered;
use crate::lookups::lookups;
use crate::lookups::LOOKUPS;
use crate::subject::Task;
use std::io;

/// Of so many inputs one is looked at after each event, if it is no longer than `SHORT`.
const SHARE: u64 = 8;
const SHORT: usize = 500;

#[derive(Default)]
struct Count {
    inputs: u64,
    each: u64,
    left_out: u64,
    boards: u64,
    teams: u64,
    beyond: u64,
}

pub struct Batch<'a> {
    gathered: Gathered<'a>,
    total: Count,
}

impl<'a> Batch<'a> {
    pub fn new(program: &'a str) -> Batch<'a> {
        Batch {
            gathered: Gathered::new(program),
            total: Count::default(),
        }
    }
    pub fn differences(&self) -> u64 {
        self.gathered.differences()
    }
    /// The input with this index of its sort.
    pub fn add(&mut self, index: u64, input: Vec<u8>, origin: String) -> io::Result<()> {
        let when = if index % SHARE == 0 && input.len() <= SHORT {
            When::Each
        } else {
            When::End
        };
        let wanted = lookups(&input, when);
        let case = Case {
            input,
            task: Task::Lookups(when),
            origin,
        };
        if !self.gathered.add(case, &wanted.text)? {
            self.total.left_out += 1;
            return Ok(());
        }
        self.total.inputs += 1;
        self.total.each += u64::from(when == When::Each);
        self.total.boards += wanted.boards;
        self.total.teams += wanted.teams;
        self.total.beyond += wanted.beyond;
        Ok(())
    }
    /// Compares what has been gathered.
    pub fn compare(&mut self) -> io::Result<()> {
        self.gathered.compare()
    }
    pub fn summary(&self) -> String {
        let total = &self.total;
        format!(
            "lookups: {} inputs, {} of them after each event; {} too large; {} boards, {} lookups, {} teams; {} with cids 2147483648, which libtw2 can't say; differences: {}",
            total.inputs,
            total.each,
            total.left_out,
            total.boards,
            total.boards * LOOKUPS,
            total.teams,
            total.beyond,
            self.differences()
        )
    }
}
