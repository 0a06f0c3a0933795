//! Inputs for a program that reads many of them in one run.

use crate::framed::ROOM;
use crate::subject::Subject;
use crate::subject::Task;
use std::io;

/// A batch is compared when it has so many bytes, so that a run takes seconds at most.
const FULL: usize = 1 << 16;

pub struct Case {
    pub input: Vec<u8>,
    pub task: Task,
    pub origin: String,
}

pub struct Gathered<'a> {
    program: &'a str,
    cases: Vec<Case>,
    given: Vec<u8>,
    wanted: String,
    differences: u64,
}

impl<'a> Gathered<'a> {
    pub fn new(program: &'a str) -> Gathered<'a> {
        Gathered {
            program,
            cases: Vec::new(),
            given: Vec::new(),
            wanted: String::new(),
            differences: 0,
        }
    }
    pub fn differences(&self) -> u64 {
        self.differences
    }
    /// Adds a case for which the program must print this; it is left out, and false answered, if the program can't hold it.
    pub fn add(&mut self, case: Case, wanted: &str) -> io::Result<bool> {
        let given = self.subject(&case).given(&case.input);
        if given.len() > ROOM {
            return Ok(false);
        }
        if self.given.len() + given.len() > ROOM {
            self.compare()?;
        }
        self.given.extend(given);
        self.wanted.push_str(wanted);
        self.cases.push(case);
        if self.given.len() > FULL {
            self.compare()?;
        }
        Ok(true)
    }
    /// Compares what has been gathered; if something differs, input by input.
    pub fn compare(&mut self) -> io::Result<()> {
        let cases = std::mem::take(&mut self.cases);
        let given = std::mem::take(&mut self.given);
        let wanted = std::mem::take(&mut self.wanted);
        let Some(first) = cases.first() else {
            return Ok(());
        };
        if self.subject(first).prints(&given, &wanted)? {
            return Ok(());
        }
        let before = self.differences;
        for case in &cases {
            self.compare_one(case)?;
        }
        if self.differences == before {
            println!(
                "a batch differs, from {} on, and none of its inputs",
                first.origin
            );
            self.differences += 1;
        }
        Ok(())
    }
    fn subject(&self, case: &Case) -> Subject<'a> {
        Subject {
            program: self.program,
            task: case.task.clone(),
        }
    }
    fn compare_one(&mut self, case: &Case) -> io::Result<()> {
        let subject = self.subject(case);
        if !subject.differs(&case.input)? {
            return Ok(());
        }
        self.differences += 1;
        if self.differences == 1 {
            subject.show(&case.input, &case.origin)?;
        }
        Ok(())
    }
}
