//! A program under comparison, and what it must print.

use crate::expected::expected;
use crate::fields::hex;
use crate::framed::framed;
use crate::framed::When;
use crate::goals::Goal;
use crate::jumps::Jumps;
use crate::ladder::ladder;
use crate::lookups::lookups;
use crate::program::output;
use crate::reach;
use crate::scripts::Script;
use crate::shrink::shrink;
use crate::stage::told;
use crate::ties::settled;
use std::io;
use std::io::Write;

/// So much output beyond the expected one is kept.
const SURPLUS: usize = 1000;

#[derive(Clone)]
pub enum Task {
    /// The replay program's lines.
    Replay,
    /// The boards that lookup_vectors prints.
    Lookups(When),
    /// The list that the program ladder prints.
    Ladder,
    /// The boards that rewind_vectors prints for these ticks.
    Rewind(Jumps),
    /// What going_vectors prints of this script.
    Going(Script),
    /// The bytes that reach_vectors prints for this goal.
    Reach(Goal),
}

pub struct Subject<'a> {
    pub program: &'a str,
    pub task: Task,
}

impl Subject<'_> {
    /// The bytes that the program reads for an input.
    pub fn given(&self, input: &[u8]) -> Vec<u8> {
        match &self.task {
            Task::Replay | Task::Ladder => input.to_vec(),
            Task::Lookups(when) => framed(input, *when),
            Task::Rewind(jumps) => jumps.framed(input),
            Task::Going(script) => script.framed(input),
            Task::Reach(goal) => goal.framed(input),
        }
    }
    fn wanted(&self, input: &[u8]) -> String {
        match &self.task {
            Task::Replay => expected(input).text,
            Task::Lookups(when) => lookups(input, *when).text,
            Task::Ladder => ladder(input).text,
            Task::Rewind(jumps) => jumps.text(input),
            Task::Going(script) => told(script, input).text,
            Task::Reach(goal) => reach::told(input, goal).text,
        }
    }
    /// What the program prints for what it reads, as far as it can matter.
    fn printed(&self, given: &[u8], wanted: &str) -> io::Result<String> {
        output(self.program, given, wanted.len() + SURPLUS)
    }
    /// Whether the program prints what is wanted, but for what is free.
    pub fn prints(&self, given: &[u8], wanted: &str) -> io::Result<bool> {
        let printed = self.printed(given, wanted)?;
        Ok(match self.task {
            Task::Ladder => settled(&printed) == wanted,
            _ => printed == wanted,
        })
    }
    pub fn differs(&self, input: &[u8]) -> io::Result<bool> {
        Ok(!self.prints(&self.given(input), &self.wanted(input))?)
    }
    /// Shows a difference, and the same for a shorter input.
    pub fn show(&self, input: &[u8], origin: &str) -> io::Result<()> {
        println!("first difference of {}: {origin}", self.program);
        self.report(input)?;
        println!("made shorter:");
        let shorter = shrink(input.to_vec(), |candidate| {
            self.fitted(candidate, input).differs(candidate)
        })?;
        let fitted = self.fitted(&shorter, input);
        fitted.narrowed(&shorter)?.report(&shorter)
    }
    fn with(&self, task: Task) -> Self {
        Subject {
            program: self.program,
            task,
        }
    }
    /// The same task for a shorter form of an input.
    fn fitted(&self, shorter: &[u8], input: &[u8]) -> Self {
        match &self.task {
            Task::Rewind(jumps) => self.with(Task::Rewind(jumps.fitted(shorter, input))),
            task => self.with(task.clone()),
        }
    }
    /// With one tick alone or with fewer steps, if the program differs there.
    fn narrowed(self, input: &[u8]) -> io::Result<Self> {
        let narrower: Vec<Task> = match &self.task {
            Task::Rewind(jumps) if jumps.ticks.len() > 1 => {
                jumps.each().map(Task::Rewind).collect()
            }
            Task::Going(script) => script.shorter().map(Task::Going).collect(),
            Task::Reach(goal) => goal.shorter().into_iter().map(Task::Reach).collect(),
            _ => Vec::new(),
        };
        for task in narrower {
            let narrowed = self.with(task);
            if narrowed.differs(input)? {
                return narrowed.narrowed(input);
            }
        }
        Ok(self)
    }
    fn report(&self, input: &[u8]) -> io::Result<()> {
        let wanted = self.wanted(input);
        let mut out = io::stdout().lock();
        writeln!(out, "input: {}", hex(input))?;
        match &self.task {
            Task::Rewind(jumps) => writeln!(out, "rewound {jumps}")?,
            Task::Going(script) => writeln!(out, "steps {script}")?,
            Task::Reach(goal) => writeln!(out, "{goal}")?,
            _ => (),
        }
        writeln!(out, "libtw2, with what it lacks put in:")?;
        write!(out, "{wanted}")?;
        writeln!(out, "the program:")?;
        writeln!(out, "{}", self.printed(&self.given(input), &wanted)?)
    }
}
