//! Inputs for the program ladder, one in a run.

use crate::expected::Left;
use crate::ladder::ladder;
use crate::subject::Subject;
use crate::subject::Task;
use std::io;

#[derive(Default)]
struct Count {
    inputs: u64,
    with_rows: u64,
    rows: u64,
    ties: u64,
    others: u64,
    client: u64,
    too_long: u64,
    differences: u64,
}

pub struct Lists<'a> {
    subject: Subject<'a>,
    total: Count,
}

impl<'a> Lists<'a> {
    pub fn new(program: &'a str) -> Lists<'a> {
        Lists {
            subject: Subject {
                program,
                task: Task::Ladder,
            },
            total: Count::default(),
        }
    }
    pub fn differences(&self) -> u64 {
        self.total.differences
    }
    pub fn compare(&mut self, input: &[u8], origin: &str) -> io::Result<()> {
        let wanted = ladder(input);
        let total = &mut self.total;
        total.inputs += 1;
        total.with_rows += u64::from(wanted.rows > 0);
        total.rows += wanted.rows;
        total.ties += wanted.ties;
        total.others += wanted.others;
        total.client += u64::from(wanted.left == Some(Left::Client));
        total.too_long += u64::from(wanted.left == Some(Left::TooLong));
        if self.subject.prints(input, &wanted.text)? {
            return Ok(());
        }
        total.differences += 1;
        if total.differences == 1 {
            self.subject.show(input, origin)?;
        }
        Ok(())
    }
    pub fn summary(&self) -> String {
        let total = &self.total;
        format!(
            "ladder: {} inputs, {} with rows; {} rows, {} with the time of the row before; {} finishes of other clients; left the domain: {} by refused 10, {} by too long; differences: {}",
            total.inputs,
            total.with_rows,
            total.rows,
            total.ties,
            total.others,
            total.client,
            total.too_long,
            total.differences
        )
    }
}
