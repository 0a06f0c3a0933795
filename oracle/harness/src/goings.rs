//! Inputs for going_vectors, many in one run.

use crate::gathered::Case;
use crate::gathered::Gathered;
use crate::made::made;
use crate::stage::told;
use crate::stage::Told;
use crate::subject::Task;
use std::io;

#[derive(Default)]
struct Count {
    inputs: u64,
    left_out: u64,
    /// The texts are left out.
    told: Told,
}

pub struct Goings<'a> {
    gathered: Gathered<'a>,
    total: Count,
}

impl<'a> Goings<'a> {
    pub fn new(program: &'a str) -> Goings<'a> {
        Goings {
            gathered: Gathered::new(program),
            total: Count::default(),
        }
    }
    pub fn differences(&self) -> u64 {
        self.gathered.differences()
    }
    /// An input, and the numbers of which its script is made.
    pub fn add(&mut self, seeds: &[u64], input: Vec<u8>, origin: String) -> io::Result<()> {
        let script = made(&input, seeds);
        let told = told(&script, &input);
        let case = Case {
            input,
            task: Task::Going(script),
            origin,
        };
        if self.gathered.add(case, &told.text)? {
            self.total.inputs += 1;
            self.total.told.count(&told);
        } else {
            self.total.left_out += 1;
        }
        Ok(())
    }
    /// Compares what has been gathered.
    pub fn compare(&mut self) -> io::Result<()> {
        self.gathered.compare()
    }
    pub fn summary(&self) -> String {
        let (total, told) = (&self.total, &self.total.told);
        format!(
            "going: {} inputs; {} too large; {} rewinds, {} of them split four ways, {} starts refused; {} calls, {} of them of rewinds whose tick had left the reel; {} boards, {} lookups; differences: {}",
            total.inputs,
            total.left_out,
            told.started,
            told.splits,
            told.refused,
            told.calls,
            told.outlived,
            told.boards,
            told.looks,
            self.differences()
        )
    }
}
