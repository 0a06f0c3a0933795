//! Inputs for rewind_vectors, many in one run.

use crate::gathered::Case;
use crate::gathered::Gathered;
use crate::jumps::spread;
use crate::jumps::Jumps;
use crate::rewind::Past;
use crate::rewind::Rewound;
use crate::subject::Task;
use generator::Random;
use std::io;

/// One reading in so many ends after a number of events. Of those that a refusal closes, where every tick is refused, it is
/// one in two.
const LIMITED: usize = 3;
const REFUSED_LIMITED: usize = 2;

#[derive(Default)]
struct Count {
    inputs: u64,
    limited: u64,
    left_out: u64,
    boards: u64,
    lines: u64,
    closed: u64,
    gone: u64,
    no_version: u64,
}

pub struct Rewinds<'a> {
    gathered: Gathered<'a>,
    total: Count,
}

impl<'a> Rewinds<'a> {
    pub fn new(program: &'a str) -> Rewinds<'a> {
        Rewinds {
            gathered: Gathered::new(program),
            total: Count::default(),
        }
    }
    pub fn differences(&self) -> u64 {
        self.gathered.differences()
    }
    /// An input, and the numbers that name it among all.
    pub fn add(&mut self, names: &[u64], input: Vec<u8>, origin: String) -> io::Result<()> {
        let mut random = Random::new(names);
        let mut past = Past::of(&input, None);
        let limit = limit(&past, &mut random);
        if limit.is_some() {
            past = Past::of(&input, limit);
        }
        let mut ticks = spread(&past);
        if past.is_refused() {
            // All have one answer.
            ticks.truncate(2);
        }
        let answers: Vec<Rewound> = ticks.iter().map(|tick| past.rewound(*tick)).collect();
        let wanted: String = answers.iter().map(Rewound::text).collect();
        let case = Case {
            input,
            task: Task::Rewind(Jumps { ticks, limit }),
            origin,
        };
        if !self.gathered.add(case, &wanted)? {
            self.total.left_out += 1;
            return Ok(());
        }
        self.total.inputs += 1;
        self.total.limited += u64::from(limit.is_some());
        self.total.count(&answers);
        Ok(())
    }
    /// Compares what has been gathered.
    pub fn compare(&mut self) -> io::Result<()> {
        self.gathered.compare()
    }
    pub fn summary(&self) -> String {
        let total = &self.total;
        format!(
            "rewind: {} inputs, {} of them up to a number of events; {} too large; {} boards of {} lines, {} refused 18, {} refused 20, {} refused 2; differences: {}",
            total.inputs,
            total.limited,
            total.left_out,
            total.boards,
            total.lines,
            total.closed,
            total.gone,
            total.no_version,
            self.differences()
        )
    }
}

impl Count {
    fn count(&mut self, answers: &[Rewound]) {
        for answer in answers {
            match answer {
                Rewound::Ended { board, .. } => {
                    self.boards += 1;
                    self.lines += board.size();
                }
                Rewound::Refused(18) => self.closed += 1,
                Rewound::Refused(20) => self.gone += 1,
                Rewound::Refused(_) => self.no_version += 1,
            }
        }
    }
}

/// Any number of events up to one more than there are, or one that ends at a TickStart or just before it.
fn limit(past: &Past, random: &mut Random) -> Option<u64> {
    let share = if past.is_refused() {
        REFUSED_LIMITED
    } else {
        LIMITED
    };
    if !random.one_in(share) {
        return None;
    }
    let starts = past.starts();
    if starts.is_empty() || random.one_in(2) {
        return Some(random.next() % (past.events() + 2));
    }
    let (event, _) = random.pick(&starts);
    Some(event - random.below(2) as u64)
}
