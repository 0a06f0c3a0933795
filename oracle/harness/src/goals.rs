//! Cases of reach_vectors: a reader, and the board that it is to be brought to.

use crate::aims::aimed;
use crate::changes::Change;
use crate::changes::WIDTH;
use crate::entries::Wanted;
use crate::fields::hex;
use crate::framed::measured;
use crate::framed::parted;
use crate::input;
use crate::invalid;
use crate::reach::told;
use crate::reach::Answer;
use crate::records::bytes;
use crate::stand::Stand;
use std::fmt;
use std::io;
use std::io::BufRead;
use std::io::Write;

/// Stands for as many events as there are, and for more room than is ever needed.
pub const ALL: u32 = u32::MAX;

/// A case has so many parts.
const PARTS: usize = 4;

#[derive(Clone, Debug, PartialEq)]
pub struct Goal {
    /// Of the target.
    pub room: u32,
    /// So many events are read for the reader.
    pub events: u32,
    /// The input whose board is wanted, but for the changes; the reader's own if it is empty.
    pub to: Vec<u8>,
    pub to_events: u32,
    pub changes: Vec<Change>,
}

impl Goal {
    /// The reader's own board, of an input read to its end.
    pub fn same() -> Goal {
        Goal {
            room: ALL,
            events: ALL,
            to: Vec::new(),
            to_events: ALL,
            changes: Vec::new(),
        }
    }
    /// How many events of the input are read.
    pub fn limit(&self) -> u64 {
        u64::from(self.events)
    }
    /// The board before the changes.
    pub fn base(&self, stand: &Stand) -> Wanted {
        if self.to.is_empty() {
            return stand.board.clone();
        }
        Stand::of(&self.to, u64::from(self.to_events)).board
    }
    pub fn wanted(&self, stand: &Stand) -> Wanted {
        let mut board = self.base(stand);
        self.changes
            .iter()
            .for_each(|change| change.make(&mut board));
        board
    }
    /// How many bytes are written with much room.
    pub fn size(&self, input: &[u8]) -> Option<u32> {
        let mut goal = self.clone();
        goal.room = ALL;
        match told(input, &goal).answer {
            Answer::Written(bytes) => u32::try_from(bytes.len()).ok(),
            Answer::Refused(_) => None,
        }
    }
    /// A case as reach_vectors reads it: after its length four parts, each after its own.
    pub fn framed(&self, input: &[u8]) -> Vec<u8> {
        let numbers = [self.room, self.events, self.to_events];
        let numbers: Vec<u8> = numbers.iter().flat_map(|n| n.to_le_bytes()).collect();
        let changes: Vec<u8> = self.changes.iter().flat_map(Change::framed).collect();
        let parts = [&numbers[..], input, &self.to, &changes];
        measured(&parts.map(measured).concat())
    }
    /// What is wanted in a case, and its input.
    fn read(case: &[u8]) -> Option<(Goal, &[u8])> {
        let mut rest = case;
        let mut parts = [&[][..]; PARTS];
        for place in &mut parts {
            (*place, rest) = parted(rest)?;
        }
        let [numbers, input, to, changes] = parts;
        let numbers = numbers.chunks(4).map(|n| n.try_into().ok());
        let numbers = numbers.map(|n| n.map(u32::from_le_bytes));
        let [room, events, to_events] = numbers.collect::<Option<Vec<u32>>>()?[..] else {
            return None;
        };
        let changes = changes.chunks(WIDTH + 1).map(Change::read);
        let goal = Goal {
            room,
            events,
            to: to.to_vec(),
            to_events,
            changes: changes.collect::<Option<Vec<Change>>>()?,
        };
        rest.is_empty().then_some((goal, input))
    }
    /// `ROOM READER BOARD CHANGES`, or `aimed:SEED READER OTHER` for what is made from a number.
    fn listed(line: &str) -> Option<(Vec<u8>, Goal)> {
        let words: Vec<&str> = line.split(' ').collect();
        if let [first, reader, other] = words[..] {
            let seed = first.strip_prefix("aimed:")?.parse().ok()?;
            return aimed(&bytes(reader)?, &bytes(other)?, &[seed]);
        }
        let [room, reader, board, changes] = words[..] else {
            return None;
        };
        let (input, events) = cut(reader)?;
        let (to, to_events) = match board {
            "same" => (Vec::new(), ALL),
            board => cut(board)?,
        };
        let mut goal = Goal {
            room: ALL,
            events,
            to,
            to_events,
            changes: Vec::new(),
        };
        if changes != "-" {
            let changes = changes.split(',').map(Change::listed);
            goal.changes = changes.collect::<Option<Vec<Vec<Change>>>>()?.concat();
        }
        goal.room = match room {
            "much" => ALL,
            "full" => goal.size(&input)?,
            "short" => goal.size(&input)?.checked_sub(1)?,
            room => room.parse().ok()?,
        };
        Some((input, goal))
    }
    /// Each goal that has one change less, and the one with much room.
    pub fn shorter(&self) -> Vec<Goal> {
        let without = |place: usize| {
            let mut goal = self.clone();
            goal.changes.remove(place);
            goal
        };
        let mut goals: Vec<Goal> = (0..self.changes.len()).map(without).collect();
        if self.room != ALL {
            goals.push(Goal {
                room: ALL,
                ..self.clone()
            });
        }
        goals
    }
}

/// An input in hex, and the number of its events behind a colon, if not all are read.
fn cut(word: &str) -> Option<(Vec<u8>, u32)> {
    match word.split_once(':') {
        Some((hex, events)) => Some((bytes(hex)?, events.parse().ok()?)),
        None => Some((bytes(word)?, ALL)),
    }
}

impl fmt::Display for Goal {
    fn fmt(&self, f: &mut fmt::Formatter) -> fmt::Result {
        let events = |count: u32| match count {
            ALL => String::new(),
            count => format!(" after {count} events"),
        };
        write!(f, "from the reader{} to ", events(self.events))?;
        if self.to.is_empty() {
            write!(f, "its own board")?;
        } else {
            write!(f, "{}{}", hex(&self.to), events(self.to_events))?;
        }
        for change in &self.changes {
            write!(f, " {:?}:{}:{}", change.what, change.client, change.number)?;
        }
        match self.room {
            ALL => Ok(()),
            room => write!(f, " into {room} bytes"),
        }
    }
}

/// All cases of the standard input, as reach_vectors reads them. It is an error if bytes bring libtw2's reader to another board.
pub fn command() -> io::Result<()> {
    let bytes = input()?;
    let mut rest = &bytes[..];
    let mut out = io::stdout().lock();
    while !rest.is_empty() {
        let wrong = || invalid("not cases of reach_vectors");
        let (case, next) = parted(rest).ok_or_else(wrong)?;
        let (goal, input) = Goal::read(case).ok_or_else(wrong)?;
        let told = told(input, &goal);
        if told.is_lost {
            return Err(invalid(&format!("{} {goal}: {}", hex(input), told.text)));
        }
        out.write_all(told.text.as_bytes())?;
        rest = next;
    }
    out.flush()
}

/// Each line of the standard input is a reader and a goal; the answer is what reach_vectors reads.
pub fn cases() -> io::Result<()> {
    let mut out = io::stdout().lock();
    for line in io::stdin().lock().lines() {
        let line = line?;
        let wrong = || invalid(&format!("not ROOM READER BOARD CHANGES: {line}"));
        let (input, goal) = Goal::listed(&line).ok_or_else(wrong)?;
        out.write_all(&goal.framed(&input))?;
    }
    out.flush()
}

#[cfg(test)]
mod tests;
