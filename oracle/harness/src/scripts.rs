//! Cases of going_vectors: a script of readings and of rewinds under way, and an input.

use crate::framed::measured;
use crate::framed::parted;
use crate::input;
use crate::invalid;
use crate::made::made;
use crate::records::bytes;
use crate::stage::told;
use std::fmt;
use std::io;
use std::io::BufRead;
use std::io::Write;

/// So many rewinds can be under way at once.
pub const PLACES: usize = 3;

/// A step takes so many bytes.
const WIDTH: usize = 6;

#[derive(Clone, Copy, Debug, PartialEq)]
pub enum What {
    /// Reading goes on until so many more events have come, or to its end.
    Read,
    /// A rewind to a tick starts.
    Start,
    /// It goes so many events.
    Go,
    /// The same, and its copy is printed.
    Board,
    /// Its tick, and the position, the inputs and the team of a client on its copy.
    Look,
    /// A rewind to a tick in one call, and in calls of 1, 7, 511 and 512 events each.
    Splits,
}

const WHATS: [(What, &str); 6] = [
    (What::Read, "read"),
    (What::Start, "start"),
    (What::Go, "go"),
    (What::Board, "board"),
    (What::Look, "look"),
    (What::Splits, "splits"),
];

#[derive(Clone, Copy, Debug, PartialEq)]
pub struct Step {
    pub what: What,
    /// Which rewind; 0 for reading.
    pub place: usize,
    /// A tick and a client are signed, a number of events isn't.
    pub number: u32,
}

#[derive(Clone, Debug, PartialEq)]
pub struct Script(pub Vec<Step>);

impl Script {
    /// A case as going_vectors reads it: its length, the number of steps in two bytes, the steps, the input.
    pub fn framed(&self, input: &[u8]) -> Vec<u8> {
        let count = u16::try_from(self.0.len()).expect("at most 65535 steps");
        let steps: Vec<u8> = self.0.iter().flat_map(Step::framed).collect();
        measured(&[&count.to_le_bytes(), &steps[..], input].concat())
    }
    /// The script of a case, and its input.
    fn read(case: &[u8]) -> Option<(Script, &[u8])> {
        let (count, rest) = case.split_first_chunk()?;
        let count = usize::from(u16::from_le_bytes(*count));
        let (steps, input) = rest.split_at_checked(WIDTH * count)?;
        let steps = steps.chunks_exact(WIDTH).map(Step::read);
        Some((Script(steps.collect::<Option<Vec<Step>>>()?), input))
    }
    /// Steps with commas between; `-` for none.
    pub fn listed(text: &str) -> Option<Script> {
        if text == "-" {
            return Some(Script(Vec::new()));
        }
        let steps = text.split(',').map(Step::listed);
        Some(Script(steps.collect::<Option<Vec<Step>>>()?))
    }
    /// Each script that has one step less.
    pub fn shorter(&self) -> impl Iterator<Item = Script> + '_ {
        (0..self.0.len()).map(|place| {
            let mut steps = self.0.clone();
            steps.remove(place);
            Script(steps)
        })
    }
}

impl fmt::Display for Script {
    fn fmt(&self, f: &mut fmt::Formatter) -> fmt::Result {
        let steps: Vec<String> = self.0.iter().map(Step::to_string).collect();
        write!(f, "{}", steps.join(","))
    }
}

impl Step {
    fn framed(&self) -> Vec<u8> {
        let what = self.what as u8;
        let place = u8::try_from(self.place).expect("a place in a byte");
        [&[what, place], &self.number.to_le_bytes()[..]].concat()
    }
    fn read(bytes: &[u8]) -> Option<Step> {
        let (what, rest) = bytes.split_first()?;
        let (place, number) = rest.split_first()?;
        let (what, _) = WHATS.get(usize::from(*what))?;
        Step {
            what: *what,
            place: usize::from(*place),
            number: u32::from_le_bytes(number.try_into().ok()?),
        }
        .if_placed()
    }
    /// `read:NUMBER`, or `WHAT:PLACE:NUMBER`.
    fn listed(text: &str) -> Option<Step> {
        let mut words = text.split(':');
        let word = words.next()?;
        let (what, _) = WHATS.iter().find(|(_, name)| *name == word)?;
        let place = match what {
            What::Read => 0,
            _ => words.next()?.parse().ok()?,
        };
        let number = words.next()?;
        let number = number.parse::<u32>().ok().or_else(|| signed(number))?;
        match words.next() {
            None => Step {
                what: *what,
                place,
                number,
            }
            .if_placed(),
            Some(_) => None,
        }
    }
    fn if_placed(self) -> Option<Step> {
        (self.place < PLACES).then_some(self)
    }
}

/// A negative number as the program reads it.
fn signed(word: &str) -> Option<u32> {
    word.parse::<i32>().ok().map(|number| number as u32)
}

impl fmt::Display for Step {
    fn fmt(&self, f: &mut fmt::Formatter) -> fmt::Result {
        let (_, word) = WHATS[self.what as usize];
        match self.what {
            What::Read => write!(f, "{word}:{}", self.number),
            What::Go | What::Board => write!(f, "{word}:{}:{}", self.place, self.number),
            _ => write!(f, "{word}:{}:{}", self.place, self.number as i32),
        }
    }
}

/// All cases of the standard input, as going_vectors reads them.
pub fn command() -> io::Result<()> {
    let bytes = input()?;
    let mut rest = &bytes[..];
    let mut out = io::stdout().lock();
    while !rest.is_empty() {
        let wrong = || invalid("not cases of going_vectors");
        let (case, next) = parted(rest).ok_or_else(wrong)?;
        let (script, input) = Script::read(case).ok_or_else(wrong)?;
        out.write_all(told(&script, input).text.as_bytes())?;
        rest = next;
    }
    out.flush()
}

/// Each line of the standard input is steps with commas between, or `made:SEED` for a script made from a number; an input in hex.
/// The answer is what going_vectors reads.
pub fn cases() -> io::Result<()> {
    let mut out = io::stdout().lock();
    for line in io::stdin().lock().lines() {
        let line = line?;
        let wrong = || invalid(&format!("not STEPS HEX: {line}"));
        out.write_all(&listed(&line).ok_or_else(wrong)?)?;
    }
    out.flush()
}

fn listed(line: &str) -> Option<Vec<u8>> {
    let (steps, hex) = line.split_once(' ')?;
    let input = bytes(hex)?;
    let script = match steps.strip_prefix("made:") {
        Some(seed) => made(&input, &[seed.parse().ok()?]),
        None => Script::listed(steps)?,
    };
    Some(script.framed(&input))
}

#[cfg(test)]
mod tests;
