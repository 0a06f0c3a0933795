//! Cases of rewind_vectors: the ticks to rewind to, how many events may come before, and an input.

use crate::framed::measured;
use crate::framed::parted;
use crate::input;
use crate::invalid;
use crate::records::bytes;
use crate::rewind::Past;
use std::fmt;
use std::io;
use std::io::BufRead;
use std::io::Write;

/// Stands for no limit where a case has its number of events.
const NO_LIMIT: u32 = u32::MAX;

/// So many ticks on the reel are chosen at most, and so many that have left it.
const KEPT: usize = 12;
const GONE: usize = 2;

/// What is asked of one reading.
#[derive(Clone, Debug, PartialEq)]
pub struct Jumps {
    pub ticks: Vec<i32>,
    pub limit: Option<u64>,
}

impl Jumps {
    /// What rewind_vectors prints: the answer for each tick.
    pub fn text(&self, input: &[u8]) -> String {
        let past = Past::of(input, self.limit);
        let answers = self.ticks.iter().map(|tick| past.rewound(*tick).text());
        answers.collect()
    }
    /// The same for a shorter form of an input: ticks that it has; and if it is refused and the input isn't, only the events
    /// before that.
    pub fn fitted(&self, shorter: &[u8], input: &[u8]) -> Jumps {
        let past = Past::of(shorter, self.limit);
        let is_open = !Past::of(input, self.limit).is_refused();
        let limit = if is_open && past.is_refused() {
            Some(past.events())
        } else {
            self.limit
        };
        let ticks = spread(&past);
        Jumps { ticks, limit }
    }
    /// Each tick alone.
    pub fn each(&self) -> impl Iterator<Item = Jumps> + '_ {
        self.ticks.iter().map(|tick| Jumps {
            ticks: vec![*tick],
            limit: self.limit,
        })
    }
    /// A case as rewind_vectors reads it: its length; the number of ticks, and each in four bytes; the limit in four; the input.
    pub fn framed(&self, input: &[u8]) -> Vec<u8> {
        let count = u8::try_from(self.ticks.len()).expect("at most 255 ticks");
        let limit = match self.limit {
            Some(limit) => u32::try_from(limit).expect("a limit of four bytes"),
            None => NO_LIMIT,
        };
        let ticks: Vec<u8> = self.ticks.iter().flat_map(|t| t.to_le_bytes()).collect();
        measured(&[&[count], &ticks[..], &limit.to_le_bytes(), input].concat())
    }
    /// What is asked in a case, and its input.
    fn read(case: &[u8]) -> Option<(Jumps, &[u8])> {
        let (count, rest) = case.split_first()?;
        let (ticks, rest) = rest.split_at_checked(4 * usize::from(*count))?;
        let (limit, input) = rest.split_first_chunk()?;
        let limit = u32::from_le_bytes(*limit);
        let ticks = ticks.chunks_exact(4).map(|tick| {
            let tick = i32::from_le_bytes(tick.try_into().ok()?);
            (tick >= 0).then_some(tick)
        });
        let jumps = Jumps {
            ticks: ticks.collect::<Option<Vec<i32>>>()?,
            limit: (limit != NO_LIMIT).then_some(u64::from(limit)),
        };
        Some((jumps, input))
    }
}

impl fmt::Display for Jumps {
    fn fmt(&self, f: &mut fmt::Formatter) -> fmt::Result {
        write!(f, "to {:?}", self.ticks)?;
        match self.limit {
            Some(limit) => write!(f, " after {limit} events"),
            None => Ok(()),
        }
    }
}

/// All cases of the standard input, as rewind_vectors reads them.
pub fn command() -> io::Result<()> {
    let bytes = input()?;
    let mut rest = &bytes[..];
    let mut out = io::stdout().lock();
    while !rest.is_empty() {
        let wrong = || invalid("not cases of rewind_vectors");
        let (case, next) = parted(rest).ok_or_else(wrong)?;
        let (jumps, input) = Jumps::read(case).ok_or_else(wrong)?;
        out.write_all(jumps.text(input).as_bytes())?;
        rest = next;
    }
    out.flush()
}

/// Each line of the standard input is ticks with commas between, `-` for none or `spread`; a number of events or `all`; an
/// input in hex. The answer is what rewind_vectors reads.
pub fn cases() -> io::Result<()> {
    let mut out = io::stdout().lock();
    for line in io::stdin().lock().lines() {
        let line = line?;
        let wrong = || invalid(&format!("not TICKS EVENTS HEX: {line}"));
        out.write_all(&listed(&line).ok_or_else(wrong)?)?;
    }
    out.flush()
}

fn listed(line: &str) -> Option<Vec<u8>> {
    let mut words = line.split(' ');
    let (ticks, limit) = (words.next()?, words.next()?);
    let input = bytes(words.next()?)?;
    let limit = match limit {
        "all" => None,
        limit => Some(u64::from(limit.parse::<u32>().ok()?)),
    };
    let ticks = match ticks {
        "-" => Vec::new(),
        "spread" => spread(&Past::of(&input, limit)),
        ticks => ticks.split(',').map(tick).collect::<Option<Vec<i32>>>()?,
    };
    Some(Jumps { ticks, limit }.framed(&input))
}

/// A tick as the program rewind takes it.
pub fn tick(word: &str) -> Option<i32> {
    word.parse().ok().filter(|tick| *tick >= 0)
}

/// The ticks on the reel, the oldest and the newest among them, and two each that have left it and that never started.
pub fn spread(past: &Past) -> Vec<i32> {
    let (gone, kept) = past.ticks();
    let mut ticks = apart(&kept, KEPT);
    ticks.extend(apart(&gone, GONE));
    ticks.extend(never(&[gone, kept].concat()));
    ticks
}

/// At most so many of a list, the first and the last among them.
fn apart(list: &[i32], most: usize) -> Vec<i32> {
    if list.len() <= most {
        return list.to_vec();
    }
    let last = list.len() - 1;
    (0..most).map(|k| list[k * last / (most - 1)]).collect()
}

/// A tick that was passed over, the last such, and the one after the last; at most two.
fn never(started: &[i32]) -> Vec<i32> {
    let between = started.windows(2).rev().find(|two| two[1] - two[0] > 1);
    let skipped = between.map(|two| two[1] - 1);
    let behind = started.last().map_or(Some(0), |tick| tick.checked_add(1));
    skipped.into_iter().chain(behind).collect()
}

/// The ticks on the reel of an input, a line each, the oldest first.
pub fn reel(input: &[u8]) -> String {
    let (_, kept) = Past::of(input, None).ticks();
    kept.iter().map(|tick| format!("{tick}\n")).collect()
}

#[cfg(test)]
mod tests {
    use super::listed;
    use super::spread;
    use super::Jumps;
    use crate::framed::parted;
    use crate::rewind::Past;

    #[test]
    fn cases_are_read_as_written() {
        for (limit, written) in [(Some(258), [2, 1, 0, 0]), (None, [255, 255, 255, 255])] {
            let jumps = Jumps {
                ticks: vec![3, i32::MAX],
                limit,
            };
            let case = jumps.framed(&[0x01, 0x40]);
            let head = [15, 0, 0, 2, 3, 0, 0, 0, 0xff, 0xff, 0xff, 0x7f];
            assert_eq!(case, [&head[..], &written, &[0x01, 0x40]].concat());
            let (inner, rest) = parted(&case).expect("a case");
            assert_eq!(Jumps::read(inner), Some((jumps, &[0x01, 0x40][..])));
            assert!(rest.is_empty());
        }
        assert_eq!(
            listed("- all -"),
            Some(vec![5, 0, 0, 0, 255, 255, 255, 255])
        );
        assert_eq!(listed("-1 all 0140"), None);
        assert_eq!(listed("0 -1 0140"), None);
        // too few bytes for the ticks, for the limit, and a tick above the largest
        assert_eq!(Jumps::read(&[1, 0, 0, 0]), None);
        assert_eq!(Jumps::read(&[1, 0, 0, 0, 0, 0, 0, 0]), None);
        assert_eq!(Jumps::read(&[1, 0, 0, 0, 0x80, 0, 0, 0, 0]), None);
    }

    /// start 1, end 1, start 3, end 3, ..: 300 ticks, of which 256 are kept.
    #[test]
    fn the_ends_are_chosen() {
        let body = [&[0x01][..], &[0x41, 0x00].repeat(600), &[0x40]].concat();
        let ticks = spread(&Past::of(&body, None));
        assert_eq!((ticks.len(), ticks[0], ticks[11]), (16, 89, 599));
        assert_eq!(ticks[12..], [1, 87, 598, 600]);
        assert_eq!(spread(&Past::of(&body, Some(3))), [1, 3, 2, 4]);
        assert_eq!(spread(&Past::of(&body, Some(0))), [0]);
    }
}
