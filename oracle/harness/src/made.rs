//! Scripts for going_vectors, made from numbers.

use crate::rewind::Past;
use crate::rewind::REEL;
use crate::scripts::Script;
use crate::scripts::Step;
use crate::scripts::What;
use crate::scripts::PLACES;
use generator::Random;

/// So many readings at most, and so many steps after each.
const READINGS: usize = 4;
const STEPS: usize = 6;

/// One of so many starts is made for `splits`.
const SPLITS: usize = 16;

/// Numbers of events that a call goes, and clients.
const EVENTS: [u32; 12] = [0, 1, 1, 2, 3, 7, 20, 100, 510, 511, 512, u32::MAX];
const CLIENTS: [i32; 8] = [i32::MIN, -1, 0, 1, 63, 127, 128, i32::MAX];

/// Readings, with starts, calls and lookups after each.
pub fn made(input: &[u8], seeds: &[u64]) -> Script {
    let past = Past::of(input, None);
    let mut maker = Maker {
        random: Random::new(seeds),
        starts: past.starts(),
        clients: past.clients(),
        events: past.events(),
        read: 0,
        begun: Vec::new(),
        newer: [0; PLACES],
        steps: Vec::new(),
    };
    for _ in 0..=maker.random.below(READINGS) {
        maker.read();
        for _ in 0..=maker.random.below(STEPS) {
            maker.rewind();
        }
    }
    Script(maker.steps)
}

struct Maker {
    random: Random,
    /// The TickStart events of the whole body, each with its tick.
    starts: Vec<(u64, i32)>,
    /// Those on the board in the end.
    clients: Vec<i32>,
    events: u64,
    /// The events read by the steps so far.
    read: u64,
    /// The rewinds that have started, and how many events each has before it.
    begun: Vec<usize>,
    newer: [u64; PLACES],
    steps: Vec<Step>,
}

impl Maker {
    fn add(&mut self, what: What, place: usize, number: u32) {
        self.steps.push(Step {
            what,
            place,
            number,
        });
    }
    /// To a TickStart or just before it, a few events on, about as many as a reel keeps, or any number; now and then to the end
    /// and past the last event.
    fn read(&mut self) {
        let left = self.events - self.read;
        let events = match self.random.below(6) {
            0 => self.to_start().unwrap_or(left),
            1 => self.random.below(40) as u64,
            2 | 3 => REEL - 50 + self.random.below(100) as u64,
            4 => left,
            _ => self.random.next() % (left + 1),
        };
        let past = u64::from(self.random.one_in(5));
        let events = events.min(left + past);
        self.read = self.events.min(self.read + events);
        self.add(What::Read, 0, events as u32);
    }
    fn to_start(&mut self) -> Option<u64> {
        let read = self.read;
        let ahead = self.starts(|event| read < event);
        if ahead.is_empty() {
            return None;
        }
        let (event, _) = self.random.pick(&ahead);
        Some(event - read - self.random.below(2) as u64)
    }
    fn starts(&self, wanted: impl Fn(u64) -> bool) -> Vec<(u64, i32)> {
        let starts = self.starts.iter().copied();
        starts.filter(|(event, _)| wanted(*event)).collect()
    }
    fn rewind(&mut self) {
        match self.random.below(12) {
            0..=3 => self.start(),
            4..=6 => self.go(What::Go),
            7..=9 => self.go(What::Board),
            _ => self.look(),
        }
    }
    fn start(&mut self) {
        let what = if self.random.one_in(SPLITS) {
            What::Splits
        } else {
            What::Start
        };
        let place = self.random.below(PLACES);
        let (event, tick) = self.wanted();
        if on_reel(event, self.read) {
            self.begun.push(place);
            self.newer[place] = match what {
                What::Splits => 0,
                _ => self.read - event,
            };
        }
        self.add(what, place, tick as u32);
    }
    /// Mostly a rewind that has started.
    fn place(&mut self) -> usize {
        if self.begun.is_empty() || self.random.one_in(8) {
            return self.random.below(PLACES);
        }
        self.random.pick(&self.begun)
    }
    /// A TickStart and its tick, mostly one on the reel where there is one; else one that has left it or is still to come, or a
    /// tick that may not start at all.
    fn wanted(&mut self) -> (u64, i32) {
        let read = self.read;
        let starts = match self.random.below(8) {
            0 => self.starts(|event| event <= read && !on_reel(event, read)),
            1 => self.starts(|event| read < event),
            _ => self.starts(|event| on_reel(event, read)),
        };
        if starts.is_empty() {
            return (u64::MAX, self.random.between(0, 3));
        }
        match self.random.below(6) {
            0 => starts[0],
            1 => starts[starts.len() - 1],
            _ => self.random.pick(&starts),
        }
    }
    /// So many events that it ends just so, or doesn't quite; or any number.
    fn go(&mut self, what: What) {
        let place = self.place();
        let newer = self.newer[place];
        let events = match self.random.below(8) {
            0 => newer.saturating_sub(1),
            1 => newer,
            2 => newer + 1,
            3 | 4 => self.random.next() % (newer + 1),
            _ => u64::from(self.random.pick(&EVENTS)),
        };
        self.newer[place] = newer.saturating_sub(events);
        self.add(what, place, events as u32);
    }
    fn look(&mut self) {
        let place = self.place();
        let client = match self.random.below(6) {
            0 => self.random.pick(&CLIENTS),
            1 => self.random.between(0, 127),
            _ if self.clients.is_empty() => self.random.between(0, 9),
            _ => self.random.pick(&self.clients),
        };
        self.add(What::Look, place, client as u32);
    }
}

/// Whether an event is one of the last 512 of those that were read.
fn on_reel(event: u64, read: u64) -> bool {
    event <= read && read - event < REEL
}

#[cfg(test)]
mod tests {
    use super::made;
    use crate::stage::told;
    use crate::stage::Told;

    /// start 0, input 5, 600 Joins, end 0, start 1, ..
    #[test]
    fn all_is_made() {
        let part = [
            &[0x45, 0x05][..],
            &[0x01; 10],
            &[0x47, 0x00].repeat(600),
            &[0x41, 0x00],
        ];
        let input = [&[0x01][..], &part.concat().repeat(3), &[0x40]].concat();
        let mut total = Told::default();
        for seed in 0..100 {
            let script = made(&input, &[seed]);
            assert_eq!(script, made(&input, &[seed]));
            total.count(&told(&script, &input));
        }
        for count in [
            total.started,
            total.refused,
            total.calls,
            total.outlived,
            total.boards,
            total.looks,
            total.splits,
        ] {
            assert!(count > 0);
        }
    }
}
