//! What going_vectors must print: a reading, and the rewinds beside it.

use crate::going::Reading;
use crate::going::UnderWay;
use crate::scripts::Script;
use crate::scripts::Step;
use crate::scripts::What;
use crate::scripts::PLACES;

/// The calls of `splits` go so many events each.
const SPLITS: [u64; 4] = [1, 7, 511, 512];

/// What going_vectors prints, and how much of each sort it is.
#[derive(Default)]
pub struct Told {
    pub text: String,
    pub started: u64,
    pub refused: u64,
    pub calls: u64,
    /// Calls of rewinds whose TickStart had left the reader's reel.
    pub outlived: u64,
    pub boards: u64,
    pub looks: u64,
    pub splits: u64,
}

impl Told {
    /// Adds the numbers of another.
    pub fn count(&mut self, other: &Told) {
        self.started += other.started;
        self.refused += other.refused;
        self.calls += other.calls;
        self.outlived += other.outlived;
        self.boards += other.boards;
        self.looks += other.looks;
        self.splits += other.splits;
    }
}

pub fn told(script: &Script, input: &[u8]) -> Told {
    let Some(reading) = Reading::new(input) else {
        return Told {
            text: "refused 2\n".to_string(),
            ..Told::default()
        };
    };
    let mut stage = Stage {
        reading,
        rewinds: [None; PLACES],
        told: Told::default(),
    };
    script.0.iter().for_each(|step| stage.take(*step));
    stage.told
}

/// A reading, and the rewinds beside it; none where no start has gone well yet.
struct Stage<'b> {
    reading: Reading<'b>,
    rewinds: [Option<UnderWay>; PLACES],
    told: Told,
}

impl Stage<'_> {
    fn take(&mut self, step: Step) {
        let tick = step.number as i32;
        match step.what {
            What::Read => self.reading.read(u64::from(step.number)),
            What::Start => self.start(step.place, tick),
            What::Go => self.go(step, false),
            What::Board => self.go(step, true),
            What::Look => self.look(step.place, tick),
            What::Splits => self.split(step.place, tick),
        }
    }
    fn say(&mut self, text: &str) {
        self.told.text.push_str(text);
    }
    fn refuse(&mut self, number: u8) {
        self.told.refused += 1;
        self.say(&format!("refused {number}\n"));
    }
    fn start(&mut self, place: usize, tick: i32) {
        match self.reading.start(tick) {
            Ok(rewind) => {
                self.rewinds[place] = Some(rewind);
                self.told.started += 1;
                self.say("started\n");
            }
            Err(number) => self.refuse(number),
        }
    }
    /// The blank rewind's reel lacks its TickStart.
    fn go(&mut self, step: Step, with_board: bool) {
        self.told.calls += 1;
        let Some(rewind) = &mut self.rewinds[step.place] else {
            self.say(if with_board { "board -\n" } else { "" });
            self.say("refused 20\n");
            return;
        };
        rewind.go(u64::from(step.number));
        let rewind = *rewind;
        self.told.outlived += u64::from(self.reading.has_lost(&rewind));
        if with_board {
            self.told.boards += 1;
            self.say(&self.reading.board(&rewind));
        }
        self.say(rewind.line());
    }
    fn look(&mut self, place: usize, client: i32) {
        self.told.looks += 1;
        let text = match &self.rewinds[place] {
            Some(rewind) => self.reading.look(rewind, client),
            None => "tick -\nnowhere\nno inputs\nteam -\n".to_string(),
        };
        self.say(&text);
    }
    fn split(&mut self, place: usize, tick: i32) {
        let mut rewind = match self.reading.start(tick) {
            Ok(rewind) => rewind,
            Err(number) => return self.refuse(number),
        };
        let calls = SPLITS.map(|events| rewind.calls(events));
        rewind.go(u64::MAX);
        self.rewinds[place] = Some(rewind);
        self.told.splits += 1;
        self.told.started += 1;
        self.told.calls += calls.iter().sum::<u64>();
        let calls = calls.map(|count| format!(" {count}"));
        self.say(&format!("splits{}\n", calls.concat()));
    }
}

#[cfg(test)]
mod tests;
