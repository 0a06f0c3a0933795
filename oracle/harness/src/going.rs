//! Rewinds under way while libtw2, which has none, reads on: a model beside it, made the plain way. After every event the tick
//! and the board are written down. A rewind is the numbers of two events: the one that its copy stands after, and its
//! TickStart. Going on takes the first back to the second at most; nothing else changes them.

use crate::board::Board;
use crate::expected::has_large_client;
use crate::expected::start;
use crate::lookups::tick_after;
use crate::rewind::REEL;
use crate::run::Answer;
use crate::run::Run;
use crate::text::numbers;
use libtw2_teehistorian::raw::Item;

/// What an event leaves.
struct Moment {
    /// The tick, if the event is its TickStart.
    started: Option<i32>,
    tick: Option<i32>,
    board: Board,
}

/// A reading as far as it has come.
pub struct Reading<'b> {
    run: Run<'b>,
    /// After each event, the first to begin with.
    moments: Vec<Moment>,
    /// No event follows.
    is_over: bool,
    /// By any refusal.
    is_refused: bool,
}

/// A rewind under way. Events are counted from 1.
#[derive(Clone, Copy, Debug, PartialEq)]
pub struct UnderWay {
    /// Its copy stands after this event.
    at: u64,
    /// Its TickStart.
    start: u64,
}

impl UnderWay {
    pub fn go(&mut self, events: u64) {
        self.at -= events.min(self.at - self.start);
    }
    /// The line of a call.
    pub fn line(&self) -> &'static str {
        if self.at == self.start {
            "ended\n"
        } else {
            "going\n"
        }
    }
    /// How many calls of so many events it takes until it isn't going; the first is made in any case.
    pub fn calls(&self, events: u64) -> u64 {
        (self.at - self.start).div_ceil(events).max(1)
    }
}

impl<'b> Reading<'b> {
    /// None if there is no version, or another than 1 and 2.
    pub fn new(input: &'b [u8]) -> Option<Reading<'b>> {
        Some(Reading {
            run: start(input)?,
            moments: Vec::new(),
            is_over: false,
            is_refused: false,
        })
    }
    /// Reads until so many more events have come, or to its end: finish, a refusal or `too long`.
    pub fn read(&mut self, events: u64) {
        for _ in 0..events {
            if self.is_over {
                return;
            }
            self.call();
        }
    }
    fn call(&mut self) {
        let tick = self.moments.last().and_then(|moment| moment.tick);
        let (started, tick) = match self.run.call() {
            Answer::Event(event) if has_large_client(&event) => return self.end(true),
            Answer::Event(event) => (started(&event), tick_after(tick, &event)),
            Answer::Refused(_) => return self.end(true),
            Answer::Finish | Answer::Stopped => return self.end(false),
        };
        self.moments.push(Moment {
            started,
            tick,
            board: Board::of(&self.run),
        });
    }
    fn end(&mut self, is_refused: bool) {
        self.is_over = true;
        self.is_refused = is_refused;
    }
    fn events(&self) -> u64 {
        self.moments.len() as u64
    }
    /// A rewind to the newest such TickStart of the last 512 events, or its refusal.
    pub fn start(&self, tick: i32) -> Result<UnderWay, u8> {
        if self.is_refused {
            return Err(18);
        }
        let at = self.events();
        let newest = self.moments.iter().rposition(|m| m.started == Some(tick));
        let start = newest.map(|place| place as u64 + 1);
        match start.filter(|start| self.on_reel(*start)) {
            Some(start) => Ok(UnderWay { at, start }),
            None => Err(20),
        }
    }
    fn on_reel(&self, event: u64) -> bool {
        self.events() - event < REEL
    }
    /// Whether the TickStart of a rewind has left the reader's reel.
    pub fn has_lost(&self, rewind: &UnderWay) -> bool {
        !self.on_reel(rewind.start)
    }
    fn moment(&self, rewind: &UnderWay) -> &Moment {
        &self.moments[rewind.at as usize - 1]
    }
    /// The copy as the rewind program prints it.
    pub fn board(&self, rewind: &UnderWay) -> String {
        let moment = self.moment(rewind);
        format!("board {}\n{}", number_word(moment.tick), moment.board)
    }
    /// The tick, and the position, the inputs and the team of a client.
    pub fn look(&self, rewind: &UnderWay, client: i32) -> String {
        let moment = self.moment(rewind);
        let pos = moment.board.player_pos(client);
        let pos = pos.map_or("nowhere".to_string(), |pos| {
            format!("at {} {}", pos.x, pos.y)
        });
        let input = moment.board.input(client);
        let input = input.map_or("no inputs".to_string(), |ten| {
            format!("has{}", numbers(&ten))
        });
        let team = number_word(moment.board.team(client));
        let tick = number_word(moment.tick);
        format!("tick {tick}\n{pos}\n{input}\nteam {team}\n")
    }
}

/// What the program rewind prints for a STEP above 0: every call, until it isn't going.
pub fn rewound(input: &[u8], tick: i32, step: u64, limit: Option<u64>) -> String {
    let refused = |number: u8| format!("refused {number}\n");
    let Some(mut reading) = Reading::new(input) else {
        return refused(2);
    };
    reading.read(limit.unwrap_or(u64::MAX));
    match reading.start(tick) {
        Ok(mut rewind) => {
            let calls = 0..rewind.calls(step);
            let mut call = || {
                rewind.go(step);
                reading.board(&rewind) + rewind.line()
            };
            calls.map(|_| call()).collect()
        }
        Err(number) => refused(number),
    }
}

fn started(event: &Item) -> Option<i32> {
    match event {
        Item::TickStart(tick) => Some(*tick),
        _ => None,
    }
}

/// A tick or a team; `-` for none.
fn number_word(number: Option<i32>) -> String {
    number.map_or("-".to_string(), |number| number.to_string())
}

#[cfg(test)]
mod tests;
