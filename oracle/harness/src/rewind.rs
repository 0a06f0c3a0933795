//! What the program rewind must print. libtw2 reads and keeps no reel, so the reel is a model beside it, made the plain way: of
//! every TickStart event the board just after it is kept, and a rewind looks for its tick among the last 512 events.

use crate::board::Board;
use crate::expected::has_large_client;
use crate::expected::start;
use crate::run::Answer;
use crate::run::Run;
use libtw2_teehistorian::raw::Item;

/// The reel keeps so many events.
pub const REEL: u64 = 512;

/// How reading ended.
#[derive(Clone, Copy, PartialEq)]
enum End {
    NoVersion,
    /// By any refusal.
    Refused,
    /// By finish, by `too long`, or because as many events had come as were wanted.
    Open,
}

/// A TickStart event, its number among all events (the first is 1), and the board just after it.
struct Start {
    tick: i32,
    event: u64,
    board: Board,
}

/// All that reading has shown.
pub struct Past {
    end: End,
    events: u64,
    starts: Vec<Start>,
}

/// What a rewind answers.
pub enum Rewound<'a> {
    Ended { tick: i32, board: &'a Board },
    Refused(u8),
}

impl Rewound<'_> {
    pub fn text(&self) -> String {
        match self {
            Rewound::Ended { tick, board } => format!("board {tick}\n{board}ended\n"),
            Rewound::Refused(number) => format!("refused {number}\n"),
        }
    }
}

impl Past {
    /// Reads to the end, or until so many events have come.
    pub fn of(input: &[u8], limit: Option<u64>) -> Past {
        let mut past = Past {
            end: End::NoVersion,
            events: 0,
            starts: Vec::new(),
        };
        if let Some(mut run) = start(input) {
            past.end = past.read(&mut run, limit);
        }
        past
    }
    fn read(&mut self, run: &mut Run, limit: Option<u64>) -> End {
        while limit != Some(self.events) {
            let started = match run.call() {
                Answer::Event(event) if has_large_client(&event) => return End::Refused,
                Answer::Event(Item::TickStart(tick)) => Some(tick),
                Answer::Event(_) => None,
                Answer::Refused(_) => return End::Refused,
                Answer::Finish | Answer::Stopped => return End::Open,
            };
            self.events += 1;
            if let Some(tick) = started {
                self.starts.push(Start {
                    tick,
                    event: self.events,
                    board: Board::of(run),
                });
            }
        }
        End::Open
    }
    pub fn rewound(&self, tick: i32) -> Rewound<'_> {
        let mut newest_first = self.starts.iter().rev();
        match self.end {
            End::NoVersion => Rewound::Refused(2),
            End::Refused => Rewound::Refused(18),
            End::Open => match newest_first.find(|start| start.tick == tick) {
                Some(start) if self.on_reel(start) => Rewound::Ended {
                    tick,
                    board: &start.board,
                },
                _ => Rewound::Refused(20),
            },
        }
    }
    /// Whether the event is one of the last 512.
    fn on_reel(&self, start: &Start) -> bool {
        self.events - start.event < REEL
    }
    pub fn is_refused(&self) -> bool {
        self.end != End::Open
    }
    pub fn events(&self) -> u64 {
        self.events
    }
    /// The numbers of the TickStart events, each with its tick.
    pub fn starts(&self) -> Vec<(u64, i32)> {
        let starts = self.starts.iter();
        starts.map(|start| (start.event, start.tick)).collect()
    }
    /// The clients on the board of the newest TickStart.
    pub fn clients(&self) -> Vec<i32> {
        let newest = self.starts.last();
        newest.map_or(Vec::new(), |start| start.board.clients())
    }
    /// The ticks that have left the reel, then those on it, the oldest first.
    pub fn ticks(&self) -> (Vec<i32>, Vec<i32>) {
        let gone = self.starts.iter().take_while(|start| !self.on_reel(start));
        let kept = self.starts.iter().filter(|start| self.on_reel(start));
        (
            gone.map(|start| start.tick).collect(),
            kept.map(|start| start.tick).collect(),
        )
    }
}

#[cfg(test)]
mod tests;
