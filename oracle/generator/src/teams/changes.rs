//! A few clients that change their teams again and again, with other records between.

use crate::body::Body;
use crate::extension;
use crate::extension::PLAYER_TEAM;
use crate::finishes;
use crate::integer::TELLING;
use crate::noise;
use crate::noise::Few;
use crate::play;
use crate::random::Random;

/// Which teams come.
enum Numbers {
    /// Of a few, so that many are equal.
    Few(Vec<i32>),
    /// One more each time, so that the former is always another.
    Next(i32),
    Any,
}

pub struct Changes {
    body: Body,
    version: u8,
    clients: Vec<i32>,
    numbers: Numbers,
    /// One integer in this many inside a payload is not plain; 0 for none.
    odd: usize,
    /// One record in this many is a PlayerTeam.
    teams: usize,
    players: Few,
}

/// One in ten has about as many events as a reel keeps, or more.
pub fn input(random: &mut Random) -> Vec<u8> {
    let version = if random.one_in(12) { 1 } else { 2 };
    let size = match random.below(40) {
        0..=3 => 4000 + random.below(6000),
        4..=10 => random.below(3000),
        _ => random.below(400),
    };
    let odd = random.pick(&[0, 0, 0, 20, 3]);
    let mut changes = Changes::new(version, odd, random);
    changes.until(size, random);
    changes.ended(random)
}

impl Changes {
    pub fn new(version: u8, odd: usize, random: &mut Random) -> Changes {
        Changes {
            body: Body::new(version).with_odd_forms(odd, random),
            version,
            clients: clients(random),
            numbers: numbers(random),
            odd,
            teams: random.pick(&[2, 3, 5]),
            players: Few::default(),
        }
    }
    pub fn until(&mut self, size: usize, random: &mut Random) {
        while self.body.len() < size {
            self.record(random);
        }
    }
    pub fn finished(self) -> Vec<u8> {
        self.body.finish().done()
    }
    /// Whole, without its end, cut, damaged, or with trouble and more of the same behind it.
    fn ended(mut self, random: &mut Random) -> Vec<u8> {
        match random.below(10) {
            0 => {
                let mut input = self.finished();
                input.truncate(1 + random.below(input.len()));
                input
            }
            1 => {
                let mut input = self.finished();
                let from = input.len() / 2;
                noise::damage(&mut input, from, random);
                input
            }
            2 => {
                self.trouble(random);
                let size = self.body.len() + random.below(200);
                self.until(size, random);
                self.finished()
            }
            3 | 4 => self.body.done(),
            _ => self.finished(),
        }
    }
    fn change(&mut self, f: impl FnOnce(Body) -> Body) {
        let body = std::mem::replace(&mut self.body, Body::bare());
        self.body = f(body);
    }
    /// A PlayerTeam also begins ticks: behind a TickSkip, and where the body does.
    fn record(&mut self, random: &mut Random) {
        if random.one_in(self.teams) && (self.version == 2 || random.one_in(100)) {
            return self.team(PLAYER_TEAM, random);
        }
        match random.below(16) {
            0 if self.version == 2 => {
                let identifier = random.pick(&extension::like_team());
                self.team(identifier, random);
            }
            1 => self.talk(random),
            2..=4 => {
                let dt = random.pick(&[0, 0, 0, 1, 50, 3000]);
                self.change(|body| body.skip(dt));
            }
            _ => self.player(random),
        }
    }
    fn team(&mut self, identifier: &[u8; 16], random: &mut Random) {
        let client = random.pick(&self.clients);
        let number = self.number(random);
        let numbers = Body::bare().with_odd_forms(self.odd, random);
        let payload = numbers.ints(&[client, number]).done();
        let spare = if random.one_in(16) {
            random.below(6)
        } else {
            0
        };
        let spare = random.bytes(spare);
        self.change(|body| body.extension(identifier, &[payload, spare].concat()));
    }
    fn number(&mut self, random: &mut Random) -> i32 {
        match &mut self.numbers {
            Numbers::Few(few) => random.pick(few),
            Numbers::Next(last) => {
                *last = last.wrapping_add(1);
                *last
            }
            Numbers::Any => random.number(),
        }
    }
    fn talk(&mut self, random: &mut Random) {
        let client = random.pick(&self.clients);
        let extensions = self.version == 2;
        self.change(|body| play::talk(body, client, extensions, random));
    }
    /// A client 0 to 3 comes, moves, goes or acts.
    fn player(&mut self, random: &mut Random) {
        let body = std::mem::replace(&mut self.body, Body::bare());
        self.body = self.players.careful(body, self.version, random);
    }
    /// Mostly a refusal.
    fn trouble(&mut self, random: &mut Random) {
        match random.below(6) {
            0 => {
                let payload = random.bytes(1);
                self.change(|body| body.extension(PLAYER_TEAM, &payload));
            }
            1 => self.change(|body| noise::careless(body, random)),
            _ => {
                let refused = finishes::refused();
                let chosen = random.below(refused.len());
                self.change(|body| body.raw(&refused[chosen]));
            }
        }
    }
}

/// Mostly those that players have, 0 to 3.
fn clients(random: &mut Random) -> Vec<i32> {
    match random.below(8) {
        0 => vec![i32::MIN, -129, -1, 0, 1, 126, 127, 128, 129, 255, i32::MAX],
        1 => (-2..130).collect(),
        2 => (120..132).collect(),
        3 => vec![random.between(0, 3)],
        4 => vec![0, 1, 2, 3, random.between(-2, 130), random.number()],
        _ => (0..4).collect(),
    }
}

fn numbers(random: &mut Random) -> Numbers {
    match random.below(8) {
        0 => Numbers::Few(vec![random.number()]),
        1 => Numbers::Few(TELLING.to_vec()),
        2 => Numbers::Few(vec![i32::MIN, i32::MAX, 0]),
        3 | 4 => Numbers::Next(random.pick(&[0, 0, -3, 60, i32::MAX - 3])),
        5 => Numbers::Any,
        _ => Numbers::Few((0..2 + random.below(62) as i32).collect()),
    }
}
