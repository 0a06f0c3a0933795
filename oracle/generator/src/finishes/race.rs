//! Races: a few clients that finish again and again, with other records between.

use crate::body::Body;
use crate::extension;
use crate::extension::PLAYER_FINISH;
use crate::finishes::limits;
use crate::integer::TELLING;
use crate::noise;
use crate::noise::Few;
use crate::play;
use crate::random::Random;

const WINDOW: usize = 65536;

/// Which times come.
enum Times {
    /// Of a few, so that many are equal.
    Few(Vec<i32>),
    /// From the last one, so far up or down at most.
    Step(i32, i32),
    Any,
}

pub struct Race {
    body: Body,
    version: u8,
    clients: Vec<i32>,
    times: Times,
    last: i32,
    /// One integer in this many inside a payload is not plain; 0 for none.
    odd: usize,
    players: Few,
}

pub fn input(random: &mut Random) -> Vec<u8> {
    let version = if random.one_in(12) { 1 } else { 2 };
    let size = match random.below(60) {
        0 => WINDOW / 2 + random.below(2 * WINDOW),
        1..=15 => random.below(4000),
        _ => random.below(500),
    };
    let odd = random.pick(&[0, 0, 0, 20, 3]);
    let mut race = Race::new(version, odd, random);
    race.until(size, random);
    end(race, random)
}

/// Whole, cut, damaged, or with trouble and more of the race behind it.
fn end(mut race: Race, random: &mut Random) -> Vec<u8> {
    match random.below(8) {
        0 => {
            let mut input = race.finished();
            input.truncate(1 + random.below(input.len()));
            input
        }
        1 => {
            let mut input = race.finished();
            let from = input.len() / 2;
            noise::damage(&mut input, from, random);
            input
        }
        2 | 3 => {
            race.trouble(random);
            let size = race.body.len() + random.below(200);
            race.until(size, random);
            race.finished()
        }
        _ => race.finished(),
    }
}

impl Race {
    pub fn new(version: u8, odd: usize, random: &mut Random) -> Race {
        Race {
            body: Body::new(version).with_odd_forms(odd, random),
            version,
            clients: clients(random),
            times: times(random),
            last: random.pick(&[0, 0, 1000, 100000, i32::MIN, i32::MAX]),
            odd,
            players: Few::default(),
        }
    }
    pub fn until(&mut self, size: usize, random: &mut Random) {
        while self.body.len() < size {
            self.record(random);
        }
    }
    pub fn finished(self) -> Vec<u8> {
        self.body.finish().done()
    }
    fn change(&mut self, f: impl FnOnce(Body) -> Body) {
        let body = std::mem::replace(&mut self.body, Body::bare());
        self.body = f(body);
    }
    fn record(&mut self, random: &mut Random) {
        let finishes = self.version == 2 || random.one_in(100);
        match random.below(16) {
            0..=7 if finishes => self.finish(PLAYER_FINISH, random),
            8 if finishes => {
                let identifier = random.pick(&extension::like_finish());
                self.finish(identifier, random);
            }
            9 => self.talk(random),
            10 | 11 => {
                let dt = random.pick(&[0, 0, 0, 1, 50, 3000]);
                self.change(|body| body.skip(dt));
            }
            _ => self.player(random),
        }
    }
    fn finish(&mut self, identifier: &[u8; 16], random: &mut Random) {
        let client = random.pick(&self.clients);
        let time = self.time(random);
        let numbers = Body::bare().with_odd_forms(self.odd, random);
        let payload = numbers.ints(&[client, time]).done();
        let spare = if random.one_in(12) {
            random.below(6)
        } else {
            0
        };
        let spare = random.bytes(spare);
        self.change(|body| body.extension(identifier, &[payload, spare].concat()));
    }
    fn time(&mut self, random: &mut Random) -> i32 {
        self.last = match &self.times {
            Times::Few(few) => random.pick(few),
            Times::Step(least, most) => self.last.wrapping_add(random.between(*least, *most)),
            Times::Any => random.number(),
        };
        self.last
    }
    fn talk(&mut self, random: &mut Random) {
        let client = random.pick(&self.clients);
        let extensions = self.version == 2;
        self.change(|body| play::talk(body, client, extensions, random));
    }
    fn player(&mut self, random: &mut Random) {
        let body = std::mem::replace(&mut self.body, Body::bare());
        self.body = self.players.careful(body, self.version, random);
    }
    /// Mostly a refusal.
    fn trouble(&mut self, random: &mut Random) {
        match random.below(6) {
            0 => {
                let payload = random.bytes(1);
                self.change(|body| body.extension(PLAYER_FINISH, &payload));
            }
            1 => self.change(|body| noise::careless(body, random)),
            _ => {
                let refused = limits::refused();
                let chosen = random.below(refused.len());
                self.change(|body| body.raw(&refused[chosen]));
            }
        }
    }
}

fn clients(random: &mut Random) -> Vec<i32> {
    match random.below(6) {
        0 => vec![i32::MIN, -129, -1, 0, 1, 126, 127, 128, 129, 255, i32::MAX],
        1 => (-2..130).collect(),
        2 => (120..132).collect(),
        3 => (0..128).collect(),
        4 => vec![random.between(0, 127)],
        _ => (0..2 + random.below(6))
            .map(|_| random.between(-1, 128))
            .collect(),
    }
}

fn times(random: &mut Random) -> Times {
    match random.below(6) {
        0 => Times::Few(vec![random.number()]),
        1 => Times::Few((0..2 + random.below(4)).map(|_| random.number()).collect()),
        2 => Times::Few(TELLING.to_vec()),
        3 => Times::Step(-3, 0),
        4 => Times::Step(0, 3),
        _ => Times::Any,
    }
}
