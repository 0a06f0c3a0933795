//! A few players, in any order of their clients, with a TickSkip for every second to fifth record.

use crate::body::Body;
use crate::noise;
use crate::play;
use crate::random::Random;

const PLAYERS: usize = 5;

struct Walk {
    body: Body,
    version: u8,
    /// The clients from this one on take part.
    first: i32,
    present: [bool; PLAYERS],
    /// One record in this many is a TickSkip.
    skips: usize,
}

pub fn input(random: &mut Random) -> Vec<u8> {
    let size = match random.below(20) {
        0 => random.below(4000),
        1..=6 => random.below(400),
        _ => random.below(80),
    };
    let odd = random.pick(&[0, 0, 10, 2]);
    let version = random.between(1, 2) as u8;
    let empty = Body::new(version).with_odd_forms(odd, random);
    let mut walk = Walk::new(empty, version, random);
    walk.until(size, random);
    if random.one_in(12) {
        walk.change(|body| noise::careless(body, random));
    }
    if !random.one_in(4) {
        walk.change(Body::finish);
    }
    let mut input = walk.body.done();
    if random.one_in(12) {
        noise::damage(&mut input, 1, random);
    }
    input
}

pub fn sized(size: usize, random: &mut Random) -> Vec<u8> {
    let mut walk = Walk::new(Body::new(2), 2, random);
    walk.until(size, random);
    walk.body.finish().done()
}

impl Walk {
    fn new(body: Body, version: u8, random: &mut Random) -> Walk {
        Walk {
            body,
            version,
            first: random.pick(&[0, 0, 0, 60, 123]),
            present: [false; PLAYERS],
            skips: random.pick(&[2, 3, 5]),
        }
    }
    fn change(&mut self, f: impl FnOnce(Body) -> Body) {
        let body = std::mem::replace(&mut self.body, Body::bare());
        self.body = f(body);
    }
    fn until(&mut self, size: usize, random: &mut Random) {
        while self.body.len() < size {
            self.record(random);
        }
    }
    fn record(&mut self, random: &mut Random) {
        if random.one_in(self.skips) {
            let dt = match random.below(12) {
                0 => random.between(0, 300),
                _ => random.between(0, 2),
            };
            self.change(|body| body.skip(dt));
        } else if random.one_in(6) {
            let client = random.between(0, 127);
            let extensions = self.version == 2;
            self.change(|body| play::talk(body, client, extensions, random));
        } else {
            self.player(random.below(PLAYERS), random);
        }
    }
    /// What the board allows of a player.
    fn player(&mut self, place: usize, random: &mut Random) {
        let client = self.first + place as i32;
        let here = self.present[place];
        let leaves = random.one_in(5);
        self.present[place] = !(here && leaves);
        self.change(|body| match here {
            false => body.player_new(client, random.number(), random.number()),
            true if leaves => body.player_old(client),
            true => body.player_diff(client, random.number(), random.number()),
        });
    }
}
