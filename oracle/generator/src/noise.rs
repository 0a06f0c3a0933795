//! Random bytes, random records, and damage.

use crate::body::Body;
use crate::play;
use crate::play::Style;
use crate::random::Random;

/// Bytes that begin a kind, a small number or a longer one.
const TELLING: [u8; 38] = [
    0x00, 0x01, 0x02, 0x03, 0x04, 0x05, 0x07, 0x0a, 0x10, 0x11, 0x3f, 0x40, 0x41, 0x42, 0x42, 0x42,
    0x43, 0x43, 0x44, 0x45, 0x46, 0x47, 0x48, 0x49, 0x4a, 0x4b, 0x7f, 0x80, 0x81, 0xbf, 0xc0, 0xc1,
    0xff, 0x0f, 0x20, 0x61, 0x00, 0x01,
];

pub fn random(random: &mut Random) -> Vec<u8> {
    let version = random.between(1, 2) as u8;
    let length = random.below(60);
    match random.below(4) {
        0 => [vec![version], random.bytes(length)].concat(),
        1 => [vec![version], telling(length, random)].concat(),
        _ => records(version, random),
    }
}

pub fn telling(length: usize, random: &mut Random) -> Vec<u8> {
    (0..length).map(|_| random.pick(&TELLING)).collect()
}

pub fn sized(size: usize, random: &mut Random) -> Vec<u8> {
    [vec![2], random.bytes(size)].concat()
}

/// Which of a few clients are present and have inputs.
#[derive(Default)]
pub struct Few {
    present: [bool; 4],
    has_input: [bool; 4],
}

/// Records in any order over few clients: mostly such as the board allows.
fn records(version: u8, random: &mut Random) -> Vec<u8> {
    let odd = random.pick(&[0, 10, 2]);
    let mut body = Body::new(version).with_odd_forms(odd, random);
    let mut few = Few::default();
    for _ in 0..random.below(80) {
        body = if random.one_in(60) {
            careless(body, random)
        } else {
            few.careful(body, version, random)
        };
    }
    if random.one_in(2) {
        return body.finish().done();
    }
    body.done()
}

impl Few {
    /// A record that the board allows.
    pub fn careful(&mut self, body: Body, version: u8, random: &mut Random) -> Body {
        let client = random.below(4);
        let number = client as i32;
        match (
            random.below(8),
            self.present[client],
            self.has_input[client],
        ) {
            (0..=2, true, _) => body.player_diff(number, random.number(), random.number()),
            (0..=3, false, _) => {
                self.present[client] = true;
                body.player_new(number, random.number(), random.number())
            }
            (3, true, _) => {
                self.present[client] = false;
                body.player_old(number)
            }
            (4, _, true) => body.input_diff(number, &ten(random)),
            (4 | 5, _, _) => {
                self.has_input[client] = true;
                body.input_new(number, &ten(random))
            }
            (6, _, _) => body.skip(random.between(0, 3)),
            _ => play::talk(body, number, version == 2, random),
        }
    }
}

/// A record of any kind for any client.
pub fn careless(body: Body, random: &mut Random) -> Body {
    let client = random.number();
    match random.below(10) {
        0 => body.player_diff(client, random.number(), random.number()),
        1 => body.player_new(client, random.number(), random.number()),
        2 => body.player_old(client),
        3 => body.input_diff(client, &ten(random)),
        4 => body.input_new(client, &ten(random)),
        5 => body.skip(random.number()),
        6 => body.finish(),
        7 => body.int(random.number()),
        8 => body.raw(&[random.byte()]),
        _ => play::talk(body, client, true, random),
    }
}

fn ten(random: &mut Random) -> [i32; 10] {
    let mut numbers = [0; 10];
    numbers.fill_with(|| random.number());
    numbers
}

pub fn damaged(random: &mut Random) -> Vec<u8> {
    let style = random.pick(&[Style::Match, Style::Moves, Style::Inputs, Style::Chat]);
    let mut input = play::input(style, random);
    for _ in 0..1 + random.below(4) {
        damage(&mut input, 1, random);
    }
    input
}

/// A long match whose last quarter is damaged.
pub fn sized_damaged(size: usize, random: &mut Random) -> Vec<u8> {
    let mut input = play::sized(Style::Match, size, random);
    damage(&mut input, size * 3 / 4, random);
    input
}

/// Changes the input in one way, nowhere before `from`.
pub fn damage(input: &mut Vec<u8>, from: usize, random: &mut Random) {
    if input.len() <= from {
        return;
    }
    let at = from + random.below(input.len() - from);
    let end = at + random.below((input.len() - at).min(20)) + 1;
    match random.below(8) {
        0 => input[at] ^= 1 << random.below(8),
        1 => input[at] = random.byte(),
        2 => input[at] = random.pick(&TELLING),
        3 => drop(input.drain(at..end)),
        4 => {
            let count = 1 + random.below(3);
            input.splice(at..at, telling(count, random));
        }
        5 => input.truncate(at),
        6 => {
            let copy = input[at..end].to_vec();
            let target = from + random.below(input.len() - from);
            input.splice(target..target, copy);
        }
        _ => input[at..end].reverse(),
    }
}
