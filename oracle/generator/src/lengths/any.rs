//! Negative lengths behind other records, mostly such as the board allows.

use super::any_form;
use super::Head;
use super::WINDOW;
use crate::body::Body;
use crate::extension::EXTENSIONS;
use crate::integer;
use crate::integer::TELLING;
use crate::noise;
use crate::noise::Few;
use crate::random::Random;

pub fn input(random: &mut Random) -> Vec<u8> {
    let version = if random.one_in(5) { 1 } else { 2 };
    let odd = random.pick(&[0, 0, 10, 2]);
    let size = match random.below(20) {
        0 => random.below(3000),
        1..=6 => random.below(300),
        _ => random.below(40),
    };
    let empty = Body::new(version).with_odd_forms(odd, random);
    let mut body = records(empty, version, size, random);
    if random.one_in(12) {
        body = noise::careless(body, random);
    }
    let length = length(random);
    let mut head = head(version, length, odd, random);
    let mut input = match random.below(8) {
        0 => {
            head.truncate(random.below(head.len()));
            body.raw(&head).done()
        }
        1 => body.raw(&head[..head.len() - 1]).done(),
        _ => behind(body.raw(&head), version, length, random),
    };
    if random.one_in(12) {
        noise::damage(&mut input, 1, random);
    }
    input
}

/// Records up to a size.
pub fn records(mut body: Body, version: u8, size: usize, random: &mut Random) -> Body {
    let mut few = Few::default();
    while body.len() < size {
        body = few.careful(body, version, random);
    }
    body
}

/// Mostly negative.
fn length(random: &mut Random) -> i32 {
    match random.below(10) {
        0 | 1 => -1,
        2 => random.pick(&TELLING),
        3 => random.between(i32::MIN, -1),
        4 => random.between(-9000, -1),
        5 => random.pick(&[-64, -65, -8192, -8193, i32::MIN]),
        6 => random.between(0, 70),
        _ => random.between(-70, -1),
    }
}

/// A record up to its length, which is in any form.
fn head(version: u8, length: i32, odd: usize, random: &mut Random) -> Vec<u8> {
    let extensions = version == 2 || random.one_in(20);
    let head = match random.below(4) {
        0 if extensions => {
            let identifier = random.bytes(16);
            Head::Extension(identifier.try_into().expect("16 bytes"))
        }
        1 if extensions => {
            let chosen = random.below(EXTENSIONS.len());
            Head::Extension(EXTENSIONS[chosen].identifier)
        }
        _ => Head::Message(random.number()),
    };
    let form = if random.one_in(2) {
        any_form(length, random)
    } else {
        integer::plain(length)
    };
    let empty = Body::bare().with_odd_forms(odd, random);
    head.add(empty).raw(&form).done()
}

/// Nothing, a few bytes, other records, as many bytes as the length has without its sign; now and then as many as a window.
fn behind(body: Body, version: u8, length: i32, random: &mut Random) -> Vec<u8> {
    let few = random.below(20);
    let size = body.len() + random.below(60);
    match random.below(12) {
        0 | 1 => body.done(),
        2 => body.raw(&random.bytes(few)).done(),
        3 => body.raw(&noise::telling(few, random)).done(),
        4 | 5 => {
            let count = (length.unsigned_abs() as usize).min(300);
            let data = random.bytes(count);
            body.raw(&data).join(1).finish().done()
        }
        6 => body.finish().done(),
        7 if random.one_in(10) => {
            let byte = random.byte();
            let count = match random.below(3) {
                0 => random.below(2 * WINDOW),
                _ => WINDOW - 30 + random.below(32),
            };
            body.raw(&vec![byte; count]).done()
        }
        _ => records(body, version, size, random).finish().done(),
    }
}
