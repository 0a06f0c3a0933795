//! The limits of the results list, each by hand.

mod refusals;
mod windows;

use crate::body::Body;
use crate::extension;
use crate::extension::PLAYER_FINISH;
use crate::integer;
use crate::record::EXTENSION;
pub use refusals::refused;

const LEAST: i32 = i32::MIN;
const MOST: i32 = i32::MAX;

const CLIENTS: [i32; 15] = [
    LEAST, -129, -128, -2, -1, 0, 1, 63, 64, 126, 127, 128, 129, 256, MOST,
];
const TIMES: [i32; 11] = [LEAST, LEAST + 1, -65, -2, -1, 0, 1, 64, 65, MOST - 1, MOST];

pub fn inputs() -> Vec<Vec<u8>> {
    let bodies = [
        clients(),
        times(),
        equal(),
        ticks(),
        lowest(),
        payloads(),
        identifiers(),
        refusals::bodies(),
        windows::bodies(),
    ];
    let mut list: Vec<Vec<u8>> = bodies.into_iter().flatten().map(Body::done).collect();
    list.extend([vec![], vec![0], vec![3, 0x40], vec![0xff]]);
    list.push([vec![3], new().player_finish(0, 0).finish().done()].concat());
    list.extend(refusals::cuts());
    list
}

fn new() -> Body {
    Body::new(2)
}

/// Finishes, all in one tick.
fn of(finishes: &[(i32, i32)]) -> Body {
    let add = |body: Body, &(client, time): &(i32, i32)| body.player_finish(client, time);
    finishes.iter().fold(new(), add)
}

/// Finishes, each in a tick of its own, from 0 on.
fn in_ticks(finishes: &[(i32, i32)]) -> Body {
    let add = |body: Body, &(client, time): &(i32, i32)| body.player_finish(client, time).skip(0);
    finishes.iter().fold(new(), add)
}

fn clients() -> Vec<Body> {
    let mut list = vec![new(), new().finish(), Body::new(1), Body::new(1).finish()];
    for client in CLIENTS {
        list.push(of(&[(client, 10)]).finish());
        list.push(Body::new(1).join(3).player_finish(client, 10).finish());
        list.push(in_ticks(&[(client, 10), (client, 9), (client, 11)]).finish());
        // beside clients whose rows it must not touch
        list.push(of(&[(0, 5), (127, 6), (client, 4), (0, 7), (127, 5)]).finish());
    }
    list.push(of(&CLIENTS.map(|client| (client, 10))).finish());
    list.push(of(&CLIENTS.map(|client| (client, client))).finish());
    list.push(of(&CLIENTS.map(|client| (client, -1 - client))).finish());
    list.extend(everyone());
    list
}

/// All clients from -3 to 130.
fn everyone() -> Vec<Body> {
    let all = -3..=130;
    let rising: Vec<(i32, i32)> = all.clone().map(|client| (client, client)).collect();
    let falling: Vec<(i32, i32)> = all.clone().map(|client| (client, -client)).collect();
    let one: Vec<(i32, i32)> = all.clone().map(|client| (client, 7)).collect();
    let mixed: Vec<(i32, i32)> = all.map(|client| (client, client * 37 % 11)).collect();
    let mut list = Vec::new();
    for finishes in [rising, falling, one, mixed] {
        let back: Vec<(i32, i32)> = finishes.iter().rev().copied().collect();
        list.push(of(&finishes).finish());
        list.push(in_ticks(&back).finish());
        list.push(in_ticks(&[finishes, back].concat()).finish());
    }
    list
}

/// Each pair of times: of one client and of two, in one tick and in two.
fn times() -> Vec<Body> {
    let mut list = Vec::new();
    for first in TIMES {
        list.push(of(&[(5, first)]).finish());
        for second in TIMES {
            list.push(in_ticks(&[(5, first), (5, second)]).finish());
            list.push(of(&[(5, first), (4, second)]).finish());
        }
    }
    list.push(of(&TIMES.map(|time| (9, time))).finish());
    list.push(in_ticks(&TIMES.map(|time| (9, -1 - time))).finish());
    list
}

/// A repeated time keeps the earlier record.
fn equal() -> Vec<Body> {
    let mut list = Vec::new();
    for time in TIMES {
        let worse = time.saturating_add(1);
        list.push(of(&[(5, time), (5, time)]).finish());
        list.push(in_ticks(&[(5, time), (5, time), (5, time)]).finish());
        list.push(in_ticks(&[(5, worse), (5, time), (5, worse), (5, time)]).finish());
        list.push(in_ticks(&[(5, time), (6, time), (5, worse), (6, time)]).finish());
        list.push(in_ticks(&[(127, time), (0, time), (126, time), (1, time)]).finish());
    }
    list
}

fn one(body: Body) -> Body {
    body.player_finish(3, 50)
}

/// The tick is the one that is open at the record: ticks that TickSkips and players end. The clients of finishes end none.
fn ticks() -> Vec<Body> {
    vec![
        one(new()).finish(),
        one(new().skip(0)).finish(),
        one(new().skip(0).skip(0)).finish(),
        one(new().join(0).skip(0)).finish(),
        one(new().join(0).skip(5).skip(5)).finish(),
        one(one(new()).skip(0)).finish(),
        one(one(new().skip(7))).finish(),
        one(new().player_new(5, 0, 0).player_diff(5, 1, 1)).finish(),
        one(new().player_new(5, 0, 0)).player_new(6, 0, 0).finish(),
        one(new().player_new(2, 0, 0)).player_diff(2, 1, 1).finish(),
        one(new().player_new(2, 0, 0).player_new(1, 0, 0)).finish(),
        one(new().player_new(5, 0, 0).skip(0).player_new(2, 0, 0)).finish(),
        one(new().player_new(5, 0, 0).skip(0))
            .player_new(2, 0, 0)
            .finish(),
        new()
            .player_new(3, 0, 0)
            .player_finish(3, 9)
            .player_old(3)
            .player_finish(3, 8)
            .finish(),
        new()
            .player_finish(3, 9)
            .drop(3, b"")
            .player_finish(3, 8)
            .finish(),
    ]
}

/// The tick of the lowest, not of the first or the last; the largest tick; finishes behind the end.
fn lowest() -> Vec<Body> {
    vec![
        in_ticks(&[(3, 9), (3, 7), (3, 8)]).finish(),
        in_ticks(&[(3, 7), (3, 9), (3, 8)]).finish(),
        in_ticks(&[(3, 9), (3, 8), (3, 7)]).finish(),
        one(new().skip(MOST - 1)).finish(),
        one(one(new()).skip(MOST - 1)).finish(),
        one(new().skip(MOST - 1)).player_finish(3, 49).finish(),
        one(new()).finish().player_finish(3, 1).finish(),
        one(new()).finish().raw(&[0x80]),
    ]
}

/// Spare bytes, cut payloads, lengths that don't fit and every form of a number.
fn payloads() -> Vec<Body> {
    let payload = Body::bare().ints(&[1000, -1000]).done();
    let before = || new().player_finish(8, 20).skip(0);
    let mut list = Vec::new();
    for spare in [&[0x40][..], &[0x80], &[0, 0, 0], &[0xff; 40]] {
        let longer = [&[3, 9], spare].concat();
        list.push(
            before()
                .extension(PLAYER_FINISH, &longer)
                .player_finish(8, 19)
                .finish(),
        );
    }
    for end in 0..payload.len() {
        list.push(
            before()
                .extension(PLAYER_FINISH, &payload[..end])
                .player_finish(8, 19)
                .finish(),
        );
    }
    for length in [-1, LEAST, 1, 2, 3, 100, MOST] {
        let begun = before().int(EXTENSION).raw(PLAYER_FINISH).int(length);
        list.push(begun.raw(&[3, 9]).player_finish(8, 19).finish());
    }
    for number in [0, 5, -1, 64, 127, 128, LEAST, MOST] {
        for form in integer::forms(number) {
            let as_client = [&form[..], &[9]].concat();
            let as_time = [&[3], &form[..]].concat();
            list.push(before().extension(PLAYER_FINISH, &as_client).finish());
            list.push(before().extension(PLAYER_FINISH, &as_time).finish());
        }
    }
    list
}

/// Extensions that are like PlayerFinish but for the identifier.
fn identifiers() -> Vec<Body> {
    let around = |identifier: &[u8; 16]| {
        let begun = new().player_finish(3, 9).skip(0);
        let same_shape = begun
            .extension(identifier, &[3, 5])
            .extension(identifier, &[4, 5]);
        same_shape
            .extension(identifier, &[0x40, 5])
            .player_finish(3, 8)
            .finish()
    };
    let near = (0..16).map(|at| {
        let mut changed = *PLAYER_FINISH;
        changed[at] ^= 1 << (at % 8);
        around(&changed)
    });
    let like = extension::like_finish().into_iter().map(around);
    near.chain(like).collect()
}
